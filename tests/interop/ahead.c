/*
 * Put before the C library (LD_PRELOAD), it makes all time stamps of messages, and the system's clock, an hour ahead.
 */
#define _DEFAULT_SOURCE
#include <string.h>
#include <sys/socket.h>
#include <sys/syscall.h>
#include <time.h>
#include <unistd.h>
#include <linux/errqueue.h>

#define AHEAD 3600

int clock_gettime(clockid_t clock, struct timespec *now)
{
    const int status = (int)syscall(SYS_clock_gettime, clock, now);
    if (status == 0 && clock == CLOCK_REALTIME)
        now->tv_sec += AHEAD;
    return status;
}

ssize_t recvmsg(int fd, struct msghdr *message, int flags)
{
    const ssize_t count = syscall(SYS_recvmsg, fd, message, flags);
    for (struct cmsghdr *at = CMSG_FIRSTHDR(message); at != NULL && count >= 0; at = CMSG_NXTHDR(message, at))
        if (at->cmsg_level == SOL_SOCKET && at->cmsg_type == SCM_TIMESTAMPING) {
            struct scm_timestamping stamps;
            memcpy(&stamps, CMSG_DATA(at), sizeof stamps);
            for (int n = 0; n < 3; n++)
                if (stamps.ts[n].tv_sec != 0)
                    stamps.ts[n].tv_sec += AHEAD;
            memcpy(CMSG_DATA(at), &stamps, sizeof stamps);
        }
    return count;
}
