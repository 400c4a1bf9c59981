/*
 * Put before the C library (LD_PRELOAD), it makes of each interface one with a clock of its own, which shows what that of
 * the system does, and whose stamps of what was sent come LATE milliseconds after it was sent.
 */
#define _DEFAULT_SOURCE
#include <errno.h>
#include <stdarg.h>
#include <stdbool.h>
#include <string.h>
#include <sys/socket.h>
#include <sys/syscall.h>
#include <time.h>
#include <unistd.h>
#include <linux/errqueue.h>
#include <linux/net_tstamp.h>
#include <linux/sockios.h>

#define LATE 30

static long long sent_at;

static long long milliseconds(void)
{
    struct timespec now = {0, 0};
    clock_gettime(CLOCK_MONOTONIC, &now);
    return (long long)now.tv_sec * 1000 + now.tv_nsec / 1000000;
}

/* The interface grants the stamps that it is asked for. */
int ioctl(int fd, unsigned long request, ...)
{
    va_list rest;
    va_start(rest, request);
    void *argument = va_arg(rest, void *);
    va_end(rest);
    return request == SIOCSHWTSTAMP ? 0 : (int)syscall(SYS_ioctl, fd, request, argument);
}

/* The kernel makes them. */
int setsockopt(int fd, int level, int name, const void *value, socklen_t length)
{
    static const int flags = SOF_TIMESTAMPING_SOFTWARE | SOF_TIMESTAMPING_RX_SOFTWARE | SOF_TIMESTAMPING_TX_SOFTWARE;
    const bool is_asked = level == SOL_SOCKET && name == SO_TIMESTAMPING;
    return (int)syscall(SYS_setsockopt, fd, level, name, is_asked ? &flags : value, length);
}

ssize_t sendto(int fd, const void *octets, size_t length, int flags, const struct sockaddr *to, socklen_t size)
{
    sent_at = milliseconds();
    return syscall(SYS_sendto, fd, octets, length, flags, to, size);
}

/* Stamps stand in the third place, where those of an interface do. */
ssize_t recvmsg(int fd, struct msghdr *message, int flags)
{
    if ((flags & MSG_ERRQUEUE) != 0 && milliseconds() < sent_at + LATE) {
        errno = EAGAIN;
        return -1;
    }
    const ssize_t count = syscall(SYS_recvmsg, fd, message, flags);
    for (struct cmsghdr *at = CMSG_FIRSTHDR(message); at != NULL && count >= 0; at = CMSG_NXTHDR(message, at))
        if (at->cmsg_level == SOL_SOCKET && at->cmsg_type == SCM_TIMESTAMPING) {
            struct scm_timestamping stamps;
            memcpy(&stamps, CMSG_DATA(at), sizeof stamps);
            stamps.ts[2] = stamps.ts[0];
            memset(&stamps.ts[0], 0, sizeof stamps.ts[0]);
            memcpy(CMSG_DATA(at), &stamps, sizeof stamps);
        }
    return count;
}
