/*
 * An interface of Linux on which PTP is spoken, over UDP (ports 319 and 320, group 224.0.1.129) or over Ethernet (type
 * 88f7), with time stamps of the interface or of the kernel. What master.c, slave.c and clock.c share.
 */
#ifndef NET_H
#define NET_H

#include <errno.h>
#include <net/if.h>
#include <netinet/in.h>
#include <poll.h>
#include <stdio.h>
#include <stdlib.h>
#include <string.h>
#include <sys/ioctl.h>
#include <sys/socket.h>
#include <time.h>
#include <unistd.h>
#include <linux/errqueue.h>
#include <linux/filter.h>
#include <linux/if_ether.h>
#include <linux/if_packet.h>
#include <linux/net_tstamp.h>
#include <linux/sockios.h>

#include "ptpx.h"

#define GROUP_OF_ALL 0xE0000181u /* 224.0.1.129 */
#define STAMP_WAIT 100           /* for how many milliseconds the stamp of what was sent is awaited */

enum { EVENT_PORT = 319, GENERAL_PORT = 320 };
enum { ANNOUNCE = 11, ANNOUNCE_LENGTH = 64, UNICAST_FLAG = 4, UNICAST_INTERVAL = 0x7f };

/* Which stamps are asked for: of the interface where it has a clock, of the kernel, or these of what comes alone. */
enum stamps { STAMPS_OF_INTERFACE, STAMPS_OF_KERNEL, STAMPS_OF_ARRIVALS };

union address { struct sockaddr any; struct sockaddr_in internet; struct sockaddr_ll link; };

struct interface {
    const char *name;
    unsigned index;
    bool is_ethernet;
    bool is_hardware;              /* whether stamps are of the interface's clock, which isn't that of the system */
    struct ptpx_identity identity; /* the interface's address with ff-fe in the middle, and port 1 */
    union address all;             /* the group to which all listen */
    int event, general;            /* sockets of the two kinds of messages */
};

/* A message that came, or the copy of one that was sent, with its time stamp, where it has one. */
struct arrival {
    uint8_t octets[1536];
    size_t length;
    union address from;
    bool is_stamped;
    struct ptpx_time stamp;
};

static inline void fail(const char *what)
{
    perror(what);
    exit(1);
}

static inline void must(uint16_t refusal)
{
    if (refusal != PTPX_DONE) {
        fprintf(stderr, "refused %d: %s\n", refusal, ptpx_error_text(refusal));
        exit(1);
    }
}

/* By a clock that nobody sets, and that goes on while the system sleeps. */
static inline int64_t milliseconds(void)
{
    struct timespec now = {0, 0};
    if (clock_gettime(CLOCK_BOOTTIME, &now) != 0)
        fail("clock_gettime");
    return (int64_t)now.tv_sec * 1000 + now.tv_nsec / 1000000;
}

/* Whether there is a stamp: the kernel writes 0 where there is none, and the library would take that for a time. */
static inline bool moment_of(struct timespec stamp, struct ptpx_time *moment)
{
    return (stamp.tv_sec != 0 || stamp.tv_nsec != 0) && ptpx_time_of_timespec(&stamp, moment) == PTPX_DONE;
}

/* What the clock shows by which the kernel stamps. */
static inline struct ptpx_time time_of_kernel(void)
{
    struct timespec now = {0, 0};
    struct ptpx_time moment = {0, 0};
    if (clock_gettime(CLOCK_REALTIME, &now) != 0 || !moment_of(now, &moment))
        fail("clock_gettime");
    return moment;
}

/* Whether this is PTP of version 2, of this domain, and of majorSdoId 0, at which the library doesn't look. */
static inline bool is_for(const struct arrival *it, uint8_t domain)
{
    return it->length >= 34 && it->octets[0] >> 4 == 0 && (it->octets[1] & 0x0f) == 2 && it->octets[4] == domain;
}

static inline int udp_socket(struct interface *net, uint16_t port)
{
    const int no = 0;
    const struct sockaddr_in own = {.sin_family = AF_INET, .sin_port = htons(port)};
    const struct in_addr all = {htonl(GROUP_OF_ALL)};
    const struct ip_mreqn group = {.imr_multiaddr = all, .imr_ifindex = (int)net->index};
    const int fd = socket(AF_INET, SOCK_DGRAM, 0);
    net->all.internet = (struct sockaddr_in){.sin_family = AF_INET, .sin_addr = all};
    if (fd < 0 || setsockopt(fd, SOL_SOCKET, SO_BINDTODEVICE, net->name, (socklen_t)strlen(net->name)) != 0
        || bind(fd, (const struct sockaddr *)&own, sizeof own) != 0
        || setsockopt(fd, IPPROTO_IP, IP_ADD_MEMBERSHIP, &group, sizeof group) != 0
        || setsockopt(fd, IPPROTO_IP, IP_MULTICAST_IF, &group, sizeof group) != 0
        || setsockopt(fd, IPPROTO_IP, IP_MULTICAST_LOOP, &no, sizeof no) != 0)
        fail(net->name);
    return fd;
}

/* Ethernet has no ports: one socket gets messageType 0 to 7, which are event messages, and the other one the rest. */
static inline int ethernet_socket(struct interface *net, bool is_event)
{
    struct sock_filter steps[] = {
        BPF_STMT(BPF_LD | BPF_B | BPF_ABS, 0),
        BPF_JUMP(BPF_JMP | BPF_JSET | BPF_K, 8, (uint8_t)is_event, (uint8_t)!is_event),
        BPF_STMT(BPF_RET | BPF_K, 0xffff),
        BPF_STMT(BPF_RET | BPF_K, 0),
    };
    const struct sock_fprog filter = {sizeof steps / sizeof steps[0], steps};
    const struct packet_mreq group = {(int)net->index, PACKET_MR_MULTICAST, ETH_ALEN, {0x01, 0x1b, 0x19, 0, 0, 0}};
    const int fd = socket(AF_PACKET, SOCK_DGRAM, 0);
    net->all.link = (struct sockaddr_ll){.sll_family = AF_PACKET, .sll_protocol = htons(ETH_P_1588),
                                         .sll_ifindex = (int)net->index, .sll_halen = ETH_ALEN};
    memcpy(net->all.link.sll_addr, group.mr_address, ETH_ALEN);
    if (fd < 0 || setsockopt(fd, SOL_SOCKET, SO_ATTACH_FILTER, &filter, sizeof filter) != 0
        || bind(fd, &net->all.any, sizeof net->all.link) != 0
        || setsockopt(fd, SOL_PACKET, PACKET_ADD_MEMBERSHIP, &group, sizeof group) != 0)
        fail(net->name);
    return fd;
}

/* Asks for stamps of event messages, of the interface where that is wanted and where it has them. */
static inline void ask_for_stamps(struct interface *net, enum stamps stamps)
{
    struct hwtstamp_config wanted = {0, HWTSTAMP_TX_ON, HWTSTAMP_FILTER_PTP_V2_EVENT};
    struct ifreq request = {.ifr_data = (char *)&wanted};
    int flags = SOF_TIMESTAMPING_SOFTWARE | SOF_TIMESTAMPING_RX_SOFTWARE;
    strncpy(request.ifr_name, net->name, sizeof request.ifr_name - 1);
    net->is_hardware = stamps == STAMPS_OF_INTERFACE && ioctl(net->event, SIOCSHWTSTAMP, &request) == 0
        && wanted.tx_type != HWTSTAMP_TX_OFF && wanted.rx_filter != HWTSTAMP_FILTER_NONE;
    if (net->is_hardware)
        flags = SOF_TIMESTAMPING_RAW_HARDWARE | SOF_TIMESTAMPING_RX_HARDWARE | SOF_TIMESTAMPING_TX_HARDWARE;
    else
        fprintf(stderr, "%s: software time stamps, of the kernel\n", net->name);
    if (stamps != STAMPS_OF_ARRIVALS && !net->is_hardware)
        flags |= SOF_TIMESTAMPING_TX_SOFTWARE;
    if (setsockopt(net->event, SOL_SOCKET, SO_TIMESTAMPING, &flags, sizeof flags) != 0)
        fail("SO_TIMESTAMPING");
}

static inline struct interface open_interface(const char *name, bool is_ethernet, enum stamps stamps)
{
    struct interface net = {.name = name, .index = if_nametoindex(name), .is_ethernet = is_ethernet,
                            .identity = {{0, 0, 0, 0xff, 0xfe, 0, 0, 0}, 1}};
    struct ifreq request = {.ifr_ifindex = 0};
    if (net.index == 0)
        fail(name);
    net.event = is_ethernet ? ethernet_socket(&net, true) : udp_socket(&net, EVENT_PORT);
    net.general = is_ethernet ? ethernet_socket(&net, false) : udp_socket(&net, GENERAL_PORT);
    strncpy(request.ifr_name, name, sizeof request.ifr_name - 1);
    if (!is_ethernet && ioctl(net.event, SIOCGIFADDR, &request) != 0) {
        fprintf(stderr, "%s has no IPv4 address: give it one, or speak PTP over Ethernet (-2)\n", name);
        exit(1);
    }
    ask_for_stamps(&net, stamps);
    if (ioctl(net.event, SIOCGIFHWADDR, &request) != 0)
        fail(name);
    memcpy(net.identity.clock, request.ifr_hwaddr.sa_data, 3);
    memcpy(net.identity.clock + 5, request.ifr_hwaddr.sa_data + 3, 3);
    return net;
}

/* Takes what a socket has, or with MSG_ERRQUEUE the copy of what it sent. Doesn't wait. */
static inline bool take(const struct interface *net, int fd, int flags, struct arrival *it)
{
    union { struct cmsghdr aligned; char octets[512]; } control = {.octets = {0}};
    struct scm_timestamping stamps;
    struct iovec part = {it->octets, sizeof it->octets};
    struct msghdr message = {.msg_name = &it->from, .msg_namelen = sizeof it->from, .msg_iov = &part, .msg_iovlen = 1,
                             .msg_control = &control, .msg_controllen = sizeof control};
    const ssize_t count = recvmsg(fd, &message, flags | MSG_DONTWAIT);
    it->is_stamped = false;
    if (count < 0 && errno != EAGAIN && errno != EINTR)
        perror(net->name);
    if (count < 0 || (message.msg_flags & MSG_TRUNC) != 0)
        return false;
    it->length = (size_t)count;
    for (struct cmsghdr *at = CMSG_FIRSTHDR(&message); at != NULL; at = CMSG_NXTHDR(&message, at))
        if (at->cmsg_level == SOL_SOCKET && at->cmsg_type == SCM_TIMESTAMPING) {
            memcpy(&stamps, CMSG_DATA(at), sizeof stamps);
            it->is_stamped = moment_of(stamps.ts[net->is_hardware ? 2 : 0], &it->stamp);
        }
    return true;
}

/* Takes a message, if one is there. Stamps of what was sent that nobody waits for any more are dropped before. */
static inline bool receive(const struct interface *net, int fd, struct arrival *it)
{
    while (take(net, fd, MSG_ERRQUEUE, it)) {
    }
    return take(net, fd, 0, it);
}

/* Sends from a socket of the interface to all, or to one alone. */
static inline bool send_from(const struct interface *net, int fd, const union address *one, const uint8_t *octets,
                             size_t length)
{
    union address to = one == NULL ? net->all : *one;
    if (!net->is_ethernet)
        to.internet.sin_port = htons(fd == net->event ? EVENT_PORT : GENERAL_PORT);
    if (sendto(fd, octets, length, 0, &to.any, net->is_ethernet ? sizeof to.link : sizeof to.internet) >= 0)
        return true;
    perror(net->name);
    return false;
}

/*
 * Sends an event message, and waits for the stamp of its departure. What comes meanwhile stays in the sockets: so a
 * Delay_Resp that is quicker than the stamp of its Delay_Req is kept back.
 */
static inline bool send_stamped(const struct interface *net, const union address *one, const uint8_t *octets,
                                size_t length, struct ptpx_time *left)
{
    static struct arrival copy;
    const int64_t until = milliseconds() + STAMP_WAIT;
    if (!send_from(net, net->event, one, octets, length))
        return false;
    for (int64_t wait = STAMP_WAIT; wait > 0; wait = until - milliseconds()) {
        struct pollfd error = {net->event, 0, 0};
        if (poll(&error, 1, (int)wait) > 0 && take(net, net->event, MSG_ERRQUEUE, &copy) && copy.is_stamped
            && memmem(copy.octets, copy.length, octets, length) != NULL) {
            *left = copy.stamp;
            return true;
        }
    }
    fprintf(stderr, "%s: no time stamp of what was sent\n", net->name);
    return false;
}

#endif
