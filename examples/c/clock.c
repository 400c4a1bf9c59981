/*
 * An end-to-end one-step transparent clock between two interfaces: what comes at the one leaves from the other, and a
 * Sync or a Delay_Req with the time of its stay added to its correction.
 *
 * ./clock [-2] [-w MILLISECONDS] INTERFACE INTERFACE
 *
 * -2: over Ethernet, in place of UDP, for which both interfaces need an IPv4 address. -w: keeps each Sync and each
 * Delay_Req for so long, to show that the stay counts.
 *
 * Both readings of a stay are of the system's clock: the kernel's stamp as the message came, and what the clock shows
 * as it is sent, which the message has to say itself. What the kernel takes from there to the wire counts as a part of
 * the path; an interface that writes corrections as messages leave has nothing of that. Messages leave from the clock's
 * own address, and to all: what is sent by unicast isn't passed on.
 */
#define _GNU_SOURCE
#include "net.h"

static bool is_to_all(const struct arrival *it)
{
    return it->length >= 34 && (it->octets[6] & UNICAST_FLAG) == 0;
}

static void keep_for(long milliseconds_more)
{
    const struct timespec time = {milliseconds_more / 1000, milliseconds_more % 1000 * 1000000};
    if (milliseconds_more > 0)
        nanosleep(&time, NULL);
}

/* Other event messages, of the peer-to-peer mechanism, stop here, since nothing would say how long they stayed. */
static void pass_event(const struct interface *from, const struct interface *to, struct arrival *it, long stay_longer)
{
    struct ptpx_stay stay = {{0, 0}, false};
    const uint8_t type = it->octets[0] & 0x0f;
    if (type != PTPX_SYNC && type != PTPX_DELAY_REQ)
        return;
    if (!it->is_stamped) {
        fprintf(stderr, "%s: a message without a time stamp\n", from->name);
        return;
    }
    must(ptpx_clock_enter(&stay, it->stamp));
    keep_for(stay_longer);
    const uint16_t refusal = ptpx_clock_leave(&stay, it->octets, it->length, time_of_kernel());
    if (refusal == PTPX_DONE)
        send_from(to, to->event, NULL, it->octets, it->length);
    else
        fprintf(stderr, "%s: not passed on: %d, %s\n", from->name, refusal, ptpx_error_text(refusal));
}

/* Follow_Ups, Delay_Resps and all other general messages pass as they are. */
static void pass(const struct interface *from, const struct interface *to, long stay_longer)
{
    static struct arrival it;
    if (receive(from, from->event, &it) && is_to_all(&it))
        pass_event(from, to, &it, stay_longer);
    if (receive(from, from->general, &it) && is_to_all(&it))
        send_from(to, to->general, NULL, it.octets, it.length);
}

int main(int argc, char **argv)
{
    bool is_ethernet = false;
    long stay_longer = 0;
    for (int option = getopt(argc, argv, "2w:"); option != -1; option = getopt(argc, argv, "2w:"))
        switch (option) {
        case '2': is_ethernet = true; break;
        case 'w': stay_longer = strtol(optarg, NULL, 10); break;
        default: return 2;
        }
    if (optind + 2 != argc) {
        fprintf(stderr, "usage: clock [-2] [-w MILLISECONDS] INTERFACE INTERFACE\n");
        return 2;
    }
    const struct interface one = open_interface(argv[optind], is_ethernet, STAMPS_OF_ARRIVALS);
    const struct interface other = open_interface(argv[optind + 1], is_ethernet, STAMPS_OF_ARRIVALS);
    struct pollfd waits[4] = {
        {one.event, POLLIN, 0}, {one.general, POLLIN, 0}, {other.event, POLLIN, 0}, {other.general, POLLIN, 0}};
    for (;;) {
        if (poll(waits, 4, -1) < 0 && errno != EINTR)
            fail("poll");
        pass(&one, &other, stay_longer);
        pass(&other, &one, stay_longer);
    }
}
