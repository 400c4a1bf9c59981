/*
 * A master: it announces itself, sends eight Syncs a second, and answers Delay_Reqs. It doesn't look for a better
 * master, so no other one is to be in its domain.
 *
 * ./master [-2] [-S] [-1] [-d DOMAIN] [-n SYNCS] INTERFACE
 *
 * -2: over Ethernet, in place of UDP. -S: time stamps of the kernel, also where the interface has a clock of its own.
 * -1: one-step Syncs, with what the system's clock shows as they are sent, and so with -S. A Delay_Req that came by
 * unicast is answered so (hybrid). It ends after so many Syncs, and goes on for ever without -n.
 */
#define _GNU_SOURCE
#include <limits.h>

#include "net.h"

#define SYNC_LOG -3    /* 2^-3 s from Sync to Sync */
#define ANNOUNCE_LOG 0 /* a second from Announce to Announce */
#define REQUEST_LOG -2 /* a quarter of a second from Delay_Req to Delay_Req of a slave, at the least */
#define SYNC_INTERVAL 125
#define ANNOUNCE_INTERVAL 1000

struct station {
    struct interface net;
    struct ptpx_master master;
    struct ptpx_config config;
    bool is_one_step;
    unsigned long syncs;
    uint16_t announces;
    int64_t sync_at;
    int64_t announce_at;
};

/* Where the stamp of a Sync is missing, its Follow_Up isn't sent; the library gives it up at the next Sync. */
static void send_sync(struct station *station)
{
    const struct interface *net = &station->net;
    uint8_t sync[PTPX_SYNC_LENGTH] = {0}, follow[PTPX_FOLLOW_UP_LENGTH] = {0};
    struct ptpx_time t1 = {0, 0};
    uint16_t number = 0;
    if (station->is_one_step) {
        must(ptpx_master_one_step_sync(&station->master, time_of_kernel(), sync, &number));
        send_from(net, net->event, NULL, sync, sizeof sync);
        return;
    }
    must(ptpx_master_next_sync(&station->master, sync, &number));
    if (!send_stamped(net, NULL, sync, sizeof sync, &t1))
        return;
    must(ptpx_master_sync_left(&station->master, number, t1, follow));
    send_from(net, net->general, NULL, follow, sizeof follow);
}

/* An Announce (13.5) of a clock that nothing sets, of the timescale that it pleases. */
static void send_announce(struct station *station)
{
    const struct ptpx_identity *own = &station->config.identity;
    uint8_t octets[ANNOUNCE_LENGTH] = {ANNOUNCE, 0x12, 0, ANNOUNCE_LENGTH, station->config.domain};
    memcpy(octets + 20, own->clock, sizeof own->clock);
    octets[28] = (uint8_t)(own->port >> 8);
    octets[29] = (uint8_t)own->port;
    octets[30] = (uint8_t)(station->announces >> 8);
    octets[31] = (uint8_t)station->announces;
    octets[32] = 5; /* controlField of all that have no other */
    octets[33] = (uint8_t)ANNOUNCE_LOG;
    octets[47] = 128;                   /* grandmasterPriority1 */
    octets[48] = 248;                   /* clockClass: a default */
    octets[49] = 0xfe;                  /* clockAccuracy: unknown */
    octets[50] = octets[51] = 0xff;     /* offsetScaledLogVariance: unknown */
    octets[52] = 128;                   /* grandmasterPriority2 */
    memcpy(octets + 53, own->clock, 8); /* grandmasterIdentity; stepsRemoved is 0 */
    octets[63] = 0xa0;                  /* timeSource: an oscillator */
    send_from(&station->net, station->net.general, NULL, octets, sizeof octets);
    station->announces++;
}

/*
 * Answers a Delay_Req of the master's domain. The library writes the interval of Syncs into the Delay_Resp, which
 * slaves take for that of their Delay_Reqs: so octet 33 is written anew.
 */
static void answer(struct station *station, const struct arrival *it)
{
    uint8_t response[PTPX_DELAY_RESP_LENGTH] = {0};
    const bool is_unicast = (it->octets[6] & UNICAST_FLAG) != 0;
    if ((it->octets[0] & 0x0f) != PTPX_DELAY_REQ)
        return;
    if (!it->is_stamped) {
        fprintf(stderr, "a Delay_Req without a time stamp\n");
        return;
    }
    const uint16_t refusal = ptpx_master_delay_req(&station->master, it->octets, it->length, it->stamp, response);
    if (refusal != PTPX_DONE) {
        fprintf(stderr, "not answered: %d, %s\n", refusal, ptpx_error_text(refusal));
        return;
    }
    response[6] |= is_unicast ? UNICAST_FLAG : 0;
    response[33] = is_unicast ? UNICAST_INTERVAL : (uint8_t)REQUEST_LOG;
    send_from(&station->net, station->net.general, is_unicast ? &it->from : NULL, response, sizeof response);
}

/* Sends what is due, and answers when something is due again. What was due long ago isn't made up for. */
static int64_t keep_time(struct station *station)
{
    if (milliseconds() >= station->announce_at) {
        send_announce(station);
        station->announce_at = milliseconds() + ANNOUNCE_INTERVAL;
    }
    if (milliseconds() >= station->sync_at) {
        send_sync(station);
        station->syncs--;
        station->sync_at += SYNC_INTERVAL;
        if (station->sync_at < milliseconds())
            station->sync_at = milliseconds() + SYNC_INTERVAL;
    }
    return station->sync_at < station->announce_at ? station->sync_at : station->announce_at;
}

/* A number for the first Sync that is ahead of those of an earlier run, which took eight a second, too. */
static uint16_t first_number(void)
{
    struct ptpx_timestamp now = {0, 0};
    uint16_t fraction = 0;
    must(ptpx_time_split(time_of_kernel(), &now, &fraction));
    return (uint16_t)(now.seconds * 1000 / SYNC_INTERVAL + now.nanos / (SYNC_INTERVAL * 1000000) + 1);
}

static void run(struct station *station)
{
    static struct arrival it;
    const struct interface *net = &station->net;
    struct pollfd waits = {net->event, POLLIN, 0};
    while (station->syncs > 0) {
        const int64_t wait = keep_time(station) - milliseconds();
        if (poll(&waits, 1, wait > 0 ? (int)wait : 0) < 0 && errno != EINTR)
            fail("poll");
        if (receive(net, net->event, &it) && is_for(&it, station->config.domain))
            answer(station, &it);
    }
}

int main(int argc, char **argv)
{
    struct station station = {.syncs = ULONG_MAX, .config = {{{0}, 0}, 0, SYNC_LOG}};
    enum stamps stamps = STAMPS_OF_INTERFACE;
    bool is_ethernet = false;
    for (int option = getopt(argc, argv, "2S1d:n:"); option != -1; option = getopt(argc, argv, "2S1d:n:"))
        switch (option) {
        case '2': is_ethernet = true; break;
        case 'S': stamps = STAMPS_OF_KERNEL; break;
        case '1': station.is_one_step = true; break;
        case 'd': station.config.domain = (uint8_t)strtoul(optarg, NULL, 10); break;
        case 'n': station.syncs = strtoul(optarg, NULL, 10); break;
        default: return 2;
        }
    if (optind + 1 != argc) {
        fprintf(stderr, "usage: master [-2] [-S] [-1] [-d DOMAIN] [-n SYNCS] INTERFACE\n");
        return 2;
    }
    station.net = open_interface(argv[optind], is_ethernet, station.is_one_step ? STAMPS_OF_ARRIVALS : stamps);
    station.config.identity = station.net.identity;
    station.announce_at = milliseconds();
    station.sync_at = station.announce_at + SYNC_INTERVAL;
    must(ptpx_master_init(&station.master, &station.config, first_number()));
    run(&station);
    return 0;
}
