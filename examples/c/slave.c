/*
 * A slave: it follows who announces itself, sends Delay_Reqs, and prints offsetFromMaster and meanPathDelay of each
 * report in nanoseconds. It steers no clock.
 *
 * ./slave [-2] [-S] [-u] [-d DOMAIN] [-n REPORTS] INTERFACE
 *
 * -2: over Ethernet, in place of UDP. -S: time stamps of the kernel, also where the interface has a clock of its own.
 * -u: its Delay_Reqs go to the master alone (hybrid). It ends after so many reports, and goes on for ever without -n.
 */
#define _GNU_SOURCE
#include <inttypes.h>
#include <limits.h>

#include "net.h"

#define TICK_INTERVAL 32000        /* milliseconds: a tick is due in 16,384 Syncs, and this does for 512 a second */
#define ANNOUNCE_RECEIPT_TIMEOUT 3 /* intervals of the Announces */
#define ALTERNATE_MASTER_FLAG 1

struct station {
    struct interface net;
    struct ptpx_slave slave;
    struct ptpx_watch watch;
    struct ptpx_watch_memory *known; /* where the watch is */
    uint8_t domain;
    bool is_hybrid;
    unsigned long reports;
    uint64_t tag;
    uint16_t next_request; /* the number behind that of the last Delay_Req */
    int8_t request_log;    /* 2^this s between Delay_Reqs, as the master wants it */
    bool has_master;
    struct ptpx_identity master;
    union address address; /* of the master */
    int64_t silent_at;     /* when the master counts as gone */
    int64_t request_at;
    int64_t tick_at;
};

/* An interval of 2^log s in milliseconds. What is shorter than 1/128 s, or longer than 128 s, counts as that. */
static int64_t interval_of(int8_t log)
{
    const int within = log < -7 ? -7 : log > 7 ? 7 : log;
    return within < 0 ? 1000 >> -within : (int64_t)1000 << within;
}

static bool is_same(const struct ptpx_identity *one, const struct ptpx_identity *other)
{
    return memcmp(one->clock, other->clock, sizeof one->clock) == 0 && one->port == other->port;
}

static void print(const char *what, const struct ptpx_identity *identity)
{
    fprintf(stderr, "%s ", what);
    for (size_t i = 0; i < sizeof identity->clock; i++)
        fprintf(stderr, "%02x", identity->clock[i]);
    fprintf(stderr, "/%d\n", identity->port);
}

/* The time for the watch, by a clock that nobody sets: one that is set could seem to say that the master began anew. */
static struct ptpx_time now(void)
{
    struct ptpx_time time = {0, 0};
    must(ptpx_time_of_nanoseconds(milliseconds() * 1000000, &time));
    return time;
}

/* No call takes a master away: a slave that is restarted has none. The watch finds one that is back sooner. */
static void judge_master(struct station *station)
{
    if (!station->has_master || milliseconds() < station->silent_at)
        return;
    print("no Announce any more of", &station->master);
    must(ptpx_slave_restart(&station->slave, station->next_request));
    station->has_master = false;
}

/* Who announces itself first is followed until it falls silent. Which master is best isn't asked. */
static void hear_announce(struct station *station, const struct arrival *it)
{
    struct ptpx_identity source = {{0}, (uint16_t)(it->octets[28] << 8 | it->octets[29])};
    memcpy(source.clock, it->octets + 20, sizeof source.clock);
    if (it->length < ANNOUNCE_LENGTH || (it->octets[6] & ALTERNATE_MASTER_FLAG) != 0)
        return;
    judge_master(station); /* this Announce may come too late */
    if (!station->has_master) {
        print("follows", &source);
        must(ptpx_slave_set_master(&station->slave, &source));
        must(ptpx_watch_init(&station->watch, station->known, sizeof *station->known));
        station->has_master = true;
        station->master = source;
        station->tick_at = milliseconds() + TICK_INTERVAL;
    }
    if (is_same(&source, &station->master)) {
        station->address = it->from;
        station->silent_at = milliseconds() + ANNOUNCE_RECEIPT_TIMEOUT * interval_of((int8_t)it->octets[33]);
    }
}

/* The next Delay_Req follows at a random time, and so with others seldom at once (9.5.11.2). */
static void send_request(struct station *station)
{
    uint8_t request[PTPX_DELAY_REQ_LENGTH] = {0};
    struct ptpx_time t3 = {0, 0};
    uint16_t number = 0;
    must(ptpx_slave_next_request(&station->slave, station->tag++, request, &number));
    station->next_request = (uint16_t)(number + 1);
    if (station->is_hybrid)
        request[6] |= UNICAST_FLAG;
    if (send_stamped(&station->net, station->is_hybrid ? &station->address : NULL, request, sizeof request, &t3))
        must(ptpx_slave_request_left(&station->slave, number, t3));
    station->request_at = milliseconds() + random() % (2 * interval_of(station->request_log));
}

/* What is of others is ignored without a word: other types, domains, masters and slaves, or no master at all. */
static void told(struct station *station, const struct ptpx_heard *heard)
{
    int64_t offset = 0, path = 0;
    const uint16_t reason = heard->reason;
    if (reason == PTPX_REASON_NO_MESSAGE || reason == PTPX_REASON_TOO_BIG || reason == PTPX_REASON_NOT_NEWER ||
        reason == PTPX_REASON_UNKNOWN_REQUEST || reason == PTPX_REASON_EGRESS_UNKNOWN)
        fprintf(stderr, "ignored: %d, %s\n", reason, ptpx_error_text(reason));
    if (heard->kind != PTPX_REPORT || station->reports == 0)
        return;
    if (ptpx_result_to_nanoseconds(heard->offset2, &offset) || ptpx_result_to_nanoseconds(heard->path2, &path)) {
        fprintf(stderr, "a report of more nanoseconds than 64 bits hold\n");
        return;
    }
    printf("offset %" PRId64 " ns, path delay %" PRId64 " ns\n", offset, path);
    station->reports--;
}

/* Whether the slave is to hear a message: not a Sync or a Follow_Up of the master that came before. */
static bool is_to_be_heard(struct station *station, const struct arrival *it)
{
    struct ptpx_message message = {0};
    uint16_t judgement = PTPX_NEWER;
    if (!station->has_master || ptpx_decode(it->octets, it->length, &message) != PTPX_DONE ||
        !is_same(&message.source, &station->master))
        return true; /* and the slave ignores it */
    if (message.kind == PTPX_SYNC)
        must(ptpx_watch_sync(&station->watch, &message, now(), &judgement));
    else if (message.kind == PTPX_FOLLOW_UP)
        must(ptpx_watch_follow_up(&station->watch, &message, now(), &judgement));
    if (judgement == PTPX_BEGAN_ANEW) {
        print("began its numbers anew:", &station->master);
        must(ptpx_slave_set_master(&station->slave, &station->master));
    }
    return judgement != PTPX_REPEATED;
}

static void hear_event(struct station *station, const struct arrival *it)
{
    struct ptpx_heard heard = {0};
    if ((it->octets[0] & 0x0f) != PTPX_SYNC)
        return;
    if (!it->is_stamped) {
        fprintf(stderr, "a Sync without a time stamp\n");
        return;
    }
    if (!is_to_be_heard(station, it))
        return;
    must(ptpx_slave_sync(&station->slave, it->octets, it->length, it->stamp, station->tag++, &heard));
    told(station, &heard);
}

/* The interval in a Delay_Resp is the shortest that the master allows; one by unicast says nothing of it. */
static void hear_general(struct station *station, const struct arrival *it)
{
    struct ptpx_heard heard = {0};
    if ((it->octets[0] & 0x0f) == ANNOUNCE) {
        hear_announce(station, it);
        return;
    }
    if (!is_to_be_heard(station, it))
        return;
    must(ptpx_slave_general(&station->slave, it->octets, it->length, station->tag++, &heard));
    told(station, &heard);
    if ((it->octets[0] & 0x0f) == PTPX_DELAY_RESP && heard.kind != PTPX_IGNORED && it->octets[33] != UNICAST_INTERVAL)
        station->request_log = (int8_t)it->octets[33];
}

/* Does what is due by the time, and answers when something is due again. */
static int64_t keep_time(struct station *station)
{
    judge_master(station);
    if (!station->has_master)
        return milliseconds() + 1000;
    if (milliseconds() >= station->tick_at) {
        must(ptpx_slave_tick(&station->slave));
        station->tick_at += TICK_INTERVAL;
    }
    if (milliseconds() >= station->request_at)
        send_request(station);
    const int64_t next = station->silent_at < station->tick_at ? station->silent_at : station->tick_at;
    return station->request_at < next ? station->request_at : next;
}

/* Stamps of what was sent are read before all else, since a Delay_Resp that is read before them is ignored (510). */
static void run(struct station *station)
{
    static struct arrival it;
    const struct interface *net = &station->net;
    struct pollfd waits[2] = {{net->event, POLLIN, 0}, {net->general, POLLIN, 0}};
    while (station->reports > 0) {
        const int64_t wait = keep_time(station) - milliseconds();
        if (poll(waits, 2, wait > 0 ? (int)wait : 0) < 0 && errno != EINTR)
            fail("poll");
        if (receive(net, net->event, &it) && is_for(&it, station->domain))
            hear_event(station, &it);
        if (receive(net, net->general, &it) && is_for(&it, station->domain))
            hear_general(station, &it);
    }
}

int main(int argc, char **argv)
{
    static struct ptpx_slave_memory memory;
    static struct ptpx_watch_memory known;
    struct station station = {.known = &known, .reports = ULONG_MAX};
    enum stamps stamps = STAMPS_OF_INTERFACE;
    bool is_ethernet = false;
    for (int option = getopt(argc, argv, "2Sud:n:"); option != -1; option = getopt(argc, argv, "2Sud:n:"))
        switch (option) {
        case '2': is_ethernet = true; break;
        case 'S': stamps = STAMPS_OF_KERNEL; break;
        case 'u': station.is_hybrid = true; break;
        case 'd': station.domain = (uint8_t)strtoul(optarg, NULL, 10); break;
        case 'n': station.reports = strtoul(optarg, NULL, 10); break;
        default: return 2;
        }
    if (optind + 1 != argc) {
        fprintf(stderr, "usage: slave [-2] [-S] [-u] [-d DOMAIN] [-n REPORTS] INTERFACE\n");
        return 2;
    }
    setvbuf(stdout, NULL, _IOLBF, 0);
    station.net = open_interface(argv[optind], is_ethernet, stamps);
    const struct ptpx_config config = {station.net.identity, station.domain, 0};
    srandom((unsigned)milliseconds() ^ (unsigned)config.identity.clock[7] << 24);
    /* a number far from that of an earlier run, whose answers might come yet */
    must(ptpx_slave_init(&station.slave, &memory, sizeof memory, &config, (uint16_t)random()));
    run(&station);
    return 0;
}
