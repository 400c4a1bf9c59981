/*
 * Slave ports of ptpx.h, or with WIDE the wide ones: each answer and each reason, what a report was made of, what ticks
 * drop, how much is held, the refusals, and that no call writes past its memory.
 */
#include "check.h"
#include "kind.h"

#define GUARD 0xA7

/* A slave's memory between two guards. */
static struct {
    uint8_t before[PTPX_SLAVE_ALIGNMENT];
    struct ptpx_slave_memory memory;
    uint8_t after[PTPX_SLAVE_ALIGNMENT];
} guarded;

/* A master, a slave that has it for a master, and the last answer. */
struct pair {
    struct ptpx_master master;
    struct ptpx_slave slave;
    struct ptpx_heard heard;
};

static struct pair new_pair(void)
{
    struct pair pair;
    memset(&pair, 0, sizeof pair);
    memset(&guarded, GUARD, sizeof guarded);
    CHECK(ptpx_master_init(&pair.master, &config_of_master, 10) == PTPX_DONE);
    CHECK(ptpx_slave_init(&pair.slave, &guarded.memory, sizeof guarded.memory, &config_of_slave, 20) == PTPX_DONE);
    CHECK(ptpx_slave_set_master(&pair.slave, &config_of_master.identity) == PTPX_DONE);
    return pair;
}

static void check_guards(void)
{
    CHECK(is_all(guarded.before, GUARD, sizeof guarded.before) && is_all(guarded.after, GUARD, sizeof guarded.after));
}

/* What the slave answers to octets on the event port. */
static unsigned on_event(struct pair *pair, const uint8_t *octets, size_t length, struct ptpx_time t2, uint64_t tag)
{
    CHECK(ptpx_slave_sync(&pair->slave, octets, length, t2, tag, &pair->heard) == PTPX_DONE);
    return pair->heard.kind == PTPX_IGNORED ? pair->heard.reason : pair->heard.kind;
}

/* What the slave answers to octets on the general port. */
static unsigned on_general(struct pair *pair, const uint8_t *octets, size_t length, uint64_t tag)
{
    CHECK(ptpx_slave_general(&pair->slave, octets, length, tag, &pair->heard) == PTPX_DONE);
    return pair->heard.kind == PTPX_IGNORED ? pair->heard.reason : pair->heard.kind;
}

/* The answer to a Follow_Up, after a Sync that left at one time and arrived at another. */
static unsigned sync_half(struct pair *pair, uint64_t left, uint64_t came)
{
    uint8_t sync[44] = {0}, follow[44] = {0};
    uint16_t number = 0;
    CHECK(ptpx_master_next_sync(&pair->master, sync, &number) == PTPX_DONE);
    CHECK(ptpx_master_sync_left(&pair->master, number, at(left, 0, 0), follow) == PTPX_DONE);
    CHECK(on_event(pair, sync, 44, at(came, 0, 0), 0x1111111111111111) == PTPX_HELD);
    return on_general(pair, follow, 44, 0x2222222222222222);
}

/* The answer to a Delay_Resp, after a Delay_Req that left at one time and arrived at another. */
static unsigned delay_half(struct pair *pair, uint64_t left, uint64_t came)
{
    uint8_t request[44] = {0}, response[54] = {0};
    uint16_t number = 0;
    CHECK(ptpx_slave_next_request(&pair->slave, 0x3333333333333333, request, &number) == PTPX_DONE);
    CHECK(ptpx_slave_request_left(&pair->slave, number, at(left, 0, 0)) == PTPX_DONE);
    CHECK(ptpx_master_delay_req(&pair->master, request, 44, at(came, 0, 0), response) == PTPX_DONE);
    return on_general(pair, response, 54, 0x4444444444444444);
}

static void reports(void)
{
    struct pair pair = new_pair();
    CHECK(sync_half(&pair, 100, 109) == PTPX_COMPLETED && delay_half(&pair, 110, 113) == PTPX_REPORT);
    CHECK(narrow(pair.heard.offset2) == 6 * (int64_t)65536 * 1000000000);
    CHECK(narrow(pair.heard.path2) == 12 * (int64_t)65536 * 1000000000);
    CHECK(!pair.heard.one_step && pair.heard.reason == 0);
    CHECK(pair.heard.sync_tag == 0x1111111111111111 && pair.heard.follow_tag == 0x2222222222222222);
    CHECK(pair.heard.request_tag == 0x3333333333333333 && pair.heard.response_tag == 0x4444444444444444);
    CHECK(sync_half(&pair, 200, 208) == PTPX_REPORT && delay_half(&pair, 210, 213) == PTPX_REPORT);
    check_guards();
}

/* The last departure that was told before the answer counts, and 0 is a departure, too. */
static void departures(void)
{
    struct pair pair = new_pair();
    uint8_t request[44] = {0}, response[54] = {0};
    uint16_t number = 0;
    CHECK(sync_half(&pair, 100, 109) == PTPX_COMPLETED);
    CHECK(ptpx_slave_next_request(&pair.slave, 1, request, &number) == PTPX_DONE);
    CHECK(ptpx_master_delay_req(&pair.master, request, 44, at(113, 0, 0), response) == PTPX_DONE);
    CHECK(ptpx_slave_request_left(&pair.slave, number, at(50, 0, 0)) == PTPX_DONE);
    CHECK(ptpx_slave_request_left(&pair.slave, number, at(110, 0, 0)) == PTPX_DONE);
    CHECK(on_general(&pair, response, 54, 2) == PTPX_REPORT);
    CHECK(narrow(pair.heard.path2) == 12 * (int64_t)65536 * 1000000000);
    CHECK(ptpx_slave_request_left(&pair.slave, number, at(0, 0, 0)) == PTPX_DONE);
    CHECK(on_general(&pair, response, 54, 2) == PTPX_REPORT);
    CHECK(narrow(pair.heard.path2) == 122 * (int64_t)65536 * 1000000000);
}

static void one_step_reports(void)
{
    struct pair pair = new_pair();
    uint8_t sync[44] = {0};
    uint16_t number = 0;
    CHECK(delay_half(&pair, 10, 20) == PTPX_COMPLETED);
    CHECK(ptpx_master_one_step_sync(&pair.master, at(30, 0, 0), sync, &number) == PTPX_DONE && number == 10);
    CHECK(on_event(&pair, sync, 44, at(31, 0, 0), 7) == PTPX_REPORT);
    CHECK(pair.heard.one_step && pair.heard.sync_tag == 7 && pair.heard.follow_tag == 0);
    CHECK(narrow(pair.heard.offset2) == -9 * (int64_t)65536 * 1000000000);
}

static bool is_time(struct ptpx_time time, struct ptpx_time wanted)
{
    return time.high == wanted.high && time.low == wanted.low;
}

/* That there is no last exchange, and nothing is written. */
static void check_no_last(const struct pair *pair)
{
    struct ptpx_exchange last = no_exchange;
    last.request_number = 7;
    CHECK(ptpx_slave_last(&pair->slave, &last) == PTPX_NO_EXCHANGE);
    CHECK(is_all(&last, 0, offsetof(struct ptpx_exchange, request_number)) && last.request_number == 7);
}

/* A master that reads its clock to 2^-16 ns, and a clock on the way of each message. */
static void last_exchange(void)
{
    struct pair pair = new_pair();
    struct ptpx_exchange last = no_exchange;
    uint8_t sync[44] = {0}, follow[44] = {0}, request[44] = {0}, response[54] = {0};
    uint16_t number = 0;
    check_no_last(&pair);
    CHECK(ptpx_master_next_sync(&pair.master, sync, &number) == PTPX_DONE && number == 10);
    CHECK(ptpx_patch_correction(sync, 44, 500) == PTPX_DONE);
    CHECK(ptpx_master_sync_left(&pair.master, number, at(100, 1, 40000), follow) == PTPX_DONE);
    CHECK(on_event(&pair, sync, 44, at(109, 2, 3), 1) == PTPX_HELD);
    CHECK(on_general(&pair, follow, 44, 2) == PTPX_COMPLETED);
    check_no_last(&pair);
    CHECK(ptpx_slave_next_request(&pair.slave, 3, request, &number) == PTPX_DONE && number == 20);
    CHECK(ptpx_slave_request_left(&pair.slave, number, at(110, 2, 65535)) == PTPX_DONE);
    CHECK(ptpx_patch_correction(request, 44, 700) == PTPX_DONE);
    CHECK(ptpx_master_delay_req(&pair.master, request, 44, at(113, 4, 200), response) == PTPX_DONE);
    CHECK(on_general(&pair, response, 54, 4) == PTPX_REPORT);
    CHECK(ptpx_slave_last(&pair.slave, &last) == PTPX_DONE);
    CHECK(is_time(last.t1, at(100, 1, 0)) && is_time(last.t2, at(109, 2, 3)));
    CHECK(is_time(last.t3, at(110, 2, 65535)) && is_time(last.t4, at(113, 4, 0)));
    CHECK(last.sync_correction == 500 && last.follow_correction == 40000 && last.response_correction == 500);
    CHECK(last.sync_number == 10 && last.request_number == 20);
    CHECK(narrow(last.age) == (int64_t)65536 * 1000000000 + 65532);
    check_results(&last, &pair.heard);
    check_guards();
}

/* The newest halves count, whichever is older, and the exchange stays until one of its halves is dropped. */
static void last_exchange_stays(void)
{
    struct pair pair = new_pair();
    struct ptpx_exchange last = no_exchange;
    CHECK(sync_half(&pair, 100, 109) == PTPX_COMPLETED && delay_half(&pair, 110, 113) == PTPX_REPORT);
    CHECK(sync_half(&pair, 200, 208) == PTPX_REPORT);
    CHECK(ptpx_slave_last(&pair.slave, &last) == PTPX_DONE);
    CHECK(is_time(last.t2, at(208, 0, 0)) && is_time(last.t3, at(110, 0, 0)) && last.sync_number == 11);
    CHECK(narrow(last.age) == 98 * (int64_t)65536 * 1000000000 && last.request_number == 20);
    check_results(&last, &pair.heard);
    CHECK(ptpx_slave_tick(&pair.slave) == PTPX_DONE && ptpx_slave_last(&pair.slave, &last) == PTPX_DONE);
    CHECK(is_time(last.t1, at(200, 0, 0)) && is_time(last.t4, at(113, 0, 0)));
    CHECK(ptpx_slave_tick(&pair.slave) == PTPX_DONE);
    check_no_last(&pair);
    CHECK(sync_half(&pair, 300, 308) == PTPX_COMPLETED && delay_half(&pair, 310, 313) == PTPX_REPORT);
    CHECK(ptpx_slave_last(&pair.slave, &last) == PTPX_DONE && last.request_number == 21);
    CHECK(ptpx_slave_set_master(&pair.slave, &config_of_master.identity) == PTPX_DONE);
    check_no_last(&pair);
    CHECK(sync_half(&pair, 400, 408) == PTPX_COMPLETED && delay_half(&pair, 410, 413) == PTPX_REPORT);
    CHECK(ptpx_slave_last(&pair.slave, &last) == PTPX_DONE && ptpx_slave_restart(&pair.slave, 0) == PTPX_DONE);
    check_no_last(&pair);
}

static void reasons_of_syncs(void)
{
    struct pair pair = new_pair();
    uint8_t sync[44] = {0};
    uint16_t number = 0;
    CHECK(ptpx_master_next_sync(&pair.master, sync, &number) == PTPX_DONE);
    CHECK(on_event(&pair, sync, 33, at(1, 0, 0), 0) == PTPX_REASON_NO_MESSAGE);
    CHECK(on_general(&pair, sync, 44, 0) == PTPX_REASON_WRONG_TYPE);
    CHECK(sync_half(&pair, 1, 1) == PTPX_COMPLETED);
    CHECK(on_event(&pair, sync, 44, at(1, 0, 0), 0) == PTPX_REASON_NOT_NEWER);
    CHECK(ptpx_patch_correction(sync, 44, INT64_MAX) == PTPX_DONE);
    CHECK(on_event(&pair, sync, 44, at(1, 0, 0), 0) == PTPX_REASON_TOO_BIG);
    sync[20] ^= 1;
    CHECK(on_event(&pair, sync, 44, at(1, 0, 0), 0) == PTPX_REASON_OTHER_MASTER);
    CHECK(ptpx_slave_restart(&pair.slave, 0) == PTPX_DONE);
    CHECK(on_event(&pair, sync, 44, at(1, 0, 0), 0) == PTPX_REASON_NO_MASTER);
    sync[4] ^= 1;
    CHECK(on_event(&pair, sync, 44, at(1, 0, 0), 0) == PTPX_REASON_OTHER_DOMAIN);
}

static void reasons_of_responses(void)
{
    struct pair pair = new_pair();
    uint8_t request[44] = {0}, response[54] = {0};
    uint16_t number = 0;
    CHECK(ptpx_slave_next_request(&pair.slave, 1, request, &number) == PTPX_DONE && number == 20);
    CHECK(ptpx_master_delay_req(&pair.master, request, 44, at(5, 0, 0), response) == PTPX_DONE);
    CHECK(on_general(&pair, response, 54, 2) == PTPX_REASON_EGRESS_UNKNOWN);
    CHECK(ptpx_slave_request_left(&pair.slave, 21, at(4, 0, 0)) == PTPX_NOT_HELD);
    CHECK(ptpx_slave_request_left(&pair.slave, 20, no_moment) == PTPX_NO_MOMENT);
    CHECK(ptpx_slave_request_left(&pair.slave, 20, at(4, 0, 0)) == PTPX_DONE);
    CHECK(on_general(&pair, response, 54, 2) == PTPX_COMPLETED && on_general(&pair, response, 54, 2) == PTPX_COMPLETED);
    response[31] ^= 1;
    CHECK(on_general(&pair, response, 54, 2) == PTPX_REASON_UNKNOWN_REQUEST);
    response[53] ^= 1;
    CHECK(on_general(&pair, response, 54, 2) == PTPX_REASON_OTHER_REQUESTER);
}

/* Halves outlive one tick and not two, a Delay_Req outlives them all. */
static void ticks(void)
{
    struct pair pair = new_pair();
    CHECK(sync_half(&pair, 100, 101) == PTPX_COMPLETED && ptpx_slave_tick(&pair.slave) == PTPX_DONE);
    CHECK(delay_half(&pair, 102, 103) == PTPX_REPORT && ptpx_slave_tick(&pair.slave) == PTPX_DONE);
    CHECK(delay_half(&pair, 104, 105) == PTPX_COMPLETED);
    CHECK(ptpx_slave_tick(&pair.slave) == PTPX_DONE && ptpx_slave_tick(&pair.slave) == PTPX_DONE);
    CHECK(sync_half(&pair, 106, 107) == PTPX_COMPLETED);
    CHECK(ptpx_slave_request_left(&pair.slave, 20, at(4, 0, 0)) == PTPX_DONE);
    CHECK(ptpx_slave_set_master(&pair.slave, &config_of_master.identity) == PTPX_DONE);
    CHECK(ptpx_slave_request_left(&pair.slave, 20, at(4, 0, 0)) == PTPX_NOT_HELD);
    CHECK(delay_half(&pair, 108, 109) == PTPX_COMPLETED);
}

/* Of one Delay_Req more than a slave holds the oldest goes. */
static void fullness_of_requests(void)
{
    struct pair pair = new_pair();
    uint8_t request[44] = {0};
    uint16_t number = 0;
    for (uint16_t i = 0; i < HOLDS; i++)
        CHECK(ptpx_slave_next_request(&pair.slave, i, request, &number) == PTPX_DONE && number == 20 + i);
    CHECK(ptpx_slave_request_left(&pair.slave, 20, at(4, 0, 0)) == PTPX_DONE);
    CHECK(ptpx_slave_next_request(&pair.slave, HOLDS, request, &number) == PTPX_DONE && number == 20 + HOLDS);
    CHECK(ptpx_slave_request_left(&pair.slave, 20, at(4, 0, 0)) == PTPX_NOT_HELD);
    CHECK(ptpx_slave_request_left(&pair.slave, 21, at(4, 0, 0)) == PTPX_DONE);
    check_guards();
}

/* A Sync of the master and its Follow_Up, of which the slave hears one. */
struct drawn {
    uint8_t sync[44];
    uint8_t follow[44];
};

static unsigned hear_one(struct pair *pair, const struct drawn *drawn, bool follow)
{
    return follow ? on_general(pair, drawn->follow, 44, 0) : on_event(pair, drawn->sync, 44, at(2, 0, 0), 0);
}

static struct drawn draw(struct pair *pair)
{
    struct drawn drawn;
    uint16_t number = 0;
    memset(&drawn, 0, sizeof drawn);
    CHECK(ptpx_master_next_sync(&pair->master, drawn.sync, &number) == PTPX_DONE);
    CHECK(ptpx_master_sync_left(&pair->master, number, at(1, 0, 0), drawn.follow) == PTPX_DONE);
    return drawn;
}

/* The answer to the other message of a Sync half, after later messages like its first. */
static unsigned answer_after(unsigned later, bool follow)
{
    struct pair pair = new_pair();
    const struct drawn first = draw(&pair);
    CHECK(hear_one(&pair, &first, follow) == PTPX_HELD);
    for (unsigned i = 0; i < later; i++) {
        const struct drawn next = draw(&pair);
        CHECK(hear_one(&pair, &next, follow) == PTPX_HELD);
    }
    check_guards();
    return hear_one(&pair, &first, !follow);
}

static void fullness(void)
{
    fullness_of_requests();
    CHECK(answer_after(HOLDS - 1, false) == PTPX_COMPLETED && answer_after(HOLDS, false) == PTPX_HELD);
    CHECK(answer_after(HOLDS - 1, true) == PTPX_COMPLETED && answer_after(HOLDS, true) == PTPX_HELD);
}

static void refused_memory(void)
{
    struct ptpx_slave slave = {NULL};
    const size_t size = sizeof guarded.memory;
    uint8_t *octets = guarded.memory.octets;
    memset(&guarded, GUARD, sizeof guarded);
    CHECK(ptpx_slave_init(&slave, octets, size - 1, &config_of_slave, 0) == PTPX_SMALL_MEMORY);
    CHECK(ptpx_slave_init(&slave, octets + 8, size, &config_of_slave, 0) == PTPX_UNALIGNED_MEMORY);
    CHECK(ptpx_slave_init(NULL, octets, size, &config_of_slave, 0) == PTPX_NULL);
    CHECK(ptpx_slave_init(&slave, NULL, size, &config_of_slave, 0) == PTPX_NULL);
    CHECK(ptpx_slave_init(&slave, octets, size, NULL, 0) == PTPX_NULL);
    CHECK(slave.memory == NULL && is_all(&guarded, GUARD, sizeof guarded));
    CHECK(ptpx_slave_restart(&slave, 0) == PTPX_NULL && ptpx_slave_tick(&slave) == PTPX_NULL);
}

static void refused_pointers(void)
{
    struct pair pair = new_pair();
    struct ptpx_slave *slave = &pair.slave, none = {NULL};
    struct ptpx_exchange last = no_exchange;
    uint8_t octets[44] = {0};
    uint16_t number = 0;
    const size_t wide = (size_t)PTRDIFF_MAX + 1;
    CHECK(ptpx_slave_set_master(slave, NULL) == PTPX_NULL);
    CHECK(ptpx_slave_set_master(&none, &config_of_master.identity) == PTPX_NULL);
    CHECK(ptpx_slave_next_request(slave, 0, NULL, &number) == PTPX_NULL);
    CHECK(ptpx_slave_next_request(slave, 0, octets, NULL) == PTPX_NULL);
    CHECK(ptpx_slave_next_request(&none, 0, octets, &number) == PTPX_NULL);
    CHECK(ptpx_slave_request_left(&none, 0, at(1, 0, 0)) == PTPX_NULL);
    CHECK(ptpx_slave_sync(slave, NULL, 44, at(1, 0, 0), 0, &pair.heard) == PTPX_NULL);
    CHECK(ptpx_slave_sync(slave, octets, 44, at(1, 0, 0), 0, NULL) == PTPX_NULL);
    CHECK(ptpx_slave_sync(&none, octets, 44, at(1, 0, 0), 0, &pair.heard) == PTPX_NULL);
    CHECK(ptpx_slave_sync(slave, octets, wide, at(1, 0, 0), 0, &pair.heard) == PTPX_TOO_LONG);
    CHECK(ptpx_slave_sync(slave, octets, 44, no_moment, 0, &pair.heard) == PTPX_NO_MOMENT);
    CHECK(ptpx_slave_general(slave, NULL, 44, 0, &pair.heard) == PTPX_NULL);
    CHECK(ptpx_slave_general(slave, octets, 44, 0, NULL) == PTPX_NULL);
    CHECK(ptpx_slave_general(&none, octets, 44, 0, &pair.heard) == PTPX_NULL);
    CHECK(ptpx_slave_general(slave, octets, wide, 0, &pair.heard) == PTPX_TOO_LONG);
    CHECK(ptpx_slave_last(slave, NULL) == PTPX_NULL && ptpx_slave_last(&none, &last) == PTPX_NULL);
}

static void refused_slaves(void)
{
    struct ptpx_heard heard = {0, 0, false, {0, 0}, {0, 0}, 0, 0, 0, 0};
    struct ptpx_exchange last = no_exchange;
    uint8_t octets[44] = {0};
    uint16_t number = 0;
    CHECK(ptpx_slave_last(NULL, &last) == PTPX_NULL && is_all(&last, 0, sizeof last));
    CHECK(ptpx_slave_restart(NULL, 0) == PTPX_NULL && ptpx_slave_tick(NULL) == PTPX_NULL);
    CHECK(ptpx_slave_set_master(NULL, &config_of_master.identity) == PTPX_NULL);
    CHECK(ptpx_slave_next_request(NULL, 0, octets, &number) == PTPX_NULL);
    CHECK(ptpx_slave_request_left(NULL, 0, at(1, 0, 0)) == PTPX_NULL);
    CHECK(ptpx_slave_sync(NULL, octets, 44, at(1, 0, 0), 0, &heard) == PTPX_NULL);
    CHECK(ptpx_slave_general(NULL, octets, 44, 0, &heard) == PTPX_NULL);
    CHECK(is_all(octets, 0, sizeof octets) && number == 0 && heard.kind == 0 && heard.reason == 0);
}

int main(void)
{
    reports();
    departures();
    one_step_reports();
    last_exchange();
    last_exchange_stays();
    reasons_of_syncs();
    reasons_of_responses();
    ticks();
    fullness();
    refused_memory();
    refused_pointers();
    refused_slaves();
    printf("each call of a %s: %lu checks\n", KIND, checks_made);
    return 0;
}
