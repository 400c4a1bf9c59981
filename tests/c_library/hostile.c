/*
 * Datagrams of a seed: ones that are bent, cut, and made of chance, each in a block of its own length. The decoder, a
 * slave, with WIDE a wide one, and a clock take them all, what is decoded is encoded again octet for octet, and what a
 * clock refuses isn't changed.
 *
 * ./hostile COUNT SEED
 */
#include "check.h"
#include "kind.h"

static uint64_t chance;

/* The next number below a bound (xorshift64*). */
static uint64_t below(uint64_t bound)
{
    chance ^= chance >> 12;
    chance ^= chance << 25;
    chance ^= chance >> 27;
    return (chance * 0x2545F4914F6CDD1D >> 16) % bound;
}

static const uint8_t kinds[4] = {PTPX_SYNC, PTPX_DELAY_REQ, PTPX_FOLLOW_UP, PTPX_DELAY_RESP};

/* Octets that begin as a message of the master does, and then some of them are bent. */
static void write_message(uint8_t *octets, size_t length)
{
    static const uint8_t source[10] = {0x00, 0x11, 0x22, 0xff, 0xfe, 0x33, 0x44, 0x55, 0x01, 0x07};
    static const uint8_t requesting[10] = {0x00, 0xaa, 0xbb, 0xff, 0xfe, 0xcc, 0xdd, 0xee, 0x02, 0x09};
    uint8_t whole[64] = {0};
    for (size_t i = 0; i < length; i++)
        octets[i] = (uint8_t)below(256);
    whole[0] = kinds[below(4)];
    whole[1] = 0x12;
    whole[3] = (uint8_t)(whole[0] == PTPX_DELAY_RESP ? 54 + below(3) : 44 + below(3));
    whole[4] = 5;
    whole[6] = (uint8_t)below(4);
    whole[15] = (uint8_t)below(256);
    whole[31] = (uint8_t)below(32);
    whole[39] = (uint8_t)below(256);
    memcpy(whole + 20, source, sizeof source);
    memcpy(whole + 44, requesting, sizeof requesting);
    memcpy(octets, whole, length < sizeof whole ? length : sizeof whole);
    for (uint64_t bent = below(4); bent > 0 && length > 0; bent--)
        octets[below(length)] = (uint8_t)below(256);
}

static void try_codec(const uint8_t *octets, size_t length)
{
    struct ptpx_message message;
    uint8_t again[160] = {0};
    size_t written = 0;
    memset(&message, 0, sizeof message);
    if (ptpx_decode(octets, length, &message) != PTPX_DONE)
        return;
    const size_t fields = message.kind == PTPX_DELAY_RESP ? 54 : 44;
    CHECK(fields + message.suffix_length <= length);
    CHECK(ptpx_encode(&message, octets + fields, message.suffix_length, again, sizeof again, &written) == PTPX_DONE);
    CHECK(written == fields + message.suffix_length && memcmp(again, octets, written) == 0);
}

static void try_clock(uint8_t *octets, size_t length)
{
    struct ptpx_stay stay = {{0, 0}, false};
    uint8_t before[160] = {0};
    struct ptpx_time entry = at(1000 + below(3), (uint32_t)below(1000000000), (uint16_t)below(65536));
    memcpy(before, octets, length);
    CHECK(ptpx_clock_enter(&stay, entry) == PTPX_DONE);
    if (ptpx_clock_leave(&stay, octets, length, at(1001, 0, 0)) != PTPX_DONE)
        CHECK(memcmp(before, octets, length) == 0);
    else
        CHECK(memcmp(before, octets, 8) == 0 && memcmp(before + 16, octets + 16, length - 16) == 0);
    CHECK(ptpx_clock_leave(&stay, octets, length, at(1001, 0, 0)) == PTPX_LEFT_ALREADY);
}

/* A call of the slave beside what it hears. */
static void call_slave(struct ptpx_slave *slave, uint64_t round)
{
    uint8_t request[44] = {0};
    uint16_t number = 0;
    switch (below(256)) {
    case 0:
        CHECK(ptpx_slave_tick(slave) == PTPX_DONE);
        break;
    case 1:
        CHECK(ptpx_slave_set_master(slave, &config_of_master.identity) == PTPX_DONE);
        break;
    case 2:
        CHECK(ptpx_slave_restart(slave, (uint16_t)below(32)) == PTPX_DONE);
        CHECK(ptpx_slave_set_master(slave, &config_of_master.identity) == PTPX_DONE);
        break;
    default:
        CHECK(ptpx_slave_next_request(slave, round, request, &number) == PTPX_DONE);
        if (below(2) == 0)
            CHECK(ptpx_slave_request_left(slave, number, at(below(1000), 0, 0)) == PTPX_DONE);
    }
}

/* What a report was made of gives its results. */
static void try_last(struct ptpx_slave *slave, const struct ptpx_heard *heard)
{
    struct ptpx_exchange last = no_exchange;
    if (heard->kind == PTPX_REPORT) {
        CHECK(ptpx_slave_last(slave, &last) == PTPX_DONE);
        check_results(&last, heard);
    }
}

static uint16_t hear(struct ptpx_slave *slave, const uint8_t *octets, size_t length, uint64_t tag)
{
    struct ptpx_heard heard = {0, 0, false, {0, 0}, {0, 0}, 0, 0, 0, 0};
    if (below(2) == 0)
        CHECK(ptpx_slave_sync(slave, octets, length, at(below(1000), 0, 0), tag, &heard) == PTPX_DONE);
    else
        CHECK(ptpx_slave_general(slave, octets, length, tag, &heard) == PTPX_DONE);
    CHECK(heard.kind <= PTPX_IGNORED && (heard.kind == PTPX_IGNORED) == (heard.reason != 0));
    try_last(slave, &heard);
    return heard.kind;
}

int main(int argc, char **argv)
{
    static struct ptpx_slave_memory memory;
    struct ptpx_slave slave = {NULL};
    unsigned long answers[4] = {0};
    const uint64_t count = argc > 1 ? strtoull(argv[1], NULL, 10) : 1000000;
    chance = argc > 2 ? strtoull(argv[2], NULL, 10) : 20191107;
    CHECK(ptpx_slave_init(&slave, &memory, sizeof memory, &config_of_slave, 0) == PTPX_DONE);
    CHECK(ptpx_slave_set_master(&slave, &config_of_master.identity) == PTPX_DONE);
    for (uint64_t round = 0; round < count; round++) {
        const size_t length = below(8) == 0 ? below(150) : 44 + below(16);
        uint8_t *octets = (uint8_t *)malloc(length + (length == 0));
        CHECK(octets != NULL);
        write_message(octets, length);
        try_codec(octets, length);
        answers[hear(&slave, octets, length, round)]++;
        try_clock(octets, length);
        call_slave(&slave, round);
        free(octets);
    }
    for (int kind = 0; kind < 4; kind++)
        CHECK(answers[kind] > 0);
    printf("hostile to a " KIND ": held %lu, completed %lu, reports %lu, ignored %lu\n", answers[0], answers[1],
           answers[2], answers[3]);
    return 0;
}
