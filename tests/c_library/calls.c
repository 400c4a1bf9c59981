/*
 * Each call of ptpx.h: what it answers, where the fields of each struct lie, each refusal, and that a refusal writes
 * nothing.
 */
#define _POSIX_C_SOURCE 199309L /* for struct timespec, which C99 alone hasn't */
#include "check.h"

/* A Delay_Resp with three octets of suffix, and no two fields alike. */
static const uint8_t distinct[57] = {
    0xA9, 0x12, 0x00, 57,   0x04, 0x05, 0x06, 0x07,                         /* majorSdoId 10, minorVersionPTP 1 */
    0x81, 0x02, 0x03, 0x08, 0x09, 0x0a, 0x0b, 0x0c, 0x10, 0x11, 0x12, 0x13, /* correction, messageTypeSpecific */
    0x20, 0x21, 0x22, 0x23, 0x24, 0x25, 0x26, 0x27, 0x28, 0x29, 0x30, 0x31, /* sourcePortIdentity, sequenceId */
    0x32, 0xF3, 0x34, 0x35, 0x36, 0x37, 0x38, 0x39, 0x2A, 0x3b, 0x3c, 0x3d, /* control, log, receiveTimestamp */
    0x40, 0x41, 0x42, 0x43, 0x44, 0x45, 0x46, 0x47, 0x48, 0x49,             /* requestingPortIdentity */
    0x50, 0x51, 0x52,
};

/* Memory of slaves, which is to stand where its alignment allows. */
struct behind_an_octet {
    uint8_t octet;
    struct ptpx_slave_memory memory;
    uint8_t other_octet;
    struct ptpx_wide_slave_memory wide;
};

/* Where a field lies, and where the next octet after it does. */
#define LIES(type, field, from, to)                   \
    CHECK(offsetof(struct type, field) == (from)      \
          && offsetof(struct type, field) + sizeof(((struct type *)NULL)->field) == (to))

static void sizes(void)
{
    CHECK(sizeof(struct ptpx_time) == 16 && sizeof(struct ptpx_signed) == 16 && sizeof(struct ptpx_timestamp) == 16);
    CHECK(sizeof(struct ptpx_identity) == 10 && sizeof(struct ptpx_config) == 12 && sizeof(struct ptpx_stay) == 24);
    CHECK(sizeof(struct ptpx_message) == 72 && sizeof(struct ptpx_master) == 18 && sizeof(struct ptpx_heard) == 72);
    CHECK(sizeof(struct ptpx_exchange) == 112);
    CHECK(sizeof(struct ptpx_slave) == 8 && PTPX_SLAVE_SIZE == 2992 && PTPX_SLAVE_ALIGNMENT == 16);
    CHECK(ptpx_raw_slave_size() == PTPX_SLAVE_SIZE && ptpx_raw_slave_alignment() == PTPX_SLAVE_ALIGNMENT);
    CHECK(sizeof(struct ptpx_wide_slave) == 8 && PTPX_WIDE_SLAVE_SIZE == 42352);
    CHECK(ptpx_raw_wide_slave_size() == PTPX_WIDE_SLAVE_SIZE);
    CHECK(ptpx_raw_wide_slave_alignment() == PTPX_SLAVE_ALIGNMENT);
    CHECK(sizeof(struct ptpx_slave_memory) == PTPX_SLAVE_SIZE);
    CHECK(sizeof(struct ptpx_wide_slave_memory) == PTPX_WIDE_SLAVE_SIZE);
    CHECK(offsetof(struct behind_an_octet, memory) == PTPX_SLAVE_ALIGNMENT);
    CHECK(offsetof(struct behind_an_octet, wide) % PTPX_SLAVE_ALIGNMENT == 0);
}

/* The table of docs/EMBEDDING.md. */
static void places(void)
{
    LIES(ptpx_time, high, 0, 8);
    LIES(ptpx_time, low, 8, 16);
    LIES(ptpx_signed, high, 0, 8);
    LIES(ptpx_signed, low, 8, 16);
    LIES(ptpx_timestamp, seconds, 0, 8);
    LIES(ptpx_timestamp, nanos, 8, 12);
    LIES(ptpx_identity, clock, 0, 8);
    LIES(ptpx_identity, port, 8, 10);
    LIES(ptpx_config, identity, 0, 10);
    LIES(ptpx_config, domain, 10, 11);
    LIES(ptpx_config, log, 11, 12);
    LIES(ptpx_stay, entered, 0, 16);
    LIES(ptpx_stay, inside, 16, 17);
    LIES(ptpx_master, config, 0, 12);
    LIES(ptpx_master, next, 12, 14);
    LIES(ptpx_master, waiting, 14, 16);
    LIES(ptpx_master, waits, 16, 17);
    LIES(ptpx_master, made, 17, 18);
    LIES(ptpx_slave, memory, 0, 8);
    LIES(ptpx_slave_memory, octets, 0, PTPX_SLAVE_SIZE);
    LIES(ptpx_wide_slave, memory, 0, 8);
    LIES(ptpx_wide_slave_memory, octets, 0, PTPX_WIDE_SLAVE_SIZE);
}

static void places_in_messages(void)
{
    LIES(ptpx_message, kind, 0, 1);
    LIES(ptpx_message, domain, 1, 2);
    LIES(ptpx_message, major_sdo, 2, 3);
    LIES(ptpx_message, minor_sdo, 3, 4);
    LIES(ptpx_message, minor_version, 4, 5);
    LIES(ptpx_message, flags, 5, 7);
    LIES(ptpx_message, correction, 8, 16);
    LIES(ptpx_message, specific, 16, 20);
    LIES(ptpx_message, source, 20, 30);
    LIES(ptpx_message, sequence, 30, 32);
    LIES(ptpx_message, log, 32, 33);
    LIES(ptpx_message, control, 33, 34);
    LIES(ptpx_message, timestamp, 40, 56);
    LIES(ptpx_message, requesting, 56, 66);
    LIES(ptpx_message, suffix_length, 66, 68);
}

static void places_in_answers(void)
{
    LIES(ptpx_heard, kind, 0, 2);
    LIES(ptpx_heard, reason, 2, 4);
    LIES(ptpx_heard, one_step, 4, 5);
    LIES(ptpx_heard, offset2, 8, 24);
    LIES(ptpx_heard, path2, 24, 40);
    LIES(ptpx_heard, sync_tag, 40, 48);
    LIES(ptpx_heard, follow_tag, 48, 56);
    LIES(ptpx_heard, request_tag, 56, 64);
    LIES(ptpx_heard, response_tag, 64, 72);
}

static void places_in_exchanges(void)
{
    LIES(ptpx_exchange, t1, 0, 16);
    LIES(ptpx_exchange, t2, 16, 32);
    LIES(ptpx_exchange, t3, 32, 48);
    LIES(ptpx_exchange, t4, 48, 64);
    LIES(ptpx_exchange, age, 64, 80);
    LIES(ptpx_exchange, sync_correction, 80, 88);
    LIES(ptpx_exchange, follow_correction, 88, 96);
    LIES(ptpx_exchange, response_correction, 96, 104);
    LIES(ptpx_exchange, sync_number, 104, 106);
    LIES(ptpx_exchange, request_number, 106, 108);
}

static void numbers(void)
{
    const struct ptpx_signed least = {-1, (uint64_t)1 << 63}, most = {0, INT64_MAX}, above = {0, (uint64_t)1 << 63};
    const struct ptpx_signed below = {-2, UINT64_MAX}, minus_one = {-1, UINT64_MAX}, huge = {0x10000, 0};
    int64_t result = 7;
    CHECK(narrow(least) == INT64_MIN && narrow(most) == INT64_MAX && narrow(minus_one) == -1);
    CHECK(ptpx_signed_to_int64(above, &result) == PTPX_WIDE && ptpx_signed_to_int64(below, &result) == PTPX_WIDE);
    CHECK(result == 7);
    CHECK(ptpx_nanoseconds_of_twice(minus_one, &result) == PTPX_DONE && result == -1);
    CHECK(ptpx_nanoseconds_of_twice(above, &result) == PTPX_DONE && result == (int64_t)1 << 46);
    CHECK(ptpx_nanoseconds_of_twice(huge, &result) == PTPX_WIDE && result == (int64_t)1 << 46);
    CHECK(ptpx_signed_to_int64(most, NULL) == PTPX_NULL && ptpx_nanoseconds_of_twice(most, NULL) == PTPX_NULL);
}

static void versions(void)
{
    CHECK(ptpx_archive_version() == PTPX_VERSION_NUMBER);
    CHECK(PTPX_VERSION_NUMBER == PTPX_VERSION_MAJOR * 1000000 + PTPX_VERSION_MINOR * 1000 + PTPX_VERSION_PATCH);
}

static bool is_text(uint16_t number, const char *text)
{
    return strcmp(ptpx_error_text(number), text) == 0;
}

/* tests/numbers/run sees that each number has its text. */
static void texts(void)
{
    unsigned said = 0;
    CHECK(is_text(PTPX_DONE, "done") && is_text(PTPX_OTHER_VERSION, "versionPTP isn't 2"));
    CHECK(is_text(PTPX_NO_MOMENT, "no moment: it is below 0, or 2^48 s or more"));
    CHECK(is_text(PTPX_REASON_NO_MASTER, "the slave has no master"));
    CHECK(is_text(PTPX_NO_TIMESPEC, "no struct timespec: tv_nsec is below 0, or 10^9 or more"));
    CHECK(is_text(1, "no such number") && is_text(506, "no such number") && is_text(65535, "no such number"));
    for (unsigned number = 0; number <= UINT16_MAX; number++)
        said += !is_text((uint16_t)number, "no such number");
    CHECK(said == 43);
}

/* Twice a number of nanoseconds, and so many 2^-17 ns. */
static struct ptpx_signed twice_of(int64_t nanoseconds, int64_t more)
{
    struct ptpx_signed twice = {0, 0};
    CHECK(ptpx_result_of_nanoseconds(nanoseconds, &twice) == PTPX_DONE);
    if (more >= 0) {
        twice.low += (uint64_t)more;
        twice.high += twice.low < (uint64_t)more;
    } else {
        twice.high -= twice.low < (uint64_t)-more;
        twice.low -= (uint64_t)-more;
    }
    return twice;
}

static int64_t nearest_of(struct ptpx_signed twice)
{
    int64_t nanoseconds = 77;
    CHECK(ptpx_result_to_nanoseconds(twice, &nanoseconds) == PTPX_DONE);
    return nanoseconds;
}

/* A result of 2^-17 ns less than a half goes down, and a half and more goes up, also below 0. */
static void results(void)
{
    const struct ptpx_signed huge = {0x10000, 0}, wanted = {-1, UINT64_MAX - 131071};
    struct ptpx_signed twice = {7, 7};
    int64_t nanoseconds = 7;
    CHECK(is_signed(twice_of(-1, 0), wanted) && narrow(twice_of(3, 0)) == 3 * 131072);
    CHECK(nearest_of(twice_of(0, 65535)) == 0 && nearest_of(twice_of(0, 65536)) == 1);
    CHECK(nearest_of(twice_of(0, -65536)) == 0 && nearest_of(twice_of(0, -65537)) == -1);
    CHECK(nearest_of(twice_of(-5, -65536)) == -5 && nearest_of(twice_of(-5, 65536)) == -4);
    CHECK(nearest_of(twice_of(INT64_MAX, 65535)) == INT64_MAX && nearest_of(twice_of(INT64_MIN, -65536)) == INT64_MIN);
    CHECK(ptpx_result_to_nanoseconds(twice_of(INT64_MAX, 65536), &nanoseconds) == PTPX_WIDE && nanoseconds == 7);
    CHECK(ptpx_result_to_nanoseconds(twice_of(INT64_MIN, -65537), &nanoseconds) == PTPX_WIDE && nanoseconds == 7);
    CHECK(ptpx_result_to_nanoseconds(huge, &nanoseconds) == PTPX_WIDE && nanoseconds == 7);
    CHECK(ptpx_result_to_nanoseconds(huge, NULL) == PTPX_NULL && ptpx_result_of_nanoseconds(1, NULL) == PTPX_NULL);
    CHECK(twice.high == 7 && twice.low == 7);
}

/* The same with moments: INT64_MAX ns are 9223372036 s and 854775807 ns. */
static void moments(void)
{
    struct ptpx_time time = {7, 7};
    int64_t nanoseconds = 7;
    CHECK(ptpx_time_of_nanoseconds(-1, &time) == PTPX_NO_MOMENT && time.high == 7 && time.low == 7);
    CHECK(ptpx_time_of_nanoseconds(INT64_MIN, &time) == PTPX_NO_MOMENT);
    CHECK(ptpx_time_of_nanoseconds(0, &time) == PTPX_DONE && time.high == 0 && time.low == 0);
    CHECK(ptpx_time_of_nanoseconds(INT64_MAX, &time) == PTPX_DONE);
    CHECK(time.high == 0x7fff && time.low == UINT64_MAX - 65535);
    CHECK(ptpx_time_to_nanoseconds(time, &nanoseconds) == PTPX_DONE && nanoseconds == INT64_MAX);
    CHECK(ptpx_time_to_nanoseconds(at(9223372036, 854775807, 32767), &nanoseconds) == PTPX_DONE);
    CHECK(nanoseconds == INT64_MAX);
    CHECK(ptpx_time_to_nanoseconds(at(5, 6, 32767), &nanoseconds) == PTPX_DONE && nanoseconds == 5000000006);
    CHECK(ptpx_time_to_nanoseconds(at(5, 6, 32768), &nanoseconds) == PTPX_DONE && nanoseconds == 5000000007);
    CHECK(ptpx_time_to_nanoseconds(at(9223372036, 854775807, 32768), &nanoseconds) == PTPX_WIDE);
    CHECK(ptpx_time_to_nanoseconds(no_moment, &nanoseconds) == PTPX_NO_MOMENT && nanoseconds == 5000000007);
    CHECK(ptpx_time_to_nanoseconds(time, NULL) == PTPX_NULL && ptpx_time_of_nanoseconds(1, NULL) == PTPX_NULL);
}

/* Seconds and nanoseconds past the second, which are 0 to 999,999,999. */
static void timespecs(void)
{
    const struct ptpx_timestamp last = {((uint64_t)1 << 48) - 1, 999999999};
    struct timespec said;
    struct ptpx_time time = {7, 7}, same = {0, 0};
    said.tv_sec = 3;
    said.tv_nsec = 1000000000;
    CHECK(ptpx_time_of_timespec(&said, &time) == PTPX_NO_TIMESPEC);
    said.tv_nsec = -1;
    CHECK(ptpx_time_of_timespec(&said, &time) == PTPX_NO_TIMESPEC);
    said.tv_sec = -1;
    said.tv_nsec = 999999999;
    CHECK(ptpx_time_of_timespec(&said, &time) == PTPX_NO_MOMENT);
    said.tv_sec = (int64_t)1 << 48;
    CHECK(ptpx_time_of_timespec(&said, &time) == PTPX_NO_MOMENT && time.high == 7 && time.low == 7);
    said.tv_sec--;
    CHECK(ptpx_time_join(last, 0, &same) == PTPX_DONE && ptpx_time_of_timespec(&said, &time) == PTPX_DONE);
    CHECK(time.high == same.high && time.low == same.low);
    CHECK(ptpx_time_to_timespec(at(3, 999999999, 32767), &said) == PTPX_DONE && said.tv_sec == 3);
    CHECK(said.tv_nsec == 999999999 && ptpx_time_to_timespec(at(3, 999999999, 32768), &said) == PTPX_DONE);
    CHECK(said.tv_sec == 4 && said.tv_nsec == 0 && ptpx_time_to_timespec(no_moment, &said) == PTPX_NO_MOMENT);
    CHECK(ptpx_time_join(last, 65535, &time) == PTPX_DONE && ptpx_time_to_timespec(time, &said) == PTPX_DONE);
    CHECK(said.tv_sec == (int64_t)1 << 48 && said.tv_nsec == 0);
    CHECK(ptpx_time_to_timespec(time, NULL) == PTPX_NULL && ptpx_time_of_timespec(&said, NULL) == PTPX_NULL);
    CHECK(ptpx_time_of_timespec(NULL, &time) == PTPX_NULL);
}

static void timespecs_of_results(void)
{
    const struct ptpx_signed huge = {INT64_MAX, 0};
    struct timespec said;
    struct ptpx_signed twice = {0, 0};
    CHECK(ptpx_result_to_timespec(twice_of(-1, 0), &said) == PTPX_DONE);
    CHECK(said.tv_sec == -1 && said.tv_nsec == 999999999);
    CHECK(ptpx_result_of_timespec(&said, &twice) == PTPX_DONE && narrow(twice) == -131072);
    CHECK(ptpx_result_to_timespec(twice_of(-1000000001, 0), &said) == PTPX_DONE);
    CHECK(said.tv_sec == -2 && said.tv_nsec == 999999999);
    CHECK(ptpx_result_to_timespec(twice_of(2999999999, 65536), &said) == PTPX_DONE && said.tv_sec == 3);
    CHECK(said.tv_nsec == 0 && ptpx_result_to_timespec(twice_of(2999999999, 65535), &said) == PTPX_DONE);
    CHECK(said.tv_sec == 2 && said.tv_nsec == 999999999);
    CHECK(ptpx_result_to_timespec(huge, &said) == PTPX_WIDE && said.tv_sec == 2 && said.tv_nsec == 999999999);
    said.tv_nsec = 1000000000;
    CHECK(ptpx_result_of_timespec(&said, &twice) == PTPX_NO_TIMESPEC);
    said.tv_nsec = -1;
    CHECK(ptpx_result_of_timespec(&said, &twice) == PTPX_NO_TIMESPEC && narrow(twice) == -131072);
    CHECK(ptpx_result_to_timespec(huge, NULL) == PTPX_NULL && ptpx_result_of_timespec(NULL, &twice) == PTPX_NULL);
    CHECK(ptpx_result_of_timespec(&said, NULL) == PTPX_NULL);
}

static void times(void)
{
    const struct ptpx_timestamp last = {((uint64_t)1 << 48) - 1, 999999999}, late = {(uint64_t)1 << 48, 1000000000};
    const struct ptpx_timestamp long_second = {1, 1000000000};
    struct ptpx_timestamp timestamp = {3, 4};
    struct ptpx_time time = {0, 0};
    uint16_t fraction = 0;
    CHECK(ptpx_time_join(last, 65535, &time) == PTPX_DONE && time.high == 999999999 && time.low == UINT64_MAX);
    CHECK(ptpx_time_split(time, &timestamp, &fraction) == PTPX_DONE);
    CHECK(timestamp.seconds == last.seconds && timestamp.nanos == last.nanos && fraction == 65535);
    CHECK(ptpx_time_split(no_moment, &timestamp, &fraction) == PTPX_NO_MOMENT && fraction == 65535);
    CHECK(ptpx_time_join(late, 0, &time) == PTPX_SECONDS && ptpx_time_join(long_second, 0, &time) == PTPX_NANOSECONDS);
    CHECK(time.high == 999999999 && ptpx_time_join(last, 0, NULL) == PTPX_NULL);
    CHECK(ptpx_time_split(time, NULL, &fraction) == PTPX_NULL && ptpx_time_split(time, &timestamp, NULL) == PTPX_NULL);
}

static void brackets(void)
{
    const struct ptpx_timestamp one = {1, 0}, long_second = {1, 1000000000};
    const struct ptpx_signed wide = {(int64_t)1 << 32, 0};
    struct ptpx_signed a = {9, 9}, b = {9, 9}, twice = {9, 9};
    CHECK(ptpx_sync_bracket(at(1, 5, 1), one, 65536, 1, &a) == PTPX_DONE && narrow(a) == 4 * 65536);
    CHECK(ptpx_delay_bracket(one, 3, at(1, 0, 4), &b) == PTPX_DONE && narrow(b) == -7);
    CHECK(ptpx_offset2(a, b, &twice) == PTPX_DONE && narrow(twice) == 4 * 65536 + 7);
    CHECK(ptpx_path2(a, b, &twice) == PTPX_DONE && narrow(twice) == 4 * 65536 - 7);
    CHECK(ptpx_offset2(wide, b, &twice) == PTPX_NO_BRACKET && ptpx_path2(a, wide, &twice) == PTPX_NO_BRACKET);
    CHECK(ptpx_sync_bracket(no_moment, long_second, 0, 0, &a) == PTPX_NO_MOMENT && narrow(twice) == 4 * 65536 - 7);
    CHECK(ptpx_sync_bracket(at(1, 0, 0), long_second, 0, 0, &a) == PTPX_NANOSECONDS && narrow(a) == 4 * 65536);
    CHECK(ptpx_delay_bracket(one, 0, no_moment, &b) == PTPX_NO_MOMENT);
    CHECK(ptpx_delay_bracket(long_second, 0, at(1, 0, 0), &b) == PTPX_NANOSECONDS && narrow(b) == -7);
    CHECK(ptpx_sync_bracket(at(1, 0, 0), one, 0, 0, NULL) == PTPX_NULL);
    CHECK(ptpx_delay_bracket(one, 0, at(1, 0, 0), NULL) == PTPX_NULL);
    CHECK(ptpx_offset2(a, b, NULL) == PTPX_NULL && ptpx_path2(a, b, NULL) == PTPX_NULL);
}

static void check_fields(const struct ptpx_message *m)
{
    CHECK(m->kind == PTPX_DELAY_RESP && m->major_sdo == 10 && m->minor_version == 1);
    CHECK(m->domain == 0x04 && m->minor_sdo == 0x05 && m->flags[0] == 0x06 && m->flags[1] == 0x07);
    CHECK(m->correction == -0x7EFDFCF7F6F5F4F4);
    CHECK(memcmp(m->specific, distinct + 16, 4) == 0 && memcmp(m->source.clock, distinct + 20, 8) == 0);
    CHECK(m->source.port == 0x2829 && m->sequence == 0x3031 && m->control == 0x32 && m->log == -13);
    CHECK(m->timestamp.seconds == 0x343536373839 && m->timestamp.nanos == 0x2A3b3c3d);
    CHECK(memcmp(m->requesting.clock, distinct + 44, 8) == 0 && m->requesting.port == 0x4849);
    CHECK(m->suffix_length == 3);
}

static void codec(void)
{
    struct ptpx_message message;
    uint8_t buffer[60] = {0};
    size_t length = 0;
    memset(&message, 0, sizeof message);
    CHECK(ptpx_decode(distinct, sizeof distinct, &message) == PTPX_DONE);
    check_fields(&message);
    memset(buffer, 0xEE, sizeof buffer);
    CHECK(ptpx_encode(&message, distinct + 54, 3, buffer, sizeof buffer, &length) == PTPX_DONE && length == 57);
    CHECK(memcmp(buffer, distinct, 57) == 0 && is_all(buffer + 57, 0xEE, 3));
    CHECK(ptpx_encode(&message, NULL, 0, buffer, sizeof buffer, &length) == PTPX_DONE && length == 54);
    CHECK(ptpx_patch_correction(buffer, 54, -2) == PTPX_DONE);
    CHECK(ptpx_decode(buffer, 54, &message) == PTPX_DONE && message.correction == -2 && message.suffix_length == 0);
    CHECK(ptpx_patch_correction(buffer, 33, 0) == PTPX_SHORT);
}

static void refused_octets(void)
{
    uint8_t octets[57] = {0};
    struct ptpx_message message;
    memset(&message, 0x55, sizeof message);
    memcpy(octets, distinct, sizeof octets);
    CHECK(ptpx_decode(octets, 33, &message) == PTPX_SHORT && ptpx_decode(octets, 56, &message) == PTPX_TRUNCATED);
    octets[40] = 0x3b;
    octets[41] = 0x9a;
    octets[42] = 0xca;
    octets[43] = 0x00;
    CHECK(ptpx_decode(octets, 57, &message) == PTPX_STAMP_NANOSECONDS);
    octets[3] = 53;
    CHECK(ptpx_decode(octets, 57, &message) == PTPX_LENGTH_FIELD);
    octets[0] = 0xAB;
    CHECK(ptpx_decode(octets, 57, &message) == PTPX_OTHER_TYPE);
    octets[1] = 0x11;
    CHECK(ptpx_decode(octets, 57, &message) == PTPX_OTHER_VERSION && is_all(&message, 0x55, sizeof message));
    CHECK(ptpx_decode(NULL, 57, &message) == PTPX_NULL && ptpx_decode(octets, 57, NULL) == PTPX_NULL);
    CHECK(ptpx_decode(octets, (size_t)PTRDIFF_MAX + 1, &message) == PTPX_TOO_LONG);
}

static void refused_fields(void)
{
    static const uint8_t suffix[65536] = {0};
    static uint8_t buffer[66000];
    struct ptpx_message message;
    size_t length = 99;
    memset(&message, 0, sizeof message);
    CHECK(ptpx_encode(&message, NULL, 0, buffer, 43, &length) == PTPX_NO_ROOM);
    CHECK(ptpx_encode(&message, suffix, 65492, buffer, sizeof buffer, &length) == PTPX_SUFFIX_TOO_LONG);
    message.timestamp.nanos = 1000000000;
    CHECK(ptpx_encode(&message, NULL, 0, buffer, 44, &length) == PTPX_NANOSECONDS);
    message.timestamp.seconds = (uint64_t)1 << 48;
    CHECK(ptpx_encode(&message, NULL, 0, buffer, 44, &length) == PTPX_SECONDS);
    message.minor_version = 16;
    CHECK(ptpx_encode(&message, NULL, 0, buffer, 44, &length) == PTPX_NIBBLE);
    message.kind = 2;
    CHECK(ptpx_encode(&message, NULL, 0, buffer, 44, &length) == PTPX_NO_KIND);
    CHECK(length == 99 && is_all(buffer, 0, sizeof buffer));
    CHECK(ptpx_encode(NULL, NULL, 0, buffer, 44, &length) == PTPX_NULL);
    CHECK(ptpx_encode(&message, NULL, 1, buffer, 44, &length) == PTPX_NULL);
    CHECK(ptpx_encode(&message, NULL, 0, NULL, 44, &length) == PTPX_NULL);
    CHECK(ptpx_encode(&message, NULL, 0, buffer, 44, NULL) == PTPX_NULL);
    CHECK(ptpx_encode(&message, suffix, (size_t)PTRDIFF_MAX + 1, buffer, 44, &length) == PTPX_TOO_LONG);
    CHECK(ptpx_encode(&message, NULL, 0, buffer, (size_t)PTRDIFF_MAX + 1, &length) == PTPX_TOO_LONG);
    CHECK(ptpx_patch_correction(NULL, 44, 0) == PTPX_NULL);
    CHECK(ptpx_patch_correction(buffer, (size_t)PTRDIFF_MAX + 1, 0) == PTPX_TOO_LONG);
}

static void clocks(void)
{
    struct ptpx_stay stay = {{0, 0}, false};
    struct ptpx_master master;
    struct ptpx_message message;
    uint8_t octets[44] = {0};
    uint16_t number = 0;
    memset(&message, 0, sizeof message);
    memset(&master, 0, sizeof master);
    CHECK(ptpx_master_init(&master, &config_of_master, 0) == PTPX_DONE);
    CHECK(ptpx_master_next_sync(&master, octets, &number) == PTPX_DONE);
    CHECK(ptpx_clock_leave(&stay, octets, 44, at(2, 0, 0)) == PTPX_LEFT_ALREADY);
    CHECK(ptpx_clock_enter(&stay, at(1, 0, 0)) == PTPX_DONE && ptpx_clock_enter(&stay, no_moment) == PTPX_NO_MOMENT);
    CHECK(ptpx_clock_leave(&stay, octets, 44, no_moment) == PTPX_NO_MOMENT);
    CHECK(ptpx_clock_leave(&stay, octets, 44, at(1, 7, 3)) == PTPX_DONE);
    CHECK(ptpx_decode(octets, 44, &message) == PTPX_DONE && message.correction == 7 * 65536 + 3);
    CHECK(ptpx_clock_leave(&stay, octets, 44, at(1, 7, 3)) == PTPX_LEFT_ALREADY);
    CHECK(ptpx_clock_enter(&stay, at(1, 0, 0)) == PTPX_DONE);
    CHECK(ptpx_clock_leave(&stay, octets, 44, at(0, 0, 0)) == PTPX_NEGATIVE_RESIDENCE && !stay.inside);
    CHECK(ptpx_clock_enter(&stay, at(1, 0, 0)) == PTPX_DONE);
    CHECK(ptpx_clock_leave(&stay, octets, 33, at(2, 0, 0)) == PTPX_CLOCK_NO_MESSAGE);
    octets[0] = 8;
    CHECK(ptpx_clock_enter(&stay, at(1, 0, 0)) == PTPX_DONE);
    CHECK(ptpx_clock_leave(&stay, octets, 44, at(2, 0, 0)) == PTPX_NOT_EVENT);
    CHECK(ptpx_clock_enter(NULL, at(1, 0, 0)) == PTPX_NULL);
    CHECK(ptpx_clock_leave(NULL, octets, 44, at(1, 0, 0)) == PTPX_NULL);
    CHECK(ptpx_clock_leave(&stay, NULL, 44, at(1, 0, 0)) == PTPX_NULL);
    CHECK(ptpx_clock_leave(&stay, octets, (size_t)PTRDIFF_MAX + 1, at(1, 0, 0)) == PTPX_TOO_LONG);
}

static void masters(void)
{
    struct ptpx_master master = {config_of_slave, 9, 9, true, true};
    struct ptpx_message message;
    uint8_t octets[44] = {0};
    uint16_t number = 0;
    memset(&message, 0, sizeof message);
    CHECK(ptpx_master_init(&master, &config_of_master, 65535) == PTPX_DONE);
    CHECK(ptpx_master_sync_left(&master, 9, at(1, 0, 0), octets) == PTPX_NOT_WAITING && is_all(octets, 0, 44));
    CHECK(ptpx_master_next_sync(&master, octets, &number) == PTPX_DONE && number == 65535);
    CHECK(ptpx_decode(octets, 44, &message) == PTPX_DONE && message.kind == PTPX_SYNC && message.flags[0] == 2);
    CHECK(message.domain == 5 && message.log == -3 && message.source.port == 0x0107);
    CHECK(memcmp(message.source.clock, config_of_master.identity.clock, 8) == 0);
    CHECK(ptpx_master_one_step_sync(&master, no_moment, octets, &number) == PTPX_NO_MOMENT && number == 65535);
    CHECK(ptpx_master_one_step_sync(&master, at(3, 4, 5), octets, &number) == PTPX_DONE && number == 0);
    CHECK(ptpx_decode(octets, 44, &message) == PTPX_DONE && message.flags[0] == 0 && message.correction == 5);
    CHECK(ptpx_master_sync_left(&master, 65535, no_moment, octets) == PTPX_NO_MOMENT);
    CHECK(ptpx_master_sync_left(&master, 65535, at(6, 7, 8), octets) == PTPX_DONE);
    CHECK(ptpx_decode(octets, 44, &message) == PTPX_DONE && message.kind == PTPX_FOLLOW_UP);
    CHECK(message.timestamp.seconds == 6 && message.timestamp.nanos == 7 && message.correction == 8);
    CHECK(ptpx_master_sync_left(&master, 65535, at(6, 7, 8), octets) == PTPX_NOT_WAITING);
    CHECK(ptpx_master_init(NULL, &config_of_master, 0) == PTPX_NULL && ptpx_master_init(&master, NULL, 0) == PTPX_NULL);
    CHECK(ptpx_master_next_sync(NULL, octets, &number) == PTPX_NULL);
    CHECK(ptpx_master_next_sync(&master, NULL, &number) == PTPX_NULL);
    CHECK(ptpx_master_next_sync(&master, octets, NULL) == PTPX_NULL);
    CHECK(ptpx_master_one_step_sync(NULL, at(1, 0, 0), octets, &number) == PTPX_NULL);
    CHECK(ptpx_master_one_step_sync(&master, at(1, 0, 0), NULL, &number) == PTPX_NULL);
    CHECK(ptpx_master_one_step_sync(&master, at(1, 0, 0), octets, NULL) == PTPX_NULL);
    CHECK(ptpx_master_sync_left(NULL, 0, at(1, 0, 0), octets) == PTPX_NULL);
    CHECK(ptpx_master_sync_left(&master, 0, at(1, 0, 0), NULL) == PTPX_NULL);
}

/* A master that is still {0} and was never made; and one that was made and copied goes on. */
static void unmade_masters(void)
{
    struct ptpx_master unmade, made, copied;
    uint8_t octets[44] = {0}, response[54] = {0};
    uint16_t number = 7;
    memset(&unmade, 0, sizeof unmade);
    CHECK(ptpx_master_next_sync(&unmade, octets, &number) == PTPX_NULL);
    CHECK(ptpx_master_one_step_sync(&unmade, at(1, 0, 0), octets, &number) == PTPX_NULL);
    CHECK(ptpx_master_sync_left(&unmade, 0, at(1, 0, 0), octets) == PTPX_NULL);
    CHECK(ptpx_master_delay_req(&unmade, octets, 44, at(1, 0, 0), response) == PTPX_NULL);
    CHECK(number == 7 && is_all(octets, 0, 44) && is_all(response, 0, 54) && is_all(&unmade, 0, sizeof unmade));
    memset(&made, 0, sizeof made);
    CHECK(ptpx_master_init(&made, &config_of_master, 5) == PTPX_DONE);
    CHECK(ptpx_master_next_sync(&made, octets, &number) == PTPX_DONE && number == 5);
    copied = made;
    CHECK(ptpx_master_one_step_sync(&copied, at(1, 0, 0), octets, &number) == PTPX_DONE && number == 6);
    CHECK(ptpx_master_sync_left(&copied, 5, at(1, 0, 0), octets) == PTPX_DONE);
    CHECK(ptpx_master_next_sync(&copied, octets, &number) == PTPX_DONE && number == 7);
}

static void answers_of_masters(void)
{
    static struct ptpx_slave_memory memory;
    struct ptpx_master master;
    struct ptpx_slave slave = {NULL};
    struct ptpx_message message;
    uint8_t request[44] = {0}, response[54] = {0};
    uint16_t number = 0;
    memset(&message, 0, sizeof message);
    memset(&master, 0, sizeof master);
    CHECK(ptpx_master_init(&master, &config_of_master, 0) == PTPX_DONE);
    CHECK(ptpx_slave_init(&slave, &memory, sizeof memory, &config_of_slave, 300) == PTPX_DONE);
    CHECK(ptpx_slave_next_request(&slave, 1, request, &number) == PTPX_DONE && number == 300);
    CHECK(ptpx_master_delay_req(&master, request, 44, no_moment, response) == PTPX_NO_MOMENT);
    CHECK(ptpx_master_delay_req(&master, request, 43, at(1, 0, 0), response) == PTPX_MASTER_NO_MESSAGE);
    CHECK(ptpx_patch_correction(request, 44, INT64_MIN) == PTPX_DONE);
    CHECK(ptpx_master_delay_req(&master, request, 44, at(1, 0, 1), response) == PTPX_CORRECTION_TOO_LOW);
    request[4] = 6;
    CHECK(ptpx_master_delay_req(&master, request, 44, at(1, 0, 1), response) == PTPX_MASTER_OTHER_DOMAIN);
    request[0] = 0;
    CHECK(ptpx_master_delay_req(&master, request, 44, at(1, 0, 1), response) == PTPX_NOT_REQUEST);
    CHECK(is_all(response, 0, 54));
    CHECK(ptpx_master_delay_req(NULL, request, 44, at(1, 0, 1), response) == PTPX_NULL);
    CHECK(ptpx_master_delay_req(&master, NULL, 44, at(1, 0, 1), response) == PTPX_NULL);
    CHECK(ptpx_master_delay_req(&master, request, 44, at(1, 0, 1), NULL) == PTPX_NULL);
    CHECK(ptpx_master_delay_req(&master, request, (size_t)PTRDIFF_MAX + 1, at(1, 0, 1), response) == PTPX_TOO_LONG);
}

/* A message of this kind with this number, unicastFlag and logMessageInterval. */
static struct ptpx_message message_of(uint8_t kind, uint16_t number, bool is_unicast, int8_t log)
{
    struct ptpx_message message;
    memset(&message, 0, sizeof message);
    message.kind = kind;
    message.sequence = number;
    message.flags[0] = is_unicast ? 4 : 0xfb;
    message.log = log;
    return message;
}

static void refused_watches(void)
{
    static struct ptpx_watch_memory memory;
    const struct ptpx_message sync = message_of(PTPX_SYNC, 1, false, 0);
    const struct ptpx_message follow = message_of(PTPX_FOLLOW_UP, 1, false, 0);
    struct ptpx_watch watch = {NULL};
    uint16_t judgement = 77;
    CHECK(ptpx_watch_init(NULL, &memory, sizeof memory) == PTPX_NULL);
    CHECK(ptpx_watch_init(&watch, NULL, sizeof memory) == PTPX_NULL);
    CHECK(ptpx_watch_init(&watch, &memory, sizeof memory - 1) == PTPX_SMALL_MEMORY);
    CHECK(ptpx_watch_init(&watch, memory.octets + 8, sizeof memory) == PTPX_UNALIGNED_MEMORY);
    CHECK(ptpx_watch_sync(&watch, &sync, at(1, 0, 0), &judgement) == PTPX_NULL);
    CHECK(ptpx_watch_follow_up(&watch, &follow, at(1, 0, 0), &judgement) == PTPX_NULL);
    CHECK(ptpx_watch_init(&watch, &memory, sizeof memory) == PTPX_DONE);
    CHECK(ptpx_watch_sync(NULL, &sync, at(1, 0, 0), &judgement) == PTPX_NULL);
    CHECK(ptpx_watch_sync(&watch, NULL, at(1, 0, 0), &judgement) == PTPX_NULL);
    CHECK(ptpx_watch_sync(&watch, &sync, at(1, 0, 0), NULL) == PTPX_NULL);
    CHECK(ptpx_watch_follow_up(NULL, &follow, at(1, 0, 0), &judgement) == PTPX_NULL);
    CHECK(ptpx_watch_follow_up(&watch, NULL, at(1, 0, 0), &judgement) == PTPX_NULL);
    CHECK(ptpx_watch_follow_up(&watch, &follow, at(1, 0, 0), NULL) == PTPX_NULL);
    CHECK(ptpx_watch_sync(&watch, &follow, no_moment, &judgement) == PTPX_WRONG_KIND);
    CHECK(ptpx_watch_follow_up(&watch, &sync, no_moment, &judgement) == PTPX_WRONG_KIND);
    CHECK(ptpx_watch_sync(&watch, &sync, no_moment, &judgement) == PTPX_NO_MOMENT);
    CHECK(ptpx_watch_follow_up(&watch, &follow, no_moment, &judgement) == PTPX_NO_MOMENT);
    CHECK(judgement == 77);
}

/* What a watch says of a Sync, or of a Follow_Up, of this number at this time. */
static uint16_t of_sync(struct ptpx_watch *watch, uint16_t number, bool is_unicast, int8_t log, struct ptpx_time time)
{
    const struct ptpx_message message = message_of(PTPX_SYNC, number, is_unicast, log);
    uint16_t judgement = 77;
    CHECK(ptpx_watch_sync(watch, &message, time, &judgement) == PTPX_DONE);
    return judgement;
}

static uint16_t of_follow_up(struct ptpx_watch *watch, uint16_t number, bool is_unicast, struct ptpx_time time)
{
    const struct ptpx_message message = message_of(PTPX_FOLLOW_UP, number, is_unicast, 0);
    uint16_t judgement = 77;
    CHECK(ptpx_watch_follow_up(watch, &message, time, &judgement) == PTPX_DONE);
    return judgement;
}

/* A number that comes again, less than a second apart and a second apart. */
static void watches(void)
{
    static struct ptpx_watch_memory memory;
    struct ptpx_watch watch;
    CHECK(sizeof watch == 8 && ptpx_raw_watch_size() == PTPX_WATCH_SIZE && sizeof memory == PTPX_WATCH_SIZE);
    CHECK(ptpx_raw_watch_alignment() == PTPX_SLAVE_ALIGNMENT);
    CHECK(ptpx_watch_init(&watch, &memory, sizeof memory) == PTPX_DONE);
    CHECK(of_sync(&watch, 7, false, 0, at(10, 0, 0)) == PTPX_NEWER);
    CHECK(of_sync(&watch, 7, true, 0, at(20, 0, 0)) == PTPX_NEWER);
    CHECK(of_sync(&watch, 7, false, 0, at(10, 999999999, 65535)) == PTPX_REPEATED);
    CHECK(of_follow_up(&watch, 7, false, at(11, 0, 0)) == PTPX_REPEATED);
    CHECK(of_follow_up(&watch, 7, false, at(10, 999999999, 65535)) == PTPX_NEWER);
    CHECK(of_follow_up(&watch, 7, false, at(10, 0, 0)) == PTPX_REPEATED);
    CHECK(of_follow_up(&watch, 8, false, at(12, 0, 0)) == PTPX_NEWER);
    CHECK(of_sync(&watch, 8, false, 0, at(11, 0, 1)) == PTPX_NEWER);
    CHECK(of_follow_up(&watch, 9, false, at(12, 0, 0)) == PTPX_NEWER);
    CHECK(of_sync(&watch, 9, false, 0, at(11, 0, 0)) == PTPX_BEGAN_ANEW);
    CHECK(of_sync(&watch, 8, false, 0, at(11, 0, 0)) == PTPX_NEWER);
    CHECK(of_sync(&watch, 8, false, 0, at(12, 0, 0)) == PTPX_BEGAN_ANEW);
    CHECK(of_sync(&watch, 7, true, 0, at(12, 0, 0)) == PTPX_NEWER);
}

/* The Sync of number 100 at 50 s, in a watch that knows nothing else. */
static struct ptpx_watch watch_of_100(struct ptpx_watch_memory *memory)
{
    struct ptpx_watch watch = {NULL};
    CHECK(ptpx_watch_init(&watch, memory, sizeof *memory) == PTPX_DONE);
    CHECK(of_sync(&watch, 100, false, 0, at(50, 0, 0)) == PTPX_NEWER);
    return watch;
}

/* A number that doesn't fit to the newest one, by itself, by the time, and by the interval that is told. */
static void lives(void)
{
    static struct ptpx_watch_memory memory;
    static const struct {
        uint16_t number;
        int8_t log;
        uint64_t seconds;
        uint32_t nanos;
        uint16_t judgement;
    } rows[] = {
        {101, 0, 50, 0, PTPX_NEWER}, {116, 0, 50, 0, PTPX_NEWER}, {116, 6, 50, 0, PTPX_NEWER},
        {117, 0, 58, 499999999, PTPX_BEGAN_ANEW}, {117, 0, 58, 500000000, PTPX_NEWER},
        {117, -7, 50, 66406249, PTPX_BEGAN_ANEW}, {117, -7, 50, 66406250, PTPX_NEWER},
        {117, 6, 593, 999999999, PTPX_BEGAN_ANEW}, {117, 6, 594, 0, PTPX_NEWER},
        {117, 7, 50, 0, PTPX_NEWER}, {117, -8, 50, 0, PTPX_NEWER}, {117, 127, 50, 0, PTPX_NEWER},
        {356, 0, 178, 0, PTPX_NEWER}, {356, 0, 177, 999999999, PTPX_BEGAN_ANEW}, {357, 0, 1000, 0, PTPX_BEGAN_ANEW},
        {99, 0, 50, 999999999, PTPX_NEWER}, {99, 0, 51, 0, PTPX_BEGAN_ANEW}, {99, 0, 49, 0, PTPX_BEGAN_ANEW},
        {65381, 0, 50, 0, PTPX_NEWER}, {65380, 0, 50, 0, PTPX_BEGAN_ANEW}, {100, 0, 50, 5, PTPX_REPEATED},
    };
    for (size_t i = 0; i < sizeof rows / sizeof rows[0]; i++) {
        struct ptpx_watch watch = watch_of_100(&memory);
        const struct ptpx_time time = at(rows[i].seconds, rows[i].nanos, 0);
        CHECK(of_sync(&watch, rows[i].number, false, rows[i].log, time) == rows[i].judgement);
        CHECK(of_sync(&watch, 5000, true, rows[i].log, time) == PTPX_NEWER);
    }
}

/* A Follow_Up from afar, and one of a life that is over. */
static void follow_ups_of_lives(void)
{
    static struct ptpx_watch_memory memory;
    struct ptpx_watch watch = watch_of_100(&memory);
    CHECK(of_follow_up(&watch, 357, false, at(50, 0, 0)) == PTPX_REPEATED);
    CHECK(of_follow_up(&watch, 65380, false, at(50, 0, 0)) == PTPX_REPEATED);
    CHECK(of_follow_up(&watch, 357, true, at(50, 0, 0)) == PTPX_NEWER);
    CHECK(of_follow_up(&watch, 356, false, at(50, 0, 0)) == PTPX_NEWER);
    CHECK(of_follow_up(&watch, 65381, false, at(50, 0, 0)) == PTPX_NEWER);
    CHECK(of_sync(&watch, 0, false, 0, at(60, 0, 0)) == PTPX_BEGAN_ANEW);
    CHECK(of_follow_up(&watch, 356, false, at(60, 0, 0)) == PTPX_REPEATED);
    CHECK(of_follow_up(&watch, 0, false, at(60, 0, 0)) == PTPX_NEWER);
    CHECK(of_sync(&watch, 1, false, 0, at(61, 0, 0)) == PTPX_NEWER);
}

int main(void)
{
    sizes();
    places();
    places_in_messages();
    places_in_answers();
    places_in_exchanges();
    versions();
    texts();
    numbers();
    results();
    moments();
    timespecs();
    timespecs_of_results();
    times();
    brackets();
    codec();
    refused_octets();
    refused_fields();
    clocks();
    masters();
    unmade_masters();
    answers_of_masters();
    refused_watches();
    watches();
    lives();
    follow_ups_of_lives();
    printf("calls: %lu checks\n", checks_made);
    return 0;
}
