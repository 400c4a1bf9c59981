/* What the tests of the library for C share. */
#ifndef CHECK_H
#define CHECK_H

#include <stdio.h>
#include <stdlib.h>
#include <string.h>

#include "ptpx.h"

static unsigned long checks_made;

#define CHECK(condition)                                                          \
    do {                                                                          \
        checks_made++;                                                            \
        if (!(condition)) {                                                       \
            fprintf(stderr, "FAILED %s:%d: %s\n", __FILE__, __LINE__, #condition); \
            exit(1);                                                              \
        }                                                                         \
    } while (0)

static const struct ptpx_config config_of_master = {{{0x00, 0x11, 0x22, 0xff, 0xfe, 0x33, 0x44, 0x55}, 0x0107}, 5, -3};
static const struct ptpx_config config_of_slave = {{{0x00, 0xaa, 0xbb, 0xff, 0xfe, 0xcc, 0xdd, 0xee}, 0x0209}, 5, 4};

static const struct ptpx_exchange no_exchange = {{0, 0}, {0, 0}, {0, 0}, {0, 0}, {0, 0}, 0, 0, 0, 0, 0};

/* 2^48 s, which is no moment. */
static const struct ptpx_time no_moment = {1000000000u, 0};

static inline struct ptpx_time at(uint64_t seconds, uint32_t nanos, uint16_t fraction)
{
    struct ptpx_timestamp timestamp = {seconds, nanos};
    struct ptpx_time time = {0, 0};
    CHECK(ptpx_time_join(timestamp, fraction, &time) == PTPX_DONE);
    return time;
}

static inline int64_t narrow(struct ptpx_signed value)
{
    int64_t result = 0;
    CHECK(ptpx_signed_to_int64(value, &result) == PTPX_DONE);
    return result;
}

static inline bool is_all(const void *memory, uint8_t octet, size_t length)
{
    const uint8_t *octets = (const uint8_t *)memory;
    for (size_t i = 0; i < length; i++)
        if (octets[i] != octet)
            return false;
    return true;
}

static inline bool is_signed(struct ptpx_signed value, struct ptpx_signed wanted)
{
    return value.high == wanted.high && value.low == wanted.low;
}

/* That a report's results are those of what it was made of. */
static inline void check_results(const struct ptpx_exchange *last, const struct ptpx_heard *heard)
{
    struct ptpx_timestamp departure = {0, 0}, arrival = {0, 0};
    struct ptpx_signed a = {0, 0}, b = {0, 0}, offset2 = {0, 0}, path2 = {0, 0};
    uint16_t fraction = 1;
    CHECK(ptpx_time_split(last->t1, &departure, &fraction) == PTPX_DONE && fraction == 0);
    CHECK(ptpx_time_split(last->t4, &arrival, &fraction) == PTPX_DONE && fraction == 0);
    CHECK(ptpx_sync_bracket(last->t2, departure, last->follow_correction, last->sync_correction, &a) == PTPX_DONE);
    CHECK(ptpx_delay_bracket(arrival, last->response_correction, last->t3, &b) == PTPX_DONE);
    CHECK(ptpx_offset2(a, b, &offset2) == PTPX_DONE && ptpx_path2(a, b, &path2) == PTPX_DONE);
    CHECK(is_signed(offset2, heard->offset2) && is_signed(path2, heard->path2));
}

#endif
