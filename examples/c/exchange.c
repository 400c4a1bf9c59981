/*
 * One exchange of a master, a transparent clock and a slave that is 1,000 ns ahead, as
 * examples/exchange.schedule.jsonl tells it: each message as its octets, and the report as ptpx replay writes it.
 *
 *     cc -std=c99 -I INCLUDE examples/c/exchange.c LIBRARY -o exchange
 */
#include <inttypes.h>
#include <stdio.h>
#include <stdlib.h>

#include "ptpx.h"

static void must(uint16_t refusal)
{
    if (refusal != PTPX_DONE) {
        fprintf(stderr, "refused %d\n", refusal);
        exit(1);
    }
}

static struct ptpx_time at(uint64_t seconds, uint32_t nanos, uint16_t fraction)
{
    struct ptpx_timestamp timestamp = {seconds, nanos};
    struct ptpx_time time = {0, 0};
    must(ptpx_time_join(timestamp, fraction, &time));
    return time;
}

static void print(const uint8_t *octets, size_t length)
{
    for (size_t i = 0; i < length; i++)
        printf("%02x", octets[i]);
    printf("\n");
}

static void through_clock(uint8_t *octets, size_t length, struct ptpx_time entered, struct ptpx_time left)
{
    struct ptpx_stay stay = {{0, 0}, false};
    must(ptpx_clock_enter(&stay, entered));
    must(ptpx_clock_leave(&stay, octets, length, left));
    print(octets, length);
}

int main(void)
{
    static struct ptpx_slave_memory memory;
    const struct ptpx_config of_master = {{{0x00, 0x11, 0x22, 0xff, 0xfe, 0x33, 0x44, 0x55}, 1}, 0, 0};
    const struct ptpx_config of_slave = {{{0x00, 0xaa, 0xbb, 0xff, 0xfe, 0xcc, 0xdd, 0xee}, 1}, 0, 0};
    struct ptpx_master master = {{{{0}, 0}, 0, 0}, 0, 0, false, false};
    struct ptpx_slave slave = {NULL};
    struct ptpx_heard heard = {0, 0, false, {0, 0}, {0, 0}, 0, 0, 0, 0};
    uint8_t sync[PTPX_SYNC_LENGTH] = {0}, follow[PTPX_FOLLOW_UP_LENGTH] = {0};
    uint8_t request[PTPX_DELAY_REQ_LENGTH] = {0}, response[PTPX_DELAY_RESP_LENGTH] = {0};
    uint16_t number = 0;
    int64_t offset2 = 0, path2 = 0;

    must(ptpx_master_init(&master, &of_master, 0));
    must(ptpx_slave_init(&slave, &memory, sizeof memory, &of_slave, 0));
    must(ptpx_slave_set_master(&slave, &of_master.identity));

    must(ptpx_master_next_sync(&master, sync, &number));
    print(sync, sizeof sync);
    through_clock(sync, sizeof sync, at(1, 500, 0), at(1, 2500, 0));
    must(ptpx_slave_sync(&slave, sync, sizeof sync, at(1, 4000, 0), 5, &heard));
    must(ptpx_master_sync_left(&master, number, at(1, 0, 0), follow));
    print(follow, sizeof follow);
    must(ptpx_slave_general(&slave, follow, sizeof follow, 7, &heard));

    must(ptpx_slave_next_request(&slave, 8, request, &number));
    print(request, sizeof request);
    must(ptpx_slave_request_left(&slave, number, at(2, 1000, 0)));
    through_clock(request, sizeof request, at(2, 500, 0), at(2, 4000, 16384));
    must(ptpx_master_delay_req(&master, request, sizeof request, at(2, 4500, 16384), response));
    print(response, sizeof response);
    must(ptpx_slave_general(&slave, response, sizeof response, 13, &heard));

    if (heard.kind != PTPX_REPORT) {
        fprintf(stderr, "no report: %d, %d\n", heard.kind, heard.reason);
        return 1;
    }
    must(ptpx_signed_to_int64(heard.offset2, &offset2));
    must(ptpx_signed_to_int64(heard.path2, &path2));
    printf("{\"copy\":11,\"ev\":\"hear\",\"n\":13,\"node\":\"S\",\"offset2\":\"%" PRId64 "\",\"out\":\"report\","
           "\"path2\":\"%" PRId64 "\",\"tags\":[%" PRIu64 ",%" PRIu64 ",%" PRIu64 ",%" PRIu64 "]}\n",
           offset2, path2, heard.sync_tag, heard.follow_tag, heard.request_tag, heard.response_tag);
    return 0;
}
