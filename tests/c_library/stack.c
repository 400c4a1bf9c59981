/*
 * How much stack the calls take, with the functions here that make them, seen on a stack of their own that was painted
 * before. Fails not far above what docs/EMBEDDING.md says. With WIDE the slave is a wide one. With LAZY the program is
 * one whose memcpy, memmove and memset are bound as they are first called, by the dynamic linker on the same stack.
 */
#define _GNU_SOURCE
#include <ucontext.h>

#include "check.h"
#include "kind.h"

#define STACK 262144
#define STACK_OF_WATCH 1024
#define PAINT 0x5C

#ifdef LAZY
#define STACK_OF_LINKER 8192
#define BINDING ", bound lazily"
#else
#define STACK_OF_LINKER 0
#define BINDING ""
#endif

static _Alignas(16) uint8_t stack[STACK];
static ucontext_t outside, inside;
static struct ptpx_slave_memory memory;
static struct ptpx_slave slave;
static struct ptpx_watch_memory known;
static struct ptpx_watch watch;
static struct ptpx_master master;
static uint8_t octets[54], response[54];

static void nothing(void)
{
}

static void slave_init(void)
{
    CHECK(ptpx_slave_init(&slave, &memory, sizeof memory, &config_of_slave, 0) == PTPX_DONE);
}

static void port_calls(void)
{
    struct ptpx_heard heard = {0, 0, false, {0, 0}, {0, 0}, 0, 0, 0, 0};
    struct ptpx_exchange last;
    const struct ptpx_time second = {0, (uint64_t)65536 * 1000000000};
    uint16_t number = 0;
    memset(&last, 0, sizeof last);
    CHECK(ptpx_master_init(&master, &config_of_master, 0) == PTPX_DONE);
    CHECK(ptpx_slave_set_master(&slave, &config_of_master.identity) == PTPX_DONE);
    CHECK(ptpx_master_next_sync(&master, octets, &number) == PTPX_DONE);
    CHECK(ptpx_slave_sync(&slave, octets, 44, second, 1, &heard) == PTPX_DONE && heard.kind == PTPX_HELD);
    CHECK(ptpx_master_sync_left(&master, number, second, octets) == PTPX_DONE);
    CHECK(ptpx_slave_general(&slave, octets, 44, 2, &heard) == PTPX_DONE && heard.kind == PTPX_COMPLETED);
    CHECK(ptpx_slave_next_request(&slave, 3, octets, &number) == PTPX_DONE);
    CHECK(ptpx_slave_request_left(&slave, number, second) == PTPX_DONE);
    CHECK(ptpx_master_delay_req(&master, octets, 44, second, response) == PTPX_DONE);
    CHECK(ptpx_slave_general(&slave, response, 54, 4, &heard) == PTPX_DONE && heard.kind == PTPX_REPORT);
    CHECK(ptpx_master_one_step_sync(&master, second, octets, &number) == PTPX_DONE);
    CHECK(ptpx_slave_sync(&slave, octets, 44, second, 5, &heard) == PTPX_DONE && heard.kind == PTPX_REPORT);
    CHECK(ptpx_slave_last(&slave, &last) == PTPX_DONE && last.sync_number == 1);
    CHECK(ptpx_slave_tick(&slave) == PTPX_DONE && ptpx_slave_restart(&slave, 0) == PTPX_DONE);
}

static void watch_init(void)
{
    CHECK(ptpx_watch_init(&watch, &known, sizeof known) == PTPX_DONE);
}

static void watch_calls(void)
{
    const struct ptpx_time zero = {0, 0};
    struct ptpx_message message;
    uint16_t judgement = 0;
    memset(&message, 0, sizeof message);
    CHECK(ptpx_watch_sync(&watch, &message, zero, &judgement) == PTPX_DONE && judgement == PTPX_NEWER);
    message.kind = PTPX_FOLLOW_UP;
    CHECK(ptpx_watch_follow_up(&watch, &message, zero, &judgement) == PTPX_DONE && judgement == PTPX_NEWER);
    message.kind = PTPX_SYNC;
    message.sequence = 1000;
    CHECK(ptpx_watch_sync(&watch, &message, zero, &judgement) == PTPX_DONE && judgement == PTPX_BEGAN_ANEW);
}

static void codec_calls(void)
{
    struct ptpx_message message;
    struct ptpx_stay stay = {{0, 0}, false};
    const struct ptpx_time zero = {0, 0};
    size_t length = 0;
    memset(&message, 0, sizeof message);
    CHECK(ptpx_encode(&message, NULL, 0, octets, sizeof octets, &length) == PTPX_DONE);
    CHECK(ptpx_decode(octets, length, &message) == PTPX_DONE && ptpx_patch_correction(octets, 44, 1) == PTPX_DONE);
    CHECK(ptpx_clock_enter(&stay, zero) == PTPX_DONE && ptpx_clock_leave(&stay, octets, 44, zero) == PTPX_DONE);
}

static void time_calls(void)
{
    struct ptpx_timestamp second = {1, 0};
    struct ptpx_time time = {0, 0};
    struct ptpx_signed a = {0, 0}, b = {0, 0}, twice = {0, 0};
    uint16_t fraction = 0;
    struct timespec spec = {0, 0};
    int64_t result = 0;
    CHECK(ptpx_time_join(second, 1, &time) == PTPX_DONE && ptpx_time_split(time, &second, &fraction) == PTPX_DONE);
    CHECK(ptpx_sync_bracket(time, second, 2, 3, &a) == PTPX_DONE);
    CHECK(ptpx_delay_bracket(second, 4, time, &b) == PTPX_DONE);
    CHECK(ptpx_offset2(a, b, &twice) == PTPX_DONE && ptpx_path2(a, b, &twice) == PTPX_DONE);
    CHECK(ptpx_signed_to_int64(twice, &result) == PTPX_DONE);
    CHECK(ptpx_nanoseconds_of_twice(twice, &result) == PTPX_DONE);
    CHECK(ptpx_result_to_nanoseconds(twice, &result) == PTPX_DONE);
    CHECK(ptpx_result_of_nanoseconds(result, &twice) == PTPX_DONE);
    CHECK(ptpx_result_to_timespec(twice, &spec) == PTPX_DONE && ptpx_result_of_timespec(&spec, &twice) == PTPX_DONE);
    CHECK(ptpx_time_to_nanoseconds(time, &result) == PTPX_DONE && ptpx_time_of_nanoseconds(result, &time) == PTPX_DONE);
    CHECK(ptpx_time_to_timespec(time, &spec) == PTPX_DONE && ptpx_time_of_timespec(&spec, &time) == PTPX_DONE);
    CHECK(ptpx_archive_version() == PTPX_VERSION_NUMBER);
}

/* How many octets of the stack the calls change. */
static size_t used(void (*calls)(void))
{
    size_t free_octets = 0;
    memset(stack, PAINT, sizeof stack);
    CHECK(getcontext(&inside) == 0);
    inside.uc_stack.ss_sp = stack;
    inside.uc_stack.ss_size = sizeof stack;
    inside.uc_link = &outside;
    makecontext(&inside, calls, 0);
    CHECK(swapcontext(&outside, &inside) == 0);
    while (free_octets < sizeof stack && stack[free_octets] == PAINT)
        free_octets++;
    return sizeof stack - free_octets;
}

int main(void)
{
    const size_t base = used(nothing);
    const size_t init = used(slave_init) - base, ports = used(port_calls) - base;
    const size_t codec = used(codec_calls) - base, times = used(time_calls) - base;
    const size_t watch_made = used(watch_init) - base, watches = used(watch_calls) - base;
    printf("stack" BINDING ": init of a " KIND " %zu, other calls of ports %zu, codec and clock %zu, times %zu octets\n",
           init, ports, codec, times);
    printf("stack" BINDING ": init of a watch %zu, its other calls %zu octets\n", watch_made, watches);
    CHECK(watch_made <= STACK_OF_WATCH + STACK_OF_LINKER && watches <= 1024 + STACK_OF_LINKER);
    CHECK(init <= STACK_OF_INIT + STACK_OF_LINKER && ports <= 1024 + STACK_OF_LINKER);
    CHECK(codec <= 768 + STACK_OF_LINKER && times <= 768 + STACK_OF_LINKER);
    return 0;
}
