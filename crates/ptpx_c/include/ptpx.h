/*
 * ptpx for C: the delay request-response exchange of the Precision Time Protocol (IEEE 1588-2019), that is its
 * messages as octets, a master port, a slave port, and the stay of a message in an end-to-end one-step transparent
 * clock.
 *
 * Numbers. Each call answers 0, or the number of the first refusal that applies, in the order in which its comment
 * names them (enum ptpx_refusal). On a refusal nothing is written, and ports and stays are as before, unless the
 * comment says otherwise: so use what a call wrote only where it answered 0. 901 is answered before all others, where a
 * pointer is null or a master, a slave or a watch is still {0} and was never made, and then 902, where a length is more
 * than PTRDIFF_MAX; the comments don't repeat these two. ptpx_error_text has a number in words.
 *
 * Times. A moment is a whole number of 2^-16 ns since the beginning of the timescale, below 2^48 s, in two words
 * (struct ptpx_time). ptpx_time_of_timespec makes one of a struct timespec, ptpx_time_of_nanoseconds of a number of
 * nanoseconds, and ptpx_time_join of a timestamp of the protocol. The comments say whose clock each time is of. 0 is a
 * moment as any other: a stamp that the kernel leaves at 0, since there is none, isn't to be passed on.
 *
 * Messages. Over UDP event messages come to port 319 and general messages to port 320. Ethernet has no ports: there
 * messageType says it, the low four bits of the first octet: 0 to 7 are event messages, 8 to 15 general ones. Where
 * octets are no message (302, 401, 501), ptpx_decode says why (201 to 206).
 *
 * Memory. The library allocates nothing, keeps nothing between calls but in the structs that it is handed, and needs
 * of its surroundings memcpy, memmove and memset alone. A message that arrives is passed with the count of its octets;
 * octets past messageLength are padding.
 *
 * What the caller owes, since no call can see it:
 *   - Each pointer leads to an object of its type, which is that long where a length is passed, and aligned as its
 *     type is.
 *   - What lies behind each pointer is initialised, also where a call only writes it, and a bool there is 0 or 1:
 *     struct ptpx_heard heard = {0} (`= {}` in C++); uint8_t octets[44] = {0}. The memory of a slave or a watch alone
 *     needs no value. A master, a slave, a watch or a stay was made by its init or enter before any other call.
 *   - The objects of one call don't overlap, nor does one lie in the memory of a slave or a watch. So no call works in
 *     place.
 *   - The memory of a slave or a watch is left alone, and stays where it is, as long as that is used. Two of them don't
 *     share it, and a slave or a watch isn't copied and used twice. A stay that was copied would leave twice.
 *   - A call isn't cut off half way, by longjmp or by ending its task; what it was writing to is of no use then.
 *   - One call at a time uses an object. Where another thread goes on with it, a lock or a join orders the two. Calls
 *     with different objects may run at the same time.
 *
 * The calls named ptpx_raw_.. are proved to do what is said here, given what the caller owes. The inline functions in
 * this file, which test for null and for lengths before, are C and are tested.
 */
#ifndef PTPX_H
#define PTPX_H

/* The version of this header. That of the archive is ptpx_archive_version(), in the form of PTPX_VERSION_NUMBER. */
#define PTPX_VERSION_MAJOR 0
#define PTPX_VERSION_MINOR 9
#define PTPX_VERSION_PATCH 0
#define PTPX_VERSION_STRING "0.9.0"
#define PTPX_VERSION_NUMBER (PTPX_VERSION_MAJOR * 1000000 + PTPX_VERSION_MINOR * 1000 + PTPX_VERSION_PATCH)

/* There is an archive for these alone. */
#if defined(__SIZEOF_POINTER__) && __SIZEOF_POINTER__ != 8
#error "ptpx.h is 64-bit only: there is no archive for processors of 32 bits, as Cortex-M or 32-bit RISC-V"
#elif !(defined(__x86_64__) || defined(__aarch64__)) || defined(__AARCH64EB__) || !defined(__linux__)
#error "ptpx.h is for Linux on x86-64 or on little-endian aarch64: there is no archive for this target"
#endif

#include <stdbool.h>
#include <stddef.h>
#include <stdint.h>

#if !defined(__STDC_HOSTED__) || __STDC_HOSTED__
#include <time.h>
/* C has struct timespec from C11 on, C++ from C++17 on, and POSIX has it in each of them. */
#if (defined(__STDC_VERSION__) && __STDC_VERSION__ >= 201112L) || (defined(__cplusplus) && __cplusplus >= 201703L) \
    || (defined(_POSIX_C_SOURCE) && _POSIX_C_SOURCE >= 199309L)
#define PTPX_HAS_TIMESPEC
#endif
#endif

#ifdef __cplusplus
extern "C" {
#endif

#if defined(__GNUC__)
#define PTPX_WARN_UNUSED __attribute__((warn_unused_result))
#else
#define PTPX_WARN_UNUSED
#endif

#if defined(__cplusplus) && __cplusplus < 201103L
#error "ptpx.h is for C99 and later, and for C++11 and later"
#endif

#if defined(__cplusplus)
#define PTPX_ALIGNED alignas(16)
#elif defined(__STDC_VERSION__) && __STDC_VERSION__ >= 201112L
#define PTPX_ALIGNED _Alignas(16)
#elif defined(__GNUC__)
#define PTPX_ALIGNED __attribute__((aligned(16)))
#else
#define PTPX_ALIGNED
#endif

#if defined(__cplusplus)
#define PTPX_CAST(type, value) static_cast<type>(value)
#define PTPX_ADDRESS_OF(memory) reinterpret_cast<uintptr_t>(memory)
#else
#define PTPX_CAST(type, value) ((type)(value))
#define PTPX_ADDRESS_OF(memory) ((uintptr_t)(memory))
#endif

/* What the archive takes for granted of the compiler: else a program is refused here. */
#if defined(__cplusplus)
#define PTPX_HOLDS(name, condition) static_assert(condition, #name)
#elif defined(__STDC_VERSION__) && __STDC_VERSION__ >= 201112L
#define PTPX_HOLDS(name, condition) _Static_assert(condition, #name)
#else
#define PTPX_HOLDS(name, condition) typedef char ptpx_holds_##name[(condition) ? 1 : -1]
#endif

/* Why a call is refused. */
enum ptpx_refusal {
    PTPX_DONE = 0,
    PTPX_NO_MOMENT = 101,           /* no moment: it is below 0, or 2^48 s or more */
    PTPX_SECONDS = 102,             /* no timestamp: the seconds are 2^48 or more */
    PTPX_NANOSECONDS = 103,         /* no timestamp: the nanoseconds are 10^9 or more */
    PTPX_SHORT = 201,               /* there are fewer than the 34 octets of a header */
    PTPX_OTHER_VERSION = 202,       /* versionPTP isn't 2 */
    PTPX_OTHER_TYPE = 203,          /* messageType isn't Sync (0), Delay_Req (1), Follow_Up (8) or Delay_Resp (9) */
    PTPX_LENGTH_FIELD = 204,        /* messageLength is below 44, or 54 for a Delay_Resp */
    PTPX_TRUNCATED = 205,           /* there are fewer octets than messageLength */
    PTPX_STAMP_NANOSECONDS = 206,   /* the nanoseconds of the timestamp are 10^9 or more */
    PTPX_NO_ROOM = 211,             /* the buffer is shorter than the message */
    PTPX_SUFFIX_TOO_LONG = 212,     /* the suffix is too long: messageLength would pass 65535 */
    PTPX_NOT_WAITING = 301,         /* no Sync of this number waits for its departure time */
    PTPX_MASTER_NO_MESSAGE = 302,   /* the octets are no message */
    PTPX_NOT_REQUEST = 303,         /* the message is no Delay_Req */
    PTPX_MASTER_OTHER_DOMAIN = 304, /* domainNumber isn't that of the master */
    PTPX_CORRECTION_TOO_LOW = 305,  /* the correction of the Delay_Resp would be below -2^63 units of 2^-16 ns */
    PTPX_CLOCK_NO_MESSAGE = 401,    /* the octets are no message */
    PTPX_NOT_EVENT = 402,           /* the message is neither Sync nor Delay_Req */
    PTPX_NEGATIVE_RESIDENCE = 403,  /* the clock reads less than when the message entered */
    PTPX_NOT_HELD = 511,            /* no held Delay_Req has this number */
    PTPX_NULL = 901,                /* a pointer is null, or the master, slave or watch was never made */
    PTPX_TOO_LONG = 902,            /* a length is more than PTRDIFF_MAX */
    PTPX_NO_KIND = 903,             /* the type isn't Sync (0), Delay_Req (1), Follow_Up (8) or Delay_Resp (9) */
    PTPX_NIBBLE = 904,              /* majorSdoId or minorVersionPTP is 16 or more */
    PTPX_LEFT_ALREADY = 905,        /* no message stays: it left already, or never entered */
    PTPX_SMALL_MEMORY = 906,        /* the memory is smaller than a slave port, or than a watch */
    PTPX_UNALIGNED_MEMORY = 907,    /* the address of the memory isn't a multiple of 16 */
    PTPX_NO_BRACKET = 908,          /* a bracket isn't strictly between -2^96 and 2^96 */
    PTPX_WIDE = 909,                /* the number doesn't fit a signed number of 64 bits */
    PTPX_NO_EXCHANGE = 910, /* there is no last exchange: none was reported, or a half of it was dropped since */
    PTPX_NO_TIMESPEC = 911,         /* no struct timespec: tv_nsec is below 0, or 10^9 or more */
    PTPX_WRONG_KIND = 912           /* the message isn't of the type that the call is for */
};

/* Why a slave ignores a message, in the order in which it is tested. */
enum ptpx_reason {
    PTPX_REASON_NONE = 0,
    PTPX_REASON_NO_MESSAGE = 501,      /* the octets are no message */
    PTPX_REASON_WRONG_TYPE = 502,      /* the message is of another type than the ones that are heard here */
    PTPX_REASON_OTHER_DOMAIN = 503,    /* domainNumber isn't that of the slave */
    PTPX_REASON_NO_MASTER = 504,       /* the slave has no master */
    PTPX_REASON_OTHER_MASTER = 505,    /* sourcePortIdentity isn't that of the present master */
    PTPX_REASON_TOO_BIG = 507,         /* the correction is too big to be represented */
    PTPX_REASON_NOT_NEWER = 512,       /* sequenceId is neither that of the last Sync that was completed nor newer */
    PTPX_REASON_OTHER_REQUESTER = 508, /* requestingPortIdentity isn't that of the slave */
    PTPX_REASON_UNKNOWN_REQUEST = 509, /* no held Delay_Req has this sequenceId */
    PTPX_REASON_EGRESS_UNKNOWN = 510   /* it isn't known when the Delay_Req of this sequenceId left */
};

/* messageType (13.3.2.3). */
enum ptpx_kind { PTPX_SYNC = 0, PTPX_DELAY_REQ = 1, PTPX_FOLLOW_UP = 8, PTPX_DELAY_RESP = 9 };

/* How many octets the messages of a port have, all of which are to be sent. */
enum ptpx_length {
    PTPX_SYNC_LENGTH = 44,
    PTPX_DELAY_REQ_LENGTH = 44,
    PTPX_FOLLOW_UP_LENGTH = 44,
    PTPX_DELAY_RESP_LENGTH = 54
};

/* A moment: high * 2^64 + low units of 2^-16 ns, below 2^48 s. */
struct ptpx_time {
    uint64_t high;
    uint64_t low;
};

/* A signed number: high * 2^64 + low. */
struct ptpx_signed {
    int64_t high;
    uint64_t low;
};

/* A timestamp (5.3.3): seconds below 2^48, nanoseconds below 10^9. */
struct ptpx_timestamp {
    uint64_t seconds;
    uint32_t nanos;
};

/* A portIdentity (5.3.5): clockIdentity and portNumber. */
struct ptpx_identity {
    uint8_t clock[8];
    uint16_t port;
};

/* The fields of a message (13.3, 13.6 to 13.8). versionPTP is 2. */
struct ptpx_message {
    uint8_t kind;                    /* messageType, one of enum ptpx_kind */
    uint8_t domain;                  /* domainNumber */
    uint8_t major_sdo;               /* majorSdoId, 0 to 15 */
    uint8_t minor_sdo;               /* minorSdoId */
    uint8_t minor_version;           /* minorVersionPTP, 0 to 15 */
    uint8_t flags[2];                /* flagField; the twoStepFlag is 0x02 of flags[0] */
    int64_t correction;              /* correctionField, in 2^-16 ns; INT64_MAX says too big */
    uint8_t specific[4];             /* messageTypeSpecific */
    struct ptpx_identity source;     /* sourcePortIdentity */
    uint16_t sequence;               /* sequenceId */
    int8_t log;                      /* logMessageInterval */
    uint8_t control;                 /* controlField */
    struct ptpx_timestamp timestamp; /* originTimestamp, preciseOriginTimestamp or receiveTimestamp */
    struct ptpx_identity requesting; /* requestingPortIdentity of a Delay_Resp, else 0 */
    uint16_t suffix_length;          /* octets from the end of the fields to messageLength: the TLVs */
};

/* What a port is set up with. */
struct ptpx_config {
    struct ptpx_identity identity; /* its portIdentity, which no other port of the network has */
    uint8_t domain;                /* its domainNumber */
    int8_t log;                    /* logMessageInterval of what a master writes; a slave doesn't use it */
};

/* A message's stay in a transparent clock. The fields are the library's. */
struct ptpx_stay {
    struct ptpx_time entered;
    bool inside;
};

/* A master port. The fields are the library's; the struct may be copied to go on with the copy. */
struct ptpx_master {
    struct ptpx_config config;
    uint16_t next;
    uint16_t waiting;
    bool waits;
    bool made;
};

/* A slave port, which holds 16 Syncs, 16 Follow_Ups and 16 Delay_Reqs at most. The field is the library's. */
struct ptpx_slave {
    uint8_t *memory;
};

/* A wide slave port, which holds 256 of each at most. The field is the library's. */
struct ptpx_wide_slave {
    uint8_t *memory;
};

/*
 * What the memory of a slave port takes, what that of a wide one takes, and what their addresses are a multiple of.
 * ptpx_raw_slave_size, ptpx_raw_slave_alignment and those of a wide slave tell the archive's.
 */
#define PTPX_SLAVE_SIZE 2992
#define PTPX_WIDE_SLAVE_SIZE 42352
#define PTPX_SLAVE_ALIGNMENT 16

/* Memory for a slave port, aligned by C11, C++11 and GNU C. With another compiler see to it, or 907 is answered. */
struct ptpx_slave_memory {
    PTPX_ALIGNED uint8_t octets[PTPX_SLAVE_SIZE];
};

/* The same for a wide slave port. */
struct ptpx_wide_slave_memory {
    PTPX_ALIGNED uint8_t octets[PTPX_WIDE_SLAVE_SIZE];
};

/* What is known of the numbers of a master's last 256 Syncs and last 256 Follow_Ups. The field is the library's. */
struct ptpx_watch {
    uint8_t *memory;
};

/* What the memory of a watch takes. Its address is a multiple of what that of a slave port is. */
#define PTPX_WATCH_SIZE 37152

/* Memory for a watch. */
struct ptpx_watch_memory {
    PTPX_ALIGNED uint8_t octets[PTPX_WATCH_SIZE];
};

/* What the number of a master's Sync or Follow_Up says. */
enum ptpx_judgement {
    PTPX_NEWER = 0,     /* nothing: the slave is to hear it */
    PTPX_REPEATED = 1,  /* it came before, or is a Follow_Up of another Sync: the slave isn't to hear it */
    PTPX_BEGAN_ANEW = 2 /* the master began its numbers anew: the slave is to be told it again, and then to hear it */
};

/* What became of a message. */
enum ptpx_answer {
    PTPX_HELD = 0,      /* it is held, and waits for the message that it pairs with */
    PTPX_COMPLETED = 1, /* it completed one half of a report, and the other half isn't there */
    PTPX_REPORT = 2,    /* it completed one half of a report, and the other half is there */
    PTPX_IGNORED = 3    /* it isn't used, and nothing changed */
};

/* The answer to a message. A report is of one Sync and one Delay_Req, which the tags name, as the calls gave them. */
struct ptpx_heard {
    uint16_t kind;              /* one of enum ptpx_answer */
    uint16_t reason;            /* why it is ignored, one of enum ptpx_reason; else 0 */
    bool one_step;              /* whether the Sync of a report is a one-step Sync, which has no Follow_Up */
    /* The others are of a report, else 0. */
    struct ptpx_signed offset2; /* twice offsetFromMaster in 2^-16 ns, positive where the slave is ahead */
    struct ptpx_signed path2;   /* twice meanPathDelay in 2^-16 ns */
    uint64_t sync_tag;          /* the tag of its Sync */
    uint64_t follow_tag;        /* the tag of its Follow_Up, 0 where it has none */
    uint64_t request_tag;       /* the tag of its Delay_Req */
    uint64_t response_tag;      /* the tag of its Delay_Resp */
};

/*
 * What a report was made of. Its results are offset2 = a - b and path2 = a + b of the brackets
 * a = t2 - (t1 + follow_correction) - sync_correction and b = t4 - response_correction - t3. Corrections and age are in
 * 2^-16 ns. A fraction of a nanosecond of t1 or t4 is part of the correction that its message brought.
 */
struct ptpx_exchange {
    struct ptpx_time t1;         /* when the Sync left, by the master's clock, in whole nanoseconds */
    struct ptpx_time t2;         /* when it arrived, by the slave's clock */
    struct ptpx_time t3;         /* when the Delay_Req left, by the slave's clock */
    struct ptpx_time t4;         /* when it arrived, by the master's clock, in whole nanoseconds */
    struct ptpx_signed age;      /* how much older the older half is than the newer one: the time between t2 and t3 */
    int64_t sync_correction;     /* the correction of the Sync */
    int64_t follow_correction;   /* that of its Follow_Up, 0 where the Sync is one-step */
    int64_t response_correction; /* that of the Delay_Resp */
    uint16_t sync_number;        /* sequenceId of the Sync */
    uint16_t request_number;     /* sequenceId of the Delay_Req */
};

/* Where the archive takes the fields to lie, which a struct that is packed by a flag or a pragma has elsewhere. */
#define PTPX_LIES(type, field, octet) (offsetof(struct type, field) == (octet))
PTPX_HOLDS(layout_of_pointers, sizeof(void *) == 8 && sizeof(size_t) == 8 && sizeof(bool) == 1);
PTPX_HOLDS(layout_of_time, sizeof(struct ptpx_time) == 16 && PTPX_LIES(ptpx_time, low, 8));
PTPX_HOLDS(layout_of_signed, sizeof(struct ptpx_signed) == 16 && PTPX_LIES(ptpx_signed, low, 8));
PTPX_HOLDS(layout_of_timestamp, sizeof(struct ptpx_timestamp) == 16 && PTPX_LIES(ptpx_timestamp, nanos, 8));
PTPX_HOLDS(layout_of_identity, sizeof(struct ptpx_identity) == 10 && PTPX_LIES(ptpx_identity, port, 8));
PTPX_HOLDS(layout_of_config, sizeof(struct ptpx_config) == 12 && PTPX_LIES(ptpx_config, domain, 10)
                                 && PTPX_LIES(ptpx_config, log, 11));
PTPX_HOLDS(layout_of_message,
           sizeof(struct ptpx_message) == 72 && PTPX_LIES(ptpx_message, flags, 5)
               && PTPX_LIES(ptpx_message, correction, 8) && PTPX_LIES(ptpx_message, specific, 16)
               && PTPX_LIES(ptpx_message, source, 20)
               && PTPX_LIES(ptpx_message, sequence, 30) && PTPX_LIES(ptpx_message, log, 32)
               && PTPX_LIES(ptpx_message, control, 33) && PTPX_LIES(ptpx_message, timestamp, 40)
               && PTPX_LIES(ptpx_message, requesting, 56) && PTPX_LIES(ptpx_message, suffix_length, 66));
PTPX_HOLDS(layout_of_stay, sizeof(struct ptpx_stay) == 24 && PTPX_LIES(ptpx_stay, inside, 16));
PTPX_HOLDS(layout_of_master, sizeof(struct ptpx_master) == 18 && PTPX_LIES(ptpx_master, next, 12)
                                 && PTPX_LIES(ptpx_master, waiting, 14) && PTPX_LIES(ptpx_master, waits, 16)
                                 && PTPX_LIES(ptpx_master, made, 17));
PTPX_HOLDS(layout_of_slave, sizeof(struct ptpx_slave) == 8 && sizeof(struct ptpx_wide_slave) == 8);
PTPX_HOLDS(layout_of_memory, sizeof(struct ptpx_slave_memory) == PTPX_SLAVE_SIZE
                                 && sizeof(struct ptpx_wide_slave_memory) == PTPX_WIDE_SLAVE_SIZE);
PTPX_HOLDS(layout_of_watch, sizeof(struct ptpx_watch) == 8 && sizeof(struct ptpx_watch_memory) == PTPX_WATCH_SIZE);
PTPX_HOLDS(layout_of_heard, sizeof(struct ptpx_heard) == 72 && PTPX_LIES(ptpx_heard, reason, 2)
                                && PTPX_LIES(ptpx_heard, one_step, 4) && PTPX_LIES(ptpx_heard, offset2, 8)
                                && PTPX_LIES(ptpx_heard, path2, 24) && PTPX_LIES(ptpx_heard, sync_tag, 40)
                                && PTPX_LIES(ptpx_heard, follow_tag, 48) && PTPX_LIES(ptpx_heard, request_tag, 56)
                                && PTPX_LIES(ptpx_heard, response_tag, 64));
PTPX_HOLDS(layout_of_exchange,
           sizeof(struct ptpx_exchange) == 112 && PTPX_LIES(ptpx_exchange, t2, 16) && PTPX_LIES(ptpx_exchange, t3, 32)
               && PTPX_LIES(ptpx_exchange, t4, 48) && PTPX_LIES(ptpx_exchange, age, 64)
               && PTPX_LIES(ptpx_exchange, sync_correction, 80) && PTPX_LIES(ptpx_exchange, follow_correction, 88)
               && PTPX_LIES(ptpx_exchange, response_correction, 96) && PTPX_LIES(ptpx_exchange, sync_number, 104)
               && PTPX_LIES(ptpx_exchange, request_number, 106));
#undef PTPX_LIES
#undef PTPX_HOLDS

/* The library's own calls. Use the inline functions below. */
uint32_t ptpx_raw_version(void);
uint16_t ptpx_raw_signed_to_int64(struct ptpx_signed value, int64_t *narrow);
uint16_t ptpx_raw_nanoseconds_of_twice(struct ptpx_signed twice, int64_t *nanoseconds);
void ptpx_raw_result_of_nanoseconds(int64_t nanoseconds, struct ptpx_signed *twice);
uint16_t ptpx_raw_result_to_nanoseconds(struct ptpx_signed twice, int64_t *nanoseconds);
uint16_t ptpx_raw_result_of_timespec(int64_t seconds, int64_t nanoseconds, struct ptpx_signed *twice);
uint16_t ptpx_raw_result_to_timespec(struct ptpx_signed twice, int64_t *seconds, int64_t *nanoseconds);
uint16_t ptpx_raw_time_of_nanoseconds(int64_t nanoseconds, struct ptpx_time *time);
uint16_t ptpx_raw_time_to_nanoseconds(struct ptpx_time time, int64_t *nanoseconds);
uint16_t ptpx_raw_time_of_timespec(int64_t seconds, int64_t nanoseconds, struct ptpx_time *time);
uint16_t ptpx_raw_time_to_timespec(struct ptpx_time time, int64_t *seconds, int64_t *nanoseconds);
uint16_t ptpx_raw_time_join(struct ptpx_timestamp timestamp, uint16_t fraction, struct ptpx_time *time);
uint16_t ptpx_raw_time_split(struct ptpx_time time, struct ptpx_timestamp *timestamp, uint16_t *fraction);
uint16_t ptpx_raw_sync_bracket(struct ptpx_time t2, struct ptpx_timestamp precise, int64_t c_follow, int64_t c_sync,
                               struct ptpx_signed *bracket);
uint16_t ptpx_raw_delay_bracket(struct ptpx_timestamp receive, int64_t c_resp, struct ptpx_time t3,
                                struct ptpx_signed *bracket);
uint16_t ptpx_raw_offset2(struct ptpx_signed a, struct ptpx_signed b, struct ptpx_signed *twice);
uint16_t ptpx_raw_path2(struct ptpx_signed a, struct ptpx_signed b, struct ptpx_signed *twice);
uint16_t ptpx_raw_decode(const uint8_t *octets, size_t length, struct ptpx_message *message);
uint16_t ptpx_raw_encode(const struct ptpx_message *message, const uint8_t *suffix, size_t suffix_length,
                         uint8_t *buffer, size_t room, size_t *length);
uint16_t ptpx_raw_patch_correction(uint8_t *octets, size_t length, int64_t correction);
uint16_t ptpx_raw_clock_enter(struct ptpx_stay *stay, struct ptpx_time reading);
uint16_t ptpx_raw_clock_leave(struct ptpx_stay *stay, uint8_t *octets, size_t length, struct ptpx_time reading);
void ptpx_raw_master_init(struct ptpx_master *master, const struct ptpx_config *config, uint16_t first);
void ptpx_raw_master_next_sync(struct ptpx_master *master, uint8_t *octets, uint16_t *number);
uint16_t ptpx_raw_master_one_step_sync(struct ptpx_master *master, struct ptpx_time t1, uint8_t *octets,
                                       uint16_t *number);
uint16_t ptpx_raw_master_sync_left(struct ptpx_master *master, uint16_t number, struct ptpx_time t1, uint8_t *octets);
uint16_t ptpx_raw_master_delay_req(const struct ptpx_master *master, const uint8_t *octets, size_t length,
                                   struct ptpx_time t4, uint8_t *response);
size_t ptpx_raw_slave_size(void);
size_t ptpx_raw_slave_alignment(void);
void ptpx_raw_slave_init(struct ptpx_slave *slave, const struct ptpx_config *config, uint16_t first);
void ptpx_raw_slave_restart(struct ptpx_slave *slave, uint16_t first);
void ptpx_raw_slave_set_master(struct ptpx_slave *slave, const struct ptpx_identity *master);
void ptpx_raw_slave_tick(struct ptpx_slave *slave);
void ptpx_raw_slave_next_request(struct ptpx_slave *slave, uint64_t tag, uint8_t *octets, uint16_t *number);
uint16_t ptpx_raw_slave_request_left(struct ptpx_slave *slave, uint16_t number, struct ptpx_time t3);
uint16_t ptpx_raw_slave_sync(struct ptpx_slave *slave, const uint8_t *octets, size_t length, struct ptpx_time t2,
                             uint64_t tag, struct ptpx_heard *heard);
void ptpx_raw_slave_general(struct ptpx_slave *slave, const uint8_t *octets, size_t length, uint64_t tag,
                            struct ptpx_heard *heard);
uint16_t ptpx_raw_slave_last(const struct ptpx_slave *slave, struct ptpx_exchange *exchange);
size_t ptpx_raw_wide_slave_size(void);
size_t ptpx_raw_wide_slave_alignment(void);
void ptpx_raw_wide_slave_init(struct ptpx_wide_slave *slave, const struct ptpx_config *config, uint16_t first);
void ptpx_raw_wide_slave_restart(struct ptpx_wide_slave *slave, uint16_t first);
void ptpx_raw_wide_slave_set_master(struct ptpx_wide_slave *slave, const struct ptpx_identity *master);
void ptpx_raw_wide_slave_tick(struct ptpx_wide_slave *slave);
void ptpx_raw_wide_slave_next_request(struct ptpx_wide_slave *slave, uint64_t tag, uint8_t *octets, uint16_t *number);
uint16_t ptpx_raw_wide_slave_request_left(struct ptpx_wide_slave *slave, uint16_t number, struct ptpx_time t3);
uint16_t ptpx_raw_wide_slave_sync(struct ptpx_wide_slave *slave, const uint8_t *octets, size_t length,
                                  struct ptpx_time t2, uint64_t tag, struct ptpx_heard *heard);
void ptpx_raw_wide_slave_general(struct ptpx_wide_slave *slave, const uint8_t *octets, size_t length, uint64_t tag,
                                 struct ptpx_heard *heard);
uint16_t ptpx_raw_wide_slave_last(const struct ptpx_wide_slave *slave, struct ptpx_exchange *exchange);
void ptpx_raw_watch_init(struct ptpx_watch *watch);
uint16_t ptpx_raw_watch_sync(struct ptpx_watch *watch, uint16_t number, bool is_unicast, int8_t log,
                             struct ptpx_time time, uint16_t *judgement);
uint16_t ptpx_raw_watch_follow_up(struct ptpx_watch *watch, uint16_t number, bool is_unicast, int8_t log,
                                  struct ptpx_time time, uint16_t *judgement);
size_t ptpx_raw_watch_size(void);
size_t ptpx_raw_watch_alignment(void);

/* ---- the version, and numbers in words ---- */

/* The version of the archive. Where it isn't PTPX_VERSION_NUMBER, the archive isn't the one of this header. */
PTPX_WARN_UNUSED
static inline uint32_t ptpx_archive_version(void)
{
    return ptpx_raw_version();
}

/* A number of enum ptpx_refusal or enum ptpx_reason in English words. Of any other number: "no such number". */
PTPX_WARN_UNUSED
static inline const char *ptpx_error_text(uint16_t number)
{
    switch (number) {
    case 0: return "done";
    case PTPX_NO_MOMENT: return "no moment: it is below 0, or 2^48 s or more";
    case PTPX_SECONDS: return "no timestamp: the seconds are 2^48 or more";
    case PTPX_NANOSECONDS: return "no timestamp: the nanoseconds are 10^9 or more";
    case PTPX_SHORT: return "there are fewer than the 34 octets of a header";
    case PTPX_OTHER_VERSION: return "versionPTP isn't 2";
    case PTPX_OTHER_TYPE: return "messageType isn't Sync (0), Delay_Req (1), Follow_Up (8) or Delay_Resp (9)";
    case PTPX_LENGTH_FIELD: return "messageLength is below 44, or 54 for a Delay_Resp";
    case PTPX_TRUNCATED: return "there are fewer octets than messageLength";
    case PTPX_STAMP_NANOSECONDS: return "the nanoseconds of the timestamp are 10^9 or more";
    case PTPX_NO_ROOM: return "the buffer is shorter than the message";
    case PTPX_SUFFIX_TOO_LONG: return "the suffix is too long: messageLength would pass 65535";
    case PTPX_NOT_WAITING: return "no Sync of this number waits for its departure time";
    case PTPX_MASTER_NO_MESSAGE: return "the octets are no message";
    case PTPX_NOT_REQUEST: return "the message is no Delay_Req";
    case PTPX_MASTER_OTHER_DOMAIN: return "domainNumber isn't that of the master";
    case PTPX_CORRECTION_TOO_LOW: return "the correction of the Delay_Resp would be below -2^63 units of 2^-16 ns";
    case PTPX_CLOCK_NO_MESSAGE: return "the octets are no message";
    case PTPX_NOT_EVENT: return "the message is neither Sync nor Delay_Req";
    case PTPX_NEGATIVE_RESIDENCE: return "the clock reads less than when the message entered";
    case PTPX_NOT_HELD: return "no held Delay_Req has this number";
    case PTPX_NULL: return "a pointer is null, or the master, slave or watch was never made";
    case PTPX_TOO_LONG: return "a length is more than PTRDIFF_MAX";
    case PTPX_NO_KIND: return "the type isn't Sync (0), Delay_Req (1), Follow_Up (8) or Delay_Resp (9)";
    case PTPX_NIBBLE: return "majorSdoId or minorVersionPTP is 16 or more";
    case PTPX_LEFT_ALREADY: return "no message stays: it left already, or never entered";
    case PTPX_SMALL_MEMORY: return "the memory is smaller than a slave port, or than a watch";
    case PTPX_UNALIGNED_MEMORY: return "the address of the memory isn't a multiple of 16";
    case PTPX_NO_BRACKET: return "a bracket isn't strictly between -2^96 and 2^96";
    case PTPX_WIDE: return "the number doesn't fit a signed number of 64 bits";
    case PTPX_NO_EXCHANGE: return "there is no last exchange: none was reported, or a half of it was dropped since";
    case PTPX_NO_TIMESPEC: return "no struct timespec: tv_nsec is below 0, or 10^9 or more";
    case PTPX_WRONG_KIND: return "the message isn't of the type that the call is for";
    case PTPX_REASON_NO_MESSAGE: return "the octets are no message";
    case PTPX_REASON_WRONG_TYPE: return "the message is of another type than the ones that are heard here";
    case PTPX_REASON_OTHER_DOMAIN: return "domainNumber isn't that of the slave";
    case PTPX_REASON_NO_MASTER: return "the slave has no master";
    case PTPX_REASON_OTHER_MASTER: return "sourcePortIdentity isn't that of the present master";
    case PTPX_REASON_TOO_BIG: return "the correction is too big to be represented";
    case PTPX_REASON_NOT_NEWER: return "sequenceId is neither that of the last Sync that was completed nor newer";
    case PTPX_REASON_OTHER_REQUESTER: return "requestingPortIdentity isn't that of the slave";
    case PTPX_REASON_UNKNOWN_REQUEST: return "no held Delay_Req has this sequenceId";
    case PTPX_REASON_EGRESS_UNKNOWN: return "it isn't known when the Delay_Req of this sequenceId left";
    default: return "no such number";
    }
}

/* ---- numbers ---- */

/* The number in 64 bits. 909 where it doesn't fit. */
PTPX_WARN_UNUSED
static inline uint16_t ptpx_signed_to_int64(struct ptpx_signed value, int64_t *narrow)
{
    if (narrow == NULL)
        return PTPX_NULL;
    return ptpx_raw_signed_to_int64(value, narrow);
}

/*
 * A result in nanoseconds, that is half of offset2 or path2, rounded to the nearest, and a half to the greater: -0.5 ns
 * becomes 0, and 0.5 ns becomes 1. 909 where that doesn't fit 64 bits.
 */
PTPX_WARN_UNUSED
static inline uint16_t ptpx_result_to_nanoseconds(struct ptpx_signed twice, int64_t *nanoseconds)
{
    if (nanoseconds == NULL)
        return PTPX_NULL;
    return ptpx_raw_result_to_nanoseconds(twice, nanoseconds);
}

/* What offset2 or path2 is where the result is this number of nanoseconds, as a limit of a servo may be. */
PTPX_WARN_UNUSED
static inline uint16_t ptpx_result_of_nanoseconds(int64_t nanoseconds, struct ptpx_signed *twice)
{
    if (twice == NULL)
        return PTPX_NULL;
    ptpx_raw_result_of_nanoseconds(nanoseconds, twice);
    return PTPX_DONE;
}

#ifdef PTPX_HAS_TIMESPEC
/*
 * The same in seconds and nanoseconds, rounded so. As POSIX has it tv_nsec is 0 to 999,999,999, also of a result below
 * 0: -1 ns is -1 s and 999,999,999 ns. 909 where the seconds don't fit 64 bits.
 */
PTPX_WARN_UNUSED
static inline uint16_t ptpx_result_to_timespec(struct ptpx_signed twice, struct timespec *timespec)
{
    int64_t seconds = 0, nanoseconds = 0;
    if (timespec == NULL)
        return PTPX_NULL;
    const uint16_t refusal = ptpx_raw_result_to_timespec(twice, &seconds, &nanoseconds);
    if (refusal != PTPX_DONE)
        return refusal;
    timespec->tv_sec = seconds;
    timespec->tv_nsec = nanoseconds;
    return PTPX_DONE;
}

/* What offset2 or path2 is where the result is this. 911. */
PTPX_WARN_UNUSED
static inline uint16_t ptpx_result_of_timespec(const struct timespec *timespec, struct ptpx_signed *twice)
{
    if (timespec == NULL || twice == NULL)
        return PTPX_NULL;
    return ptpx_raw_result_of_timespec(timespec->tv_sec, timespec->tv_nsec, twice);
}
#endif

/* As ptpx_result_to_nanoseconds, but rounded down: -0.5 ns becomes -1. 909. */
PTPX_WARN_UNUSED
static inline uint16_t ptpx_nanoseconds_of_twice(struct ptpx_signed twice, int64_t *nanoseconds)
{
    if (nanoseconds == NULL)
        return PTPX_NULL;
    return ptpx_raw_nanoseconds_of_twice(twice, nanoseconds);
}

/* ---- times ---- */

/* The moment so many nanoseconds after the beginning of the timescale. 101. */
PTPX_WARN_UNUSED
static inline uint16_t ptpx_time_of_nanoseconds(int64_t nanoseconds, struct ptpx_time *time)
{
    if (time == NULL)
        return PTPX_NULL;
    return ptpx_raw_time_of_nanoseconds(nanoseconds, time);
}

/*
 * The nanoseconds from the beginning of the timescale to a moment, rounded to the nearest, and a half to the later.
 * 101; 909 where that doesn't fit 64 bits, which is so from 292 years on.
 */
PTPX_WARN_UNUSED
static inline uint16_t ptpx_time_to_nanoseconds(struct ptpx_time time, int64_t *nanoseconds)
{
    if (nanoseconds == NULL)
        return PTPX_NULL;
    return ptpx_raw_time_to_nanoseconds(time, nanoseconds);
}

#ifdef PTPX_HAS_TIMESPEC
/* The moment that a struct timespec is. 911, 101. */
PTPX_WARN_UNUSED
static inline uint16_t ptpx_time_of_timespec(const struct timespec *timespec, struct ptpx_time *time)
{
    if (timespec == NULL || time == NULL)
        return PTPX_NULL;
    return ptpx_raw_time_of_timespec(timespec->tv_sec, timespec->tv_nsec, time);
}

/* A moment as a struct timespec, rounded to the nearest nanosecond, and a half to the later. 101. */
PTPX_WARN_UNUSED
static inline uint16_t ptpx_time_to_timespec(struct ptpx_time time, struct timespec *timespec)
{
    int64_t seconds = 0, nanoseconds = 0;
    if (timespec == NULL)
        return PTPX_NULL;
    const uint16_t refusal = ptpx_raw_time_to_timespec(time, &seconds, &nanoseconds);
    if (refusal != PTPX_DONE)
        return refusal;
    timespec->tv_sec = seconds;
    timespec->tv_nsec = nanoseconds;
    return PTPX_DONE;
}
#endif

/* The moment of a timestamp, and a fraction of a nanosecond in 2^-16 ns. 102, 103. */
PTPX_WARN_UNUSED
static inline uint16_t ptpx_time_join(struct ptpx_timestamp timestamp, uint16_t fraction, struct ptpx_time *time)
{
    if (time == NULL)
        return PTPX_NULL;
    return ptpx_raw_time_join(timestamp, fraction, time);
}

/* The timestamp of a moment, and its fraction of a nanosecond in 2^-16 ns. 101. */
PTPX_WARN_UNUSED
static inline uint16_t ptpx_time_split(struct ptpx_time time, struct ptpx_timestamp *timestamp, uint16_t *fraction)
{
    if (timestamp == NULL || fraction == NULL)
        return PTPX_NULL;
    return ptpx_raw_time_split(time, timestamp, fraction);
}

/*
 * The Sync's arrival t2 by the slave's clock, less its departure by the master's clock, which its Follow_Up says
 * (timestamp and correction), less the Sync's own correction: strictly between -2^96 and 2^96, in 2^-16 ns. 101, 102,
 * 103.
 */
PTPX_WARN_UNUSED
static inline uint16_t ptpx_sync_bracket(struct ptpx_time t2, struct ptpx_timestamp precise, int64_t c_follow,
                                         int64_t c_sync, struct ptpx_signed *bracket)
{
    if (bracket == NULL)
        return PTPX_NULL;
    return ptpx_raw_sync_bracket(t2, precise, c_follow, c_sync, bracket);
}

/*
 * The Delay_Req's arrival by the master's clock, which its Delay_Resp says (timestamp less correction), less its
 * departure t3 by the slave's clock: strictly between -2^96 and 2^96, in 2^-16 ns. 101, 102, 103.
 */
PTPX_WARN_UNUSED
static inline uint16_t ptpx_delay_bracket(struct ptpx_timestamp receive, int64_t c_resp, struct ptpx_time t3,
                                          struct ptpx_signed *bracket)
{
    if (bracket == NULL)
        return PTPX_NULL;
    return ptpx_raw_delay_bracket(receive, c_resp, t3, bracket);
}

/*
 * Twice offsetFromMaster (11.2), a - b, of a Sync's bracket a and a Delay_Req's b; positive where the slave is ahead.
 * 908.
 */
PTPX_WARN_UNUSED
static inline uint16_t ptpx_offset2(struct ptpx_signed a, struct ptpx_signed b, struct ptpx_signed *twice)
{
    if (twice == NULL)
        return PTPX_NULL;
    return ptpx_raw_offset2(a, b, twice);
}

/* Twice meanPathDelay (11.3), a + b, of a Sync's bracket a and a Delay_Req's b. 908. */
PTPX_WARN_UNUSED
static inline uint16_t ptpx_path2(struct ptpx_signed a, struct ptpx_signed b, struct ptpx_signed *twice)
{
    if (twice == NULL)
        return PTPX_NULL;
    return ptpx_raw_path2(a, b, twice);
}

/* ---- messages ---- */

/*
 * The fields of the message that the octets begin with. Its suffix, the TLVs, are the suffix_length octets from octet
 * 54 of a Delay_Resp on, and from octet 44 of the others. 201 to 206.
 */
PTPX_WARN_UNUSED
static inline uint16_t ptpx_decode(const uint8_t *octets, size_t length, struct ptpx_message *message)
{
    if (octets == NULL || message == NULL)
        return PTPX_NULL;
    if (length > PTRDIFF_MAX)
        return PTPX_TOO_LONG;
    return ptpx_raw_decode(octets, length, message);
}

/*
 * Writes a message with this suffix into the front of the buffer, and how many octets it has into *length. The rest
 * of the buffer stays. The fields suffix_length, and requesting but in a Delay_Resp, aren't looked at: ptpx_decode
 * gives all others as they were. A suffix of no octets may be null. 903, 904, 102, 103, 211, 212.
 */
PTPX_WARN_UNUSED
static inline uint16_t ptpx_encode(const struct ptpx_message *message, const uint8_t *suffix, size_t suffix_length,
                                   uint8_t *buffer, size_t room, size_t *length)
{
    static const uint8_t none[1] = {0};
    if (message == NULL || buffer == NULL || length == NULL || (suffix == NULL && suffix_length != 0))
        return PTPX_NULL;
    if (suffix_length > PTRDIFF_MAX || room > PTRDIFF_MAX)
        return PTPX_TOO_LONG;
    return ptpx_raw_encode(message, suffix == NULL ? none : suffix, suffix_length, buffer, room, length);
}

/*
 * Puts the correctionField, in 2^-16 ns, into octets 8 to 15; all others stay. A checksum of UDP is the caller's. 201.
 */
PTPX_WARN_UNUSED
static inline uint16_t ptpx_patch_correction(uint8_t *octets, size_t length, int64_t correction)
{
    if (octets == NULL)
        return PTPX_NULL;
    if (length > PTRDIFF_MAX)
        return PTPX_TOO_LONG;
    return ptpx_raw_patch_correction(octets, length, correction);
}

/* ---- a transparent clock ---- */

/*
 * A message enters at this reading of the clock, of any clock: only the difference to the reading at which it leaves
 * counts. A stay that was begun in this struct and isn't over is given up, so each message that is inside needs a
 * struct of its own. 101.
 */
PTPX_WARN_UNUSED
static inline uint16_t ptpx_clock_enter(struct ptpx_stay *stay, struct ptpx_time reading)
{
    if (stay == NULL)
        return PTPX_NULL;
    return ptpx_raw_clock_enter(stay, reading);
}

/*
 * The message leaves at this reading of the same clock: the residence is added to its correction, in octets 8 to 15,
 * and all others stay; then it is to be sent. A sum of INT64_MAX or more becomes INT64_MAX, too big, which a slave
 * ignores (507). A checksum of UDP is the caller's. 905, 101: the stay is as before. 401, 402, 403: the stay is over.
 * On any refusal the octets are as before, and no Sync or Delay_Req is to be sent so. Follow_Up and Delay_Resp (402)
 * pass a clock as they are, best without a call; messages of other types, as Pdelay_Req, are 401.
 */
PTPX_WARN_UNUSED
static inline uint16_t ptpx_clock_leave(struct ptpx_stay *stay, uint8_t *octets, size_t length,
                                        struct ptpx_time reading)
{
    if (stay == NULL || octets == NULL)
        return PTPX_NULL;
    if (length > PTRDIFF_MAX)
        return PTPX_TOO_LONG;
    return ptpx_raw_clock_leave(stay, octets, length, reading);
}

/* ---- a master port ---- */

/*
 * Makes a master port whose Syncs are numbered from first on; after 65,535 comes 0. A port that is made again after a
 * restart begins best where the last one stopped: slaves take a number for newer where it is 1 to 32,767 ahead.
 */
PTPX_WARN_UNUSED
static inline uint16_t ptpx_master_init(struct ptpx_master *master, const struct ptpx_config *config, uint16_t first)
{
    if (master == NULL || config == NULL)
        return PTPX_NULL;
    ptpx_raw_master_init(master, config, first);
    return PTPX_DONE;
}

/*
 * The 44 octets of the next two-step Sync, and its number. It waits for ptpx_master_sync_left; one that was waiting
 * is given up, since one alone can wait.
 */
PTPX_WARN_UNUSED
static inline uint16_t ptpx_master_next_sync(struct ptpx_master *master, uint8_t octets[44], uint16_t *number)
{
    if (master == NULL || !master->made || octets == NULL || number == NULL)
        return PTPX_NULL;
    ptpx_raw_master_next_sync(master, octets, number);
    return PTPX_DONE;
}

/*
 * The 44 octets of the next one-step Sync, which leaves at t1 by the master's clock, and its number. An earlier
 * two-step Sync that waits for its Follow_Up goes on waiting: ptpx_master_sync_left takes its number after this call,
 * too. 101.
 */
PTPX_WARN_UNUSED
static inline uint16_t ptpx_master_one_step_sync(struct ptpx_master *master, struct ptpx_time t1, uint8_t octets[44],
                                                 uint16_t *number)
{
    if (master == NULL || !master->made || octets == NULL || number == NULL)
        return PTPX_NULL;
    return ptpx_raw_master_one_step_sync(master, t1, octets, number);
}

/*
 * The 44 octets of the Follow_Up of the Sync that waits, which left at t1 by the master's clock; none waits then. 101,
 * 301.
 */
PTPX_WARN_UNUSED
static inline uint16_t ptpx_master_sync_left(struct ptpx_master *master, uint16_t number, struct ptpx_time t1,
                                             uint8_t octets[44])
{
    if (master == NULL || !master->made || octets == NULL)
        return PTPX_NULL;
    return ptpx_raw_master_sync_left(master, number, t1, octets);
}

/*
 * The 54 octets of the Delay_Resp to a Delay_Req that arrived at t4 by the master's clock. Its logMessageInterval, in
 * octet 33, is that of the Syncs, as of all that a master writes; slaves take it for the shortest interval of their
 * Delay_Reqs, so write there what they are to keep to. Where the Delay_Req came by unicast (4 in octet 6), the answer
 * goes to its sender, with 4 in octet 6, too, and 0x7f in octet 33. 101, 302 to 305.
 */
PTPX_WARN_UNUSED
static inline uint16_t ptpx_master_delay_req(const struct ptpx_master *master, const uint8_t *octets, size_t length,
                                             struct ptpx_time t4, uint8_t response[54])
{
    if (master == NULL || !master->made || octets == NULL || response == NULL)
        return PTPX_NULL;
    if (length > PTRDIFF_MAX)
        return PTPX_TOO_LONG;
    return ptpx_raw_master_delay_req(master, octets, length, t4, response);
}

/* ---- a slave port ---- */

/*
 * Makes a slave port in memory of this size, as that of a struct ptpx_slave_memory. It has no master and holds
 * nothing, and its Delay_Reqs are numbered from first on. Pass the number at which the last run of this port stopped,
 * or one far from it: a late answer to an earlier run would be taken for one to this run where the numbers meet. The
 * memory may be one that a slave used before. 906, 907.
 */
PTPX_WARN_UNUSED
static inline uint16_t ptpx_slave_init(struct ptpx_slave *slave, void *memory, size_t size,
                                       const struct ptpx_config *config, uint16_t first)
{
    if (slave == NULL || memory == NULL || config == NULL)
        return PTPX_NULL;
    if (size < PTPX_SLAVE_SIZE)
        return PTPX_SMALL_MEMORY;
    if (PTPX_ADDRESS_OF(memory) % PTPX_SLAVE_ALIGNMENT != 0)
        return PTPX_UNALIGNED_MEMORY;
    slave->memory = PTPX_CAST(uint8_t *, memory);
    ptpx_raw_slave_init(slave, config, first);
    return PTPX_DONE;
}

/*
 * As a new port of the same configuration, whose Delay_Reqs are numbered from first on. So it has no master, which no
 * other call brings about: call it, with the number behind that of the last Delay_Req, where the master fell silent
 * and no other one is there.
 */
PTPX_WARN_UNUSED
static inline uint16_t ptpx_slave_restart(struct ptpx_slave *slave, uint16_t first)
{
    if (slave == NULL || slave->memory == NULL)
        return PTPX_NULL;
    ptpx_raw_slave_restart(slave, first);
    return PTPX_DONE;
}

/*
 * From now on the master is this port. All that was held or completed is dropped, even where it was the master
 * already: so call it at a change of master, and not at each Announce.
 */
PTPX_WARN_UNUSED
static inline uint16_t ptpx_slave_set_master(struct ptpx_slave *slave, const struct ptpx_identity *master)
{
    if (slave == NULL || slave->memory == NULL || master == NULL)
        return PTPX_NULL;
    ptpx_raw_slave_set_master(slave, master);
    return PTPX_DONE;
}

/*
 * Drops what came before the tick before this one: Syncs and Follow_Ups that are held, and the last completed half of
 * each kind. So what came is used up to the second tick after it. Delay_Reqs don't go at a tick.
 *
 * One is due at least once in 16,384 Syncs that the master sends, lost ones too, so that no message meets one whose
 * number came round: at 128 Syncs a second each two minutes. None is due before the first Sync, and a change of
 * master counts as one. Where ticks come so often that two of them fall between a Sync and its Follow_Up, or between
 * the two halves of a report, these don't meet: a time between two ticks that is longer than the longest from Sync to
 * Sync and from Delay_Req to Delay_Req does.
 */
PTPX_WARN_UNUSED
static inline uint16_t ptpx_slave_tick(struct ptpx_slave *slave)
{
    if (slave == NULL || slave->memory == NULL)
        return PTPX_NULL;
    ptpx_raw_slave_tick(slave);
    return PTPX_DONE;
}

/*
 * The 44 octets of the next Delay_Req, and its number. It is held; with 16 held before, the oldest of these goes. The
 * tag is any number of the caller's, which reports name.
 */
PTPX_WARN_UNUSED
static inline uint16_t ptpx_slave_next_request(struct ptpx_slave *slave, uint64_t tag, uint8_t octets[44],
                                               uint16_t *number)
{
    if (slave == NULL || slave->memory == NULL || octets == NULL || number == NULL)
        return PTPX_NULL;
    ptpx_raw_slave_next_request(slave, tag, octets, number);
    return PTPX_DONE;
}

/*
 * The Delay_Req of this number left at t3 by the slave's clock. A Delay_Resp that is heard before this call is
 * ignored (510): so stamps of what was sent are read before the general port is. A second call for a number counts in
 * the place of the first, for what is heard after it. 101, 511.
 */
PTPX_WARN_UNUSED
static inline uint16_t ptpx_slave_request_left(struct ptpx_slave *slave, uint16_t number, struct ptpx_time t3)
{
    if (slave == NULL || slave->memory == NULL)
        return PTPX_NULL;
    return ptpx_raw_slave_request_left(slave, number, t3);
}

/*
 * A message arrived on the event port (UDP port 319) at t2 by the slave's clock. A two-step Sync of the master is
 * held, with 16 of them held before in place of the oldest, and completes a Sync half with the newest held Follow_Up
 * of its number; a one-step Sync completes one by itself, and isn't held; all else is ignored. The slave doesn't look
 * at majorSdoId, minorSdoId and flags other than the twoStepFlag, nor whether a time is plausible: what isn't for it
 * has to be sorted out before. 101.
 *
 * The last completed Sync half and the last completed Delay_Req half stay. Each half that completes gives a report
 * with the last one of the other kind, or PTPX_COMPLETED where none is there. So one half may stand in several
 * reports, as the tags tell.
 */
PTPX_WARN_UNUSED
static inline uint16_t ptpx_slave_sync(struct ptpx_slave *slave, const uint8_t *octets, size_t length,
                                       struct ptpx_time t2, uint64_t tag, struct ptpx_heard *heard)
{
    if (slave == NULL || slave->memory == NULL || octets == NULL || heard == NULL)
        return PTPX_NULL;
    if (length > PTRDIFF_MAX)
        return PTPX_TOO_LONG;
    return ptpx_raw_slave_sync(slave, octets, length, t2, tag, heard);
}

/*
 * A message arrived on the general port (UDP port 320). A Follow_Up of the master is held, with 16 of them held before
 * in place of the oldest, and completes a Sync half with the newest held Sync of its number; both stay held. A
 * Delay_Resp completes a Delay_Req half with the newest held Delay_Req of its number, which stays held: a Delay_Resp
 * that comes twice completes it twice. All else is ignored.
 */
PTPX_WARN_UNUSED
static inline uint16_t ptpx_slave_general(struct ptpx_slave *slave, const uint8_t *octets, size_t length,
                                          uint64_t tag, struct ptpx_heard *heard)
{
    if (slave == NULL || slave->memory == NULL || octets == NULL || heard == NULL)
        return PTPX_NULL;
    if (length > PTRDIFF_MAX)
        return PTPX_TOO_LONG;
    ptpx_raw_slave_general(slave, octets, length, tag, heard);
    return PTPX_DONE;
}

/*
 * What the last report was made of: to be called when a report was answered. The slave keeps it as long as it keeps
 * both halves, so ptpx_slave_set_master, ptpx_slave_restart and the second ptpx_slave_tick after a half completed drop
 * it, and there is none until the next report. Its age says how far apart the two halves were by the slave's clock,
 * for which offset and path delay take both clocks to run alike. The slave stays as it is; yet no other call is to use
 * it meanwhile, as with all others. 910.
 */
PTPX_WARN_UNUSED
static inline uint16_t ptpx_slave_last(const struct ptpx_slave *slave, struct ptpx_exchange *exchange)
{
    if (slave == NULL || slave->memory == NULL || exchange == NULL)
        return PTPX_NULL;
    return ptpx_raw_slave_last(slave, exchange);
}

/* ---- a watch, for a slave whose master may begin its numbers anew ---- */

/* Makes a watch in memory of this size, as that of a struct ptpx_watch_memory. It knows of nothing. 906, 907. */
PTPX_WARN_UNUSED
static inline uint16_t ptpx_watch_init(struct ptpx_watch *watch, void *memory, size_t size)
{
    if (watch == NULL || memory == NULL)
        return PTPX_NULL;
    if (size < PTPX_WATCH_SIZE)
        return PTPX_SMALL_MEMORY;
    if (PTPX_ADDRESS_OF(memory) % PTPX_SLAVE_ALIGNMENT != 0)
        return PTPX_UNALIGNED_MEMORY;
    watch->memory = PTPX_CAST(uint8_t *, memory);
    ptpx_raw_watch_init(watch);
    return PTPX_DONE;
}

/*
 * A Sync of the master, as ptpx_decode gives it, came at this time, by a clock that nobody sets: one that is set by a
 * second or more between two messages could seem to say that the master began anew. Ask before the slave hears it.
 * 912, 101.
 *
 * What counts are its number, its unicastFlag, its logMessageInterval and the time. N is the newest Sync with this
 * unicastFlag since the master began.
 *   - It is a copy (PTPX_REPEATED) where its number is that of a known Sync that came less than a second apart.
 *   - The master began anew (PTPX_BEGAN_ANEW) where its number is that of a known Sync or Follow_Up that came a second
 *     or more apart; and where its number is that of no known Sync and doesn't fit N, as follows.
 *   - Up to 16 ahead of N it fits. From 17 to 256 ahead it fits, too, unless it tells its interval, by a
 *     logMessageInterval from -7 to 6, and is ahead by more than twice as many Syncs as that interval allows in the
 *     time since N. Up to 255 behind N it fits where the two came less than a second apart: it was overtaken. No other
 *     fits.
 * Where the master began anew, call ptpx_slave_set_master for the same master, and then ptpx_slave_sync. All that was
 * known is forgotten then, but for this Sync. If the master had not begun anew, and only its messages were missing for
 * long, that costs one exchange, and no report is wrong by it.
 */
PTPX_WARN_UNUSED
static inline uint16_t ptpx_watch_sync(struct ptpx_watch *watch, const struct ptpx_message *message,
                                       struct ptpx_time time, uint16_t *judgement)
{
    if (watch == NULL || watch->memory == NULL || message == NULL || judgement == NULL)
        return PTPX_NULL;
    if (message->kind != PTPX_SYNC)
        return PTPX_WRONG_KIND;
    return ptpx_raw_watch_sync(watch, message->sequence, (message->flags[0] & 4) != 0, message->log, time, judgement);
}

/*
 * The same of a Follow_Up of the master, before the slave hears it. The slave isn't to hear it (PTPX_REPEATED) where
 * its number is that of a known Follow_Up, where the known Sync of its number came a second or more apart, and where
 * its number is neither that of N, nor up to 255 behind it, nor up to 256 ahead. Never PTPX_BEGAN_ANEW. 912, 101.
 */
PTPX_WARN_UNUSED
static inline uint16_t ptpx_watch_follow_up(struct ptpx_watch *watch, const struct ptpx_message *message,
                                            struct ptpx_time time, uint16_t *judgement)
{
    if (watch == NULL || watch->memory == NULL || message == NULL || judgement == NULL)
        return PTPX_NULL;
    if (message->kind != PTPX_FOLLOW_UP)
        return PTPX_WRONG_KIND;
    return ptpx_raw_watch_follow_up(watch, message->sequence, (message->flags[0] & 4) != 0, message->log, time,
                                    judgement);
}

/* ---- a wide slave port ---- */

/*
 * As a slave port, but that it holds 256 Syncs, 256 Follow_Ups and 256 Delay_Reqs at most, in place of 16. Each call
 * ptpx_wide_slave_.. does what ptpx_slave_.. does, and is refused as that is. ptpx_wide_slave_init wants the memory of
 * a struct ptpx_wide_slave_memory, and some 200 kB of stack, on x86-64; the others take no more than those of a slave.
 */

PTPX_WARN_UNUSED
static inline uint16_t ptpx_wide_slave_init(struct ptpx_wide_slave *slave, void *memory, size_t size,
                                            const struct ptpx_config *config, uint16_t first)
{
    if (slave == NULL || memory == NULL || config == NULL)
        return PTPX_NULL;
    if (size < PTPX_WIDE_SLAVE_SIZE)
        return PTPX_SMALL_MEMORY;
    if (PTPX_ADDRESS_OF(memory) % PTPX_SLAVE_ALIGNMENT != 0)
        return PTPX_UNALIGNED_MEMORY;
    slave->memory = PTPX_CAST(uint8_t *, memory);
    ptpx_raw_wide_slave_init(slave, config, first);
    return PTPX_DONE;
}

PTPX_WARN_UNUSED
static inline uint16_t ptpx_wide_slave_restart(struct ptpx_wide_slave *slave, uint16_t first)
{
    if (slave == NULL || slave->memory == NULL)
        return PTPX_NULL;
    ptpx_raw_wide_slave_restart(slave, first);
    return PTPX_DONE;
}

PTPX_WARN_UNUSED
static inline uint16_t ptpx_wide_slave_set_master(struct ptpx_wide_slave *slave, const struct ptpx_identity *master)
{
    if (slave == NULL || slave->memory == NULL || master == NULL)
        return PTPX_NULL;
    ptpx_raw_wide_slave_set_master(slave, master);
    return PTPX_DONE;
}

PTPX_WARN_UNUSED
static inline uint16_t ptpx_wide_slave_tick(struct ptpx_wide_slave *slave)
{
    if (slave == NULL || slave->memory == NULL)
        return PTPX_NULL;
    ptpx_raw_wide_slave_tick(slave);
    return PTPX_DONE;
}

PTPX_WARN_UNUSED
static inline uint16_t ptpx_wide_slave_next_request(struct ptpx_wide_slave *slave, uint64_t tag, uint8_t octets[44],
                                                    uint16_t *number)
{
    if (slave == NULL || slave->memory == NULL || octets == NULL || number == NULL)
        return PTPX_NULL;
    ptpx_raw_wide_slave_next_request(slave, tag, octets, number);
    return PTPX_DONE;
}

PTPX_WARN_UNUSED
static inline uint16_t ptpx_wide_slave_request_left(struct ptpx_wide_slave *slave, uint16_t number,
                                                    struct ptpx_time t3)
{
    if (slave == NULL || slave->memory == NULL)
        return PTPX_NULL;
    return ptpx_raw_wide_slave_request_left(slave, number, t3);
}

PTPX_WARN_UNUSED
static inline uint16_t ptpx_wide_slave_sync(struct ptpx_wide_slave *slave, const uint8_t *octets, size_t length,
                                            struct ptpx_time t2, uint64_t tag, struct ptpx_heard *heard)
{
    if (slave == NULL || slave->memory == NULL || octets == NULL || heard == NULL)
        return PTPX_NULL;
    if (length > PTRDIFF_MAX)
        return PTPX_TOO_LONG;
    return ptpx_raw_wide_slave_sync(slave, octets, length, t2, tag, heard);
}

PTPX_WARN_UNUSED
static inline uint16_t ptpx_wide_slave_general(struct ptpx_wide_slave *slave, const uint8_t *octets, size_t length,
                                               uint64_t tag, struct ptpx_heard *heard)
{
    if (slave == NULL || slave->memory == NULL || octets == NULL || heard == NULL)
        return PTPX_NULL;
    if (length > PTRDIFF_MAX)
        return PTPX_TOO_LONG;
    ptpx_raw_wide_slave_general(slave, octets, length, tag, heard);
    return PTPX_DONE;
}

PTPX_WARN_UNUSED
static inline uint16_t ptpx_wide_slave_last(const struct ptpx_wide_slave *slave, struct ptpx_exchange *exchange)
{
    if (slave == NULL || slave->memory == NULL || exchange == NULL)
        return PTPX_NULL;
    return ptpx_raw_wide_slave_last(slave, exchange);
}

#ifdef __cplusplus
}
#endif

#endif
