/* Currentloom for services in C: the proved calls over flat memory.
 *
 * A host is told a clock reading and answers which links to send on; the service sends. There are no sockets, no
 * clock and no heap inside. Link with libservice.a. x86-64, C11.
 *
 * Every call answers one number. Its lowest byte is the refusal, 0 for an accepted call. A refused call leaves the
 * memory and each lent buffer exactly as they were.
 *
 * Every byte of the memory is some field's, and any bytes are allowed in it: what is not the memory of a sound state
 * is refused 9, before all else. Pointers are to what they say, and do not overlap; where a size or a room is 0, the
 * pointer before it may be NULL.
 */
#ifndef CURRENTLOOM_H
#define CURRENTLOOM_H

#include <stddef.h>
#include <stdint.h>

#ifdef __cplusplus
extern "C" {
#define LOOM_SIZE(type, bytes) static_assert(sizeof(type) == bytes, "no padding")
#else
#define LOOM_SIZE(type, bytes) _Static_assert(sizeof(type) == bytes, "no padding")
#endif

enum {
    LOOM_LINKS = 12,
    LOOM_HISTORY = 32,
    LOOM_STARTS = 4,
    LOOM_IMAGES = 16,
    LOOM_ENTRY = 16,           /* bytes of an entry in a tick's list */
    LOOM_LONGEST_MESSAGE = 28, /* a publish under the second rules */
    LOOM_LONGEST_REPORT = 20480, /* bytes that are proved to be enough for every replay */
};

enum loom_rules { LOOM_FIRST = 1, LOOM_SECOND = 2 };
enum loom_kind { LOOM_PUBLISH = 1, LOOM_HALT = 2, LOOM_RESUME = 3, LOOM_WITHDRAW = 4 };
enum loom_stand { LOOM_ABSENT = 0, LOOM_OFFERED = 1, LOOM_HALTED = 2 };

/* The refusal numbers of the build paper. */
enum loom_refusal {
    LOOM_ACCEPTED = 0,
    LOOM_PLAN_NUMBER = 1,   /* a plan number is out of range */
    LOOM_PLAN_LINK = 2,     /* a link end is n or more, a >= b, or a pair repeats */
    LOOM_PARTED = 3,        /* some fault set leaves survivors not connected */
    LOOM_UNSOUND = 9,       /* the lent state is not sound */
    LOOM_READING_RANGE = 10, /* U is out of range, or on a start above the largest stamp */
    LOOM_READING_FALLS = 11, /* U is less than the last reading */
    LOOM_SAME_READING = 12, /* a start at the reading of the last start */
    LOOM_WINDOW = 13,       /* U < T' + W, where T' is the fourth last start */
    LOOM_FULL = 14,         /* 32 orders are held */
    LOOM_LACKING = 15,      /* a host, own link or source that the plan lacks */
    LOOM_EARLY = 16,        /* second rules: U + h*skew <= T */
    LOOM_LATE = 17,         /* second rules: U >= T + h*(delay + skew) */
    LOOM_PAST_BOUND = 18,   /* U >= T + bound */
    LOOM_SAME_HELD = 19,    /* the same order is held under (T, source) */
    LOOM_OTHER_HELD = 20,   /* another order is held under (T, source) */
    LOOM_NOT_OURS = 21,     /* the source is this host, and (T, source) is not held */
    LOOM_SHORT = 22,        /* the lent buffer is too short */
    LOOM_RANGE = 23,        /* rule set, stamp, hop or share out of range, in writing a source above 7, or no order */
    LOOM_NO_MESSAGE = 30,   /* bytes that are not one message */
};

typedef struct { uint8_t a, b; } loom_link;

/* A plan as it is given: every number may be out of range. */
typedef struct {
    uint8_t hosts;        /* n, 2..8 */
    uint8_t faulty_hosts; /* pi, 0..n-2 */
    uint8_t link_count;   /* m, 1..12 */
    uint8_t faulty_links; /* L, 0..12 */
    uint8_t delay;        /* delta, 1..64 ticks */
    uint8_t skew;         /* epsilon, 1..64 ticks */
    loom_link links[LOOM_LINKS];
} loom_plan_fields;

typedef struct { uint64_t bound, window; } loom_timing;

/* A plan, and what planning finds of it under the first and the second rules. */
typedef struct {
    loom_timing first, second;
    loom_plan_fields plan;
    uint16_t d;
} loom_plan_memory;

/* A place of the history: all zero where it is unused. */
typedef struct {
    uint64_t stamp;
    uint32_t image;
    uint8_t source;
    uint8_t kind;
    uint16_t share; /* 1..100 of a publish, else 0 */
} loom_held;

typedef struct {
    uint64_t bound;
    uint64_t last;    /* the last reading */
    uint64_t own;     /* the host's own number */
    uint64_t started; /* how many of the starts' places are used, the oldest first */
    uint64_t held;    /* how many places of the history are used */
    uint64_t starts[LOOM_STARTS];
    loom_held history[LOOM_HISTORY];
    loom_plan_fields plan;
    uint8_t rules;
    uint8_t d;
} loom_host_memory;

/* A place of a board: all zero where it is unused. */
typedef struct {
    uint32_t image;
    uint16_t stand;
    uint16_t share;
} loom_place;

/* All zero is the empty board. */
typedef struct {
    uint64_t count;
    loom_place places[LOOM_IMAGES];
} loom_board_memory;

LOOM_SIZE(loom_plan_fields, 30);
LOOM_SIZE(loom_plan_memory, 64);
LOOM_SIZE(loom_held, 16);
LOOM_SIZE(loom_host_memory, 616);
LOOM_SIZE(loom_place, 8);
LOOM_SIZE(loom_board_memory, 136);

/* Planning of memory->plan: refusals 1, 2, 3. Fills first, second and d. */
uint64_t loom_plan(loom_plan_memory *memory);

/* Makes a fresh host of memory->plan: refusals 1, 2, 3, 23, 15. */
uint64_t loom_make(loom_host_memory *memory, uint8_t rules, uint8_t own);

/* Starts an order at reading u: refusals 9, 23, 10, 11, 12, 13, 14. Send a copy, at once, on each link of
 * loom_links(answer), with hop loom_hop(answer). */
uint64_t loom_start(loom_host_memory *memory, uint64_t u, uint8_t kind, uint32_t image, uint16_t share);

/* Receives a copy at reading u over the plan's link of that number: refusals 9, 15, 23, 10, 11, 16, 17, 18, 19, 20,
 * 21, 14. Relay it, at once, as after a start. */
uint64_t loom_receive(loom_host_memory *memory, uint64_t u, uint8_t link, uint8_t hop, uint64_t stamp, uint8_t source,
                      uint8_t kind, uint32_t image, uint16_t share);

/* Delivers all that is due at reading u, in rising stamp and source: refusals 9, 10, 11, 22. loom_length(answer) is
 * the number of entries. An entry has 16 bytes: stamp 8, source 1, kind 1, image 4, share 1, one zero, all
 * big-endian. Room for 32 entries is always enough. */
uint64_t loom_tick(loom_host_memory *memory, uint64_t u, uint8_t *out, size_t room);

/* Writes a message: refusals 23, 22. loom_length(answer) is its length in bytes. */
uint64_t loom_write(uint8_t rules, uint64_t stamp, uint8_t source, uint8_t hop, uint8_t kind, uint32_t image,
                    uint16_t share, uint8_t *out, size_t room);

/* Reads bytes that are exactly one message: refusals 23, 30, and 22 where out has room for fewer than eight numbers.
 * They become stamp, source, hop, kind, image, share, and the place and size of the order's bytes. */
uint64_t loom_read(uint8_t rules, const uint8_t *bytes, size_t size, uint64_t *out, size_t room);

/* An order upon a board: refusals 9, 23. */
uint64_t loom_apply(loom_board_memory *memory, uint8_t kind, uint32_t image, uint16_t share);

/* Replays a written schedule: refusal 22. loom_length(answer) is the length of the text. A refused file has its text
 * too. LOOM_LONGEST_REPORT bytes are always enough. */
uint64_t loom_replay(const uint8_t *bytes, size_t size, uint8_t *out, size_t room);

/* An answer taken apart. */
static inline unsigned loom_refused(uint64_t answer) { return (unsigned)(answer & 0xff); }
static inline uint8_t loom_hop(uint64_t answer) { return (uint8_t)(answer >> 8); }
/* Bit i for the plan's link i. */
static inline uint16_t loom_links(uint64_t answer) { return (uint16_t)(answer >> 16); }
static inline uint64_t loom_length(uint64_t answer) { return answer >> 8; }

#ifdef __cplusplus
}
#endif

#endif
