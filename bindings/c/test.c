/* The build paper's worked cases through the C header. */
#include "../currentloom.h"

#include <stdio.h>
#include <stdlib.h>
#include <string.h>

static int failures = 0;

#define IS(found, expected) is(#found, (uint64_t)(found), (uint64_t)(expected), __LINE__)

static void is(const char *what, uint64_t found, uint64_t expected, int line) {
    if (found != expected) {
        printf("line %d: %s is %llu, not %llu\n", line, what, (unsigned long long)found, (unsigned long long)expected);
        failures += 1;
    }
}

/* Delay 10 and skew 3, as in the paper's rows. */
static loom_plan_fields network(uint8_t hosts, uint8_t faulty_hosts, uint8_t faulty_links, const char *links) {
    loom_plan_fields plan = {hosts, faulty_hosts, 0, faulty_links, 10, 3, {{0, 0}}};
    for (; links[0] != 0; links += 2) {
        plan.links[plan.link_count].a = (uint8_t)(links[0] - '0');
        plan.links[plan.link_count].b = (uint8_t)(links[1] - '0');
        plan.link_count += 1;
    }
    return plan;
}

static const char pair[] = "01", triangle[] = "010212", ring[] = "01031223", cube[] = "010204131523263745465767";

static void row(loom_plan_fields plan, unsigned refusal, uint16_t d, uint64_t first, uint64_t second) {
    loom_plan_memory memory;
    memset(&memory, 0xaa, sizeof memory);
    memory.plan = plan;
    loom_plan_memory before = memory;
    IS(loom_plan(&memory), refusal);
    if (refusal != 0) {
        IS(memcmp(&memory, &before, sizeof memory), 0);
        return;
    }
    IS(memory.d, d);
    IS(memory.first.bound, first);
    IS(memory.second.bound, second);
    IS(memory.first.window, first + 3);
    IS(memory.second.window, second + 24);
}

static void planning(void) {
    row(network(2, 0, 0, pair), 0, 1, 13, 13);
    row(network(2, 0, 1, pair), LOOM_PARTED, 0, 0, 0);
    row(network(3, 1, 0, triangle), 0, 1, 23, 26);
    row(network(3, 0, 1, triangle), 0, 2, 23, 23);
    row(network(3, 1, 1, triangle), LOOM_PARTED, 0, 0, 0);
    row(network(4, 1, 0, ring), 0, 2, 33, 36);
    row(network(4, 2, 0, ring), LOOM_PARTED, 0, 0, 0);
    row(network(8, 0, 0, cube), 0, 3, 33, 33);
    row(network(9, 0, 0, triangle), LOOM_PLAN_NUMBER, 0, 0, 0);
    row(network(3, 0, 0, "0110"), LOOM_PLAN_LINK, 0, 0, 0);
}

/* Host 1 of the triangle, whose own links are 0 and 2. */
static loom_host_memory made(uint8_t rules) {
    loom_host_memory host;
    memset(&host, 0xaa, sizeof host);
    host.plan = network(3, 1, 0, triangle);
    IS(loom_make(&host, 3, 1), LOOM_RANGE);
    IS(host.last, 0xaaaaaaaaaaaaaaaa);
    IS(loom_make(&host, rules, 1), 0);
    IS(host.last, 0);
    IS(host.bound, rules == LOOM_FIRST ? 23 : 26);
    return host;
}

/* A copy of halt 7, stamp 100, source 0, on a fresh host. */
static uint64_t copy_at(uint8_t rules, uint64_t u, uint8_t hop) {
    loom_host_memory host = made(rules);
    return loom_receive(&host, u, 0, hop, 100, 0, LOOM_HALT, 7, 0);
}

static void receiving(void) {
    IS(copy_at(LOOM_SECOND, 97, 1), LOOM_EARLY);
    IS(copy_at(LOOM_SECOND, 98, 1), 65536 * 4 + 256 * 2);
    IS(copy_at(LOOM_SECOND, 112, 1), 65536 * 4 + 256 * 2);
    IS(copy_at(LOOM_SECOND, 113, 1), LOOM_LATE);
    IS(copy_at(LOOM_SECOND, 126, 2), LOOM_LATE);
    IS(copy_at(LOOM_SECOND, 126, 3), LOOM_PAST_BOUND);
    IS(copy_at(LOOM_SECOND, 100, 8), 0);
    IS(copy_at(LOOM_FIRST, 122, 0), 65536 * 4);
    IS(copy_at(LOOM_FIRST, 123, 0), LOOM_PAST_BOUND);
    IS(copy_at(LOOM_FIRST, 100, 1), LOOM_RANGE);
}

static void starting_and_ticking(void) {
    loom_host_memory host = made(LOOM_SECOND);
    uint8_t list[40];
    memset(list, 0xaa, sizeof list);
    uint64_t answer = loom_start(&host, 5, LOOM_PUBLISH, 7, 25);
    IS(loom_refused(answer), 0);
    IS(loom_links(answer), 1 | 4);
    IS(loom_hop(answer), 1);
    IS(loom_start(&host, 5, LOOM_HALT, 7, 0), LOOM_SAME_READING);
    IS(loom_start(&host, 6, LOOM_PUBLISH, 7, 257), LOOM_RANGE);
    IS(loom_receive(&host, 6, 0, 1, 5, 1, LOOM_PUBLISH, 7, 25), LOOM_SAME_HELD);
    IS(loom_receive(&host, 6, 0, 1, 5, 1, LOOM_HALT, 7, 0), LOOM_OTHER_HELD);
    IS(loom_receive(&host, 6, 1, 1, 5, 0, LOOM_HALT, 7, 0), LOOM_LACKING);
    IS(loom_tick(&host, 30, list, 0), 0);
    IS(loom_tick(&host, 31, list, 15), LOOM_SHORT);
    IS(list[0], 0xaa);
    answer = loom_tick(&host, 31, list, sizeof list);
    IS(loom_length(answer), 1);
    const uint8_t entry[17] = {0, 0, 0, 0, 0, 0, 0, 5, 1, 1, 0, 0, 0, 7, 25, 0, 0xaa};
    IS(memcmp(list, entry, sizeof entry), 0);
    IS(host.held, 0);
    host.starts[2] = 1;
    IS(loom_tick(&host, 32, list, sizeof list), LOOM_UNSOUND);
}

static const uint8_t halt[23] = {1, 0, 8, 0, 0, 0, 0, 0, 0, 0, 0x64, 2, 0, 1, 0, 4, 0, 5, 2, 0, 0, 0, 7};

static void messages(void) {
    uint8_t out[24];
    uint64_t found[8], expected[8] = {100, 0, 0, LOOM_HALT, 7, 0, 18, 5};
    memset(out, 0xaa, sizeof out);
    IS(loom_write(LOOM_FIRST, 100, 0, 0, LOOM_HALT, 7, 0, out, 22), LOOM_SHORT);
    IS(out[0], 0xaa);
    IS(loom_write(LOOM_FIRST, 100, 8, 0, LOOM_HALT, 7, 0, out, 24), LOOM_RANGE);
    IS(loom_write(LOOM_FIRST, 100, 0, 0, LOOM_HALT, 7, 0, out, 24), 256 * 23);
    IS(memcmp(out, halt, sizeof halt), 0);
    IS(out[23], 0xaa);
    IS(loom_read(LOOM_FIRST, halt, sizeof halt, found, 8), 0);
    IS(memcmp(found, expected, sizeof found), 0);
    IS(loom_read(LOOM_FIRST, halt, sizeof halt, found, 7), LOOM_SHORT);
    IS(loom_read(LOOM_FIRST, halt, sizeof halt - 1, found, 8), LOOM_NO_MESSAGE);
    IS(loom_read(0, halt, 0, found, 8), LOOM_RANGE);
}

static void board(void) {
    loom_board_memory memory = {0, {{0, 0, 0}}};
    IS(loom_apply(&memory, LOOM_PUBLISH, 7, 25), 0);
    IS(loom_apply(&memory, LOOM_HALT, 7, 0), 0);
    IS(memory.places[0].stand, LOOM_HALTED);
    IS(memory.places[0].share, 25);
    IS(loom_apply(&memory, LOOM_PUBLISH, 7, 0), LOOM_RANGE);
    IS(loom_apply(&memory, LOOM_RESUME, 7, 0), 0);
    IS(memory.places[0].stand, LOOM_OFFERED);
    IS(loom_apply(&memory, LOOM_WITHDRAW, 7, 0), 0);
    IS(memory.count, 0);
    memory.places[3].share = 1;
    IS(loom_apply(&memory, LOOM_HALT, 7, 0), LOOM_UNSOUND);
}

/* The paper's case of a schedule and its text. */
static void replay(void) {
    const uint8_t schedule[] = {16, 0, 5, 3, 1, 0, 10, 3, 17, 0, 2, 0, 1, 17, 0, 2, 0, 2, 17, 0, 2, 1, 2,
                                18, 0, 3, 1, 0, 0, 19, 0, 3, 0, 0, 2, 20, 0, 2, 0, 40,
                                21, 0, 8, 0, 5, 0, 2, 0, 0, 0, 7,
                                22, 0, 4, 0, 0, 0, 10, 22, 0, 4, 0, 1, 0, 0, 22, 0, 4, 0, 2, 0, 10};
    const char text[] = "delta 23\n"
                        "host 0 at 28 stamp 5 from 0 halt 7\n"
                        "host 1 at 28 stamp 5 from 0 halt 7\n"
                        "host 2 at 28 stamp 5 from 0 halt 7\n"
                        "copies 4\n";
    uint8_t out[512];
    IS(loom_replay(schedule, sizeof schedule, out, 10), LOOM_SHORT);
    IS(loom_length(loom_replay(schedule, sizeof schedule, out, sizeof out)), sizeof text - 1);
    IS(memcmp(out, text, sizeof text - 1), 0);
    IS(loom_length(loom_replay(schedule, 0, out, sizeof out)), 11);
    IS(memcmp(out, "refused 31\n", 11), 0);
}

/* Where a size or a room is 0 the pointer may be NULL. */
static void nothing_lent(void) {
    uint8_t out[16];
    uint64_t found[8];
    loom_host_memory memory = {0};
    memory.plan = network(3, 1, 0, triangle);
    IS(loom_make(&memory, LOOM_FIRST, 0), 0);
    IS(loom_tick(&memory, 5, NULL, 0), 0);
    IS(loom_write(LOOM_FIRST, 100, 0, 0, LOOM_HALT, 7, 0, NULL, 0), LOOM_SHORT);
    IS(loom_read(LOOM_FIRST, NULL, 0, found, 8), LOOM_NO_MESSAGE);
    IS(loom_read(LOOM_FIRST, halt, sizeof halt, NULL, 0), LOOM_SHORT);
    IS(loom_replay(NULL, 0, NULL, 0), LOOM_SHORT);
    IS(loom_length(loom_replay(NULL, 0, out, sizeof out)), 11);
}

int main(void) {
    nothing_lent();
    planning();
    receiving();
    starting_and_ticking();
    messages();
    board();
    replay();
    if (failures == 0) {
        puts("ok");
    }
    return failures == 0 ? EXIT_SUCCESS : EXIT_FAILURE;
}
