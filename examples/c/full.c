/* Four tasks, one of them stalled, a lane that is "full" with no bag in it, and the ways out of it. */
#include <inttypes.h>
#include <stdio.h>
#include <stdlib.h>

#include "lane.h"

enum { SLOTS = 8, TASKS = 4, WORDS = LANE_WORDS(SLOTS, TASKS) };
enum { LOADER, UNLOADER, KEEPER, SLEEPER }; /* the four tasks */

static uint32_t table[WORDS];

static void check(uint32_t refusal) {
    if (refusal != 0) {
        fprintf(stderr, "refused %" PRIu32 ": %s\n", refusal, lane_refusal_text(refusal));
        exit(1);
    }
}

/* A call to its answer: the kind; a bag's tag goes to `tag`, if it is not NULL. */
static uint32_t call(uint32_t task, uint32_t operation, uint32_t side, uint64_t argument, uint64_t *tag) {
    uint64_t answer = lane_call(table, WORDS, task, 0, operation, side, argument);
    if (LANE_KIND(answer) == LANE_REFUSED) {
        check((uint32_t)LANE_VALUE(answer));
    }
    if (LANE_KIND(answer) == LANE_BAG && tag != NULL) {
        *tag = LANE_VALUE(answer);
    }
    return LANE_KIND(answer);
}

/* Ticks every task that is in a call, in turn, until all have answered. */
static void finish_all(void) {
    uint64_t answer;
    do {
        answer = lane_dispatches(table, WORDS, 0, UINT32_MAX);
    } while (LANE_KIND(answer) < LANE_REFUSED);
    check((uint32_t)LANE_VALUE(answer));
}

/* A push that does not give up at the first "full". Returns 0 if the lane has no room at this end. */
static int push_for_sure(uint32_t side, uint64_t tag) {
    if (call(LOADER, LANE_PUSH, side, tag, NULL) == LANE_PUSHED) {
        return 1;
    }
    puts("  full: every busy task gets its answer");
    finish_all();
    if (call(LOADER, LANE_PUSH, side, tag, NULL) == LANE_PUSHED) {
        return 1;
    }
    puts("  full again: push, pop, remove 0 at the other end");
    return LANE_KIND(lane_make_room(table, WORDS, KEEPER, 0, side, tag)) == LANE_PUSHED;
}

static void print_lane(void) {
    uint32_t tags[LANE_TAG_WORDS * LANE_MAX_BAGS(SLOTS, 1)];
    uint64_t reading = lane_read(table, WORDS, 0, tags, LANE_TAG_WORDS * LANE_MAX_BAGS(SLOTS, 1));
    check(LANE_REFUSAL(reading));
    printf("  lane:");
    for (uint32_t place = 0; place < LANE_COUNT(reading); place++) {
        printf(" %010" PRIu64, lane_tag_at(tags, place));
    }
    puts("");
}

int main(void) {
    uint64_t tag = 0;
    check(lane_start(table, WORDS, SLOTS, TASKS, 0, 1));

    puts("the sleeper begins a pop, gets one tick, and stalls");
    check(lane_begin(table, WORDS, SLEEPER, 0, LANE_POP, LANE_LEFT, 0, 0));
    if (LANE_KIND(lane_tick(table, WORDS, SLEEPER, 0)) != LANE_GOING) {
        return 1;
    }

    puts("bags pass, in at the right, out at the left, and spare slots are given back behind them");
    for (tag = 1; call(LOADER, LANE_PUSH, LANE_RIGHT, tag, NULL) == LANE_PUSHED; tag++) {
        uint64_t out = 0;
        if (call(UNLOADER, LANE_POP, LANE_LEFT, 0, &out) != LANE_BAG || out != tag) {
            return 1;
        }
        call(KEEPER, LANE_REMOVE, LANE_LEFT, 0, NULL);
    }
    printf("push %010" PRIu64 " is full on an empty lane: ", tag);
    puts("all slots that were given back are kept by the sleeper");
    print_lane();
    puts(push_for_sure(LANE_RIGHT, tag) ? "  pushed" : "  no room");
    print_lane();

    puts("four spare slots at the left, where nobody pushes now");
    call(KEEPER, LANE_ADD, LANE_LEFT, 3, NULL);
    while (call(LOADER, LANE_PUSH, LANE_RIGHT, ++tag, NULL) == LANE_PUSHED) {
    }
    printf("push %010" PRIu64 " is full\n", tag);
    print_lane();
    while (push_for_sure(LANE_RIGHT, tag)) {
        puts("  pushed");
        tag++;
    }
    puts("  no room: that is as much as a table of 8 slots carries, 6 bags");
    print_lane();
    return 0;
}
