/* A snapshot taken in the middle of two calls: what comes after it, put back, and the same again; then by columns. */
#include <inttypes.h>
#include <stdio.h>
#include <stdlib.h>

#include "lane.h"

enum { SLOTS = 6, TASKS = 2, GROWTH = 0, WORDS = LANE_WORDS(SLOTS, TASKS) };

static uint32_t table[WORDS], first[WORDS], second[WORDS];

static void check(uint32_t refusal) {
    if (refusal != 0) {
        fprintf(stderr, "refused %" PRIu32 ": %s\n", refusal, lane_refusal_text(refusal));
        exit(1);
    }
}

static void print_lane(void) {
    uint32_t tags[LANE_TAG_WORDS * LANE_MAX_BAGS(SLOTS, 1)];
    uint64_t reading = lane_read(table, WORDS, 0, tags, LANE_TAG_WORDS * LANE_MAX_BAGS(SLOTS, 1));
    check(LANE_REFUSAL(reading));
    printf("  lane:");
    for (uint32_t place = 0; place < LANE_COUNT(reading); place++) {
        printf(" %010" PRIu64, lane_tag_at(tags, place));
    }
    puts("");
}

/* Dispatches until every task is idle, with each answer on the way. */
static void go_on(void) {
    static const char *const kinds[] = {"going", "pushed", "bag", "empty", "full", "yes", "no"};
    uint64_t answer;
    while (LANE_KIND(answer = lane_dispatches(table, WORDS, 0, UINT32_MAX)) < LANE_REFUSED) {
        printf("  task %" PRIu32 ": %s", table[LANE_DISPATCHED], kinds[LANE_KIND(answer)]);
        if (LANE_KIND(answer) == LANE_BAG) {
            printf(" %010" PRIu64, LANE_VALUE(answer));
        }
        printf(", tick %" PRIu32 "\n", table[LANE_TICK_COUNT]);
    }
    print_lane();
}

/* The slots at which two snapshots differ, column by column. */
static void compare(void) {
    static const char *const names[] = {"L", "R", "V", "digit"};
    for (size_t column = 0; column < 4; column++) {
        const size_t from = 16 + SLOTS * column;
        printf("  %s:", names[column]);
        for (size_t slot = 0; slot < SLOTS; slot++) {
            if (first[from + slot] != second[from + slot]) {
                printf(" %lu", (unsigned long)slot);
            }
        }
        puts("");
    }
}

int main(void) {
    check(lane_start(table, WORDS, SLOTS, TASKS, GROWTH, 1));
    for (uint64_t tag = 51; tag < 53; tag++) {
        if (LANE_KIND(lane_call(table, WORDS, 0, 0, LANE_PUSH, LANE_RIGHT, tag)) != LANE_PUSHED) {
            return 1;
        }
    }
    check(lane_begin(table, WORDS, 0, 0, LANE_PUSH, LANE_RIGHT, 0, 53));
    check(lane_begin(table, WORDS, 1, 0, LANE_POP, LANE_LEFT, 0, 0));
    if (LANE_KIND(lane_ticks(table, WORDS, 0, 0, 5)) != LANE_GOING) {
        return 1;
    }

    puts("two bags, and a push and a pop in the middle: a snapshot is taken");
    check(lane_take(table, WORDS, first, WORDS));
    print_lane();
    puts("going on");
    go_on();
    puts("a second snapshot; the first has other words at these slots");
    check(lane_take(table, WORDS, second, WORDS));
    compare();
    puts("the first is put back: the popped bag stands in the lane again");
    check(lane_put(first, WORDS, table, WORDS));
    print_lane();
    puts("going on, with the same answers");
    go_on();
    check(lane_take(table, WORDS, first, WORDS));
    puts("and with the same words");
    compare();

    puts("altered, so that it would give no table, it is not put back");
    first[16] = SLOTS; /* L of slot 0 made no slot */
    uint32_t refusal = lane_put(first, WORDS, table, WORDS);
    printf("  refused %" PRIu32 ": %s\n", refusal, lane_refusal_text(refusal));
    print_lane();
    return 0;
}
