/* Two lanes over one table: one is "full" by the slots that the other has, the way out, and a tag wanted in both. */
#include <inttypes.h>
#include <stdio.h>
#include <stdlib.h>

#include "lane.h"

enum { SLOTS = 8, TASKS = 2, GROWTH = 3, LANES = 2, WORDS = LANE_WORDS(SLOTS, TASKS) };
enum { NORTH, SOUTH }; /* the two lanes; each has a task of its own, with the same number */

static uint32_t table[WORDS];

static void check(uint32_t refusal) {
    if (refusal != 0) {
        fprintf(stderr, "refused %" PRIu32 ": %s\n", refusal, lane_refusal_text(refusal));
        exit(1);
    }
}

/* A call to its answer: the kind. */
static uint32_t call(uint32_t lane, uint32_t operation, uint32_t side, uint64_t argument) {
    uint64_t answer = lane_call(table, WORDS, lane, lane, operation, side, argument);
    if (LANE_KIND(answer) == LANE_REFUSED) {
        check((uint32_t)LANE_VALUE(answer));
    }
    return LANE_KIND(answer);
}

/* A push that is tried again after each other end has given back what it can. Returns 0 if this end has no room. */
static int push_for_sure(uint32_t lane, uint32_t side, uint64_t tag) {
    uint64_t answer = lane_make_room(table, WORDS, lane, lane, side, tag);
    if (LANE_KIND(answer) == LANE_REFUSED) {
        check((uint32_t)LANE_VALUE(answer));
    }
    return LANE_KIND(answer) == LANE_PUSHED;
}

static void print_lanes(void) {
    static const char *const names[] = {"north", "south"};
    uint32_t tags[LANE_TAG_WORDS * LANE_MAX_BAGS(SLOTS, LANES)];
    for (uint32_t lane = 0; lane < LANES; lane++) {
        uint64_t reading = lane_read(table, WORDS, lane, tags, LANE_TAG_WORDS * LANE_MAX_BAGS(SLOTS, LANES));
        check(LANE_REFUSAL(reading));
        printf("  %s:", names[lane]);
        for (uint32_t place = 0; place < LANE_COUNT(reading); place++) {
            printf(" %010" PRIu64, lane_tag_at(tags, place));
        }
        puts("");
    }
}

/* What the begin of a push is refused with. */
static void print_refused(uint32_t lane, uint64_t tag) {
    uint32_t refusal = lane_begin(table, WORDS, 0, lane, LANE_PUSH, LANE_LEFT, lane_tag_digit(tag), lane_tag_low(tag));
    printf("  refused %" PRIu32 ": %s\n", refusal, lane_refusal_text(refusal));
}

int main(void) {
    uint64_t tag = 51;
    check(lane_start(table, WORDS, SLOTS, TASKS, GROWTH, LANES));

    puts("the first push in the north adds a slot and, by the growth, three more: all that were free");
    if (call(NORTH, LANE_PUSH, LANE_RIGHT, tag) != LANE_PUSHED) {
        return 1;
    }
    tag++;
    if (call(SOUTH, LANE_PUSH, LANE_RIGHT, tag) != LANE_FULL) {
        return 1;
    }
    printf("push %010" PRIu64 " is full in the south, where no bag is\n", tag);
    print_lanes();
    puts("push, pop, remove 0 at one other end after another, and again the push");
    puts(push_for_sure(SOUTH, LANE_RIGHT, tag) ? "  pushed" : "  no room");
    print_lanes();

    printf("tag %010" PRIu64 " stands in the south, and the north refuses it; a third lane is not there\n", tag);
    print_refused(NORTH, tag);
    print_refused(LANES, tag);

    puts("bags at one end after another, until no end has room");
    for (uint32_t end = 0; end < 2 * LANES; end++) {
        while (push_for_sure(end / 2, end % 2, tag + 1)) {
            tag++;
        }
    }
    print_lanes();
    puts("that is as much as 8 slots carry in two lanes, 4 bags");
    return 0;
}
