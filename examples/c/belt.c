/* The belt run of the paper from C, printed as the paper prints it: `make -C examples/c run`. */
#include <inttypes.h>
#include <stdio.h>

#include "lane.h"

enum { SLOTS = 4, TASKS = 1, WORDS = LANE_WORDS(SLOTS, TASKS) };

static uint32_t table[WORDS];

/* What start and begin return. */
static void print_reply(uint32_t refusal) {
    if (refusal == 0) {
        puts("(ok)");
    } else {
        printf("(refused %" PRIu32 ")\n", refusal);
    }
}

/* Ticks of task 0 until an answer, a refusal, or so many; prints the last outcome. */
static void print_ticks(uint32_t times) {
    static const char *const names[] = {"going", "pushed", "bag", "empty", "full", "yes", "no"};
    uint64_t outcome = lane_ticks(table, WORDS, 0, 0, times);
    uint32_t kind = LANE_KIND(outcome);
    if (kind == LANE_BAG) {
        printf("(bag %010" PRIu64 ")\n", LANE_VALUE(outcome));
    } else if (kind == LANE_REFUSED) {
        print_reply((uint32_t)LANE_VALUE(outcome));
    } else {
        printf("(%s)\n", names[kind]);
    }
}

static void print_lane(void) {
    uint32_t out[LANE_TAG_WORDS * SLOTS];
    uint64_t reading = lane_read(table, WORDS, 0, out, LANE_TAG_WORDS * SLOTS);
    if (LANE_REFUSAL(reading) != 0) {
        print_reply(LANE_REFUSAL(reading));
        return;
    }
    printf("(lane");
    for (uint32_t place = 0; place < LANE_COUNT(reading); place++) {
        printf(" %010" PRIu64, lane_tag(out[2 * place], out[2 * place + 1]));
    }
    puts(")");
}

int main(void) {
    print_reply(lane_start(table, WORDS, SLOTS, TASKS, 0, 1));
    print_reply(lane_begin(table, WORDS, 0, 0, LANE_PUSH, LANE_RIGHT, 0, 51));
    print_ticks(10);
    print_ticks(1);
    print_lane();
    print_reply(lane_begin(table, WORDS, 0, 0, LANE_POP, LANE_LEFT, 0, 0));
    print_ticks(4);
    print_reply(lane_begin(table, WORDS, 0, 0, LANE_POP, LANE_RIGHT, 0, 0));
    print_ticks(4);
    print_ticks(1);
    return 0;
}
