/* Two tasks that push and pop, each at its own end, then both at the right, then apart again: how many of the last 64
 * ticks lost a swap, which warns of tasks that fight over an end. */
#include <inttypes.h>
#include <stdio.h>
#include <stdlib.h>

#include "lane.h"

enum { SLOTS = 16, TASKS = 2, WORDS = LANE_WORDS(SLOTS, TASKS), BAGS = 6 };
enum { WIDTH = 64, WINDOW = LANE_WINDOW_WORDS(WIDTH), PHASE = 192, EVERY = 16 };

static uint32_t table[WORDS], window[WINDOW];
static uint64_t next_tag = 1;

static void check(uint32_t refusal) {
    if (refusal != 0) {
        fprintf(stderr, "refused %" PRIu32 ": %s\n", refusal, lane_refusal_text(refusal));
        exit(1);
    }
}

/* The next call of a task, at this end: a push and a pop in turn. */
static void begin_next(uint32_t task, uint32_t side) {
    static int pops[TASKS];
    uint64_t tag = pops[task] ? 0 : next_tag++;
    uint32_t operation = pops[task] ? LANE_POP : LANE_PUSH;
    pops[task] = !pops[task];
    check(lane_begin(table, WORDS, task, 0, operation, side, lane_tag_digit(tag), lane_tag_low(tag)));
}

/* A tick of the next task, watched; returns how many of the last ticks lost a swap. */
static uint32_t watched_tick(void) {
    uint64_t fed = 0;
    uint64_t answer = lane_watch_dispatch(table, WORDS, 0, window, WINDOW, &fed);
    if (LANE_KIND(answer) == LANE_REFUSED) {
        check((uint32_t)LANE_VALUE(answer));
    }
    check(LANE_REFUSAL(fed));
    return LANE_COUNT(fed);
}

int main(void) {
    static const char *const phases[] = {"each at its own end", "both at the right", "apart again"};
    check(lane_start(table, WORDS, SLOTS, TASKS, 0, 1));
    while (next_tag <= BAGS) {
        if (LANE_KIND(lane_call(table, WORDS, 0, 0, LANE_PUSH, LANE_LEFT, next_tag++)) != LANE_PUSHED) {
            return 1;
        }
    }
    check(lane_window(window, WINDOW, WIDTH));
    for (uint32_t tick = 0; tick < 3 * PHASE; tick++) {
        uint32_t phase = tick / PHASE, lost;
        if (tick % PHASE == 0) {
            puts(phases[phase]);
        }
        for (uint32_t task = 0; task < TASKS; task++) {
            if (lane_step(table, WORDS, task) == 0) {
                begin_next(task, phase == 1 ? LANE_RIGHT : task);
            }
        }
        lost = watched_tick();
        if ((tick + 1) % EVERY == 0) {
            printf("  tick %3" PRIu32 ": %" PRIu32 "\n", tick + 1, lost);
        }
    }
    return 0;
}
