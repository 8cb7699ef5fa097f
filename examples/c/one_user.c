/* One user who makes whole calls alone: a few numbers foretell every answer, and how many bags an end takes. */
#include <inttypes.h>
#include <stdio.h>
#include <stdlib.h>

#include "lane.h"

enum { SLOTS = 8, TASKS = 1, GROWTH = 1, WORDS = LANE_WORDS(SLOTS, TASKS), MANY = 64 };

static uint32_t table[WORDS];

/* All that the user keeps: the bags from `first` to `past`, and how many slots are spare at each end. */
static uint32_t row[2 * MANY], first = MANY, past = MANY;
static uint32_t spare[2] = {1, 1};

static uint32_t free_slots(void) {
    return SLOTS - (past - first) - spare[LANE_LEFT] - spare[LANE_RIGHT];
}

/* How many new bags an end takes. */
static uint32_t room(uint32_t side) {
    return spare[side] + free_slots() - 1;
}

static uint32_t least(uint32_t one, uint32_t other) {
    return one < other ? one : other;
}

static uint64_t answer_of(uint32_t kind, uint32_t tag) {
    return (uint64_t)kind << 40 | tag;
}

/* A call's answer; what is kept is then as the call leaves it. The tag of a push is not in the lane. */
static uint64_t foretell(uint32_t operation, uint32_t side, uint32_t argument) {
    uint32_t *r = &spare[side];
    switch (operation) {
    case LANE_PUSH:
        if (room(side) == 0) {
            return answer_of(LANE_FULL, 0);
        }
        *r = *r > 1 ? *r - 1 : least(free_slots(), GROWTH + 1);
        row[side == LANE_LEFT ? --first : past++] = argument;
        return answer_of(LANE_PUSHED, 0);
    case LANE_POP:
        if (first == past) {
            return answer_of(LANE_EMPTY, 0);
        }
        ++*r;
        return answer_of(LANE_BAG, row[side == LANE_LEFT ? first++ : --past]);
    case LANE_ADD:
        if (free_slots() == 0) {
            return answer_of(LANE_NO, 0);
        }
        *r += least(free_slots(), argument + 1);
        return answer_of(LANE_YES, 0);
    default:
        if (*r == argument + 2) {
            return answer_of(LANE_NO, 0);
        }
        *r = least(*r, argument + 1);
        return answer_of(LANE_YES, 0);
    }
}

/* Makes a call, whose answer was foretold, and prints it with the room that is left. */
static uint32_t call(uint32_t operation, uint32_t side, uint32_t argument) {
    static const char *const operations[] = {"", "push", "pop", "add", "remove"};
    static const char *const sides[] = {"left", "right"};
    static const char *const kinds[] = {"going", "pushed", "bag", "empty", "full", "yes", "no"};
    uint64_t foretold = foretell(operation, side, argument);
    uint64_t answer = lane_call(table, WORDS, 0, 0, operation, side, argument);
    if (answer != foretold) {
        fprintf(stderr, "not as foretold\n");
        exit(1);
    }
    printf("%s %s %" PRIu32 ": %s", operations[operation], sides[side], argument, kinds[LANE_KIND(answer)]);
    if (LANE_KIND(answer) == LANE_BAG) {
        printf(" %010" PRIu64, LANE_VALUE(answer));
    }
    printf("; room left %" PRIu32 ", right %" PRIu32 "\n", room(LANE_LEFT), room(LANE_RIGHT));
    return LANE_KIND(answer);
}

int main(void) {
    static const uint32_t calls[][3] = {
        {LANE_POP, LANE_LEFT, 0},   {LANE_PUSH, LANE_RIGHT, 51},  {LANE_REMOVE, LANE_RIGHT, 0},
        {LANE_ADD, LANE_LEFT, 3},   {LANE_ADD, LANE_RIGHT, 0},    {LANE_PUSH, LANE_RIGHT, 52},
        {LANE_POP, LANE_LEFT, 0},   {LANE_REMOVE, LANE_LEFT, 1},  {LANE_ADD, LANE_RIGHT, 0},
        {LANE_PUSH, LANE_LEFT, 53}, {LANE_REMOVE, LANE_RIGHT, 7},
    };
    if (lane_start(table, WORDS, SLOTS, TASKS, GROWTH, 1) != 0) {
        return 1;
    }
    for (size_t i = 0; i < sizeof calls / sizeof calls[0]; i++) {
        call(calls[i][0], calls[i][1], calls[i][2]);
    }
    uint32_t more = room(LANE_RIGHT), tag = 61;
    printf("%" PRIu32 " more bags at the right, and it is full\n", more);
    while (call(LANE_PUSH, LANE_RIGHT, tag) == LANE_PUSHED) {
        tag++;
    }
    return tag == 61 + more ? 0 : 1;
}
