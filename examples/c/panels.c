/* Two belt panels, each with its task's record in its own memory: lent, looked at, copied; and what a copy can do wrong. */
#include <inttypes.h>
#include <stdio.h>
#include <stdlib.h>

#include "lane.h"

enum { SLOTS = 4, TASKS = 2, WORDS = LANE_WORDS(SLOTS, TASKS) };

/* A panel: its task, and the record that it keeps. */
struct panel {
    const char *name;
    uint32_t task;
    struct lane_record record;
};

static uint32_t table[WORDS], snapshot[WORDS];
static struct panel west = {"west", 0, LANE_FRESH_RECORD}, east = {"east", 1, LANE_FRESH_RECORD};

static void check(uint32_t refusal) {
    if (refusal != 0) {
        fprintf(stderr, "refused %" PRIu32 ": %s\n", refusal, lane_refusal_text(refusal));
        exit(1);
    }
}

/* Lends the record; says what came of it. Returns 0 if it was refused, and there is nothing to copy. */
static int lend(struct panel *panel, uint32_t operation, uint32_t side, uint64_t argument) {
    static const char *const names[] = {"", "a push", "a pop", "an add", "a remove"};
    uint32_t digit = lane_tag_digit(argument), low = lane_tag_low(argument);
    uint32_t refusal = lane_begin_record(&panel->record, table, WORDS, panel->task, 0, operation, side, digit, low);
    printf("  %s lends its record for %s", panel->name, names[operation]);
    if (operation == LANE_PUSH) {
        printf(" of %010" PRIu64, argument);
    }
    if (refusal != 0) {
        printf(": refused %" PRIu32 ", %s\n", refusal, lane_refusal_text(refusal));
        return 0;
    }
    puts("");
    return 1;
}

/* The whole recipe: lend, look, copy, and nothing in between. */
static void begin(struct panel *panel, uint32_t operation, uint32_t side, uint64_t argument) {
    if (lend(panel, operation, side, argument)) {
        check(lane_record_copy(table, WORDS, panel->task, &panel->record));
        printf("  %s copies it to the table\n", panel->name);
    }
}

/* Ticks in turn until every task is idle; a panel whose call has answered keeps a fresh record again. */
static void go_on(void) {
    static const struct lane_record fresh = LANE_FRESH_RECORD;
    uint64_t answer;
    while (LANE_KIND(answer = lane_dispatches(table, WORDS, 0, UINT32_MAX)) < LANE_REFUSED) {
        struct panel *panel = lane_dispatched(table, WORDS) == west.task ? &west : &east;
        printf("  %s: %s", panel->name, lane_answer_text(answer));
        if (LANE_KIND(answer) == LANE_BAG) {
            printf(" %010" PRIu64, LANE_VALUE(answer));
        }
        puts("");
        panel->record = fresh;
    }
    check((uint32_t)LANE_VALUE(answer));
}

int main(void) {
    check(lane_start(table, WORDS, SLOTS, TASKS, 0, 1));

    puts("two pushes are begun in the panels' own memory, and copied");
    begin(&west, LANE_PUSH, LANE_LEFT, 51);
    begin(&east, LANE_PUSH, LANE_RIGHT, 51);
    begin(&east, LANE_PUSH, LANE_RIGHT, 52);
    begin(&east, LANE_POP, LANE_RIGHT, 0);
    go_on();

    puts("a begin that is not copied is nothing, and the table is as it was");
    if (!lend(&west, LANE_POP, LANE_LEFT, 0) || lane_is_busy(table, WORDS, west.task)) {
        return 1;
    }
    puts("  west does not copy it");
    west.record = lane_record_of(table, WORDS, west.task);
    begin(&east, LANE_POP, LANE_LEFT, 0);
    begin(&west, LANE_POP, LANE_LEFT, 0);
    go_on();

    puts("what not to do: a fresh record is lent and copied over a remove in the middle");
    check(lane_take(table, WORDS, snapshot, WORDS));
    begin(&west, LANE_REMOVE, LANE_LEFT, 0);
    while (lane_step(table, WORDS, west.task) != 64) { /* it has made its cut, and not tidied up */
        if (LANE_KIND(lane_tick(table, WORDS, west.task, 0)) != LANE_GOING) {
            return 1;
        }
    }
    struct lane_record fresh = LANE_FRESH_RECORD;
    west.record = fresh;
    begin(&west, LANE_ADD, LANE_LEFT, 0);
    go_on();
    printf("  push 0000000053: %s, with no bag in the lane, for good\n",
           lane_answer_text(lane_make_room(table, WORDS, east.task, 0, LANE_RIGHT, 53)));
    check(lane_put(snapshot, WORDS, table, WORDS));
    printf("  the snapshot from before is put back: %s\n",
           lane_answer_text(lane_make_room(table, WORDS, east.task, 0, LANE_RIGHT, 53)));
    return 0;
}
