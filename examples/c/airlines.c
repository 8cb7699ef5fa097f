/*
 * An airline list: edits of it are checked, and the accepted one says at which end each bag is loaded; then the lane on
 * the shift sheet.
 */
#include <inttypes.h>
#include <stdio.h>
#include <stdlib.h>
#include <string.h>

#include "lane.h"

enum { SLOTS = 16, TASKS = 1, GROWTH = 2, WORDS = LANE_WORDS(SLOTS, TASKS) };

static uint32_t table[WORDS];

static const char *const edits[] = {
    "(airline (code 125) left)\n(airline (code 020) right)\n(airline (code 125) right)\n(others right)\n",
    "(airline (code 125) left)\n(airline (code 20) left)\n(others right)\n",
    "(airline (code 125) left)\n(airline (code 020) left)\n(others right)\n",
};

static void print_refused(uint32_t refusal) {
    printf("  refused %" PRIu32 ": %s\n", refusal, lane_refusal_text(refusal));
}

static void check(uint32_t refusal) {
    if (refusal != 0) {
        print_refused(refusal);
        exit(1);
    }
}

/* A line of a text, from 1. */
static void print_line(const char *text, uint32_t line) {
    for (uint32_t i = 1; i < line; i++) {
        text = strchr(text, '\n') + 1;
    }
    printf("  line %" PRIu32 ": %.*s\n", line, (int)strcspn(text, "\n"), text);
}

/* Whether a list is accepted; its first faulty line is shown. */
static int accepted(const char *list) {
    uint64_t checked = lane_list_check((const uint8_t *)list, strlen(list));
    if (LANE_REFUSAL(checked) != 0) {
        print_refused(LANE_REFUSAL(checked));
        print_line(list, LANE_COUNT(checked));
        return 0;
    }
    puts("  accepted");
    return 1;
}

/* A push by list, to its answer. */
static void load(const char *list, uint64_t tag) {
    uint32_t digit = lane_tag_digit(tag), low = lane_tag_low(tag);
    uint64_t begun = lane_push_by_list((const uint8_t *)list, strlen(list), table, WORDS, 0, 0, digit, low);
    check(LANE_REFUSAL(begun));
    if (LANE_KIND(lane_ticks(table, WORDS, 0, 0, LANE_MAX_TICKS_ALONE(SLOTS))) != LANE_PUSHED) {
        exit(1);
    }
}

static void print_lane(void) {
    uint32_t tags[LANE_TAG_WORDS * LANE_MAX_BAGS(SLOTS, 1)];
    uint64_t reading = lane_read(table, WORDS, 0, tags, LANE_TAG_WORDS * LANE_MAX_BAGS(SLOTS, 1));
    check(LANE_REFUSAL(reading));
    printf("  lane:");
    for (uint32_t place = 0; place < LANE_COUNT(reading); place++) {
        printf(" %010" PRIu64, lane_tag_at(tags, place));
    }
    puts("");
}

/* The lines of a page that are not blank. */
static void print_page(uint32_t number) {
    static uint8_t page[LANE_PAGE_BYTES];
    check(lane_sheet(table, WORDS, 0, number, page, LANE_PAGE_BYTES));
    for (size_t line = 0; line < LANE_PAGE_LINES; line++) {
        const char *text = (const char *)page + line * (LANE_PAGE_COLUMNS + 1);
        if (text[0] != ' ') {
            printf("  |%.*s|\n", LANE_PAGE_COLUMNS, text);
        }
    }
}

int main(void) {
    static const uint64_t tags[] = {1250000051, UINT64_C(9125000052), 20000053, 54};
    const char *list = NULL;

    puts("three edits of the list, each checked; of a faulty one the first faulty line is shown");
    for (size_t i = 0; i < sizeof edits / sizeof edits[0]; i++) {
        if (accepted(edits[i])) {
            list = edits[i];
        }
    }
    if (list == NULL) {
        return 1;
    }

    puts("bags of the airlines 250, 125, 020 and 000, loaded by the accepted list");
    check(lane_start(table, WORDS, SLOTS, TASKS, GROWTH, 1));
    for (size_t i = 0; i < sizeof tags / sizeof tags[0]; i++) {
        load(list, tags[i]);
        print_lane();
    }

    puts("five more of airline 125, and the first page of the shift sheet");
    for (uint64_t tag = 125000055; tag < 125000060; tag++) {
        load(list, tag);
    }
    print_page(0);
    return 0;
}
