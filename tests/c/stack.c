/* The stack that each call takes: made on a painted stack, at the largest sizes, down to the deepest byte touched. */
#define _XOPEN_SOURCE 600
#include <stdio.h>
#include <string.h>
#include <ucontext.h>

#define LANE_MUST_USE
#include "lane.h"

enum { SLOTS = LANE_MAX_SLOTS, TASKS = LANE_MAX_TASKS, WORDS = LANE_MAX_WORDS, LAST = LANE_MAX_LANES - 1 };
enum { PAINT = 0xa5, SPACE = 65536 };

static uint32_t table[WORDS], snapshot[WORDS], out[LANE_TAG_WORDS * SLOTS];
static uint32_t tags[LANE_TAG_WORDS * LANE_LIST_TAGS];
static uint8_t tag_list[LANE_TAG_BYTES * LANE_LIST_TAGS];
static uint32_t list[2 * LANE_MAX_TICKS], answers[LANE_ANSWER_WORDS * LANE_MAX_TICKS];
static uint8_t airlines[LANE_LIST_BYTES + 1], page[LANE_PAGE_BYTES];
static uint32_t window[LANE_WINDOW_WORDS(LANE_MAX_WIDTH)];
static unsigned char stack[SPACE];
static ucontext_t here, there;

static void start(void) {
    lane_start(table, WORDS, SLOTS, TASKS, LANE_MAX_GROWTH, LANE_MAX_LANES);
}

static void version(void) {
    lane_version();
}

static void begin(void) {
    lane_begin(table, WORDS, 0, LAST, LANE_PUSH, LANE_RIGHT, 0, 51);
}

static void begin_record(void) {
    struct lane_record record = LANE_FRESH_RECORD;
    lane_begin_record(&record, table, WORDS, 3, LAST, LANE_PUSH, LANE_RIGHT, 0, 54);
}

static void tick(void) {
    lane_tick(table, WORDS, 0, 0);
}

static void ticks(void) {
    lane_begin(table, WORDS, 1, LAST, LANE_PUSH, LANE_LEFT, 0, 52);
    lane_ticks(table, WORDS, 1, 0, LANE_MAX_TICKS_ALONE(SLOTS));
}

static void run(void) {
    lane_run(table, WORDS, list, 2 * LANE_MAX_TICKS, answers, LANE_ANSWER_WORDS * LANE_MAX_TICKS);
}

static void panel(void) {
    lane_begin(table, WORDS, 0, LAST, LANE_ADD, LANE_RIGHT, 0, LANE_MAX_ADD);
    lane_panel(table, WORDS, list, 2 * LANE_MAX_PANEL_TICKS, answers, LANE_ANSWER_WORDS * LANE_MAX_PANEL_TICKS);
}

static void dispatch(void) {
    lane_dispatch(table, WORDS, 0);
}

static void dispatches(void) {
    lane_dispatches(table, WORDS, 0, UINT32_MAX);
}

static void read_lane(void) {
    lane_read(table, WORDS, LAST, out, LANE_TAG_WORDS * SLOTS);
}

static void sheet(void) {
    lane_sheet(table, WORDS, LAST, 0, page, LANE_PAGE_BYTES);
}

static void take(void) {
    lane_take(table, WORDS, snapshot, WORDS);
}

static void put(void) {
    lane_put(snapshot, WORDS, table, WORDS);
}

static void read_tags(void) {
    lane_tags_read(tag_list, sizeof tag_list, tags, LANE_TAG_WORDS * LANE_LIST_TAGS);
}

static void write_tags(void) {
    lane_tags_write(tags, LANE_TAG_WORDS * LANE_LIST_TAGS, tag_list, sizeof tag_list);
}

static void check_list(void) {
    lane_list_check(airlines, LANE_LIST_BYTES);
}

static void push_by_list(void) {
    lane_push_by_list(airlines, LANE_LIST_BYTES, table, WORDS, 2, LAST, 0, 53);
}

static void make_window(void) {
    lane_window(window, LANE_WINDOW_WORDS(LANE_MAX_WIDTH), LANE_MAX_WIDTH);
}

static void feed(void) {
    lane_feed(window, LANE_WINDOW_WORDS(LANE_MAX_WIDTH), 9, 5, 8);
}

static size_t touched(void (*call)(void)) {
    size_t at = 0;
    memset(stack, PAINT, SPACE);
    getcontext(&there);
    there.uc_stack.ss_sp = stack;
    there.uc_stack.ss_size = SPACE;
    there.uc_link = &here;
    makecontext(&there, call, 0);
    swapcontext(&here, &there);
    while (at < SPACE && stack[at] == PAINT) {
        at++;
    }
    return SPACE - at;
}

static int failures;

static void print(const char *name, size_t bytes, size_t most) {
    printf("stack of lane_%-12s %5lu bytes\n", name, (unsigned long)bytes);
    failures += bytes > most;
}

int main(void) {
    size_t deepest = 0;
    print("version", touched(version), 800);
    print("start", touched(start), 800);
    print("begin", touched(begin), 800);
    print("begin_record", touched(begin_record), 800);
    for (int i = 0; i < 8; i++) { /* the fourth takes a slot, and so do those after it */
        size_t bytes = touched(tick);
        deepest = bytes > deepest ? bytes : deepest;
    }
    print("tick", deepest, 3700);
    print("ticks", touched(ticks), 3700);
    print("run", touched(run), 3700);
    print("panel", touched(panel), 3700);
    print("dispatch", touched(dispatch), 3700);     /* the panel's add goes on, and takes a slot */
    print("dispatches", touched(dispatches), 3700); /* more of them */
    print("read", touched(read_lane), 800);
    print("sheet", touched(sheet), 800);
    print("take", touched(take), 800);
    print("put", touched(put), 800);
    memset(tag_list, 0x99, sizeof tag_list);
    print("tags_read", touched(read_tags), 800);
    print("tags_write", touched(write_tags), 800);
    for (unsigned code = 1; code < LANE_LIST_LINES; code++) {
        sprintf((char *)airlines + 27 * (code - 1), "(airline (code %03u) right)\n", code);
    }
    strcat((char *)airlines, "(others right)\n");
    print("list_check", touched(check_list), 1700);
    print("push_by_list", touched(push_by_list), 1700);
    print("window", touched(make_window), 800);
    print("feed", touched(feed), 800);
    if (failures > 0) {
        puts("more stack than include/lane.h says");
    }
    return failures > 0;
}
