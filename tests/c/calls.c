/* What include/lane.h says, held to the library: limits, refusals, empty slices without a pointer, helpers. */
#include <stdio.h>
#include <stdlib.h>
#include <string.h>

#include "lane.h"

static int failures;

static void expect(int holds, const char *what, int line) {
    if (!holds) {
        printf("line %d: %s\n", line, what);
        failures++;
    }
}

#define EXPECT(condition) expect((condition), #condition, __LINE__)
#define PAIR(refusal, count) ((uint64_t)(refusal) << 32 | (uint64_t)(count))
#define ANSWER(kind, value) ((uint64_t)(kind) << 40 | (uint64_t)(value))

enum { SLOTS = 8, TASKS = 2, WORDS = LANE_WORDS(SLOTS, TASKS), MANY = LANE_MAX_TICKS + 1 };

static uint32_t table[LANE_MAX_WORDS];
static uint32_t list[2 * MANY];
static uint32_t answers[LANE_ANSWER_WORDS * MANY];

/* One lane, as most of the tests have it. */
static void begin_again(void) {
    EXPECT(lane_start(table, WORDS, SLOTS, TASKS, 0, 1) == 0);
}

static uint32_t begin(uint32_t task, uint32_t operation, uint32_t side, uint64_t argument) {
    return lane_begin(table, WORDS, task, 0, operation, side, lane_tag_digit(argument), lane_tag_low(argument));
}

static uint64_t call(uint32_t task, uint32_t operation, uint32_t side, uint64_t argument) {
    return lane_call(table, WORDS, task, 0, operation, side, argument);
}

/* The library is of the header's version and format; others that fit, and others that do not. */
static void versions(void) {
    char text[40];
    unsigned number = LANE_VERSION_NUMBER;
    sprintf(text, "%u.%u.%u", number / 1000000, number / 1000 % 1000, number % 1000);
    EXPECT(strcmp(text, LANE_VERSION) == 0);
    EXPECT(lane_version() == PAIR(LANE_TABLE_FORMAT, LANE_VERSION_NUMBER));
    EXPECT(lane_fits(lane_version()));
    EXPECT(lane_fits(lane_version() + 1000) && lane_fits(lane_version() + 1));
    EXPECT(!lane_fits(lane_version() + 1000000) && !lane_fits(lane_version() - 1000000));
    EXPECT(!lane_fits(lane_version() - 1000));
    EXPECT(!lane_fits(lane_version() + PAIR(1, 0)) && !lane_fits(lane_version() - PAIR(1, 0)) && !lane_fits(0));
}

/* Each limit is accepted, and the number beyond it is not. */
static void limits(void) {
    static uint32_t longer[LANE_WORDS(LANE_MAX_SLOTS + 1, LANE_MAX_TASKS)];
    EXPECT(LANE_WORDS(LANE_MIN_SLOTS, LANE_MIN_TASKS) == LANE_MIN_WORDS);
    EXPECT(LANE_WORDS(LANE_MAX_SLOTS, LANE_MAX_TASKS) == LANE_MAX_WORDS);
    EXPECT(lane_start(table, LANE_MIN_WORDS, LANE_MIN_SLOTS, LANE_MIN_TASKS, 0, 1) == 0);
    EXPECT(lane_start(table, LANE_MIN_WORDS - 4, LANE_MIN_SLOTS - 1, LANE_MIN_TASKS, 0, 1) == LANE_REFUSED_SIZES);
    EXPECT(lane_start(table, LANE_MIN_WORDS - 13, LANE_MIN_SLOTS, LANE_MIN_TASKS - 1, 0, 1) == LANE_REFUSED_SIZES);
    EXPECT(lane_start(table, LANE_MIN_WORDS - 1, LANE_MIN_SLOTS, LANE_MIN_TASKS, 0, 1) == LANE_REFUSED_LENGTH);
    EXPECT(lane_start(table, LANE_MAX_WORDS, LANE_MAX_SLOTS, LANE_MAX_TASKS, LANE_MAX_GROWTH, LANE_MAX_LANES) == 0);
    EXPECT(lane_start(table, LANE_MAX_WORDS, LANE_MAX_SLOTS, LANE_MAX_TASKS, LANE_MAX_GROWTH + 1, 1) ==
           LANE_REFUSED_SIZES);
    EXPECT(lane_start(longer, LANE_MAX_WORDS + 4, LANE_MAX_SLOTS + 1, LANE_MAX_TASKS, 0, 1) == LANE_REFUSED_SIZES);
    EXPECT(lane_start(table, LANE_MAX_WORDS, LANE_MAX_SLOTS, LANE_MAX_TASKS + 1, 0, 1) == LANE_REFUSED_SIZES);
    for (uint32_t lanes = LANE_MIN_LANES; lanes <= LANE_MAX_LANES; lanes++) {
        uint32_t least = 2 * lanes;
        EXPECT(lane_start(table, LANE_WORDS(least, 1), least, 1, 0, lanes) == 0);
        EXPECT(LANE_MAX_BAGS(least, lanes) == 0);
        EXPECT(lane_start(table, LANE_WORDS(least - 1, 1), least - 1, 1, 0, lanes) == LANE_REFUSED_SIZES);
    }
    EXPECT(lane_start(table, WORDS, SLOTS, TASKS, 0, LANE_MIN_LANES - 1) == LANE_REFUSED_LANES);
    EXPECT(lane_start(table, WORDS, SLOTS, TASKS, 0, LANE_MAX_LANES + 1) == LANE_REFUSED_LANES);
    EXPECT(lane_start(table, WORDS, 0, 0, 0, LANE_MAX_LANES + 1) == LANE_REFUSED_LANES); /* before the sizes */

    static const struct {
        uint32_t operation;
        uint64_t least, most;
    } arguments[] = {{LANE_PUSH, LANE_MIN_TAG, LANE_MAX_TAG},
                     {LANE_POP, 0, 0},
                     {LANE_ADD, 0, LANE_MAX_ADD},
                     {LANE_REMOVE, 0, LANE_MAX_REMOVE}};
    for (size_t i = 0; i < 4; i++) {
        uint32_t operation = arguments[i].operation;
        begin_again();
        EXPECT(begin(0, operation, LANE_LEFT, arguments[i].least) == 0);
        EXPECT(begin(1, operation, LANE_RIGHT, arguments[i].most) == 0);
        begin_again();
        EXPECT(begin(0, operation, LANE_LEFT, arguments[i].most + 1) == LANE_REFUSED_ARGUMENT);
        EXPECT(begin(0, operation, LANE_LEFT, UINT64_MAX) == LANE_REFUSED_ARGUMENT);
        EXPECT(lane_begin(table, WORDS, 0, 0, operation, LANE_LEFT, LANE_MAX_DIGIT + 1, 0) == LANE_REFUSED_ARGUMENT);
        EXPECT(lane_begin(table, WORDS, 0, 0, operation, LANE_LEFT, 0, LANE_MAX_LOW + 1) == LANE_REFUSED_ARGUMENT);
        EXPECT(lane_begin(table, WORDS, 0, 0, operation, LANE_LEFT, 1, 0) ==
               (operation == LANE_PUSH ? 0 : LANE_REFUSED_ARGUMENT));
    }
    begin_again();
    EXPECT(begin(0, LANE_PUSH, LANE_LEFT, LANE_MIN_TAG - 1) == LANE_REFUSED_ARGUMENT);

    EXPECT(begin(0, LANE_POP, LANE_LEFT, 0) == 0);
    EXPECT(lane_run(table, WORDS, list, 2 * LANE_MAX_TICKS, answers, LANE_ANSWER_WORDS * LANE_MAX_TICKS) ==
           PAIR(LANE_REFUSED_IDLE, 4));
    EXPECT(lane_run(table, WORDS, list, 2 * MANY, answers, LANE_ANSWER_WORDS * MANY) == PAIR(LANE_REFUSED_LIST, 0));
}

/* A number and its two words; tags with one low part, and some with none, go in and come out whole. */
static void tags(void) {
    static const uint64_t some[] = {51, 1000000051, 1000000000, 4294967296, LANE_MIN_TAG, LANE_MAX_TAG};
    enum { SOME = sizeof some / sizeof some[0] };
    EXPECT(lane_tag(LANE_MAX_DIGIT, LANE_MAX_LOW) == LANE_MAX_TAG);
    EXPECT(lane_tag_digit(LANE_MAX_TAG + 1) == LANE_MAX_DIGIT + 1);
    EXPECT(lane_tag_digit(PAIR(1000000000, 51)) == LANE_MAX_DIGIT + 1); /* a quotient of 2^32 is no digit 0 */
    begin_again();
    for (int i = 0; i < SOME; i++) {
        EXPECT(lane_tag(lane_tag_digit(some[i]), lane_tag_low(some[i])) == some[i]);
        EXPECT(call(0, LANE_PUSH, LANE_RIGHT, some[i]) == ANSWER(LANE_PUSHED, 0));
        EXPECT(call(0, LANE_PUSH, LANE_LEFT, some[i]) == ANSWER(LANE_REFUSED, LANE_REFUSED_TWICE));
    }
    EXPECT(lane_read(table, WORDS, 0, answers, LANE_TAG_WORDS * SOME - 1) == PAIR(LANE_REFUSED_OUT, 0));
    answers[LANE_TAG_WORDS * SOME] = 7;
    EXPECT(lane_read(table, WORDS, 0, answers, LANE_TAG_WORDS * SOME + 1) == SOME);
    for (int i = 0; i < SOME; i++) {
        EXPECT(answers[2 * i] == lane_tag_digit(some[i]) && answers[2 * i + 1] == lane_tag_low(some[i]));
    }
    EXPECT(answers[LANE_TAG_WORDS * SOME] == 7);
    for (size_t i = 0; i < SOME; i++) {
        EXPECT(lane_tag_at(answers, i) == some[i]);
    }
    answers[LANE_ANSWER_WORDS * 4] = 7;
    for (int i = 0; i < SOME; i++) {
        EXPECT(begin(0, LANE_POP, LANE_LEFT, 0) == 0);
        EXPECT(lane_run(table, WORDS, list, 8, answers, LANE_ANSWER_WORDS * 4) == 4);
        EXPECT(answers[9] == LANE_BAG && lane_tag(answers[10], answers[11]) == some[i]);
    }
    EXPECT(answers[LANE_ANSWER_WORDS * 4] == 7);
}

/* A tag list in packed decimal, there and back; its refusals in their order, with 18's place; what is past it stays. */
static void tag_lists(void) {
    static const uint8_t list[] = {0x12, 0x34, 0x56, 0x78, 0x90, 0x99, 0x99, 0x99,
                                   0x99, 0x99, 0x10, 0x00, 0x00, 0x00, 0x00};
    static const uint32_t tags[] = {1, 234567890, LANE_MAX_DIGIT, LANE_MAX_LOW, 1, 0};
    enum { TAGS = 3, BYTES = LANE_TAG_BYTES * TAGS, TAG_WORDS = LANE_TAG_WORDS * TAGS, MORE = LANE_LIST_TAGS + 1 };
    static uint8_t bytes[LANE_TAG_BYTES * MORE];
    static uint32_t words[LANE_TAG_WORDS * MORE];

    bytes[BYTES] = words[TAG_WORDS] = 7;
    EXPECT(lane_tags_read(list, BYTES, words, TAG_WORDS + 1) == TAGS);
    EXPECT(memcmp(words, tags, sizeof tags) == 0 && words[TAG_WORDS] == 7);
    EXPECT(lane_tags_write(words, TAG_WORDS, bytes, BYTES + 1) == TAGS);
    EXPECT(memcmp(bytes, list, sizeof list) == 0 && bytes[BYTES] == 7);
    EXPECT(lane_tags_read(list, BYTES, words, TAG_WORDS) == TAGS);
    EXPECT(lane_tags_write(tags, TAG_WORDS, bytes, BYTES) == TAGS);

    EXPECT(lane_tags_read(list, BYTES, words, TAG_WORDS - 1) == PAIR(LANE_REFUSED_TAGS_OUT, 0));
    EXPECT(lane_tags_write(tags, TAG_WORDS, bytes, BYTES - 1) == PAIR(LANE_REFUSED_TAGS_OUT, 0));
    EXPECT(lane_tags_read(list, BYTES - 1, words, 0) == PAIR(LANE_REFUSED_TAGS, 0));
    EXPECT(lane_tags_write(tags, TAG_WORDS - 1, bytes, 0) == PAIR(LANE_REFUSED_TAGS, 0));
    bytes[LANE_TAG_BYTES] = 0x0a;
    words[TAG_WORDS - 1] = LANE_MAX_LOW + 1;
    EXPECT(lane_tags_read(bytes, BYTES, words, 0) == PAIR(LANE_REFUSED_NO_TAG, 1));
    EXPECT(lane_tags_write(words, TAG_WORDS, bytes, 0) == PAIR(LANE_REFUSED_NO_TAG, 2));
    words[0] = LANE_MAX_DIGIT + 1;
    EXPECT(lane_tags_write(words, TAG_WORDS, bytes, 0) == PAIR(LANE_REFUSED_NO_TAG, 0));
    memset(bytes, 0, LANE_TAG_BYTES);
    words[0] = words[1] = 0;
    EXPECT(lane_tags_read(bytes, BYTES, words, 0) == PAIR(LANE_REFUSED_NO_TAG, 0));
    EXPECT(lane_tags_write(words, TAG_WORDS, bytes, 0) == PAIR(LANE_REFUSED_NO_TAG, 0));

    memset(bytes, 0x99, sizeof bytes);
    EXPECT(lane_tags_read(bytes, LANE_TAG_BYTES * LANE_LIST_TAGS, words, LANE_TAG_WORDS * LANE_LIST_TAGS) ==
           LANE_LIST_TAGS);
    EXPECT(lane_tags_write(words, LANE_TAG_WORDS * LANE_LIST_TAGS, bytes, LANE_TAG_BYTES * LANE_LIST_TAGS) ==
           LANE_LIST_TAGS);
    EXPECT(lane_tags_read(bytes, LANE_TAG_BYTES * MORE, words, LANE_TAG_WORDS * MORE) == PAIR(LANE_REFUSED_TAGS, 0));
    EXPECT(lane_tags_write(words, LANE_TAG_WORDS * MORE, bytes, LANE_TAG_BYTES * MORE) == PAIR(LANE_REFUSED_TAGS, 0));
}

/* An airline list of so many lines with the closing one, as long as they can be; returns its bytes. */
static size_t lines_of(uint32_t lines, uint8_t *list) {
    size_t bytes = 0;
    for (uint32_t code = 1; code < lines; code++) {
        bytes += (size_t)sprintf((char *)list + bytes, "(airline (code %03u) right)\n", (unsigned)code);
    }
    return bytes + (size_t)sprintf((char *)list + bytes, "(others right)\n");
}

/* Lists up to the limit, with and without the last line feed, and one line cut off; each fault, named by its line. */
static void airline_lists(void) {
    static uint8_t list[2 * LANE_LIST_BYTES];
    static const size_t closing = sizeof "(others right)\n" - 1;
    for (uint32_t lines = 1; lines <= LANE_LIST_LINES + 2; lines++) {
        size_t bytes = lines_of(lines, list);
        uint64_t over = lines > LANE_LIST_LINES ? PAIR(LANE_REFUSED_LINE, LANE_LIST_LINES + 1) : 0;
        EXPECT(lane_list_check(list, bytes) == over);
        EXPECT(lane_list_check(list, bytes - 1) == over);
        EXPECT(lines != LANE_LIST_LINES || bytes == LANE_LIST_BYTES);
        if (lines > 1 && lines <= LANE_LIST_LINES + 1) {
            EXPECT(lane_list_check(list, bytes - closing) == PAIR(LANE_REFUSED_CLOSING, lines - 1));
            EXPECT(lane_list_check(list, bytes - closing - 1) == PAIR(LANE_REFUSED_CLOSING, lines - 1));
        }
    }

    static const struct {
        const char *list;
        uint32_t refusal, line;
    } faults[] = {
        {"", LANE_REFUSED_LINE, 1},
        {"\n", LANE_REFUSED_LINE, 1},
        {" (others left)", LANE_REFUSED_LINE, 1},
        {"(others left)\r\n", LANE_REFUSED_LINE, 1},
        {"(airline (code 12) left)\n(others left)\n", LANE_REFUSED_LINE, 1},
        {"(airline (code 1250) left)\n(others left)\n", LANE_REFUSED_LINE, 1},
        {"(airline (code 125) left)\n\n(others left)\n", LANE_REFUSED_LINE, 2},
        {"(airline (code 125) left)\n(airline (code 125) right)\n(others left)\n", LANE_REFUSED_CODE, 2},
        {"(airline (code 125) left)\n(airline (code 125) left)\n", LANE_REFUSED_CODE, 2}, /* and closes none */
        {"(airline (code 125) left)\n", LANE_REFUSED_CLOSING, 1},
        {"(others left)\n(others left)\n", LANE_REFUSED_CLOSING, 1},
        {"(others left)\n\n", LANE_REFUSED_CLOSING, 1}, /* before the empty line */
    };
    begin_again();
    for (size_t i = 0; i < sizeof faults / sizeof faults[0]; i++) {
        const uint8_t *text = (const uint8_t *)faults[i].list;
        size_t bytes = strlen(faults[i].list);
        uint64_t given = PAIR(faults[i].refusal, faults[i].line);
        EXPECT(lane_list_check(text, bytes) == given);
        EXPECT(lane_push_by_list(text, bytes, table, WORDS, 0, 0, 0, 51) == given);
        EXPECT(lane_push_by_list(text, bytes, NULL, 0, TASKS, 1, 10, 0) == given); /* before all tests of the table */
    }
    EXPECT(lane_tick(table, WORDS, 0, 0) == ANSWER(LANE_REFUSED, LANE_REFUSED_IDLE));
}

/* A push by list is the begin of a push at the end that its line names; its refusals, each before the next. */
static void pushes_by_list(void) {
    static const uint8_t list[] = "(airline (code 125) left)\n(airline (code 020) left)\n(others right)";
    enum { BYTES = sizeof list - 1 };
    static const struct {
        uint64_t tag;
        uint32_t side;
    } pushes[] = {{125000000, LANE_LEFT},  {UINT64_C(9125999999), LANE_LEFT}, {20000051, LANE_LEFT}, {1, LANE_RIGHT},
                  {124999999, LANE_RIGHT}, {126000000, LANE_RIGHT},           {1250000000, LANE_RIGHT}};
    static uint32_t copy[WORDS];
    for (size_t i = 0; i < sizeof pushes / sizeof pushes[0]; i++) {
        uint32_t digit = lane_tag_digit(pushes[i].tag), low = lane_tag_low(pushes[i].tag);
        EXPECT(lane_start(table, WORDS, SLOTS, TASKS, 0, 2) == 0);
        memcpy(copy, table, sizeof copy);
        EXPECT(lane_begin(copy, WORDS, 1, 1, LANE_PUSH, pushes[i].side, digit, low) == 0);
        EXPECT(lane_push_by_list(list, BYTES, table, WORDS, 1, 1, digit, low) == 0);
        EXPECT(memcmp(copy, table, sizeof copy) == 0);
    }

    EXPECT(lane_start(table, WORDS, SLOTS, TASKS, 0, 2) == 0);
    EXPECT(lane_push_by_list(list, BYTES, table, WORDS, 1, 1, 0, 51) == 0);
    table[16 + 4 * 2 + 1] = 65535; /* the link to the right of lane 1's left end made none, which no call does */
    table[15] = 1;
    memcpy(copy, table, sizeof copy);
    EXPECT(lane_push_by_list(list, BYTES, table, WORDS - 1, TASKS, 2, 10, 51) == PAIR(LANE_REFUSED_TABLE, 0));
    EXPECT(lane_push_by_list(list, BYTES, table, WORDS, TASKS, 2, 10, 51) == PAIR(LANE_REFUSED_SHAPE, 0));
    EXPECT(memcmp(copy, table, sizeof copy) == 0);
    table[15] = 0;
    EXPECT(lane_push_by_list(list, BYTES, table, WORDS, TASKS, 2, 10, 51) == PAIR(LANE_REFUSED_LANE, 0));
    EXPECT(lane_push_by_list(list, BYTES, table, WORDS, TASKS, 0, 10, 51) == PAIR(LANE_REFUSED_TASK, 0));
    EXPECT(lane_push_by_list(list, BYTES, table, WORDS, 1, 0, 10, 51) == PAIR(LANE_REFUSED_ARGUMENT, 0));
    EXPECT(lane_push_by_list(list, BYTES, table, WORDS, 1, 0, 0, 0) == PAIR(LANE_REFUSED_ARGUMENT, 0));
    EXPECT(lane_push_by_list(list, BYTES, table, WORDS, 1, 0, 0, 51) == PAIR(LANE_REFUSED_NO_SLOT, 0));
    table[16 + 4 * 2 + 1] = 3;
    EXPECT(lane_push_by_list(list, BYTES, table, WORDS, 1, 0, 0, 51) == PAIR(LANE_REFUSED_TWICE, 0));
    EXPECT(lane_push_by_list(list, BYTES, table, WORDS, 1, 0, 0, 52) == PAIR(LANE_REFUSED_BUSY, 0));
    copy[15] = 0;
    copy[16 + 4 * 2 + 1] = 3;
    EXPECT(memcmp(copy, table, sizeof copy) == 0);
}

/* The page of a lane with the tags 1 to `bags`, each times a number that brings in all digits, as it is to be. */
static void page_of(uint32_t bags, uint32_t page, char *text) {
    uint32_t next = LANE_PAGE_TAGS * page;
    for (int line = 0; line < LANE_PAGE_LINES; line++) {
        int column = line == 0 ? sprintf(text, "LANE %04u", (unsigned)bags) : 0;
        for (int i = 0; line > 0 && i < 7 && next < bags; i++, next++) {
            column += sprintf(text + column, "%010lu ", (unsigned long)(next + 1) * 9765432);
        }
        memset(text + column, ' ', (size_t)(LANE_PAGE_COLUMNS - column));
        text[LANE_PAGE_COLUMNS] = '\n';
        text += LANE_PAGE_COLUMNS + 1;
    }
}

/* Every page of lanes with none to the most bags, about the ends of lines and of pages; what is around it stays. */
static void sheets(void) {
    static const uint32_t counts[] = {0, 1, 6, 7, 8, 412, 413, 414, 826, 827, LANE_MAX_BAGS(LANE_MAX_SLOTS, 1)};
    static char wanted[LANE_PAGE_BYTES + 1];
    static uint8_t out[LANE_PAGE_BYTES + 2];
    static const size_t words = LANE_WORDS(LANE_MAX_SLOTS, 1);
    uint32_t bags = 0;
    EXPECT(LANE_PAGE_BYTES == LANE_PAGE_LINES * (LANE_PAGE_COLUMNS + 1));
    EXPECT(LANE_PAGE_TAGS == 7 * (LANE_PAGE_LINES - 1) && LANE_PAGES * LANE_PAGE_TAGS > LANE_MAX_SLOTS);
    EXPECT(lane_start(table, words, LANE_MAX_SLOTS, 1, LANE_MAX_GROWTH, 1) == 0);
    for (size_t i = 0; i < sizeof counts / sizeof counts[0]; i++) {
        for (; bags < counts[i]; bags++) {
            uint64_t tag = (uint64_t)(bags + 1) * 9765432;
            EXPECT(lane_call(table, words, 0, 0, LANE_PUSH, LANE_RIGHT, tag) == ANSWER(LANE_PUSHED, 0));
        }
        for (uint32_t page = 0; page < LANE_PAGES; page++) {
            memset(out, 0xa5, sizeof out);
            EXPECT(lane_sheet(table, words, 0, page, out + 1, LANE_PAGE_BYTES) == 0);
            page_of(bags, page, wanted);
            EXPECT(memcmp(out + 1, wanted, LANE_PAGE_BYTES) == 0);
            EXPECT(out[0] == 0xa5 && out[LANE_PAGE_BYTES + 1] == 0xa5);
        }
    }
}

/* A sheet's refusals, each before the next, on a table of two lanes of which one cannot be read; no byte is written. */
static void sheet_refusals(void) {
    static uint8_t out[LANE_PAGE_BYTES + 1];
    static const size_t lengths[] = {0, LANE_PAGE_COLUMNS, LANE_PAGE_BYTES - 1, LANE_PAGE_BYTES + 1};
    memset(out, 0xa5, sizeof out);
    EXPECT(lane_start(table, WORDS, SLOTS, TASKS, 0, 2) == 0);
    table[16 + 4 * 2 + 1] = 65535; /* the link to the right of lane 1's left end made none, which no call does */
    table[15] = 1;
    EXPECT(lane_sheet(table, WORDS - 1, 2, LANE_PAGES, out, 0) == LANE_REFUSED_TABLE);
    EXPECT(lane_sheet(table, WORDS, 2, LANE_PAGES, out, 0) == LANE_REFUSED_SHAPE);
    table[15] = 0;
    EXPECT(lane_sheet(table, WORDS, 2, LANE_PAGES, out, 0) == LANE_REFUSED_LANE);
    EXPECT(lane_sheet(table, WORDS, 1, LANE_PAGES, out, 0) == LANE_REFUSED_NO_SLOT);
    for (size_t i = 0; i < sizeof lengths / sizeof lengths[0]; i++) {
        EXPECT(lane_sheet(table, WORDS, 0, LANE_PAGES, out, lengths[i]) == LANE_REFUSED_PAGE);
        EXPECT(lane_sheet(table, WORDS, 0, UINT32_MAX, out, lengths[i]) == LANE_REFUSED_PAGE);
        EXPECT(lane_sheet(table, WORDS, 0, LANE_PAGES - 1, out, lengths[i]) == LANE_REFUSED_PAGE_OUT);
    }
    EXPECT(lane_sheet(table, WORDS, 0, LANE_PAGES, out, LANE_PAGE_BYTES) == LANE_REFUSED_PAGE);
    for (size_t i = 0; i < sizeof out; i++) {
        EXPECT(out[i] == 0xa5);
    }
    EXPECT(lane_sheet(table, WORDS, 0, LANE_PAGES - 1, out, LANE_PAGE_BYTES) == 0);
}

/* Every refusal that a caller can ask for comes with its number, and every number has a text of its own. */
static void refusals(void) {
    begin_again();
    EXPECT(lane_begin(table, LANE_MIN_WORDS - 1, 0, 0, LANE_POP, LANE_LEFT, 0, 0) == LANE_REFUSED_TABLE);
    EXPECT(begin(TASKS, LANE_POP, LANE_LEFT, 0) == LANE_REFUSED_TASK);
    EXPECT(begin(0, 5, LANE_LEFT, 0) == LANE_REFUSED_OPERATION);
    EXPECT(begin(0, LANE_POP, 2, 0) == LANE_REFUSED_OPERATION);
    EXPECT(lane_tick(table, WORDS, 0, SLOTS) == ANSWER(LANE_REFUSED, LANE_REFUSED_HINT));
    EXPECT(lane_tick(table, WORDS, 0, 0) == ANSWER(LANE_REFUSED, LANE_REFUSED_IDLE));
    EXPECT(begin(0, LANE_PUSH, LANE_RIGHT, 51) == 0);
    EXPECT(begin(0, LANE_POP, LANE_LEFT, 0) == LANE_REFUSED_BUSY);
    EXPECT(begin(0, LANE_PUSH, LANE_LEFT, 1000000051) == LANE_REFUSED_BUSY);
    EXPECT(begin(0, LANE_PUSH, LANE_LEFT, 51) == LANE_REFUSED_TWICE);
    EXPECT(begin(1, LANE_PUSH, LANE_LEFT, 51) == LANE_REFUSED_TWICE);
    EXPECT(lane_run(table, WORDS, list, 3, answers, 6) == PAIR(LANE_REFUSED_LIST, 0));
    EXPECT(lane_run(table, WORDS, list, 4, answers, 5) == PAIR(LANE_REFUSED_ANSWERS, 0));
    EXPECT(lane_panel(table, WORDS, list, 2 * LANE_MAX_PANEL_TICKS + 1, answers, 0) == PAIR(LANE_REFUSED_LIST, 0));
    EXPECT(lane_panel(table, WORDS, list, 2 * LANE_MAX_PANEL_TICKS + 2, answers, 0) == PAIR(LANE_REFUSED_PANEL, 0));
    EXPECT(lane_panel(table, WORDS, list, 2 * LANE_MAX_PANEL_TICKS, answers, 0) == PAIR(LANE_REFUSED_ANSWERS, 0));
    EXPECT(lane_panel(table, WORDS, list, 4, answers, 5) == PAIR(LANE_REFUSED_ANSWERS, 0));
    EXPECT(lane_panel(table, WORDS, list, 4, answers, 6) == 2);
    table[15] = 1;
    EXPECT(lane_read(table, WORDS, 0, answers, 1) == PAIR(LANE_REFUSED_SHAPE, 0));
    table[15] = 0;
    table[17] = 65535; /* the left hat's link to the right made none, which no call does */
    EXPECT(lane_read(table, WORDS, 0, answers, 1) == PAIR(LANE_REFUSED_NO_SLOT, 0));
    EXPECT(begin(1, LANE_PUSH, LANE_LEFT, 0) == LANE_REFUSED_ARGUMENT);
    EXPECT(begin(1, LANE_PUSH, LANE_LEFT, 51) == LANE_REFUSED_NO_SLOT); /* 51 is in a busy push */
    EXPECT(begin(1, LANE_POP, LANE_LEFT, 0) == 0);

    for (uint32_t one = 0; one <= LANE_REFUSED_CLOSING + 1; one++) {
        int given = one <= LANE_REFUSED_CLOSING;
        EXPECT(strlen(lane_refusal_text(one)) > 0);
        EXPECT(given == (strcmp(lane_refusal_text(one), lane_refusal_text(4294967295u)) != 0));
        for (uint32_t other = 0; given && other < one; other++) {
            EXPECT(strcmp(lane_refusal_text(one), lane_refusal_text(other)) != 0);
        }
    }
    EXPECT(strcmp(lane_refusal_text(0), "not refused") == 0);
    EXPECT(strcmp(lane_refusal_text(LANE_REFUSED_CLOSING + 1), "unknown refusal") == 0);
}

/* Each kind has a text of its own, that of a refusal is the refusal's, and the tag of a bag has no say. */
static void answer_texts(void) {
    for (uint32_t one = 0; one <= LANE_IDLE + 1; one++) {
        const char *text = lane_answer_text(ANSWER(one, 0));
        EXPECT(strlen(text) > 0);
        EXPECT((one <= LANE_IDLE) == (strcmp(text, lane_answer_text(UINT64_MAX)) != 0));
        for (uint32_t other = 0; other < one; other++) {
            EXPECT(strcmp(text, lane_answer_text(ANSWER(other, 0))) != 0);
        }
    }
    EXPECT(strcmp(lane_answer_text(ANSWER(LANE_BAG, LANE_MAX_TAG)), "bag") == 0);
    EXPECT(strcmp(lane_answer_text(ANSWER(LANE_IDLE + 1, 0)), "unknown answer") == 0);
    for (uint32_t refusal = 1; refusal <= LANE_REFUSED_CLOSING + 1; refusal++) {
        EXPECT(strcmp(lane_answer_text(ANSWER(LANE_REFUSED, refusal)), lane_refusal_text(refusal)) == 0);
    }
}

/* What the readers say of a table is what lane_start and lane_begin were given; of other words they read none outside. */
static void readers(void) {
    static const uint32_t operations[] = {LANE_PUSH, LANE_POP, LANE_ADD, LANE_REMOVE};
    for (uint32_t i = 0; i < 4; i++) {
        for (uint32_t side = LANE_LEFT; side <= LANE_RIGHT; side++) {
            uint32_t lane = (i + side) % 2;
            EXPECT(lane_start(table, WORDS, SLOTS, TASKS, 0, 2) == 0);
            EXPECT(lane_slots(table, WORDS) == SLOTS && lane_tasks(table, WORDS) == TASKS);
            EXPECT(lane_lanes(table, WORDS) == 2);
            EXPECT(lane_tick_count(table, WORDS) == 0 && lane_dispatched(table, WORDS) == TASKS - 1);
            EXPECT(lane_begin(table, WORDS, 1, lane, operations[i], side, 0, i == 0 ? 51 : 0) == 0);
            EXPECT(!lane_is_busy(table, WORDS, 0) && lane_is_busy(table, WORDS, 1) && !lane_is_busy(table, WORDS, 2));
            EXPECT(lane_operation(table, WORDS, 1) == operations[i] && lane_operation(table, WORDS, 0) == 0);
            EXPECT(lane_side(table, WORDS, 1) == side && lane_lane(table, WORDS, 1) == lane);
            uint32_t step = lane_step(table, WORDS, 1);
            EXPECT(step != 0 && lane_step(table, WORDS, 0) == 0);
            EXPECT(lane_dispatch(table, WORDS, 0) == ANSWER(LANE_GOING, 0));
            EXPECT(lane_tick_count(table, WORDS) == 1 && lane_dispatched(table, WORDS) == 1);
            EXPECT(lane_step(table, WORDS, 1) != step);
            EXPECT(LANE_KIND(lane_ticks(table, WORDS, 1, 0, UINT32_MAX)) < LANE_REFUSED);
            EXPECT(!lane_is_busy(table, WORDS, 1) && lane_side(table, WORDS, 1) == 0 && lane_lane(table, WORDS, 1) == 0);
        }
    }
    uint32_t *few = (uint32_t *)malloc(6 * sizeof few[0]); /* so that the sanitizers see a read past the end */
    memset(few, 0xff, 6 * sizeof few[0]);
    for (size_t words = 0; words <= 6; words++) {
        EXPECT(lane_slots(few, words) == (words > 0 ? UINT32_MAX : 0));
        EXPECT(lane_tasks(few, words) == (words > 1 ? UINT32_MAX : 0));
        EXPECT(lane_lanes(few, words) == (words > 3 ? UINT32_MAX : 0));
        EXPECT(lane_tick_count(few, words) == (words > 4 ? UINT32_MAX : 0));
        EXPECT(lane_dispatched(few, words) == (words > 5 ? UINT32_MAX : 0));
        for (uint32_t task = 0; task < 3; task++) {
            EXPECT(!lane_is_busy(few, words, task) && lane_operation(few, words, task) == 0);
            EXPECT(lane_step(few, words, task) == 0 && lane_side(few, words, task) == 0);
            EXPECT(lane_lane(few, words, task) == 0);
        }
    }
    free(few);
    EXPECT(lane_slots(NULL, 0) == 0 && lane_is_busy(NULL, 0, 0) == 0 && lane_step(NULL, 0, 0) == 0);
}

/* At every end of two lanes, with the free slots spare at any other: the bag is pushed, no other comes, none goes. */
static void rooms(void) {
    enum { LANES = 2, ENDS = 2 * LANES, MOST = LANE_MAX_BAGS(SLOTS, LANES) };
    for (uint32_t end = 0; end < ENDS; end++) {
        for (uint32_t other = 0; other < ENDS; other++) {
            EXPECT(lane_start(table, WORDS, SLOTS, TASKS, 0, LANES) == 0);
            EXPECT(lane_call(table, WORDS, 1, other / 2, LANE_ADD, other % 2, LANE_MAX_ADD) == ANSWER(LANE_YES, 0));
            uint64_t tag = 51;
            for (; lane_make_room(table, WORDS, 0, end / 2, end % 2, tag) == ANSWER(LANE_PUSHED, 0); tag++) {
            }
            EXPECT(lane_make_room(table, WORDS, 0, end / 2, end % 2, tag) == ANSWER(LANE_FULL, 0));
            uint64_t pushed = tag - 51; /* all, but for one place that may stay at the other end */
            EXPECT(pushed == MOST || (pushed == MOST - 1 && end != other));
            EXPECT(lane_read(table, WORDS, 1 - end / 2, answers, LANE_TAG_WORDS * MOST) == 0);
            EXPECT(lane_read(table, WORDS, end / 2, answers, LANE_TAG_WORDS * MOST) == pushed);
            for (uint64_t i = 0; i < pushed; i++) {
                EXPECT(lane_tag_at(answers, i) == (end % 2 == LANE_RIGHT ? 51 + i : tag - 1 - i));
            }
        }
    }
    EXPECT(lane_start(table, WORDS, SLOTS, TASKS, 0, LANES) == 0);
    EXPECT(lane_make_room(table, WORDS, 0, 1, LANE_LEFT, LANE_MAX_TAG) == ANSWER(LANE_PUSHED, 0)); /* not full at all */
    EXPECT(lane_make_room(table, WORDS, 0, 0, LANE_LEFT, LANE_MAX_TAG) == ANSWER(LANE_REFUSED, LANE_REFUSED_TWICE));
    EXPECT(lane_make_room(table, WORDS, 0, LANES, LANE_LEFT, 51) == ANSWER(LANE_REFUSED, LANE_REFUSED_LANE));
    EXPECT(lane_make_room(table, WORDS, TASKS, 0, LANE_LEFT, 51) == ANSWER(LANE_REFUSED, LANE_REFUSED_TASK));
    EXPECT(lane_make_room(NULL, 0, 0, 0, LANE_LEFT, 51) == ANSWER(LANE_REFUSED, LANE_REFUSED_TABLE));
}

/* Every pair has the refusal, or 0, in its high half and the count in its low one. */
static void pairs(void) {
    static const uint8_t tag_list[] = {0, 0, 0, 0, 0x51, 0, 0, 0, 0, 0x0a};
    static const uint32_t two_tags[] = {0, 51, LANE_MAX_DIGIT + 1, 51};
    uint32_t words[LANE_TAG_WORDS * 2];
    uint8_t bytes[LANE_TAG_BYTES * 2];
    EXPECT(LANE_REFUSAL(PAIR(LANE_REFUSED_LANE, 4294967295u)) == LANE_REFUSED_LANE);
    EXPECT(LANE_COUNT(PAIR(LANE_REFUSED_LANE, 4294967295u)) == 4294967295u);
    uint64_t (*const runs[])(uint32_t *, size_t, const uint32_t *, size_t, uint32_t *, size_t) = {lane_run, lane_panel};
    for (size_t i = 0; i < 2; i++) {
        begin_again();
        EXPECT(begin(0, LANE_POP, LANE_LEFT, 0) == 0);
        EXPECT(runs[i](table, WORDS, list, 6, answers, 9) == PAIR(0, 3));
        EXPECT(runs[i](table, WORDS, list, 6, answers, 9) == PAIR(LANE_REFUSED_IDLE, 1)); /* one is made */
        EXPECT(runs[i](table, WORDS, list, 6, answers, 8) == PAIR(LANE_REFUSED_ANSWERS, 0));
    }
    EXPECT(call(0, LANE_PUSH, LANE_LEFT, 51) == ANSWER(LANE_PUSHED, 0));
    EXPECT(lane_read(table, WORDS, 0, answers, LANE_TAG_WORDS) == PAIR(0, 1));
    EXPECT(lane_read(table, WORDS, 0, answers, LANE_TAG_WORDS - 1) == PAIR(LANE_REFUSED_OUT, 0));
    EXPECT(lane_tags_read(tag_list, LANE_TAG_BYTES, words, LANE_TAG_WORDS) == PAIR(0, 1));
    EXPECT(lane_tags_read(tag_list, LANE_TAG_BYTES * 2, words, LANE_TAG_WORDS * 2) == PAIR(LANE_REFUSED_NO_TAG, 1));
    EXPECT(lane_tags_write(two_tags, LANE_TAG_WORDS, bytes, LANE_TAG_BYTES) == PAIR(0, 1));
    EXPECT(lane_tags_write(two_tags, LANE_TAG_WORDS * 2, bytes, LANE_TAG_BYTES * 2) == PAIR(LANE_REFUSED_NO_TAG, 1));
}

/* NULL with length 0 is an empty slice, in every place of every call. */
static void empty_slices(void) {
    EXPECT(lane_start(NULL, 0, SLOTS, TASKS, 0, 1) == LANE_REFUSED_LENGTH);
    EXPECT(lane_start(NULL, 0, 0, TASKS, 0, 1) == LANE_REFUSED_SIZES);
    EXPECT(lane_start(NULL, 0, SLOTS, TASKS, 0, 0) == LANE_REFUSED_LANES);
    EXPECT(lane_begin(NULL, 0, 0, 0, LANE_POP, LANE_LEFT, 0, 0) == LANE_REFUSED_TABLE);
    EXPECT(lane_tick(NULL, 0, 0, 0) == ANSWER(LANE_REFUSED, LANE_REFUSED_TABLE));
    EXPECT(lane_dispatch(NULL, 0, 0) == ANSWER(LANE_REFUSED, LANE_REFUSED_TABLE));
    EXPECT(lane_ticks(NULL, 0, 0, 0, 1) == ANSWER(LANE_REFUSED, LANE_REFUSED_TABLE));
    EXPECT(lane_dispatches(NULL, 0, 0, 1) == ANSWER(LANE_REFUSED, LANE_REFUSED_TABLE));
    EXPECT(lane_ticks(NULL, 0, 0, 0, 0) == ANSWER(LANE_GOING, 0)); /* no tick, no test */
    EXPECT(lane_dispatches(NULL, 0, 0, 0) == ANSWER(LANE_GOING, 0));
    EXPECT(lane_run(NULL, 0, NULL, 0, NULL, 0) == PAIR(LANE_REFUSED_TABLE, 0));
    EXPECT(lane_run(NULL, 0, list, 2, answers, 3) == PAIR(LANE_REFUSED_TABLE, 0));
    EXPECT(lane_panel(NULL, 0, NULL, 0, NULL, 0) == PAIR(LANE_REFUSED_TABLE, 0));
    EXPECT(lane_read(NULL, 0, 0, NULL, 0) == PAIR(LANE_REFUSED_TABLE, 0));
    EXPECT(lane_read(NULL, 0, 0, answers, 2) == PAIR(LANE_REFUSED_TABLE, 0));
    EXPECT(lane_call(NULL, 0, 0, 0, LANE_POP, LANE_LEFT, 0) == ANSWER(LANE_REFUSED, LANE_REFUSED_TABLE));
    EXPECT(lane_take(NULL, 0, NULL, 0) == LANE_REFUSED_TABLE);
    EXPECT(lane_put(NULL, 0, NULL, 0) == LANE_REFUSED_TABLE);
    EXPECT(lane_take(NULL, 0, answers, WORDS) == LANE_REFUSED_SNAPSHOT);
    EXPECT(lane_put(NULL, 0, answers, WORDS) == LANE_REFUSED_SNAPSHOT);
    begin_again();
    EXPECT(lane_take(table, WORDS, NULL, 0) == LANE_REFUSED_SNAPSHOT);
    EXPECT(lane_put(table, WORDS, NULL, 0) == LANE_REFUSED_SNAPSHOT);
    EXPECT(lane_sheet(NULL, 0, 0, 0, NULL, 0) == LANE_REFUSED_TABLE);
    EXPECT(lane_sheet(table, WORDS, 0, 0, NULL, 0) == LANE_REFUSED_PAGE_OUT);
    EXPECT(lane_run(table, WORDS, NULL, 0, NULL, 0) == 0);
    EXPECT(lane_run(table, WORDS, NULL, 0, answers, 3) == 0);
    EXPECT(lane_panel(table, WORDS, NULL, 0, NULL, 0) == 0);
    EXPECT(lane_read(table, WORDS, 0, NULL, 0) == 0);
    EXPECT(begin(0, LANE_PUSH, LANE_RIGHT, 51) == 0);
    EXPECT(lane_run(table, WORDS, list, 2, NULL, 0) == PAIR(LANE_REFUSED_ANSWERS, 0));
    EXPECT(lane_run(table, WORDS, list, 22, answers, 33) == 11);
    EXPECT(lane_read(table, WORDS, 0, NULL, 0) == PAIR(LANE_REFUSED_OUT, 0));

    static const uint8_t list[LANE_TAG_BYTES] = {0, 0, 0, 0, 0x51};
    static const uint32_t tag[LANE_TAG_WORDS] = {0, 51};
    uint8_t bytes[LANE_TAG_BYTES];
    EXPECT(lane_tags_read(NULL, 0, NULL, 0) == 0);
    EXPECT(lane_tags_read(NULL, 0, answers, LANE_TAG_WORDS) == 0);
    EXPECT(lane_tags_read(list, LANE_TAG_BYTES, NULL, 0) == PAIR(LANE_REFUSED_TAGS_OUT, 0));
    EXPECT(lane_tags_write(NULL, 0, NULL, 0) == 0);
    EXPECT(lane_tags_write(NULL, 0, bytes, LANE_TAG_BYTES) == 0);
    EXPECT(lane_tags_write(tag, LANE_TAG_WORDS, NULL, 0) == PAIR(LANE_REFUSED_TAGS_OUT, 0));

    static const uint8_t airlines[] = "(others left)";
    EXPECT(lane_list_check(NULL, 0) == PAIR(LANE_REFUSED_LINE, 1));
    EXPECT(lane_push_by_list(NULL, 0, NULL, 0, 0, 0, 0, 51) == PAIR(LANE_REFUSED_LINE, 1));
    EXPECT(lane_push_by_list(airlines, sizeof airlines - 1, NULL, 0, 0, 0, 0, 51) == PAIR(LANE_REFUSED_TABLE, 0));

    uint64_t fed = 7;
    EXPECT(lane_window(NULL, 0, 1) == LANE_REFUSED_WINDOW);
    EXPECT(lane_feed(NULL, 0, 1, 5, 8) == PAIR(LANE_REFUSED_WINDOW, 0));
    EXPECT(lane_step(NULL, 0, 0) == 0);
    EXPECT(lane_watch_tick(NULL, 0, 0, 0, NULL, 0, &fed) == ANSWER(LANE_REFUSED, LANE_REFUSED_TABLE));
    EXPECT(lane_watch_dispatch(NULL, 0, 0, NULL, 0, &fed) == ANSWER(LANE_REFUSED, LANE_REFUSED_TABLE));
    EXPECT(fed == 7);
}

/* A call to its answer; S - 2 bags and no more; what a remove says. */
static void calls(void) {
    begin_again();
    EXPECT(call(1, LANE_POP, LANE_LEFT, 0) == ANSWER(LANE_EMPTY, 0));
    EXPECT(call(0, LANE_PUSH, LANE_LEFT, 0) == ANSWER(LANE_REFUSED, LANE_REFUSED_ARGUMENT));
    for (uint64_t tag = 1; tag <= LANE_MAX_BAGS(SLOTS, 1); tag++) {
        EXPECT(call(0, LANE_PUSH, LANE_RIGHT, tag) == ANSWER(LANE_PUSHED, 0));
        EXPECT(call(1, LANE_PUSH, LANE_LEFT, tag) == ANSWER(LANE_REFUSED, LANE_REFUSED_TWICE));
    }
    EXPECT(call(0, LANE_PUSH, LANE_RIGHT, 99) == ANSWER(LANE_FULL, 0));
    EXPECT(call(0, LANE_PUSH, LANE_LEFT, 99) == ANSWER(LANE_FULL, 0));
    EXPECT(lane_read(table, WORDS, 0, answers, LANE_TAG_WORDS * LANE_MAX_BAGS(SLOTS, 1)) == LANE_MAX_BAGS(SLOTS, 1));
    EXPECT(call(1, LANE_POP, LANE_LEFT, 0) == ANSWER(LANE_BAG, 1));
    EXPECT(call(1, LANE_PUSH, LANE_RIGHT, 2) == ANSWER(LANE_REFUSED, LANE_REFUSED_TWICE));
    EXPECT(call(1, LANE_REMOVE, LANE_RIGHT, 0) == ANSWER(LANE_YES, 0)); /* nothing is spare there */
    EXPECT(call(1, LANE_REMOVE, LANE_LEFT, 0) == ANSWER(LANE_NO, 0));   /* one more than asked for */
    EXPECT(call(1, LANE_REMOVE, LANE_LEFT, 0) == ANSWER(LANE_NO, 0));
    EXPECT(call(0, LANE_PUSH, LANE_RIGHT, 99) == ANSWER(LANE_FULL, 0)); /* it is at the other end */
    EXPECT(call(0, LANE_PUSH, LANE_LEFT, 99) == ANSWER(LANE_PUSHED, 0));

    /* A table that no start made, on which a pop goes round for ever: the helper comes back. */
    begin_again();
    table[16 + 4 * 1] = 1; /* the right end's link to the left is itself */
    EXPECT(call(0, LANE_POP, LANE_RIGHT, 0) == ANSWER(LANE_GOING, 0));
    EXPECT(table[LANE_TICK_COUNT] == LANE_MAX_TICKS_ALONE(SLOTS));
    EXPECT(begin(0, LANE_POP, LANE_LEFT, 0) == LANE_REFUSED_BUSY);
}

/* The kind of such a call's answer. */
static uint32_t kind(uint32_t operation, uint32_t side, uint64_t argument) {
    return LANE_KIND(call(0, operation, side, argument));
}

/* The rows for whole calls, with growth 1: beside each call what is spare at the right and at the left, and free. */
static void whole_calls(void) {
    EXPECT(lane_start(table, WORDS, SLOTS, TASKS, 1, 1) == 0); /* 1 1 6 */
    EXPECT(kind(LANE_REMOVE, LANE_RIGHT, 0) == LANE_YES);      /* 1 1 6 */
    EXPECT(kind(LANE_PUSH, LANE_RIGHT, 1) == LANE_PUSHED);     /* 2 1 4: r is growth + 1 */
    EXPECT(kind(LANE_REMOVE, LANE_RIGHT, 0) == LANE_NO);       /* 2 1 4: n + 2 */
    EXPECT(kind(LANE_PUSH, LANE_RIGHT, 2) == LANE_PUSHED);     /* 1 1 4 */
    EXPECT(kind(LANE_ADD, LANE_LEFT, 1) == LANE_YES);          /* 1 3 2 */
    EXPECT(kind(LANE_REMOVE, LANE_LEFT, 1) == LANE_NO);        /* 1 3 2: n + 2 */
    EXPECT(kind(LANE_REMOVE, LANE_LEFT, 2) == LANE_YES);       /* 1 3 2: up to n + 1 */
    EXPECT(kind(LANE_ADD, LANE_RIGHT, 9) == LANE_YES);         /* 3 3 0: all that were free */
    EXPECT(kind(LANE_ADD, LANE_RIGHT, 0) == LANE_NO);          /* 3 3 0 */
    EXPECT(kind(LANE_REMOVE, LANE_LEFT, 0) == LANE_YES);       /* 3 1 2 */
    EXPECT(kind(LANE_POP, LANE_LEFT, 0) == LANE_BAG);          /* 3 2 2 */
    EXPECT(kind(LANE_POP, LANE_LEFT, 0) == LANE_BAG);          /* 3 3 2 */
    EXPECT(kind(LANE_POP, LANE_LEFT, 0) == LANE_EMPTY);        /* 3 3 2 */
    for (uint64_t tag = 1; tag <= 3 + 2 - 1; tag++) {          /* the room at the right */
        EXPECT(kind(LANE_PUSH, LANE_RIGHT, tag) == LANE_PUSHED);
    }
    EXPECT(kind(LANE_PUSH, LANE_RIGHT, 9) == LANE_FULL);   /* 1 3 0 */
    EXPECT(kind(LANE_REMOVE, LANE_LEFT, 0) == LANE_YES);   /* 1 1 2 */
    EXPECT(kind(LANE_PUSH, LANE_RIGHT, 9) == LANE_PUSHED); /* 2 1 0 */
}

/* Each lane is a row of its own; the slots and the tags are of all of them; one that is not there is refused. */
static void lanes(void) {
    enum { LANES = 2, MOST = LANE_MAX_BAGS(SLOTS, LANES) };
    EXPECT(lane_start(table, WORDS, SLOTS, TASKS, 0, LANES) == 0);
    for (uint32_t lane = 0; lane < LANES; lane++) {
        EXPECT(lane_call(table, WORDS, 0, lane, LANE_PUSH, LANE_LEFT, 51 + lane) == ANSWER(LANE_PUSHED, 0));
    }
    for (uint32_t lane = 0; lane < LANES; lane++) {
        EXPECT(lane_read(table, WORDS, lane, answers, LANE_TAG_WORDS) == 1);
        EXPECT(lane_tag(answers[0], answers[1]) == 51 + lane);
        EXPECT(lane_begin(table, WORDS, 0, lane, LANE_PUSH, LANE_LEFT, 0, 51) == LANE_REFUSED_TWICE);
        EXPECT(lane_begin(table, WORDS, 0, lane, LANE_PUSH, LANE_LEFT, 0, 52) == LANE_REFUSED_TWICE);
    }
    EXPECT(lane_begin(table, WORDS, 1, 1, LANE_PUSH, LANE_RIGHT, 0, 53) == 0);
    EXPECT(lane_begin(table, WORDS, 0, 0, LANE_PUSH, LANE_RIGHT, 0, 53) == LANE_REFUSED_TWICE);
    while (LANE_KIND(lane_tick(table, WORDS, 1, 0)) == LANE_GOING) { /* on the lane that the begin named */
    }
    EXPECT(lane_read(table, WORDS, 0, answers, LANE_TAG_WORDS * MOST) == 1);
    EXPECT(lane_read(table, WORDS, 1, answers, LANE_TAG_WORDS * MOST) == 2);
    EXPECT(lane_call(table, WORDS, 0, 1, LANE_PUSH, LANE_RIGHT, 54) == ANSWER(LANE_PUSHED, 0));
    EXPECT(lane_call(table, WORDS, 0, 0, LANE_PUSH, LANE_RIGHT, 55) == ANSWER(LANE_FULL, 0)); /* lane 1 has the slots */
    EXPECT(LANE_COUNT(lane_read(table, WORDS, 0, answers, LANE_TAG_WORDS * MOST)) +
               LANE_COUNT(lane_read(table, WORDS, 1, answers, LANE_TAG_WORDS * MOST)) ==
           MOST);
    EXPECT(lane_call(table, WORDS, 0, 1, LANE_POP, LANE_LEFT, 0) == ANSWER(LANE_BAG, 52));
    EXPECT(lane_call(table, WORDS, 0, 0, LANE_POP, LANE_RIGHT, 0) == ANSWER(LANE_BAG, 51));
    EXPECT(lane_call(table, WORDS, 0, 0, LANE_POP, LANE_RIGHT, 0) == ANSWER(LANE_EMPTY, 0));

    EXPECT(lane_begin(table, WORDS, TASKS, LANES, LANE_POP, LANE_LEFT, 0, 0) == LANE_REFUSED_LANE); /* before 5 */
    EXPECT(lane_begin(table, WORDS, TASKS, LANES - 1, LANE_POP, LANE_LEFT, 0, 0) == LANE_REFUSED_TASK);
    EXPECT(lane_call(table, WORDS, 0, LANES, LANE_POP, LANE_LEFT, 0) == ANSWER(LANE_REFUSED, LANE_REFUSED_LANE));
    EXPECT(lane_read(table, WORDS, LANES, answers, 0) == PAIR(LANE_REFUSED_LANE, 0));

    EXPECT(lane_start(table, WORDS, SLOTS, TASKS, 0, LANES) == 0);
    table[16 + 4 * 2 + 1] = 65535; /* the link to the right of lane 1's left end made none, which no call does */
    EXPECT(lane_read(table, WORDS, 0, answers, 0) == 0);
    EXPECT(lane_read(table, WORDS, 1, answers, 0) == PAIR(LANE_REFUSED_NO_SLOT, 0));
    EXPECT(lane_begin(table, WORDS, 0, 0, LANE_PUSH, LANE_LEFT, 0, 51) == LANE_REFUSED_NO_SLOT); /* a push walks all */
    EXPECT(lane_begin(table, WORDS, 0, 0, LANE_POP, LANE_LEFT, 0, 0) == 0);
    table[3] = 1; /* one lane, and the hats of two */
    EXPECT(lane_read(table, WORDS, LANES, answers, 0) == PAIR(LANE_REFUSED_SHAPE, 0));
    table[3] = LANE_MAX_LANES + 1;
    EXPECT(lane_read(table, WORDS, LANES, answers, 0) == PAIR(LANE_REFUSED_TABLE, 0));
}

static void dispatch(uint64_t answer, uint32_t task) {
    EXPECT(lane_dispatch(table, WORDS, 0) == answer);
    EXPECT(table[LANE_DISPATCHED] == task);
}

/* Busy tasks are ticked in turn, whatever other ticks are made; with every task idle nothing is. */
static void turns(void) {
    begin_again();
    EXPECT(table[LANE_DISPATCHED] == TASKS - 1);
    EXPECT(begin(0, LANE_PUSH, LANE_RIGHT, LANE_MAX_TAG) == 0); /* eleven ticks */
    EXPECT(begin(1, LANE_POP, LANE_LEFT, 0) == 0);              /* four */
    for (uint32_t i = 0; i < 7; i++) {
        dispatch(ANSWER(LANE_GOING, 0), i % TASKS);
    }
    EXPECT(lane_tick(table, WORDS, 0, 0) == ANSWER(LANE_GOING, 0));
    EXPECT(table[LANE_DISPATCHED] == 0);
    EXPECT(lane_dispatch(table, WORDS, SLOTS) == ANSWER(LANE_REFUSED, LANE_REFUSED_HINT));
    dispatch(ANSWER(LANE_EMPTY, 0), 1);
    for (int i = 0; i < 5; i++) {
        dispatch(ANSWER(LANE_GOING, 0), 0);
    }
    dispatch(ANSWER(LANE_PUSHED, 0), 0);
    EXPECT(begin(1, LANE_POP, LANE_LEFT, 0) == 0);
    for (int i = 0; i < 3; i++) {
        dispatch(ANSWER(LANE_GOING, 0), 1);
    }
    dispatch(ANSWER(LANE_BAG, LANE_MAX_TAG), 1);
    dispatch(ANSWER(LANE_IDLE, 0), 1);
    EXPECT(table[LANE_TICK_COUNT] == 19);
    EXPECT(lane_dispatch(table, WORDS, SLOTS) == ANSWER(LANE_REFUSED, LANE_REFUSED_HINT));

    table[LANE_DISPATCHED] = TASKS;
    EXPECT(lane_dispatch(table, WORDS, 0) == ANSWER(LANE_REFUSED, LANE_REFUSED_SHAPE));
    EXPECT(begin(0, LANE_POP, LANE_LEFT, 0) == LANE_REFUSED_SHAPE);
    table[LANE_DISPATCHED] = 0; /* as if task 0 had been dispatched last */
    EXPECT(begin(0, LANE_POP, LANE_LEFT, 0) == 0);
    EXPECT(begin(1, LANE_POP, LANE_LEFT, 0) == 0);
    dispatch(ANSWER(LANE_GOING, 0), 1);
}

/* So many consecutive ticks of a task, dispatches if there is no such task; single ones on a copy come to the same. */
static void consecutive(uint32_t task, uint32_t times, uint64_t answer) {
    static uint32_t copy[WORDS];
    uint32_t hint = 5;
    uint64_t single = ANSWER(LANE_GOING, 0), last;
    memcpy(copy, table, sizeof copy);
    for (uint32_t i = 0; i < times && LANE_KIND(single) == LANE_GOING; i++) {
        single = task < TASKS ? lane_tick(copy, WORDS, task, hint) : lane_dispatch(copy, WORDS, hint);
    }
    last = task < TASKS ? lane_ticks(table, WORDS, task, hint, times) : lane_dispatches(table, WORDS, hint, times);
    EXPECT(last == answer && single == answer);
    EXPECT(memcmp(copy, table, sizeof copy) == 0);
}

/* Consecutive ticks and dispatches stop at an answer, at a refusal, or after so many; a drain gives every answer. */
static void rows(void) {
    enum { IN_TURN = TASKS, LONG = 70000 };
    begin_again();
    EXPECT(begin(0, LANE_PUSH, LANE_RIGHT, LANE_MAX_TAG) == 0); /* eleven ticks */
    consecutive(0, 0, ANSWER(LANE_GOING, 0));
    consecutive(0, 1, ANSWER(LANE_GOING, 0));
    consecutive(0, 9, ANSWER(LANE_GOING, 0));
    EXPECT(table[LANE_TICK_COUNT] == 10);
    consecutive(0, UINT32_MAX, ANSWER(LANE_PUSHED, 0));
    EXPECT(table[LANE_TICK_COUNT] == 11);
    consecutive(0, 2, ANSWER(LANE_REFUSED, LANE_REFUSED_IDLE));
    EXPECT(lane_ticks(table, WORDS, 0, SLOTS, 2) == ANSWER(LANE_REFUSED, LANE_REFUSED_HINT));
    EXPECT(lane_ticks(table, WORDS, TASKS, SLOTS, 2) == ANSWER(LANE_REFUSED, LANE_REFUSED_TASK));
    EXPECT(lane_dispatches(table, WORDS, SLOTS, 2) == ANSWER(LANE_REFUSED, LANE_REFUSED_HINT));
    consecutive(IN_TURN, 2, ANSWER(LANE_IDLE, 0));

    EXPECT(begin(0, LANE_POP, LANE_RIGHT, 0) == 0);
    EXPECT(begin(1, LANE_POP, LANE_LEFT, 0) == 0);
    consecutive(IN_TURN, 6, ANSWER(LANE_GOING, 0));
    consecutive(IN_TURN, 9, ANSWER(LANE_BAG, LANE_MAX_TAG));
    EXPECT(table[LANE_DISPATCHED] == 0 && table[LANE_TICK_COUNT] == 18);
    consecutive(IN_TURN, 9, ANSWER(LANE_EMPTY, 0)); /* of the other, whose swap failed */
    EXPECT(table[LANE_DISPATCHED] == 1);
    consecutive(IN_TURN, 9, ANSWER(LANE_IDLE, 0));

    for (uint32_t task = 0; task <= IN_TURN; task += IN_TURN) { /* on tables that no start made */
        begin_again();
        EXPECT(begin(0, LANE_ADD, LANE_RIGHT, 0) == 0);
        table[16 + 4 * SLOTS + 1] = 15; /* past the line that takes a slot */
        consecutive(task, 9, ANSWER(LANE_REFUSED, LANE_REFUSED_NO_SLOT));
        EXPECT(table[LANE_TICK_COUNT] == 2); /* those before it are made */
        table[15] = 1;
        consecutive(task, 9, ANSWER(LANE_REFUSED, LANE_REFUSED_SHAPE));
        consecutive(task, 0, ANSWER(LANE_GOING, 0));

        begin_again();
        table[16 + 4 * 1] = 1; /* a pop at the right goes round for ever */
        EXPECT(begin(0, LANE_POP, LANE_RIGHT, 0) == 0);
        consecutive(task, LONG, ANSWER(LANE_GOING, 0));
        EXPECT(table[LANE_TICK_COUNT] == LONG);
    }
}

/* The words by columns, and back; what is counted from there comes again; a table of other sizes and of any words. */
static void snapshots(void) {
    enum { HEADER = 16, NODE = 4, TASK_WORDS = HEADER + NODE * SLOTS };
    static uint32_t snapshot[WORDS], kept[WORDS], again[WORDS];
    begin_again();
    EXPECT(call(0, LANE_PUSH, LANE_RIGHT, LANE_MAX_TAG) == ANSWER(LANE_PUSHED, 0));
    EXPECT(begin(1, LANE_POP, LANE_LEFT, 0) == 0);
    memcpy(kept, table, sizeof kept);
    EXPECT(lane_take(table, WORDS, snapshot, WORDS) == 0);
    EXPECT(memcmp(table, kept, sizeof kept) == 0);
    EXPECT(memcmp(snapshot, table, HEADER * sizeof snapshot[0]) == 0);
    for (int i = 0; i < NODE * SLOTS; i++) {
        EXPECT(snapshot[HEADER + i] == table[HEADER + NODE * (i % SLOTS) + i / SLOTS]);
    }
    EXPECT(memcmp(snapshot + TASK_WORDS, table + TASK_WORDS, (WORDS - TASK_WORDS) * sizeof snapshot[0]) == 0);

    for (int i = 0; i < 3; i++) {
        EXPECT(lane_ticks(table, WORDS, 1, 0, UINT32_MAX) == ANSWER(LANE_BAG, LANE_MAX_TAG));
        EXPECT(table[LANE_TICK_COUNT] == 15);
        EXPECT(begin(0, LANE_PUSH, LANE_LEFT, LANE_MAX_TAG) == 0); /* it was taken */
        if (i == 1) {
            memset(table, 0xff, sizeof kept);
        }
        EXPECT(lane_put(snapshot, WORDS, table, WORDS) == 0);
        EXPECT(memcmp(table, kept, sizeof kept) == 0);
        EXPECT(begin(0, LANE_PUSH, LANE_LEFT, LANE_MAX_TAG) == LANE_REFUSED_TWICE); /* and stands there again */
        EXPECT(lane_take(table, WORDS, again, WORDS) == 0 && memcmp(again, snapshot, sizeof snapshot) == 0);
    }

    enum { WIDE = 15, WIDE_WORDS = LANE_WORDS(WIDE, 1) };
    static uint32_t wide[WIDE_WORDS], long_one[WIDE_WORDS];
    EXPECT(LANE_WORDS(2, 5) == WIDE_WORDS); /* 13 slots for 4 tasks */
    EXPECT(lane_start(wide, WIDE_WORDS, 2, 5, 0, 1) == 0 && lane_take(wide, WIDE_WORDS, long_one, WIDE_WORDS) == 0);
    EXPECT(lane_start(wide, WIDE_WORDS, WIDE, 1, 0, 4) == 0);
    EXPECT(lane_put(long_one, WIDE_WORDS, wide, WIDE_WORDS) == 0);
    EXPECT(lane_begin(wide, WIDE_WORDS, 4, 0, LANE_POP, LANE_LEFT, 0, 0) == 0);
    EXPECT(lane_begin(wide, WIDE_WORDS, 0, 1, LANE_POP, LANE_LEFT, 0, 0) == LANE_REFUSED_LANE);
}

/* 22, then 3, then 4, of the table in taking and of the snapshot in putting back; and no word is written. */
static void snapshot_refusals(void) {
    static uint32_t snapshot[WORDS + 1], kept[WORDS];
    static const size_t lengths[] = {0, LANE_MIN_WORDS, WORDS - 1, WORDS + 1};
    static const uint32_t shapes[] = {LANE_REFUSED_TABLE, LANE_REFUSED_SHAPE};
    for (uint32_t i = 0; i < 2; i++) {
        begin_again();
        EXPECT(lane_take(table, WORDS, snapshot, WORDS) == 0);
        table[15] = snapshot[15] = 1;
        if (shapes[i] == LANE_REFUSED_TABLE) {
            table[3] = snapshot[3] = LANE_MAX_LANES + 1;
        }
        memset(kept, 7, sizeof kept);
        for (int j = 0; j < 4; j++) {
            EXPECT(lane_take(table, WORDS, answers, lengths[j]) == LANE_REFUSED_SNAPSHOT);
            EXPECT(lane_put(snapshot, lengths[j], kept, WORDS) == LANE_REFUSED_SNAPSHOT);
        }
        EXPECT(lane_take(table, WORDS, kept, WORDS) == shapes[i]);
        EXPECT(lane_put(snapshot, WORDS, kept, WORDS) == shapes[i]);
        for (int j = 0; j < WORDS; j++) {
            EXPECT(kept[j] == 0x07070707);
        }
    }
}

/* A window's limits, its refusals in their order, and the number that it gives; what is refused stays as it was. */
static void windows(void) {
    enum { WIDTH = 3, WINDOW = LANE_WINDOW_WORDS(WIDTH), WIDEST = LANE_WINDOW_WORDS(LANE_MAX_WIDTH) };
    static uint32_t wide[WIDEST + 1], window[WINDOW + 1], kept[WINDOW];
    static const uint32_t steps[][2] = {{5, 8}, {25, 15}, {48, 39}, {51, 39}, {62, 0}, {62, 64}, {48, 0}, {78, 77}};
    static const uint32_t lost[] = {1, 2, 3, 3, 3, 2, 1, 0};

    EXPECT(lane_window(wide, WIDEST, LANE_MAX_WIDTH) == 0 && wide[0] == LANE_MAX_WIDTH);
    EXPECT(lane_feed(wide, WIDEST, 9, 5, 8) == PAIR(0, 1));
    EXPECT(lane_window(wide, WIDEST + 1, LANE_MAX_WIDTH + 1) == LANE_REFUSED_WINDOW);
    EXPECT(lane_window(wide, WIDEST + 1, LANE_MAX_WIDTH) == LANE_REFUSED_WINDOW);
    EXPECT(lane_window(wide, LANE_WINDOW_WORDS(0), 0) == LANE_REFUSED_WINDOW);
    EXPECT(wide[0] == LANE_MAX_WIDTH && wide[1] == 1);

    memset(window, 0xa5, sizeof window);
    EXPECT(lane_window(window, WINDOW, WIDTH) == 0 && window[0] == WIDTH);
    for (int i = 1; i < WINDOW; i++) {
        EXPECT(window[i] == 0);
    }
    EXPECT(window[WINDOW] == 0xa5a5a5a5u);
    for (uint32_t i = 0; i < 8; i++) {
        uint32_t count = UINT32_MAX - 1 + i;
        EXPECT(lane_feed(window, WINDOW, count, steps[i][0], steps[i][1]) == PAIR(0, lost[i]));
        memcpy(kept, window, sizeof kept);
        EXPECT(lane_feed(window, WINDOW, count, 5, 8) == PAIR(LANE_REFUSED_COUNT, 0));
        EXPECT(lane_feed(window, WINDOW, count + 2, 5, 8) == PAIR(LANE_REFUSED_COUNT, 0));
        EXPECT(lane_feed(window, WINDOW + 1, count, 5, 8) == PAIR(LANE_REFUSED_WINDOW, 0)); /* before the count */
        EXPECT(memcmp(window, kept, sizeof kept) == 0);
    }
    window[4] = 2;
    EXPECT(lane_feed(window, WINDOW, 6, 5, 8) == PAIR(LANE_REFUSED_WINDOW, 0));
}

/* Two pops at one end in turn, ticked and watched; then two pushes, dispatched and watched. */
static void watched(void) {
    enum { WIDTH = 8, WINDOW = LANE_WINDOW_WORDS(WIDTH) };
    static uint32_t window[WINDOW];
    uint64_t fed = 7;
    begin_again();
    EXPECT(call(0, LANE_ADD, LANE_RIGHT, 3) == ANSWER(LANE_YES, 0));
    EXPECT(call(0, LANE_PUSH, LANE_RIGHT, 51) == ANSWER(LANE_PUSHED, 0));
    EXPECT(lane_window(window, WINDOW, WIDTH) == 0);
    EXPECT(lane_watch_dispatch(table, WORDS, 0, window, WINDOW, &fed) == ANSWER(LANE_IDLE, 0));
    EXPECT(lane_watch_tick(table, WORDS, 0, 0, window, WINDOW, &fed) == ANSWER(LANE_REFUSED, LANE_REFUSED_IDLE));
    EXPECT(fed == 7 && window[1] == 0);
    EXPECT(begin(0, LANE_POP, LANE_RIGHT, 0) == 0 && begin(1, LANE_POP, LANE_RIGHT, 0) == 0);
    EXPECT(lane_step(table, WORDS, 1) == 39);
    for (uint32_t tick = 0; tick < 6; tick++) {
        EXPECT(lane_watch_tick(table, WORDS, tick % 2, 0, window, WINDOW, &fed) == ANSWER(LANE_GOING, 0));
        EXPECT(fed == 0);
    }
    EXPECT(lane_watch_tick(table, WORDS, 0, 0, window, WINDOW, &fed) == ANSWER(LANE_BAG, 51) && fed == 0);
    EXPECT(lane_step(table, WORDS, 0) == 0 && lane_step(table, WORDS, 1) == 51);
    EXPECT(lane_watch_tick(table, WORDS, 1, 0, window, WINDOW, &fed) == ANSWER(LANE_GOING, 0) && fed == 1);
    for (uint32_t tick = 0; tick < 3; tick++) {
        EXPECT(lane_watch_dispatch(table, WORDS, 0, window, WINDOW, &fed) == ANSWER(LANE_GOING, 0) && fed == 1);
    }
    EXPECT(lane_watch_dispatch(table, WORDS, 0, window, WINDOW, &fed) == ANSWER(LANE_EMPTY, 0) && fed == 1);
    EXPECT(table[LANE_DISPATCHED] == 1 && window[3] == table[LANE_TICK_COUNT]);

    EXPECT(begin(0, LANE_PUSH, LANE_RIGHT, 52) == 0 && begin(1, LANE_PUSH, LANE_RIGHT, 53) == 0);
    for (uint32_t turn = 0; turn < 4; turn++) {
        EXPECT(lane_watch_dispatch(table, WORDS, 0, window, WINDOW, &fed) == ANSWER(LANE_GOING, 0));
    }
    EXPECT(fed == 0); /* the lost pop is out of the window */
    EXPECT(lane_watch_dispatch(table, WORDS, 0, window, WINDOW, &fed) == ANSWER(LANE_PUSHED, 0) && fed == 0);
    EXPECT(lane_watch_dispatch(table, WORDS, 0, window, WINDOW, &fed) == ANSWER(LANE_GOING, 0) && fed == 1);
    EXPECT(lane_tick(table, WORDS, 1, 0) == ANSWER(LANE_GOING, 0)); /* not fed */
    EXPECT(lane_watch_tick(table, WORDS, 1, 0, window, WINDOW, &fed) == ANSWER(LANE_GOING, 0));
    EXPECT(fed == PAIR(LANE_REFUSED_COUNT, 0));
}

static uint32_t lend(struct lane_record *record, uint32_t task, uint32_t lane, uint32_t operation, uint32_t side,
                     uint64_t argument) {
    uint32_t digit = lane_tag_digit(argument), low = lane_tag_low(argument);
    return lane_begin_record(record, table, WORDS, task, lane, operation, side, digit, low);
}

/* A lent record becomes what begin writes, the table is only read, and copied it is that begin. */
static void records(void) {
    static const struct lane_record fresh = LANE_FRESH_RECORD;
    static const uint32_t operations[] = {LANE_PUSH, LANE_POP, LANE_ADD, LANE_REMOVE};
    static uint32_t begun[WORDS], before[WORDS];
    EXPECT(sizeof fresh == LANE_RECORD_WORDS * sizeof table[0]);
    for (uint32_t i = 0; i < 16; i++) {
        uint32_t operation = operations[i / 4], side = i / 2 % 2, lane = i % 2;
        uint64_t argument = i / 4 == 0 ? LANE_MAX_TAG : i / 4 == 1 ? 0 : 3;
        EXPECT(lane_start(table, WORDS, SLOTS, TASKS, 0, 2) == 0);
        struct lane_record record = lane_record_of(table, WORDS, 1);
        EXPECT(memcmp(&record, &fresh, sizeof fresh) == 0);
        memcpy(before, table, sizeof before);
        memcpy(begun, table, sizeof begun);
        EXPECT(lane_begin(begun, WORDS, 1, lane, operation, side, lane_tag_digit(argument), lane_tag_low(argument)) == 0);
        EXPECT(lend(&record, 1, lane, operation, side, argument) == 0);
        EXPECT(memcmp(table, before, sizeof before) == 0);
        EXPECT(record.operation == operation && record.side == side && record.lane == lane);
        EXPECT(lane_tag(record.digit, record.argument) == argument);
        EXPECT(record.step == lane_step(begun, WORDS, 1));
        EXPECT(lane_record_copy(table, WORDS, 1, &record) == 0);
        EXPECT(memcmp(table, begun, sizeof begun) == 0);
        EXPECT(LANE_KIND(lane_ticks(table, WORDS, 1, 0, 3)) < LANE_REFUSED);
        record = lane_record_of(table, WORDS, 1);
        EXPECT(memcmp(&record, table + WORDS - LANE_RECORD_WORDS, sizeof record) == 0);
    }

    struct lane_record record = fresh;
    memcpy(before, table, sizeof before);
    EXPECT(lane_record_copy(table, WORDS, TASKS, &record) == LANE_REFUSED_TASK);
    EXPECT(lane_record_copy(table, WORDS - 1, 1, &record) == LANE_REFUSED_TASK);
    EXPECT(lane_record_copy(table, WORDS, UINT32_MAX, &record) == LANE_REFUSED_TASK);
    EXPECT(lane_record_copy(NULL, 0, 0, &record) == LANE_REFUSED_TASK);
    EXPECT(memcmp(table, before, sizeof before) == 0);
    record = lane_record_of(table, WORDS, TASKS);
    EXPECT(memcmp(&record, &fresh, sizeof fresh) == 0);
    record = lane_record_of(NULL, 0, 0);
    EXPECT(memcmp(&record, &fresh, sizeof fresh) == 0);
}

/* Each refusal before the next, of a lent record that no refusal changes; the task's own words have no say. */
static void record_refusals(void) {
    static const struct lane_record fresh = LANE_FRESH_RECORD;
    struct lane_record record = fresh, kept;
    EXPECT(lane_start(table, WORDS, SLOTS, TASKS, 0, 2) == 0);
    EXPECT(lane_begin(table, WORDS, 0, 1, LANE_PUSH, LANE_LEFT, 0, 51) == 0);
    table[16 + 4 * 2 + 1] = 65535; /* the link to the right of lane 1's left end made none, which no call does */
    EXPECT(lend(&record, 1, 0, LANE_POP, LANE_LEFT, 0) == 0); /* the record is busy now, and not the table's */
    kept = record;
    record.counted = 1025;
    EXPECT(lane_begin_record(&record, table, WORDS - 1, 1, 2, 5, 2, 10, 51) == LANE_REFUSED_TABLE);
    EXPECT(lane_begin_record(&record, NULL, 0, 1, 2, 5, 2, 10, 51) == LANE_REFUSED_TABLE);
    EXPECT(lane_begin_record(&record, table, WORDS, 1, 2, 5, 2, 10, 51) == LANE_REFUSED_SHAPE);
    EXPECT(lane_begin_record(&record, table, WORDS, TASKS, 2, 5, 2, 10, 51) == LANE_REFUSED_LANE); /* it has no place */
    EXPECT(lane_begin_record(&record, table, WORDS, TASKS, 1, 5, 2, 10, 51) == LANE_REFUSED_TASK);
    EXPECT(record.counted == 1025);
    record = kept;
    EXPECT(lane_begin_record(&record, table, WORDS, 1, 1, LANE_PUSH, 2, 10, 51) == LANE_REFUSED_OPERATION);
    EXPECT(lane_begin_record(&record, table, WORDS, 1, 1, LANE_PUSH, 1, 10, 51) == LANE_REFUSED_ARGUMENT);
    EXPECT(lane_begin_record(&record, table, WORDS, 1, 0, LANE_PUSH, 1, 0, 51) == LANE_REFUSED_NO_SLOT);
    table[16 + 4 * 2 + 1] = 3;
    EXPECT(lane_begin_record(&record, table, WORDS, 1, 0, LANE_PUSH, 1, 0, 51) == LANE_REFUSED_TWICE);
    EXPECT(lane_begin_record(&record, table, WORDS, 1, 0, LANE_PUSH, 1, 0, 52) == LANE_REFUSED_BUSY);
    EXPECT(memcmp(&record, &kept, sizeof kept) == 0);

    record = fresh;
    table[WORDS - LANE_RECORD_WORDS] = 7; /* broken, and not looked at */
    EXPECT(lend(&record, 0, 0, LANE_POP, LANE_LEFT, 0) == LANE_REFUSED_SHAPE);
    EXPECT(lend(&record, 1, 0, LANE_PUSH, LANE_LEFT, 52) == 0);
    EXPECT(lane_record_copy(table, WORDS, 1, &record) == 0);
    EXPECT(lane_ticks(table, WORDS, 1, 0, UINT32_MAX) == ANSWER(LANE_PUSHED, 0));
    EXPECT(lend(&record, 1, 0, LANE_POP, LANE_LEFT, 0) == LANE_REFUSED_BUSY); /* of the past */
    record = fresh;
    EXPECT(lend(&record, 1, 0, LANE_PUSH, LANE_LEFT, 52) == LANE_REFUSED_TWICE);
}

/* What not to do: a copy over a remove in the middle, after which no push goes; and the ways back. */
static void record_losses(void) {
    enum { FEW = 4, FEW_WORDS = LANE_WORDS(FEW, 1) };
    static uint32_t few[FEW_WORDS], snapshot[FEW_WORDS];
    EXPECT(lane_start(few, FEW_WORDS, FEW, 1, 0, 1) == 0);
    EXPECT(lane_call(few, FEW_WORDS, 0, 0, LANE_ADD, LANE_LEFT, 1) == ANSWER(LANE_YES, 0));
    EXPECT(lane_begin(few, FEW_WORDS, 0, 0, LANE_REMOVE, LANE_LEFT, 0, 0) == 0);
    EXPECT(lane_take(few, FEW_WORDS, snapshot, FEW_WORDS) == 0);
    while (lane_step(few, FEW_WORDS, 0) != 64) {
        EXPECT(lane_tick(few, FEW_WORDS, 0, 0) == ANSWER(LANE_GOING, 0));
    }
    struct lane_record record = LANE_FRESH_RECORD;
    EXPECT(lane_begin_record(&record, few, FEW_WORDS, 0, 0, LANE_ADD, LANE_LEFT, 0, 0) == 0);
    EXPECT(lane_record_copy(few, FEW_WORDS, 0, &record) == 0);
    EXPECT(lane_ticks(few, FEW_WORDS, 0, 0, UINT32_MAX) == ANSWER(LANE_NO, 0));
    EXPECT(lane_make_room(few, FEW_WORDS, 0, 0, LANE_LEFT, 51) == ANSWER(LANE_FULL, 0));
    EXPECT(lane_make_room(few, FEW_WORDS, 0, 0, LANE_RIGHT, 51) == ANSWER(LANE_FULL, 0));

    EXPECT(lane_put(snapshot, FEW_WORDS, few, FEW_WORDS) == 0);
    EXPECT(lane_ticks(few, FEW_WORDS, 0, 0, UINT32_MAX) == ANSWER(LANE_YES, 0));
    EXPECT(lane_make_room(few, FEW_WORDS, 0, 0, LANE_RIGHT, 51) == ANSWER(LANE_PUSHED, 0));
    EXPECT(lane_make_room(few, FEW_WORDS, 0, 0, LANE_RIGHT, 52) == ANSWER(LANE_PUSHED, 0));
}

int main(void) {
    versions();
    limits();
    tags();
    tag_lists();
    airline_lists();
    pushes_by_list();
    sheets();
    sheet_refusals();
    refusals();
    answer_texts();
    readers();
    rooms();
    pairs();
    empty_slices();
    calls();
    whole_calls();
    lanes();
    turns();
    rows();
    snapshots();
    snapshot_refusals();
    windows();
    watched();
    records();
    record_refusals();
    record_losses();
    puts(failures == 0 ? "the header's words hold" : "the header's words do not hold");
    return failures == 0 ? 0 : 1;
}
