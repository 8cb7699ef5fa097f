/*
 * The proved lane machine for C and C++: one to four lanes, each a double-ended queue of bags, over one lent table of
 * words, worked on by up to sixteen tasks, one tick at a time. Link with libdeque.a, or with liblane.a, its name where
 * it is installed.
 *
 * ```c
 * #include <stdio.h>
 * #include "lane.h"
 *
 * int main(void) {
 *     static uint32_t table[LANE_WORDS(4, 1)];
 *     uint32_t tags[LANE_TAG_WORDS * LANE_MAX_BAGS(4, 1)];
 *     size_t words = LANE_WORDS(4, 1);
 *     uint32_t refusal = lane_start(table, words, 4, 1, 0, 1);
 *     if (refusal != 0) {
 *         fprintf(stderr, "%s\n", lane_refusal_text(refusal));
 *         return 1;
 *     }
 *     uint64_t answer = lane_call(table, words, 0, 0, LANE_PUSH, LANE_RIGHT, 51);
 *     uint64_t reading = lane_read(table, words, 0, tags, LANE_TAG_WORDS * LANE_MAX_BAGS(4, 1));
 *     return LANE_KIND(answer) == LANE_PUSHED && reading == 1 && lane_tag(tags[0], tags[1]) == 51 ? 0 : 1;
 * }
 * ```
 *
 * Every call takes any words, any lengths and any numbers, and answers them; no call trusts its caller. A refusal
 * leaves all that is lent as it was; only a call of several ticks keeps those before the one refused.
 *
 * POINTERS. Lengths are in words of 32 bits, of a list in packed decimal, of an airline list and of a page in bytes. A
 * pointer is aligned for what it points to and valid for its length, and the slices of one call do not overlap: these
 * are the only things that the library cannot test. NULL with length 0 is accepted everywhere, as an empty slice. A
 * lent record is never NULL, and stands outside the table. The library keeps no pointer, allocates nothing and has no
 * state of its own.
 *
 * THREADS. Different tables may be used by different threads at the same time, and so may reads, takes, sheets and
 * begins over lent records of one table. All else on one table comes one call after another: the library has no lock
 * and no atomic access. Tag lists, windows and the test of an airline list need no table, and their calls may be made
 * at any time, each with an out slice or a window of its own.
 *
 * PROVED is the code of the library as its compiler takes it; this header, and what is written in it over the library,
 * is tested and not proved. docs/AUDIT.md says what is assumed, docs/USE.md has the footprint (x86-64 only; no heap, no
 * data, nothing from outside but memset), README.md the Rattle kit that it was proved with. The files of this library
 * grant no licence by themselves.
 *
 * LANES. The lanes of a table are numbered from 0. Each is a row of bags of its own, and all share the slots. A begin
 * says which lane its call is on, and the call changes nothing of another lane: lanes do not meet but in which slots
 * are free, and in that a tag is in one place of all of them. Who has one lane starts 1 and says lane 0.
 *
 * THE ROW. A lane of a table that lane_start began is a row of bags, and the row changes in just the tick that answers:
 * in that of LANE_PUSHED the bag comes to its end, in that of LANE_BAG the bag at its end is gone. All other ticks, and
 * all other calls but lane_start and lane_put, leave every row as it is. A read at any time, whatever calls stand in
 * the middle, is the row.
 *
 * SLOTS. A slot, also called a node, is the place of one bag. Slots at an end of a lane with no bag are spare; each end
 * always has one at least, so a table of S slots and L lanes carries at most S - 2L bags in all, with one lane S - 2. A
 * slot is free when nothing may use it, neither a lane nor a call that stands in the middle.
 *
 * WHOLE CALLS. With no task in a call, the answer of a call that then gets all the ticks (lane_call), and what it
 * leaves, are told by the bags and three numbers: r slots are spare at its end, f slots are free, and y is 1 where the
 * end has a slot on a spur (cut off there, with the end's pointer moved to it by a stalled task), else 0.
 *
 *   push      r above 1                  pushed  r - 1
 *             r 1, f + y above 0         pushed  r is f + y, and at most growth + 1
 *             r 1, f + y 0               full    as before
 *   pop       a bag at the end           it      r + 1
 *             no bag in the lane         empty   as before
 *   add n     f above 0                  yes     r more by f, and at most by n + 1
 *             f 0                        no      as before
 *   remove n  y 1, or r up to n + 1      yes     as before
 *             y 0, r is n + 2            no      as before
 *             y 0, r above n + 2         yes     r is n + 1; the others are free
 *
 * After "pushed", a bag and an add's "yes" y is 0. No other end changes, and f is what is left of the slots. After
 * lane_start r is 1 and y 0 at every end, and f is S - 2L. So who makes whole calls alone, by whatever tasks, can
 * foretell every answer from these few numbers: y stays 0, and no call is refused but with 26, 5, 6, 7 or 16, in this
 * order. An end takes r + y + f - 1 new bags, and is full then.
 *
 * FULL. A push is "full" when no slot is free, and that is not about the bags alone: spare slots at other ends are not
 * free, nor is what a call left in the middle may still use. Do not leave a call standing while bags pass. The way out:
 * drain the table (at lane_dispatches), then lane_make_room; docs/USE.md says what it does, and what "full" means then.
 *
 * TAGS. A bag goes by its tag of ten digits, 1 to 9,999,999,999: a number of 64 bits, or two words of 32, the leading
 * digit and the low part, the nine digits below it. Calls take and write the digit first. lane_tag makes the number of
 * the words, lane_tag_digit and lane_tag_low the words of the number; "%010" PRIu64 prints it with its zeros.
 *
 * TWICE. A tag is in one place at most: a push of a tag that stands in any lane, or that a busy push on any lane has,
 * is refused when it is begun (16). So no table that lane_start began holds a tag twice.
 *
 * TURNS. The caller says whose tick is next, or lets lane_dispatch tick the busy tasks in turn. Both go together: other
 * ticks leave the turn as it is. lane_ticks and lane_dispatches make many of them.
 *
 * TAG LISTS. A list has up to 1,024 tags in packed decimal: ten digits in five bytes, two to a byte, the higher first.
 * lane_tags_read and lane_tags_write take it to two words a tag, as lane_read writes them, and back, with no table. A
 * list may be empty, and may hold a tag twice.
 *
 * AIRLINE LISTS. The second to fourth digits of a tag are the airline's code. A list says which airline is loaded at
 * which end, `left` or `right`, and closes with the end for all others:
 *
 *     (airline (code 125) left)
 *     (airline (code 020) right)
 *     (others right)
 *
 * It has 1 to 64 lines with the closing one. Spelling and single spaces are as shown; a code has three digits and is in
 * one line at most. A line ends at a line feed or at the end of the text, and a line feed at the very end opens no
 * further line; a carriage return belongs to its line, which is then no such line. lane_list_check tests a list, and
 * lane_push_by_list begins a push at the end that the list names for the tag. Both name the first faulty line.
 *
 * SHEETS. A page is 60 lines of exactly 80 bytes, each with a line feed after it: LANE_PAGE_BYTES bytes in all, and no
 * 0 at the end. Its first line is the heading, `LANE`, a space and the bags of the whole lane in four digits. Each
 * further line has the next seven tags, or those left, left end first: ten digits and one blank for each. Blanks fill
 * the lines. A page takes LANE_PAGE_TAGS tags, and the pages are numbered from 0; LANE_PAGES of them hold every lane.
 * lane_sheet writes the page that the caller names. A page past the last tag has its heading and blank lines.
 *
 * LOST SWAPS. A task that finds another one in its way loses the swap of its line, at step 5, 25, 48 or 51, and goes
 * round again; or, a remove at 62, it says "no". A window counts such ticks among the last W. lane_window makes one,
 * lane_feed feeds it a tick; lane_watch_tick and lane_watch_dispatch tick and feed at once.
 *
 * SNAPSHOTS. A snapshot holds the words of a table in another order, by columns: the header, every slot's L, every R,
 * every V, every leading digit, then the tasks. It is as long as the table. lane_take takes one, and lane_put puts it
 * back: the table then has every word that it had. Taking changes nothing. Put back only what you took, whole: then all
 * that is said here of a table that lane_start began holds again if it held when it was taken. docs/USE.md says what is
 * lost otherwise, and what a put does not bring back.
 *
 * LENT RECORDS. A belt panel may keep the record of its task, thirteen words of the table, in its own memory, and lend
 * it to be begun there. lane_begin_record is lane_begin with that record in the place of its task; it reads the table
 * and writes the record alone. The panel copies the record to the table itself:
 *
 *   1. lend   lane_begin_record, with a fresh record (LANE_FRESH_RECORD) or the one that lane_record_of reads;
 *   2. look   at the refusal: if it is not 0, the record is as it was, and there is nothing to copy;
 *   3. copy   just these words to the place of that task, with lane_record_copy, and nothing in between: no other call
 *             that writes the table, and no copy of another record.
 *
 * So done it is a begin, and all that is said here of a begin holds. Never copy late, other words, to another place, or
 * over a task that is in the middle of a call: docs/USE.md says what is lost by it.
 */
#ifndef LANE_H
#define LANE_H

#include <stddef.h>
#include <stdint.h>

#ifdef __cplusplus
extern "C" {
#endif

/*
 * Before a call whose result may not be ignored; a compiler that knows how warns of it. Who wants no warning defines it
 * as nothing before this header.
 */
#ifndef LANE_MUST_USE
#if (defined(__cplusplus) && __cplusplus >= 201703L) || (defined(__STDC_VERSION__) && __STDC_VERSION__ >= 202311L)
#define LANE_MUST_USE [[nodiscard]]
#elif defined(__GNUC__)
#define LANE_MUST_USE __attribute__((warn_unused_result))
#else
#define LANE_MUST_USE
#endif
#endif

/*
 * The library's version; and the number of the table's format: only libraries of this format work on the table. One of
 * an older format is refused with 3, since its length does not fit its sizes, and so is one of this format by an older
 * library. docs/USE.md says how to move on to a new format.
 */
#define LANE_VERSION "6.6.0"
#define LANE_VERSION_NUMBER 6006000 /* major times 1,000,000, minor times 1,000, and the patch */
#define LANE_TABLE_FORMAT 4

/*
 * Words of a table of `slots` (2 to 1,024, and two a lane at least) and `tasks` (1 to 16), whatever the lanes: 16 for
 * the header, 4 a slot, 13 a task.
 */
#define LANE_WORDS(slots, tasks) (16 + 4 * (size_t)(slots) + 13 * (size_t)(tasks))

/* Words that a read writes for each tag, and a run for each tick; bytes of a tag in packed decimal. */
#define LANE_TAG_WORDS 2
#define LANE_ANSWER_WORDS 3
#define LANE_TAG_BYTES 5

/* Words of a window that looks back on `width` ticks (1 to 4,096). */
#define LANE_WINDOW_WORDS(width) ((size_t)(width) + 4)

/* The most bags that a table of so many slots and lanes carries, in all lanes together. */
#define LANE_MAX_BAGS(slots, lanes) ((slots) - 2 * (lanes))

/* Within so many of its own ticks a call answers while no other task is ticked, on a table that lane_start began. */
#define LANE_MAX_TICKS_ALONE(slots) (4 * (slots) + 154)

/* Limits. */
#define LANE_MIN_SLOTS 2
#define LANE_MAX_SLOTS 1024
#define LANE_MIN_TASKS 1
#define LANE_MAX_TASKS 16
#define LANE_MAX_GROWTH 64
#define LANE_MIN_LANES 1
#define LANE_MAX_LANES 4
#define LANE_MIN_TAG 1
#define LANE_MAX_TAG UINT64_C(9999999999)
#define LANE_MAX_DIGIT 9        /* of a tag, the leading one */
#define LANE_MAX_LOW 999999999  /* of a tag, the nine digits below */
#define LANE_MAX_ADD 64         /* argument of an add */
#define LANE_MAX_REMOVE 1023    /* argument of a remove */
#define LANE_MAX_TICKS 4096     /* of one run */
#define LANE_MAX_PANEL_TICKS 32 /* of one list of the panel */
#define LANE_LIST_TAGS 1024     /* the most of one tag list */
#define LANE_LIST_LINES 64      /* the most of one airline list, with the closing one */
#define LANE_LIST_BYTES 1716    /* the most of one airline list that is accepted */
#define LANE_PAGES 3            /* of the shift sheet, for any lane */
#define LANE_PAGE_TAGS 413      /* the most of one page */
#define LANE_PAGE_LINES 60      /* of a page, the heading with them */
#define LANE_PAGE_COLUMNS 80    /* bytes of a line, without its line feed */
#define LANE_PAGE_BYTES 4860    /* of a page */
#define LANE_MAX_WIDTH 4096     /* ticks that a window looks back on */
#define LANE_MIN_WORDS 37       /* of a table */
#define LANE_MAX_WORDS 4320

/* The ends of a lane. */
#define LANE_LEFT 0
#define LANE_RIGHT 1

/* What a task can be told to do, with the argument's range. The digit is 0 but for a push. */
#define LANE_PUSH 1   /* put a bag at the end: its tag, digit 0 to 9 and low part 0 to 999,999,999, not both 0 */
#define LANE_POP 2    /* take the bag at the end: 0 */
#define LANE_ADD 3    /* make a free slot a spare one at the end, and so many more: 0 to 64 */
#define LANE_REMOVE 4 /* give back the spare slots at the end but the one that stays and so many: 0 to 1,023 */

/* What ticks and dispatches answer: the kind, which a run writes too (but 7 and 8). */
#define LANE_GOING 0   /* the call is not finished */
#define LANE_PUSHED 1  /* a push put its bag in its lane */
#define LANE_BAG 2     /* a pop took a bag; the value is its tag */
#define LANE_EMPTY 3   /* a pop found its lane empty */
#define LANE_FULL 4    /* a push found no free slot */
#define LANE_YES 5     /* an add added as many as were free, one at least; a remove has nothing more to do (below) */
#define LANE_NO 6      /* an add found no free slot; a remove gave back nothing (below) */
#define LANE_REFUSED 7 /* the tick was refused; the value is the refusal */
#define LANE_IDLE 8    /* a dispatch found every task idle */

/*
 * "Yes" of a remove says that nothing more is to be done by it, and not that a slot was given back. "No" of a remove,
 * with no other task in a call, means exactly one spare slot more than asked for; trying again changes nothing.
 */

/* Refusals. Each call tests those of its list in the order given there. */
#define LANE_REFUSED_SIZES 1     /* start: slots, tasks or growth out of range, or fewer than two slots a lane */
#define LANE_REFUSED_LENGTH 2    /* start: the table is not LANE_WORDS(slots, tasks) long */
#define LANE_REFUSED_TABLE 3     /* under 37 words, or sizes in the header out of range or not matching the length */
#define LANE_REFUSED_SHAPE 4     /* some word of the table holds what it may not hold */
#define LANE_REFUSED_TASK 5      /* no such task */
#define LANE_REFUSED_OPERATION 6 /* no such operation or side */
#define LANE_REFUSED_ARGUMENT 7  /* argument out of the operation's range */
#define LANE_REFUSED_BUSY 8      /* the task is in the middle of a call */
#define LANE_REFUSED_HINT 9      /* hint not below the number of slots */
#define LANE_REFUSED_IDLE 10     /* the task has no call */
#define LANE_REFUSED_NO_SLOT 11  /* a link or register that is needed is none, or a lane has no end (below) */
#define LANE_REFUSED_OUT 12      /* out slice under two words a tag */
#define LANE_REFUSED_LIST 13     /* list of odd length, or of more than 4,096 ticks */
#define LANE_REFUSED_ANSWERS 14  /* answer slice under three words a tick */
#define LANE_REFUSED_PANEL 15    /* panel: list of more than 32 ticks */
#define LANE_REFUSED_TWICE 16    /* begin of a push: the tag is in a lane or in a busy push */
#define LANE_REFUSED_TAGS 17     /* tag list: not a whole number of tags, or more than 1,024 */
#define LANE_REFUSED_NO_TAG 18   /* tag list: a place holds no tag */
#define LANE_REFUSED_TAGS_OUT 19 /* tag list: out slice too short for it */
#define LANE_REFUSED_PAGE 20     /* sheet: page above 2 */
#define LANE_REFUSED_PAGE_OUT 21 /* sheet: out slice not 4,860 bytes */
#define LANE_REFUSED_SNAPSHOT 22 /* take, put: the snapshot and the table differ in length */
#define LANE_REFUSED_WINDOW 23   /* window: width out of range, not so long, or a word that no feed leaves there */
#define LANE_REFUSED_COUNT 24    /* window: a count that is not the one after the last */
#define LANE_REFUSED_LANES 25    /* start: not one to four lanes */
#define LANE_REFUSED_LANE 26     /* begin, push by list, read, sheet: no such lane */
#define LANE_REFUSED_LINE 27     /* airline list: a line that is neither form, a 65th line, or no line */
#define LANE_REFUSED_CODE 28     /* airline list: a code that an earlier line has */
#define LANE_REFUSED_CLOSING 29  /* airline list: a closing line with a line after it, or a last line that is none */

/*
 * Words of the table, counted from 0: the ticks made since lane_start, by whatever call, which go from 4,294,967,295 to
 * 0; and the task last dispatched, below the number of tasks. lane_tick_count and lane_dispatched read them.
 */
#define LANE_TICK_COUNT 4
#define LANE_DISPATCHED 5

/*
 * A task's record: its thirteen words, in the order of the table. Slots are numbers below S, or LANE_NO_SLOT.
 */
struct lane_record {
    uint32_t operation;   /* LANE_PUSH to LANE_REMOVE; 0 for an idle task */
    uint32_t step;        /* the line of the figure */
    uint32_t side;        /* LANE_LEFT or LANE_RIGHT */
    uint32_t argument;    /* of a push the low part of its tag */
    uint32_t digit;       /* of a push the leading digit of its tag */
    uint32_t counted;     /* slots so far */
    uint32_t value;       /* the value read: a low part, or a mark */
    uint32_t value_digit; /* its leading digit */
    uint32_t a, b, c, d;  /* the registers, slots */
    uint32_t lane;
};
#define LANE_RECORD_WORDS 13
#define LANE_NO_SLOT 65535

/* The record of an idle task, as an initializer. */
#define LANE_FRESH_RECORD {0, 0, 0, 0, 0, 0, 0, 0, LANE_NO_SLOT, LANE_NO_SLOT, LANE_NO_SLOT, LANE_NO_SLOT, 0}

/* The two parts of what ticks and dispatches return: the kind, and the tag or the refusal. */
#define LANE_KIND(answer) ((uint32_t)((answer) >> 40))
#define LANE_VALUE(answer) ((answer) & UINT64_C(0xffffffffff))

/*
 * The two halves of what lane_run, lane_panel, lane_read, lane_tags_read, lane_tags_write, lane_feed, lane_list_check
 * and lane_push_by_list return: the refusal, or 0; and the count, of the ticks made, of the tags or of the lost swaps,
 * for the last two 0. With a refusal the count is 0, but for a run and the panel's list, which have made so many ticks
 * before it, for 18, where it is the place, from 0, and for 27, 28 and 29, where it is the line, from 1.
 */
#define LANE_REFUSAL(pair) ((uint32_t)((pair) >> 32))
#define LANE_COUNT(pair) ((uint32_t)((pair) & 0xffffffffu))

/*
 * On a table that lane_start began and only these calls have written since, lent whole, no call gives 3, 4 or 11,
 * whatever the tasks, hints and lists; 3 and 4 of lane_put are about the snapshot.
 */

/*
 * The version and the table's format of the library that was linked, which may not be the one that this header is of;
 * lane_fits compares them.
 * Returns the format times 2^32 plus the version's number.
 *
 * ```c
 * #include "lane.h"
 *
 * int main(void) {
 *     return lane_fits(lane_version()) ? 0 : 1;
 * }
 * ```
 */
LANE_MUST_USE
uint64_t lane_version(void);

/*
 * Begins empty lanes, `lanes` of them (1 to 4); the table's words may be anything before. `growth` (0 to 64) is how
 * many spare slots a push adds beyond the one it needs.
 * Returns 0, or a refusal: 25, 1, 2. Writes every word of the table.
 */
LANE_MUST_USE
uint32_t lane_start(uint32_t *table, size_t words, uint32_t slots, uint32_t tasks, uint32_t growth, uint32_t lanes);

/*
 * Gives an idle task a call on `lane`, from 0. The tag of a push is `digit` and `argument`, its low part; for the
 * others `digit` is 0. Nothing of a call is done before the task's ticks, which take no lane: the task keeps it. For a
 * push every lane is walked as by lane_read (11), and the tag looked for there and in every busy push, the task's own
 * included (16).
 * Returns 0, or a refusal: 3, 4, 26, 5, 6, 7, 11 (push), 16 (push), 8. Writes the task's thirteen words.
 */
LANE_MUST_USE
uint32_t lane_begin(uint32_t *table, size_t words, uint32_t task, uint32_t lane, uint32_t operation, uint32_t side,
                    uint32_t digit, uint32_t argument);

/*
 * Gives the task of a lent record a call, as lane_begin does with that record in the place of its task: what stands
 * there in the table is not looked at, and the table is only read. A record of a task that is not there is not tested.
 * Returns 0, or a refusal: 3, 4 (the table, with the record in its place), 26, 5, 6, 7, 11 (push), 16 (push), 8. Writes
 * the thirteen words of the record, those that lane_begin would write to the table; with a refusal none.
 *
 * ```c
 * #include <string.h>
 * #include "lane.h"
 *
 * int main(void) {
 *     static uint32_t table[LANE_WORDS(8, 2)], begun[LANE_WORDS(8, 2)];
 *     size_t words = LANE_WORDS(8, 2);
 *     struct lane_record record = LANE_FRESH_RECORD;
 *     if (lane_start(table, words, 8, 2, 0, 1) != 0 || lane_start(begun, words, 8, 2, 0, 1) != 0 ||
 *         lane_begin(begun, words, 1, 0, LANE_PUSH, LANE_LEFT, 0, 51) != 0) {
 *         return 1;
 *     }
 *     if (lane_begin_record(&record, table, words, 1, 0, LANE_PUSH, LANE_LEFT, 0, 51) != 0 ||
 *         lane_is_busy(table, words, 1) || // not yet
 *         lane_record_copy(table, words, 1, &record) != 0 || memcmp(table, begun, sizeof table) != 0) {
 *         return 1;
 *     }
 *     return lane_begin_record(&record, table, words, 1, 0, LANE_POP, LANE_LEFT, 0, 0) == LANE_REFUSED_BUSY ? 0 : 1;
 * }
 * ```
 */
LANE_MUST_USE
uint32_t lane_begin_record(struct lane_record *record, const uint32_t *table, size_t words, uint32_t task,
                           uint32_t lane, uint32_t operation, uint32_t side, uint32_t digit, uint32_t argument);

/*
 * Makes one tick of a busy task. If the tick takes a free slot, it is the first one from `hint` (below the number of
 * slots) upward, going round. 0 always works: whether a slot is found does not depend on the hint. The slot after the
 * one last taken shortens the search, by about a sixth of the tick at 128 to 1,024 slots: docs/USE.md says
 * how a caller keeps it.
 * Returns LANE_KIND: the kind; LANE_VALUE: the tag for LANE_BAG, the refusal (3, 4, 5, 9, 10, 11) for LANE_REFUSED,
 * else 0; that is the kind times 2^40 plus the value. Writes the tick count, the task's words and what this one tick of
 * its call writes. After any kind but LANE_GOING and LANE_REFUSED the task is idle.
 */
LANE_MUST_USE
uint64_t lane_tick(uint32_t *table, size_t words, uint32_t task, uint32_t hint);

/*
 * Makes ticks of one task, each with this hint, until one does not say LANE_GOING, or `times` of them. The table is
 * tested once for all.
 * Returns what lane_tick returns for the last. Writes what the ticks made write; a tick that is refused with 11 after
 * others, which no table of lane_start's comes to, leaves those made. With `times` 0 it returns LANE_GOING times 2^40,
 * and neither tests nor touches the table.
 *
 * ```c
 * #include "lane.h"
 *
 * int main(void) {
 *     static uint32_t table[LANE_WORDS(8, 1)];
 *     size_t words = LANE_WORDS(8, 1);
 *     if (lane_start(table, words, 8, 1, 0, 1) != 0 ||
 *         lane_begin(table, words, 0, 0, LANE_PUSH, LANE_LEFT, 0, 51) != 0 ||
 *         LANE_KIND(lane_ticks(table, words, 0, 0, 10)) != LANE_GOING) {
 *         return 1;
 *     }
 *     uint64_t answer = lane_ticks(table, words, 0, 0, LANE_MAX_TICKS_ALONE(8));
 *     return LANE_KIND(answer) == LANE_PUSHED && table[LANE_TICK_COUNT] == 11 ? 0 : 1;
 * }
 * ```
 */
LANE_MUST_USE
uint64_t lane_ticks(uint32_t *table, size_t words, uint32_t task, uint32_t hint, uint32_t times);

/*
 * Makes one tick, with this hint, of the next busy task after the one last dispatched, going round by task number; that
 * one itself comes last. After lane_start the first dispatch looks from task 0 on. lane_tick, lane_run and lane_panel
 * leave the turn as it is. A busy task gets its tick within as many dispatches as there are tasks, provided that none
 * of them is refused and that neither another tick of it nor lane_start ends its call first.
 * Returns what lane_tick returns for that task, the refusals being 3, 4, 9, 11; or LANE_IDLE times 2^40, if every task
 * is idle and none of 3, 4 and 9 is given, which are tested before the choice. Writes what that tick writes, and the
 * task in table[LANE_DISPATCHED]; with LANE_IDLE or LANE_REFUSED nothing.
 *
 * ```c
 * #include "lane.h"
 *
 * int main(void) {
 *     static uint32_t table[LANE_WORDS(8, 2)];
 *     size_t words = LANE_WORDS(8, 2);
 *     if (lane_start(table, words, 8, 2, 0, 1) != 0 || LANE_KIND(lane_dispatch(table, words, 0)) != LANE_IDLE ||
 *         lane_begin(table, words, 0, 0, LANE_PUSH, LANE_LEFT, 0, 51) != 0 ||
 *         lane_begin(table, words, 1, 0, LANE_POP, LANE_RIGHT, 0, 0) != 0) {
 *         return 1;
 *     }
 *     for (uint32_t turn = 0; turn < 4; turn++) {
 *         if (LANE_KIND(lane_dispatch(table, words, 0)) != LANE_GOING || table[LANE_DISPATCHED] != turn % 2) {
 *             return 1;
 *         }
 *     }
 *     return 0;
 * }
 * ```
 */
LANE_MUST_USE
uint64_t lane_dispatch(uint32_t *table, size_t words, uint32_t hint);

/*
 * Makes dispatches, each with this hint, until a call ends, every task is idle, one is refused, or `times` of them say
 * LANE_GOING. The table is tested once for all.
 * Returns what lane_dispatch returns for the last. Where a call ended, table[LANE_DISPATCHED] has its task, and
 * table[LANE_TICK_COUNT] tells how many ticks were made. What is written, and `times` 0, are as in lane_ticks.
 *
 * DRAIN. With no begin meanwhile, on a table that lane_start began, every call comes to its answer, whatever the hints:
 *
 *     while (LANE_KIND(lane_dispatches(table, words, 0, UINT32_MAX)) < LANE_REFUSED) {}
 *
 * ends with LANE_IDLE, after an answer for each task that was in a call. Its ticks are at most 4S + 154 for the last
 * task in a call, and (b(T + 1) + 2L + 1)(b(6S + 153) + 1) for each answer before, with b tasks in calls until then.
 *
 * ```c
 * #include "lane.h"
 *
 * int main(void) {
 *     static uint32_t table[LANE_WORDS(8, 2)];
 *     size_t words = LANE_WORDS(8, 2);
 *     uint64_t answer;
 *     uint32_t ended[2];
 *     int count = 0;
 *     if (lane_start(table, words, 8, 2, 0, 1) != 0 ||
 *         lane_begin(table, words, 0, 0, LANE_PUSH, LANE_LEFT, 0, 51) != 0 ||
 *         lane_begin(table, words, 1, 0, LANE_POP, LANE_RIGHT, 0, 0) != 0) {
 *         return 1;
 *     }
 *     while (LANE_KIND(answer = lane_dispatches(table, words, 0, UINT32_MAX)) < LANE_REFUSED) {
 *         ended[count++] = table[LANE_DISPATCHED];
 *     }
 *     return LANE_KIND(answer) == LANE_IDLE && count == 2 && ended[0] == 1 && ended[1] == 0 ? 0 : 1;
 * }
 * ```
 */
LANE_MUST_USE
uint64_t lane_dispatches(uint32_t *table, size_t words, uint32_t hint, uint32_t times);

/*
 * Makes the ticks of a list of (task, hint) pairs, two words each, up to the first refused.
 * Returns LANE_COUNT: the ticks made; LANE_REFUSAL: 0, or the refusal: 3, 4, 13, 14 before any tick; 5, 9, 10, 11 at
 * the tick that it stopped at. Writes the table as the ticks made do, and three words of `answers` for each: the kind,
 * then the digit and the low part of the tag, 0 and 0 where there is none. Later words of `answers` stay.
 *
 * ```c
 * #include "lane.h"
 *
 * int main(void) {
 *     static uint32_t table[LANE_WORDS(8, 2)];
 *     size_t words = LANE_WORDS(8, 2);
 *     static const uint32_t list[] = {0, 0, 1, 0, 0, 0, 1, 0};
 *     uint32_t answers[LANE_ANSWER_WORDS * 4];
 *     if (lane_start(table, words, 8, 2, 0, 1) != 0 ||
 *         lane_begin(table, words, 0, 0, LANE_PUSH, LANE_LEFT, 0, 51) != 0 ||
 *         lane_begin(table, words, 1, 0, LANE_POP, LANE_RIGHT, 0, 0) != 0) {
 *         return 1;
 *     }
 *     uint64_t ran = lane_run(table, words, list, 8, answers, LANE_ANSWER_WORDS * 4);
 *     return LANE_REFUSAL(ran) == 0 && LANE_COUNT(ran) == 4 && answers[9] == LANE_GOING ? 0 : 1;
 * }
 * ```
 */
LANE_MUST_USE
uint64_t lane_run(uint32_t *table, size_t words, const uint32_t *list, size_t list_words, uint32_t *answers,
                  size_t answers_words);

/*
 * The same for the maintenance panel, whose list has 32 ticks at most: up to them it returns and writes what lane_run
 * does. Over them it gives 15, tested after 13 and before 14.
 */
LANE_MUST_USE
uint64_t lane_panel(uint32_t *table, size_t words, const uint32_t *list, size_t list_words, uint32_t *answers,
                    size_t answers_words);

/*
 * Reads the tags of `lane`, left end first. LANE_TAG_WORDS * LANE_MAX_BAGS(slots, lanes) words of `out` are enough for
 * every lane that lane_start began.
 * Returns LANE_COUNT: how many tags there are; LANE_REFUSAL: 0, or the refusal: 3, 4, 26, 11, 12. Writes two words of
 * `out` for each tag, the digit and the low part; later words stay.
 *
 * ```c
 * #include "lane.h"
 *
 * int main(void) {
 *     static uint32_t table[LANE_WORDS(8, 1)];
 *     size_t words = LANE_WORDS(8, 1);
 *     uint32_t tags[LANE_TAG_WORDS * LANE_MAX_BAGS(8, 2)];
 *     size_t out_words = LANE_TAG_WORDS * LANE_MAX_BAGS(8, 2);
 *     if (lane_start(table, words, 8, 1, 0, 2) != 0 ||
 *         LANE_KIND(lane_call(table, words, 0, 1, LANE_PUSH, LANE_LEFT, 51)) != LANE_PUSHED) {
 *         return 1;
 *     }
 *     if (LANE_COUNT(lane_read(table, words, 0, tags, out_words)) != 0 ||
 *         LANE_COUNT(lane_read(table, words, 1, tags, out_words)) != 1 || lane_tag(tags[0], tags[1]) != 51) {
 *         return 1;
 *     }
 *     return LANE_REFUSAL(lane_read(table, words, 2, tags, out_words)) == LANE_REFUSED_LANE ? 0 : 1;
 * }
 * ```
 */
LANE_MUST_USE
uint64_t lane_read(const uint32_t *table, size_t words, uint32_t lane, uint32_t *out, size_t out_words);

/*
 * Writes a page, from 0, of the shift sheet of `lane`.
 * Returns 0, or a refusal: 3, 4, 26, 11, 20, 21. 20 is for a page above 2, 21 for an `out` that is not LANE_PAGE_BYTES
 * long, be it shorter or longer; both come after the lane is walked as by lane_read (11). Writes every byte of `out`.
 *
 * ```c
 * #include <string.h>
 * #include "lane.h"
 *
 * int main(void) {
 *     static uint32_t table[LANE_WORDS(12, 1)];
 *     static uint8_t page[LANE_PAGE_BYTES];
 *     size_t words = LANE_WORDS(12, 1), line = LANE_PAGE_COLUMNS + 1;
 *     if (lane_start(table, words, 12, 1, 0, 1) != 0) {
 *         return 1;
 *     }
 *     for (uint64_t tag = 51; tag < 59; tag++) {
 *         if (LANE_KIND(lane_call(table, words, 0, 0, LANE_PUSH, LANE_RIGHT, tag)) != LANE_PUSHED) {
 *             return 1;
 *         }
 *     }
 *     if (lane_sheet(table, words, 0, 0, page, LANE_PAGE_BYTES) != 0 || memcmp(page, "LANE 0008 ", 10) != 0) {
 *         return 1;
 *     }
 *     return memcmp(page + line, "0000000051 ", 11) == 0 && memcmp(page + 2 * line, "0000000058  ", 12) == 0 ? 0 : 1;
 * }
 * ```
 */
LANE_MUST_USE
uint32_t lane_sheet(const uint32_t *table, size_t words, uint32_t lane, uint32_t page, uint8_t *out, size_t out_bytes);

/*
 * Takes a snapshot of a table: its words by columns, as many as the table has.
 * Returns 0, or a refusal: 22, 3, 4. Writes every word of `snapshot`.
 */
LANE_MUST_USE
uint32_t lane_take(const uint32_t *table, size_t words, uint32_t *snapshot, size_t snapshot_words);

/*
 * Puts a snapshot back. The table's words may be anything before; its slots, tasks, growth and lanes are then those of
 * the snapshot, which are others only where LANE_WORDS is the same. To take the table again gives the same snapshot.
 * Returns 0, or a refusal: 22; 3 and 4 of the table that the snapshot would give. Writes every word of the table.
 *
 * ```c
 * #include <string.h>
 * #include "lane.h"
 *
 * int main(void) {
 *     static uint32_t table[LANE_WORDS(8, 1)], snapshot[LANE_WORDS(8, 1)], again[LANE_WORDS(8, 1)];
 *     size_t words = LANE_WORDS(8, 1);
 *     if (lane_start(table, words, 8, 1, 0, 1) != 0 ||
 *         LANE_KIND(lane_call(table, words, 0, 0, LANE_PUSH, LANE_LEFT, 51)) != LANE_PUSHED ||
 *         lane_take(table, words, snapshot, words) != 0) {
 *         return 1;
 *     }
 *     for (int i = 0; i < 2; i++) { // twice the same answer
 *         if (lane_call(table, words, 0, 0, LANE_POP, LANE_RIGHT, 0) != ((uint64_t)LANE_BAG << 40 | 51) ||
 *             lane_put(snapshot, words, table, words) != 0) {
 *             return 1;
 *         }
 *     }
 *     if (lane_take(table, words, again, words) != 0 || memcmp(again, snapshot, sizeof snapshot) != 0) {
 *         return 1;
 *     }
 *     return lane_put(snapshot, words - 1, table, words) == LANE_REFUSED_SNAPSHOT ? 0 : 1;
 * }
 * ```
 */
LANE_MUST_USE
uint32_t lane_put(const uint32_t *snapshot, size_t snapshot_words, uint32_t *table, size_t words);

/*
 * Reads a tag list in packed decimal: `bytes` is LANE_TAG_BYTES times the number of its tags, 0 to 1,024 of them.
 * Returns LANE_COUNT: how many tags there are, for 18 the place, from 0, of the first tag that has a half byte above 9
 * or is zero; LANE_REFUSAL: 0, or the refusal: 17, 18, 19. 17 is for `bytes` that are no multiple of 5 or above 5,120,
 * 19 for under two words of `out` a tag.
 * Writes two words of `out` for each tag, the digit and the low part; later words stay.
 *
 * ```c
 * #include "lane.h"
 *
 * int main(void) {
 *     static const uint8_t list[] = {0x00, 0x00, 0x00, 0x00, 0x51, 0x12, 0x50, 0x00, 0x00, 0x0a};
 *     uint32_t tags[LANE_TAG_WORDS * 2];
 *     uint8_t again[LANE_TAG_BYTES];
 *     uint64_t read = lane_tags_read(list, LANE_TAG_BYTES * 2, tags, LANE_TAG_WORDS * 2);
 *     if (LANE_REFUSAL(read) != LANE_REFUSED_NO_TAG || LANE_COUNT(read) != 1) {
 *         return 1;
 *     }
 *     read = lane_tags_read(list, LANE_TAG_BYTES, tags, LANE_TAG_WORDS * 2);
 *     if (read != 1 || lane_tag(tags[0], tags[1]) != 51) {
 *         return 1;
 *     }
 *     return lane_tags_write(tags, LANE_TAG_WORDS, again, LANE_TAG_BYTES) == 1 && again[4] == 0x51 ? 0 : 1;
 * }
 * ```
 */
LANE_MUST_USE
uint64_t lane_tags_read(const uint8_t *list, size_t bytes, uint32_t *out, size_t out_words);

/*
 * Writes a tag list in packed decimal: `words` is LANE_TAG_WORDS times the number of its tags, 0 to 1,024 of them. What
 * is written is read as the same tags, and a list that was read is written as the same bytes.
 * Returns as lane_tags_read does. 17 is for `words` that are odd or above 2,048, 18 for a digit above 9, a low part
 * above 999,999,999 or zero, 19 for under five bytes of `out` a tag.
 * Writes five bytes of `out` for each tag; later bytes stay.
 */
LANE_MUST_USE
uint64_t lane_tags_write(const uint32_t *tags, size_t words, uint8_t *out, size_t out_bytes);

/*
 * Tests an airline list of so many bytes.
 * Returns LANE_REFUSAL: 0, or the refusal: 27, 28, 29; LANE_COUNT: with a refusal the first faulty line, from 1, else
 * 0. 27 is for a line that is neither form, for a 65th line, and for a list with no line, which is named as line 1; 28
 * for a code that an earlier line has; 29 for a closing line with a line after it, which is itself the faulty one, and
 * for a last line that is not a closing one. Of the numbers of that line the lowest is given. Writes nothing.
 *
 * ```c
 * #include "lane.h"
 *
 * int main(void) {
 *     static const uint8_t list[] = "(airline (code 125) left)\n"
 *                                   "(airline (code 020) right)\n"
 *                                   "(airline (code 125) right)\n"
 *                                   "(others right)\n";
 *     uint64_t checked = lane_list_check(list, sizeof list - 1);
 *     if (LANE_REFUSAL(checked) != LANE_REFUSED_CODE || LANE_COUNT(checked) != 3) {
 *         return 1;
 *     }
 *     checked = lane_list_check(list, 26 + 27); // cut after line 2, which closes no list
 *     return LANE_REFUSAL(checked) == LANE_REFUSED_CLOSING && LANE_COUNT(checked) == 2 ? 0 : 1;
 * }
 * ```
 */
LANE_MUST_USE
uint64_t lane_list_check(const uint8_t *list, size_t list_bytes);

/*
 * Gives an idle task a push on `lane`, at the end that an airline list names for the tag, `digit` and `argument`: that
 * of the line with its code, or else of the closing line. The whole list is tested first, wherever that line stands;
 * all else is as in lane_begin.
 * Returns LANE_REFUSAL: 0, or the refusal: 27, 28, 29 of the list, then 3, 4, 26, 5, 7, 11, 16, 8; LANE_COUNT: for 27,
 * 28 and 29 the line, as in lane_list_check, else 0. Writes the task's thirteen words.
 *
 * ```c
 * #include "lane.h"
 *
 * int main(void) {
 *     static const uint8_t list[] = "(airline (code 125) left)\n(others right)\n";
 *     static const uint64_t pushed[] = {1250000051, 9125000052}; // codes 250 and 125
 *     static uint32_t table[LANE_WORDS(8, 1)];
 *     size_t words = LANE_WORDS(8, 1);
 *     uint32_t tags[LANE_TAG_WORDS * 2];
 *     if (lane_start(table, words, 8, 1, 0, 1) != 0) {
 *         return 1;
 *     }
 *     for (int i = 0; i < 2; i++) {
 *         uint32_t digit = lane_tag_digit(pushed[i]), low = lane_tag_low(pushed[i]);
 *         uint64_t begun = lane_push_by_list(list, sizeof list - 1, table, words, 0, 0, digit, low);
 *         if (LANE_REFUSAL(begun) != 0 || LANE_KIND(lane_ticks(table, words, 0, 0, UINT32_MAX)) != LANE_PUSHED) {
 *             return 1;
 *         }
 *     }
 *     uint64_t reading = lane_read(table, words, 0, tags, LANE_TAG_WORDS * 2);
 *     return reading == 2 && lane_tag(tags[0], tags[1]) == pushed[1] ? 0 : 1;
 * }
 * ```
 */
LANE_MUST_USE
uint64_t lane_push_by_list(const uint8_t *list, size_t list_bytes, uint32_t *table, size_t words, uint32_t task,
                           uint32_t lane, uint32_t digit, uint32_t argument);

/*
 * Makes the window a fresh one, in which no tick is fed, that looks back on `width` ticks (1 to 4,096); its words may
 * be anything before.
 * Returns 0, or 23, if `width` is out of range or `words` is not LANE_WINDOW_WORDS(width). Writes every word.
 */
LANE_MUST_USE
uint32_t lane_window(uint32_t *window, size_t words, uint32_t width);

/*
 * Feeds a window the next tick that was made: its count, table[LANE_TICK_COUNT] after it, and its task's step before
 * and after (lane_step). Every tick is to be fed, of whatever task and lane, each once and in order. The first count
 * may be any number; each later one is the last one plus 1, with 0 after 4,294,967,295. Lost are the steps 5 to 8, 25
 * to 15, 48 or 51 to 39 and 62 to 0, and no others.
 * Returns LANE_COUNT: how many of the last `width` ticks fed lost their swap, this one included; LANE_REFUSAL: 0, or
 * the refusal: 23, 24. Writes four words of the window; with a refusal none. After a 24, as when lane_start or
 * lane_put set the count anew or ticks were made that were not fed, lane_window begins the window anew.
 *
 * ```c
 * #include "lane.h"
 *
 * int main(void) {
 *     uint32_t window[LANE_WINDOW_WORDS(3)];
 *     static const uint32_t steps[][2] = {{5, 8}, {3, 5}, {51, 39}, {51, 0}, {8, 67}, {62, 64}};
 *     static const uint32_t lost[] = {1, 1, 2, 1, 1, 0};
 *     if (lane_window(window, LANE_WINDOW_WORDS(3), 3) != 0) {
 *         return 1;
 *     }
 *     uint32_t count = UINT32_MAX - 2;
 *     for (int i = 0; i < 6; i++) {
 *         if (lane_feed(window, LANE_WINDOW_WORDS(3), count++, steps[i][0], steps[i][1]) != lost[i]) {
 *             return 1;
 *         }
 *     }
 *     uint64_t fed = lane_feed(window, LANE_WINDOW_WORDS(3), count + 1, 2, 3);
 *     return count == 3 && LANE_REFUSAL(fed) == LANE_REFUSED_COUNT ? 0 : 1;
 * }
 * ```
 */
LANE_MUST_USE
uint64_t lane_feed(uint32_t *window, size_t words, uint32_t count, uint32_t before, uint32_t after);

/* Those below are no part of the library and of its proofs: they are written here, over the calls above. */

/*
 * Whether a program with this header can work with a library of that lane_version: 1 where the format and the first
 * number are the same and the second number is not lower, else 0.
 */
static inline int lane_fits(uint64_t version) {
    uint32_t format = (uint32_t)(version >> 32), number = (uint32_t)(version & 0xffffffffu);
    return format == LANE_TABLE_FORMAT && number / 1000000 == LANE_VERSION_NUMBER / 1000000 &&
           number / 1000 >= LANE_VERSION_NUMBER / 1000;
}

/* The tag of a digit and a low part. */
static inline uint64_t lane_tag(uint32_t digit, uint32_t low) {
    return digit * UINT64_C(1000000000) + low;
}

/* The leading digit of a tag; of a number above LANE_MAX_TAG it is 10, which lane_begin refuses. */
static inline uint32_t lane_tag_digit(uint64_t tag) {
    return tag > LANE_MAX_TAG ? LANE_MAX_DIGIT + 1 : (uint32_t)(tag / 1000000000);
}

/* The low part of a tag. */
static inline uint32_t lane_tag_low(uint64_t tag) {
    return (uint32_t)(tag % 1000000000);
}

/* The tag at a place, from 0, of what lane_read and lane_tags_read write. */
static inline uint64_t lane_tag_at(const uint32_t *out, size_t place) {
    return lane_tag(out[LANE_TAG_WORDS * place], out[LANE_TAG_WORDS * place + 1]);
}

/*
 * READERS of a table, for those who do not keep its places. They test nothing: of words that no call has accepted they
 * give what stands there, and 0 for what is not there, a task too.
 *
 * ```c
 * #include "lane.h"
 *
 * int main(void) {
 *     static uint32_t table[LANE_WORDS(8, 3)];
 *     size_t words = LANE_WORDS(8, 3);
 *     if (lane_start(table, words, 8, 3, 0, 2) != 0 ||
 *         lane_begin(table, words, 1, 1, LANE_POP, LANE_RIGHT, 0, 0) != 0 ||
 *         LANE_KIND(lane_dispatch(table, words, 0)) != LANE_GOING) {
 *         return 1;
 *     }
 *     if (lane_slots(table, words) != 8 || lane_tasks(table, words) != 3 || lane_lanes(table, words) != 2 ||
 *         lane_tick_count(table, words) != 1 || lane_dispatched(table, words) != 1) {
 *         return 1;
 *     }
 *     if (lane_is_busy(table, words, 0) || !lane_is_busy(table, words, 1) || lane_is_busy(table, words, 3)) {
 *         return 1;
 *     }
 *     return lane_operation(table, words, 1) == LANE_POP && lane_side(table, words, 1) == LANE_RIGHT &&
 *            lane_lane(table, words, 1) == 1 && lane_step(table, words, 1) == 40 ? 0 : 1;
 * }
 * ```
 */

/* A word of the table; 0 where there is none. */
static inline uint32_t lane_word(const uint32_t *table, size_t words, size_t place) {
    return place < words ? table[place] : 0;
}

/* Where the record of a task begins; `words` where there is no such record. */
static inline size_t lane_record_place(const uint32_t *table, size_t words, uint32_t task) {
    size_t place = LANE_WORDS(lane_word(table, words, 0), task);
    int there = task < lane_word(table, words, 1) && place <= words && words - place >= LANE_RECORD_WORDS;
    return there ? place : words;
}

/* A word, from 0, of the record of a task. */
static inline uint32_t lane_record_word(const uint32_t *table, size_t words, uint32_t task, size_t word) {
    return lane_word(table, words, lane_record_place(table, words, task) + word);
}

/* The slots of a table. */
static inline uint32_t lane_slots(const uint32_t *table, size_t words) {
    return lane_word(table, words, 0);
}

/* The tasks of a table. */
static inline uint32_t lane_tasks(const uint32_t *table, size_t words) {
    return lane_word(table, words, 1);
}

/* The lanes of a table. */
static inline uint32_t lane_lanes(const uint32_t *table, size_t words) {
    return lane_word(table, words, 3);
}

/* The ticks made since lane_start, by whatever call; they go from 4,294,967,295 to 0. */
static inline uint32_t lane_tick_count(const uint32_t *table, size_t words) {
    return lane_word(table, words, LANE_TICK_COUNT);
}

/* The task last dispatched; after lane_start the one with the highest number. */
static inline uint32_t lane_dispatched(const uint32_t *table, size_t words) {
    return lane_word(table, words, LANE_DISPATCHED);
}

/* What a task was told to do, LANE_PUSH to LANE_REMOVE; 0 for a task that is idle. */
static inline uint32_t lane_operation(const uint32_t *table, size_t words, uint32_t task) {
    return lane_record_word(table, words, task, 0);
}

/* Whether a task is in the middle of a call, on whatever lane: 1 or 0. */
static inline int lane_is_busy(const uint32_t *table, size_t words, uint32_t task) {
    return lane_operation(table, words, task) != 0;
}

/* The end at which the call of a task is, LANE_LEFT or LANE_RIGHT; 0 for a task that is idle. */
static inline uint32_t lane_side(const uint32_t *table, size_t words, uint32_t task) {
    return lane_record_word(table, words, task, 2);
}

/* The lane on which the call of a task is; 0 for a task that is idle. */
static inline uint32_t lane_lane(const uint32_t *table, size_t words, uint32_t task) {
    return lane_record_word(table, words, task, 12);
}

/* The step at which a task stands, the number of a line of the figure; 0 for a task that is idle. */
static inline uint32_t lane_step(const uint32_t *table, size_t words, uint32_t task) {
    return lane_record_word(table, words, task, 1);
}

/* The record of a task, as it stands in the table; a fresh one where there is no such task. */
static inline struct lane_record lane_record_of(const uint32_t *table, size_t words, uint32_t task) {
    struct lane_record record = LANE_FRESH_RECORD;
    size_t place = lane_record_place(table, words, task);
    if (place < words) {
        record.operation = table[place];
        record.step = table[place + 1];
        record.side = table[place + 2];
        record.argument = table[place + 3];
        record.digit = table[place + 4];
        record.counted = table[place + 5];
        record.value = table[place + 6];
        record.value_digit = table[place + 7];
        record.a = table[place + 8];
        record.b = table[place + 9];
        record.c = table[place + 10];
        record.d = table[place + 11];
        record.lane = table[place + 12];
    }
    return record;
}

/*
 * Copies a record to the place of a task, whatever both are: LENT RECORDS, above, says when.
 * Returns 0, or LANE_REFUSED_TASK where there is no such place, and writes nothing then. Else writes the task's
 * thirteen words.
 */
LANE_MUST_USE
static inline uint32_t lane_record_copy(uint32_t *table, size_t words, uint32_t task,
                                        const struct lane_record *record) {
    size_t place = lane_record_place(table, words, task);
    if (place == words) {
        return LANE_REFUSED_TASK;
    }
    table[place] = record->operation;
    table[place + 1] = record->step;
    table[place + 2] = record->side;
    table[place + 3] = record->argument;
    table[place + 4] = record->digit;
    table[place + 5] = record->counted;
    table[place + 6] = record->value;
    table[place + 7] = record->value_digit;
    table[place + 8] = record->a;
    table[place + 9] = record->b;
    table[place + 10] = record->c;
    table[place + 11] = record->d;
    table[place + 12] = record->lane;
    return 0;
}

/*
 * Begins a call on a lane and ticks its task with hint 0 until it answers, while no other task gets a tick: one
 * lane_begin and one lane_ticks, each with its one test of the table. The argument is one number, of a push its tag.
 * Returns what lane_tick returns: the answer, or LANE_REFUSED with the refusal of the begin or of the tick. On a table
 * that lane_start began it is never LANE_GOING; on any other, LANE_GOING after LANE_MAX_TICKS_ALONE(slots) ticks
 * without an answer, and the task is still busy.
 */
LANE_MUST_USE
static inline uint64_t lane_call(uint32_t *table, size_t words, uint32_t task, uint32_t lane, uint32_t operation,
                                 uint32_t side, uint64_t argument) {
    uint32_t digit = lane_tag_digit(argument), low = lane_tag_low(argument);
    uint32_t refusal = lane_begin(table, words, task, lane, operation, side, digit, low);
    if (refusal != 0) {
        return (uint64_t)LANE_REFUSED << 40 | refusal;
    }
    return lane_ticks(table, words, task, 0, LANE_MAX_TICKS_ALONE(table[0]));
}

/*
 * Pushes a bag that was "full" at an end: tries again, and as long as the answer is "full", has one other end of the
 * table after another give back what it can, and tries again each time. To give back, an end takes the same bag by a
 * push, gives it out by a pop, and removes 0: whole calls of `task`, which is idle. Drain the table before
 * (lane_dispatches): the answers of the other tasks are the caller's.
 * Returns what lane_call returns for its last push at this end: LANE_PUSHED; or LANE_FULL, when with no task in a call
 * no other end has place for more than one bag; or LANE_REFUSED. On a table that lane_start did not begin it may also
 * stop at a call that answers what it should not, and returns that.
 *
 * ```c
 * #include "lane.h"
 *
 * int main(void) {
 *     static uint32_t table[LANE_WORDS(8, 1)];
 *     size_t words = LANE_WORDS(8, 1);
 *     if (lane_start(table, words, 8, 1, 0, 2) != 0 ||
 *         LANE_KIND(lane_call(table, words, 0, 0, LANE_ADD, LANE_LEFT, 3)) != LANE_YES || // all that were free
 *         LANE_KIND(lane_call(table, words, 0, 1, LANE_PUSH, LANE_RIGHT, 51)) != LANE_FULL) {
 *         return 1;
 *     }
 *     return LANE_KIND(lane_make_room(table, words, 0, 1, LANE_RIGHT, 51)) == LANE_PUSHED ? 0 : 1;
 * }
 * ```
 */
LANE_MUST_USE
static inline uint64_t lane_make_room(uint32_t *table, size_t words, uint32_t task, uint32_t lane, uint32_t side,
                                      uint64_t tag) {
    uint64_t answer = lane_call(table, words, task, lane, LANE_PUSH, side, tag);
    for (uint32_t end = 0; LANE_KIND(answer) == LANE_FULL && end / 2 < lane_lanes(table, words); end++) {
        uint32_t other = end / 2, at = end % 2;
        if (other == lane && at == side) {
            continue;
        }
        uint64_t given = lane_call(table, words, task, other, LANE_PUSH, at, tag);
        if (LANE_KIND(given) == LANE_FULL) {
            continue; /* nothing is spare there */
        }
        if (LANE_KIND(given) != LANE_PUSHED) {
            return given;
        }
        given = lane_call(table, words, task, other, LANE_POP, at, 0);
        if (given != ((uint64_t)LANE_BAG << 40 | tag)) {
            return given;
        }
        given = lane_call(table, words, task, other, LANE_REMOVE, at, 0);
        if (LANE_KIND(given) != LANE_YES && LANE_KIND(given) != LANE_NO) {
            return given;
        }
        answer = lane_call(table, words, task, lane, LANE_PUSH, side, tag);
    }
    return answer;
}

/*
 * Makes one tick as lane_tick does, and feeds it to the window.
 * Returns what lane_tick returns, and in `*fed` what lane_feed returns; a tick that is refused is not fed, and leaves
 * `*fed` as it is.
 *
 * ```c
 * #include "lane.h"
 *
 * int main(void) {
 *     static uint32_t table[LANE_WORDS(8, 2)];
 *     uint32_t window[LANE_WINDOW_WORDS(16)];
 *     size_t words = LANE_WORDS(8, 2), window_words = LANE_WINDOW_WORDS(16);
 *     uint64_t fed = 0;
 *     if (lane_start(table, words, 8, 2, 4, 1) != 0 || lane_window(window, window_words, 16) != 0 ||
 *         LANE_KIND(lane_call(table, words, 0, 0, LANE_ADD, LANE_RIGHT, 4)) != LANE_YES) {
 *         return 1;
 *     }
 *     for (uint32_t task = 0; task < 2; task++) {
 *         if (lane_begin(table, words, task, 0, LANE_PUSH, LANE_RIGHT, 0, 51 + task) != 0) {
 *             return 1;
 *         }
 *     }
 *     for (uint32_t turn = 0; turn < 6; turn++) {
 *         if (LANE_KIND(lane_watch_tick(table, words, turn % 2, 0, window, window_words, &fed)) == LANE_REFUSED) {
 *             return 1;
 *         }
 *     }
 *     return LANE_REFUSAL(fed) == 0 && LANE_COUNT(fed) == 1 && lane_step(table, words, 1) == 8 ? 0 : 1;
 * }
 * ```
 */
LANE_MUST_USE
static inline uint64_t lane_watch_tick(uint32_t *table, size_t words, uint32_t task, uint32_t hint, uint32_t *window,
                                       size_t window_words, uint64_t *fed) {
    uint32_t before = lane_step(table, words, task);
    uint64_t answer = lane_tick(table, words, task, hint);
    if (LANE_KIND(answer) != LANE_REFUSED) {
        uint32_t after = lane_step(table, words, task);
        *fed = lane_feed(window, window_words, table[LANE_TICK_COUNT], before, after);
    }
    return answer;
}

/*
 * Makes one dispatch as lane_dispatch does, and feeds its tick to the window.
 * Returns what lane_dispatch returns, and in `*fed` what lane_feed returns; with LANE_IDLE or LANE_REFUSED there is no
 * tick, and `*fed` stays as it is.
 */
LANE_MUST_USE
static inline uint64_t lane_watch_dispatch(uint32_t *table, size_t words, uint32_t hint, uint32_t *window,
                                           size_t window_words, uint64_t *fed) {
    uint32_t before[LANE_MAX_TASKS];
    for (uint32_t task = 0; task < LANE_MAX_TASKS; task++) {
        before[task] = lane_step(table, words, task);
    }
    uint64_t answer = lane_dispatch(table, words, hint);
    if (LANE_KIND(answer) < LANE_REFUSED) {
        uint32_t task = table[LANE_DISPATCHED];
        *fed = lane_feed(window, window_words, table[LANE_TICK_COUNT], before[task], lane_step(table, words, task));
    }
    return answer;
}

/*
 * A refusal in words, for a message: a constant text in English; "not refused" for 0, "unknown refusal" for a number
 * that no call gives.
 */
static inline const char *lane_refusal_text(uint32_t refusal) {
    switch (refusal) {
    case 0:
        return "not refused";
    case LANE_REFUSED_SIZES:
        return "slots, tasks or growth out of range, or fewer than two slots a lane";
    case LANE_REFUSED_LENGTH:
        return "not as many words as the sizes ask for";
    case LANE_REFUSED_TABLE:
        return "the words are no table";
    case LANE_REFUSED_SHAPE:
        return "the table's shape is broken";
    case LANE_REFUSED_TASK:
        return "no such task";
    case LANE_REFUSED_OPERATION:
        return "no such operation or side";
    case LANE_REFUSED_ARGUMENT:
        return "argument out of range";
    case LANE_REFUSED_BUSY:
        return "the task is busy";
    case LANE_REFUSED_HINT:
        return "the hint is not the number of a slot";
    case LANE_REFUSED_IDLE:
        return "the task is idle";
    case LANE_REFUSED_NO_SLOT:
        return "a link or register that is needed is none, or a lane has no end";
    case LANE_REFUSED_OUT:
        return "the out slice is too short for the tags";
    case LANE_REFUSED_LIST:
        return "a list of odd length, or of more than 4,096 ticks";
    case LANE_REFUSED_ANSWERS:
        return "fewer places for answers than ticks";
    case LANE_REFUSED_PANEL:
        return "a panel's list of more than 32 ticks";
    case LANE_REFUSED_TWICE:
        return "the tag is in a lane or in a busy push";
    case LANE_REFUSED_TAGS:
        return "not a whole number of tags, or more than 1,024";
    case LANE_REFUSED_NO_TAG:
        return "a place of the tag list holds no tag";
    case LANE_REFUSED_TAGS_OUT:
        return "the out slice is too short for the tag list";
    case LANE_REFUSED_PAGE:
        return "no such page of the sheet";
    case LANE_REFUSED_PAGE_OUT:
        return "the out slice is not as long as a page";
    case LANE_REFUSED_SNAPSHOT:
        return "the snapshot and the table differ in length";
    case LANE_REFUSED_WINDOW:
        return "the words are no window";
    case LANE_REFUSED_COUNT:
        return "the count does not follow the last one fed";
    case LANE_REFUSED_LANES:
        return "not one to four lanes";
    case LANE_REFUSED_LANE:
        return "no such lane";
    case LANE_REFUSED_LINE:
        return "a line of the airline list is neither form, is one too many, or is missing";
    case LANE_REFUSED_CODE:
        return "an earlier line of the airline list has the code";
    case LANE_REFUSED_CLOSING:
        return "the airline list closes before its end, or not at its end";
    default:
        return "unknown refusal";
    }
}

/*
 * What a tick, a dispatch, lane_call and the like return, in words: "going", "pushed", "bag" (LANE_VALUE has the tag),
 * "empty", "full", "yes", "no" and "idle"; for LANE_REFUSED what lane_refusal_text says; "unknown answer" for a number
 * that no call gives.
 *
 * ```c
 * #include <string.h>
 * #include "lane.h"
 *
 * int main(void) {
 *     static uint32_t table[LANE_WORDS(4, 1)];
 *     size_t words = LANE_WORDS(4, 1);
 *     if (lane_start(table, words, 4, 1, 0, 1) != 0) {
 *         return 1;
 *     }
 *     const char *said = lane_answer_text(lane_call(table, words, 0, 0, LANE_POP, LANE_LEFT, 0));
 *     const char *refused = lane_answer_text(lane_tick(table, words, 0, 0));
 *     return strcmp(said, "empty") == 0 && strcmp(refused, "the task is idle") == 0 ? 0 : 1;
 * }
 * ```
 */
static inline const char *lane_answer_text(uint64_t answer) {
    switch (LANE_KIND(answer)) {
    case LANE_GOING:
        return "going";
    case LANE_PUSHED:
        return "pushed";
    case LANE_BAG:
        return "bag";
    case LANE_EMPTY:
        return "empty";
    case LANE_FULL:
        return "full";
    case LANE_YES:
        return "yes";
    case LANE_NO:
        return "no";
    case LANE_REFUSED:
        return lane_refusal_text((uint32_t)LANE_VALUE(answer));
    case LANE_IDLE:
        return "idle";
    default:
        return "unknown answer";
    }
}

#ifdef __cplusplus
}
#endif

#endif
