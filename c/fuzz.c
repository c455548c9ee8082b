/*
 * Calls every function of the library with arbitrary sheets, tables, orders, scratch, run
 * records, answers and lines, and looks at the memory around and behind every call.
 *
 *     fuzz [ROUNDS [SEED]]
 *
 * Every buffer lies between two pages that cannot be touched, against the upper
 * or the lower one in turn, so that reading or writing past that end stops the
 * program at once. The bytes on its other side hold a pattern that is checked
 * after every call. Lent memory is compared with a copy, results are checked for
 * what the header promises with each number. Exit status 0 if all held, 1 if
 * not. POSIX; to be built with -fsanitize=address,undefined as well.
 */
#define _DEFAULT_SOURCE
#include "jasminebrace.h"

#include <inttypes.h>
#include <stdbool.h>
#include <stdio.h>
#include <stdlib.h>
#include <string.h>
#include <sys/mman.h>
#include <unistd.h>

enum {
    DEFAULT_ROUNDS = 100000, /* of twenty calls or so each */
    NUMBERS = JB_LAST_NUMBER + 1,
    END = -1,          /* of a list of numbers */
    GUARD = 0xC5,      /* the pattern around a buffer */
    GUARD_SIZE = 256,  /* bytes of it that are checked */
    MOST_SUPPLIES = 40,
    SEARCHED = 4, /* rounds for one in which least speeds are sought: each search plans many times */
    COUNTED = 2,  /* rounds for one in which orders are counted */
    MOST_LISTED = 5, /* rows of a table whose arrangements are listed and judged one by one */
    MOST_LENT = JB_SCRATCH + 300, /* numbers of scratch, some more than is asked for */
    LONGEST_INPUT = 3300, /* bytes, some more than a sheet has */
    MOST_ROOM = 3400,     /* bytes lent for a report, some more than one has */
    LONGEST_LINE = 800    /* bytes of a line to be read, and lent for a sentence, some more than one has */
};

/* ---- random numbers with a fixed seed ---- */

static uint64_t seed = 1;

static uint64_t random_word(void) {
    seed += UINT64_C(0x9E3779B97F4A7C15);
    uint64_t z = seed;
    z = (z ^ (z >> 30)) * UINT64_C(0xBF58476D1CE4E5B9);
    z = (z ^ (z >> 27)) * UINT64_C(0x94D049BB133111EB);
    return z ^ (z >> 31);
}

/* A number from least to most, both included. */
static uint32_t between(uint32_t least, uint32_t most) {
    return least + (uint32_t)(random_word() % ((uint64_t)most - least + 1));
}

static bool once_in(uint32_t times) {
    return between(1, times) == 1;
}

/* ---- what is checked ---- */

static void expect(bool holds, const char *what) {
    if (!holds) {
        printf("failed: %s\n", what);
        exit(1);
    }
}

static bool all_zero(const void *memory, size_t size) {
    static const unsigned char zeros[sizeof(jb_run)];
    return size == 0 || memcmp(memory, zeros, size) == 0;
}

/* ---- buffers between untouchable pages ---- */

typedef struct {
    unsigned char *room; /* the memory between the two pages */
    size_t room_size;
    unsigned char *start; /* the buffer, against one of the pages */
    size_t size;
    unsigned char *guard; /* the pattern on its other side */
    unsigned char *copy;  /* what was lent */
} buffer;

static buffer new_buffer(size_t most) {
    size_t page = (size_t)sysconf(_SC_PAGESIZE);
    size_t room_size = (most + GUARD_SIZE + page - 1) / page * page;
    int access = PROT_READ | PROT_WRITE;
    unsigned char *all = (unsigned char *)mmap(NULL, room_size + 2 * page, access, MAP_PRIVATE | MAP_ANONYMOUS, -1, 0);
    expect(all != MAP_FAILED, "memory for a buffer");
    expect(mprotect(all, page, PROT_NONE) == 0, "a page below a buffer");
    expect(mprotect(all + page + room_size, page, PROT_NONE) == 0, "a page above a buffer");
    buffer made = {all + page, room_size, NULL, 0, NULL, (unsigned char *)malloc(most)};
    expect(made.copy != NULL, "memory for a copy");
    return made;
}

/* Gives the buffer this size against one of its pages, filled with the pattern. */
static void *place(buffer *in, size_t size) {
    bool low = once_in(2);
    in->size = size;
    in->start = low ? in->room : in->room + in->room_size - size;
    in->guard = low ? in->start + size : in->start - GUARD_SIZE;
    memset(in->start, GUARD, size);
    memset(in->guard, GUARD, GUARD_SIZE);
    return in->start;
}

/* Remembers what the buffer holds when it is lent. */
static void lend(buffer *in) {
    memcpy(in->copy, in->start, in->size);
}

static void expect_guards(const buffer *in) {
    static unsigned char pattern[GUARD_SIZE];
    memset(pattern, GUARD, sizeof pattern);
    expect(memcmp(in->guard, pattern, GUARD_SIZE) == 0, "a byte beside a buffer was written");
}

static void expect_unwritten(const buffer *in) {
    expect_guards(in);
    expect(in->size == 0 || memcmp(in->copy, in->start, in->size) == 0, "lent memory was written");
}

/* ---- inputs ---- */

static uint32_t any_figure(void) {
    static const uint32_t edges[] = {0, 1, 2, 16, 17, 64, 65, 1000, 1001, 1000000, 1000001, 2000000, 2000001, UINT32_MAX};
    return once_in(2) ? edges[between(0, sizeof edges / sizeof *edges - 1)] : (uint32_t)random_word();
}

static void fill_with_any(void *memory, size_t size) {
    unsigned char *bytes = (unsigned char *)memory;
    for (size_t index = 0; index < size; index++) {
        bytes[index] = (unsigned char)random_word();
    }
}

/* Rows of a table; 64 for a count above that, 1 for none. */
static uint32_t rows_of(const jb_table *table) {
    return table->n > JB_ROWS ? JB_ROWS : table->n == 0 ? 1 : table->n;
}

/* Most rows of a table: few in most cases, so that many cases are tried. */
static uint32_t any_count(void) {
    return once_in(16) ? between(1, JB_ROWS) : between(1, 6);
}

/* What may be promised of a LO row: nothing, all of its work, or some. */
static uint32_t any_part(uint32_t work) {
    return once_in(3) ? 0 : once_in(4) ? work : between(0, work);
}

/* A row that one may follow: one above it, released no later, and HI if it is; 0 if the one that is picked is none. */
static uint32_t any_followed(const jb_table *table, uint32_t row) {
    const uint32_t followed = between(0, row - 1);
    if (followed == 0 || table->release[followed - 1] > table->release[row - 1]) {
        return 0;
    }
    return table->level[row - 1] == JB_HI && table->level[followed - 1] == JB_LO ? 0 : followed;
}

static void fill_accepted(jb_table *table) {
    memset(table, 0, sizeof *table);
    table->n = any_count();
    table->normal = once_in(8) ? between(1, JB_MOST_SPEED) : between(1, 4);
    table->degraded = between(1, table->normal);
    table->loading = once_in(2) ? 0 : once_in(4) ? between(0, JB_MOST_LOADING) : between(1, 3);
    uint32_t most_work = once_in(8) ? JB_MOST_WORK : 6;
    uint32_t most_window = once_in(8) ? JB_LAST_DEADLINE - 20 : (4 + table->loading) * table->n;
    for (uint32_t index = 0; index < table->n; index++) {
        table->release[index] = between(0, 20);
        table->work[index] = between(1, most_work);
        table->deadline[index] = table->release[index] + between(1, most_window);
        table->level[index] = between(0, 1);
        table->promised[index] = table->level[index] == JB_HI ? 0 : any_part(table->work[index]);
    }
    const bool waits = once_in(2);
    for (uint32_t row = 1; waits && row <= table->n; row++) {
        table->follows[row - 1] = any_followed(table, row);
    }
}

/* An accepted table, one with a few changed figures, or any words. */
static void fill_table(jb_table *table) {
    if (once_in(12)) {
        fill_with_any(table, sizeof *table);
        return;
    }
    fill_accepted(table);
    if (once_in(4)) {
        unsigned char *bytes = (unsigned char *)table;
        uint32_t figure = any_figure();
        uint32_t word = once_in(2) ? between(0, 3) : between(0, JB_TABLE_WORDS - 1);
        memcpy(bytes + 4 * word, &figure, sizeof figure);
    }
    if (once_in(12)) { /* one work unit more than a row has */
        uint32_t index = between(0, any_count() - 1);
        table->promised[index] = table->work[index] + 1;
    }
    if (once_in(6)) { /* a followed row that may be released later, LO, the row itself or anything */
        uint32_t row = between(1, rows_of(table));
        table->follows[row - 1] = once_in(8) ? any_figure() : between(0, row);
    }
}

/* The row stands in the first places of an order. */
static bool is_placed(const uint8_t *order, uint32_t places, uint32_t row) {
    return memchr(order, (int)row, places) != NULL;
}

/* Every followed row has a lower row number, so that no row follows itself over others. */
static bool are_waits_lower(const jb_table *table) {
    bool lower = true;
    for (uint32_t index = 0; index < JB_ROWS; index++) {
        lower = lower && (table->follows[index] == 0 || table->follows[index] <= index);
    }
    return lower;
}

/* Moves rows up, each to right above the first row that follows it from a higher place, until all waits are kept. */
static void keep_waits(const jb_table *table, uint8_t *order, uint32_t n) {
    uint32_t place = 0;
    while (place < n) {
        const uint32_t followed = table->follows[order[place] - 1];
        if (followed == 0 || is_placed(order, place, followed)) {
            place++;
        } else { /* the row that is moved up is looked at next: it may follow another one */
            uint8_t *at = (uint8_t *)memchr(order, (int)followed, n);
            memmove(order + place + 1, order + place, (size_t)(at - (order + place)));
            order[place] = (uint8_t)followed;
        }
    }
}

/* An order of a table in most cases, and one that keeps its waits in most of these. */
static void fill_order(const jb_table *table, uint8_t *order) {
    const uint32_t n = table->n <= JB_ROWS ? table->n : JB_ROWS;
    memset(order, 0, JB_ROWS);
    for (uint32_t place = 0; place < n; place++) {
        uint32_t other = between(0, place);
        order[place] = order[other];
        order[other] = (uint8_t)(place + 1);
    }
    if (!once_in(6) && are_waits_lower(table)) {
        keep_waits(table, order, n);
    }
    if (once_in(8)) {
        order[between(0, JB_ROWS - 1)] = (uint8_t)between(0, 66);
    }
    if (once_in(32)) {
        fill_with_any(order, JB_ROWS);
    }
}

/* A clock near its end, a slot before the deadline of some row, or an early one. */
static uint32_t any_clock(const jb_table *table) {
    const uint32_t deadline = table->deadline[between(0, JB_ROWS - 1) % (table->n == 0 ? 1 : table->n)];
    if (once_in(3) && deadline >= 1 && deadline <= JB_LAST_CLOCK) {
        return deadline - 1;
    }
    return once_in(4) ? between(JB_LAST_CLOCK - 10, JB_LAST_CLOCK + 1) : between(0, 60);
}

/* Slots that an open row may have used: up to K, or one less than its allowance, and no more than the clock. */
static uint32_t any_used(const jb_run *run, uint32_t row) {
    const uint32_t allowance = jb_allowance(&run->table, row);
    const uint32_t most = run->table.loading < JB_MOST_LOADING ? run->table.loading : JB_MOST_LOADING;
    const uint32_t used = once_in(3) && allowance != 0 ? allowance - 1 : between(0, most);
    return used < run->clock ? used : run->clock;
}

/* A row that is done, or has work missing: then it is open, or a LO row that was dropped at its deadline if the clock has reached that, or should have been. */
static void fill_row(jb_run *run, uint32_t index) {
    if (once_in(3) && run->clock > 0) {
        run->got[index] = run->table.work[index];
        run->closing[index] = between(1, run->clock);
        return;
    }
    run->got[index] = between(0, run->table.work[index]) / 2;
    run->used[index] = once_in(2) ? 0 : any_used(run, index + 1);
    if (run->table.level[index] == JB_LO && run->clock >= run->table.deadline[index] && !once_in(16)) {
        run->closing[index] = run->table.deadline[index];
    }
}

/* Most rows of the state are such that check 9 may pass. */
static void fill_state(jb_run *run) {
    memset((unsigned char *)run + offsetof(jb_run, clock), 0, sizeof *run - offsetof(jb_run, clock));
    run->clock = any_clock(&run->table);
    uint32_t n = run->table.n <= JB_ROWS ? run->table.n : JB_ROWS;
    for (uint32_t index = 0; index < n; index++) {
        fill_row(run, index);
    }
    if (once_in(8)) {
        run->closing[between(0, JB_ROWS - 1)] = between(0, run->clock);
    }
    if (once_in(8)) {
        fill_with_any((unsigned char *)run + offsetof(jb_run, clock), sizeof *run - offsetof(jb_run, clock));
    } else if (once_in(4)) {
        run->used[between(0, JB_ROWS - 1)] = any_figure();
    }
}

/* Puts a well-formed figure, often outside its limits, into some field of a sheet of n rows. */
static void change_field(uint8_t *sheet, uint32_t n) {
    static const char *const fields[] = {"       0", "       1", "       2", "       7", "      16", "      17", "      64",
                                         "      65", "    1000", "    1001", " 1000000", " 1000001", "12345678", "99999999"};
    uint32_t row = once_in(3) ? 0 : between(1, n);
    uint32_t line = row == 0 ? 0 : JB_FIRST_LINE + (row - 1) * JB_ROW_LINE;
    uint32_t field = between(0, row == 0 ? 3 : 5);
    memcpy(sheet + line + field * JB_FIELD, fields[between(0, sizeof fields / sizeof *fields - 1)], JB_FIELD);
}

/* Puts the number of a row, or of one above it, into its field of the followed row. */
static void change_wait(uint8_t *sheet, uint32_t n) {
    uint32_t row = between(1, n);
    jb_field(between(0, row), sheet + JB_FIRST_LINE + (row - 1) * JB_ROW_LINE + 5 * JB_FIELD);
}

/* A sheet, often damaged, or any bytes; gives its length. */
static size_t fill_input(uint8_t *input) {
    jb_table table;
    uint32_t length;
    if (once_in(8)) {
        length = once_in(2) ? between(0, 60) : between(0, LONGEST_INPUT);
        fill_with_any(input, length);
        return length;
    }
    fill_accepted(&table);
    expect(jb_write_table(&table, input, LONGEST_INPUT, &length) == JB_OK, "an accepted table has a sheet");
    for (uint32_t changes = once_in(3) ? between(1, 3) : 0; changes > 0; changes--) {
        change_field(input, table.n);
    }
    if (once_in(6)) {
        change_wait(input, table.n);
    }
    if (once_in(3)) {
        input[between(0, length - 1)] = (uint8_t)"\n 0129x"[between(0, 6)];
    }
    if (once_in(8)) {
        length = between(0, length);
    } else if (once_in(8)) {
        uint32_t longer = length + between(1, LONGEST_INPUT - JB_LONGEST_SHEET);
        memset(input + length, '1', longer - length);
        length = longer;
    }
    return length;
}

/* ---- the calls ---- */

static buffer input_at, sheet_at, report_at, table_at, order_at, run_at, supplies_at, text_at, left_at, word_at, row_at, slack_at, out_at, one_at;
static buffer line_at, places_at, answer_at; /* a sentence, the order that it tells, and what is read from one */
static buffer scratch_at, lowest_at; /* scratch for counting, and the counts of rows as lowest */

/* The functions, and the numbers that each can give. */
enum {
    READ,
    WRITE,
    PLAN,
    PLAN_WITHIN,
    ASK,
    LEAST_DEGRADED,
    LEAST_NORMAL,
    READ_LEAST_DEGRADED,
    READ_LEAST_NORMAL,
    JUDGE,
    FINISHES,
    REPORT,
    COUNT,
    FRESH,
    COMING,
    SLOT,
    FORWARD,
    COMMIT,
    PROGRAM,
    PLAN_SENTENCE,
    JUDGE_SENTENCE,
    READ_SENTENCE,
    FUNCTIONS
};
static const struct {
    const char *name;
    int numbers[NUMBERS];
} functions[FUNCTIONS] = {
    [READ] = {"read", {0, 1, 2, 3, 4, 11, 5, 12, 13, 14, 15, END}},
    [WRITE] = {"write", {0, 3, 4, 11, 5, 12, 13, 14, 15, 10, END}},
    [PLAN] = {"plan", {0, 3, 4, 11, 5, 12, 13, 14, 15, 7, END}},
    [PLAN_WITHIN] = {"ceiling", {0, 3, 4, 11, 5, 12, 13, 14, 15, 7, 19, END}},
    [ASK] = {"ask", {0, 1, 2, 3, 4, 11, 5, 12, 13, 14, 15, 7, END}},
    [LEAST_DEGRADED] = {"least G", {0, 3, 4, 11, 5, 12, 13, 14, 15, 7, END}},
    [LEAST_NORMAL] = {"least N", {0, 3, 4, 11, 5, 12, 13, 14, 15, 7, END}},
    [READ_LEAST_DEGRADED] = {"sheet's G", {0, 1, 2, 3, 4, 11, 5, 12, 13, 14, 15, 7, END}},
    [READ_LEAST_NORMAL] = {"sheet's N", {0, 1, 2, 3, 4, 11, 5, 12, 13, 14, 15, 7, END}},
    [JUDGE] = {"judge", {0, 3, 4, 11, 5, 12, 13, 14, 15, 6, END}},
    [FINISHES] = {"finishes", {0, 3, 4, 11, 5, 12, 13, 14, 15, 6, END}},
    [REPORT] = {"report", {0, 3, 4, 11, 5, 12, 13, 14, 15, 6, 10, END}},
    [COUNT] = {"count", {0, 3, 4, 11, 5, 12, 13, 14, 15, 20, 10, END}},
    [FRESH] = {"fresh", {0, 3, 4, 11, 5, 12, 13, 14, 15, 6, END}},
    [COMING] = {"coming", {0, 8, 9, END}},
    [SLOT] = {"slot", {0, 8, 9, END}},
    [FORWARD] = {"forward", {0, 8, 9, END}},
    [COMMIT] = {"commit", {0, 9, 3, 4, 11, 5, 12, 13, 14, 15, 6, 16, 17, 18, END}},
    [PROGRAM] = {"program", {0, 1, 2, 3, 4, 11, 5, 12, 13, 14, 15, 7, END}},
    [PLAN_SENTENCE] = {"told plan", {0, 10, END}},
    [JUDGE_SENTENCE] = {"verdict", {0, 10, END}},
    [READ_SENTENCE] = {"sentence", {0, 2, END}},
};
static uint64_t counts[FUNCTIONS][NUMBERS];
static uint64_t at_count[2]; /* ceilings that are the trials that a table takes, and one less */
static uint64_t no_orders, one_order, all_orders; /* counted tables with none, with one of several arrangements, and with all of several */
static uint64_t range_ends[2]; /* least speeds that are the first and the last of their range */
static uint64_t loading_slots, working_slots; /* slots worked one by one that brought no work by K, and other ones of a row */
static uint64_t dropped_for_need, dropped_running, dropped_resting; /* LO rows: for their allowance, at their deadlines as they ran, and as they did not */
static uint64_t waiting_rows, followers; /* rows that wait at a slot, and slots of rows that follow others */
static uint64_t late_starts, idle_starts; /* commits refused for a release alone, and those with idle slots before the first release */
static uint64_t broken_waits; /* orders that are refused for a wait alone */
static uint64_t still_sentences, no_sentences; /* damaged lines that are another answer's sentence, and those that are none */
static uint64_t tight_promises, longer_allowances; /* slacks that a promised part makes smaller, and allowances that it makes longer */

/* Counts an answer, whose number is one that the function can give. */
static void count(int function, uint32_t number) {
    const int *can = functions[function].numbers;
    while (*can != END && *can != (int)number) {
        can++;
    }
    expect(*can != END, functions[function].name);
    counts[function][number]++;
}

/* Lends room bytes of any values to be written to, and memory for the length of what is written. */
static uint8_t *lend_room(buffer *in, size_t room, uint32_t **length) {
    uint8_t *bytes = (uint8_t *)place(in, room);
    fill_with_any(bytes, room);
    lend(in);
    *length = (uint32_t *)place(&word_at, sizeof **length);
    return bytes;
}

/* What was written lies within the room, and nothing after it was; with a refusal, nothing at all. */
static void expect_written(const buffer *in, uint32_t number, uint32_t length) {
    expect_guards(in);
    expect_guards(&word_at);
    expect(number == JB_OK || length == 0, "no length with a refusal");
    expect(length <= in->size, "what is written is within the room");
    expect(memcmp(in->start + length, in->copy + length, in->size - length) == 0, "bytes after what is written stay");
}

/* Lends room bytes for the sheet of a table; gives the number. */
static uint32_t write_into(size_t room, const jb_table *table, uint32_t **length) {
    uint8_t *sheet = lend_room(&sheet_at, room, length);
    uint32_t number = jb_write(jb_table_words(table), sheet, room, *length);
    count(WRITE, number);
    expect_written(&sheet_at, number, **length);
    return number;
}

/* A sheet that was read comes back byte for byte from memory of just its length. */
static void expect_written_back(const jb_table *table, const uint8_t *sheet, size_t length) {
    uint32_t *written;
    expect(write_into(length, table, &written) == JB_OK, "the table of a sheet has a sheet");
    expect(*written == length && memcmp(sheet_at.start, sheet, length) == 0, "a sheet comes back byte for byte");
}

/* The searches for a least speed: over a table, over a sheet, and which speed is sought. */
static const struct {
    int of_table;
    int of_sheet;
    uint32_t (*least)(const jb_table *table, uint32_t *speed, uint8_t order[JB_ROWS]);
    uint32_t (*least_of_sheet)(const uint8_t *sheet, size_t length, uint32_t *speed, uint8_t order[JB_ROWS]);
    bool degraded;
} searches[] = {
    {LEAST_DEGRADED, READ_LEAST_DEGRADED, jb_least_degraded_speed, jb_read_least_degraded_speed, true},
    {LEAST_NORMAL, READ_LEAST_NORMAL, jb_least_normal_speed, jb_read_least_normal_speed, false},
};
enum { SEARCHES = sizeof searches / sizeof *searches };

/* What a search answered: its results lie between pages that cannot be touched. */
typedef struct {
    uint32_t number;
    const uint32_t *speed;
    const uint8_t *order;
} least_answer;

/* Results for a search, with any values. */
static least_answer place_least(void) {
    least_answer made = {0, (uint32_t *)place(&word_at, sizeof(uint32_t)), (uint8_t *)place(&out_at, JB_ROWS)};
    fill_with_any(word_at.start, word_at.size);
    fill_with_any(out_at.start, out_at.size);
    return made;
}

/* Nothing beside the results was written, and they are zeros with every number but 0. */
static void expect_least(const least_answer *answer, int function) {
    count(function, answer->number);
    expect_guards(&word_at);
    expect_guards(&out_at);
    expect(answer->number == JB_OK || (*answer->speed == 0 && all_zero(answer->order, JB_ROWS)), "no least speed: zeros");
}

/* The planner's number for the table with this speed in place of its own, and its order. */
static uint32_t plan_at(const jb_table *table, bool degraded, uint32_t speed, uint8_t order[JB_ROWS]) {
    jb_table other = *table;
    uint64_t left;
    *(degraded ? &other.degraded : &other.normal) = speed;
    return jb_plan_table(&other, order, &left);
}

/* The answer for an accepted table is that of the planner at the speed, at the one below it, and with 7 at the last of the range. */
static void expect_least_of(const least_answer *answer, const jb_table *table, bool degraded) {
    const uint32_t first = degraded ? 1 : table->degraded;
    const uint32_t last = degraded ? table->normal : JB_MOST_SPEED;
    uint8_t order[JB_ROWS];
    if (answer->number == JB_NO_ORDER) {
        expect(plan_at(table, degraded, last, order) == JB_NO_ORDER, "7 only if the largest speed has no order");
        return;
    }
    const uint32_t speed = *answer->speed;
    expect(answer->number == JB_OK && speed >= first && speed <= last, "the least speed is one of its range");
    expect(plan_at(table, degraded, speed, order) == JB_OK, "the least speed has an order");
    expect(memcmp(order, answer->order, JB_ROWS) == 0, "the order is the planner's at the least speed");
    expect(speed == first || plan_at(table, degraded, speed - 1, order) == JB_NO_ORDER, "the speed below has no order");
    range_ends[0] += speed == first;
    range_ends[1] += speed == last;
}

/* Both searches over the sheet in its buffer, which the reader answered with this number and table. */
static void try_least_of_sheet(uint32_t number, const jb_table *table) {
    for (int index = 0; index < SEARCHES; index++) {
        least_answer answer = place_least();
        answer.number = searches[index].least_of_sheet(input_at.start, input_at.size, (uint32_t *)word_at.start, out_at.start);
        expect_least(&answer, searches[index].of_sheet);
        expect_unwritten(&input_at);
        if (number == JB_OK) {
            expect_least_of(&answer, table, searches[index].degraded);
        } else {
            expect(answer.number == number, "the searches refuse the sheets that the reader refuses");
        }
    }
}

/* Both searches over the table lent before refuse what the planner refuses. */
static void try_least(void) {
    const jb_table *table = (const jb_table *)table_at.start;
    uint8_t order[JB_ROWS];
    uint64_t left;
    const uint32_t planned = jb_plan_table(table, order, &left);
    for (int index = 0; index < SEARCHES; index++) {
        least_answer answer = place_least();
        answer.number = searches[index].least(table, (uint32_t *)word_at.start, out_at.start);
        expect_least(&answer, searches[index].of_table);
        expect_unwritten(&table_at);
        if (planned == JB_OK || planned == JB_NO_ORDER) {
            expect_least_of(&answer, table, searches[index].degraded);
        } else {
            expect(answer.number == planned, "the searches refuse the tables that the planner refuses");
        }
    }
}

/* Asking for the sheet in its buffer, which the reader answered with this number and table, is reading and planning it. */
static void try_ask(uint32_t number, const jb_table *table) {
    jb_table *asked = (jb_table *)place(&one_at, sizeof *asked);
    uint8_t *order = (uint8_t *)place(&out_at, JB_ROWS);
    uint64_t *left = (uint64_t *)place(&left_at, sizeof *left);
    uint8_t planned[JB_ROWS];
    uint64_t rows = 0;
    const uint32_t expected = number == JB_OK ? jb_plan_table(table, planned, &rows) : number;
    const uint32_t got = jb_ask_sheet(input_at.start, input_at.size, asked, order, left);
    count(ASK, got);
    expect_unwritten(&input_at);
    expect_guards(&one_at);
    expect_guards(&out_at);
    expect_guards(&left_at);
    expect(got == expected && *left == rows, "asking answers as the reader and the planner do");
    if (got == JB_OK) {
        expect(memcmp(asked, table, sizeof *asked) == 0, "asking gives the sheet's table");
        expect(memcmp(order, planned, JB_ROWS) == 0, "asking gives the planner's order");
    } else {
        expect(all_zero(asked, sizeof *asked) && all_zero(order, JB_ROWS), "a refused asking leaves zeros");
    }
}

static void try_read(void) {
    static uint8_t input[LONGEST_INPUT];
    size_t length = fill_input(input);
    uint8_t *sheet = (uint8_t *)place(&input_at, length);
    memcpy(sheet, input, length);
    lend(&input_at);
    jb_table *table = (jb_table *)place(&table_at, sizeof *table);
    uint32_t number = jb_read_table(sheet, length, table);
    count(READ, number);
    expect_unwritten(&input_at);
    expect_guards(&table_at);
    expect(number == JB_OK || all_zero(table, sizeof *table), "a refused sheet leaves a table of zeros");
    if (number == JB_OK) {
        expect_written_back(table, sheet, length);
    }
    try_ask(number, table);
    if (once_in(SEARCHED)) {
        try_least_of_sheet(number, table);
    }

    uint8_t *text = (uint8_t *)place(&text_at, JB_PROGRAM_TEXT);
    uint32_t written = jb_program(sheet, length, text);
    expect_unwritten(&input_at);
    expect_guards(&text_at);
    expect(written >= 17 && written <= JB_PROGRAM_TEXT && (written - 17) % 25 == 0, "the text's length");
    expect(all_zero(text + written, JB_PROGRAM_TEXT - written), "zeros after the text");
    uint32_t said = (uint32_t)(text[7] - '0') + (text[6] == ' ' ? 0 : 10 * (uint32_t)(text[6] - '0'));
    count(PROGRAM, said);
    expect(number == JB_OK ? said == JB_OK || said == JB_NO_ORDER : said == number, "the program says what the reader says");
}

/* The table and the order that the other calls are lent. */
static void fill_lent(void) {
    jb_table *table = (jb_table *)place(&table_at, sizeof *table);
    fill_table(table);
    lend(&table_at);
    uint8_t *order = (uint8_t *)place(&order_at, JB_ROWS);
    fill_order(table, order);
    lend(&order_at);
}

static size_t sheet_length(const jb_table *table) {
    return JB_FIRST_LINE + JB_ROW_LINE * rows_of(table);
}

static size_t report_length(const jb_table *table) {
    return JB_PLACE_LINE * rows_of(table) + JB_TOTALS_LINE;
}

/* Memory of no byte, of about this length, and of any length. */
static size_t any_room(size_t length, uint32_t most) {
    switch (between(0, 4)) {
    case 0: return 0;
    case 1: return length - 1;
    case 2: return length;
    case 3: return length + 1;
    default: return between(0, most);
    }
}

/* The writer refuses what the planner refuses, and then whatever does not fit. */
static void try_write(void) {
    const jb_table *table = (const jb_table *)table_at.start;
    size_t needed = sheet_length(table);
    size_t room = any_room(needed, LONGEST_INPUT);
    uint32_t *length;
    uint32_t number = write_into(room, table, &length);
    expect_unwritten(&table_at);
    uint8_t order[JB_ROWS];
    uint64_t left;
    uint32_t planned = jb_plan_table(table, order, &left);
    if (planned != JB_OK && planned != JB_NO_ORDER) {
        expect(number == planned, "writer and planner refuse the same tables");
        return;
    }
    expect(number == (room < needed ? JB_NO_ROOM : JB_OK), "10 exactly if the room is short");
    if (number == JB_OK) {
        jb_table again;
        expect(*length == needed, "a line for each row");
        expect(jb_read_table(sheet_at.start, *length, &again) == JB_OK, "what is written is read");
        expect(memcmp(&again, table, sizeof again) == 0, "the sheet's table is the one written");
    }
}

/* No row of the order stands above the one that it follows. */
static bool are_waits_kept(const jb_table *table, const uint8_t *order) {
    bool kept = true;
    for (uint32_t place = 0; place < table->n; place++) {
        const uint32_t followed = table->follows[order[place] - 1];
        kept = kept && (followed == 0 || is_placed(order, place, followed));
    }
    return kept;
}

static void try_plan(void) {
    const jb_table *table = (const jb_table *)table_at.start;
    uint8_t *order = (uint8_t *)place(&out_at, JB_ROWS);
    uint64_t *left = (uint64_t *)place(&left_at, sizeof *left);
    uint32_t number = jb_plan_table(table, order, left);
    count(PLAN, number);
    expect_unwritten(&table_at);
    expect_guards(&out_at);
    expect_guards(&left_at);
    expect(number == JB_OK || all_zero(order, JB_ROWS), "an order of zeros");
    expect((number == JB_NO_ORDER) == (*left != 0), "rows are left with 7 alone");
    if (number == JB_OK) {
        uint32_t yes, row;
        int32_t slack;
        expect(jb_judge_order(table, order, &yes, &row, &slack) == JB_OK, "the judge takes the planner's order");
        expect(yes == 1 && slack >= 0, "the judge says yes to the planner's order");
        expect(are_waits_kept(table, order), "the planner's order keeps all waits");
    }
}

/* Plans the table lent before at a ceiling, in trials; gives the number. The results are in their buffers then. */
static uint32_t plan_within(uint32_t ceiling) {
    uint8_t *order = (uint8_t *)place(&out_at, JB_ROWS);
    uint64_t *left = (uint64_t *)place(&left_at, sizeof *left);
    uint32_t *trials = (uint32_t *)place(&word_at, sizeof *trials);
    const uint32_t number = jb_plan_table_within((const jb_table *)table_at.start, ceiling, order, left, trials);
    count(PLAN_WITHIN, number);
    expect_unwritten(&table_at);
    expect_guards(&out_at);
    expect_guards(&left_at);
    expect_guards(&word_at);
    return number;
}

/* The results are this order, these rows left and so many trials. */
static bool is_answer(const uint8_t order[JB_ROWS], uint64_t left, uint32_t trials) {
    return memcmp(out_at.start, order, JB_ROWS) == 0 && memcmp(left_at.start, &left, sizeof left) == 0 &&
           memcmp(word_at.start, &trials, sizeof trials) == 0;
}

/* A ceiling for a table that takes so many trials: 0, about that many, and any figure. */
static uint32_t any_ceiling(uint32_t takes) {
    switch (between(0, 4)) {
    case 0: return 0;
    case 1: return takes == 0 ? 0 : takes - 1;
    case 2: return takes;
    case 3: return between(0, takes + 1);
    default: return any_figure();
    }
}

/* At a ceiling the answer is the planner's if the table takes no more trials, else 19 with zeros and the ceiling as trials (rules 23.4, 23.5). */
static void try_plan_within(void) {
    static const uint8_t zeros[JB_ROWS];
    const jb_table *table = (const jb_table *)table_at.start;
    const uint32_t most = jb_most_trials(table->n);
    uint8_t order[JB_ROWS];
    uint64_t left;
    uint32_t takes;
    const uint32_t number = jb_plan_table(table, order, &left);
    const bool planned = number == JB_OK || number == JB_NO_ORDER;
    expect(plan_within(UINT32_MAX) == number, "the highest ceiling gives the planner's number");
    memcpy(&takes, word_at.start, sizeof takes);
    expect(is_answer(order, left, takes), "the highest ceiling gives the planner's order and rows left");
    expect(planned ? takes >= 1 && takes <= most : takes == 0, "the trials of a table");
    expect(number != JB_OK || takes >= table->n, "a trial at least for each place");
    expect(plan_within(most) == number && is_answer(order, left, takes), "the most trials of its rows are enough");
    const uint32_t ceiling = any_ceiling(takes);
    const uint32_t got = plan_within(ceiling);
    if (ceiling < takes) {
        expect(got == JB_OVER_CEILING && is_answer(zeros, 0, ceiling), "19, zeros and the ceiling where it is too low");
    } else {
        expect(got == number && is_answer(order, left, takes), "the planner's answer where the ceiling is high enough");
    }
    at_count[0] += planned && ceiling == takes;
    at_count[1] += planned && ceiling + 1 == takes;
}

/* A table for counting: that lent before, or one of about as many rows as are counted at most. */
static void fill_counted(jb_table *table) {
    memcpy(table, table_at.start, sizeof *table);
    if (once_in(3)) {
        const uint32_t rows = between(1, JB_MOST_COUNTED + 2);
        fill_accepted(table);
        const uint32_t loading = table->loading;
        for (uint32_t row = table->n + 1; row <= rows; row++) {
            table->release[row - 1] = between(0, 20);
            table->work[row - 1] = between(1, 6);
            table->deadline[row - 1] = table->release[row - 1] + between(1, (4 + loading) * rows);
            table->level[row - 1] = between(0, 1);
        }
        table->n = table->n < rows ? rows : table->n;
    }
}

/* Counts the orders of a table with so many numbers of any values lent; gives the number. The results are in their buffers then. */
static uint32_t count_orders(const jb_table *table, size_t numbers) {
    uint32_t *lent = (uint32_t *)place(&scratch_at, numbers * sizeof *lent);
    uint32_t *made = (uint32_t *)place(&word_at, sizeof *made);
    uint32_t *lowest = (uint32_t *)place(&lowest_at, JB_ROWS * sizeof *lowest);
    jb_table *copy = (jb_table *)place(&one_at, sizeof *copy);
    const bool counts_up = once_in(2);
    memcpy(copy, table, sizeof *copy);
    lend(&one_at);
    for (size_t index = 0; index < numbers; index++) {
        lent[index] = counts_up ? (uint32_t)index : (uint32_t)random_word();
    }
    lend(&scratch_at);
    const uint32_t number = jb_count_orders(copy, lent, numbers, made, lowest);
    count(COUNT, number);
    expect_unwritten(&one_at);
    expect_guards(&scratch_at);
    expect_guards(&word_at);
    expect_guards(&lowest_at);
    if (number != JB_OK) {
        expect_unwritten(&scratch_at);
        expect(*made == 0 && all_zero(lowest, JB_ROWS * sizeof *lowest), "nothing is counted with a refusal");
    }
    return number;
}

/* How many of the arrangements that begin with these places are correct, as the judge says; each row as lowest is counted too. */
static uint32_t list_orders(const jb_table *table, uint8_t order[JB_ROWS], uint32_t places, uint32_t lowest[JB_ROWS]) {
    uint32_t correct = 0;
    if (places == table->n) {
        uint32_t yes, row;
        int32_t slack;
        const bool is_correct = jb_judge_order(table, order, &yes, &row, &slack) == JB_OK && yes == 1;
        lowest[order[places - 1] - 1] += is_correct;
        return is_correct;
    }
    for (uint32_t row = 1; row <= table->n; row++) {
        if (!is_placed(order, places, row)) {
            order[places] = (uint8_t)row;
            correct += list_orders(table, order, places + 1, lowest);
            order[places] = 0;
        }
    }
    return correct;
}

/* The rows of a word as a table of their own; a row that follows one that is left out follows none there. */
static jb_table rows_alone(const jb_table *table, uint32_t word) {
    jb_table alone;
    uint32_t numbered[JB_ROWS + 1] = {0};
    memset(&alone, 0, sizeof alone);
    alone.normal = table->normal;
    alone.degraded = table->degraded;
    alone.loading = table->loading;
    for (uint32_t index = 0; index < table->n; index++) {
        if (word >> index & 1) {
            const uint32_t at = alone.n++;
            numbered[index + 1] = alone.n;
            alone.release[at] = table->release[index];
            alone.work[at] = table->work[index];
            alone.deadline[at] = table->deadline[index];
            alone.level[at] = table->level[index];
            alone.promised[at] = table->promised[index];
            alone.follows[at] = numbered[table->follows[index]];
        }
    }
    return alone;
}

/* The entry of some set of rows is the count of these rows as a table of their own (rule 25.3). */
static void expect_alone(const jb_table *table, const uint32_t *entries, size_t sets) {
    static uint32_t of_alone[JB_SCRATCH];
    const uint32_t word = between(1, (uint32_t)sets - 1);
    const jb_table alone = rows_alone(table, word);
    uint32_t made, lowest[JB_ROWS];
    expect(jb_count_orders(&alone, of_alone, JB_SCRATCH, &made, lowest) == JB_OK, "the rows of a set alone are counted");
    expect(made == entries[word], "the entry of a set is the count of its rows alone");
}

/* What is counted of a table: no order exactly where the planner answers 7, no more than all arrangements, the sums of rule 25.10, and what is listed. */
static void expect_counted(const jb_table *table, uint32_t planned) {
    const uint32_t *entries = (const uint32_t *)(const void *)scratch_at.start;
    const uint32_t *before = (const uint32_t *)(const void *)scratch_at.copy;
    const uint32_t *lowest = (const uint32_t *)(const void *)lowest_at.start;
    const size_t sets = (size_t)1 << table->n;
    const uint32_t all = jb_arrangements(table->n);
    uint32_t made, sum = 0;
    memcpy(&made, word_at.start, sizeof made);
    expect((made == 0) == (planned == JB_NO_ORDER), "0 exactly where the planner answers 7");
    expect(made <= all, "no more than all arrangements");
    for (uint32_t index = 0; index < JB_ROWS; index++) {
        sum += lowest[index];
        expect(index < table->n ? lowest[index] == 0 || lowest[index] == entries[(sets - 1) & ~((size_t)1 << index)] : lowest[index] == 0,
               "a row as lowest: the orders of all others, or none");
    }
    expect(sum == made && entries[sets - 1] == made && entries[0] == 1, "the sums, and no row at all");
    expect(memcmp(entries + sets, before + sets, scratch_at.size - sets * sizeof *entries) == 0, "the scratch after its sets is as it was");
    expect_alone(table, entries, sets);
    no_orders += made == 0;
    one_order += all > 1 && made == 1;
    all_orders += all > 1 && made == all;
    if (table->n <= MOST_LISTED) {
        uint8_t order[JB_ROWS] = {0};
        uint32_t listed[JB_ROWS] = {0};
        expect(list_orders(table, order, 0, listed) == made, "the count is what listing all arrangements gives");
        expect(memcmp(listed, lowest, sizeof listed) == 0, "and so are the lowest rows");
    }
}

/* Counting refuses what the planner refuses, then more than 12 rows, then fewer than 4,096 numbers (rule 11.13). */
static void try_count(void) {
    jb_table table;
    uint8_t order[JB_ROWS];
    uint64_t left;
    fill_counted(&table);
    const size_t numbers = once_in(2) ? JB_SCRATCH : any_room(JB_SCRATCH, MOST_LENT);
    const uint32_t planned = jb_plan_table(&table, order, &left);
    const uint32_t number = count_orders(&table, numbers);
    if (planned != JB_OK && planned != JB_NO_ORDER) {
        expect(number == planned, "counting refuses the tables that the planner refuses");
    } else if (table.n > JB_MOST_COUNTED) {
        expect(number == JB_TOO_MANY_ROWS, "20 for more than 12 rows, whatever is lent");
    } else {
        expect(number == (numbers < JB_SCRATCH ? JB_NO_ROOM : JB_OK), "10 exactly if fewer than 4,096 numbers are lent");
    }
    if (number == JB_OK) {
        expect_counted(&table, planned);
    }
}

/* The judge over the same rows as a list, as many as the table says up to all it has, says the same of rows that it takes. */
static void try_judge_list(const jb_table *table, const uint8_t *order, uint32_t number, uint32_t yes, uint32_t row, int32_t slack) {
    jb_row rows[JB_ROWS];
    size_t count = table->n < JB_ROWS ? table->n : JB_ROWS;
    for (size_t i = 0; i < count; i++) {
        rows[i] = (jb_row){table->release[i], table->work[i], table->deadline[i], table->level[i], table->promised[i], table->follows[i]};
    }
    uint32_t list_yes, list_row;
    int32_t list_slack;
    uint32_t list_number = jb_judge_list(rows, count, table->normal, table->degraded, table->loading, order, &list_yes, &list_row,
                                         &list_slack);
    if (number == JB_OK) {
        expect(list_number == JB_OK && list_yes == yes && list_row == row && list_slack == slack, "the judge says the same of a list");
    }
}

/* The same table without waits. */
static jb_table without_waits(const jb_table *table) {
    jb_table other = *table;
    memset(other.follows, 0, sizeof other.follows);
    return other;
}

/* The first clock at which a row has its promised part at exactly G, in slots: when a HI row with that work would be done in its place. */
static uint32_t promised_moment(const jb_table *table, const uint8_t *order, uint32_t row) {
    jb_table other = without_waits(table); /* a HI row follows no LO row, and waits change no finish */
    uint32_t finishes[JB_ROWS];
    other.level[row - 1] = JB_HI;
    other.work[row - 1] = table->promised[row - 1];
    other.promised[row - 1] = 0;
    expect(jb_worst_finishes(&other, order, finishes) == JB_OK, "worst finishes with the promised part as a row");
    return finishes[row - 1];
}

/* A row's slack by its worst finish and its promised part, in slots. */
static int64_t slack_of(const jb_table *table, const uint8_t *order, const uint32_t *finishes, uint32_t row) {
    const int64_t deadline = table->deadline[row - 1];
    const int64_t of_finish = deadline - finishes[row - 1];
    if (table->promised[row - 1] == 0) {
        return of_finish;
    }
    const int64_t of_promise = deadline - promised_moment(table, order, row);
    tight_promises += of_promise < of_finish;
    return of_promise < of_finish ? of_promise : of_finish;
}

/* Of an accepted table an order is taken exactly if it is taken without waits and keeps them, and then with the same worst finishes. */
static void expect_waits(const jb_table *table, const uint8_t *order, uint32_t number, const uint32_t *finishes) {
    const jb_table other = without_waits(table);
    uint32_t others[JB_ROWS];
    if (number != JB_OK && number != JB_NOT_AN_ORDER) {
        return;
    }
    if (jb_worst_finishes(&other, order, others) != JB_OK) {
        expect(number == JB_NOT_AN_ORDER, "waits make no order of one that is none");
        return;
    }
    expect((number == JB_OK) == are_waits_kept(table, order), "6 exactly if a wait is broken");
    expect(number != JB_OK || memcmp(others, finishes, sizeof others) == 0, "waits change no worst finish");
    broken_waits += number == JB_NOT_AN_ORDER;
}

static void try_judge(void) {
    const jb_table *table = (const jb_table *)table_at.start;
    const uint8_t *order = order_at.start;
    uint32_t *yes = (uint32_t *)place(&word_at, sizeof *yes);
    uint32_t *row = (uint32_t *)place(&row_at, sizeof *row);
    int32_t *slack = (int32_t *)place(&slack_at, sizeof *slack);
    uint32_t number = jb_judge_order(table, order, yes, row, slack);
    count(JUDGE, number);
    expect_unwritten(&table_at);
    expect_unwritten(&order_at);
    expect_guards(&word_at);
    expect_guards(&row_at);
    expect_guards(&slack_at);
    try_judge_list(table, order, number, *yes, *row, *slack);
    uint32_t *finishes = (uint32_t *)place(&out_at, JB_ROWS * sizeof *finishes);
    uint32_t other = jb_worst_finishes(table, order, finishes);
    count(FINISHES, other);
    expect_unwritten(&table_at);
    expect_unwritten(&order_at);
    expect_guards(&out_at);
    expect(other == number, "judge and finishes refuse alike");
    expect_waits(table, order, number, finishes);
    if (number != JB_OK) {
        expect(*yes == 0 && *row == 0 && *slack == 0, "a refused verdict is zero");
        expect(all_zero(finishes, JB_ROWS * sizeof *finishes), "refused finishes are zero");
        return;
    }
    expect(*yes == (*slack >= 0), "yes exactly if no slack is below zero");
    expect(*row >= 1 && *row <= table->n, "the row of least slack is a row");
    expect(slack_of(table, order, finishes, *row) == *slack, "slack is deadline less finish, or less the promised moment");
    expect(all_zero(finishes + table->n, (JB_ROWS - table->n) * sizeof *finishes), "zeros after the last row");
}

/* The text of a report in the making: what was added to it, and what its lines come to. */
typedef struct {
    char text[JB_LONGEST_REPORT + 1];
    size_t length;       /* bytes so far */
    int64_t needs;       /* slots */
    int64_t least_slack; /* slots */
    uint32_t late;       /* rows with a slack below zero */
} listing;

/* Adds the line of a place, which is looked up in the worst finishes, in slots. */
static void list_place(listing *to, const jb_table *table, const uint8_t *order, uint32_t place, const uint32_t *finishes) {
    uint32_t row = order[place - 1];
    uint32_t need = table->loading + (table->work[row - 1] + table->normal - 1) / table->normal;
    expect(jb_need(table, row) == need, "a row's need is the report's");
    longer_allowances += jb_allowance(table, row) > need;
    int64_t slack = slack_of(table, order, finishes, row);
    to->length += (size_t)snprintf(to->text + to->length, sizeof to->text - to->length,
                                   "%10" PRIu32 "%10" PRIu32 "%10" PRIu32 "%10" PRIu32 "%10" PRId64 "\n", place, row, need,
                                   finishes[row - 1], slack);
    to->needs += need;
    to->least_slack = slack < to->least_slack ? slack : to->least_slack;
    to->late += slack < 0;
}

/* The report that the worst finishes make. */
static listing list_all(const jb_table *table, const uint8_t *order) {
    listing made = {"", 0, 0, INT64_MAX, 0};
    uint32_t finishes[JB_ROWS];
    expect(jb_worst_finishes(table, order, finishes) == JB_OK, "worst finishes of what the judge takes");
    for (uint32_t place = 1; place <= table->n; place++) {
        list_place(&made, table, order, place, finishes);
    }
    made.length += (size_t)snprintf(made.text + made.length, sizeof made.text - made.length, "%10" PRId64 "%10" PRIu32 "\n",
                                    made.needs, made.late);
    return made;
}

/* The report refuses what the judge refuses, and then whatever does not fit; else it says what judge and finishes say. */
static void try_report(void) {
    const jb_table *table = (const jb_table *)table_at.start;
    const uint8_t *order = order_at.start;
    size_t needed = report_length(table);
    size_t room = any_room(needed, MOST_ROOM);
    uint32_t *length, yes, row;
    int32_t slack;
    uint8_t *report = lend_room(&report_at, room, &length);
    uint32_t number = jb_report(jb_table_words(table), order, report, room, length);
    count(REPORT, number);
    expect_unwritten(&table_at);
    expect_unwritten(&order_at);
    expect_written(&report_at, number, *length);
    uint32_t judged = jb_judge_order(table, order, &yes, &row, &slack);
    if (judged != JB_OK) {
        expect(number == judged, "report and judge refuse the same tables and orders");
        return;
    }
    expect(number == (room < needed ? JB_NO_ROOM : JB_OK), "10 exactly if the room is short");
    if (number == JB_OK) {
        listing made = list_all(table, order);
        expect(*length == needed && made.length == needed, "a line for each place and one more");
        expect(memcmp(report, made.text, needed) == 0, "the report is that of the worst finishes");
        expect(made.least_slack == slack && (made.late == 0) == (yes == 1), "the report is that of the judge");
    }
}

static void try_fresh(void) {
    const jb_table *table = (const jb_table *)table_at.start;
    jb_run *run = (jb_run *)place(&run_at, sizeof *run);
    uint32_t number = jb_fresh_run(table, order_at.start, run);
    count(FRESH, number);
    expect_unwritten(&table_at);
    expect_unwritten(&order_at);
    expect_guards(&run_at);
    if (number != JB_OK) {
        expect(all_zero(run, sizeof *run), "a refused record is zero");
        return;
    }
    expect(memcmp(&run->table, table, sizeof *table) == 0, "the record has the table");
    expect(memcmp(run->order, order_at.start, JB_ROWS) == 0, "the record has the order");
    expect(all_zero((unsigned char *)run + offsetof(jb_run, clock), 4 * JB_STATE_WORDS), "a fresh state is zero");
}

/* A record with the table and order lent before and any state. */
static jb_run *fill_run(void) {
    jb_run *run = (jb_run *)place(&run_at, sizeof *run);
    memcpy(&run->table, table_at.start, sizeof run->table);
    memcpy(run->order, order_at.start, JB_ROWS);
    fill_state(run);
    lend(&run_at);
    return run;
}

/* The work that a row has got after a slot of this supply: a loading slot brings none. */
static uint32_t got_after(const jb_run *before, uint32_t row, uint32_t supply) {
    const uint32_t got = before->got[row - 1];
    const uint32_t missing = before->table.work[row - 1] - got;
    const uint32_t brought = before->used[row - 1] < before->table.loading ? 0 : supply;
    return got + (brought < missing ? brought : missing);
}

/* A row that was open closes when it is done, for its allowance, or as a LO row at its deadline; any other stays as it was. */
static void expect_closing(const jb_run *before, const jb_run *run, uint32_t row, bool ran) {
    const uint32_t index = row - 1;
    const bool low = run->table.level[index] == JB_LO;
    const bool done = run->got[index] == run->table.work[index];
    const bool used_up = low && run->used[index] >= jb_allowance(&run->table, row);
    const bool reached = low && run->clock >= run->table.deadline[index];
    if (!ran) {
        expect(run->got[index] == before->got[index] && run->used[index] == before->used[index], "a row that does not run gets nothing");
    }
    if (!jb_is_open(before, row)) {
        expect(run->closing[index] == before->closing[index], "a closed row stays closed");
        return;
    }
    const bool closes = (ran && (done || used_up)) || reached;
    expect(run->closing[index] == (closes ? run->clock : 0), "a row closes at the new clock, if it does");
    expect(jb_is_dropped_for_deadline(run, row) == (reached && !done && !used_up), "dropped for its deadline, and not for its need");
    dropped_for_need += ran && used_up && !done;
    dropped_running += ran && jb_is_dropped_for_deadline(run, row);
    dropped_resting += !ran && reached;
}

/* What a slot may have changed: nothing with a refusal, the state alone with 0. */
static void expect_slot(const jb_run *run, uint32_t number, uint32_t row, uint32_t supply) {
    const jb_run *before = (const jb_run *)run_at.copy;
    if (number != JB_OK) {
        expect(row == 0, "no row with a refusal");
        expect_unwritten(&run_at);
        return;
    }
    expect_guards(&run_at);
    expect(memcmp(run, before, offsetof(jb_run, clock)) == 0, "table and order stay");
    expect(run->clock == before->clock + 1, "the clock moves by one slot");
    expect(row <= run->table.n, "the row run is a row or 0");
    for (uint32_t other = 1; other <= run->table.n; other++) {
        expect_closing(before, run, other, other == row);
    }
    uint32_t next;
    expect(jb_coming_row(run, &next) != JB_UNSOUND, "a slot leaves a sound record");
    for (uint32_t other = 1; other <= run->table.n; other++) {
        waiting_rows += (uint32_t)jb_is_waiting(before, other);
    }
    if (row != 0) {
        expect(!jb_is_waiting(before, row), "no slot runs a row that waits");
        followers += run->table.follows[row - 1] != 0;
        expect(run->got[row - 1] == got_after(before, row, supply), "work got grows by what the slot brings");
        expect(run->used[row - 1] == before->used[row - 1] + 1, "slots used grow by one");
        expect(jb_is_loading(before, row) == (jb_loaded(run, row) > jb_loaded(before, row)), "a loading slot is one more loaded");
        loading_slots += (uint32_t)jb_is_loading(before, row);
        working_slots += !jb_is_loading(before, row);
    }
}

/* Some LO row is open although the clock has reached its deadline. */
static bool any_low_row_late(const jb_run *run) {
    bool any = false;
    for (uint32_t row = 1; row <= run->table.n && row <= JB_ROWS; row++) {
        any = any || (run->table.level[row - 1] == JB_LO && jb_is_open(run, row) && jb_is_late(run, row));
    }
    return any;
}

static void try_slot(void) {
    jb_run *run = fill_run();
    uint32_t *coming = (uint32_t *)place(&word_at, sizeof *coming);
    uint32_t expected = jb_coming_row(run, coming);
    count(COMING, expected);
    expect(expected == JB_UNSOUND || !any_low_row_late(run), "9 if a LO row is open at its deadline");
    expect_unwritten(&run_at);
    expect_guards(&word_at);
    uint32_t supply = any_figure();
    uint32_t *row = (uint32_t *)place(&row_at, sizeof *row);
    uint32_t number = jb_work_slot(run, supply, row);
    count(SLOT, number);
    expect_guards(&row_at);
    expect(number == expected && *row == *coming, "the slot answers as the coming slot did");
    expect_slot(run, number, *row, supply);

    jb_run *again = (jb_run *)place(&one_at, sizeof *again);
    memcpy(again, run_at.copy, sizeof *again);
    uint32_t *supplies = (uint32_t *)place(&supplies_at, sizeof *supplies);
    *supplies = supply;
    lend(&supplies_at);
    uint32_t worked;
    expect(jb_work_forward(again, supplies, 1, &worked) == number, "forward over one supply is one slot");
    expect(worked == (number == JB_OK), "one slot is worked, or none");
    expect(memcmp(again, run, sizeof *run) == 0, "forward over one supply leaves the same record");
    expect_unwritten(&supplies_at);
    expect_guards(&one_at);
}

static void try_forward(void) {
    jb_run *run = fill_run();
    uint32_t length = between(0, MOST_SUPPLIES);
    uint32_t *supplies = (uint32_t *)place(&supplies_at, length * sizeof *supplies);
    for (uint32_t index = 0; index < length; index++) {
        supplies[index] = once_in(4) ? any_figure() : between(0, 5);
    }
    lend(&supplies_at);
    uint32_t row;
    bool unsound = jb_coming_row(run, &row) == JB_UNSOUND;
    uint32_t *worked = (uint32_t *)place(&word_at, sizeof *worked);
    uint32_t number = jb_work_forward(run, supplies, length, worked);
    count(FORWARD, number);
    expect((number == JB_UNSOUND) == unsound, "forward and the coming slot find the same records unsound");
    expect_unwritten(&supplies_at);
    expect_guards(&word_at);
    expect_guards(&run_at);
    const jb_run *before = (const jb_run *)run_at.copy;
    expect(memcmp(run, before, offsetof(jb_run, clock)) == 0, "table and order stay");
    expect(run->clock == before->clock + *worked, "the clock moves by the slots worked");
    switch (number) {
    case JB_OK: expect(*worked == length, "all slots are worked"); break;
    case JB_CLOCK_OVER: expect(run->clock == JB_LAST_CLOCK && *worked < length, "8 at the last clock alone"); break;
    default: expect_unwritten(&run_at); break;
    }
}

/* A proposal in place of the table and the order lent before: planned in most cases, and to start later in some. */
static void fill_proposal(void) {
    jb_table *table = (jb_table *)place(&table_at, sizeof *table);
    uint8_t *order = (uint8_t *)place(&order_at, JB_ROWS);
    uint64_t left;
    fill_table(table);
    if (once_in(4) || jb_plan_table(table, order, &left) != JB_OK) {
        fill_order(table, order);
    }
    if (!once_in(3)) {
        jb_start_later(table, once_in(8) ? any_figure() : between(0, 40));
    }
    lend(&table_at);
    lend(&order_at);
}

/* A record whose rows are all done, but for one that is open in some cases; its clock is an early one, or the last. */
static void fill_closed(jb_run *run) {
    memset(run, 0, sizeof *run);
    fill_accepted(&run->table);
    fill_order(&run->table, run->order);
    run->clock = once_in(16) ? JB_LAST_CLOCK : between(1, 40);
    for (uint32_t index = 0; index < run->table.n; index++) {
        run->got[index] = run->table.work[index];
        run->used[index] = between(0, run->clock);
        run->closing[index] = between(1, run->clock);
    }
    if (once_in(6)) {
        const uint32_t index = between(0, run->table.n - 1);
        run->got[index] = run->used[index] = run->closing[index] = 0;
    }
}

/* A record of another table than the proposal's, whose rows are closed in most cases. */
static jb_run *fill_held(void) {
    jb_run *run = (jb_run *)place(&run_at, sizeof *run);
    if (once_in(4)) {
        fill_table(&run->table);
        fill_order(&run->table, run->order);
        fill_state(run);
    } else {
        fill_closed(run);
    }
    lend(&run_at);
    return run;
}

/* What a commit has to answer, put together from other calls. */
static uint32_t commit_number(const jb_run *run, const jb_table *table, const uint8_t *order) {
    uint32_t yes, row;
    int32_t slack;
    if (jb_coming_row(run, &row) == JB_UNSOUND) {
        return JB_UNSOUND;
    }
    const uint32_t number = jb_judge_order(table, order, &yes, &row, &slack);
    if (number != JB_OK || yes == 0) {
        return number != JB_OK ? number : JB_NOT_CORRECT;
    }
    if (jb_first_open(run) != 0) {
        return JB_ROW_OPEN;
    }
    return jb_first_released_before(table, run->clock) != 0 ? JB_RELEASED_BEFORE : JB_OK;
}

/* A committed record is the fresh one of the same table and order after as many idle slots as the clock shows. */
static void expect_idled(const jb_run *run) {
    static uint32_t supplies[64];
    jb_run fresh;
    uint32_t worked;
    expect(jb_fresh_run(&run->table, run->order, &fresh) == JB_OK, "a committed table and order make a fresh record");
    if (run->clock <= sizeof supplies / sizeof *supplies) {
        expect(jb_work_forward(&fresh, supplies, run->clock, &worked) == JB_OK, "the slots before the commit");
        expect(memcmp(run, &fresh, sizeof fresh) == 0, "a committed record is a fresh one with idle slots before");
        idle_starts += jb_first_released_before(&run->table, run->clock + 1) == 0;
    }
}

static void try_commit(void) {
    fill_proposal();
    jb_run *run = fill_held();
    const jb_table *table = (const jb_table *)table_at.start;
    const uint32_t expected = commit_number(run, table, order_at.start);
    const uint32_t number = jb_commit_sheet(run, table, order_at.start);
    count(COMMIT, number);
    expect_unwritten(&table_at);
    expect_unwritten(&order_at);
    expect_guards(&run_at);
    expect(number == expected, "a commit answers as the coming slot, the judge, the rows and the releases say");
    if (number != JB_OK) {
        expect_unwritten(&run_at);
        late_starts += number == JB_RELEASED_BEFORE;
        return;
    }
    const jb_run *before = (const jb_run *)run_at.copy;
    expect(memcmp(&run->table, table, sizeof *table) == 0, "the record has the proposal's table");
    expect(memcmp(run->order, order_at.start, JB_ROWS) == 0, "the record has the proposal's order");
    expect(run->clock == before->clock, "a commit keeps the clock");
    expect(all_zero(run->got, sizeof *run - offsetof(jb_run, got)), "all rows are open and empty");
    expect_idled(run);
}

/* A table that starts later is judged and planned as it was, as long as its deadlines are within their limit. */
static void try_later(void) {
    const jb_table *table = (const jb_table *)table_at.start;
    jb_table later = *table;
    uint32_t yes[2], row[2], number[2];
    int32_t slack[2];
    uint8_t order[2][JB_ROWS];
    uint64_t left[2];
    jb_start_later(&later, once_in(4) ? between(0, JB_LAST_CLOCK) : between(0, 1000));
    number[0] = jb_judge_order(table, order_at.start, &yes[0], &row[0], &slack[0]);
    number[1] = jb_judge_order(&later, order_at.start, &yes[1], &row[1], &slack[1]);
    expect(number[0] != JB_OK || number[1] == JB_OK || number[1] == JB_ROW_LIMITS, "a later start is refused for deadlines alone");
    if (number[0] == JB_OK && number[1] == JB_OK) {
        expect(yes[0] == yes[1] && row[0] == row[1] && slack[0] == slack[1], "a later start is judged alike");
        expect(jb_plan_table(table, order[0], &left[0]) == jb_plan_table(&later, order[1], &left[1]), "a later start is planned alike");
        expect(memcmp(order[0], order[1], JB_ROWS) == 0 && left[0] == left[1], "a later start has the same order");
    }
}

/* The planner's number for a table of n such rows with loading. */
static uint32_t number_with(uint32_t n, uint32_t normal, uint32_t degraded, uint32_t loading, jb_row row) {
    jb_table table;
    uint8_t order[JB_ROWS];
    uint64_t left;
    memset(&table, 0, sizeof table);
    table.n = n;
    table.normal = normal;
    table.degraded = degraded;
    table.loading = loading;
    for (uint32_t index = 0; index < n && index < JB_ROWS; index++) {
        table.release[index] = row.release;
        table.work[index] = row.work;
        table.deadline[index] = row.deadline;
        table.level[index] = row.level;
        table.promised[index] = row.promised;
        table.follows[index] = row.follows;
    }
    return jb_plan_table(&table, order, &left);
}

/* The same without loading. */
static uint32_t number_of(uint32_t n, uint32_t normal, uint32_t degraded, jb_row row) {
    return number_with(n, normal, degraded, 0, row);
}

/* The header's limits are the library's: a figure at its limit is taken, and one past it is refused. */
static void try_limits(void) {
    const uint32_t last = JB_LAST_DEADLINE;
    expect(number_of(1, 1, 1, (jb_row){0, 1, last, JB_LO, 0, 0}) == JB_OK, "one row, speeds of 1, the latest deadline");
    expect(number_of(1, 1, 1, (jb_row){0, 1, last + 1, JB_LO, 0, 0}) == JB_ROW_LIMITS, "a later deadline");
    expect(number_of(1, 1, 1, (jb_row){last - 1, 1, last, JB_HI, 0, 0}) == JB_OK, "the latest release");
    expect(number_of(1, 1, 1, (jb_row){last, 1, last, JB_HI, 0, 0}) == JB_ROW_LIMITS, "a release at the deadline");
    expect(number_of(1, 1, 1, (jb_row){0, 1, 1, JB_HI + 1, 0, 0}) == JB_ROW_LIMITS, "a level above HI");
    expect(number_of(1, 1, 1, (jb_row){0, JB_MOST_WORK, last, JB_HI, 0, 0}) == JB_OK, "the largest work");
    expect(number_of(1, 2, 2, (jb_row){0, JB_MOST_WORK + 1, last, JB_HI, 0, 0}) == JB_ROW_LIMITS, "a larger work");
    expect(number_of(1, 1, 1, (jb_row){0, 0, last, JB_HI, 0, 0}) == JB_ROW_LIMITS, "no work");
    expect(number_of(1, JB_MOST_SPEED, JB_MOST_SPEED, (jb_row){0, 1, 1, JB_LO, 0, 0}) == JB_OK, "the largest speeds");
    expect(number_of(1, JB_MOST_SPEED + 1, 1, (jb_row){0, 1, 1, JB_LO, 0, 0}) == JB_SPEEDS, "a larger speed");
    expect(number_of(1, 1, 2, (jb_row){0, 1, 1, JB_LO, 0, 0}) == JB_SPEEDS, "G above N");
    expect(number_of(1, 1, 0, (jb_row){0, 1, 1, JB_LO, 0, 0}) == JB_SPEEDS, "no G");
    expect(number_of(JB_ROWS, 1, 1, (jb_row){0, 1, JB_ROWS, JB_LO, 0, 0}) == JB_OK, "the most rows");
    expect(number_of(JB_ROWS + 1, 1, 1, (jb_row){0, 1, JB_ROWS, JB_LO, 0, 0}) == JB_ROW_COUNT, "one row more");
    expect(number_of(0, 1, 1, (jb_row){0, 1, 1, JB_LO, 0, 0}) == JB_ROW_COUNT, "no row");
    /* At G 1 and N 2 a LO row of four work units is dropped after two slots and a HI row takes all four. */
    expect(number_of(1, 2, 1, (jb_row){0, 4, 2, JB_LO, 0, 0}) == JB_OK, "LO is tried at N");
    expect(number_of(1, 2, 1, (jb_row){0, 4, 2, JB_HI, 0, 0}) == JB_NO_ORDER, "HI is tried at G");
    /* The longest loading and one slot of work take 17 slots. */
    const uint32_t most = JB_MOST_LOADING;
    expect(number_with(1, 1, 1, most, (jb_row){0, 1, most + 1, JB_LO, 0, 0}) == JB_OK, "the longest loading");
    expect(number_with(1, 1, 1, most, (jb_row){0, 1, most, JB_LO, 0, 0}) == JB_NO_ORDER, "a slot too few for the longest loading");
    expect(number_with(1, 1, 1, most + 1, (jb_row){0, 1, last, JB_LO, 0, 0}) == JB_LOADING, "a longer loading");
    expect(number_with(1, 1, 1, UINT32_MAX, (jb_row){0, 1, last, JB_LO, 0, 0}) == JB_LOADING, "the largest figure as loading");
    expect(number_with(1, 1, 1, most + 1, (jb_row){last, 1, last, JB_LO, 0, 0}) == JB_LOADING, "11 before 5");
    expect(number_with(1, 1, 2, most + 1, (jb_row){0, 1, last, JB_LO, 0, 0}) == JB_SPEEDS, "4 before 11");
    expect(number_with(0, 1, 1, most + 1, (jb_row){0, 1, last, JB_LO, 0, 0}) == JB_ROW_COUNT, "3 before 11");
    /* At N 2 and G 1 four work units take 2 slots, and with K 3 the LO row is tried by 5 slots and the HI row by 7. */
    expect(number_with(1, 2, 1, 3, (jb_row){0, 4, 5, JB_LO, 0, 0}) == JB_OK, "LO is tried at N with loading");
    expect(number_with(1, 2, 1, 3, (jb_row){0, 4, 4, JB_LO, 0, 0}) == JB_NO_ORDER, "LO needs its loading");
    expect(number_with(1, 2, 1, 3, (jb_row){0, 4, 7, JB_HI, 0, 0}) == JB_OK, "HI is tried at G with loading");
    expect(number_with(1, 2, 1, 3, (jb_row){0, 4, 6, JB_HI, 0, 0}) == JB_NO_ORDER, "HI needs its loading");
    /* Of six work units, which take 3 slots at N 2, three are promised by 3 slots at G 1, and four by 4; with K 1 it is a slot more. */
    expect(number_of(1, 2, 1, (jb_row){0, 6, 3, JB_LO, 3, 0}) == JB_OK, "a promised part in time");
    expect(number_of(1, 2, 1, (jb_row){0, 6, 3, JB_LO, 4, 0}) == JB_NO_ORDER, "a promised part a slot too late");
    expect(number_of(1, 2, 1, (jb_row){0, 6, 4, JB_LO, 4, 0}) == JB_OK, "a larger promised part in time");
    expect(number_with(1, 2, 1, 1, (jb_row){0, 6, 5, JB_LO, 4, 0}) == JB_OK, "a promised part with its loading");
    expect(number_with(1, 2, 1, 1, (jb_row){0, 6, 4, JB_LO, 4, 0}) == JB_NO_ORDER, "a promised part needs its loading");
    expect(number_of(1, 2, 1, (jb_row){0, 6, 6, JB_LO, 6, 0}) == JB_OK, "all work is promised");
    expect(number_of(1, 2, 1, (jb_row){0, 6, 6, JB_LO, 7, 0}) == JB_PROMISED, "more than all work is promised");
    expect(number_of(1, 2, 1, (jb_row){0, 6, 6, JB_HI, 1, 0}) == JB_PROMISED, "a part of a HI row is promised");
    expect(number_of(1, 2, 1, (jb_row){0, JB_MOST_WORK, last, JB_LO, JB_MOST_WORK, 0}) == JB_OK, "the largest promised part");
    expect(number_of(1, 2, 1, (jb_row){0, 1, last, JB_LO, UINT32_MAX, 0}) == JB_PROMISED, "the largest figure as promised part");
    expect(number_of(2, 2, 1, (jb_row){6, 6, 6, JB_HI, 1, 0}) == JB_ROW_LIMITS, "5 before 12");
    expect(number_with(1, 2, 1, most + 1, (jb_row){0, 6, 6, JB_HI, 1, 0}) == JB_LOADING, "11 before 12");
    /* Rows alike of which each has the same figure for the row that it follows: row 1 follows itself, or one below it. */
    expect(number_of(2, 2, 1, (jb_row){0, 1, 6, JB_LO, 0, 1}) == JB_NOT_LOWER, "a row follows itself");
    expect(number_of(2, 2, 1, (jb_row){0, 1, 6, JB_LO, 0, 2}) == JB_NOT_LOWER, "a row follows one below it");
    expect(number_of(2, 2, 1, (jb_row){0, 1, 6, JB_LO, 0, JB_ROWS + 1}) == JB_NOT_LOWER, "a row follows one beyond all");
    expect(number_of(2, 2, 1, (jb_row){0, 1, 6, JB_LO, 0, UINT32_MAX}) == JB_NOT_LOWER, "a row follows the largest figure");
    expect(number_of(2, 2, 1, (jb_row){0, 1, 6, JB_HI, 1, 1}) == JB_PROMISED, "12 before 13");
}

/* The numbers that try_limits does not meet, and verdicts on a list of the most rows whose last is the tightest. */
static void try_numbers(void) {
    static const uint8_t sheet[] = "       1       1       1       x\n";
    static const uint8_t before[] = "       1       1       1\n       0       1       1       0\n";
    static const uint8_t without[] = "       1       1       1       0\n       0       1       1       0\n";
    static const uint8_t unfollowed[] = "       1       1       1       0\n       0       1       1       0       0\n";
    jb_table table;
    expect(jb_read_table(sheet, 32, &table) == JB_LENGTH, "32 bytes");
    expect(jb_read_table(sheet, 33, &table) == JB_MALFORMED, "a letter in a field");
    expect(jb_read_table(before, sizeof before - 1, &table) == JB_MALFORMED, "a sheet from before K");
    expect(jb_read_table(without, sizeof without - 1, &table) == JB_LENGTH, "a sheet from before promised parts");
    expect(jb_read_table(unfollowed, sizeof unfollowed - 1, &table) == JB_LENGTH, "a sheet from before rows could follow rows");
    jb_row rows[JB_ROWS];
    uint8_t order[JB_ROWS];
    uint32_t yes, row;
    int32_t slack;
    for (uint32_t index = 0; index < JB_ROWS; index++) {
        rows[index] = (jb_row){0, 1, 2 * JB_ROWS, JB_HI, 0, 0};
        order[index] = (uint8_t)(index + 1);
    }
    for (int32_t spare = -2; spare <= 2; spare++) {
        rows[JB_ROWS - 1].deadline = (uint32_t)(JB_ROWS + spare);
        expect(jb_judge_list(rows, JB_ROWS, 1, 1, 0, order, &yes, &row, &slack) == JB_OK, "a list of the most rows");
        expect(yes == (spare >= 0) && row == JB_ROWS && slack == spare, "the last row has the least slack");
    }
    order[0] = 0;
    expect(jb_judge_list(rows, JB_ROWS, 1, 1, 0, order, &yes, &row, &slack) == JB_NOT_AN_ORDER, "a row is missing");
    rows[JB_ROWS - 1].level = JB_HI;
    rows[JB_ROWS - 1].follows = JB_ROWS - 1;
    expect(jb_judge_list(rows, JB_ROWS, 1, 1, 0, order, &yes, &row, &slack) == JB_NOT_AN_ORDER, "a row is missing, and the last one follows");
    rows[JB_ROWS - 2].level = JB_LO;
    expect(jb_judge_list(rows, JB_ROWS, 1, 1, 0, order, &yes, &row, &slack) == JB_FOLLOWS_LOW, "15 before 6, of the last row");
    expect(yes == 0 && row == 0 && slack == 0, "all zero on a refusal");
    rows[JB_ROWS - 2].release = 1;
    expect(jb_judge_list(rows, JB_ROWS, 1, 1, 0, order, &yes, &row, &slack) == JB_RELEASED_LATER, "14 before 15, of the last row");
    rows[JB_ROWS - 1].promised = 1;
    expect(jb_judge_list(rows, JB_ROWS, 1, 1, 0, order, &yes, &row, &slack) == JB_PROMISED, "12 before 6, of the last row");
    expect(yes == 0 && row == 0 && slack == 0, "all zero on a refusal");
}

/* The rows of a table in turn, as an order of it. */
static void fill_in_turn(uint8_t order[JB_ROWS], uint32_t n) {
    memset(order, 0, JB_ROWS);
    for (uint32_t place = 0; place < n; place++) {
        order[place] = (uint8_t)(place + 1);
    }
}

/* The largest figures that a report can have: 64 rows of the largest need, all released in the last slot that is allowed. */
static void try_largest_figures(void) {
    static const char last_lines[] = "        64        64   1000016  65001023 -64001023\n"
                                     "  64001024        64\n";
    const size_t two_lines = sizeof last_lines - 1;
    jb_table table = {JB_ROWS, 1, 1, JB_MOST_LOADING, {0}, {0}, {0}, {0}, {0}, {0}};
    uint8_t order[JB_ROWS], report[JB_LONGEST_REPORT];
    uint32_t length;
    for (uint32_t index = 0; index < JB_ROWS; index++) {
        table.release[index] = JB_LAST_DEADLINE - 1;
        table.work[index] = JB_MOST_WORK;
        table.deadline[index] = JB_LAST_DEADLINE;
        table.level[index] = JB_HI;
    }
    fill_in_turn(order, table.n);
    expect(jb_report_order(&table, order, report, sizeof report, &length) == JB_OK, "a report of the largest figures");
    expect(length == sizeof report, "the longest report");
    expect(memcmp(report + length - two_lines, last_lines, two_lines) == 0, "the largest figures");
}

/* Room above 4 GiB, which a length of 32 bits does not hold; only the pages of the sheet, the report and the sentence are ever touched. */
static void try_far_room(void) {
    const size_t room = ((size_t)1 << 32) + 7;
    const int kind = MAP_PRIVATE | MAP_ANONYMOUS | MAP_NORESERVE;
    uint8_t *bytes = (uint8_t *)mmap(NULL, room, PROT_READ | PROT_WRITE, kind, -1, 0);
    jb_table table;
    jb_answer answer;
    uint8_t order[JB_ROWS];
    uint32_t length;
    expect(bytes != MAP_FAILED, "addresses for a large room");
    fill_accepted(&table);
    expect(jb_write_table(&table, bytes, room, &length) == JB_OK, "room above 4 GiB");
    expect(length == sheet_length(&table) && bytes[length] == 0, "the sheet and no byte more");
    memset(bytes, 0, length);
    fill_in_turn(order, table.n);
    expect(jb_report_order(&table, order, bytes, room, &length) == JB_OK, "room above 4 GiB for a report");
    expect(length == report_length(&table) && bytes[length] == 0, "the report and no byte more");
    memset(bytes, 0, length);
    expect(jb_write_plan(JB_OK, 0, order, 1, bytes, room, &length) == JB_OK, "room above 4 GiB for a sentence");
    expect(bytes[length - 1] == '.' && bytes[length] == 0, "the sentence and no byte more");
    expect(jb_read_answer(bytes, room, &answer) == JB_MALFORMED, "a line of above 4 GiB is no sentence");
    memset(bytes, 0, length);
    table.n = 1;
    memset(table.follows, 0, sizeof table.follows);
    for (uint32_t index = 1; index < JB_ROWS; index++) {
        table.release[index] = table.work[index] = table.deadline[index] = table.level[index] = table.promised[index] = 0;
    }
    uint32_t lowest[JB_ROWS];
    uint32_t *scratch = (uint32_t *)(void *)bytes;
    expect(jb_count_orders(&table, scratch, room / sizeof *scratch, &length, lowest) == JB_OK, "scratch above 4 GiB");
    expect(scratch[0] == 1 && scratch[1] == length && scratch[2] == 0, "two sets of one row and no number more");
    munmap(bytes, room);
}

/* ---- answers as sentences ---- */

/* The numbers of an order: none, the rows of a table, and any, with zeros after them or among them. */
static void fill_places(uint8_t order[JB_ROWS]) {
    memset(order, 0, JB_ROWS);
    switch (between(0, 3)) {
    case 0: break;
    case 1: fill_in_turn(order, between(1, JB_ROWS)); break;
    case 2: fill_with_any(order, between(1, JB_ROWS)); break;
    default: order[between(0, JB_ROWS - 1)] = (uint8_t)random_word(); break;
    }
}

/* A word of rows left: none, some, and any. */
static uint64_t any_left(void) {
    const uint64_t some = random_word() & random_word() & random_word();
    return once_in(3) ? 0 : once_in(2) ? some : random_word() | random_word();
}

/* A slack in slots. */
static int32_t any_slack(void) {
    static const int32_t edges[] = {0, 1, -1, 10, -10, INT32_MIN, INT32_MIN + 1, INT32_MAX};
    return once_in(2) ? edges[between(0, sizeof edges / sizeof *edges - 1)] : (int32_t)between(0, 2000000) - 1000000;
}

/* An answer of either kind with any figures, also such as no call answers. */
static jb_answer any_answer(void) {
    jb_answer answer;
    memset(&answer, 0, sizeof answer);
    answer.kind = once_in(2) ? JB_PLANNER : JB_JUDGE;
    answer.number = once_in(2) ? between(0, JB_LAST_NUMBER + 2) : any_figure();
    if (answer.kind == JB_PLANNER) {
        answer.left = any_left();
        fill_places(answer.order);
        answer.trials = any_figure();
    } else {
        answer.yes = once_in(4) ? any_figure() : between(0, 1);
        answer.row = any_figure();
        answer.slack = any_slack();
    }
    return answer;
}

/* Lends room bytes for the sentence of an answer; gives the number. */
static uint32_t write_answer(const jb_answer *answer, size_t room, uint32_t **length) {
    uint8_t *line = lend_room(&line_at, room, length);
    uint8_t *order = (uint8_t *)place(&places_at, JB_ROWS);
    const bool planner = answer->kind == JB_PLANNER;
    memcpy(order, answer->order, JB_ROWS);
    lend(&places_at);
    const uint32_t number = planner ? jb_plan_sentence(answer->number, answer->left, order, answer->trials, line, room, *length)
                                    : jb_judge_sentence(answer->number, answer->yes, answer->row, answer->slack, line, room, *length);
    count(planner ? PLAN_SENTENCE : JUDGE_SENTENCE, number);
    expect_unwritten(&places_at);
    expect_written(&line_at, number, **length);
    return number;
}

/* Lends these bytes to the reader of sentences; gives the number. */
static uint32_t read_line(const uint8_t *bytes, size_t length, jb_answer *told) {
    uint8_t *line = (uint8_t *)place(&input_at, length);
    jb_answer *answer = (jb_answer *)place(&answer_at, sizeof *answer);
    memcpy(line, bytes, length);
    lend(&input_at);
    const uint32_t number = jb_read_answer(line, length, answer);
    count(READ_SENTENCE, number);
    expect_unwritten(&input_at);
    expect_guards(&answer_at);
    expect(number == JB_OK || all_zero(answer, sizeof *answer), "bytes that are no sentence tell nothing");
    *told = *answer;
    return number;
}

/* Whatever bytes are taken for a sentence are the sentence of what was read from them (rule 24.13). */
static bool is_sentence(const uint8_t *bytes, size_t length) {
    jb_answer told;
    uint32_t *written;
    if (read_line(bytes, length, &told) != JB_OK) {
        return false;
    }
    expect(told.kind == JB_PLANNER || told.kind == JB_JUDGE, "a sentence is of one of the kinds");
    expect(write_answer(&told, LONGEST_LINE, &written) == JB_OK, "what was read has a sentence");
    expect(*written == length && memcmp(line_at.start, bytes, length) == 0, "what was read has these bytes as its sentence");
    return true;
}

/* A byte of the kind that sentences have, or now and then any byte. */
static uint8_t any_byte_of_line(void) {
    static const char likely[] = "  0123456789-,.:()sTyn\n";
    return once_in(4) ? (uint8_t)random_word() : (uint8_t)likely[between(0, sizeof likely - 2)];
}

/* Changes up to three bytes of a line, or takes them out, or puts some in; gives its length then, in bytes. */
static size_t damage_line(uint8_t line[LONGEST_LINE], size_t length) {
    for (uint32_t changes = between(1, 3); changes > 0; changes--) {
        size_t at = between(0, (uint32_t)length - 1);
        switch (between(0, 3)) {
        case 0: line[at] = any_byte_of_line(); break;
        case 1:
            memmove(line + at, line + at + 1, length - at - 1);
            length--;
            break;
        case 2:
            memmove(line + at + 1, line + at, length - at);
            line[at] = any_byte_of_line();
            length++;
            break;
        default: /* the next digit, or else the last byte */
            while (at < length - 1 && (line[at] < '0' || line[at] > '9')) {
                at++;
            }
            line[at] = (uint8_t)('0' + between(0, 9));
            break;
        }
    }
    return length;
}

/* An answer there and back, its sentence in any room, and then damaged. */
static void try_sentence(void) {
    const jb_answer answer = any_answer();
    uint8_t sentence[LONGEST_LINE];
    jb_answer told;
    uint32_t *length;
    expect(write_answer(&answer, JB_LONGEST_SENTENCE, &length) == JB_OK, "739 bytes are enough for every sentence");
    const size_t size = *length;
    memcpy(sentence, line_at.start, size);
    const size_t room = any_room(size, LONGEST_LINE);
    const uint32_t number = write_answer(&answer, room, &length);
    expect(number == (room < size ? JB_NO_ROOM : JB_OK), "10 exactly if the room is short");
    expect(number != JB_OK || (*length == size && memcmp(line_at.start, sentence, size) == 0), "the same sentence in any room");
    expect(read_line(sentence, size, &told) == JB_OK, "a sentence is read");
    expect(memcmp(&told, &answer, sizeof told) == 0, "the answer comes back as it was");
    const bool still = is_sentence(sentence, damage_line(sentence, size));
    still_sentences += still;
    no_sentences += !still;
}

/* Any bytes as a line. */
static void try_any_line(void) {
    uint8_t line[LONGEST_LINE];
    const size_t length = between(0, LONGEST_LINE);
    for (size_t index = 0; index < length; index++) {
        line[index] = any_byte_of_line();
    }
    expect(!is_sentence(line, length), "bytes by chance are no sentence");
}

static void make_buffers(void) {
    input_at = new_buffer(LONGEST_INPUT);
    sheet_at = new_buffer(LONGEST_INPUT);
    report_at = new_buffer(MOST_ROOM);
    table_at = new_buffer(sizeof(jb_table));
    order_at = new_buffer(JB_ROWS);
    run_at = new_buffer(sizeof(jb_run));
    supplies_at = new_buffer(MOST_SUPPLIES * sizeof(uint32_t));
    text_at = new_buffer(JB_PROGRAM_TEXT);
    left_at = new_buffer(sizeof(uint64_t));
    word_at = new_buffer(sizeof(uint32_t));
    row_at = new_buffer(sizeof(uint32_t));
    slack_at = new_buffer(sizeof(int32_t));
    out_at = new_buffer(JB_ROWS * sizeof(uint32_t));
    one_at = new_buffer(sizeof(jb_run));
    line_at = new_buffer(LONGEST_LINE);
    places_at = new_buffer(JB_ROWS);
    answer_at = new_buffer(sizeof(jb_answer));
    scratch_at = new_buffer(MOST_LENT * sizeof(uint32_t));
    lowest_at = new_buffer(JB_ROWS * sizeof(uint32_t));
}

/* Prints how often each function gave each number; every number that it can give has come up. */
static void print_counts(void) {
    for (int function = 0; function < FUNCTIONS; function++) {
        printf("%-9s", functions[function].name);
        for (const int *number = functions[function].numbers; *number != END; number++) {
            printf(" %d: %" PRIu64, *number, counts[function][*number]);
            expect(counts[function][*number] > 0, "every number comes up");
        }
        printf("\n");
    }
}

int main(int argc, char **argv) {
    unsigned long rounds = argc > 1 ? strtoul(argv[1], NULL, 10) : DEFAULT_ROUNDS;
    seed = argc > 2 ? strtoull(argv[2], NULL, 10) : 1;
    make_buffers();
    try_limits();
    try_numbers();
    try_largest_figures();
    try_far_room();
    for (unsigned long round = 0; round < rounds; round++) {
        try_read();
        fill_lent();
        try_write();
        try_plan();
        try_plan_within();
        if (once_in(COUNTED)) {
            try_count();
        }
        if (once_in(SEARCHED)) {
            try_least();
        }
        try_judge();
        try_report();
        try_fresh();
        try_slot();
        try_forward();
        try_later();
        try_commit();
        try_sentence();
        try_any_line();
    }
    print_counts();
    printf("slots worked one by one: %" PRIu64 " loading, %" PRIu64 " other ones of a row\n", loading_slots, working_slots);
    expect(loading_slots > 0 && working_slots > 0, "both kinds of slots come up");
    printf("LO rows dropped: %" PRIu64 " for their allowance, at their deadlines %" PRIu64 " that ran and %" PRIu64 " that did not\n",
           dropped_for_need, dropped_running, dropped_resting);
    expect(dropped_for_need > 0 && dropped_running > 0 && dropped_resting > 0, "every way to be dropped comes up");
    printf("promised parts: %" PRIu64 " make a slack smaller, %" PRIu64 " an allowance longer\n", tight_promises, longer_allowances);
    expect(tight_promises > 0 && longer_allowances > 0, "promised parts tell");
    printf("rows that follow rows: %" PRIu64 " wait at a slot, %" PRIu64 " slots run one, %" PRIu64 " orders break a wait\n", waiting_rows,
           followers, broken_waits);
    expect(waiting_rows > 0 && followers > 0 && broken_waits > 0, "rows wait, run and stand wrong");
    printf("ceilings: %" PRIu64 " are the trials that the table takes, %" PRIu64 " one less\n", at_count[0], at_count[1]);
    expect(at_count[0] > 0 && at_count[1] > 0, "ceilings just high enough and just too low");
    printf("counted tables: %" PRIu64 " have no correct order, %" PRIu64 " have one of several, %" PRIu64 " have all of several\n", no_orders,
           one_order, all_orders);
    expect(no_orders > 0 && one_order > 0 && all_orders > 0, "tables leave no choice, and all of it");
    printf("commits: %" PRIu64 " refused for a release, %" PRIu64 " with idle slots before the first one\n", late_starts, idle_starts);
    expect(late_starts > 0 && idle_starts > 0, "sheets start too early and later than they are committed");
    printf("damaged sentences: %" PRIu64 " are another answer's, %" PRIu64 " are none\n", still_sentences, no_sentences);
    expect(still_sentences > 0 && no_sentences > 0, "damage makes other sentences, and lines that are none");
    printf("least speeds: %" PRIu64 " the first of their range, %" PRIu64 " the last\n", range_ends[0], range_ends[1]);
    expect(range_ends[0] > 0 && range_ends[1] > 0, "both ends of the ranges come up");
    printf("%lu rounds, all held\n", rounds);
    return 0;
}
