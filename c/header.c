/*
 * Tests of the header's own functions, in what C11 and C++11 have in common:
 * the interface's number, the words for every number, lists of no entries, a
 * sheet written back, least speeds, reports, tables that are refused for K, a promised
 * part or a followed row, where a row of a run stands and how far it has loaded, LO rows
 * at their deadlines, needs, promised parts, rows that follow rows, planning at a ceiling,
 * correct orders counted, new sheets that are asked for and committed, answers as sentences and
 * read back from them, and the packed verdict taken apart. It says how many things it looked at; exit status 1 if
 * one is not as it should be.
 */
#include "jasminebrace.h"

#include <stdio.h>
#include <string.h>

static unsigned looked_at;
static unsigned wrong;

static void look(int fine, const char *what, unsigned figure) {
    looked_at++;
    if (!fine) {
        wrong++;
        printf("not as it should be: %s %u\n", what, figure);
    }
}

/* The sheet of case P3: N 2, G 1, K 0, a LO row 0 2 2 and a HI row 0 4 4. */
static const char P3[] = "       2       2       1       0\n"
                         "       0       2       2       0       0       0\n"
                         "       0       4       4       1       0       0\n";

static void look_at_words(void) {
    for (uint32_t number = JB_OK; number <= JB_LAST_NUMBER + 1; number++) {
        look(strlen(jb_words(number)) > 0, "words for", number);
        look(strlen(jb_remedy(number)) > 0, "remedy for", number);
        for (uint32_t other = JB_OK; other < number; other++) {
            look(strcmp(jb_words(number), jb_words(other)) != 0, "words of its own for", number);
        }
    }
    look(strcmp(jb_words(JB_LAST_NUMBER + 1), jb_words(UINT32_MAX)) == 0, "one text for all other numbers", UINT32_MAX);
}

static int all_are(const uint8_t *bytes, size_t count, uint8_t byte) {
    for (size_t index = 0; index < count; index++) {
        if (bytes[index] != byte) {
            return 0;
        }
    }
    return 1;
}

static int all_zero(const void *memory, size_t size) {
    return all_are((const uint8_t *)memory, size, 0);
}

/* The rows of a table in turn, as an order of it. */
static void fill_in_turn(uint8_t order[JB_ROWS], uint32_t n) {
    memset(order, 0, JB_ROWS);
    for (uint32_t place = 0; place < n && place < JB_ROWS; place++) {
        order[place] = (uint8_t)(place + 1);
    }
}

/* The searches for a least speed, over a table and over a sheet. */
typedef uint32_t (*least_of_table)(const jb_table *table, uint32_t *speed, uint8_t order[JB_ROWS]);
typedef uint32_t (*least_of_sheet)(const uint8_t *sheet, size_t length, uint32_t *speed, uint8_t order[JB_ROWS]);
static const least_of_table LEAST_OF_TABLE[] = {jb_least_degraded_speed, jb_least_normal_speed};
static const least_of_sheet LEAST_OF_SHEET[] = {jb_read_least_degraded_speed, jb_read_least_normal_speed};

/* A refusal of a table, or of a sheet where there is no table: this number, speed 0 and an order of zeros, from both searches. */
static void look_at_no_speed(const jb_table *table, const char *sheet, size_t length, uint32_t number, const char *what) {
    for (unsigned index = 0; index < 2; index++) {
        uint32_t speed = 7;
        uint8_t order[JB_ROWS];
        memset(order, 7, sizeof order);
        const uint32_t got = table != NULL ? LEAST_OF_TABLE[index](table, &speed, order)
                                           : LEAST_OF_SHEET[index]((const uint8_t *)sheet, length, &speed, order);
        look(got == number, what, got);
        look(speed == 0 && all_zero(order, sizeof order), what, index);
    }
}

/* Asking for a sheet is refused by this number, with this word of rows left and zeros for all else. */
static void look_at_no_proposal(const char *sheet, size_t length, uint32_t number, uint64_t left) {
    jb_table table;
    uint8_t order[JB_ROWS];
    uint64_t got = 7;
    memset(&table, 7, sizeof table);
    memset(order, 7, sizeof order);
    look(jb_ask_sheet((const uint8_t *)sheet, length, &table, order, &got) == number, "no proposal, number", number);
    look(got == left && all_zero(&table, sizeof table) && all_zero(order, sizeof order), "zeros for a proposal, number", number);
}

/* Scratch for counting, some more than is asked for, and some numbers after those that are ever lent. */
enum { MOST_LENT = JB_SCRATCH + 4 };
static uint32_t scratch[MOST_LENT + 4];

static void fill_scratch(void) {
    for (size_t index = 0; index < sizeof scratch / sizeof scratch[0]; index++) {
        scratch[index] = 7;
    }
}

/* The numbers of the scratch from this one on are as they were. */
static int is_scratch_left(size_t from) {
    int left = 1;
    for (size_t index = from; index < sizeof scratch / sizeof scratch[0]; index++) {
        left = left && scratch[index] == 7;
    }
    return left;
}

/* Counting the orders of a table is refused by this number, with zeros and the scratch as it was. */
static void look_at_no_count(const jb_table *table, uint32_t *lent, size_t numbers, uint32_t number) {
    uint32_t count = 7;
    uint32_t lowest[JB_ROWS];
    memset(lowest, 7, sizeof lowest);
    fill_scratch();
    look(jb_count_orders(table, lent, numbers, &count, lowest) == number, "no count, number", number);
    look(count == 0 && all_zero(lowest, sizeof lowest), "zeros for a count, number", number);
    look(is_scratch_left(0), "the scratch as it was, number", number);
}

/* Null goes with a length of 0, and the answer is that of an empty list. */
static void look_at_empty_lists(void) {
    jb_table table;
    jb_run run;
    jb_answer answer;
    uint8_t order[JB_ROWS] = {1, 2};
    uint8_t text[JB_PROGRAM_TEXT];
    uint32_t yes;
    uint32_t row;
    int32_t slack;
    uint32_t worked = 7;
    uint32_t length = 7;
    look(jb_read_table(NULL, 0, &table) == JB_LENGTH, "no sheet", 0);
    look_at_no_speed(NULL, NULL, 0, JB_LENGTH, "no least speed of no sheet");
    look_at_no_proposal(NULL, 0, JB_LENGTH, 0);
    look(jb_program_text(NULL, 0, text) == 17 && memcmp(text, "       1       0\n", 17) == 0, "no input", 0);
    look(jb_judge_list(NULL, 0, 2, 1, 0, order, &yes, &row, &slack) == JB_ROW_COUNT && yes == 0 && row == 0 && slack == 0, "no rows", 0);
    look(jb_read_table((const uint8_t *)P3, sizeof P3 - 1, &table) == JB_OK, "P3", 0);
    look(jb_write_table(&table, NULL, 0, &length) == JB_NO_ROOM && length == 0, "no room", 0);
    length = 7;
    look(jb_report_order(&table, order, NULL, 0, &length) == JB_NO_ROOM && length == 0, "no room for a report", 0);
    length = 7;
    look_at_no_count(&table, NULL, 0, JB_NO_ROOM);
    look(jb_write_plan(JB_OK, 0, order, 3, NULL, 0, &length) == JB_NO_ROOM && length == 0, "no room for a plan's sentence", 0);
    length = 7;
    look(jb_write_verdict(JB_OK, 1, 1, 0, NULL, 0, &length) == JB_NO_ROOM && length == 0, "no room for a verdict's sentence", 0);
    memset(&answer, 7, sizeof answer);
    look(jb_read_answer(NULL, 0, &answer) == JB_MALFORMED && all_zero(&answer, sizeof answer), "no sentence", 0);
    look(jb_fresh_run(&table, order, &run) == JB_OK, "fresh", 0);
    look(jb_work_forward(&run, NULL, 0, &worked) == JB_OK && worked == 0 && run.clock == 0, "no supplies", 0);
}

/* P3 comes back byte for byte, nothing is written after it, and the table is looked at before the room. */
static void look_at_sheet(void) {
    jb_table table;
    uint8_t sheet[JB_LONGEST_SHEET];
    uint32_t length = 7;
    memset(sheet, 'x', sizeof sheet);
    look(jb_read_table((const uint8_t *)P3, sizeof P3 - 1, &table) == JB_OK, "P3", 0);
    look(jb_write_table(&table, sheet, sizeof P3 - 2, &length) == JB_NO_ROOM && length == 0, "a byte too few for", length);
    look(all_are(sheet, sizeof sheet, 'x'), "no byte is written without room", length);
    look(jb_write_table(&table, sheet, sizeof sheet, &length) == JB_OK && length == sizeof P3 - 1, "length of P3", length);
    look(memcmp(sheet, P3, sizeof P3 - 1) == 0, "the bytes of P3", length);
    look(all_are(sheet + sizeof P3 - 1, sizeof sheet - (sizeof P3 - 1), 'x'), "the bytes after P3", length);
    table.n = JB_ROWS + 1;
    look(jb_write_table(&table, NULL, 0, &length) == JB_ROW_COUNT && length == 0, "no sheet of rows", table.n);
}

/* A table without loading of these rows, at most so many, up to the first of no work; both speeds in work units per slot. */
static jb_table table_of_rows(uint32_t normal, uint32_t degraded, const jb_row *rows, uint32_t most) {
    jb_table table;
    memset(&table, 0, sizeof table);
    table.normal = normal;
    table.degraded = degraded;
    for (uint32_t index = 0; index < most && rows[index].work != 0; index++) {
        table.n = index + 1;
        table.release[index] = rows[index].release;
        table.work[index] = rows[index].work;
        table.deadline[index] = rows[index].deadline;
        table.level[index] = rows[index].level;
        table.promised[index] = rows[index].promised;
        table.follows[index] = rows[index].follows;
    }
    return table;
}

/* A search over a table of one row or two without loading, all speeds in work units per slot, and what it answers. */
typedef struct {
    unsigned search; /* 0 for G, 1 for N */
    uint32_t own;    /* the table's figure for the speed sought, which does not matter */
    uint32_t kept;   /* the other speed */
    jb_row rows[2];  /* the second of no work where there is one */
    uint32_t speed;  /* 0 where no speed of the range will do */
    uint8_t order[JB_ROWS];
} least_case;

/*
 * First N 20, a HI row 0 200 20 and a LO row 0 180 18: above row 2, row 1 makes it a
 * slot late; below it, 11 slots are left to row 1, so that G is 19. With G 20 the
 * least N is 20, and the order is other than at larger N. Where 172 work units of row 2
 * are promised it has 10 slots at G 19, and G is 20. Then P3, and rows whose least
 * speeds are the ends of the ranges, or just beyond them; of the last one a part is
 * promised that takes all of its slots at G 3.
 */
static const least_case LEAST_CASES[] = {
    {0, 1, 20, {{0, 200, 20, JB_HI, 0, 0}, {0, 180, 18, JB_LO, 0, 0}}, 19, {2, 1}},
    {0, 18, 20, {{0, 200, 20, JB_HI, 0, 0}, {0, 180, 18, JB_LO, 0, 0}}, 19, {2, 1}},
    {0, 20, 20, {{0, 200, 20, JB_HI, 0, 0}, {0, 180, 18, JB_LO, 0, 0}}, 19, {2, 1}},
    {0, 20, 20, {{0, 200, 20, JB_HI, 0, 0}, {0, 180, 18, JB_LO, 171, 0}}, 19, {2, 1}},
    {0, 1, 20, {{0, 200, 20, JB_HI, 0, 0}, {0, 180, 18, JB_LO, 172, 0}}, 20, {2, 1}},
    {1, 20, 20, {{0, 200, 20, JB_HI, 0, 0}, {0, 180, 18, JB_LO, 0, 0}}, 20, {2, 1}},
    {1, JB_MOST_SPEED, 20, {{0, 200, 20, JB_HI, 0, 0}, {0, 180, 18, JB_LO, 0, 0}}, 20, {2, 1}},
    {0, 1, 2, {{0, 2, 2, JB_LO, 0, 0}, {0, 4, 4, JB_HI, 0, 0}}, 2, {1, 2}},
    {1, 1, 1, {{0, 2, 2, JB_LO, 0, 0}, {0, 4, 4, JB_HI, 0, 0}}, 4, {2, 1}},
    {1, JB_MOST_SPEED, 1, {{0, 2, 2, JB_LO, 0, 0}, {0, 4, 4, JB_HI, 0, 0}}, 4, {2, 1}},
    {0, 7, 7, {{0, 7, 1, JB_LO, 0, 0}, {0, 0, 0, 0, 0, 0}}, 1, {1}},
    {0, 7, 7, {{0, 7, 1, JB_HI, 0, 0}, {0, 0, 0, 0, 0, 0}}, 7, {1}},
    {0, 7, 7, {{0, 8, 1, JB_HI, 0, 0}, {0, 0, 0, 0, 0, 0}}, 0, {0}},
    {1, 9, 7, {{0, 7, 1, JB_LO, 0, 0}, {0, 0, 0, 0, 0, 0}}, 7, {1}},
    {1, 7, 7, {{0, 1000, 1, JB_LO, 0, 0}, {0, 0, 0, 0, 0, 0}}, JB_MOST_SPEED, {1}},
    {1, 7, 7, {{0, 1001, 1, JB_LO, 0, 0}, {0, 0, 0, 0, 0, 0}}, 0, {0}},
    {0, 7, 7, {{0, 14, 4, JB_LO, 12, 0}, {0, 0, 0, 0, 0, 0}}, 3, {1}},
};

static jb_table table_of(const least_case *of) {
    const uint32_t normal = of->search == 0 ? of->kept : of->own;
    const uint32_t degraded = of->search == 0 ? of->own : of->kept;
    return table_of_rows(normal, degraded, of->rows, 2);
}

/* Each search over its table, and over the sheet of it. */
static void look_at_least_speeds(void) {
    for (unsigned index = 0; index < sizeof LEAST_CASES / sizeof LEAST_CASES[0]; index++) {
        const least_case *expected = &LEAST_CASES[index];
        const jb_table table = table_of(expected);
        uint8_t sheet[JB_LONGEST_SHEET];
        uint32_t length;
        look(jb_write_table(&table, sheet, sizeof sheet, &length) == JB_OK, "the sheet of least speed case", index);
        for (unsigned of_sheet = 0; of_sheet < 2; of_sheet++) {
            uint32_t speed = 7000;
            uint8_t order[JB_ROWS];
            memset(order, 7, sizeof order);
            const uint32_t number = of_sheet != 0 ? LEAST_OF_SHEET[expected->search](sheet, length, &speed, order)
                                                  : LEAST_OF_TABLE[expected->search](&table, &speed, order);
            look(number == (expected->speed == 0 ? JB_NO_ORDER : JB_OK) && speed == expected->speed, "least speed, case", index);
            look(memcmp(order, expected->order, sizeof order) == 0, "order at the least speed, case", index);
        }
    }
}

/* Both searches refuse what the planner refuses, and a sheet that the reader refuses. */
static void look_at_refused_speeds(void) {
    jb_table table;
    look(jb_read_table((const uint8_t *)P3, sizeof P3 - 1, &table) == JB_OK, "P3", 0);
    look_at_no_speed(NULL, P3, sizeof P3 - 2, JB_LENGTH, "no least speed of a sheet with a byte too few");
    table.deadline[0] = 0;
    table.promised[0] = 3;
    look_at_no_speed(&table, NULL, 0, JB_ROW_LIMITS, "no least speed with a deadline of 0 slots");
    table.deadline[0] = 2;
    look_at_no_speed(&table, NULL, 0, JB_PROMISED, "no least speed with more promised than there is");
    table.degraded = table.normal + 1;
    look_at_no_speed(&table, NULL, 0, JB_SPEEDS, "no least speed with G above N");
    table.n = JB_ROWS + 1;
    look_at_no_speed(&table, NULL, 0, JB_ROW_COUNT, "no least speed of 65 rows");
}

/* The reports of P3 under both its orders: the need at N, the worst finish and the slack of each row, all in slots. */
static const struct {
    uint8_t order[JB_ROWS];
    const char *text;
} P3_REPORTS[] = {{{1, 2},
                   "         1         1         1         1         1\n"
                   "         2         2         2         5        -1\n"
                   "         3         1\n"},
                  {{2, 1},
                   "         1         2         2         4         0\n"
                   "         2         1         1         3        -1\n"
                   "         3         1\n"}};
enum { P3_LENGTH = 2 * JB_PLACE_LINE + JB_TOTALS_LINE };

/* The figures of P3 end where the header's sizes say, the bytes after them stay, and a byte too few is 10. */
static void look_at_reports_of_p3(void) {
    jb_table table;
    look(jb_read_table((const uint8_t *)P3, sizeof P3 - 1, &table) == JB_OK, "P3", 0);
    for (unsigned index = 0; index < 2; index++) {
        const uint8_t *order = P3_REPORTS[index].order;
        const char *expected = P3_REPORTS[index].text;
        uint8_t report[JB_LONGEST_REPORT];
        uint32_t length = 7;
        memset(report, 'x', sizeof report);
        look(jb_report_order(&table, order, report, P3_LENGTH - 1, &length) == JB_NO_ROOM && length == 0, "a byte too few, order", index);
        look(all_are(report, sizeof report, 'x'), "no byte is written without room, order", index);
        look(jb_report_order(&table, order, report, sizeof report, &length) == JB_OK && length == P3_LENGTH, "length, order", index);
        look(strlen(expected) == P3_LENGTH && memcmp(report, expected, P3_LENGTH) == 0, "the report's bytes, order", index);
        look(all_are(report + P3_LENGTH, sizeof report - P3_LENGTH, 'x'), "the bytes after the report, order", index);
        look(report[JB_FIGURE - 1] == '1' && report[2 * JB_FIGURE - 1] == order[0] + '0', "figures of the first place, order", index);
        look(report[2 * JB_PLACE_LINE + JB_FIGURE - 1] == '3', "sum of needs, order", index);
    }
}

/* The longest report has 64 rows: just its length is enough. The order is looked at before the room, and the table before both. */
static void look_at_longest_report(void) {
    jb_table table;
    uint8_t order[JB_ROWS];
    uint8_t report[JB_LONGEST_REPORT];
    uint32_t length = 7;
    memset(&table, 0, sizeof table);
    table.n = JB_ROWS;
    table.normal = 1;
    table.degraded = 1;
    for (uint32_t index = 0; index < JB_ROWS; index++) {
        table.work[index] = 1;
        table.deadline[index] = JB_ROWS;
        order[index] = (uint8_t)(index + 1);
    }
    look(jb_report_order(&table, order, report, sizeof report, &length) == JB_OK && length == sizeof report, "longest report", length);
    look(memcmp(report + 63 * JB_PLACE_LINE, "        64        64         1        64         0\n", JB_PLACE_LINE) == 0, "place", 64);
    look(memcmp(report + 64 * JB_PLACE_LINE, "        64         0\n", JB_TOTALS_LINE) == 0, "last line of rows", table.n);
    look(jb_report_order(&table, order, report, sizeof report - 1, &length) == JB_NO_ROOM && length == 0, "a byte too few", length);
    order[1] = 1;
    length = 7;
    look(jb_report_order(&table, order, NULL, 0, &length) == JB_NOT_AN_ORDER && length == 0, "no report of a row twice", 1);
    table.n = JB_ROWS + 1;
    length = 7;
    look(jb_report_order(&table, order, NULL, 0, &length) == JB_ROW_COUNT && length == 0, "no report of rows", table.n);
}

/* Numbers as fields, up to the largest that a field holds, and one more. */
static void look_at_fields(void) {
    const struct {
        uint32_t figure;
        uint32_t whole;
        const char *field;
    } fields[] = {{0, 1, "       0"}, {1023, 1, "    1023"}, {99999999, 1, "99999999"}, {100000000, 0, "00000000"}, {UINT32_MAX, 0, "94967295"}};
    for (size_t index = 0; index < sizeof fields / sizeof fields[0]; index++) {
        uint8_t field[JB_FIELD];
        look(jb_field(fields[index].figure, field) == fields[index].whole, "field of", fields[index].figure);
        look(memcmp(field, fields[index].field, JB_FIELD) == 0, "bytes of", fields[index].figure);
    }
}

/* A refusal by the judge: this number, and zeros. */
static void look_at_no_verdict(uint32_t got, uint32_t number, uint32_t yes, uint32_t row, int32_t slack) {
    look(got == number && yes == 0 && row == 0 && slack == 0, "no verdict, number", number);
}

/* Planning a table at this ceiling, in trials: the number, and all that it writes. */
static void look_at_ceiling(const jb_table *table, uint32_t ceiling, uint32_t number, const uint8_t expected[JB_ROWS], uint64_t rows, uint32_t made) {
    uint8_t order[JB_ROWS];
    uint64_t left = 7;
    uint32_t trials = 7000;
    memset(order, 7, sizeof order);
    const uint32_t got = jb_plan_table_within(table, ceiling, order, &left, &trials);
    look(got == number, "number at a ceiling of", ceiling);
    look(left == rows && memcmp(order, expected, sizeof order) == 0, "order and rows left at a ceiling of", ceiling);
    look(trials == made, "trials made at a ceiling of", ceiling);
}

/* The judge refuses a table by this number, and a list of its rows. */
static void look_at_refused_verdicts(const jb_table *table, const uint8_t order[JB_ROWS], uint32_t number) {
    jb_row rows[JB_ROWS];
    uint32_t yes = 7;
    uint32_t row = 7;
    int32_t slack = 7;
    for (uint32_t index = 0; index < table->n; index++) {
        const jb_row one = {table->release[index], table->work[index], table->deadline[index], table->level[index], table->promised[index], table->follows[index]};
        rows[index] = one;
    }
    uint32_t got = jb_judge_order(table, order, &yes, &row, &slack);
    look_at_no_verdict(got, number, yes, row, slack);
    yes = row = 7;
    slack = 7;
    got = jb_judge_list(rows, table->n, table->normal, table->degraded, table->loading, order, &yes, &row, &slack);
    look_at_no_verdict(got, number, yes, row, slack);
}

/* A record of one LO row, which is done at clock 7. */
static jb_run closed_run(void) {
    const jb_row row = {0, 1, 9, JB_LO, 0, 0};
    const uint8_t order[JB_ROWS] = {1};
    const jb_table table = table_of_rows(1, 1, &row, 1);
    jb_run run;
    look(jb_fresh_run(&table, order, &run) == JB_OK, "fresh", 0);
    run.clock = 7;
    run.got[0] = 1;
    run.used[0] = 1;
    run.closing[0] = 7;
    return run;
}

/* A commit is refused by this number, and no byte of the record changes. */
static void look_at_no_commit(const jb_run *held, const jb_table *table, const uint8_t order[JB_ROWS], uint32_t number) {
    jb_run run = *held;
    const uint32_t got = jb_commit_sheet(&run, table, order);
    look(got == number, "no commit, number", got);
    look(memcmp(&run, held, sizeof run) == 0, "the record after a refused commit, number", number);
}

/*
 * A table is refused by this number wherever it goes in, before 6 and 10: with an order
 * that is none and with no room. What is written then is all zero, what is lent to be
 * written stays, and a record that has the table is unsound.
 */
static void look_at_refused_table(const jb_table *table, uint32_t number) {
    const uint8_t zeros[JB_ROWS] = {0};
    const uint8_t no_order[JB_ROWS] = {1, 1};
    uint8_t planned[JB_ROWS];
    uint32_t finishes[JB_ROWS];
    uint64_t left = 7;
    uint32_t length = 7;
    uint32_t row = 7;
    jb_run run;
    look_at_no_speed(table, NULL, 0, number, "no least speed");
    look(jb_write_table(table, NULL, 0, &length) == number && length == 0, "no sheet, number", number);
    look(jb_plan_table(table, planned, &left) == number && left == 0 && all_zero(planned, sizeof planned), "no plan, number", number);
    look_at_no_count(table, scratch, JB_SCRATCH, number);
    look_at_no_count(table, NULL, 0, number);
    look_at_ceiling(table, 0, number, zeros, 0, 0);
    look_at_ceiling(table, UINT32_MAX, number, zeros, 0, 0);
    look_at_refused_verdicts(table, no_order, number);
    look(jb_worst_finishes(table, no_order, finishes) == number && all_zero(finishes, sizeof finishes), "no finishes, number", number);
    length = 7;
    look(jb_report_order(table, no_order, NULL, 0, &length) == number && length == 0, "no report, number", number);
    look(jb_fresh_run(table, no_order, &run) == number && all_zero(&run, sizeof run), "no record, number", number);
    const jb_run closed = closed_run();
    look_at_no_commit(&closed, table, no_order, number);
    run.table = *table;
    fill_in_turn(run.order, table->n);
    look(jb_coming_row(&run, &row) == JB_UNSOUND && row == 0, "an unsound record, number", number);
}

/* The sheet is refused by this number, and leaves a table of zeros. */
static void look_at_refused_sheet(const char *sheet, size_t length, uint32_t number) {
    jb_table table;
    look(jb_read_table((const uint8_t *)sheet, length, &table) == number && all_zero(&table, sizeof table), "a refused sheet, number", number);
    look_at_no_speed(NULL, sheet, length, number, "no least speed of a sheet");
    look_at_no_proposal(sheet, length, number, 0);
}

/* K above its limit is 11, after 4 and before 5. */
static void look_at_long_loading(void) {
    char sheet[] = "       2       2       1      17\n"
                   "       0       2       2       0       0       0\n"
                   "       0       4       4       1       0       0\n";
    jb_table table;
    look_at_refused_sheet(sheet, sizeof sheet - 1, JB_LOADING);
    sheet[31] = '6';
    look(jb_read_table((const uint8_t *)sheet, sizeof sheet - 1, &table) == JB_OK && table.loading == JB_MOST_LOADING, "a sheet with K", 16);
    table.loading = JB_MOST_LOADING + 1;
    look_at_refused_table(&table, JB_LOADING);
    table.deadline[0] = 0;
    look_at_refused_table(&table, JB_LOADING);
    table.degraded = 3;
    look_at_refused_table(&table, JB_SPEEDS);
}

static void look_at_row(const jb_run *run, uint32_t row, int open, int done, int dropped, int late) {
    look(jb_is_open(run, row) == open, "open, row", row);
    look(jb_is_done(run, row) == done, "done, row", row);
    look(jb_is_dropped(run, row) == dropped, "dropped, row", row);
    look(jb_is_late(run, row) == late, "late, row", row);
    look(dropped || !jb_is_dropped_for_deadline(run, row), "dropped for its deadline, row", row);
}

static void look_at_no_rows(const jb_run *run) {
    const uint32_t none[] = {0, 3, 64, 65, 66, UINT32_MAX};
    for (size_t index = 0; index < sizeof none / sizeof none[0]; index++) {
        look_at_row(run, none[index], 0, 0, 0, 0);
        look(jb_loaded(run, none[index]) == 0 && !jb_is_loading(run, none[index]), "loading, row", none[index]);
        look(jb_need(&run->table, none[index]) == 0 && jb_allowance(&run->table, none[index]) == 0, "need, row", none[index]);
        look(!jb_has_promised(run, none[index]) && !jb_is_waiting(run, none[index]), "promised part and wait, row", none[index]);
    }
}

/*
 * P3 with K 2, a deadline of 3 slots for row 1 and supplies of 2: row 1 loads in slots
 * 0 and 1 and is done by slot 2, its last; row 2 loads in slots 3 and 4 and is done by
 * slot 6, after its deadline.
 */
static void look_at_loading(void) {
    const uint8_t order[JB_ROWS] = {1, 2};
    const uint32_t loaded[][2] = {{0, 0}, {1, 0}, {2, 0}, {2, 0}, {2, 1}, {2, 2}, {2, 2}, {2, 2}};
    jb_table table;
    jb_run run;
    uint32_t row;
    look(jb_read_table((const uint8_t *)P3, sizeof P3 - 1, &table) == JB_OK && table.loading == 0, "P3", 0);
    table.loading = 2;
    table.deadline[0] = 3;
    look(jb_need(&table, 1) == 3 && jb_need(&table, 2) == 4, "needs with K", table.loading);
    look(jb_fresh_run(&table, order, &run) == JB_OK && run.table.loading == 2, "fresh", 0);
    for (uint32_t slot = 0; slot < 8; slot++) {
        look_at_no_rows(&run);
        for (uint32_t index = 0; index < 2; index++) {
            look(jb_loaded(&run, index + 1) == loaded[slot][index], "loaded at", slot);
            look(jb_is_loading(&run, index + 1) == (loaded[slot][index] < 2), "loading at", slot);
        }
        look(jb_work_slot(&run, 2, &row) == JB_OK && row == (slot < 3 ? 1u : slot < 7 ? 2u : 0u), "slot", slot);
        look(run.got[0] == (slot < 2 ? 0u : 2u), "work got by row 1 after slot", slot);
        look(run.got[1] == (slot < 5 ? 0u : slot == 5 ? 2u : 4u), "work got by row 2 after slot", slot);
    }
    look_at_row(&run, 1, 0, 1, 0, 0);
    look_at_row(&run, 2, 0, 1, 0, 1);
    look(run.closing[0] == 3 && run.closing[1] == 7, "closing slots", run.closing[0]);
    /* A closed row does not load, whatever its record says. */
    run.used[0] = 1;
    look(jb_loaded(&run, 1) == 1 && !jb_is_loading(&run, 1), "a closed row, used", run.used[0]);
}

/* P7: with 1 work unit from each slot, row 1 of P3 is dropped with closing slot 1, and row 2 is done with 5 and so late. */
static void look_at_run(void) {
    jb_table table;
    jb_run run;
    const uint8_t order[JB_ROWS] = {1, 2};
    uint32_t row;
    look(jb_read_table((const uint8_t *)P3, sizeof P3 - 1, &table) == JB_OK, "P3", 0);
    look(jb_fresh_run(&table, order, &run) == JB_OK, "fresh", 0);
    look_at_row(&run, 1, 1, 0, 0, 0);
    look_at_row(&run, 2, 1, 0, 0, 0);
    for (uint32_t slot = 0; slot < 5; slot++) {
        look_at_no_rows(&run);
        look(jb_coming_row(&run, &row) == JB_OK && row == (slot == 0 ? 1u : 2u), "coming at", slot);
        look(jb_work_slot(&run, 1, &row) == JB_OK && row == (slot == 0 ? 1u : 2u), "slot", slot);
        look_at_row(&run, 1, 0, 0, 1, 0);
        look_at_row(&run, 2, slot < 4, slot == 4, 0, slot >= 3);
    }
    /* With supplies of 2 row 1 is done at 1, and row 2 at 3, in time. */
    look(jb_fresh_run(&table, order, &run) == JB_OK, "fresh", 0);
    for (uint32_t slot = 0; slot < 3; slot++) {
        look(jb_work_slot(&run, 2, &row) == JB_OK, "slot", slot);
    }
    look_at_row(&run, 1, 0, 1, 0, 0);
    look_at_row(&run, 2, 0, 1, 0, 0);
    /* A count that no table has does not lead out of the columns. */
    run.table.n = UINT32_MAX;
    look_at_row(&run, 65, 0, 0, 0, 0);
}

/* A row of release 0 with N 2, G 1 and K 0, two supplies, and how it stands afterwards; all in work units or slots. */
typedef struct {
    uint32_t work;
    uint32_t deadline;
    uint32_t level;
    uint32_t supplies[2];
    uint32_t got;
    uint32_t closing;
    int for_deadline; /* dropped for its deadline */
} late_case;

/*
 * LO rows at their deadlines (rule 13.13): done by the last slot, dropped for the
 * deadline with a slot of the need left, dropped for the need in the last slot, and for
 * it before; then a HI row, which no deadline closes.
 */
static const late_case LATE_CASES[] = {
    {6, 2, JB_LO, {4, 2}, 6, 2, 0},
    {6, 2, JB_LO, {4, 1}, 5, 2, 1},
    {4, 2, JB_LO, {2, 1}, 3, 2, 0},
    {2, 2, JB_LO, {1, 1}, 1, 1, 0},
    {4, 2, JB_HI, {1, 1}, 2, 0, 0},
};

static jb_table table_of_row(uint32_t work, uint32_t deadline, uint32_t level) {
    jb_table table;
    memset(&table, 0, sizeof table);
    table.n = 1;
    table.normal = 2;
    table.degraded = 1;
    table.work[0] = work;
    table.deadline[0] = deadline;
    table.level[0] = level;
    return table;
}

static void look_at_deadlines(void) {
    const uint8_t order[JB_ROWS] = {1};
    for (unsigned index = 0; index < sizeof LATE_CASES / sizeof LATE_CASES[0]; index++) {
        const late_case *expected = &LATE_CASES[index];
        const jb_table table = table_of_row(expected->work, expected->deadline, expected->level);
        jb_run run;
        uint32_t worked;
        look(jb_fresh_run(&table, order, &run) == JB_OK, "fresh, late case", index);
        look(jb_work_forward(&run, expected->supplies, 2, &worked) == JB_OK, "two slots, late case", index);
        look(run.got[0] == expected->got && run.closing[0] == expected->closing, "work and closing slot, late case", index);
        look(jb_is_dropped_for_deadline(&run, 1) == expected->for_deadline, "why it was dropped, late case", index);
        look(jb_is_open(&run, 1) == (expected->closing == 0) && jb_is_late(&run, 1) == (expected->closing == 0), "open and late, late case", index);
        look(jb_need(&table, 1) == (expected->work + 1) / 2, "need, late case", index);
        look(jb_allowance(&table, 1) == (expected->level == JB_LO ? (expected->work + 1) / 2 : 0), "allowance, late case", index);
        look(!jb_has_promised(&run, 1), "nothing is promised, late case", index);
    }
}

/* Rows that do not run are dropped too, two in the same slot, by one slot as by forward; the slot answers the row that it ran. */
static void look_at_drops_of_others(void) {
    const uint8_t order[JB_ROWS] = {1, 2, 3};
    const uint32_t supplies[] = {1, 1};
    jb_table table = table_of_row(6, 9, JB_HI);
    jb_run run;
    jb_run again;
    uint32_t row;
    uint32_t worked;
    table.n = 3;
    table.work[1] = table.work[2] = 2;
    table.deadline[1] = table.deadline[2] = 2;
    look(jb_fresh_run(&table, order, &run) == JB_OK, "fresh", 0);
    again = run;
    look(jb_work_slot(&run, 1, &row) == JB_OK && row == 1 && jb_is_open(&run, 2) && jb_is_open(&run, 3), "open at", run.clock);
    look(jb_work_slot(&run, 1, &row) == JB_OK && row == 1, "the row that ran", row);
    look(jb_is_dropped_for_deadline(&run, 2) && jb_is_dropped_for_deadline(&run, 3) && jb_is_open(&run, 1), "dropped at", run.clock);
    look(run.closing[1] == run.clock && run.closing[2] == run.clock && run.used[1] == 0 && run.got[2] == 0, "closed at", run.closing[1]);
    look(jb_work_forward(&again, supplies, 2, &worked) == JB_OK && memcmp(&again, &run, sizeof run) == 0, "forward over", worked);
}

/* A LO row that is open at its deadline makes 9, and so does one closed before it with work missing and need left; at its deadline it is sound. */
static void look_at_soundness(void) {
    const uint8_t order[JB_ROWS] = {1};
    jb_table table = table_of_row(6, 2, JB_LO);
    jb_run run;
    uint32_t row;
    look(jb_fresh_run(&table, order, &run) == JB_OK, "fresh", 0);
    run.got[0] = 4;
    run.used[0] = 1;
    run.clock = 1;
    look(jb_coming_row(&run, &row) == JB_OK && row == 1, "open before its deadline, clock", run.clock);
    run.clock = 2;
    look(jb_coming_row(&run, &row) == JB_UNSOUND && row == 0, "open at its deadline, clock", run.clock);
    run.closing[0] = 2;
    look(jb_coming_row(&run, &row) == JB_OK && row == 0, "closed at its deadline", run.closing[0]);
    run.closing[0] = 1;
    look(jb_coming_row(&run, &row) == JB_UNSOUND, "closed before its deadline", run.closing[0]);
    look(jb_is_dropped(&run, 1) && !jb_is_dropped_for_deadline(&run, 1), "dropped before its deadline", run.closing[0]);
    run.table.level[0] = JB_HI;
    run.closing[0] = 2;
    look(jb_coming_row(&run, &row) == JB_UNSOUND, "a HI row closed without its work", run.closing[0]);
    run.closing[0] = 0;
    look(jb_coming_row(&run, &row) == JB_OK && row == 1 && jb_is_late(&run, 1), "a HI row open at its deadline, clock", run.clock);
}

/* The largest need, one that is rounded up, and 0 where N, K or the work is beyond its limits. */
static void look_at_needs(void) {
    jb_table table = table_of_row(JB_MOST_WORK, 2, JB_HI);
    table.normal = 1;
    table.loading = JB_MOST_LOADING;
    look(jb_need(&table, 1) == JB_MOST_WORK + JB_MOST_LOADING, "the largest need", jb_need(&table, 1));
    table.work[1] = 1;
    look(jb_need(&table, 0) == 0 && jb_need(&table, 2) == 0 && jb_need(&table, 65) == 0, "need of no row", 2);
    table.loading++;
    look(jb_need(&table, 1) == 0, "no need with K", table.loading);
    table.loading = 0;
    table.work[0]++;
    look(jb_need(&table, 1) == 0, "no need of work", table.work[0]);
    table.work[0] = 1001;
    table.normal = JB_MOST_SPEED;
    look(jb_need(&table, 1) == 2, "need rounded up", jb_need(&table, 1));
    table.normal++;
    look(jb_need(&table, 1) == 0, "no need with N", table.normal);
}

/* More promised than the row's work, or a part of a HI row, is 12, after 5 in any row. */
static void look_at_wrong_promises(void) {
    char sheet[] = "       2       2       1       0\n"
                   "       0       2       2       0       3       0\n"
                   "       0       4       4       1       0       0\n";
    jb_table table;
    uint32_t length;
    look_at_refused_sheet(sheet, sizeof sheet - 1, JB_PROMISED);
    sheet[JB_FIRST_LINE + 5 * JB_FIELD - 1] = '2';
    look(jb_read_table((const uint8_t *)sheet, sizeof sheet - 1, &table) == JB_OK && table.promised[0] == 2, "a sheet that promises", 2);
    table.promised[0] = 3;
    look_at_refused_table(&table, JB_PROMISED);
    table.promised[0] = 0;
    table.promised[1] = 1;
    look_at_refused_table(&table, JB_PROMISED);
    table.release[1] = table.deadline[1];
    look_at_refused_table(&table, JB_ROW_LIMITS);
    table.release[1] = 0;
    table.promised[1] = 0;
    table.promised[2] = 1;
    look(jb_write_table(&table, NULL, 0, &length) == JB_ROW_LIMITS, "5 for what is promised after the last row", 3);
}

/* A table of up to three rows with N 2 and G 1, and how it is answered: refused, or taken (0). */
typedef struct {
    jb_row rows[3];
    uint32_t number;
} wait_case;

/*
 * 13 for a row that follows itself, one below it, one that is not there or one beyond all
 * rows; 14 for a follower with an earlier release than the row that it follows has, and
 * not with the same; 15 for a HI follower of a LO row, and no other one. Of several the
 * first row counts, in it the lowest number, and whatever comes before 13 counts before
 * them.
 */
static const wait_case WAIT_CASES[] = {
    {{{0, 1, 9, JB_LO, 0, 1}, {0, 0, 0, 0, 0, 0}, {0, 0, 0, 0, 0, 0}}, JB_NOT_LOWER},
    {{{0, 1, 9, JB_LO, 0, 2}, {0, 1, 9, JB_LO, 0, 0}, {0, 0, 0, 0, 0, 0}}, JB_NOT_LOWER},
    {{{0, 1, 9, JB_LO, 0, 0}, {0, 1, 9, JB_LO, 0, 3}, {0, 0, 0, 0, 0, 0}}, JB_NOT_LOWER},
    {{{0, 1, 9, JB_LO, 0, 0}, {0, 1, 9, JB_LO, 0, JB_ROWS + 1}, {0, 0, 0, 0, 0, 0}}, JB_NOT_LOWER},
    {{{0, 1, 9, JB_LO, 0, 0}, {0, 1, 9, JB_LO, 0, UINT32_MAX}, {0, 0, 0, 0, 0, 0}}, JB_NOT_LOWER},
    {{{0, 1, 9, JB_LO, 0, 0}, {0, 1, 9, JB_LO, 0, 1}, {0, 0, 0, 0, 0, 0}}, JB_OK},
    {{{1, 1, 9, JB_LO, 0, 0}, {0, 1, 9, JB_LO, 0, 1}, {0, 0, 0, 0, 0, 0}}, JB_RELEASED_LATER},
    {{{0, 1, 9, JB_LO, 0, 0}, {1, 1, 9, JB_LO, 0, 1}, {0, 0, 0, 0, 0, 0}}, JB_OK},
    {{{0, 1, 9, JB_LO, 0, 0}, {0, 1, 9, JB_HI, 0, 1}, {0, 0, 0, 0, 0, 0}}, JB_FOLLOWS_LOW},
    {{{0, 1, 9, JB_HI, 0, 0}, {0, 1, 9, JB_LO, 0, 1}, {0, 0, 0, 0, 0, 0}}, JB_OK},
    {{{0, 1, 9, JB_HI, 0, 0}, {0, 1, 9, JB_HI, 0, 1}, {0, 1, 9, JB_LO, 0, 2}}, JB_OK},
    {{{1, 1, 9, JB_LO, 0, 0}, {0, 1, 9, JB_HI, 0, 1}, {0, 0, 0, 0, 0, 0}}, JB_RELEASED_LATER},
    {{{0, 1, 9, JB_LO, 0, 0}, {0, 1, 9, JB_HI, 0, 1}, {0, 1, 9, JB_LO, 0, 3}}, JB_FOLLOWS_LOW},
    {{{1, 1, 9, JB_LO, 0, 0}, {0, 1, 9, JB_LO, 0, 1}, {0, 1, 9, JB_LO, 0, 3}}, JB_RELEASED_LATER},
    {{{0, 1, 9, JB_LO, 0, 1}, {0, 1, 9, JB_LO, 2, 0}, {0, 0, 0, 0, 0, 0}}, JB_PROMISED},
    {{{0, 1, 9, JB_LO, 0, 1}, {9, 1, 9, JB_LO, 0, 0}, {0, 0, 0, 0, 0, 0}}, JB_ROW_LIMITS},
};

static void look_at_wrong_waits(void) {
    char sheet[] = "       2       2       1       0\n"
                   "       0       2       2       0       0       0\n"
                   "       0       4       4       0       0       2\n";
    jb_table table;
    uint32_t length;
    for (unsigned index = 0; index < sizeof WAIT_CASES / sizeof WAIT_CASES[0]; index++) {
        const wait_case *expected = &WAIT_CASES[index];
        table = table_of_rows(2, 1, expected->rows, 3);
        if (expected->number == JB_OK) {
            look(jb_write_table(&table, NULL, 0, &length) == JB_NO_ROOM, "taken, wait case", index);
        } else {
            look_at_refused_table(&table, expected->number);
        }
    }
    look_at_refused_sheet(sheet, sizeof sheet - 1, JB_NOT_LOWER);
    sheet[sizeof sheet - 3] = '1';
    look(jb_read_table((const uint8_t *)sheet, sizeof sheet - 1, &table) == JB_OK && table.follows[1] == 1, "a sheet with a follower of row", 1);
    table.follows[2] = 1;
    look(jb_write_table(&table, NULL, 0, &length) == JB_ROW_LIMITS, "5 for a followed row after the last row", 3);
}

/*
 * A LO row of 6 work units with N 2, G 1 and K 1 has a need of 4 slots. Of a promised
 * part of up to 3 the allowance stays so; 4 take 5 slots at G, and 6 take 7. With 1 work
 * unit from each slot it has 4 at clock 5 and is dropped there, its promise kept.
 */
static void look_at_promises(void) {
    const uint8_t order[JB_ROWS] = {1};
    jb_table table = table_of_row(6, 9, JB_LO);
    jb_run run;
    uint32_t yes;
    uint32_t row;
    int32_t slack;
    table.loading = 1;
    for (uint32_t promised = 0; promised <= 6; promised++) {
        const uint32_t moment = promised == 0 ? 0 : promised + 1;
        table.promised[0] = promised;
        look(jb_need(&table, 1) == 4, "need, promised", promised);
        look(jb_allowance(&table, 1) == (moment > 4 ? moment : 4), "allowance, promised", promised);
        look(jb_judge_order(&table, order, &yes, &row, &slack) == JB_OK && yes == 1 && row == 1, "verdict, promised", promised);
        look(slack == 9 - (int32_t)(moment > 4 ? moment : 4), "slack, promised", promised);
    }
    table.promised[0] = 4;
    look(jb_fresh_run(&table, order, &run) == JB_OK, "fresh", 0);
    for (uint32_t slot = 0; slot < 5; slot++) {
        look(jb_is_open(&run, 1) && !jb_has_promised(&run, 1), "open without its promised part at", slot);
        look(jb_work_slot(&run, 1, &row) == JB_OK && row == 1, "slot", slot);
    }
    look(jb_is_dropped(&run, 1) && jb_has_promised(&run, 1) && run.closing[0] == 5 && run.got[0] == 4, "dropped with its part at", run.closing[0]);
    look(!jb_is_dropped_for_deadline(&run, 1), "dropped for its allowance at", run.closing[0]);
    table.deadline[0] = 4;
    look(jb_judge_order(&table, order, &yes, &row, &slack) == JB_OK && yes == 0 && slack == -1, "a promised part too late, deadline", 4);
    look(jb_fresh_run(&table, order, &run) == JB_OK, "fresh", 0);
    for (uint32_t slot = 0; slot < 4; slot++) {
        look(jb_work_slot(&run, 1, &row) == JB_OK && row == 1, "slot", slot);
    }
    look(jb_is_dropped_for_deadline(&run, 1) && !jb_has_promised(&run, 1) && run.got[0] == 3, "dropped without its part at", run.closing[0]);
}

/* A run of rows of which row 2 follows row 1: the supply of each slot and the row that it runs, up to the slot in which row 2 runs. */
typedef struct {
    uint32_t normal;
    uint32_t degraded;
    jb_row rows[3]; /* the last of no work where there is none */
    uint8_t order[JB_ROWS];
    uint32_t slots;
    uint32_t supplies[6];
    uint32_t ran[6];
    uint32_t closed; /* the clock at which row 1 closes, in slots */
    int dropped;     /* row 1 is dropped, and not done */
} follower_case;

/*
 * Row 1 is preempted by row 3 and done at 5; it is dropped at 2 when its allowance is used
 * up; it is dropped at 2 by the clock while row 3 runs. Row 2 runs in the slot after that.
 */
static const follower_case FOLLOWER_CASES[] = {
    {1, 1, {{0, 3, 9, JB_LO, 0, 0}, {0, 1, 9, JB_LO, 0, 1}, {1, 2, 4, JB_HI, 0, 0}}, {3, 1, 2}, 6, {1, 1, 1, 1, 1, 1}, {1, 3, 3, 1, 1, 2}, 5, 0},
    {2, 1, {{0, 4, 9, JB_LO, 0, 0}, {0, 2, 9, JB_LO, 0, 1}, {0, 0, 0, 0, 0, 0}}, {1, 2}, 3, {1, 1, 2}, {1, 1, 2}, 2, 1},
    {1, 1, {{0, 2, 2, JB_LO, 0, 0}, {0, 1, 5, JB_LO, 0, 1}, {0, 2, 2, JB_HI, 0, 0}}, {3, 1, 2}, 3, {1, 1, 1}, {3, 3, 2}, 2, 1},
};

/* Row 2 waits until row 1 is closed, and no longer; without its wait every slot would have gone the same way. */
static void look_at_followers(void) {
    for (unsigned index = 0; index < sizeof FOLLOWER_CASES / sizeof FOLLOWER_CASES[0]; index++) {
        const follower_case *expected = &FOLLOWER_CASES[index];
        const jb_table table = table_of_rows(expected->normal, expected->degraded, expected->rows, 3);
        jb_table free_of_waits = table;
        jb_run run;
        jb_run other;
        uint32_t row;
        memset(free_of_waits.follows, 0, sizeof free_of_waits.follows);
        look(jb_fresh_run(&table, expected->order, &run) == JB_OK, "fresh, follower case", index);
        look(jb_fresh_run(&free_of_waits, expected->order, &other) == JB_OK, "fresh without waits, follower case", index);
        for (uint32_t slot = 0; slot < expected->slots; slot++) {
            look(jb_is_waiting(&run, 2) == (run.clock < expected->closed) && !jb_is_waiting(&run, 1), "waiting, follower case", index);
            look(jb_coming_row(&run, &row) == JB_OK && row == expected->ran[slot], "coming, follower case", index);
            look(jb_work_slot(&run, expected->supplies[slot], &row) == JB_OK && row == expected->ran[slot], "slot, follower case", index);
            look(jb_work_slot(&other, expected->supplies[slot], &row) == JB_OK && row == expected->ran[slot], "without waits, follower case", index);
            look(memcmp(&run.clock, &other.clock, sizeof run - offsetof(jb_run, clock)) == 0, "one state, follower case", index);
        }
        look(run.closing[0] == expected->closed && jb_is_dropped(&run, 1) == expected->dropped, "row 1, follower case", index);
        look(jb_is_done(&run, 2) && !jb_is_waiting(&run, 2), "row 2, follower case", index);
    }
}

/* Orders that keep the waits of three rows alike, and orders that break one: 6 for these, and a record with one is unsound. */
static void look_at_orders_of_followers(void) {
    const jb_row rows[] = {{0, 1, 9, JB_LO, 0, 0}, {0, 1, 9, JB_LO, 0, 1}, {0, 1, 9, JB_LO, 0, 2}};
    const uint8_t orders[][JB_ROWS] = {{1, 2, 3}, {2, 1, 3}, {1, 3, 2}, {3, 2, 1}};
    jb_table table = table_of_rows(1, 1, rows, 3);
    for (unsigned index = 0; index < sizeof orders / sizeof orders[0]; index++) {
        const uint32_t number = index == 0 ? JB_OK : JB_NOT_AN_ORDER;
        jb_run run;
        uint32_t finishes[JB_ROWS];
        uint32_t length = 7;
        uint32_t row = 7;
        look(jb_fresh_run(&table, orders[index], &run) == number && all_zero(&run, sizeof run) == (number != JB_OK), "fresh, order", index);
        look(jb_worst_finishes(&table, orders[index], finishes) == number, "finishes, order", index);
        look(jb_report_order(&table, orders[index], NULL, 0, &length) == (number == JB_OK ? (uint32_t)JB_NO_ROOM : number), "report, order", index);
        run.table = table;
        memcpy(run.order, orders[index], JB_ROWS);
        look(jb_coming_row(&run, &row) == (number == JB_OK ? JB_OK : JB_UNSOUND) && row == (number == JB_OK ? 1u : 0u), "coming, order", index);
    }
}

/*
 * The planner keeps waits: a chain of three rows alike stands as it is, and without its
 * waits the other way round. A row that has to be first and follows another leaves no
 * order, though there is one without the wait.
 */
static void look_at_plans_of_followers(void) {
    const jb_row chain[] = {{0, 1, 9, JB_LO, 0, 0}, {0, 1, 9, JB_LO, 0, 1}, {0, 1, 9, JB_LO, 0, 2}};
    const jb_row urgent[] = {{0, 1, 9, JB_LO, 0, 0}, {0, 1, 1, JB_LO, 0, 1}};
    const uint8_t planned[][JB_ROWS] = {{1, 2, 3}, {3, 2, 1}, {0}, {2, 1}};
    for (unsigned index = 0; index < 4; index++) {
        jb_table table = index < 2 ? table_of_rows(1, 1, chain, 3) : table_of_rows(1, 1, urgent, 2);
        const uint32_t number = index == 2 ? JB_NO_ORDER : JB_OK;
        uint8_t order[JB_ROWS];
        uint64_t left = 7;
        if (index % 2 == 1) {
            memset(table.follows, 0, sizeof table.follows);
        }
        look(jb_plan_table(&table, order, &left) == number && left == (number == JB_OK ? 0u : 3u), "number and rows left, plan", index);
        look(memcmp(order, planned[index], JB_ROWS) == 0, "order, plan", index);
    }
}

/* A table of up to four rows without loading, what the planner answers to it, and the trials that it takes. */
typedef struct {
    uint32_t normal;
    uint32_t degraded;
    jb_row rows[4]; /* up to the first of no work */
    uint32_t number;
    uint8_t order[JB_ROWS];
    uint64_t left;
    uint32_t trials;
} ceiling_case;

/*
 * Rule 13.17: P1; a skipped row, which counts none, in a table with an order and in one
 * without; stuck after a place, and at once; a single row; the most trials that two rows
 * can take.
 */
static const ceiling_case CEILING_CASES[] = {
    {5, 2, {{0, 20, 10, JB_HI, 0, 0}, {5, 15, 10, JB_LO, 0, 0}, {5, 11, 19, JB_HI, 0, 0}, {0, 5, 5, JB_LO, 0, 0}}, JB_OK, {1, 2, 3, 4}, 0, 6},
    {1, 1, {{0, 1, 9, JB_LO, 0, 0}, {0, 1, 5, JB_LO, 0, 1}, {0, 0, 0, 0, 0, 0}, {0, 0, 0, 0, 0, 0}}, JB_OK, {1, 2}, 0, 2},
    {1, 1, {{0, 2, 2, JB_HI, 0, 0}, {0, 2, 3, JB_HI, 0, 1}, {0, 0, 0, 0, 0, 0}, {0, 0, 0, 0, 0, 0}}, JB_NO_ORDER, {0}, 3, 1},
    {1, 1, {{0, 1, 9, JB_LO, 0, 0}, {0, 2, 2, JB_HI, 0, 0}, {0, 2, 2, JB_HI, 0, 0}, {0, 2, 2, JB_HI, 0, 0}}, JB_NO_ORDER, {0}, 14, 4},
    {1, 1, {{0, 2, 2, JB_HI, 0, 0}, {0, 2, 2, JB_HI, 0, 0}, {0, 2, 2, JB_HI, 0, 0}, {0, 0, 0, 0, 0, 0}}, JB_NO_ORDER, {0}, 7, 3},
    {1, 1, {{0, 1, 1, JB_HI, 0, 0}, {0, 0, 0, 0, 0, 0}, {0, 0, 0, 0, 0, 0}, {0, 0, 0, 0, 0, 0}}, JB_OK, {1}, 0, 1},
    {1, 1, {{0, 2, 2, JB_LO, 0, 0}, {0, 1, 3, JB_HI, 0, 0}, {0, 0, 0, 0, 0, 0}, {0, 0, 0, 0, 0, 0}}, JB_OK, {1, 2}, 0, 3},
};

/* Every ceiling below the trials that a table takes is answered 19 with the ceiling as trials; from there on the answer is the planner's. */
static void look_at_ceilings(void) {
    const uint8_t zeros[JB_ROWS] = {0};
    const uint32_t high[] = {256, 65536, 1u << 31, UINT32_MAX};
    for (unsigned index = 0; index < sizeof CEILING_CASES / sizeof CEILING_CASES[0]; index++) {
        const ceiling_case *expected = &CEILING_CASES[index];
        const jb_table table = table_of_rows(expected->normal, expected->degraded, expected->rows, 4);
        const uint32_t most = jb_most_trials(table.n);
        uint8_t order[JB_ROWS];
        uint64_t left = 7;
        look(expected->trials <= most, "at most the trials of its rows, ceiling case", index);
        for (uint32_t ceiling = 0; ceiling < expected->trials; ceiling++) {
            look_at_ceiling(&table, ceiling, JB_OVER_CEILING, zeros, 0, ceiling);
        }
        for (uint32_t ceiling = expected->trials; ceiling <= most + 1; ceiling++) {
            look_at_ceiling(&table, ceiling, expected->number, expected->order, expected->left, expected->trials);
        }
        for (unsigned other = 0; other < sizeof high / sizeof high[0]; other++) {
            look_at_ceiling(&table, high[other], expected->number, expected->order, expected->left, expected->trials);
        }
        look(jb_plan_table(&table, order, &left) == expected->number, "number without a ceiling, ceiling case", index);
        look(left == expected->left && memcmp(order, expected->order, sizeof order) == 0, "plan without a ceiling, ceiling case", index);
    }
}

/* A table that the checks refuse takes no trial, whatever the ceiling: one of 0 rows, and one whose release is its deadline (rule 13.17). */
static void look_at_refused_ceilings(void) {
    const uint8_t zeros[JB_ROWS] = {0};
    const jb_row row = {4, 1, 4, JB_LO, 0, 0};
    const jb_table late = table_of_rows(1, 1, &row, 1);
    const jb_table none = table_of_rows(1, 1, &row, 0);
    const uint32_t ceilings[] = {0, 6};
    for (unsigned index = 0; index < 2; index++) {
        look_at_ceiling(&none, ceilings[index], JB_ROW_COUNT, zeros, 0, 0);
        look_at_ceiling(&late, ceilings[index], JB_ROW_LIMITS, zeros, 0, 0);
    }
}

/* What a table of so many rows takes at most, in trials; above 64 rows it is as for 64, up to the largest figure. */
static void look_at_most_trials(void) {
    const uint32_t above[] = {JB_ROWS, JB_ROWS + 1, 92681, 92682, 1u << 31, UINT32_MAX};
    uint32_t sum = 0;
    for (uint32_t rows = 0; rows <= JB_ROWS; rows++) {
        sum += rows;
        look(jb_most_trials(rows) == sum, "the most trials of rows", rows);
    }
    for (unsigned index = 0; index < sizeof above / sizeof above[0]; index++) {
        look(jb_most_trials(above[index]) == 2080 && JB_MOST_TRIALS == 2080, "the most trials of rows", above[index]);
    }
}

/* A table of up to four rows without loading, how many of its orders are correct, in how many of these each row stands lowest, and the scratch afterwards. */
typedef struct {
    uint32_t normal;
    uint32_t degraded;
    jb_row rows[4]; /* up to the first of no work */
    uint32_t count;
    uint32_t lowest[4];
    uint32_t entries[16]; /* those of its sets of rows */
} count_case;

/*
 * P1; P3; three rows of which two follow the first; a followed row that has another number where
 * a row above it is left out; a promised part that is late below; a row alone.
 */
static const count_case COUNT_CASES[] = {
    {5, 2, {{0, 20, 10, JB_HI, 0, 0}, {5, 15, 10, JB_LO, 0, 0}, {5, 11, 19, JB_HI, 0, 0}, {0, 5, 5, JB_LO, 0, 0}}, 1, {0, 0, 0, 1},
     {1, 1, 1, 1, 1, 1, 1, 1, 1, 1, 2, 2, 2, 2, 3, 1}},
    {2, 1, {{0, 2, 2, JB_LO, 0, 0}, {0, 4, 4, JB_HI, 0, 0}, {0, 0, 0, 0, 0, 0}, {0, 0, 0, 0, 0, 0}}, 0, {0, 0, 0, 0}, {1, 1, 1, 0}},
    {1, 1, {{0, 1, 9, JB_LO, 0, 0}, {0, 1, 9, JB_LO, 0, 1}, {0, 1, 9, JB_LO, 0, 1}, {0, 0, 0, 0, 0, 0}}, 2, {0, 1, 1, 0},
     {1, 1, 1, 1, 1, 1, 2, 2}},
    {1, 1, {{0, 1, 9, JB_LO, 0, 0}, {0, 1, 9, JB_LO, 0, 0}, {0, 1, 9, JB_LO, 0, 0}, {0, 1, 9, JB_LO, 0, 2}}, 12, {3, 0, 3, 6},
     {1, 1, 1, 2, 1, 2, 2, 6, 1, 2, 1, 3, 2, 6, 3, 12}},
    {4, 1, {{0, 4, 9, JB_HI, 0, 0}, {0, 8, 4, JB_LO, 1, 0}, {0, 0, 0, 0, 0, 0}, {0, 0, 0, 0, 0, 0}}, 1, {1, 0, 0, 0}, {1, 1, 1, 1}},
    {1, 1, {{0, 1, 1, JB_HI, 0, 0}, {0, 0, 0, 0, 0, 0}, {0, 0, 0, 0, 0, 0}, {0, 0, 0, 0, 0, 0}}, 1, {1, 0, 0, 0}, {1, 1}},
};

/* Counts, lowest rows and every number of the scratch, in just enough of it and in more; a number too few is refused. */
static void look_at_counts(void) {
    const size_t most = MOST_LENT;
    for (unsigned index = 0; index < sizeof COUNT_CASES / sizeof COUNT_CASES[0]; index++) {
        const count_case *expected = &COUNT_CASES[index];
        const jb_table table = table_of_rows(expected->normal, expected->degraded, expected->rows, 4);
        const size_t sets = (size_t)1 << table.n;
        for (size_t numbers = JB_SCRATCH; numbers <= most; numbers += most - JB_SCRATCH) {
            uint32_t count = 7;
            uint32_t lowest[JB_ROWS];
            memset(lowest, 7, sizeof lowest);
            fill_scratch();
            look(jb_count_orders(&table, scratch, numbers, &count, lowest) == JB_OK && count == expected->count, "count, case", index);
            look(memcmp(lowest, expected->lowest, sizeof expected->lowest) == 0, "lowest rows, case", index);
            look(all_zero(lowest + table.n, (JB_ROWS - table.n) * sizeof lowest[0]), "no lowest rows after the last, case", index);
            look(memcmp(scratch, expected->entries, sets * sizeof scratch[0]) == 0, "the scratch, case", index);
            look(is_scratch_left(sets), "the scratch after its sets, case", index);
        }
        look_at_no_count(&table, scratch, JB_SCRATCH - 1, JB_NO_ROOM);
        look_at_no_count(&table, scratch, sets, JB_NO_ROOM);
    }
}

/* All arrangements of up to twelve rows are correct orders where there is time for all; thirteen rows are refused by 20, whatever is lent. */
static void look_at_most_counted(void) {
    uint32_t product = 1;
    look(jb_arrangements(0) == 1 && jb_arrangements(JB_MOST_COUNTED) == 479001600u, "arrangements of rows", JB_MOST_COUNTED);
    for (uint32_t rows = 1; rows <= JB_ROWS; rows++) {
        jb_table table;
        memset(&table, 0, sizeof table);
        table.n = rows;
        table.normal = 1;
        table.degraded = 1;
        for (uint32_t index = 0; index < rows; index++) {
            table.work[index] = 1;
            table.deadline[index] = JB_ROWS;
        }
        if (rows > JB_MOST_COUNTED) {
            look(jb_arrangements(rows) == 0, "no arrangements of rows", rows);
            look_at_no_count(&table, scratch, JB_SCRATCH, JB_TOO_MANY_ROWS);
            look_at_no_count(&table, NULL, 0, JB_TOO_MANY_ROWS);
            continue;
        }
        uint32_t count;
        uint32_t lowest[JB_ROWS];
        product *= rows;
        look(jb_arrangements(rows) == product, "arrangements of rows", rows);
        look(jb_count_orders(&table, scratch, JB_SCRATCH, &count, lowest) == JB_OK && count == product, "all orders of rows", rows);
        look(lowest[rows - 1] == product / rows && scratch[((size_t)1 << rows) - 1] == product, "lowest row and last set of rows", rows);
    }
    look(jb_arrangements(UINT32_MAX) == 0, "no arrangements of rows", UINT32_MAX);
}

/* Asking for a sheet gives its table and the planner's order; of P3, which has none, it tells the rows left. */
static void look_at_asking(void) {
    const char sheet[] = "       2       2       1       0\n"
                         "       7       2       9       0       0       0\n"
                         "       7       4      12       1       0       0\n";
    jb_table table;
    jb_table read;
    uint8_t order[JB_ROWS];
    uint8_t planned[JB_ROWS];
    uint64_t left = 7;
    look_at_no_proposal(P3, sizeof P3 - 1, JB_NO_ORDER, 3);
    look_at_no_proposal(P3, sizeof P3 - 2, JB_LENGTH, 0);
    look(jb_ask_sheet((const uint8_t *)sheet, sizeof sheet - 1, &table, order, &left) == JB_OK && left == 0, "asked, rows left", (unsigned)left);
    look(jb_read_table((const uint8_t *)sheet, sizeof sheet - 1, &read) == JB_OK, "read", 0);
    look(memcmp(&table, &read, sizeof read) == 0, "the table asked for", table.n);
    look(jb_plan_table(&read, planned, &left) == JB_OK && memcmp(order, planned, sizeof order) == 0, "the order asked for", order[0]);
}

/* The table of two rows that are to be committed at clock 7: a LO and a HI row of one slot at N 2, released there or later. */
static jb_table next_table(uint32_t first_release, uint32_t second_release) {
    const jb_row rows[] = {{first_release, 2, 9, JB_LO, 0, 0}, {second_release, 2, 20, JB_HI, 0, 0}};
    return table_of_rows(2, 1, rows, 2);
}

/* A commit at the clock of the least release and before it: the table, the order, the clock, and all rows open and empty. */
static void look_at_commits(void) {
    const uint8_t order[JB_ROWS] = {1, 2};
    for (uint32_t release = 7; release <= 8; release++) {
        const jb_table next = next_table(release, 8);
        jb_run run = closed_run();
        uint32_t row;
        look(jb_first_open(&run) == 0 && jb_first_released_before(&next, run.clock) == 0, "nothing in the way, release", release);
        look(jb_commit_sheet(&run, &next, order) == JB_OK, "committed, release", release);
        look(memcmp(&run.table, &next, sizeof next) == 0 && memcmp(run.order, order, sizeof order) == 0, "table and order, release", release);
        look(run.clock == 7 && all_zero(run.got, sizeof run - offsetof(jb_run, got)), "clock and rows, release", release);
        look(jb_first_open(&run) == 1, "the first open row, release", release);
        look(jb_coming_row(&run, &row) == JB_OK && row == (release == 7 ? 1u : 0u), "coming after a commit, release", release);
        look_at_no_commit(&run, &next, order, JB_ROW_OPEN);
    }
}

/* 9, then 6, 16, 17 and 18, each before those after it; a proposal that has all of these faults loses them one by one. */
static void look_at_refused_commits(void) {
    const uint8_t twice[JB_ROWS] = {1, 1};
    const uint8_t wrong_order[JB_ROWS] = {2, 1};
    const uint8_t order[JB_ROWS] = {1, 2};
    jb_table next = next_table(7, 6);
    jb_run run = closed_run();
    run.closing[0] = run.got[0] = run.used[0] = 0;
    next.work[1] = 6; /* above row 1 it takes three slots at N, so that row 1 is late */
    run.clock = JB_LAST_CLOCK + 1;
    look_at_no_commit(&run, &next, twice, JB_UNSOUND);
    run.clock = 7;
    look_at_no_commit(&run, &next, twice, JB_NOT_AN_ORDER);
    look_at_no_commit(&run, &next, wrong_order, JB_NOT_CORRECT);
    look_at_no_commit(&run, &next, order, JB_ROW_OPEN);
    look(jb_first_open(&run) == 1, "the first open row", jb_first_open(&run));
    run = closed_run();
    look_at_no_commit(&run, &next, order, JB_RELEASED_BEFORE);
    look(jb_first_released_before(&next, 7) == 2, "the row released before", jb_first_released_before(&next, 7));
    jb_start_later(&next, 1);
    look(next.release[0] == 8 && next.release[1] == 7 && next.deadline[0] == 10 && next.deadline[1] == 21, "a start later by", 1);
    look(next.release[2] == 0 && next.deadline[2] == 0, "no row is moved after the last one, row", 3);
    look(jb_commit_sheet(&run, &next, order) == JB_OK && run.clock == 7, "committed at", run.clock);
}

/* The same sheet again, from copies of the record's own table and order; the latest deadline, and a slot more. */
static void look_at_sheet_again(void) {
    jb_run run = closed_run();
    jb_table again = run.table;
    uint8_t order[JB_ROWS];
    memcpy(order, run.order, sizeof order);
    look_at_no_commit(&run, &again, order, JB_RELEASED_BEFORE);
    jb_start_later(&again, JB_LAST_DEADLINE - 9);
    look(jb_commit_sheet(&run, &again, order) == JB_OK && run.table.deadline[0] == JB_LAST_DEADLINE, "the latest deadline", run.table.deadline[0]);
    run = closed_run();
    jb_start_later(&again, 1);
    look_at_no_commit(&run, &again, order, JB_ROW_LIMITS);
    /* A count that no table has does not lead out of the columns. */
    again.n = run.table.n = UINT32_MAX;
    memset(run.closing, 1, sizeof run.closing);
    memset(again.release, 1, sizeof again.release);
    jb_start_later(&again, 1);
    look(again.release[JB_ROWS - 1] == 0x01010102u && again.work[0] == 1, "moved up to row", JB_ROWS);
    look(jb_first_open(&run) == 0 && jb_first_released_before(&again, 2) == 0, "no row beyond", JB_ROWS);
}

/* An answer and its sentence, examples of rule 24.8. */
typedef struct {
    jb_answer answer;
    const char *sentence;
} sentence_case;

static const sentence_case SENTENCE_CASES[] = {
    {{JB_PLANNER, JB_OK, 0, {1, 2, 3, 4}, 6, 0, 0, 0},
     "The planner answers number 0 (an order was made): 6 trials, 4 rows in the order (highest first: 1, 2, 3, 4), 0 rows left."},
    {{JB_PLANNER, JB_NO_ORDER, 3, {0}, 2, 0, 0, 0},
     "The planner answers number 7 (no correct order exists): 2 trials, 0 rows in the order, 2 rows left (1, 2)."},
    {{JB_PLANNER, JB_OVER_CEILING, 0, {0}, 5, 0, 0, 0},
     "The planner answers number 19 (refused: planning takes more trials than the ceiling): 5 trials, 0 rows in the order, 0 rows left."},
    {{JB_PLANNER, 4000000000u, ((uint64_t)1 << 63) + 1, {0, 0, 255}, 1, 0, 0, 0},
     "The planner answers number 4000000000 (a number without a meaning): 1 trial, 3 rows in the order (highest first: 0, 0, 255), "
     "2 rows left (1, 64)."},
    {{JB_JUDGE, JB_OK, 0, {0}, 0, 1, 1, 0}, "The judge says yes (number 0, the order is correct): tightest row 1, slack 0 slots."},
    {{JB_JUDGE, JB_OK, 0, {0}, 0, 0, 1, -10}, "The judge says no (number 0, the order is not correct): tightest row 1, slack -10 slots."},
    {{JB_JUDGE, JB_NOT_AN_ORDER, 0, {0}, 0, 0, 0, 0},
     "The judge says no (number 6, refused: the numbers are not an order of the table): tightest row 0, slack 0 slots."},
    {{JB_JUDGE, JB_OK, 0, {0}, 0, 7, UINT32_MAX, INT32_MIN},
     "The judge says 7, neither yes nor no (number 0, an order was judged): tightest row 4294967295, slack -2147483648 slots."},
};

/* The sentence of an answer by the function for its kind. */
static uint32_t write_answer(const jb_answer *answer, uint8_t *line, size_t room, uint32_t *length) {
    return answer->kind == JB_PLANNER
               ? jb_write_plan(answer->number, answer->left, answer->order, answer->trials, line, room, length)
               : jb_write_verdict(answer->number, answer->yes, answer->row, answer->slack, line, room, length);
}

/* The bytes are read as this answer, or refused with zeros where none is named. */
static void look_at_answer(const uint8_t *line, size_t length, const jb_answer *expected, unsigned index) {
    jb_answer answer;
    memset(&answer, 7, sizeof answer);
    const uint32_t number = jb_read_answer(line, length, &answer);
    look(number == (expected != NULL ? (uint32_t)JB_OK : (uint32_t)JB_MALFORMED), "number of a sentence, case", index);
    look(expected != NULL ? memcmp(&answer, expected, sizeof answer) == 0 : all_zero(&answer, sizeof answer), "what a sentence tells, case", index);
}

/* A sentence in just its length, in a byte less and in all the room that any has; read back; and one byte more or less, which are no sentence. */
static void look_at_sentences(void) {
    uint8_t line[JB_LONGEST_SENTENCE];
    for (unsigned index = 0; index < sizeof SENTENCE_CASES / sizeof SENTENCE_CASES[0]; index++) {
        const sentence_case *expected = &SENTENCE_CASES[index];
        const size_t size = strlen(expected->sentence);
        uint32_t length = 7;
        memset(line, 7, sizeof line);
        look(write_answer(&expected->answer, line, size - 1, &length) == JB_NO_ROOM && length == 0, "a byte too few, sentence", index);
        look(all_are(line, sizeof line, 7), "nothing is written, sentence", index);
        for (unsigned more = 0; more < 2; more++) {
            memset(line, 7, sizeof line);
            look(write_answer(&expected->answer, line, more == 0 ? size : sizeof line, &length) == JB_OK, "number, sentence", index);
            look(length == size && memcmp(line, expected->sentence, size) == 0, "bytes, sentence", index);
            look(all_are(line + size, sizeof line - size, 7), "no byte 0 and no line end after it, sentence", index);
        }
        look_at_answer(line, size, &expected->answer, index);
        look_at_answer(line, size - 1, NULL, index);
        line[size] = '\n';
        look_at_answer(line, size + 1, NULL, index);
        line[size] = 0;
        look_at_answer(line, size + 1, NULL, index);
    }
}

/* The longest sentence of the planner and of the judge: 5 with all fields as long as they can be. */
static void look_at_longest_sentences(void) {
    jb_answer answers[2] = {{JB_PLANNER, JB_ROW_LIMITS, UINT64_MAX, {0}, UINT32_MAX, 0, 0, 0},
                            {JB_JUDGE, JB_ROW_LIMITS, 0, {0}, 0, UINT32_MAX, UINT32_MAX, INT32_MIN}};
    const uint32_t lengths[2] = {JB_LONGEST_SENTENCE, 177};
    uint8_t line[JB_LONGEST_SENTENCE];
    memset(answers[0].order, 255, sizeof answers[0].order);
    for (unsigned index = 0; index < 2; index++) {
        uint32_t length = 7;
        look(write_answer(&answers[index], line, lengths[index] - 1, &length) == JB_NO_ROOM && length == 0, "a byte too few, longest", index);
        look(write_answer(&answers[index], line, sizeof line, &length) == JB_OK && length == lengths[index], "longest sentence", length);
        look_at_answer(line, length, &answers[index], index);
    }
}

/* The list's verdict taken apart is the table's, slacks below zero too. */
static void look_at_lists(void) {
    const jb_row rows[] = {{0, 2, 2, JB_LO, 0, 0}, {0, 4, 4, JB_HI, 0, 0}};
    const uint8_t orders[][JB_ROWS] = {{1, 2}, {2, 1}, {1, 1}};
    jb_table table;
    look(jb_read_table((const uint8_t *)P3, sizeof P3 - 1, &table) == JB_OK, "P3", 0);
    for (unsigned index = 0; index < 3; index++) {
        uint32_t yes[2];
        uint32_t row[2];
        int32_t slack[2];
        const uint32_t number = jb_judge_order(&table, orders[index], &yes[0], &row[0], &slack[0]);
        look(jb_judge_list(rows, 2, 2, 1, 0, orders[index], &yes[1], &row[1], &slack[1]) == number, "number of order", index);
        look(yes[0] == yes[1] && row[0] == row[1] && slack[0] == slack[1], "verdict of order", index);
        look(number == JB_NOT_AN_ORDER || slack[0] < 0, "a slack below zero, order", index);
    }
}

int main(void) {
    look(jb_fits(), "the archive's interface is not this header's:", jb_version());
    look(jb_version() == JB_VERSION, "interface", jb_version());
    look_at_words();
    look_at_empty_lists();
    look_at_sheet();
    look_at_least_speeds();
    look_at_refused_speeds();
    look_at_reports_of_p3();
    look_at_longest_report();
    look_at_fields();
    look_at_long_loading();
    look_at_wrong_promises();
    look_at_wrong_waits();
    look_at_run();
    look_at_loading();
    look_at_deadlines();
    look_at_drops_of_others();
    look_at_soundness();
    look_at_needs();
    look_at_promises();
    look_at_followers();
    look_at_orders_of_followers();
    look_at_plans_of_followers();
    look_at_ceilings();
    look_at_refused_ceilings();
    look_at_most_trials();
    look_at_counts();
    look_at_most_counted();
    look_at_asking();
    look_at_commits();
    look_at_refused_commits();
    look_at_sheet_again();
    look_at_sentences();
    look_at_longest_sentences();
    look_at_lists();
    printf("header: %u things looked at, %u not as they should be\n", looked_at, wrong);
    return wrong == 0 ? 0 : 1;
}
