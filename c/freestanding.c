/*
 * The library without a C library: the two functions that the archive needs, an
 * entry of its own, and a run of case P1, with row 3 to follow row 1, from its sheet to
 * its last row, with LO rows dropped on the way; then the sheet is written back, a report
 * of its rows, its least G is asked for, it is planned with few trials and with enough, both
 * answers are put into sentences and one is read back, its correct orders are counted, and the
 * next sheet takes its place on the same clock. It shows what a board has to provide.
 * Build and run it on x86-64 Linux:
 *
 *     gcc -std=c11 -O2 -ffreestanding -nostdlib -static -fno-tree-loop-distribute-patterns \
 *         -o freestanding c/freestanding.c target/staticlib/libjasminebrace.a
 *
 * Exit status 0 if every step was as it should be, else the number of the step.
 */
#include "jasminebrace.h"

/* Without -fno-tree-loop-distribute-patterns the compiler may turn these loops into calls of themselves. */
void *memcpy(void *to, const void *from, size_t count);
void *memset(void *to, int byte, size_t count);

void *memcpy(void *to, const void *from, size_t count) {
    unsigned char *written = (unsigned char *)to;
    const unsigned char *read = (const unsigned char *)from;
    while (count-- > 0) {
        *written++ = *read++;
    }
    return to;
}

void *memset(void *to, int byte, size_t count) {
    unsigned char *written = (unsigned char *)to;
    while (count-- > 0) {
        *written++ = (unsigned char)byte;
    }
    return to;
}

static const char SHEET[] = "       4       5       2       0\n"
                            "       0      20      10       1       0       0\n"
                            "       5      15      10       0       0       0\n"
                            "       5      11      19       1       0       1\n"
                            "       0       5       5       0       0       0\n";

/* Its report under the planned order: place and row; need at N, worst finish and slack in slots. */
static const char REPORT[] = "         1         1         4        10         0\n"
                             "         2         2         3         8         2\n"
                             "         3         3         3        19         0\n"
                             "         4         4         1         5         0\n"
                             "        11         0\n";

/* What the planner answers with 5 trials, and with as many as the sheet takes; what the judge says of the order. */
static const char OVER[] = "The planner answers number 19 (refused: planning takes more trials than the ceiling): 5 trials, "
                           "0 rows in the order, 0 rows left.";
static const char PLANNED[] = "The planner answers number 0 (an order was made): 6 trials, "
                              "4 rows in the order (highest first: 1, 2, 3, 4), 0 rows left.";
static const char JUDGED[] = "The judge says yes (number 0, the order is correct): tightest row 1, slack 0 slots.";

/* The next sheet: one row that is released when the first sheet is over, at clock 19, and done in one slot of 5 work units. */
static const char NEXT[] = "       1       5       2       0\n"
                           "      19       5      24       1       0       0\n";

static jb_table table;
static jb_table next;
static jb_run run;
static uint8_t written[JB_LONGEST_SHEET];
static uint8_t report[JB_LONGEST_REPORT];
static uint8_t line[JB_LONGEST_SENTENCE];
static uint32_t scratch[JB_SCRATCH]; /* 16,384 bytes, for counting alone */

/* The supply of a slot in work units: between G and N, as a warming processor has it. */
static uint32_t supply_of(uint32_t slot) {
    return 2 + slot % 4;
}

/* The bytes written are those of the text, all of them and no more. */
static int same_text(const uint8_t *bytes, uint32_t length, const char *text) {
    for (uint32_t index = 0; index < length; index++) {
        if (text[index] == '\0' || bytes[index] != (uint8_t)text[index]) {
            return 0;
        }
    }
    return text[length] == '\0';
}

/* The next sheet is asked for and committed when the first is over, and is refused in its own place, where a row is open. */
static int next_sheet(void) {
    uint8_t order[JB_ROWS];
    uint64_t left;
    uint32_t row;
    if (jb_ask_sheet((const uint8_t *)NEXT, sizeof NEXT - 1, &next, order, &left) != JB_OK || left != 0) {
        return 13;
    }
    if (jb_first_open(&run) != 0 || jb_commit_sheet(&run, &next, order) != JB_OK || run.clock != 19) {
        return 14;
    }
    if (jb_commit_sheet(&run, &next, order) != JB_ROW_OPEN || jb_first_open(&run) != 1) {
        return 15;
    }
    return jb_work_slot(&run, 5, &row) == JB_OK && row == 1 && jb_is_done(&run, 1) && run.clock == 20 ? 0 : 16;
}

/* Of the 24 arrangements of its rows one is a correct order, the planned one, in which row 4 stands lowest; and a number of scratch too few is noticed. */
static int is_counted(void) {
    uint32_t count;
    uint32_t lowest[JB_ROWS];
    if (jb_count_orders(&table, scratch, JB_SCRATCH - 1, &count, lowest) != JB_NO_ROOM || count != 0 || scratch[0] != 0) {
        return 0;
    }
    return jb_count_orders(&table, scratch, JB_SCRATCH, &count, lowest) == JB_OK && count == 1 && lowest[3] == 1 && lowest[2] == 0 &&
           scratch[0] == 1 && scratch[15] == 1 && scratch[16] == 0 && jb_arrangements(table.n) == 24;
}

/* The planner's answer as a sentence. */
static int is_told(uint32_t number, uint64_t left, const uint8_t order[JB_ROWS], uint32_t trials, const char *sentence) {
    uint32_t length;
    return jb_write_plan(number, left, order, trials, line, sizeof line, &length) == JB_OK && same_text(line, length, sentence);
}

/* The judge's answer as a sentence, read back from it; a byte too few for it, and a byte too many in it, are noticed. */
static int is_read_back(const uint8_t order[JB_ROWS]) {
    jb_answer answer;
    uint32_t yes;
    uint32_t row;
    uint32_t length;
    int32_t slack;
    const uint32_t number = jb_judge_order(&table, order, &yes, &row, &slack);
    if (jb_write_verdict(number, yes, row, slack, line, sizeof JUDGED - 2, &length) != JB_NO_ROOM || length != 0) {
        return 0;
    }
    if (jb_write_verdict(number, yes, row, slack, line, sizeof line, &length) != JB_OK || !same_text(line, length, JUDGED)) {
        return 0;
    }
    line[length] = '\n';
    if (jb_read_answer(line, length + 1, &answer) != JB_MALFORMED || answer.kind != 0) {
        return 0;
    }
    return jb_read_answer(line, length, &answer) == JB_OK && answer.kind == JB_JUDGE && answer.number == number &&
           answer.yes == 1 && answer.row == row && answer.slack == slack;
}

/* The sheet takes 6 trials (rule 23.2): row 2 fails at the lowest place and row 4 passes, at the next row 2 fails and row 3 passes, then rows 2 and 1 pass. */
static int few_trials(void) {
    uint8_t order[JB_ROWS];
    uint64_t left = 1;
    uint32_t trials;
    if (jb_plan_table_within(&table, 5, order, &left, &trials) != JB_OVER_CEILING || trials != 5 || left != 0 || order[0] != 0) {
        return 17;
    }
    if (!is_told(JB_OVER_CEILING, left, order, trials, OVER)) {
        return 19;
    }
    if (jb_plan_table_within(&table, jb_most_trials(table.n), order, &left, &trials) != JB_OK || trials != 6 || order[3] != 4) {
        return 18;
    }
    if (!is_told(JB_OK, left, order, trials, PLANNED) || !is_read_back(order)) {
        return 20;
    }
    if (!is_counted()) {
        return 21;
    }
    return next_sheet();
}

static int steps(void) {
    uint8_t order[JB_ROWS];
    uint64_t left;
    uint32_t length;
    uint32_t speed;
    if (!jb_fits()) {
        return 1;
    }
    if (jb_read_table((const uint8_t *)SHEET, sizeof SHEET - 1, &table) != JB_OK) {
        return 2;
    }
    if (jb_plan_table(&table, order, &left) != JB_OK || left != 0) {
        return 3;
    }
    for (uint8_t place = 0; place < 4; place++) {
        if (order[place] != place + 1) {
            return 4;
        }
    }
    if (jb_fresh_run(&table, order, &run) != JB_OK) {
        return 5;
    }
    while (run.clock < 19) {
        const uint32_t supply = supply_of(run.clock);
        uint32_t coming;
        uint32_t row;
        const int waiting = jb_is_waiting(&run, 3);
        if (jb_coming_row(&run, &coming) != JB_OK || jb_work_slot(&run, supply, &row) != JB_OK || coming != row) {
            return 6;
        }
        /* Row 3 does not run while row 1 is open. */
        if (waiting != (run.closing[0] == 0 || run.closing[0] == run.clock) || (waiting && row == 3)) {
            return 12;
        }
    }
    /* Every slot supplied at least G, so both HI rows are done, neither of them late. */
    if (!jb_is_done(&run, 1) || jb_is_late(&run, 1) || !jb_is_done(&run, 3) || jb_is_late(&run, 3)) {
        return 7;
    }
    /* Row 4 never ran up to its deadline; row 2 had used its need of 3 slots when its own came. */
    if (!jb_is_dropped_for_deadline(&run, 4) || !jb_is_dropped(&run, 2) || jb_is_dropped_for_deadline(&run, 2)) {
        return 8;
    }
    if (jb_write_table(&table, written, sizeof written, &length) != JB_OK || !same_text(written, length, SHEET)) {
        return 9;
    }
    if (jb_report_order(&table, order, report, sizeof report, &length) != JB_OK || !same_text(report, length, REPORT)) {
        return 10;
    }
    if (jb_least_degraded_speed(&table, &speed, order) != JB_OK || speed != table.degraded) {
        return 11;
    }
    return few_trials();
}

/* Called by _start on an aligned stack. Leaves by the system call exit (60). */
_Noreturn void enter(void);
_Noreturn void enter(void) {
    const long status = steps();
    for (;;) {
        __asm__ volatile("syscall" : : "a"(60L), "D"(status) : "rcx", "r11", "memory");
    }
}

__asm__(".globl _start\n"
        "_start:\n"
        "    xor %ebp, %ebp\n"
        "    and $-16, %rsp\n"
        "    call enter\n");
