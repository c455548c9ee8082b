/*
 * An example for firmware writers: plan a sheet at power-up, beside other work, then run it
 * slot by slot, and go on with the next sheet without a stop.
 * On the way the sheet is written back from the table that was read, and the
 * report of the planned order is printed. With supplies below N a LO row may be
 * dropped at its deadline, even while another row runs; with supplies of at least G it
 * has its promised part then, if it has one. A row that follows another runs when that
 * one is closed; for this nothing is called:
 *
 *     example samples/late-preview.sheet 4 4 4 4 1
 *     example samples/promise.sheet 2
 *     example samples/lifting.sheet 2
 *
 * The next sheet is asked for when the one that runs has worked its first slot. It is
 * committed at once, which is refused (17) as long as a row is open, and again when all
 * rows are closed. If that is too late for its releases (18), it starts so much later:
 *
 *     example samples/p1.sheet 5 then samples/second.sheet then samples/third.sheet
 *     example samples/p1.sheet 2 then samples/second.sheet
 *
 *     example [SHEET [SUPPLY ...] [then NEXT] ...]
 *
 * SHEET and NEXT are files, or - for standard input, which is also taken for SHEET when
 * it is left out. Each SUPPLY is what one slot supplies, in work units, from slot 0 on;
 * the last one is repeated. Without any, every slot supplies the normal speed N of SHEET.
 *
 * Exit status: 0 when every row was closed, 1 after a refusal, 2 when the
 * arguments or a file cannot be used.
 */
#include "jasminebrace.h"

#include <inttypes.h>
#include <stdbool.h>
#include <stdio.h>
#include <stdlib.h>
#include <string.h>

enum { ALL_CLOSED = 0, REFUSED = 1, NOT_USABLE = 2 };

enum { FEW_TRIALS = 5 }; /* that planning may make before the other work of power-up is done */

/* What the processor supplies, slot by slot, in work units per slot. */
typedef struct {
    const uint32_t *list; /* the reported supplies, from slot 0 on */
    size_t count;         /* how many there are */
    uint32_t normal;      /* the normal speed N, for a run without a list */
} supplies;

static int refused(uint32_t number) {
    printf("number %" PRIu32 ": %s\n", number, jb_words(number));
    return REFUSED;
}

static int no_order(uint64_t left) {
    printf("number %d: %s, rows left:", JB_NO_ORDER, jb_words(JB_NO_ORDER));
    for (unsigned row = 1; row <= JB_ROWS; row++) {
        if (left >> (row - 1) & 1) {
            printf(" %u", row);
        }
    }
    printf("\n");
    return REFUSED;
}

static void print_order(const uint8_t order[JB_ROWS]) {
    printf("order:");
    for (size_t place = 0; place < JB_ROWS && order[place] != 0; place++) {
        printf(" %u", (unsigned)order[place]);
    }
    printf("\n");
}

/* Prints every job under an order; the report is text and is printed as it is. */
static uint32_t print_report(const jb_table *table, const uint8_t order[JB_ROWS]) {
    static uint8_t report[JB_LONGEST_REPORT];
    uint32_t length;
    uint32_t number = jb_report_order(table, order, report, sizeof report, &length);
    if (number == JB_OK) {
        printf("report: need, worst finish and slack in slots; "
               "last line: sum of needs in slots, rows with slack below 0\n"
               "     place       row need at N    finish     slack\n");
        fwrite(report, 1, length, stdout);
    }
    return number;
}

static const char *closing_word(const jb_run *run, uint32_t row) {
    return jb_is_done(run, row) ? "done" : "dropped";
}

/* The supply of a slot, in work units. */
static uint32_t supply_of(const supplies *from, uint32_t slot) {
    if (from->count == 0) {
        return from->normal;
    }
    return from->list[slot < from->count ? slot : from->count - 1];
}

/* Firmware starts the row's job here, which loads while its code is not there, or lets the processor idle on row 0. */
static void start_row(uint32_t slot, uint32_t row) {
    if (row == 0) {
        printf("slot %" PRIu32 ": idle", slot);
    } else {
        printf("slot %" PRIu32 ": row %" PRIu32, slot, row);
    }
}

static void print_slot_end(const jb_run *run, uint32_t row, uint32_t supply) {
    printf(", supply %" PRIu32 " work units", supply);
    if (row != 0) {
        printf(", got %" PRIu32 " of %" PRIu32 " work units", run->got[row - 1], run->table.work[row - 1]);
        if (!jb_is_open(run, row)) {
            printf(", %s at clock %" PRIu32, closing_word(run, row), run->closing[row - 1]);
        }
    }
    printf("\n");
}

/* LO rows that reached their deadlines while another row ran: firmware stops their jobs here. */
static void print_dropped(const jb_run *run, uint32_t ran) {
    for (uint32_t row = 1; row <= run->table.n && row <= JB_ROWS; row++) {
        if (row != ran && run->closing[row - 1] == run->clock) {
            printf("clock %" PRIu32 ": row %" PRIu32 " dropped at its deadline\n", run->clock, row);
        }
    }
}

/* One slot: ask for its row, start it, and report what the slot supplied when it is over. */
static uint32_t run_slot(jb_run *run, const supplies *from) {
    uint32_t slot = run->clock;
    uint32_t row;
    uint32_t number = jb_coming_row(run, &row);
    if (number != JB_OK) {
        return number;
    }
    start_row(slot, row);
    uint32_t supply = supply_of(from, slot);
    number = jb_work_slot(run, supply, &row);
    if (number == JB_OK) {
        print_slot_end(run, row, supply);
        print_dropped(run, row);
    }
    return number;
}

static const char *deadline_word(const jb_run *run, uint32_t row) {
    if (!jb_is_done(run, row)) {
        return "not kept";
    }
    return jb_is_late(run, row) ? "late" : "kept";
}

/* Whether the row has the part of its work that was promised of it: firmware may then show a coarse preview. */
static void print_promise(const jb_run *run, uint32_t row) {
    const uint32_t promised = run->table.promised[row - 1];
    if (promised != 0) {
        printf(", promised %" PRIu32 " work units %s", promised, jb_has_promised(run, row) ? "got" : "not got");
    }
}

static void print_summary(const jb_run *run) {
    for (uint32_t row = 1; row <= run->table.n && row <= JB_ROWS; row++) {
        printf("row %" PRIu32 ": %s at clock %" PRIu32 ", deadline %" PRIu32 " slots, %s", row, closing_word(run, row),
               run->closing[row - 1], run->table.deadline[row - 1], deadline_word(run, row));
        print_promise(run, row);
        printf("\n");
    }
}

static int run_until_closed(jb_run *run, const supplies *from) {
    while (jb_first_open(run) != 0) {
        uint32_t number = run_slot(run, from);
        if (number != JB_OK) {
            return refused(number);
        }
    }
    print_summary(run);
    return ALL_CLOSED;
}

/* A sheet that was asked for: firmware keeps it until it is committed. */
typedef struct {
    jb_table table;
    uint8_t order[JB_ROWS];
} proposal;

/* Asks for the next sheet while another one runs, whose record is not handed over. */
static int ask(const char *name, const uint8_t *sheet, size_t length, const jb_run *run, proposal *next) {
    const jb_run before = *run;
    uint64_t left;
    uint32_t number = jb_ask_sheet(sheet, length, &next->table, next->order, &left);
    bool same = memcmp(run, &before, sizeof before) == 0;
    printf("clock %" PRIu32 ": asked for %s, the run is %s\n", run->clock, name, same ? "as it was" : "changed");
    if (number == JB_NO_ORDER) {
        return no_order(left);
    }
    if (number != JB_OK) {
        return refused(number);
    }
    print_order(next->order);
    return ALL_CLOSED;
}

/* Tells why a proposal is not taken: the open row, or the release that is below the clock. */
static void print_not_taken(uint32_t number, const jb_run *run, const proposal *next) {
    uint32_t row = jb_first_released_before(&next->table, run->clock);
    if (number == JB_ROW_OPEN) {
        printf(", row %" PRIu32 "\n", jb_first_open(run));
    } else if (number == JB_RELEASED_BEFORE) {
        printf(", row %" PRIu32 " by %" PRIu32 " slots\n", row, run->clock - next->table.release[row - 1]);
    } else {
        printf("\n");
    }
}

/* Puts the proposal into the record if it can be. The record keeps its clock, and refused, it is as it was. */
static uint32_t commit(jb_run *run, const proposal *next) {
    uint32_t number = jb_commit_sheet(run, &next->table, next->order);
    printf("clock %" PRIu32 ": commit, number %" PRIu32 ": %s", run->clock, number, jb_words(number));
    print_not_taken(number, run, next);
    return number;
}

/* The least release of a table, in slots. */
static uint32_t least_release(const jb_table *table) {
    uint32_t least = table->release[0];
    for (uint32_t index = 1; index < table->n; index++) {
        least = table->release[index] < least ? table->release[index] : least;
    }
    return least;
}

/* Commits the proposal when no row is open; one whose start has passed starts now, all of it so much later. */
static uint32_t commit_now(jb_run *run, proposal *next) {
    uint32_t number = commit(run, next);
    if (number == JB_RELEASED_BEFORE) {
        uint32_t later = run->clock - least_release(&next->table);
        printf("clock %" PRIu32 ": the new sheet starts %" PRIu32 " slots later\n", run->clock, later);
        jb_start_later(&next->table, later);
        number = commit(run, next);
    }
    return number;
}

/* Writes the table's sheet, as firmware does to store or send it, and says whether it is the one that was read. */
static uint32_t write_back(const jb_table *table, const uint8_t *sheet, size_t length) {
    static uint8_t written[JB_LONGEST_SHEET];
    uint32_t bytes;
    uint32_t number = jb_write_table(table, written, sizeof written, &bytes);
    if (number == JB_OK) {
        bool same = bytes == length && memcmp(written, sheet, length) == 0;
        printf("sheet: %" PRIu32 " bytes, %sthe same as were read\n", bytes, same ? "" : "not ");
    }
    return number;
}

/*
 * Plans at power-up: with few trials first, and if the sheet takes more, with as many as it can take, once the other work is
 * done. What is answered 0 or 7 is answered so at every higher ceiling, and at the second one here 19 does not come.
 */
static uint32_t plan(const jb_table *table, uint8_t order[JB_ROWS], uint64_t *left) {
    uint32_t trials;
    uint32_t number = jb_plan_table_within(table, FEW_TRIALS, order, left, &trials);
    if (number == JB_OVER_CEILING) {
        /* Firmware does its other work here. */
        number = jb_plan_table_within(table, jb_most_trials(table->n), order, left, &trials);
    }
    return number;
}

/* Reads and plans a sheet and makes the fresh record of its run. */
static int begin(const uint8_t *sheet, size_t length, jb_run *run) {
    static jb_table table;
    uint8_t order[JB_ROWS];
    uint64_t left;
    uint32_t number = jb_read_table(sheet, length, &table);
    if (number != JB_OK) {
        return refused(number);
    }
    number = write_back(&table, sheet, length);
    if (number != JB_OK) {
        return refused(number);
    }
    number = plan(&table, order, &left);
    if (number == JB_NO_ORDER) {
        return no_order(left);
    }
    if (number != JB_OK) {
        return refused(number);
    }
    printf("number %d: %s\n", JB_OK, jb_words(JB_OK));
    print_order(order);
    number = print_report(&table, order);
    if (number != JB_OK) {
        return refused(number);
    }
    number = jb_fresh_run(&table, order, run);
    return number == JB_OK ? ALL_CLOSED : refused(number);
}

/* Fills sheet with one byte above the longest sheet at most, which is enough to refuse a longer one. */
static bool read_file(const char *name, uint8_t sheet[JB_PROGRAM_INPUT], size_t *length) {
    FILE *file = strcmp(name, "-") == 0 ? stdin : fopen(name, "rb");
    if (file == NULL) {
        return false;
    }
    *length = fread(sheet, 1, JB_PROGRAM_INPUT, file);
    bool fine = !ferror(file);
    if (file != stdin) {
        fclose(file);
    }
    return fine;
}

static int not_usable(const char *what, const char *name) {
    fprintf(stderr, "%s: %s\nusage: example [SHEET [SUPPLY ...] [then NEXT] ...]\n", what, name);
    return NOT_USABLE;
}

/* Works the running sheet to its end and puts the next one in its place: asked for after the first slot, committed after the last. */
static int go_on(jb_run *run, const supplies *from, const char *name) {
    static proposal next;
    uint8_t sheet[JB_PROGRAM_INPUT];
    size_t length;
    if (!read_file(name, sheet, &length)) {
        return not_usable("cannot be read", name);
    }
    uint32_t number = run_slot(run, from);
    if (number != JB_OK) {
        return refused(number);
    }
    int asked = ask(name, sheet, length, run, &next);
    if (asked == ALL_CLOSED && jb_first_open(run) != 0) {
        commit(run, &next); /* too early: the running sheet goes on */
    }
    int status = run_until_closed(run, from);
    if (asked != ALL_CLOSED || status != ALL_CLOSED) {
        return status > asked ? status : asked;
    }
    return commit_now(run, &next) == JB_OK ? ALL_CLOSED : REFUSED;
}

/* Runs a sheet, and those that follow it, whose names stand in every second word from the second on. */
static int plot(const uint8_t *sheet, size_t length, supplies *from, char **words, size_t count) {
    static jb_run run;
    int status = begin(sheet, length, &run);
    from->normal = run.table.normal;
    for (size_t index = 1; index < count && status == ALL_CLOSED; index += 2) {
        status = go_on(&run, from, words[index]);
    }
    return status == ALL_CLOSED ? run_until_closed(&run, from) : status;
}

/* A supply in work units from decimal digits, 0 to 4,294,967,295. */
static bool read_supply(const char *text, uint32_t *supply) {
    uint64_t value = 0;
    if (*text == '\0') {
        return false;
    }
    for (; *text != '\0'; text++) {
        if (*text < '0' || *text > '9') {
            return false;
        }
        value = 10 * value + (uint64_t)(*text - '0');
        if (value > UINT32_MAX) {
            return false;
        }
    }
    *supply = (uint32_t)value;
    return true;
}

static bool is_then(const char *word) {
    return strcmp(word, "then") == 0;
}

/* The words that are left after the supplies are pairs of 'then' and a name. */
static bool are_names(char **words, size_t count) {
    for (size_t index = 0; index < count; index += 2) {
        if (!is_then(words[index]) || index + 1 == count) {
            return false;
        }
    }
    return true;
}

int main(int argc, char **argv) {
    uint8_t sheet[JB_PROGRAM_INPUT];
    size_t length;
    size_t words = argc > 2 ? (size_t)argc - 2 : 0;
    size_t count = 0;
    const char *name = argc > 1 ? argv[1] : "-";
    if (!jb_fits()) {
        return not_usable("another interface than this program's has", "libjasminebrace.a");
    }
    while (count < words && !is_then(argv[count + 2])) {
        count++;
    }
    if (!are_names(argv + 2 + count, words - count)) {
        return not_usable("not 'then' and a sheet after the supplies of", name);
    }
    uint32_t *supplied = (uint32_t *)calloc(count + 1, sizeof *supplied);
    if (supplied == NULL) {
        return not_usable("no memory for the supplies of", name);
    }
    for (size_t index = 0; index < count; index++) {
        if (!read_supply(argv[index + 2], &supplied[index])) {
            free(supplied);
            return not_usable("not a supply from 0 to 4294967295", argv[index + 2]);
        }
    }
    if (!read_file(name, sheet, &length)) {
        free(supplied);
        return not_usable("cannot be read", name);
    }
    supplies from = {supplied, count, 0};
    int status = plot(sheet, length, &from, argv + 2 + count, words - count);
    free(supplied);
    return status;
}
