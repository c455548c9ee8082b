/*
 * What docs/FIRMWARE.md says of records and answers, called against the archive, and the page's loop on a board that is played here.
 *
 *     firmware_test       exit status 0 and a line for each claim, or 1 with the claim that failed
 *
 * The loop is compiled from the page by tools/firmware_test.sh and linked to this file. ALLOWANCE_STACK is the bytes of stack that the header
 * states for jb_need, jb_allowance and jb_is_dropped_for_deadline.
 */
#define _POSIX_C_SOURCE 200809L

#include "jasminebrace.h"

#include <signal.h>
#include <stdarg.h>
#include <stdio.h>
#include <stdlib.h>
#include <string.h>
#include <ucontext.h>
#include <unistd.h>

/* The listing's functions. */
uint32_t one_slot(jb_run *run);
uint32_t plot(const jb_table *table, jb_run *run);
uint32_t plot_next(const jb_table *next, const uint8_t order[JB_ROWS], jb_run *run);

enum {
    COURSE = 4096, /* slots that a played board has supplies for; the last one is repeated */
    TABLES = 1000  /* tables that each claim over many tables is tried on */
};

static void must(int holds, const char *words, ...) {
    va_list rest;
    if (holds) {
        return;
    }
    va_start(rest, words);
    fprintf(stderr, "not so: ");
    vfprintf(stderr, words, rest);
    fprintf(stderr, "\n");
    va_end(rest);
    exit(1);
}

/* ---- the board ---- */

typedef struct {
    uint32_t real_loading; /* slots of its row in which the job really loads, and counts nothing */
    uint32_t real_work;    /* work units that the job really takes */
    uint32_t slots;        /* slots that its row has run */
    uint32_t units;        /* work units counted so far */
    uint32_t ended_at;     /* tick at whose slot's end the job had ended, 0 before */
    uint32_t calls;        /* how often board_closed or board_work_over_c was called */
    int done, in_time, promised, over_c;
} job;

static struct {
    job jobs[JB_ROWS + 1];
    uint32_t supply[COURSE]; /* what each slot really supplies, in work units */
    uint32_t rows[COURSE];   /* the row that ran in each slot */
    uint32_t slots;          /* slots so far */
    int started;             /* whether tick 0 has come */
    jb_run *run;             /* the loop's record, where the board looks at it or changes it */
    int begun_fresh;         /* whether that record was fresh at tick 0 */
    int damage;              /* whether the record is damaged when a row is told closed, */
    uint32_t damaged_n;      /* so that its row count is this and every closing slot is set */
    int starts_over;         /* whether the job of the next slot, and its counter, begin again from 0 in it */
    const jb_table *next;    /* the sheet whose jobs come with the next board_new_sheet */
    uint32_t sheets;         /* how often a new sheet was told */
    uint32_t others;         /* how often other work was done between plannings */
    int to_last_slot;        /* whether slots that supply nothing pass up to the clock's last slot before a tick comes */
} board;

static uint32_t real_supply(uint32_t slot) {
    return board.supply[slot < COURSE ? slot : COURSE - 1];
}

void board_other_work(void);
void board_start(void);
void board_run_until_tick(uint32_t row);
uint32_t board_units(uint32_t row);
int board_ended(uint32_t row);
void board_closed(uint32_t row, int done, int in_time, int promised);
void board_work_over_c(uint32_t row);
void board_new_sheet(void);

/* Slots that supply nothing, up to the last slot of the clock. */
static void pass_to_last_slot(jb_run *run) {
    uint32_t worked;
    uint32_t *nothing = (uint32_t *)calloc(JB_LAST_CLOCK, sizeof *nothing);
    must(nothing != NULL, "no memory");
    must(jb_work_forward(run, nothing, JB_LAST_CLOCK - 1 - run->clock, &worked) == JB_OK, "the slots up to the last are not worked");
    must(run->clock == JB_LAST_CLOCK - 1, "the last slot is not the coming one");
    free(nothing);
}

void board_other_work(void) {
    must(!board.started && board.slots == 0, "other work of power-up is done after the board has started");
    must(board.others++ < 6, "a table is planned more than seven times");
}

void board_start(void) {
    must(!board.started && board.slots == 0, "the board is started twice, or after a slot");
    board.started = 1;
    if (board.run != NULL) {
        uint32_t row;
        board.begun_fresh = jb_coming_row(board.run, &row) == JB_OK && board.run->clock == 0;
    }
}

void board_run_until_tick(uint32_t row) {
    uint32_t supply = real_supply(board.slots);
    must(board.started, "a slot is run before the board has started");
    if (board.to_last_slot) {
        pass_to_last_slot(board.run);
        board.to_last_slot = 0;
    }
    if (board.slots < COURSE) {
        board.rows[board.slots] = row;
    }
    board.slots++;
    if (row != 0) {
        job *it = &board.jobs[row];
        must(it->calls == 0, "a closed row is named again: row %u", row);
        if (board.starts_over) {
            it->units = 0;
            board.starts_over = 0;
        }
        if (it->slots++ >= it->real_loading) {
            it->units = supply < it->real_work - it->units ? it->units + supply : it->real_work;
        }
        if (it->units == it->real_work && it->ended_at == 0) {
            it->ended_at = board.slots;
        }
    }
}

uint32_t board_units(uint32_t row) {
    must(row != 0, "the units of row 0 are asked for");
    return board.jobs[row].units;
}

int board_ended(uint32_t row) {
    must(row != 0, "the end of row 0 is asked for");
    return board.jobs[row].ended_at != 0;
}

void board_closed(uint32_t row, int done, int in_time, int promised) {
    board.jobs[row].calls++;
    board.jobs[row].done = done;
    board.jobs[row].in_time = in_time;
    board.jobs[row].promised = promised;
    if (board.damage) {
        board.run->table.n = board.damaged_n;
        for (uint32_t other = 0; other < JB_ROWS; other++) {
            board.run->closing[other] = 1;
        }
    }
}

void board_work_over_c(uint32_t row) {
    board.jobs[row].calls++;
    board.jobs[row].over_c = 1;
}

/* The jobs of a table, at their beginning: they load K slots and take c work units. */
static void new_jobs(const jb_table *table) {
    memset(board.jobs, 0, sizeof board.jobs);
    for (uint32_t row = 1; row <= table->n; row++) {
        board.jobs[row].real_work = table->work[row - 1];
        board.jobs[row].real_loading = table->loading;
    }
}

void board_new_sheet(void) {
    must(board.started && board.next != NULL, "a new sheet is told before the board has started, or though none was committed");
    board.sheets++;
    new_jobs(board.next);
}

/* ---- tables and courses of speed, from a fixed seed ---- */

static uint64_t seed = 1;

static uint32_t below(uint32_t bound) {
    seed = seed * 6364136223846793005u + 1442695040888963407u;
    return (uint32_t)((seed >> 33) % bound);
}

static jb_table empty_table(uint32_t normal, uint32_t degraded, uint32_t loading) {
    jb_table table;
    memset(&table, 0, sizeof table);
    table.normal = normal;
    table.degraded = degraded;
    table.loading = loading;
    return table;
}

static void add_row(jb_table *table, uint32_t release, uint32_t work, uint32_t deadline, uint32_t level) {
    table->release[table->n] = release;
    table->work[table->n] = work;
    table->deadline[table->n] = deadline;
    table->level[table->n] = level;
    table->n++;
}

/* Promises so many work units of the last row, if it is LO. */
static void promise(jb_table *table, uint32_t promised) {
    table->promised[table->n - 1] = table->level[table->n - 1] == JB_LO ? promised : 0;
}

/* Lets the last row follow a row above it, if that is released no later, and HI if the last one is. */
static void follow(jb_table *table, uint32_t row) {
    const uint32_t last = table->n - 1;
    const int released = row != 0 && table->release[row - 1] <= table->release[last];
    table->follows[last] = released && table->level[row - 1] >= table->level[last] ? row : 0;
}

/* A table within the limits, with or without loading, promised parts and rows that follow rows. */
static jb_table any_table(void) {
    uint32_t normal = 1 + below(12), rows = 1 + below(below(8) == 0 ? 20 : 6);
    uint32_t loading = below(2) ? 0 : 1 + below(4);
    jb_table table = empty_table(normal, 1 + below(normal), loading);
    while (table.n < rows) {
        uint32_t release = 3 + below(20);
        add_row(&table, release, 1 + below(5 * normal), release + 1 + below(8 + (8 + loading) * rows), below(2));
        promise(&table, below(3) ? 0 : below(table.work[table.n - 1] + 1));
        follow(&table, below(2) ? 0 : below(table.n));
    }
    return table;
}

/* Such a table that has a correct order, and that order. */
static jb_table planned_table(uint8_t order[JB_ROWS]) {
    for (;;) {
        uint64_t left;
        jb_table table = any_table();
        uint32_t number = jb_plan_table(&table, order, &left);
        must(number == JB_OK || number == JB_NO_ORDER, "a table within the limits is answered %u", number);
        if (number == JB_OK) {
            return table;
        }
    }
}

/*
 * A board whose slots each supply from least to most work units, and whose jobs load K slots and take c work units or, where less is set, up
 * to that.
 */
static void new_board(const jb_table *table, uint32_t least, uint32_t most, int less) {
    memset(&board, 0, sizeof board);
    for (size_t slot = 0; slot < COURSE; slot++) {
        board.supply[slot] = least + below(most - least + 1);
    }
    new_jobs(table);
    for (uint32_t row = 1; less && row <= table->n; row++) {
        board.jobs[row].real_work = 1 + below(table->work[row - 1]);
        board.jobs[row].real_loading = below(table->loading + 1);
    }
}

static jb_run fresh_run(const jb_table *table, const uint8_t order[JB_ROWS]) {
    jb_run run;
    must(jb_fresh_run(table, order, &run) == JB_OK, "a planned order is refused");
    return run;
}

/* The run from a record on over the board's true supplies, up to this clock. */
static jb_run true_run_from(jb_run run, uint32_t clock) {
    uint32_t worked;
    const uint32_t slots = clock - run.clock;
    must(clock <= COURSE, "%u slots are more than the board has supplies for", clock);
    must(jb_work_forward(&run, board.supply + run.clock, slots, &worked) == JB_OK && worked == slots, "the slots are not worked");
    return run;
}

/* The run over so many of the board's true supplies. */
static jb_run true_run(const jb_table *table, const uint8_t order[JB_ROWS], uint32_t slots) {
    return true_run_from(fresh_run(table, order), slots);
}

static int same(const jb_run *one, const jb_run *other) {
    return memcmp(one, other, sizeof *one) == 0;
}

/* Whether all but the work got of the two records is the same. */
static int same_but_got(jb_run one, jb_run other) {
    memset(one.got, 0, sizeof one.got);
    memset(other.got, 0, sizeof other.got);
    return same(&one, &other);
}

static int ended_in_time(const jb_table *table, uint32_t row) {
    return board.jobs[row].ended_at != 0 && board.jobs[row].ended_at <= table->deadline[row - 1];
}

/* Tells the board of every row that the last slot closed, as the loop does. */
static void tell_all(const jb_run *run) {
    for (uint32_t row = 1; row <= run->table.n; row++) {
        if (run->closing[row - 1] == run->clock) {
            board_closed(row, jb_is_done(run, row), 0, 0);
        }
    }
}

/* The least release of a table, in slots. */
static uint32_t earliest_release(const jb_table *table) {
    uint32_t earliest = COURSE;
    for (uint32_t row = 1; row <= table->n; row++) {
        earliest = table->release[row - 1] < earliest ? table->release[row - 1] : earliest;
    }
    return earliest;
}

/* ---- the claims ---- */

/* Jobs of work c: the loop's record is the one of the true supplies, byte for byte, though it reports c for ends and 0 for idle slots. */
static void record_of_true_supplies(void) {
    for (int trial = 0; trial < TABLES; trial++) {
        uint8_t order[JB_ROWS];
        jb_table table = planned_table(order);
        jb_run run;
        new_board(&table, 1, 2 * table.normal, 0);
        must(plot(&table, &run) == JB_OK, "the loop does not end with 0");
        jb_run paper = true_run(&table, order, board.slots);
        must(same(&run, &paper), "the loop's record is not that of the true supplies");
        for (uint32_t row = 1; row <= table.n; row++) {
            const job *it = &board.jobs[row];
            const int done = run.got[row - 1] == table.work[row - 1];
            must(it->calls == 1 && !it->over_c, "row %u is not told closed once", row);
            must(it->done == done && it->done == (it->ended_at != 0), "row %u is told done otherwise than it is", row);
            must(it->in_time == ended_in_time(&table, row), "row %u is told in time otherwise than it is", row);
            must(it->promised == (table.promised[row - 1] != 0 && it->units >= table.promised[row - 1]), "row %u's part is told otherwise", row);
        }
    }
    puts("the loop's record is that of the true supplies, byte for byte; every closing is told once");
}

/* Real jobs of at most c that load at most K slots keep their deadlines: all at N, HI at G. */
static void real_deadlines(void) {
    for (int trial = 0; trial < TABLES; trial++) {
        uint8_t order[JB_ROWS];
        jb_table table = planned_table(order);
        jb_run run;
        const int normal = trial % 2;
        const uint32_t least = normal ? table.normal : table.degraded;
        new_board(&table, least, least + below(4) * table.normal, trial % 3 != 0);
        must(plot(&table, &run) == JB_OK, "the loop does not end with 0");
        for (uint32_t row = 1; row <= table.n; row++) {
            if (normal || table.level[row - 1] == JB_HI) {
                must(ended_in_time(&table, row), "row %u's job is late at %s", row, normal ? "N" : "G");
                must(board.jobs[row].in_time, "row %u is not told in time", row);
            }
        }
    }
    puts("real jobs of at most c work units and K slots of loading end in time: all with N, HI with G");
}

/* Slots before the earliest release and after a row's deadline may supply nothing. */
static void window_only(void) {
    for (int trial = 0; trial < TABLES; trial++) {
        uint8_t order[JB_ROWS];
        jb_table table = planned_table(order);
        jb_run run;
        uint32_t earliest = earliest_release(&table), row = 1 + below(table.n);
        const uint32_t least = table.level[row - 1] == JB_HI ? table.degraded : table.normal;
        new_board(&table, least, 2 * table.normal, 1);
        for (uint32_t slot = 0; slot < COURSE / 2; slot++) {
            if (slot < earliest || slot >= table.deadline[row - 1]) {
                board.supply[slot] = 0;
            }
        }
        must(plot(&table, &run) == JB_OK, "the loop does not end with 0");
        must(ended_in_time(&table, row), "row %u is late though its window was supplied", row);
    }
    puts("only the slots of a row's window count for its deadline");
}

/* A job of more than c is told, and costs no other row its deadline. */
static void work_over_c(void) {
    for (int trial = 0; trial < TABLES; trial++) {
        uint8_t order[JB_ROWS];
        jb_table table = planned_table(order);
        jb_run run;
        uint32_t long_one = 1 + below(table.n);
        new_board(&table, table.normal, 3 * table.normal, 1);
        board.jobs[long_one].real_work = table.work[long_one - 1] + 1 + 3 * table.normal;
        board.jobs[long_one].real_loading = table.loading;
        must(plot(&table, &run) == JB_OK, "the loop does not end with 0");
        must(board.jobs[long_one].over_c && board.jobs[long_one].ended_at == 0, "work over c is not told");
        for (uint32_t row = 1; row <= table.n; row++) {
            must(row == long_one || ended_in_time(&table, row), "row %u is late through another's work over c", row);
        }
    }
    puts("work over c: told, the row is closed, all other rows keep their deadlines");
}

/* The row answered is the coming one whatever the supply; coming changes nothing; idle slots ignore the figure. */
static void coming_and_idle(void) {
    uint32_t idle = 0;
    for (int trial = 0; trial < TABLES; trial++) {
        uint8_t order[JB_ROWS];
        jb_table table = planned_table(order);
        jb_run run = fresh_run(&table, order);
        for (uint32_t slot = 0; slot < 60; slot++) {
            jb_run before = run, other = run;
            uint32_t coming, row;
            must(jb_coming_row(&run, &coming) == JB_OK, "a sound record is refused");
            must(same(&run, &before), "asking for the coming row changes the record");
            must(jb_work_slot(&other, below(2) ? 0 : UINT32_MAX, &row) == JB_OK && row == coming, "the row depends on the supply");
            must(jb_work_slot(&run, below(2 * table.normal), &row) == JB_OK && row == coming, "the row is not the coming one");
            if (coming == 0) {
                before.clock++;
                must(same(&run, &before) && same(&other, &before), "an idle slot changes more than the clock");
                idle++;
            }
        }
    }
    must(idle > TABLES, "only %u idle slots were met", idle);
    puts("the row is the coming one whatever is reported; an idle slot changes the clock alone");
}

/* Works a slot on the board and reports c for an end, else 0 or up to the count. Gives the row. */
static uint32_t slot_by_ends(jb_run *run, int nothing) {
    uint32_t row;
    const uint32_t supply = real_supply(board.slots);
    must(jb_coming_row(run, &row) == JB_OK, "a sound record is refused");
    board_run_until_tick(row);
    const int ended = row != 0 && board_ended(row);
    const uint32_t figure = ended ? run->table.work[row - 1] : nothing ? 0 : below(supply + 1);
    must(jb_work_slot(run, figure, &row) == JB_OK, "a slot is refused");
    tell_all(run);
    return row;
}

/* Reporting 0, or anything up to the count, for full slots and c for ends: all but the work got of rows not done is as with the true figures. */
static void ends_alone(void) {
    uint32_t dropped = 0, at_deadline = 0;
    for (int trial = 0; trial < TABLES; trial++) {
        uint8_t order[JB_ROWS];
        jb_table table = planned_table(order);
        jb_run run = fresh_run(&table, order), truth = run;
        const int less = trial % 4 == 3; /* jobs of less than c: an end is an end in the true figures too */
        new_board(&table, trial % 2, (1 + trial % 5 / 3) * table.normal, less);
        board_start();
        for (uint32_t slot = 0; slot < 200; slot++) {
            uint32_t same_row, row = slot_by_ends(&run, trial % 3 == 0);
            const uint32_t figure = less && row != 0 && board_ended(row) ? table.work[row - 1] : real_supply(slot);
            must(jb_work_slot(&truth, figure, &same_row) == JB_OK && row == same_row, "another row runs than with the true figures");
            must(same_but_got(run, truth), "more than the work got differs");
            for (row = 1; row <= table.n; row++) {
                must(jb_is_done(&run, row) == jb_is_done(&truth, row), "row %u is done in one record only", row);
                if (run.closing[row - 1] == run.clock) {
                    dropped += (uint32_t)jb_is_dropped(&run, row);
                    at_deadline += (uint32_t)jb_is_dropped_for_deadline(&run, row);
                }
            }
        }
    }
    must(at_deadline > TABLES / 20 && dropped > at_deadline + TABLES / 10, "%u rows were dropped, %u of them for their deadlines", dropped, at_deadline);
    puts("ends reported, full slots at or below the count: rows, slots used, closings and clock as with the true figures");
}

/* Reporting ends alone keeps the deadlines of real jobs: all at N, HI at G. */
static void deadlines_by_ends(void) {
    for (int trial = 0; trial < TABLES; trial++) {
        uint8_t order[JB_ROWS];
        jb_table table = planned_table(order);
        jb_run run = fresh_run(&table, order);
        const int normal = trial % 2;
        const uint32_t least = normal ? table.normal : table.degraded;
        new_board(&table, least, least + below(4) * table.normal, trial % 3 != 0);
        board_start();
        for (uint32_t slot = 0; slot < 400; slot++) {
            slot_by_ends(&run, 1);
        }
        for (uint32_t row = 1; row <= table.n; row++) {
            if (normal || table.level[row - 1] == JB_HI) {
                must(ended_in_time(&table, row) && !jb_is_late(&run, row), "row %u's job is late at %s", row, normal ? "N" : "G");
            }
        }
    }
    puts("ends alone reported: real jobs end in time, all with N, HI with G");
}

/* An end reported as no more than what is lacking, or as far more: the same record. With the units of a shorter job alone the row stays open. */
static void early_end(void) {
    static const uint8_t order[JB_ROWS] = {1};
    static const uint32_t first = 5;
    jb_table table = empty_table(5, 2, 0);
    uint32_t row;
    add_row(&table, 0, 8, 9, JB_HI);
    jb_run lacking = fresh_run(&table, order), work, whole, most, units;
    must(jb_work_slot(&lacking, first, &row) == JB_OK && row == 1, "the first slot");
    work = whole = most = units = lacking;
    must(jb_work_slot(&lacking, 3, &row) == JB_OK && lacking.closing[0] == 2 && lacking.got[0] == 8, "3 work units were lacking");
    must(jb_work_slot(&work, 8, &row) == JB_OK && same(&work, &lacking), "c gives another record");
    must(jb_work_slot(&whole, 5, &row) == JB_OK && same(&whole, &lacking), "the slot's whole supply gives another record");
    must(jb_work_slot(&most, UINT32_MAX, &row) == JB_OK && same(&most, &lacking), "the largest figure gives another record");
    must(jb_work_slot(&units, 2, &row) == JB_OK && units.closing[0] == 0, "the row is closed by 7 of 8 work units");
    must(jb_coming_row(&units, &row) == JB_OK && row == 1, "the next slot does not go to the row that was left open");
    puts("an end: what is lacking, c, the whole supply and more give one record; less leaves the row open");
}

/* Lower bounds without ends: a LO row dropped though its job has ended; a HI row named on, a LO row below lost; HI rows kept while figures are at least G. */
static void lagging(void) {
    static const uint8_t one[JB_ROWS] = {1};
    uint8_t order[JB_ROWS];
    uint64_t left;
    uint32_t row;
    jb_table table = empty_table(5, 2, 0);
    add_row(&table, 0, 10, 5, JB_LO);
    jb_run run = fresh_run(&table, one); /* the job ends after two slots of 5 work units, reported as 4 */
    must(jb_work_slot(&run, 4, &row) == JB_OK && jb_work_slot(&run, 4, &row) == JB_OK, "two slots");
    must(run.closing[0] == 2 && run.got[0] == 8, "the LO row is not dropped at 2");

    table = empty_table(5, 2, 0);
    add_row(&table, 0, 10, 5, JB_HI); /* ends after two slots of 5 work units, reported as 2 */
    add_row(&table, 0, 5, 4, JB_LO);
    must(jb_plan_table(&table, order, &left) == JB_OK && order[0] == 1 && order[1] == 2, "the order is not 1 2");
    run = fresh_run(&table, order);
    for (uint32_t slot = 0; slot < 5; slot++) {
        must(jb_work_slot(&run, table.degraded, &row) == JB_OK && row == 1, "slot %u does not go to row 1", slot);
    }
    must(jb_is_dropped_for_deadline(&run, 2) && run.closing[1] == 4 && run.used[1] == 0, "row 2 is not dropped at its deadline");

    for (int trial = 0; trial < TABLES; trial++) {
        table = planned_table(order);
        run = fresh_run(&table, order);
        new_board(&table, table.degraded, 3 * table.normal, 1);
        board_start();
        for (uint32_t slot = 0; slot < 400; slot++) {
            must(jb_coming_row(&run, &row) == JB_OK, "a sound record is refused");
            board_run_until_tick(row);
            must(jb_work_slot(&run, table.degraded + below(real_supply(slot) - table.degraded + 1), &row) == JB_OK, "a slot");
            tell_all(&run);
        }
        for (row = 1; row <= table.n; row++) {
            must(table.level[row - 1] == JB_LO || ended_in_time(&table, row), "HI row %u is late by lower bounds of at least G", row);
        }
    }
    puts("lower bounds without ends: LO rows are lost, HI rows kept while the figures are at least G");
}

/* Too much reported of one row's slots: its job is left unfinished, all others keep their deadlines. */
static void too_much(void) {
    uint32_t unfinished = 0;
    for (int trial = 0; trial < TABLES; trial++) {
        uint8_t order[JB_ROWS];
        jb_table table = planned_table(order);
        jb_run run = fresh_run(&table, order);
        uint32_t row, boasted = 1 + below(table.n);
        new_board(&table, table.normal, 2 * table.normal, 0);
        board_start();
        for (uint32_t slot = 0; slot < 400; slot++) {
            must(jb_coming_row(&run, &row) == JB_OK, "a sound record is refused");
            board_run_until_tick(row);
            must(jb_work_slot(&run, row == boasted ? 2 * real_supply(slot) : real_supply(slot), &row) == JB_OK, "a slot");
            tell_all(&run); /* the board stops the test if a closed row is named again */
        }
        must(run.got[boasted - 1] == table.work[boasted - 1], "row %u is not done in the record", boasted);
        unfinished += board.jobs[boasted].ended_at == 0;
        for (row = 1; row <= table.n; row++) {
            must(row == boasted || ended_in_time(&table, row), "row %u is late through another's figures", row);
        }
    }
    must(unfinished > TABLES / 4, "only %u jobs were left unfinished", unfinished);
    puts("too much reported: that row is closed unfinished and never named again, all others keep their deadlines");
}

/* After a slot of the loop: rows are told closed when they are, LO rows at their deadlines at the latest. Gives how many were dropped for theirs. */
static uint32_t told_in_time(const jb_run *run, uint32_t ran, uint32_t *waiting) {
    uint32_t dropped = 0;
    for (uint32_t row = 1; row <= run->table.n; row++) {
        const int reached = run->table.level[row - 1] == JB_LO && run->clock >= run->table.deadline[row - 1];
        must(!reached || !jb_is_open(run, row), "LO row %u is open at its deadline", row);
        must(board.jobs[row].calls == (uint32_t)!jb_is_open(run, row), "row %u is not told closed when it is", row);
        if (run->closing[row - 1] == run->clock && jb_is_dropped_for_deadline(run, row)) {
            must(!board.jobs[row].done && run->closing[row - 1] == run->table.deadline[row - 1], "row %u is told done", row);
            dropped++;
            *waiting += row != ran;
        }
    }
    return dropped;
}

/* LO rows are dropped at their deadlines, running or waiting, several at once too, and run no more; at their last slot they can still be done. */
static void late_previews(void) {
    static const uint8_t one[JB_ROWS] = {1};
    uint32_t all = 0, waiting = 0, together = 0;
    for (int trial = 0; trial < TABLES; trial++) {
        uint8_t order[JB_ROWS];
        jb_table table = planned_table(order);
        jb_run run = fresh_run(&table, order);
        new_board(&table, 0, trial % 4 == 0 ? table.normal : 1, 0);
        board_start();
        for (uint32_t slot = 0; slot < 200; slot++) {
            must(one_slot(&run) == JB_OK, "a slot is refused");
            const uint32_t ran = board.rows[slot];
            must(ran == 0 || table.level[ran - 1] == JB_HI || slot < table.deadline[ran - 1], "LO row %u runs at its deadline", ran);
            const uint32_t dropped = told_in_time(&run, ran, &waiting);
            all += dropped;
            together += dropped > 1;
        }
    }
    must(waiting > TABLES / 4 && all > waiting + TABLES / 50 && together > 5, "%u dropped, %u waiting, %u times several", all, waiting, together);
    jb_table table = empty_table(2, 1, 0);
    add_row(&table, 0, 6, 2, JB_LO); /* it has 3 slots at N, and 2 before its deadline */
    new_board(&table, 4, 4, 0);
    jb_run run = fresh_run(&table, one);
    board_start();
    must(one_slot(&run) == JB_OK && one_slot(&run) == JB_OK && board.jobs[1].done && board.jobs[1].in_time, "the last slot does not count");
    puts("LO rows at their deadlines: dropped, running or waiting, told at that tick, and never run again; work of the last slot counts");
}

/*
 * With at least G from each slot of its window, and nothing from all other slots, a LO row has got its promised part when the clock reaches
 * its deadline, in the record and on the board; a slot too few, and some do not. A row takes no more slots than its allowance.
 */
static void promised_parts(void) {
    uint32_t kept = 0, dropped = 0, at_last = 0;
    for (int trial = 0; trial < 5 * TABLES; trial++) { /* few parts are got by the very last slot */
        uint8_t order[JB_ROWS];
        jb_table table = planned_table(order);
        const uint32_t row = 1 + below(table.n), deadline = table.deadline[row - 1];
        if (table.promised[row - 1] == 0) {
            continue;
        }
        new_board(&table, table.degraded, table.degraded + below(2) * table.normal, 0);
        for (uint32_t slot = 0; slot < COURSE / 2; slot++) {
            board.supply[slot] = slot < earliest_release(&table) || slot >= deadline ? 0 : board.supply[slot];
        }
        jb_run before = true_run(&table, order, deadline - 1), at = true_run(&table, order, deadline), later = true_run(&table, order, deadline + 50);
        must(jb_has_promised(&at, row) && !jb_is_open(&at, row), "row %u has not got its promised part at its deadline", row);
        must(jb_has_promised(&later, row), "row %u has lost its promised part", row);
        must(at.used[row - 1] <= jb_allowance(&table, row), "row %u has used more than its allowance", row);
        kept++;
        dropped += jb_is_dropped(&at, row);
        at_last += !jb_has_promised(&before, row);
    }
    must(kept > TABLES / 4 && dropped > TABLES / 10 && at_last > 0, "%u promised parts, %u dropped, %u at the last slot", kept, dropped, at_last);
    puts("promised parts: got at the deadline with G from each slot of the window, whatever all others supply; no more slots than the allowance");
}

/* The job of a row that follows another runs in no slot in which that one is open; without waits the order would give the same slots. */
static void rows_that_follow(void) {
    uint32_t waited = 0, after_done = 0, after_dropped = 0;
    for (int trial = 0; trial < TABLES; trial++) {
        uint8_t order[JB_ROWS];
        jb_table table = planned_table(order), free_of_waits = table;
        memset(free_of_waits.follows, 0, sizeof free_of_waits.follows);
        jb_run run = fresh_run(&table, order), other = fresh_run(&free_of_waits, order);
        new_board(&table, trial % 2, trial % 4 == 0 ? 1 : table.normal, 0);
        board_start();
        for (uint32_t slot = 0; slot < 200; slot++) {
            jb_run before = run;
            uint32_t row;
            must(one_slot(&run) == JB_OK, "a slot is refused");
            const uint32_t ran = board.rows[slot], followed = ran == 0 ? 0 : table.follows[ran - 1];
            must(!jb_is_waiting(&before, ran), "row %u runs, and waits for row %u", ran, followed);
            must(followed == 0 || board.jobs[followed].calls == 1, "row %u runs before row %u is told closed", ran, followed);
            must(jb_work_slot(&other, ran == 0 ? 0 : run.got[ran - 1] - before.got[ran - 1], &row) == JB_OK && row == ran, "another row runs without waits");
            must(memcmp(&run.clock, &other.clock, sizeof run - offsetof(jb_run, clock)) == 0, "waits change more than which orders there are");
            for (row = 1; row <= table.n; row++) {
                waited += (uint32_t)jb_is_waiting(&before, row);
            }
            after_done += followed != 0 && jb_is_done(&before, followed);
            after_dropped += followed != 0 && jb_is_dropped(&before, followed);
        }
    }
    must(waited > TABLES && after_done > TABLES / 4 && after_dropped > TABLES / 20, "%u waits, %u slots after done, %u after dropped", waited, after_done, after_dropped);
    puts("rows that follow rows: none gets a slot before the row that it follows is closed; it runs once that is done, or dropped; no slot is lost by waiting");
}

/* A HI row follows HI rows alone, so that what it waits for is done when it runs; a LO row may run after one that was dropped, and can tell. */
static void followed_by_high(void) {
    uint32_t high = 0;
    for (int trial = 0; trial < TABLES; trial++) {
        uint8_t order[JB_ROWS];
        jb_table table = planned_table(order);
        jb_run run = fresh_run(&table, order);
        new_board(&table, 0, table.normal, 0);
        board_start();
        for (uint32_t slot = 0; slot < 200; slot++) {
            must(one_slot(&run) == JB_OK, "a slot is refused");
            const uint32_t ran = board.rows[slot], followed = ran == 0 ? 0 : table.follows[ran - 1];
            if (followed != 0 && table.level[ran - 1] == JB_HI) {
                must(jb_is_done(&run, followed) && board_ended(followed), "HI row %u runs, and row %u is not done", ran, followed);
                high++;
            }
        }
    }
    must(high > TABLES / 20, "only %u slots of HI rows that follow others", high);
    puts("what a HI row follows is done when it runs");
}

/* Loading slots: any figure gives the same record, which counts the slot as used; a preempted row goes on where it was. */
static void loading_slots(void) {
    uint32_t loads = 0, preempted = 0;
    for (int trial = 0; trial < TABLES; trial++) {
        uint8_t order[JB_ROWS];
        jb_table table = planned_table(order);
        jb_run run = fresh_run(&table, order);
        uint32_t last = 0;
        for (uint32_t slot = 0; slot < 100; slot++) {
            jb_run before = run, other = run;
            uint32_t row, same_row;
            must(jb_coming_row(&run, &row) == JB_OK, "a sound record is refused");
            const int loading = jb_is_loading(&run, row);
            must(jb_work_slot(&run, below(2 * table.normal), &same_row) == JB_OK && same_row == row, "a slot is refused");
            must(loading == (row != 0 && before.used[row - 1] < table.loading), "row %u is not told to load", row);
            if (loading) {
                must(run.used[row - 1] == before.used[row - 1] + 1 && run.got[row - 1] == 0,
                     "a loading slot is not one that is used and brings nothing");
                must(jb_is_open(&run, row) || jb_is_dropped_for_deadline(&run, row), "a loading slot closes its row before its deadline");
                must(jb_work_slot(&other, below(2) ? 0 : UINT32_MAX, &same_row) == JB_OK && same(&other, &run), "the figure counts");
                preempted += row != last && before.used[row - 1] != 0;
                loads++;
            }
            last = row;
        }
    }
    must(loads > TABLES && preempted > TABLES / 20, "only %u loading slots, %u after the row was preempted", loads, preempted);
    puts("a loading slot: any figure gives the same record, a slot used and no work; a preempted row loads on, and not again");
}

/* An end in a loading slot leaves the row open until the first slot after its loading; so does a job given up there. */
static void ended_while_loading(void) {
    static const uint8_t order[JB_ROWS] = {1, 2}, only[JB_ROWS] = {1};
    jb_table table = empty_table(5, 2, 3);
    add_row(&table, 0, 40, 30, JB_HI);
    add_row(&table, 0, 5, 30, JB_LO);
    jb_run run = fresh_run(&table, order);
    new_board(&table, 5, 5, 0);
    board.jobs[1].real_loading = 0;
    board.jobs[1].real_work = 4; /* ends in its row's first slot */
    board_start();
    for (uint32_t slot = 0; slot < 3; slot++) {
        must(one_slot(&run) == JB_OK && board.rows[slot] == 1 && board_ended(1), "slot %u does not go to row 1", slot);
        must(jb_is_open(&run, 1) && run.got[0] == 0, "an end in a loading slot closes the row");
    }
    must(one_slot(&run) == JB_OK && run.closing[0] == 4 && board.jobs[1].done, "the first slot after loading does not close the row");
    must(one_slot(&run) == JB_OK && board.rows[4] == 2 && jb_is_loading(&run, 2), "the next slot does not go to the row below");
    board.jobs[2].ended_at = 5; /* given up after one of its three loading slots */
    must(one_slot(&run) == JB_OK && one_slot(&run) == JB_OK && jb_is_open(&run, 2), "a job given up while it loads is closed at once");
    must(one_slot(&run) == JB_OK && run.closing[1] == 8 && board.jobs[2].done, "the first slot after loading does not close it");
    table = empty_table(5, 2, 3);
    add_row(&table, 0, 5, 2, JB_LO); /* its deadline comes while it loads */
    run = fresh_run(&table, only);
    new_board(&table, 5, 5, 0);
    board.jobs[1].real_loading = 0; /* and its job ends in its first slot */
    board_start();
    must(one_slot(&run) == JB_OK && board_ended(1) && one_slot(&run) == JB_OK, "two slots");
    must(jb_is_dropped_for_deadline(&run, 1) && board.jobs[1].calls == 1 && !board.jobs[1].done, "a LO row that loads is open at its deadline");
    puts("an end, or a job given up, in a loading slot: its row is closed by the first slot after its loading, or dropped at its deadline");
}

/* A job that loads longer than K slots can be late though every slot supplies N. */
static void loads_longer(void) {
    jb_table table = empty_table(4, 4, 2);
    jb_run run;
    add_row(&table, 0, 8, 4, JB_HI); /* K and two slots of work: no slot to spare */
    new_board(&table, 4, 4, 0);
    must(plot(&table, &run) == JB_OK && ended_in_time(&table, 1), "a job that loads K slots is late");
    new_board(&table, 4, 4, 0);
    board.jobs[1].real_loading = 3;
    must(plot(&table, &run) == JB_OK && !ended_in_time(&table, 1) && !board.jobs[1].in_time, "a job that loads a slot longer is in time");
    puts("a job that loads longer than K slots can be late with N in every slot, and is told so");
}

/* A given-up job: its row is closed as done by the next slot that goes to it. */
static void given_up(void) {
    static const uint8_t order[JB_ROWS] = {1, 2};
    jb_table table = empty_table(5, 2, 0);
    add_row(&table, 0, 40, 30, JB_HI);
    add_row(&table, 0, 5, 30, JB_LO);
    jb_run run = fresh_run(&table, order);
    new_board(&table, 2, 2, 0);
    board_start();
    must(one_slot(&run) == JB_OK && run.got[0] == 2 && run.closing[0] == 0, "the first slot");
    board.jobs[1].ended_at = 1;
    must(one_slot(&run) == JB_OK && run.closing[0] == 2 && board.jobs[1].done, "the row is not closed by the next slot");
    must(one_slot(&run) == JB_OK && board.rows[2] == 2, "the next slot does not go to the row below");
    puts("a job given up: its row is closed as done by the next slot that goes to it");
}

/* Restoring: supplies worked again give the same record; 9 finds some damage, not another sheet's record, an old copy or what no run makes. */
static void restored(void) {
    static const uint8_t order[JB_ROWS] = {2, 1};
    uint32_t row, worked;
    for (int trial = 0; trial < TABLES; trial++) {
        uint8_t planned[JB_ROWS];
        jb_table table = planned_table(planned);
        jb_run run = fresh_run(&table, planned), again = run;
        uint32_t cut = below(100);
        new_board(&table, 0, 2 * table.normal, 0);
        for (uint32_t slot = 0; slot < 100; slot++) {
            must(jb_work_slot(&run, board.supply[slot], &row) == JB_OK, "a slot is refused");
        }
        must(jb_work_forward(&again, board.supply, cut, &worked) == JB_OK && worked == cut, "the first supplies");
        must(jb_coming_row(&again, &row) == JB_OK, "an old copy is refused");
        must(jb_work_forward(&again, board.supply + cut, 100 - cut, &worked) == JB_OK && worked == 100 - cut, "the rest");
        must(same(&run, &again), "the supplies worked again give another record");
    }
    jb_table table = empty_table(5, 2, 0);
    add_row(&table, 0, 40, 30, JB_HI);
    add_row(&table, 0, 40, 30, JB_HI);
    jb_run none = fresh_run(&table, order); /* two rows that have each used every slot: no run makes this */
    none.clock = 5;
    none.used[0] = none.used[1] = 5;
    must(jb_coming_row(&none, &row) == JB_OK && row == 2, "the record of no run is refused");
    jb_run damaged = fresh_run(&table, order), before;
    damaged.got[0] = 41;
    before = damaged;
    must(jb_coming_row(&damaged, &row) == JB_UNSOUND && row == 0, "work got over c is not 9 when asked");
    must(jb_work_slot(&damaged, 5, &row) == JB_UNSOUND && row == 0 && same(&damaged, &before), "work got over c is not 9 when worked");
    must(jb_work_forward(&damaged, &table.normal, 1, &worked) == JB_UNSOUND && worked == 0 && same(&damaged, &before), "forward");
    new_board(&table, 5, 5, 0);
    board_start();
    must(one_slot(&damaged) == JB_UNSOUND && board.slots == 0, "the loop runs a slot on a damaged record");
    puts("restoring: replayed supplies give the same bytes; 9 leaves the record, and lets pass what no run makes");
}

/*
 * Records as interface 2 made them: a LO row open past its deadline makes 9, and the record stays; closed later than its deadline, done or with
 * its slots used up, it is taken. Working the supplies again gives another run than the jobs have had.
 */
static void stored_before(void) {
    static const uint8_t order[JB_ROWS] = {1, 2};
    uint32_t row, worked;
    jb_table table = empty_table(2, 1, 0);
    add_row(&table, 0, 6, 2, JB_LO);
    add_row(&table, 0, 9, 20, JB_HI);
    const uint32_t supplies[] = {1, 1, 1};
    jb_run late = fresh_run(&table, order), again = late, before;
    late.clock = 3; /* by interface 2 the row ran in all three slots, and the third, its last at N, closed it; it was open after the second */
    late.used[0] = late.got[0] = 3;
    late.closing[0] = 3;
    must(jb_coming_row(&late, &row) == JB_OK && row == 2, "a LO row closed later than its deadline is refused");
    must(jb_work_forward(&again, supplies, 3, &worked) == JB_OK && !same(&again, &late) && again.used[1] == 1, "the same run by both rules");
    late.clock = 2;
    late.used[0] = late.got[0] = 2;
    late.closing[0] = 0;
    before = late;
    must(jb_coming_row(&late, &row) == JB_UNSOUND && row == 0, "a LO row open past its deadline is not 9 when asked");
    must(jb_work_slot(&late, 1, &row) == JB_UNSOUND && row == 0 && same(&late, &before), "a LO row open past its deadline is not 9 when worked");
    puts("a record with a LO row open past its deadline is answered 9; with one closed after it, it is taken");
}

/* A record of before, which has no figures from one column of the table on: with bytes of 0 in their place it goes on as it would have. */
static void brought_up(size_t ahead, size_t added, size_t size) {
    unsigned char stored[sizeof(jb_run)];
    uint8_t order[JB_ROWS];
    uint32_t row;
    must(sizeof(jb_table) == ahead + added && sizeof(jb_run) == size + added, "the layout of a record of %zu bytes is another", size);
    jb_table table = planned_table(order);
    memset((unsigned char *)&table + ahead, 0, added);
    new_board(&table, table.degraded, table.normal, 0);
    jb_run run = true_run(&table, order, 7), restored;
    memcpy(stored, &run, ahead);
    memcpy(stored + ahead, (unsigned char *)&run + ahead + added, size - ahead);
    memset(&restored, 0, sizeof restored);
    memcpy(&restored, stored, ahead);
    memcpy((unsigned char *)&restored + ahead + added, stored + ahead, size - ahead);
    must(same(&run, &restored) && jb_coming_row(&restored, &row) == JB_OK, "a record of %zu bytes is not brought up", size);
    restored.got[0] = table.work[0] + 1;
    must(jb_coming_row(&restored, &row) == JB_UNSOUND, "a record that is brought up and unsound is not 9");
}

/* Interface 4 has no followed rows: 256 bytes of 0 after the first 1,296. Interface 3 has no promised parts either: 512 after the first 1,040. */
static void stored_by_3_and_4(void) {
    brought_up(offsetof(jb_table, follows), 256, 2132);
    must(offsetof(jb_table, follows) == 1296, "the followed rows do not begin after 1,296 bytes");
    brought_up(offsetof(jb_table, promised), 512, 1876);
    must(offsetof(jb_table, promised) == 1040, "the promised parts do not begin after 1,040 bytes");
    puts("a record of interface 4 is brought up by 256 bytes of 0, one of interface 3 by 512, and 9 tells whether it is sound");
}

/* ---- stack ---- */

static unsigned char lent_stack[1 << 16];
static void (*on_lent_stack)(void);
static uintptr_t stack_mark; /* where the call's stack begins */
static const jb_run *looked_at;
static volatile uint32_t found; /* so that no call is left out */

static void from_the_mark(void) {
    volatile unsigned char here = 0;
    stack_mark = (uintptr_t)&here;
    on_lent_stack();
}

/* Bytes of stack that a call takes: the lent stack is painted before, and what is left of the paint is counted afterwards. */
static size_t stack_of(void (*call)(void)) {
    static ucontext_t back, there;
    size_t left = 0;
    memset(lent_stack, 0xA5, sizeof lent_stack);
    must(getcontext(&there) == 0, "no context");
    there.uc_stack.ss_sp = lent_stack;
    there.uc_stack.ss_size = sizeof lent_stack;
    there.uc_link = &back;
    on_lent_stack = call;
    makecontext(&there, from_the_mark, 0);
    must(swapcontext(&back, &there) == 0, "no other stack");
    while (left < sizeof lent_stack && lent_stack[left] == 0xA5) {
        left++;
    }
    return stack_mark - (uintptr_t)(lent_stack + left);
}

static void look_up_need(void) {
    found = jb_need(&looked_at->table, 1);
}

static void look_up_allowance(void) {
    found = jb_allowance(&looked_at->table, 1);
}

static void look_up_dropped(void) {
    found = (uint32_t)jb_is_dropped_for_deadline(looked_at, 1);
}

/* The functions of the header that call jb_finishes on a table of their own take at most what it states, which is at most 512 bytes too much. */
static void allowance_stack(void) {
    static void (*const calls[])(void) = {look_up_need, look_up_allowance, look_up_dropped};
    static const uint8_t order[JB_ROWS] = {1};
    uint32_t row;
    size_t most = 0;
    jb_table table = empty_table(2, 1, 0);
    add_row(&table, 0, 6, 1, JB_LO);
    table.promised[0] = 6;
    jb_run run = fresh_run(&table, order);
    must(jb_work_slot(&run, 1, &row) == JB_OK && jb_is_dropped_for_deadline(&run, 1), "the row is not dropped at its deadline");
    looked_at = &run;
    for (size_t call = 0; call < sizeof calls / sizeof *calls; call++) {
        stack_of(calls[call]); /* the first call may look for memcpy; the second is measured */
        const size_t took = stack_of(calls[call]);
        most = took > most ? took : most;
    }
    must(most <= ALLOWANCE_STACK && ALLOWANCE_STACK - most <= 512, "a look at an allowance took %zu bytes of stack", most);
    printf("a look at a need, an allowance or a drop at a deadline took up to %zu bytes of stack, the header states %d bytes\n", most,
           ALLOWANCE_STACK);
}

/* The sheet of a record's table: it reads as that table, and is written again from what was read; 10 writes nothing. */
static void sheet_of_record(void) {
    for (int trial = 0; trial < TABLES; trial++) {
        uint8_t planned[JB_ROWS], sheet[JB_LONGEST_SHEET], again[JB_LONGEST_SHEET];
        uint32_t row, length, other;
        jb_table table = planned_table(planned), read;
        jb_run run = fresh_run(&table, planned);
        must(jb_work_slot(&run, table.normal, &row) == JB_OK, "a slot is refused");
        must(jb_write_table(&run.table, sheet, sizeof sheet, &length) == JB_OK, "the record's table is not written");
        must(jb_read_table(sheet, length, &read) == JB_OK && memcmp(&read, &table, sizeof read) == 0, "it reads as another table");
        memset(again, 'x', sizeof again);
        must(jb_write_table(&read, again, length - 1, &other) == JB_NO_ROOM && other == 0, "a byte too few is not 10");
        must(again[0] == 'x' && memchr(again, '\n', sizeof again) == NULL, "10 writes a byte");
        must(jb_write_table(&read, again, sizeof again, &other) == JB_OK && other == length, "another length");
        must(memcmp(again, sheet, length) == 0, "a sheet that was read is not written byte for byte");
    }
    puts("a record's table gives its sheet, byte for byte as it was read; 10 writes nothing");
}

/* How many rows have a slack below 0 slots, by the last figure of a list of all jobs. */
static uint32_t slacks_below_zero(const uint8_t *list, uint32_t length) {
    char figure[JB_FIGURE + 1] = "";
    memcpy(figure, list + length - 1 - JB_FIGURE, JB_FIGURE);
    return (uint32_t)strtoul(figure, NULL, 10);
}

/* The list of a record's jobs: the same at any clock, of its length, with the sum of the needs at N; 10 writes nothing. */
static void list_of_record(const jb_table *table, const uint8_t order[JB_ROWS]) {
    uint8_t list[JB_LONGEST_REPORT], again[JB_LONGEST_REPORT];
    char sum[JB_FIGURE + 1];
    uint32_t row, length, other, needs = 0;
    jb_run run = fresh_run(table, order);
    must(jb_report_order(table, order, list, sizeof list, &length) == JB_OK, "the jobs are not listed");
    must(length == 51 * table->n + 21, "the list has not 51 bytes for each row and 21 bytes");
    must(slacks_below_zero(list, length) == 0, "a planned order is listed with a slack below 0 slots");
    for (row = 1; row <= table->n; row++) {
        needs += table->loading + (table->work[row - 1] + table->normal - 1) / table->normal;
    }
    snprintf(sum, sizeof sum, "%10u", needs);
    must(memcmp(list + length - JB_TOTALS_LINE, sum, JB_FIGURE) == 0, "the needs do not add up");
    must(jb_work_slot(&run, table->normal, &row) == JB_OK, "a slot is refused");
    memset(again, 'x', sizeof again);
    must(jb_report_order(&run.table, run.order, again, length - 1, &other) == JB_NO_ROOM && other == 0, "a byte too few is not 10");
    must(memchr(again, '\n', sizeof again) == NULL && memchr(again, ' ', sizeof again) == NULL, "10 writes a byte");
    must(jb_report_order(&run.table, run.order, again, sizeof again, &other) == JB_OK && other == length, "another length");
    must(memcmp(again, list, length) == 0, "the list changes with the clock");
}

/* Lists of planned orders count no row with a slack below 0 slots, and those of other orders count none exactly if the judge says yes. */
static void list_of_jobs(void) {
    uint32_t wrong = 0;
    for (int trial = 0; trial < TABLES; trial++) {
        uint8_t planned[JB_ROWS], turned[JB_ROWS] = {0}, list[JB_LONGEST_REPORT];
        uint32_t length, yes, row;
        int32_t slack;
        jb_table table = planned_table(planned);
        list_of_record(&table, planned);
        memset(table.follows, 0, sizeof table.follows); /* so that every order of its rows is one */
        for (uint32_t place = 0; place < table.n; place++) {
            turned[place] = planned[table.n - 1 - place];
        }
        must(jb_judge_order(&table, turned, &yes, &row, &slack) == JB_OK, "an order is not judged");
        must(jb_report_order(&table, turned, list, sizeof list, &length) == JB_OK, "the jobs are not listed");
        must((slacks_below_zero(list, length) == 0) == (yes == 1), "no slack below 0 slots is not yes");
        wrong += yes == 0;
    }
    must(wrong > TABLES / 4 && wrong < TABLES, "%u orders were not correct", wrong);
    puts("the list of all jobs: the same at any clock, no slack below 0 slots exactly if the order is correct; 10 writes nothing");
}

/* An answer's sentence by the call for its kind. */
static uint32_t told(const jb_answer *answer, uint8_t *line, size_t room, uint32_t *length) {
    return answer->kind == JB_PLANNER
               ? jb_write_plan(answer->number, answer->left, answer->order, answer->trials, line, room, length)
               : jb_write_verdict(answer->number, answer->yes, answer->row, answer->slack, line, room, length);
}

/* A sentence within the room that is enough for all, with no byte 0 and no line end after it; 10 with a byte too few; and it is read back. */
static void sentence_of(const jb_answer *answer) {
    uint8_t line[JB_LONGEST_SENTENCE + 1];
    jb_answer back;
    uint32_t length, other;
    memset(line, 'x', sizeof line);
    must(told(answer, line, JB_LONGEST_SENTENCE, &length) == JB_OK && length <= 739, "739 bytes are not enough for a sentence");
    must(line[length] == 'x' && line[length - 1] == '.' && memchr(line, '\n', sizeof line) == NULL && memchr(line, 0, sizeof line) == NULL,
         "a sentence does not end with its full stop");
    must(jb_read_answer(line, length, &back) == JB_OK && memcmp(&back, answer, sizeof back) == 0, "a sentence is not read back");
    for (unsigned index = 0; index < 2; index++) {
        line[length] = index == 0 ? 0 : '\n';
        must(jb_read_answer(line, length + 1, &back) == JB_MALFORMED && back.kind == 0 && back.number == 0, "a byte after a sentence is not 2");
    }
    memset(line, 'x', sizeof line);
    must(told(answer, line, length - 1, &other) == JB_NO_ROOM && other == 0, "a byte too few for a sentence is not 10");
    must(line[0] == 'x' && memcmp(line, line + 1, sizeof line - 1) == 0, "10 writes a byte");
}

/* What planning a table at a ceiling and judging its order answer, as sentences; a sheet that is refused, too. */
static void verdicts_as_sentences(void) {
    static const char P1_PLANNED[] =
        "The planner answers number 0 (an order was made): 6 trials, 4 rows in the order (highest first: 1, 2, 3, 4), 0 rows left.";
    const uint32_t ceilings[] = {0, 10, JB_MOST_TRIALS};
    uint8_t line[JB_LONGEST_SENTENCE];
    uint32_t length, over = 0;
    jb_table p1 = empty_table(5, 2, 0);
    jb_answer answer;
    add_row(&p1, 0, 20, 10, JB_HI);
    add_row(&p1, 5, 15, 10, JB_LO);
    add_row(&p1, 5, 11, 19, JB_HI);
    add_row(&p1, 0, 5, 5, JB_LO);
    memset(&answer, 0, sizeof answer);
    answer.kind = JB_PLANNER;
    answer.number = jb_plan_table_within(&p1, jb_most_trials(p1.n), answer.order, &answer.left, &answer.trials);
    must(told(&answer, line, sizeof line, &length) == JB_OK && length == 121, "P1's plan has not 121 bytes");
    must(length == sizeof P1_PLANNED - 1 && memcmp(line, P1_PLANNED, length) == 0, "P1's plan has another sentence");
    for (int trial = 0; trial < TABLES; trial++) {
        uint8_t order[JB_ROWS];
        const jb_table table = planned_table(order);
        for (size_t index = 0; index < sizeof ceilings / sizeof ceilings[0]; index++) {
            memset(&answer, 0, sizeof answer);
            answer.kind = JB_PLANNER;
            answer.number = jb_plan_table_within(&table, ceilings[index], answer.order, &answer.left, &answer.trials);
            sentence_of(&answer);
            over += answer.number == JB_OVER_CEILING;
        }
        memset(&answer, 0, sizeof answer);
        answer.kind = JB_JUDGE;
        answer.number = jb_judge_order(&table, order, &answer.yes, &answer.row, &answer.slack);
        sentence_of(&answer);
    }
    must(over >= TABLES, "%u plannings were over their ceiling", over);
    memset(&answer, 0, sizeof answer);
    answer.kind = JB_PLANNER;
    answer.number = jb_read_table(NULL, 0, &p1);
    must(answer.number == JB_LENGTH && sizeof answer == 96, "no bytes are no sheet, and an answer has another size");
    sentence_of(&answer);
    puts("verdicts as sentences: in 739 bytes, without a byte 0 or a line end, read back as they were; 10 writes nothing, other bytes are 2");
}

/* A search for a least speed: over a table and over a sheet, G if it is sought and not N, and the range of an accepted table. */
typedef struct {
    uint32_t (*least)(const jb_table *table, uint32_t *speed, uint8_t order[JB_ROWS]);
    uint32_t (*of_sheet)(const uint8_t *sheet, size_t length, uint32_t *speed, uint8_t order[JB_ROWS]);
    int degraded;
} search;

static const search searches[] = {{jb_least_degraded_speed, jb_read_least_degraded_speed, 1},
                                  {jb_least_normal_speed, jb_read_least_normal_speed, 0}};

static jb_table at_speed(const search *of, const jb_table *table, uint32_t speed) {
    jb_table other = *table;
    *(of->degraded ? &other.degraded : &other.normal) = speed;
    return other;
}

static int is_correct(const jb_table *table, const uint8_t order[JB_ROWS]) {
    uint32_t yes, row;
    int32_t slack;
    must(jb_judge_order(table, order, &yes, &row, &slack) == JB_OK, "an order is not judged");
    return yes == 1;
}

/* What a search answers for a table, whatever that has for the speed sought, and for its sheet. */
static uint32_t least_of(const search *of, const jb_table *table, uint8_t order[JB_ROWS]) {
    const uint32_t own[] = {of->degraded ? 1 : table->degraded, of->degraded ? table->normal : JB_MOST_SPEED};
    uint32_t speed, other, length;
    uint8_t again[JB_ROWS], sheet[JB_LONGEST_SHEET];
    must(of->least(table, &speed, order) == JB_OK, "a table with an order has no least speed");
    for (int index = 0; index < 2; index++) {
        jb_table changed = at_speed(of, table, own[index]);
        must(of->least(&changed, &other, again) == JB_OK && other == speed, "the table's own figure matters");
        must(memcmp(again, order, JB_ROWS) == 0, "the table's own figure changes the order");
    }
    must(jb_write_table(table, sheet, sizeof sheet, &length) == JB_OK, "the table has no sheet");
    must(of->of_sheet(sheet, length, &other, again) == JB_OK && other == speed && memcmp(again, order, JB_ROWS) == 0, "not so of its sheet");
    return speed;
}

/* The order at the least speed is the planner's, correct at that speed and at larger ones; one below, the planner answers 7. */
static void least_speed_of(const search *of, const jb_table *table) {
    const uint32_t first = of->degraded ? 1 : table->degraded, last = of->degraded ? table->normal : JB_MOST_SPEED;
    uint8_t order[JB_ROWS], planned[JB_ROWS];
    uint64_t left;
    uint32_t speed = least_of(of, table, order);
    jb_table at_least = at_speed(of, table, speed);
    must(speed >= first && speed <= last, "the least speed is not of its range");
    must(jb_plan_table(&at_least, planned, &left) == JB_OK && memcmp(planned, order, JB_ROWS) == 0, "the order is not the planner's");
    for (uint32_t larger = speed; larger <= last; larger += 1 + (larger > 40 ? below(100) : 0)) {
        jb_table faster = at_speed(of, table, larger);
        must(is_correct(&faster, order), "the order is not correct at a larger speed");
    }
    jb_table fastest = at_speed(of, table, last), slower = at_speed(of, table, speed - 1);
    must(is_correct(&fastest, order), "the order is not correct at the largest speed");
    must(speed == first || jb_plan_table(&slower, planned, &left) == JB_NO_ORDER, "a smaller speed is enough");
}

/* A board that is at least as fast as the least G: with the order that was answered and no other planning, each HI job ends in time. */
static void plot_at_least(const jb_table *table) {
    uint8_t order[JB_ROWS];
    uint32_t speed = least_of(&searches[0], table, order), measured = speed + below(table->normal - speed + 1);
    jb_table faster = at_speed(&searches[0], table, measured);
    new_board(&faster, measured, table->normal, 0);
    jb_run run = true_run(&faster, order, 1000);
    for (uint32_t row = 1; row <= table->n; row++) {
        must(table->level[row - 1] == JB_LO || (jb_is_done(&run, row) && !jb_is_late(&run, row)), "a HI row is late above the least G");
    }
}

/* Refused: the number, speed 0 and an order of zeros. */
static void no_least_speed(const jb_table *table, const uint8_t *sheet, size_t length, uint32_t number) {
    static const uint8_t zeros[JB_ROWS];
    for (int index = 0; index < 2; index++) {
        uint32_t speed = 7;
        uint8_t order[JB_ROWS] = {7};
        uint32_t got = sheet != NULL ? searches[index].of_sheet(sheet, length, &speed, order) : searches[index].least(table, &speed, order);
        must(got == number, "a least speed is answered %u and not %u", got, number);
        must(speed == 0 && memcmp(order, zeros, JB_ROWS) == 0, "%u leaves a speed or an order", number);
    }
}

/* Least speeds: exact, whatever the table's own figure; orders that stay correct at larger speeds; zeros with every number but 0. */
static void least_speeds(void) {
    for (int trial = 0; trial < TABLES; trial++) {
        uint8_t order[JB_ROWS];
        jb_table table = planned_table(order);
        least_speed_of(&searches[0], &table);
        least_speed_of(&searches[1], &table);
        plot_at_least(&table);
    }
    jb_table table = empty_table(5, 2, 16);
    add_row(&table, 0, 1, 16, JB_HI);
    no_least_speed(&table, NULL, 0, JB_NO_ORDER);
    no_least_speed(NULL, (const uint8_t *)"no sheet", 8, JB_LENGTH);
    table.loading = 17;
    no_least_speed(&table, NULL, 0, JB_LOADING);
    puts("least speeds: one less is answered 7, with more the order stays correct; with every number but 0, speed 0 and an order of zeros");
}

/* ---- planning at a ceiling ---- */

/* What planning at a ceiling answers. */
typedef struct {
    uint32_t number;
    uint8_t order[JB_ROWS];
    uint64_t left;
    uint32_t trials;
} planning;

/* Planning this table at a ceiling, in trials, with figures that are none of an answer where it goes. */
static planning plan_at(const jb_table *table, uint32_t ceiling) {
    planning made;
    memset(&made, 7, sizeof made);
    made.number = jb_plan_table_within(table, ceiling, made.order, &made.left, &made.trials);
    return made;
}

static int same_planning(const planning *one, const planning *other) {
    return one->number == other->number && memcmp(one->order, other->order, JB_ROWS) == 0 && one->left == other->left && one->trials == other->trials;
}

/* The planner's answer to a table within the limits, with the trials that it takes: no ceiling from there on gives another one, and each below it 19. */
static planning at_every_ceiling(const jb_table *table) {
    const uint32_t most = jb_most_trials(table->n);
    const planning whole = plan_at(table, most);
    const uint32_t enough[] = {whole.trials, whole.trials + 1, JB_MOST_TRIALS, UINT32_MAX};
    planning over = {JB_OVER_CEILING, {0}, 0, 0}, made;
    uint8_t order[JB_ROWS];
    uint64_t left;
    must(jb_plan_table(table, order, &left) == whole.number, "the most trials that rows take do not give the planner's number");
    must(memcmp(order, whole.order, JB_ROWS) == 0 && left == whole.left, "they do not give the planner's order and rows left");
    must(whole.trials >= 1 && whole.trials <= most, "%u rows take %u trials", table->n, whole.trials);
    for (size_t index = 0; index < sizeof enough / sizeof enough[0]; index++) {
        made = plan_at(table, enough[index]);
        must(same_planning(&made, &whole), "a ceiling of %u trials changes an answer", enough[index]);
    }
    for (over.trials = 0; over.trials < whole.trials; over.trials++) {
        made = plan_at(table, over.trials);
        must(same_planning(&made, &over), "a ceiling of %u trials, with %u to be made, is not 19 with zeros", over.trials, whole.trials);
    }
    return whole;
}

/* So many rows, a multiple of 4, of which LO rows fail at many places: each group has three LO rows that just fit, and a HI row with time. */
static jb_table hard_table(uint32_t rows) {
    jb_table table = empty_table(5, 2, 0);
    for (uint32_t group = 0; group < rows / 4; group++) {
        for (uint32_t place = 1; place <= 3; place++) {
            add_row(&table, 8 * group, 5, 8 * group + place, JB_LO);
        }
        add_row(&table, 8 * group, 5, 3000 - group, JB_HI);
    }
    return table;
}

/*
 * The loop's plannings of a table: 64 trials, then twice as many and so on, with other work in between, until they are enough; together less
 * than three times the trials that the table takes, if these are more than 64. What plot answers is the planner's number.
 */
static void planned_beside(const jb_table *table) {
    const planning whole = at_every_ceiling(table);
    uint32_t stopped = 0, made = 0, ceiling = 64;
    jb_run run;
    for (; ceiling < whole.trials; ceiling *= 2) {
        stopped++;
        made += plan_at(table, ceiling).trials;
    }
    must(stopped == 0 || made + whole.trials < 3 * whole.trials, "doubled ceilings take three times the trials or more");
    new_board(table, table->normal, table->normal, 0);
    must(plot(table, &run) == whole.number, "the loop does not answer what the planner answers");
    must(board.others == stopped, "other work is done %u times, with %u trials to be made", board.others, whole.trials);
    must(board.started == (whole.number == JB_OK), "the board is started without an order, or not with one");
    must(whole.number != JB_OK || memcmp(run.order, whole.order, JB_ROWS) == 0, "the loop runs another order");
}

/* A sheet that is read and then planned at a ceiling, with an order: the table and the order are those that asking for it answers. */
static void as_asked(const jb_table *table) {
    uint8_t sheet[JB_LONGEST_SHEET], order[JB_ROWS];
    uint32_t length;
    uint64_t left;
    jb_table read, asked;
    must(jb_write_table(table, sheet, sizeof sheet, &length) == JB_OK, "the table has no sheet");
    must(jb_read_table(sheet, length, &read) == JB_OK, "the sheet is not read");
    const planning made = plan_at(&read, jb_most_trials(read.n));
    must(jb_ask_sheet(sheet, length, &asked, order, &left) == made.number && left == made.left, "asking answers another number, or other rows left");
    must(memcmp(order, made.order, JB_ROWS) == 0, "asking answers another order");
    must(made.number != JB_OK || memcmp(&asked, &read, sizeof read) == 0, "asking answers another table");
}

/* A table that is refused is so at every ceiling, with 0 trials and zeros. */
static void refused_at_ceilings(void) {
    static const uint32_t ceilings[] = {0, 1, JB_MOST_TRIALS, UINT32_MAX};
    jb_table table = hard_table(8);
    table.loading = JB_MOST_LOADING + 1;
    const planning none = {JB_LOADING, {0}, 0, 0};
    for (size_t index = 0; index < sizeof ceilings / sizeof ceilings[0]; index++) {
        const planning made = plan_at(&table, ceilings[index]);
        must(same_planning(&made, &none), "K 17 is not refused alike at a ceiling of %u trials", ceilings[index]);
    }
}

/* Ceilings: 19 below the trials that a table takes, the planner's answer from there on; the loop's plannings beside other work. */
static void ceilings(void) {
    uint32_t answers[2] = {0, 0};
    for (int trial = 0; trial < TABLES; trial++) {
        jb_table table = any_table();
        planned_beside(&table);
        as_asked(&table);
        answers[at_every_ceiling(&table).number == JB_OK]++;
    }
    must(answers[0] > 0 && answers[1] > 0, "not both answers come up");
    for (uint32_t rows = 4; rows <= JB_ROWS; rows += 4) {
        jb_table table = hard_table(rows);
        planned_beside(&table);
        must(rows != JB_ROWS || (at_every_ceiling(&table).trials == 1552 && board.others == 5), "64 hard rows take another count of trials");
        table.deadline[rows - 2] = table.deadline[rows - 4]; /* the last group: two rows of one slot by one deadline */
        planned_beside(&table);
        must(at_every_ceiling(&table).number == JB_NO_ORDER, "two rows have one slot, and there is an order");
    }
    refused_at_ceilings();
    puts("at a ceiling: 19 and zeros below the trials that a table takes, the planner's 0 or 7 from there on, whatever the ceiling");
    puts("planning beside other work: ceilings of 64 trials and twice as many each time, and the answer is the planner's, as when a sheet is asked for");
}

/* ---- how much choice there is ---- */

/* How many of the arrangements with these places are correct, as the judge says of each. */
static uint32_t listed(const jb_table *table, uint8_t order[JB_ROWS], uint32_t places) {
    uint32_t yes, row, found = 0;
    int32_t slack;
    if (places == table->n) {
        return jb_judge_order(table, order, &yes, &row, &slack) == JB_OK && yes;
    }
    for (row = 1; row <= table->n; row++) {
        if (memchr(order, (int)row, places) == NULL) {
            order[places] = (uint8_t)row;
            found += listed(table, order, places + 1);
            order[places] = 0;
        }
    }
    return found;
}

/* The rows of a word as a table of their own, in which a row that follows one that is left out follows none. */
static jb_table rows_alone(const jb_table *table, uint64_t word) {
    jb_table alone = empty_table(table->normal, table->degraded, table->loading);
    uint32_t number[JB_ROWS + 1] = {0};
    for (uint32_t index = 0; index < table->n; index++) {
        if (word >> index & 1) {
            add_row(&alone, table->release[index], table->work[index], table->deadline[index], table->level[index]);
            number[index + 1] = alone.n;
            alone.promised[alone.n - 1] = table->promised[index];
            alone.follows[alone.n - 1] = number[table->follows[index]];
        }
    }
    return alone;
}

/* What was lent for counting, and what it held before: numbers that no count is. */
static uint32_t scratch[JB_SCRATCH + 1];
static const uint32_t HELD = 0xF0000000;

static uint32_t count_in(const jb_table *table, size_t numbers, uint32_t *made, uint32_t lowest[JB_ROWS]) {
    for (size_t index = 0; index <= JB_SCRATCH; index++) {
        scratch[index] = HELD + (uint32_t)index;
    }
    *made = 1;
    memset(lowest, 1, JB_ROWS * sizeof *lowest);
    return jb_count_orders(table, scratch, numbers, made, lowest);
}

static int is_held(size_t from) {
    int held = 1;
    for (size_t index = from; index <= JB_SCRATCH; index++) {
        held = held && scratch[index] == HELD + (uint32_t)index;
    }
    return held;
}

/* Counting is refused with this number: counts of 0, and the scratch as it was. */
static void not_counted(const jb_table *table, size_t numbers, uint32_t number) {
    uint32_t made, lowest[JB_ROWS], sum = 0;
    must(count_in(table, numbers, &made, lowest) == number, "%u rows with %zu numbers of scratch are not %u", table->n, numbers, number);
    for (uint32_t index = 0; index < JB_ROWS; index++) {
        sum |= lowest[index];
    }
    must(made == 0 && sum == 0 && is_held(0), "a refused count leaves figures");
}

/* Every set of a table's rows is counted as a table of its own, and no number of scratch after the sets is written. */
static void counted(const jb_table *table, uint32_t answers[2]) {
    uint32_t made, lowest[JB_ROWS], sum = 0;
    uint8_t order[JB_ROWS] = {0};
    uint64_t left;
    must(count_in(table, JB_SCRATCH, &made, lowest) == JB_OK, "%u rows are not counted", table->n);
    for (uint32_t index = 0; index < JB_ROWS; index++) {
        must(index < table->n || lowest[index] == 0, "a row after the last stands lowest");
        sum += lowest[index];
    }
    must(sum == made && made <= jb_arrangements(table->n), "the lowest rows are not the count together, or it is above all arrangements");
    must(scratch[0] == 1 && is_held((size_t)1 << table->n), "no row is not counted as 1, or more numbers than the sets are written");
    for (uint32_t word = 1; word >> table->n == 0; word++) {
        const jb_table alone = rows_alone(table, word);
        must(scratch[word] == listed(&alone, order, 0), "word %u is not the count of its rows alone", word);
    }
    must(scratch[(1u << table->n) - 1] == made, "the last word is not the count");
    must((jb_plan_table(table, order, &left) == JB_NO_ORDER) == (made == 0), "a count of 0 is not a 7");
    answers[made == 0]++;
}

/* Counts: those of the judge over all arrangements, 20 above 12 rows, 10 below 4,096 numbers. */
static void choices(void) {
    uint32_t answers[2] = {0, 0};
    for (int trial = 0; trial < TABLES; trial++) {
        jb_table table = any_table();
        if (table.n <= 5) {
            counted(&table, answers);
        }
        not_counted(&table, JB_SCRATCH - 1, table.n > JB_MOST_COUNTED ? JB_TOO_MANY_ROWS : JB_NO_ROOM);
    }
    must(answers[0] > 0 && answers[1] > 0, "not both a count of 0 and another one come up");
    for (uint32_t rows = 4; rows <= JB_ROWS; rows += 4) {
        jb_table table = hard_table(rows);
        uint32_t made, lowest[JB_ROWS];
        if (rows <= JB_MOST_COUNTED) {
            must(count_in(&table, JB_SCRATCH, &made, lowest) == JB_OK && made > 0, "%u hard rows have no order", rows);
            continue;
        }
        not_counted(&table, JB_SCRATCH, JB_TOO_MANY_ROWS);
        not_counted(&table, 0, JB_TOO_MANY_ROWS);
        table.loading = JB_MOST_LOADING + 1;
        not_counted(&table, 0, JB_LOADING);
    }
    must(sizeof(uint32_t) * JB_SCRATCH == 16384 && jb_arrangements(JB_MOST_COUNTED) == 479001600, "scratch or orders of 12 rows are others");
    puts("counts of orders: what the judge says of all arrangements, of each set of rows too; 0 exactly with 7; 20 above 12 rows, 10 below 4,096 numbers");
}

/* ---- rows left ---- */

/* The slack in a row's line of the list under an order, in slots. */
static long listed_slack(const jb_table *table, const uint8_t order[JB_ROWS], uint32_t row) {
    uint8_t list[JB_LONGEST_REPORT];
    char figure[JB_FIGURE + 1] = "";
    uint32_t length, place = 0;
    must(jb_report_order(table, order, list, sizeof list, &length) == JB_OK, "rows without waits are not listed");
    while (order[place] != row) {
        place++;
    }
    memcpy(figure, list + place * JB_PLACE_LINE + 4 * JB_FIGURE, JB_FIGURE);
    return strtol(figure, NULL, 10);
}

/* The order of the other rows left by number, then a row, then all other rows by number. */
static void order_of_left(uint32_t n, uint64_t left, uint32_t row, uint8_t order[JB_ROWS]) {
    uint32_t place = 0;
    memset(order, 0, JB_ROWS);
    for (uint32_t other = 1; other <= n; other++) {
        if (other != row && left >> (other - 1) & 1) {
            order[place++] = (uint8_t)other;
        }
    }
    order[place++] = (uint8_t)row;
    for (uint32_t other = 1; other <= n; other++) {
        if (!(left >> (other - 1) & 1)) {
            order[place++] = (uint8_t)other;
        }
    }
}

/* The number of a row in the table of the rows of a word alone. */
static uint32_t number_alone(uint64_t word, uint32_t row) {
    uint32_t number = 0;
    for (uint32_t index = 0; index < row; index++) {
        number += word >> index & 1;
    }
    return number;
}

/* The slack of a row left, in slots: it is short, or another row left follows it; and so it is in the table of the rows left alone. */
static long slack_of_left(const jb_table *table, uint64_t left, uint32_t row) {
    jb_table other = *table, alone;
    uint8_t order[JB_ROWS];
    uint32_t worst[JB_ROWS], followers = 0;
    memset(other.follows, 0, sizeof other.follows);
    order_of_left(table->n, left, row, order);
    const long slack = listed_slack(&other, order, row);
    must(jb_worst_finishes(&other, order, worst) == JB_OK, "rows without waits have no worst finishes");
    must(table->promised[row - 1] != 0 || slack == (long)table->deadline[row - 1] - (long)worst[row - 1], "another slack than by the worst finish");
    for (uint32_t index = 0; index < table->n; index++) {
        followers += (left >> index & 1) && table->follows[index] == row;
    }
    must(slack < 0 || followers > 0, "row %u is left, with %ld slots to spare and no follower", row, slack);
    alone = rows_alone(&other, left);
    order_of_left(alone.n, UINT64_MAX >> (64 - alone.n), number_alone(left, row), order);
    must(listed_slack(&alone, order, number_alone(left, row)) == slack, "row %u has another slack in the table of the rows left alone", row);
    return slack;
}

/* Without all rows left the others have an order; without any one of the others the rows left are the same. */
static void cut_elsewhere(const jb_table *table, uint64_t left) {
    const uint64_t all = UINT64_MAX >> (64 - table->n);
    uint8_t order[JB_ROWS];
    uint64_t again;
    if (left != all) {
        const jb_table rest = rows_alone(table, all & ~left);
        must(jb_plan_table(&rest, order, &again) == JB_OK, "without all rows left there is no order");
    }
    for (uint32_t row = 1; row <= table->n; row++) {
        const uint64_t kept = all & ~(UINT64_C(1) << (row - 1));
        if (!(left >> (row - 1) & 1)) {
            const jb_table rest = rows_alone(table, kept);
            must(jb_plan_table(&rest, order, &again) == JB_NO_ORDER, "without row %u, which is not left, there is an order", row);
            for (uint32_t other = 1; other <= table->n; other++) {
                must(other == row || (left >> (other - 1) & 1) == (again >> (number_alone(kept, other) - 1) & 1), "other rows are left without row %u", row);
            }
        }
    }
}

/* What the rows left tell, on many tables. */
static void rows_left(void) {
    uint32_t tables = 0, parts = 0, spare = 0;
    for (int trial = 0; trial < TABLES; trial++) {
        jb_table table = any_table();
        uint8_t order[JB_ROWS];
        uint64_t left;
        if (jb_plan_table(&table, order, &left) == JB_NO_ORDER) {
            for (uint32_t row = 1; row <= table.n; row++) {
                spare += (left >> (row - 1) & 1) && slack_of_left(&table, left, row) >= 0;
            }
            cut_elsewhere(&table, left);
            tables++;
            parts += left != UINT64_MAX >> (64 - table.n);
        }
    }
    must(tables > TABLES / 10 && parts > TABLES / 50 && spare > TABLES / 100, "few tables without an order: %u, %u, %u", tables, parts, spare);
    puts("the rows left: each short among them or followed, by as many slots as in their table alone; the others have an order, and cutting them helps nothing");
}

/* ---- new sheets ---- */

/* A table that has a correct order, and what asking for its sheet answers: this table and that order. */
static jb_table asked_table(uint8_t order[JB_ROWS]) {
    uint8_t sheet[JB_LONGEST_SHEET];
    uint32_t length;
    uint64_t left = 7;
    jb_table table = planned_table(order), asked;
    uint8_t planned[JB_ROWS];
    must(jb_write_table(&table, sheet, sizeof sheet, &length) == JB_OK, "the table has no sheet");
    must(jb_ask_sheet(sheet, length, &asked, planned, &left) == JB_OK && left == 0, "a sheet with an order is not answered 0");
    must(memcmp(&asked, &table, sizeof table) == 0 && memcmp(planned, order, JB_ROWS) == 0, "asking gives another table or order");
    return asked;
}

/* Asking refuses as reading and planning do, with zeros, and with 7 the rows left. */
static void asking_refused(void) {
    static const char no_order[] = "       2       2       1       0\n"
                                   "       0       2       2       0       0       0\n"
                                   "       0       4       4       1       0       0\n";
    static const uint8_t zeros[sizeof(jb_table)];
    const size_t lengths[] = {sizeof no_order - 1, sizeof no_order - 2};
    const uint32_t numbers[] = {JB_NO_ORDER, JB_LENGTH};
    for (int index = 0; index < 2; index++) {
        jb_table table;
        uint8_t order[JB_ROWS];
        uint64_t left = 7;
        must(jb_ask_sheet((const uint8_t *)no_order, lengths[index], &table, order, &left) == numbers[index], "a refused sheet is asked for");
        must(left == (numbers[index] == JB_NO_ORDER ? 3u : 0u), "other rows are left");
        must(memcmp(&table, zeros, sizeof table) == 0 && memcmp(order, zeros, JB_ROWS) == 0, "a refused asking leaves more than zeros");
    }
}

/* A commit that is refused: the record is as it was, no slot is run, and the board is told nothing. */
static void not_committed(const jb_table *next, const uint8_t order[JB_ROWS], jb_run *run, uint32_t number) {
    const jb_run before = *run;
    const uint32_t slots = board.slots, sheets = board.sheets, got = plot_next(next, order, run);
    must(got == number, "a commit is answered %u and not %u", got, number);
    must(same(run, &before) && board.slots == slots && board.sheets == sheets, "a refused commit leaves something behind");
}

/* Works a few slots of a sheet on the board; while a row is open a commit is answered 17, and asking changes nothing. */
static void too_early(jb_run *run) {
    uint8_t order[JB_ROWS];
    for (uint32_t slot = 0; slot < 3; slot++) {
        const jb_run before = *run;
        const jb_table next = asked_table(order);
        must(same(run, &before), "asking changes a record");
        if (jb_first_open(run) != 0) {
            not_committed(&next, order, run, JB_ROW_OPEN);
            must(jb_is_open(run, jb_first_open(run)), "the row named is not open");
        }
        must(one_slot(run) == JB_OK, "a slot is refused");
    }
}

/* The rows of the sheet in the record were told once each, and their jobs have ended in time: all at N, HI at G. */
static void sheet_is_over(const jb_run *run, int normal) {
    for (uint32_t row = 1; row <= run->table.n; row++) {
        must(board.jobs[row].calls == 1, "row %u of a new sheet is not told closed once", row);
        if (normal || run->table.level[row - 1] == JB_HI) {
            must(ended_in_time(&run->table, row) && board.jobs[row].in_time, "row %u of a new sheet is late at %s", row, normal ? "N" : "G");
        }
        must(run->table.promised[row - 1] == 0 || jb_has_promised(run, row), "row %u of a new sheet lacks its promised part", row);
    }
}

/* Idle slots between two sheets: the clock goes on, and nothing else changes. */
static void idle_between(jb_run *run, uint32_t slots) {
    jb_run before = *run;
    for (uint32_t slot = 0; slot < slots; slot++) {
        must(one_slot(run) == JB_OK && board.rows[board.slots - 1] == 0, "a slot between two sheets is not idle");
    }
    before.clock += slots;
    must(same(run, &before), "an idle slot between two sheets changes more than the clock");
}

/* Supplies of at least N or G for the new sheet, from its earliest release on, and nothing before that from this clock on. */
static void supply_next(const jb_table *next, uint32_t clock, int normal) {
    const uint32_t least = normal ? next->normal : next->degraded;
    for (uint32_t slot = clock; slot < COURSE; slot++) {
        board.supply[slot] = slot < earliest_release(next) ? 0 : least + below(next->normal);
    }
}

/*
 * A new sheet on the running clock, from its first release on: it is moved there from its own beginning, stays correct, is committed there or
 * some slots before, and is worked as from a fresh record after idle slots; its rows keep what is promised by supplies from its own earliest
 * release on.
 */
static void next_on_the_clock(jb_run *run, uint32_t later, int normal) {
    uint8_t order[JB_ROWS];
    jb_table next = asked_table(order);
    const uint32_t clock = run->clock, sheets = board.sheets, start = earliest_release(&next);
    for (uint32_t row = 1; row <= next.n; row++) {
        next.release[row - 1] -= start; /* its slots are counted from its own beginning */
        next.deadline[row - 1] -= start;
    }
    must(clock > 0, "the first sheet takes no slot");
    not_committed(&next, order, run, JB_RELEASED_BEFORE);
    must(next.release[jb_first_released_before(&next, clock) - 1] < clock, "the row named is not released before the clock");
    jb_start_later(&next, clock - 1);
    not_committed(&next, order, run, JB_RELEASED_BEFORE);
    jb_start_later(&next, 1 + later);
    must(is_correct(&next, order), "an order is no longer correct when its table starts later");
    must(earliest_release(&next) == clock + later && jb_first_released_before(&next, clock) == 0, "the start is another one");
    supply_next(&next, clock, normal);
    board.next = &next;
    jb_run paper = true_run(&next, order, clock); /* whatever the slots before have supplied */
    must(plot_next(&next, order, run) == JB_OK, "a sheet is not committed and worked to its end");
    must(board.sheets == sheets + 1 && run->clock == board.slots, "a new sheet is not told once, or its clock is not that of the ticks");
    paper = true_run_from(paper, run->clock);
    must(same(run, &paper), "the record is not that of a run whose slots before the commit were idle");
    sheet_is_over(run, normal);
}

/* Drawing after drawing on one record: asked for early, committed when no row is open, each with what is promised of it. */
static void new_sheets(void) {
    asking_refused();
    for (int trial = 0; trial < TABLES; trial++) {
        uint8_t order[JB_ROWS];
        jb_table table = planned_table(order);
        jb_run run = fresh_run(&table, order);
        new_board(&table, 1, table.normal, 0);
        board_start();
        too_early(&run);
        while (jb_first_open(&run) != 0) {
            must(one_slot(&run) == JB_OK, "a slot is refused");
        }
        for (int sheet = 0; sheet < 3; sheet++) {
            idle_between(&run, below(4));
            next_on_the_clock(&run, below(3), below(2) == 0);
        }
    }
    puts("new sheets: asking changes no record; 17 while a row is open, 18 for a release below the clock, and then nothing changes");
    puts("new sheets: moved to the clock and committed there, each is worked as if the slots before had been idle, and keeps what is promised");
}

/* An order that is one of the table and not correct is 16; a proposal of two sheets is 6 or 16, and is never taken. */
static void wrong_proposals(void) {
    static const uint8_t kept[JB_ROWS] = {1, 2}, wrong[JB_ROWS] = {2, 1}, none[JB_ROWS] = {1, 2, 3};
    jb_table table = empty_table(5, 2, 0);
    add_row(&table, 0, 5, 1, JB_LO);
    add_row(&table, 0, 5, 9, JB_LO);
    jb_run run = fresh_run(&table, kept);
    new_board(&table, 5, 5, 0);
    board_start();
    not_committed(&table, none, &run, JB_NOT_AN_ORDER);
    not_committed(&table, wrong, &run, JB_NOT_CORRECT);
    not_committed(&table, kept, &run, JB_ROW_OPEN);
    run.clock = JB_LAST_CLOCK + 1;
    not_committed(&table, none, &run, JB_UNSOUND);
    puts("a proposal whose order is not correct is answered 16, before 17 and 18; 6 before it, and 9 before all");
}

/* The last sheet of a clock: released at 999,999 slots and committed there; a slot later none is taken. */
static void last_sheet(void) {
    static const uint8_t order[JB_ROWS] = {1};
    jb_table table = empty_table(5, 2, 0), last = table;
    add_row(&table, 0, 5, 1, JB_LO);
    add_row(&last, JB_LAST_DEADLINE - 1, 2, JB_LAST_DEADLINE, JB_HI);
    new_board(&table, 5, 5, 0);
    board.next = &last;
    jb_run run;
    must(plot(&table, &run) == JB_OK && run.clock == 1, "the first sheet");
    run.clock = JB_LAST_DEADLINE - 1; /* as after so many idle slots */
    jb_run later = run;
    must(plot_next(&last, order, &run) == JB_OK && run.clock == JB_LAST_DEADLINE && jb_is_done(&run, 1), "the last sheet is not taken");
    later.clock = JB_LAST_DEADLINE;
    not_committed(&last, order, &later, JB_RELEASED_BEFORE);
    jb_start_later(&last, 1);
    not_committed(&last, order, &later, JB_ROW_LIMITS);
    must(jb_fresh_run(&table, order, &run) == JB_OK && run.clock == 0, "a new run does not begin at 0");
    puts("the last sheet of a clock is released at 999,999 slots; after that 18, or 5 for a deadline that was moved too far");
}

/* The end of the clock: 8, nothing changes, and the loop begins no slot. Missed slots reported as 0 drop a LO row. */
static void clock_end(void) {
    static const uint8_t order[JB_ROWS] = {2, 1};
    uint32_t row, worked;
    jb_table table = empty_table(5, 2, 0);
    add_row(&table, 0, 40, 30, JB_HI);
    add_row(&table, 0, 12, 30, JB_LO);
    jb_run run = fresh_run(&table, order);
    uint32_t *nothing = (uint32_t *)calloc(JB_LAST_CLOCK, sizeof *nothing);
    must(nothing != NULL, "no memory");
    must(jb_work_forward(&run, nothing, 3, &worked) == JB_OK && run.closing[1] == 3 && run.got[1] == 0, "the LO row is not dropped at 3");
    must(jb_work_forward(&run, nothing, JB_LAST_CLOCK - 4, &worked) == JB_OK && run.clock == JB_LAST_CLOCK - 1, "the slots");
    must(jb_coming_row(&run, &row) == JB_OK && row == 1, "the last slot is refused");
    must(jb_work_slot(&run, 1, &row) == JB_OK && row == 1 && run.clock == JB_LAST_CLOCK && run.got[0] == 1, "the last slot");
    jb_run before = run;
    must(jb_coming_row(&run, &row) == JB_CLOCK_OVER && row == 0, "asking at the end is not 8");
    must(jb_work_slot(&run, 1, &row) == JB_CLOCK_OVER && row == 0 && same(&run, &before), "working at the end is not 8");
    new_board(&table, 5, 5, 0);
    board_start();
    must(one_slot(&run) == JB_CLOCK_OVER && board.slots == 0 && same(&run, &before), "the loop runs a slot at the end");
    free(nothing);
    puts("the end of the clock: slot 1,999,999 is worked, then 8 and the record stays; slots of 0 drop a LO row");
}

/* The loop plans, makes a fresh record and only then starts the board; slot 0 begins at tick 0. */
static void started(void) {
    for (int trial = 0; trial < TABLES; trial++) {
        uint8_t order[JB_ROWS];
        jb_table table = planned_table(order);
        jb_run run;
        memset(&run, 0xFF, sizeof run);
        new_board(&table, table.normal, table.normal, 0);
        board.run = &run;
        must(plot(&table, &run) == JB_OK, "the loop does not end with 0");
        must(board.started && board.begun_fresh, "the board is started before the record is fresh");
        must(run.clock == board.slots, "the clock is not the ticks since tick 0");
    }
    puts("the loop starts the board once, when the record is fresh, and runs no slot before");
}

/* A job that starts over and, against the rule, its counter with it: 0 is reported of that slot, and the row stays open until its job has ended. */
static void fallen_counter(void) {
    static const uint8_t order[JB_ROWS] = {1};
    jb_table table = empty_table(5, 2, 0);
    add_row(&table, 0, 40, 30, JB_HI);
    jb_run run = fresh_run(&table, order);
    new_board(&table, 5, 5, 0);
    board_start();
    must(one_slot(&run) == JB_OK && one_slot(&run) == JB_OK && run.got[0] == 10, "two slots");
    board.starts_over = 1;
    must(one_slot(&run) == JB_OK && run.closing[0] == 0 && run.got[0] == 10, "a counter that fell is not reported as 0");
    must(one_slot(&run) == JB_OK && run.got[0] == 15, "the slot after it is not reported as it was");
    puts("a counter that fell is reported as 0 work units, and the row stays open");
}

static void endless(int number) {
    static const char words[] = "not so: the loop does not end on a damaged record\n";
    (void)number;
    if (write(2, words, sizeof words - 1) < 0) {
        _exit(2);
    }
    _exit(1);
}

/* A record damaged after a slot, so that no row seems open: the loop ends and answers 9. All rows closed by the last slot of the clock: 0. */
static void seems_closed(void) {
    static const uint32_t counts[] = {0, 1, 64, 65, 0x80000000u, UINT32_MAX};
    jb_table table = empty_table(5, 2, 0);
    jb_run run;
    add_row(&table, 0, 5, 20, JB_HI);
    add_row(&table, 0, 40, 30, JB_HI);
    must(signal(SIGALRM, endless) != SIG_ERR, "no alarm");
    for (size_t index = 0; index < sizeof counts / sizeof counts[0]; index++) {
        new_board(&table, 5, 5, 0);
        board.run = &run;
        board.damage = 1;
        board.damaged_n = counts[index];
        alarm(5);
        must(plot(&table, &run) == JB_UNSOUND, "a record damaged to %u rows, all closed, is not answered 9", counts[index]);
        alarm(0);
        must(run.table.n == counts[index] && board.slots < 9, "the loop goes on after the damage");
    }
    table = empty_table(5, 2, 0);
    add_row(&table, 0, 5, 20, JB_HI);
    new_board(&table, 5, 5, 0);
    board.run = &run;
    board.to_last_slot = 1;
    must(plot(&table, &run) == JB_OK, "all rows closed by the clock's last slot are not answered 0");
    must(run.clock == JB_LAST_CLOCK && run.closing[0] == JB_LAST_CLOCK && board.jobs[1].done, "the last slot does not close the row");
    table.work[0] = 6;
    new_board(&table, 5, 5, 0);
    board.run = &run;
    board.to_last_slot = 1;
    must(plot(&table, &run) == JB_CLOCK_OVER && board.slots == 1, "a row open at the clock's end is not answered 8");
    puts("a record damaged so that no row seems open: the loop ends with 9; rows closed by the clock's last slot: 0, one open: 8");
}

/* What the loop answers for tables that cannot be run. */
static void refusals(void) {
    static const uint8_t other[JB_ROWS] = {1, 1};
    jb_table table = empty_table(2, 1, 0);
    jb_run run;
    uint32_t length;
    new_board(&table, 2, 2, 0);
    must(plot(&table, &run) == JB_ROW_COUNT, "no rows are not 3");
    add_row(&table, 0, 2, 2, JB_LO);
    add_row(&table, 0, 4, 4, JB_HI);
    must(plot(&table, &run) == JB_NO_ORDER, "the table without an order is not 7");
    must(jb_fresh_run(&table, other, &run) == JB_NOT_AN_ORDER, "a row twice is not 6");
    must(jb_report_order(&table, other, NULL, 0, &length) == JB_NOT_AN_ORDER, "a row twice in a list without room is not 6");
    table.normal = 1001;
    must(plot(&table, &run) == JB_SPEEDS, "N 1,001 is not 4");
    table.normal = 2;
    table.loading = JB_MOST_LOADING + 1;
    must(plot(&table, &run) == JB_LOADING, "K 17 is not 11");
    must(jb_fresh_run(&table, other, &run) == JB_LOADING, "K 17 and a row twice are not 11");
    table.loading = 0;
    table.promised[0] = 3;
    must(plot(&table, &run) == JB_PROMISED, "more promised than there is work is not 12");
    table.promised[0] = 0;
    table.promised[1] = 1;
    must(plot(&table, &run) == JB_PROMISED && jb_fresh_run(&table, other, &run) == JB_PROMISED, "a promise on a HI row is not 12");
    table.promised[1] = 0;
    table.follows[1] = 2;
    must(plot(&table, &run) == JB_NOT_LOWER && jb_fresh_run(&table, other, &run) == JB_NOT_LOWER, "a row that follows itself is not 13");
    table.follows[1] = 1;
    must(plot(&table, &run) == JB_FOLLOWS_LOW, "a HI follower of a LO row is not 15");
    table.release[0] = 1;
    must(plot(&table, &run) == JB_RELEASED_LATER, "a followed row that is released later is not 14");
    table.release[0] = 2;
    must(plot(&table, &run) == JB_ROW_LIMITS, "a release at the deadline is not 5");
    must(board.slots == 0 && !board.started, "a refused table starts the board or runs a slot");
    puts("tables that cannot be run are answered 3, 4, 11, 5, 12, 13, 14, 15, 6 or 7, and no slot is begun");
}

/* An order that has a row above the one that it follows is 6, and so a record with it is 9; 7 where only such orders would be correct. */
static void broken_waits(void) {
    static const uint8_t kept[JB_ROWS] = {1, 2}, broken[JB_ROWS] = {2, 1};
    uint8_t order[JB_ROWS];
    uint64_t left;
    uint32_t row;
    jb_table table = empty_table(1, 1, 0);
    add_row(&table, 0, 1, 9, JB_LO);
    add_row(&table, 0, 1, 1, JB_LO);
    must(jb_plan_table(&table, order, &left) == JB_OK && memcmp(order, broken, JB_ROWS) == 0, "where no row waits, row 2 is not planned before row 1");
    table.follows[1] = 1;
    jb_run run = fresh_run(&table, kept);
    must(jb_coming_row(&run, &row) == JB_OK && row == 1, "the followed row is not the first to run");
    memcpy(run.order, broken, JB_ROWS);
    must(jb_coming_row(&run, &row) == JB_UNSOUND && row == 0, "a record whose order breaks a wait is not 9");
    must(jb_fresh_run(&table, broken, &run) == JB_NOT_AN_ORDER, "an order with a row above the one that it follows is not 6");
    must(jb_plan_table(&table, order, &left) == JB_NO_ORDER && left == 3, "a wait that no correct order keeps is not 7");
    puts("an order with a row above the one that it follows is answered 6, and 9 in a record; 7 where only such orders would be correct");
}

int main(void) {
    must(jb_fits(), "the header and the archive do not belong together");
    must(jb_version() == 5, "the interface is not number 5");
    must(sizeof(jb_table) == 1552 && sizeof(jb_run) == 2388 && sizeof(jb_row) == 24, "table, record and row have other sizes");
    record_of_true_supplies();
    real_deadlines();
    window_only();
    work_over_c();
    coming_and_idle();
    ends_alone();
    deadlines_by_ends();
    early_end();
    lagging();
    too_much();
    late_previews();
    promised_parts();
    rows_that_follow();
    followed_by_high();
    loading_slots();
    ended_while_loading();
    loads_longer();
    given_up();
    restored();
    stored_before();
    stored_by_3_and_4();
    allowance_stack();
    sheet_of_record();
    list_of_jobs();
    verdicts_as_sentences();
    least_speeds();
    ceilings();
    choices();
    rows_left();
    new_sheets();
    wrong_proposals();
    last_sheet();
    clock_end();
    started();
    fallen_counter();
    seems_closed();
    refusals();
    broken_waits();
    return 0;
}
