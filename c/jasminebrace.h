/*
 * Jasminebrace: priority orders for a processor whose speed varies unseen.
 * C11 and C++11 or later, hosted or freestanding.
 *
 * Link libjasminebrace.a, which `tools/archive.sh` writes. It is for
 * x86-64 and the System V calling convention, as Linux has it, and for no other
 * processor or convention. It has no writable globals, allocates nothing and
 * calls nothing but these functions of the C library, which a freestanding
 * program provides itself:
 *     memcpy memset
 *
 * Words and units. A job is a row; the topmost row is row 1. Slot t begins at
 * clock t and ends at clock t + 1. Clocks, releases, deadlines, loading, needs,
 * finishes, slacks and closing slots are in slots. Work is in work units. Speeds
 * and supplies are in work units per slot. The first K slots that a row runs are
 * loading slots: they count as slots used and bring no work. A preempted row does
 * not load again. A row's need is K slots and its work divided by the speed,
 * rounded up. K counts for each row of the table by itself; 0 is no loading.
 *
 * Late rows. In a run a LO row that is still open when the clock reaches its
 * deadline is dropped at that clock; one whose last work comes in the slot that ends
 * there is done. HI rows go on until they are done. Plans do not count on these drops:
 * wherever an order is called correct, and in worst finishes, slacks and least
 * speeds, late rows go on, LO rows until their allowance is used up.
 *
 * Promised parts. Of a LO row a part of its work may be promised: promised, in work
 * units, at most its work. Under a correct order the row has got at least that much
 * when the clock reaches its deadline, if every slot from the least release of all
 * rows up to the deadline supplied at least G: a coarse preview, where N is not kept
 * and the fine one is dropped. With 0 there is no promise. A HI row has 0, since all
 * its work is promised at G. The slots that a LO row may use, its allowance, are the
 * larger of the need of its work at N and the need of its promised part at G, K in
 * each.
 *
 * Rows that follow rows. A row may follow a row above it in the table: follows, its row
 * number, or 0 for none. Such a row waits: no slot runs it while the row that it follows
 * is open. Once that one is closed, done or dropped, it may run. A row is ready if it is
 * released and open and does not wait; a slot runs the ready row with the highest place.
 * The followed row has a lower row number, is released no later, and is HI if its
 * follower is. In an order a row stands below the one that it follows, in a later
 * place; the planner makes such orders alone. The first released and open row of such an
 * order never waits, so that no slot is lost by waiting, and nothing has to be called
 * for it.
 *
 * New sheets. A run need not stop for the next sheet, which takes the place of the one
 * that runs: the clock goes on. Asking (jb_ask_sheet) makes a proposal of a sheet, which is
 * its table and an order of it; no record is handed in, so that a run may go on meanwhile.
 * Committing (jb_commit_sheet) puts the proposal into a run record in which every row
 * is closed: all rows of the new table are then open and empty, and the clock is the one
 * that the record had. Releases and deadlines of the new sheet are in slots of that same
 * clock, whose slot 0 is that of the fresh record: a release below the clock is refused
 * (18). jb_start_later moves a table whose slots were counted from its own beginning.
 * What is promised of rows from a fresh record on is promised of the new ones from the
 * committed record on, by the supplies from their own least release on.
 *
 * Ceilings. The planner fills the places of an order from the lowest up, and tries rows at
 * each until one passes; one trial is counted for each row that is tried at a place. A
 * table of n rows takes at most n * (n + 1) / 2 trials (jb_most_trials), 2,080 trials with
 * 64 rows. Whoever plans beside other work can hand in a ceiling (jb_plan_table_within):
 * no more trials are made than that, and if the table takes more of them, the answer is
 * 19. It says neither that a correct order exists nor that none does, and nothing of that
 * planning is kept: plan again with a higher ceiling. An answer of 0 or 7 is the same at
 * every higher ceiling. A ceiling bounds trials and not time: docs/FIRMWARE.md and
 * docs/BENCHMARKS.md say what it does for time. Every other call that plans makes as many
 * trials as it takes, and never answers 19.
 *
 * Sentences. An answer of the planner at a ceiling, or of the judge, can be had as one line of
 * English (jb_write_plan, jb_write_verdict), for a drawing, a log or a display, and the answer
 * can be had back from the line (jb_read_answer). The line tells every field: all figures in
 * decimal, slacks in slots with their sign, each row in the order and each row left. It has
 * printable ASCII bytes alone (32 to 126), no line end and no byte 0 after it, and at most 739
 * bytes (JB_LONGEST_SENTENCE). Two different answers never have the same line, which is proved,
 * and the reader takes nothing but such lines, byte for byte.
 *
 * Choices. How much choice a table leaves can be counted (jb_count_orders), if it has at most
 * 12 rows (JB_MOST_COUNTED): how many of the n * (n - 1) * ... * 1 arrangements of its n rows
 * (jb_arrangements) are correct orders, with each row below the one that it follows; in how
 * many of them each row stands lowest; and, in the scratch that the call is lent, the same
 * count for every set of its rows taken alone. 1 correct order leaves no choice at all; 0 is
 * what the planner answers 7 to. At most there are 479,001,600 orders, those of 12 rows.
 *
 * Memory. Every pointer points to memory of the size that its parameter names,
 * aligned for its type. It is not null, but for one case: the functions of the
 * last part take null for a list, or for bytes or numbers to write to, where their
 * length is 0; the archive's own do not.
 * Memory that a call writes does not overlap other memory handed to the same
 * call. What is lent as const is never written. Results are written whole with
 * every answer, so that their memory need not be cleared before; what stands in
 * them after a refusal is said at each function. The exceptions are the memory
 * for a sheet, that for a report, that for a sentence and the scratch for counting, which
 * may have any length: jb_write writes just the sheet's bytes, jb_report just the report's,
 * jb_plan_sentence and jb_judge_sentence just the sentence's, jb_count just the first 2 to
 * the n numbers of the scratch with n rows, and none with a refusal.
 *
 * Threads and interrupts. A call touches what it is handed and its own stack,
 * and nothing else. Calls on different memory may run at the same time, and so
 * may calls that are lent the same memory as const. A record is written by one
 * call at a time; nothing here locks it.
 *
 * Stack, in bytes, without what the caller lends. It is measured, over tables of
 * 1 and 64 rows, for jb_count of 12 rows too, and not proved: the most that each
 * call took, and some bytes more (512 stands for less); docs/BENCHMARKS.md says how:
 *     jb_read                  8,448
 *     jb_write                 3,584
 *     jb_field                   512
 *     jb_plan                 13,824
 *     jb_plan_within          13,824
 *     jb_ask                  15,360
 *     jb_least_degraded       17,408
 *     jb_least_normal         17,408
 *     jb_read_least_degraded  17,408
 *     jb_read_least_normal    17,408
 *     jb_judge                11,264
 *     jb_judge_rows           12,800
 *     jb_finishes              8,192
 *     jb_report                9,728
 *     jb_count                12,544
 *     jb_fresh                 6,912
 *     jb_coming                3,072
 *     jb_slot                  8,704
 *     jb_forward               9,984
 *     jb_commit               17,920
 *     jb_program              16,384
 *     jb_plan_sentence         1,792
 *     jb_judge_sentence          512
 *     jb_read_sentence         3,072
 *     jb_version                 512
 * The functions of the last part add the few words of their own frame. But jb_need,
 * jb_allowance and jb_is_dropped_for_deadline call jb_finishes on a table of their
 * own. Measured likewise, by tools/firmware_test.c as gcc compiles it with -O2:
 * count on 9,984 bytes.
 *
 * Bare boards. The archive's code uses xmm registers by SSE and SSE2
 * instructions, and no x87, MMX or AVX. Of later instructions it has tzcnt,
 * which older processors take for bsf: the same for all but 0, of which it is
 * never asked. SSE must be enabled before the first
 * call: CR0.EM and CR0.TS clear, CR4.OSFXSR set. A handler that interrupts a
 * call saves and restores the xmm registers if it, or what it calls, uses them.
 * A handler that calls these functions saves and restores whatever the
 * convention lets a call change: all xmm registers too. Each call needs a stack
 * aligned to 16 bytes and a clear direction flag, as the convention asks: a
 * handler sees to both before it calls. The calls that plan or count (jb_plan,
 * jb_plan_within, jb_ask, jb_least_degraded, jb_least_normal,
 * jb_read_least_degraded, jb_read_least_normal, jb_program and jb_count) use the
 * red zone, the 128 bytes below the stack pointer: a handler that interrupts one
 * of them needs a stack of its own; else plan and count before interrupts are let
 * in. All other calls, those of every slot among them, keep nothing below the
 * stack pointer.
 * The convention allows it to your memcpy and memset and to your own code too:
 * if they use it, what was said holds of them; if they do not (gcc
 * -mno-red-zone), a handler may run on their stack.
 * The stack figures were measured with Linux's memcpy and memset and hold no
 * frames of interrupts: add yours. tools/firmware_test.sh looks through the
 * archive's code for what is said here of registers and the red zone.
 *
 * Use the functions over jb_table and jb_run in the last part. The functions
 * before them are what the archive exports, on bare arrays.
 */
#ifndef JASMINEBRACE_H
#define JASMINEBRACE_H

#include <stddef.h>
#include <stdint.h>

/*
 * The number of the interface that this header describes: sizes, layouts and
 * what the numbers mean. It is raised whenever one of them changes. It is not
 * raised for a new function, nor for a number that only new functions give: an
 * archive without them does not link. jb_fits() says whether the archive that was
 * linked is of the same number.
 * 3: LO rows are dropped at their deadlines, so that other records are sound and
 *    9 means something else than in 2. Sizes and layouts are those of 2.
 * 4: rows have a promised part, after the level in jb_row and in jb_table. A table, and
 *    so a record, is 256 bytes longer, the line of a row in a sheet 8 bytes; 12 is new.
 * 5: rows may follow rows: follows, last in jb_row and last in jb_table. A table, and so
 *    a record, is again 256 bytes longer, the line of a row in a sheet 8 bytes; 13, 14
 *    and 15 are new, and 6 is given for a row that stands above the one it follows too.
 *    Its first archives have no jb_ask and no jb_commit; a commit alone gives 16, 17
 *    and 18. The next ones have no jb_plan_within, which alone gives 19. Those after them have
 *    no jb_plan_sentence, no jb_judge_sentence and no jb_read_sentence, and then come those
 *    without jb_count, which alone gives 20.
 */
#define JB_VERSION 5u

#ifdef __cplusplus
#define JB_STATIC_ASSERT(condition, words) static_assert(condition, words)
#else
#define JB_STATIC_ASSERT(condition, words) _Static_assert(condition, words)
#endif

#ifdef __cplusplus
extern "C" {
#endif

/* Sizes and limits. */
enum jb_limit {
    JB_ROWS = 64,              /* most rows in a table; entries in every column */
    JB_MOST_SPEED = 1000,      /* largest N, in work units per slot */
    JB_MOST_LOADING = 16,      /* largest K, in slots */
    JB_MOST_WORK = 1000000,    /* largest work of a row, in work units */
    JB_LAST_DEADLINE = 1000000, /* latest deadline, in slots */
    JB_LAST_CLOCK = 2000000,   /* the clock at which no slot is worked any more, in slots */
    JB_MOST_TRIALS = 2080,     /* most trials that planning a table takes: 64 * 65 / 2, those of 64 rows */
    JB_TABLE_WORDS = 388,      /* 32-bit words in a table */
    JB_STATE_WORDS = 193,      /* 32-bit words in the state of a run */
    JB_FIELD = 8,              /* bytes in a field of a sheet */
    JB_FIRST_LINE = 33,        /* bytes in a sheet's first line: n, N, G, K and byte 10 */
    JB_ROW_LINE = 49,          /* bytes in the line of a row: release, work, deadline, level,
                                  promised part, followed row and byte 10 */
    JB_LONGEST_SHEET = 3169,   /* bytes in a sheet of 64 rows: 33 + 49 for each row */
    JB_FIGURE = 10,            /* bytes in a figure of a report */
    JB_PLACE_LINE = 51,        /* bytes in a report's line of a place: five figures and byte 10 */
    JB_TOTALS_LINE = 21,       /* bytes in a report's last line: two figures and byte 10 */
    JB_LONGEST_REPORT = 3285,  /* bytes in a report of 64 rows: 51 for each row + 21 */
    JB_PROGRAM_INPUT = 3170,   /* bytes of its input that the planning program looks at */
    JB_PROGRAM_TEXT = 1617,    /* most bytes that the planning program writes */
    JB_LONGEST_SENTENCE = 739, /* most bytes in the sentence of an answer */
    JB_MOST_COUNTED = 12,      /* most rows of a table whose correct orders are counted */
    JB_SCRATCH = 4096,         /* 32-bit numbers of scratch that counting asks for, 16,384 bytes: one for each set of 12 rows */
    JB_LAST_NUMBER = 20        /* largest number that a call returns */
};

/* Levels of a row. */
enum jb_level {
    JB_LO = 0, /* dropped if work is still missing when its allowance is used up, or at its deadline */
    JB_HI = 1  /* never dropped; late, it goes on until it is done */
};

/* Whose answer a sentence tells. */
enum jb_kind {
    JB_PLANNER = 1,
    JB_JUDGE = 2
};

/*
 * The number that a call returns. jb_words and jb_remedy say what each means and
 * what to do about it. A table is checked for 3, 4 and 11, for 5 in every row, for 12 in
 * every row, then for 13, 14 and 15 row by row, and the first that is found is returned;
 * 6 comes after these, 10 last. A record whose table or order is refused by one of them
 * is unsound (9). A commit is checked for 9, then for these in its proposal, then for 16,
 * 17 and 18. Planning at a ceiling answers 19, or else 0 or 7, only if none of the checks on
 * its table refuses. Counting orders checks its table so too, then for 20, and for 10 last.
 * Writing a sentence answers 0 or 10 and reading one 0 or 2, whatever number stands in the
 * answer that it tells: that one is a figure like its others. jb_field, jb_program,
 * jb_program_text and jb_version return no such number, and jb_judge_rows returns a word in
 * which it is packed.
 */
enum jb_number {
    JB_OK = 0,           /* success */
    JB_LENGTH = 1,       /* the sheet's length is wrong */
    JB_MALFORMED = 2,    /* a field or a line end of the sheet is malformed, or the bytes are no
                            answer's sentence */
    JB_ROW_COUNT = 3,    /* the row count is beyond its limits */
    JB_SPEEDS = 4,       /* a speed is beyond its limits */
    JB_ROW_LIMITS = 5,   /* a row is beyond its limits, or figures stand after the last */
    JB_NOT_AN_ORDER = 6, /* the order is no order of the table: not each row once, or a row above
                            the one that it follows */
    JB_NO_ORDER = 7,     /* no correct order exists, none in which every row stands below the
                            one that it follows; from a search, at no speed of its range. It
                            tells nothing of orders that would serve only because runs drop
                            late LO rows */
    JB_CLOCK_OVER = 8,   /* the clock is at its end, and no further slot is worked */
    JB_UNSOUND = 9,      /* the run record cannot come from a run; a LO row that is open at a
                            clock that has reached its deadline is one reason */
    JB_NO_ROOM = 10,     /* the memory lent is shorter than what has to be written, or, for counting,
                            than 4,096 numbers */
    JB_LOADING = 11,     /* K is beyond its limit */
    JB_PROMISED = 12,    /* a promised part is above its row's work, or stands on a HI row */
    JB_NOT_LOWER = 13,   /* a row follows what is not a row above it in the table */
    JB_RELEASED_LATER = 14, /* a row follows one that is released later than itself */
    JB_FOLLOWS_LOW = 15,    /* a row is HI and the row that it follows LO */
    JB_NOT_CORRECT = 16,    /* the order to be committed is not correct */
    JB_ROW_OPEN = 17,       /* a row of the running sheet is open: neither done nor dropped */
    JB_RELEASED_BEFORE = 18, /* a row to be committed has its release below the clock */
    JB_OVER_CEILING = 19,    /* planning the table takes more trials than the ceiling; it says
                                neither that a correct order exists nor that none does */
    JB_TOO_MANY_ROWS = 20    /* the table has more than 12 rows, and its orders are not counted; it
                                says neither that a correct one exists nor that none does */
};

/* What a number means, in words. The text lasts as long as the program. */
static inline const char *jb_words(uint32_t number) {
    switch (number) {
    case JB_OK: return "success";
    case JB_LENGTH: return "the sheet has under 33 bytes, or not 33 + 49 for each row";
    case JB_MALFORMED: return "a field or a line end of the sheet is malformed, or the bytes are no answer's sentence";
    case JB_ROW_COUNT: return "the row count is not 1 to 64";
    case JB_SPEEDS: return "N is not 1 to 1,000, or G is not 1 to N (work units per slot)";
    case JB_ROW_LIMITS:
        return "a row has work not 1 to 1,000,000 work units, a deadline over 1,000,000 slots, a release not below its "
               "deadline or a level not 0 or 1, or a row after the last is not zero";
    case JB_NOT_AN_ORDER:
        return "the order does not name every row once and then only zeros, or has a row above the one that it follows";
    case JB_NO_ORDER: return "no correct order exists";
    case JB_CLOCK_OVER: return "the clock is 2,000,000 slots, and no further slot is worked";
    case JB_UNSOUND: return "the run record cannot come from a run";
    case JB_NO_ROOM:
        return "the memory lent has fewer bytes than have to be written, or the scratch for counting fewer than 4,096 numbers";
    case JB_LOADING: return "K is above 16 slots";
    case JB_PROMISED: return "a promised part is above its row's work, or above 0 work units on a HI row";
    case JB_NOT_LOWER: return "a row follows what is not a row above it in the table";
    case JB_RELEASED_LATER: return "a row follows one that is released later than itself";
    case JB_FOLLOWS_LOW: return "a row is HI and the row that it follows LO";
    case JB_NOT_CORRECT: return "the order to be committed is not correct";
    case JB_ROW_OPEN: return "a row of the running sheet is open";
    case JB_RELEASED_BEFORE: return "a row of the new sheet has its release below the clock";
    case JB_OVER_CEILING: return "planning the table takes more trials than the ceiling";
    case JB_TOO_MANY_ROWS: return "the table has more than 12 rows, too many to count its correct orders";
    default: return "this number is never returned";
    }
}

/* What to do about a number, in words. The text lasts as long as the program. */
static inline const char *jb_remedy(uint32_t number) {
    switch (number) {
    case JB_OK: return "nothing needs to be done";
    case JB_LENGTH: return "send the sheet whole, with nothing after it";
    case JB_MALFORMED:
        return "write each field as a decimal number right-justified in 8 bytes, with spaces before it and no leading "
               "zero, and each line end as byte 10; hand in a sentence as it was written, each byte of it and no other";
    case JB_ROW_COUNT: return "split the table, or give it a row";
    case JB_SPEEDS: return "correct the speeds";
    case JB_ROW_LIMITS: return "correct the row";
    case JB_NOT_AN_ORDER:
        return "give each row of the table once, highest place first, each below the row that it follows";
    case JB_NO_ORDER:
        return "give the rows left later deadlines, less work, smaller promised parts or fewer waits, the processor more "
               "speed, or the table a smaller K";
    case JB_CLOCK_OVER: return "begin a new run with a fresh record";
    case JB_UNSOUND:
        return "the record's memory was damaged, or it was stored by an earlier interface: bring up a record of interface 3 "
               "or 4 as docs/FIRMWARE.md says, else begin a new run with a fresh record";
    case JB_NO_ROOM:
        return "lend more memory: 3,169 bytes hold every sheet, 3,285 bytes every report, 739 bytes every sentence; counting "
               "takes 4,096 numbers (16,384 bytes) of scratch, however few the rows";
    case JB_LOADING: return "correct K; where a job really takes longer to load, split it or make the slots longer";
    case JB_PROMISED:
        return "promise at most the row's work, and 0 work units on a HI row, all of whose work is promised at G";
    case JB_NOT_LOWER: return "let the row follow one of a lower row number, or none (0)";
    case JB_RELEASED_LATER: return "release the row no earlier than the one that it follows, or let it follow none (0)";
    case JB_FOLLOWS_LOW:
        return "make the followed row HI or its follower LO, or let the row follow none (0): a HI job must not wait for one "
               "that may be dropped";
    case JB_NOT_CORRECT: return "commit the table and the order that asking for the sheet has answered";
    case JB_ROW_OPEN: return "work on until every row is done or dropped, and commit then";
    case JB_RELEASED_BEFORE:
        return "count releases and deadlines in slots of the running clock: let the new sheet start at the clock of its "
               "commit or later; from clock 1,000,000 slots on begin a new run with a fresh record";
    case JB_OVER_CEILING:
        return "plan again with a higher ceiling: n * (n + 1) / 2 trials are always enough for n rows, 2,080 trials for every "
               "table";
    case JB_TOO_MANY_ROWS:
        return "count at most 12 rows, such as a part of the sheet by itself; planning and judging take up to 64 rows";
    default: return "compare the header with the archive by jb_fits()";
    }
}

/* A row by itself, for a list of rows. */
typedef struct {
    uint32_t release;  /* first slot in which the row may run, below its deadline */
    uint32_t work;     /* 1 to 1,000,000 work units */
    uint32_t deadline; /* at most 1,000,000 slots */
    uint32_t level;    /* JB_LO or JB_HI */
    uint32_t promised; /* work units that a LO row is to have at its deadline if every slot supplies at least G: 0 to
                          its work; 0 on a HI row */
    uint32_t follows;  /* the row that has to be closed before this one runs, counted from 1 in the list: a lower row
                          number, released no later, and HI if this row is; 0 for none */
} jb_row;

/* A table of n rows. Row i is at index i - 1 of every column; the entries after row n are 0. */
typedef struct {
    uint32_t n;                 /* rows, 1 to 64 */
    uint32_t normal;            /* normal speed N, 1 to 1,000 work units per slot */
    uint32_t degraded;          /* degraded speed G, 1 to N work units per slot */
    uint32_t loading;           /* K, 0 to 16 slots: the first K slots that a row runs bring it no work */
    uint32_t release[JB_ROWS];  /* first slot in which the row may run, below its deadline */
    uint32_t work[JB_ROWS];     /* 1 to 1,000,000 work units */
    uint32_t deadline[JB_ROWS]; /* at most 1,000,000 slots; kept by a finish at or before it */
    uint32_t level[JB_ROWS];    /* JB_LO or JB_HI */
    uint32_t promised[JB_ROWS]; /* work units that a LO row is to have at its deadline if every slot supplies at least
                                   G: 0 to its work; 0 on a HI row */
    uint32_t follows[JB_ROWS];  /* the row that has to be closed before this one runs: a lower row number, released no
                                   later, and HI if this row is; 0 for none */
} jb_table;

/* A run record: a table, an order of it, and how far its run has come. */
typedef struct {
    jb_table table;
    uint8_t order[JB_ROWS];    /* row numbers from the highest place down, each row below the
                                  one that it follows, then zeros */
    uint32_t clock;            /* slots worked, 0 to 2,000,000 slots: the coming slot */
    uint32_t got[JB_ROWS];     /* work got by each row, in work units */
    uint32_t used[JB_ROWS];    /* slots used by each row, loading slots too */
    uint32_t closing[JB_ROWS]; /* closing slot of each row: the clock at which it was done or
                                  dropped, for a LO row at most its deadline; 0 while it is open */
} jb_run;

/*
 * What a sentence tells: an answer of the planner or of the judge. The fields of the other kind
 * are 0. They hold what the line says, also such figures as no call answers.
 */
typedef struct {
    uint32_t kind;          /* JB_PLANNER or JB_JUDGE; 0 if no answer was read */
    uint32_t number;        /* that of the answer, which is told, and not that of reading it */
    uint64_t left;          /* the planner's rows left, row 1 in the lowest bit */
    uint8_t order[JB_ROWS]; /* the planner's order: numbers from the highest place down */
    uint32_t trials;        /* the planner's, made */
    uint32_t yes;           /* the judge's: 1 for yes, 0 for no, or any other figure */
    uint32_t row;           /* the judge's row of least slack */
    int32_t slack;          /* the judge's, in slots */
} jb_answer;

JB_STATIC_ASSERT(sizeof(jb_row) == 24, "a row is six words without gaps");
JB_STATIC_ASSERT(sizeof(jb_table) == 1552, "a table is 388 words without gaps");
JB_STATIC_ASSERT(sizeof(jb_table) == 4 * JB_TABLE_WORDS, "a table is 388 words without gaps");
JB_STATIC_ASSERT(offsetof(jb_table, n) == 0, "the row count is word 0 of a table");
JB_STATIC_ASSERT(offsetof(jb_table, normal) == 4, "N is word 1 of a table");
JB_STATIC_ASSERT(offsetof(jb_table, degraded) == 8, "G is word 2 of a table");
JB_STATIC_ASSERT(offsetof(jb_table, loading) == 12, "K is word 3 of a table");
JB_STATIC_ASSERT(offsetof(jb_table, release) == 16, "the releases begin at word 4 of a table");
JB_STATIC_ASSERT(offsetof(jb_table, work) == 272, "the works begin at word 68 of a table");
JB_STATIC_ASSERT(offsetof(jb_table, deadline) == 528, "the deadlines begin at word 132 of a table");
JB_STATIC_ASSERT(offsetof(jb_table, level) == 784, "the levels begin at word 196 of a table");
JB_STATIC_ASSERT(offsetof(jb_table, promised) == 1040, "the promised parts begin at word 260 of a table");
JB_STATIC_ASSERT(offsetof(jb_table, follows) == 1296, "the followed rows begin at word 324 of a table");
JB_STATIC_ASSERT(sizeof(jb_run) == 2388, "a run record is 2,388 bytes without gaps");
JB_STATIC_ASSERT(offsetof(jb_run, table) == 0, "a run record begins with its table");
JB_STATIC_ASSERT(offsetof(jb_run, order) == 1552, "the order follows the table");
JB_STATIC_ASSERT(offsetof(jb_run, clock) == 1616, "the state follows the order");
JB_STATIC_ASSERT(offsetof(jb_run, got) == 1620, "the works got begin at word 1 of the state");
JB_STATIC_ASSERT(offsetof(jb_run, used) == 1876, "the slots used begin at word 65 of the state");
JB_STATIC_ASSERT(offsetof(jb_run, closing) == 2132, "the closing slots begin at word 129 of the state");
JB_STATIC_ASSERT(sizeof(jb_run) - offsetof(jb_run, clock) == 4 * JB_STATE_WORDS, "a state is 193 words without gaps");
JB_STATIC_ASSERT(sizeof(jb_answer) == 96, "an answer is 96 bytes without gaps");
JB_STATIC_ASSERT(JB_FIRST_LINE == 4 * JB_FIELD + 1, "the first line of a sheet has four fields");
JB_STATIC_ASSERT(JB_ROW_LINE == 6 * JB_FIELD + 1, "the line of a row has six fields");
JB_STATIC_ASSERT(JB_LONGEST_SHEET == JB_FIRST_LINE + JB_ROWS * JB_ROW_LINE, "the longest sheet has 64 rows");
JB_STATIC_ASSERT(JB_PLACE_LINE == 5 * JB_FIGURE + 1, "the line of a place has five figures");
JB_STATIC_ASSERT(JB_TOTALS_LINE == 2 * JB_FIGURE + 1, "the last line of a report has two figures");
JB_STATIC_ASSERT(JB_LONGEST_REPORT == JB_ROWS * JB_PLACE_LINE + JB_TOTALS_LINE, "the longest report has 64 rows");
JB_STATIC_ASSERT(JB_PROGRAM_INPUT == JB_LONGEST_SHEET + 1, "the program looks at one byte above the longest sheet");
JB_STATIC_ASSERT(JB_MOST_TRIALS == JB_ROWS * (JB_ROWS + 1) / 2, "at a place at most the rows left are tried");
JB_STATIC_ASSERT(JB_SCRATCH == 1 << JB_MOST_COUNTED, "a number of scratch for each set of the most rows that are counted");
JB_STATIC_ASSERT(JB_PROGRAM_TEXT == 17 + 25 * JB_ROWS, "a text is a first line of 17 bytes and 25 bytes for each place");

#undef JB_STATIC_ASSERT

/*
 * The functions of the archive, on bare arrays. table is the 388 words of a
 * jb_table, state the 193 words of a jb_run from its clock on. What each does
 * stands at the function over jb_table and jb_run that calls it. No pointer is
 * null here, not even where a length is 0.
 */
uint32_t jb_read(const uint8_t *sheet, size_t length, uint32_t table[388]);
uint32_t jb_write(const uint32_t table[388], uint8_t *sheet, size_t room, uint32_t *length);

/* Writes a number as a field of a sheet: right-justified in 8 bytes with spaces
   before it. Gives 1 if the field holds the number, which is so below
   100,000,000; of a larger number the field has the last eight digits, and it
   gives 0. */
uint32_t jb_field(uint32_t figure, uint8_t field[8]);

uint32_t jb_plan(const uint32_t table[388], uint8_t order[64], uint64_t *left);
uint32_t jb_plan_within(const uint32_t table[388], uint32_t ceiling, uint8_t order[64], uint64_t *left, uint32_t *trials);
uint32_t jb_ask(const uint8_t *sheet, size_t length, uint32_t table[388], uint8_t order[64], uint64_t *left);
uint32_t jb_least_degraded(const uint32_t table[388], uint32_t *speed, uint8_t order[64]);
uint32_t jb_least_normal(const uint32_t table[388], uint32_t *speed, uint8_t order[64]);
uint32_t jb_read_least_degraded(const uint8_t *sheet, size_t length, uint32_t *speed, uint8_t order[64]);
uint32_t jb_read_least_normal(const uint8_t *sheet, size_t length, uint32_t *speed, uint8_t order[64]);
uint32_t jb_judge(const uint32_t table[388], const uint8_t order[64], uint32_t *yes, uint32_t *row, int32_t *slack);

/* Returns no number but a packed word: the number in bits 0 to 3, yes in bit 4,
   the row in bits 5 to 15 and the slack's 32 bits, two's complement, from bit 16
   on. jb_judge_list takes it apart. */
uint64_t jb_judge_rows(const jb_row *rows, size_t count, uint32_t normal, uint32_t degraded, uint32_t loading,
                       const uint8_t order[64]);

uint32_t jb_finishes(const uint32_t table[388], const uint8_t order[64], uint32_t finishes[64]);
uint32_t jb_report(const uint32_t table[388], const uint8_t order[64], uint8_t *report, size_t room, uint32_t *length);
uint32_t jb_count(const uint32_t table[388], uint32_t *scratch, size_t numbers, uint32_t *count, uint32_t lowest[64]);
uint32_t jb_fresh(const uint32_t table[388], const uint8_t order[64], uint32_t run_table[388], uint8_t run_order[64],
                  uint32_t run_state[193]);
uint32_t jb_coming(const uint32_t table[388], const uint8_t order[64], const uint32_t state[193], uint32_t *row);
uint32_t jb_slot(const uint32_t table[388], const uint8_t order[64], uint32_t state[193], uint32_t supply, uint32_t *row);
uint32_t jb_forward(const uint32_t table[388], const uint8_t order[64], uint32_t state[193], const uint32_t *supplies,
                    size_t count, uint32_t *worked);
uint32_t jb_commit(const uint32_t table[388], const uint8_t order[64], uint32_t run_table[388], uint8_t run_order[64],
                   uint32_t run_state[193]);
uint32_t jb_program(const uint8_t *input, size_t length, uint8_t text[1617]);
uint32_t jb_plan_sentence(uint32_t number, uint64_t left, const uint8_t order[64], uint32_t trials, uint8_t *line, size_t room,
                          uint32_t *length);
uint32_t jb_judge_sentence(uint32_t number, uint32_t yes, uint32_t row, int32_t slack, uint8_t *line, size_t room,
                           uint32_t *length);
uint32_t jb_read_sentence(const uint8_t *line, size_t length, uint32_t *kind, uint32_t *number, uint64_t *left,
                          uint8_t order[64], uint32_t *trials, uint32_t *yes, uint32_t *row, int32_t *slack);

/* The number of the archive's interface, for jb_fits. */
uint32_t jb_version(void);

/*
 * 1 if the archive that was linked is the one that this header describes, else
 * 0. Ask once before anything else: an archive of another number may write more
 * than it is handed. One from before these numbers does not link.
 */
static inline int jb_fits(void) {
    return jb_version() == JB_VERSION;
}

/* The words of a table. */
static inline const uint32_t *jb_table_words(const jb_table *table) {
    return (const uint32_t *)(const void *)table;
}

/* The words of a run's state, from its clock on. */
static inline uint32_t *jb_state_words(jb_run *run) {
    return (uint32_t *)(void *)((unsigned char *)run + offsetof(jb_run, clock));
}

/*
 * Reads a sheet into a table.
 * In:      sheet, length bytes; any bytes, any length; null is allowed with 0.
 * Out:     0, and table holds the sheet's table.
 * Refused: 1, 2, 3, 4, 11, 5 or 12 to 15; table is then all zero.
 */
static inline uint32_t jb_read_table(const uint8_t *sheet, size_t length, jb_table *table) {
    const uint8_t none = 0;
    return jb_read(length == 0 ? &none : sheet, length, (uint32_t *)(void *)table);
}

/*
 * Writes the sheet of a table: the one sheet that jb_read_table reads as this
 * table. A sheet that was read comes out again byte for byte.
 * In:      table, any values; sheet, memory of room bytes, any length (JB_LONGEST_SHEET
 *          is enough for every table) and any values; null is allowed with 0.
 * Out:     0; length is the sheet's length in bytes, 33 + 49 for each row, and
 *          the first length bytes of sheet are the sheet. The bytes after
 *          them are as they were.
 * Refused: 3, 4, 11, 5 or 12 to 15 for the table, else 10 if room is below the sheet's
 *          length; length is then 0 and no byte of sheet is written.
 */
static inline uint32_t jb_write_table(const jb_table *table, uint8_t *sheet, size_t room, uint32_t *length) {
    uint8_t none = 0;
    return jb_write(jb_table_words(table), room == 0 ? &none : sheet, room, length);
}

/*
 * The planning program as a function: reads a sheet, plans it and writes what
 * the program writes, in 8-byte fields with byte 10 at each line's end.
 * In:      input, length bytes; any bytes, any length; null is allowed with 0. Only
 *          the first 3,170 bytes are looked at.
 * Out:     the length of the text in bytes, 17 to 1,617. text holds the text
 *          and zeros after it. Its first line is 0 and the row count, or a
 *          refusal's number and the count of rows left, which is 0 but for 7.
 *          After 0 comes a line for each place: place, row and slack in slots.
 * Refused: nothing; a refusal is the text's first line.
 */
static inline uint32_t jb_program_text(const uint8_t *input, size_t length, uint8_t text[JB_PROGRAM_TEXT]) {
    const uint8_t none = 0;
    return jb_program(length == 0 ? &none : input, length, text);
}

/*
 * Makes a correct priority order, or finds that none exists. With the order,
 * every row keeps its deadline whenever every slot supplies at least N work
 * units; and whenever every slot supplies at least G, every HI row does, and every
 * LO row has got its promised part at its deadline. An order is correct if that
 * holds even where late LO rows go on. Every row stands in it below the one that it
 * follows, so that runs under it keep all waits by themselves.
 * In:      table, any values.
 * Out:     0, and order holds row numbers from the highest place down, then
 *          zeros; left is 0.
 * Refused: 7 if no correct order exists, none in which every row stands below the one
 *          that it follows: order is all zero, and left holds the rows left to place,
 *          row 1 in the lowest bit. Some tables without a correct order have one that would
 *          serve all the same, only because runs drop late LO rows: such orders are
 *          not looked for, and a 7 tells nothing of them.
 *          3, 4, 11, 5 or 12 to 15 for the table: order is all zero and left is 0.
 */
static inline uint32_t jb_plan_table(const jb_table *table, uint8_t order[JB_ROWS], uint64_t *left) {
    return jb_plan(jb_table_words(table), order, left);
}

/*
 * The most trials that planning a table of so many rows can take, rows * (rows + 1) / 2: at
 * this ceiling, and at every higher one, jb_plan_table_within does not answer 19. 0 for 0
 * rows. Above 64 rows it is 2,080, as for 64, whatever the figure: no table that passes the
 * checks has more rows.
 */
static inline uint32_t jb_most_trials(uint32_t rows) {
    return rows < JB_ROWS ? rows * (rows + 1) / 2 : (uint32_t)JB_MOST_TRIALS;
}

/*
 * Plans as jb_plan_table does, with no more trials than a ceiling. One trial is counted for
 * each row that is tried at a place, the one that gets the place among them. A row that is
 * passed over because another one that has no place yet follows it counts none.
 * In:      table, any values; ceiling, 0 to 4,294,967,295 trials.
 * Out:     0 as jb_plan_table, with the same order; left is 0, and trials is how many the
 *          table takes, at most the ceiling.
 * Refused: 7 as jb_plan_table, with the same rows left; order is all zero, and trials is how
 *          many it takes to find that out, at most the ceiling.
 *          19 if the table takes more trials than the ceiling: order is all zero, left is 0,
 *          and trials is the ceiling. It says neither that a correct order exists nor that
 *          none does. Nothing is kept: another call begins with the first trial.
 *          3, 4, 11, 5 or 12 to 15 for the table, whatever the ceiling: order is all zero,
 *          left and trials are 0.
 * An answer other than 19 is the same at every higher ceiling, with its order, its rows left
 * and its trials.
 */
static inline uint32_t jb_plan_table_within(const jb_table *table, uint32_t ceiling, uint8_t order[JB_ROWS], uint64_t *left,
                                            uint32_t *trials) {
    return jb_plan_within(jb_table_words(table), ceiling, order, left, trials);
}

/*
 * Asks for a proposal of a sheet: its table and the planner's order of it, to be
 * committed by jb_commit_sheet, or to begin a run with by jb_fresh_run. It is
 * jb_read_table and jb_plan_table in one call. No record is handed in and none is
 * changed: a run may go on before, meanwhile and afterwards.
 * In:      sheet, length bytes; any bytes, any length; null is allowed with 0.
 * Out:     0; table holds the sheet's table, order holds row numbers from the highest
 *          place down, then zeros; left is 0.
 * Refused: 1, 2, 3, 4, 11, 5 or 12 to 15 as jb_read_table refuses the sheet: table and
 *          order are all zero and left is 0.
 *          7 as jb_plan_table: table and order are all zero, and left holds the rows left
 *          to place, row 1 in the lowest bit.
 */
static inline uint32_t jb_ask_sheet(const uint8_t *sheet, size_t length, jb_table *table, uint8_t order[JB_ROWS],
                                    uint64_t *left) {
    const uint8_t none = 0;
    return jb_ask(length == 0 ? &none : sheet, length, (uint32_t *)(void *)table, order, left);
}

/*
 * How slow the processor may become: the least degraded speed G, from 1 work unit
 * per slot up to the table's N, for which a correct order exists, and the planner's
 * order at it. What the table states as G must be within its limits and does not
 * matter otherwise. At every smaller G no correct order exists. At every larger G up
 * to N one does, and this order is one. The answer holds with N as the table states
 * it: with a smaller N there may be no correct order.
 * In:      table, any values.
 * Out:     0; speed is that G in work units per slot; order is what jb_plan_table
 *          makes of the table with that G.
 * Refused: 7 if no G from 1 to N has a correct order; 3, 4, 11, 5 or 12 to 15 for the
 *          table. With either, speed is 0 and order is all zero. (After a 7,
 *          jb_plan_table tells the rows left at any G that it is handed.)
 */
static inline uint32_t jb_least_degraded_speed(const jb_table *table, uint32_t *speed, uint8_t order[JB_ROWS]) {
    return jb_least_degraded(jb_table_words(table), speed, order);
}

/*
 * The same for the normal speed: the least N, from the table's G up to 1,000 work
 * units per slot, for which a correct order exists. What the table states as N must
 * be within its limits and does not matter otherwise. The answer holds with G as the
 * table states it.
 * In:      table, any values.
 * Out:     0; speed is that N in work units per slot; order is what jb_plan_table
 *          makes of the table with that N. It is correct at every larger N up to
 *          1,000 too.
 * Refused: 7 if no N from G to 1,000 has a correct order; 3, 4, 11, 5 or 12 to 15 for the
 *          table. With either, speed is 0 and order is all zero.
 */
static inline uint32_t jb_least_normal_speed(const jb_table *table, uint32_t *speed, uint8_t order[JB_ROWS]) {
    return jb_least_normal(jb_table_words(table), speed, order);
}

/*
 * The least degraded speed of a sheet.
 * In:      sheet, length bytes; any bytes, any length; null is allowed with 0.
 * Out:     as jb_least_degraded_speed of the table that the sheet states.
 * Refused: 1, 2, 3, 4, 11, 5 or 12 to 15 as jb_read_table refuses the sheet; 7 as
 *          jb_least_degraded_speed. Speed is then 0 and order all zero.
 */
static inline uint32_t jb_read_least_degraded_speed(const uint8_t *sheet, size_t length, uint32_t *speed,
                                                    uint8_t order[JB_ROWS]) {
    const uint8_t none = 0;
    return jb_read_least_degraded(length == 0 ? &none : sheet, length, speed, order);
}

/* The least normal speed of a sheet: as jb_read_least_degraded_speed, for jb_least_normal_speed. */
static inline uint32_t jb_read_least_normal_speed(const uint8_t *sheet, size_t length, uint32_t *speed,
                                                  uint8_t order[JB_ROWS]) {
    const uint8_t none = 0;
    return jb_read_least_normal(length == 0 ? &none : sheet, length, speed, order);
}

/*
 * Judges an order, wherever it was made.
 * In:      table and order, any values.
 * Out:     0; yes is 1 if the order is correct, else 0; row is the row of least
 *          slack (the lower row on a tie); slack is that slack in slots: its
 *          deadline less its worst finish, or less the moment of its promised part
 *          if that is less; below zero when it can be late, or its promised part can
 *          be. That moment is the first clock at which a LO row has got its promised
 *          part when every slot supplies exactly G work units and late LO rows go on.
 * Refused: 3, 4, 11, 5 or 12 to 15 for the table, 6 for the order; yes, row and slack
 *          are then 0.
 */
static inline uint32_t jb_judge_order(const jb_table *table, const uint8_t order[JB_ROWS], uint32_t *yes, uint32_t *row,
                                      int32_t *slack) {
    return jb_judge(jb_table_words(table), order, yes, row, slack);
}

/*
 * Judges an order of rows that stand in a list, as many as there are.
 * In:      count rows (null is allowed with 0), the speeds in work units per slot,
 *          the loading K in slots, and an order, any values.
 * Out:     as jb_judge_order.
 * Refused: as jb_judge_order; an empty list, and one of more than 64 rows, by 3.
 */
static inline uint32_t jb_judge_list(const jb_row *rows, size_t count, uint32_t normal, uint32_t degraded, uint32_t loading,
                                     const uint8_t order[JB_ROWS], uint32_t *yes, uint32_t *row, int32_t *slack) {
    const jb_row none = {0, 0, 0, 0, 0, 0};
    const uint64_t packed = jb_judge_rows(count == 0 ? &none : rows, count, normal, degraded, loading, order);
    const uint32_t bits = (uint32_t)(packed >> 16);
    *yes = (uint32_t)(packed >> 4 & 1);
    *row = (uint32_t)(packed >> 5 & 2047);
    *slack = bits <= INT32_MAX ? (int32_t)bits : -(int32_t)(UINT32_MAX - bits) - 1;
    return (uint32_t)(packed & 15);
}

/*
 * The worst finish of every row under an order.
 * In:      table and order, any values.
 * Out:     0, and finishes holds the worst finish of row i at index i - 1, in
 *          slots: its finish when every slot supplies exactly N (LO row) or
 *          exactly G (HI row) work units and late LO rows go on. Zeros after
 *          row n.
 * Refused: 3, 4, 11, 5 or 12 to 15 for the table, 6 for the order; finishes is then all
 *          zero.
 */
static inline uint32_t jb_worst_finishes(const jb_table *table, const uint8_t order[JB_ROWS], uint32_t finishes[JB_ROWS]) {
    return jb_finishes(jb_table_words(table), order, finishes);
}

/*
 * Lists every job under an order, as text. Each figure stands in 10 columns at
 * their right end, spaces before it and a minus, if it has one, right before its
 * first digit. A line for each place, highest first: the place, its row, the
 * row's need at N in slots, its worst finish in slots, its slack in slots, which is
 * that of jb_judge_order, with promised parts. Then
 * a last line: the sum of all rows' needs at N in slots, and how many rows have
 * a slack below zero: 0 exactly if the order is correct. Byte 10 ends each line;
 * no byte 0 is written after the last one.
 * In:      table and order, any values; report, memory of room bytes, any length
 *          (JB_LONGEST_REPORT is enough for every table) and any values; null is
 *          allowed with 0.
 * Out:     0; length is the report's length in bytes, 51 for each row + 21, and
 *          the first length bytes of report are the report. The bytes after
 *          them are as they were.
 * Refused: 3, 4, 11, 5 or 12 to 15 for the table, 6 for the order, else 10 if room is below
 *          the report's length; length is then 0 and no byte of report is written.
 */
static inline uint32_t jb_report_order(const jb_table *table, const uint8_t order[JB_ROWS], uint8_t *report, size_t room,
                                       uint32_t *length) {
    uint8_t none = 0;
    return jb_report(jb_table_words(table), order, room == 0 ? &none : report, room, length);
}

/*
 * How many arrangements so many rows have, rows * (rows - 1) * ... * 1: the lists in which
 * each of them stands once. 1 for 0 rows, 479,001,600 for 12 rows. 0 above 12 rows
 * (JB_MOST_COUNTED), whose orders are not counted.
 */
static inline uint32_t jb_arrangements(uint32_t rows) {
    uint32_t product = rows <= JB_MOST_COUNTED;
    for (uint32_t row = 2; row <= rows && row <= JB_MOST_COUNTED; row++) {
        product *= row;
    }
    return product;
}

/*
 * Counts how much choice a table leaves: how many of the arrangements of its rows are correct
 * orders, as the judge would say of each, with every row below the one that it follows. The
 * order that jb_plan_table makes is one of them. Nothing is listed: the time taken grows with
 * the sets of rows, which are 2 to the n for n rows, 4,096 for 12 rows, whatever the count.
 * In:      table, any values; scratch, memory of so many 32-bit numbers, any length
 *          (JB_SCRATCH of them, 16,384 bytes, are enough for every table, and are asked for
 *          however few its rows are) and any values; null is allowed with 0.
 * Out:     0; count is how many correct orders there are, 0 to jb_arrangements(table->n): 0
 *          exactly if jb_plan_table answers 7. lowest[i - 1] is in how many of them row i
 *          stands in the lowest place; together they are count, and after row n they are 0.
 *          scratch[m] is the count of the rows in word m alone, with row 1 in the lowest bit
 *          of m, for each m below 2 to the n: orders of these rows as a table of their own,
 *          in which a row that follows one that is left out follows none. scratch[0], for no
 *          row, is 1, and the entry of all rows is count. The numbers after these 2 to the n
 *          are as they were.
 * Refused: 3, 4, 11, 5 or 12 to 15 for the table, else 20 if it has more than 12 rows, else 10
 *          if numbers is below 4,096; count and lowest are then all zero, and no number of
 *          scratch is written.
 */
static inline uint32_t jb_count_orders(const jb_table *table, uint32_t *scratch, size_t numbers, uint32_t *count,
                                       uint32_t lowest[JB_ROWS]) {
    uint32_t none = 0;
    return jb_count(jb_table_words(table), numbers == 0 ? &none : scratch, numbers, count, lowest);
}

/*
 * Writes the sentence of a planner's answer: one line that tells the number and what it means,
 * the trials, the rows in the order from the highest place down, and the rows left. Hand in what
 * jb_plan_table_within answered, or a sheet's refusal by jb_read_table with zeros. The bytes are
 * the line's alone: no byte 0 and no line end is written after them.
 * In:      number, left, order and trials, any values; line, memory of room bytes, any length
 *          (JB_LONGEST_SENTENCE is enough for every answer) and any values; null is allowed
 *          with 0.
 * Out:     0; length is the sentence's length in bytes, and the first length bytes of line are
 *          the sentence. The bytes after them are as they were.
 * Refused: 10 if room is below the sentence's length; length is then 0 and no byte of line is
 *          written. Nothing else is checked.
 */
static inline uint32_t jb_write_plan(uint32_t number, uint64_t left, const uint8_t order[JB_ROWS], uint32_t trials,
                                     uint8_t *line, size_t room, uint32_t *length) {
    uint8_t none = 0;
    return jb_plan_sentence(number, left, order, trials, room == 0 ? &none : line, room, length);
}

/*
 * Writes the sentence of a judge's answer, as jb_write_plan does: the verdict, the number and
 * what it means, the row of least slack, and that slack in slots with a minus if it is below 0.
 * In:      number, yes, row and slack as jb_judge_order answers them, any values; line and room
 *          as for jb_write_plan.
 * Out:     as jb_write_plan.
 * Refused: as jb_write_plan.
 */
static inline uint32_t jb_write_verdict(uint32_t number, uint32_t yes, uint32_t row, int32_t slack, uint8_t *line, size_t room,
                                        uint32_t *length) {
    uint8_t none = 0;
    return jb_judge_sentence(number, yes, row, slack, room == 0 ? &none : line, room, length);
}

/*
 * Reads the answer back from its sentence. What jb_write_plan and jb_write_verdict write is read
 * as the answer that they were handed, and nothing else is read: a line end, a space or a byte 0
 * too many is refused as a wrong word is.
 * In:      line, length bytes; any bytes, any length; null is allowed with 0.
 * Out:     0; answer holds the kind and the answer that was told.
 * Refused: 2 if the bytes are no answer's sentence; answer is then all zero.
 */
static inline uint32_t jb_read_answer(const uint8_t *line, size_t length, jb_answer *answer) {
    const uint8_t none = 0;
    return jb_read_sentence(length == 0 ? &none : line, length, &answer->kind, &answer->number, &answer->left, answer->order,
                            &answer->trials, &answer->yes, &answer->row, &answer->slack);
}

/*
 * Makes a fresh run record: clock 0, nothing got, used or closed.
 * In:      table and order, any values. Neither is run's own, since run is
 *          written: to begin a run again, hand in copies of its table and order.
 * Out:     0, and run holds the fresh record of table and order.
 * Refused: 3, 4, 11, 5 or 12 to 15 for the table, 6 for the order; run is then all zero,
 *          and what stood in it is lost.
 */
static inline uint32_t jb_fresh_run(const jb_table *table, const uint8_t order[JB_ROWS], jb_run *run) {
    return jb_fresh(jb_table_words(table), order, (uint32_t *)(void *)&run->table, run->order, jb_state_words(run));
}

/*
 * The row that the coming slot runs, before its supply is known. Start that
 * row, let the slot pass, then report its supply by jb_work_slot, which answers
 * the same number and row whatever the supply. jb_is_loading says whether the slot
 * is one of the row's loading slots.
 * In:      run, any values.
 * Out:     0, and row is the row that slot run->clock runs, 0 for an idle slot.
 * Refused: 9 if the record is unsound, else 8 at clock 2,000,000 slots; row is
 *          then 0.
 */
static inline uint32_t jb_coming_row(const jb_run *run, uint32_t *row) {
    return jb_coming(jb_table_words(&run->table), run->order,
                     (const uint32_t *)(const void *)((const unsigned char *)run + offsetof(jb_run, clock)), row);
}

/*
 * Works one slot of a run. When the work of its row is added and the clock is 1
 * slot later, every LO row that is still open and whose deadline that clock has
 * reached is dropped, whether it ran in this slot or not. So one slot can close
 * several rows: they are those whose closing slot is run->clock afterwards.
 * In:      run, any values; supply, the work units that the slot supplied, 0 to
 *          4,294,967,295. A loading slot brings none, whatever is handed in.
 * Out:     0; row is the row run, 0 for an idle slot; run is the record after
 *          the slot, its clock 1 slot later.
 * Refused: 9 if the record is unsound, else 8 at clock 2,000,000 slots; row is
 *          then 0 and run is as it was.
 */
static inline uint32_t jb_work_slot(jb_run *run, uint32_t supply, uint32_t *row) {
    return jb_slot(jb_table_words(&run->table), run->order, jb_state_words(run), supply, row);
}

/*
 * Works a run forward over a list of supplies, one slot for each in turn, each as
 * jb_work_slot works it: LO rows are dropped when the clock reaches their deadlines.
 * In:      run, any values; supplies, count figures in work units per slot,
 *          each 0 to 4,294,967,295; null is allowed with count 0.
 * Out:     0; worked is count; run is the record after those slots. With count
 *          0 nothing changes and worked is 0.
 * Refused: 9 if the record is unsound: run is as it was and worked is 0.
 *          8 if the clock reaches 2,000,000 slots with a supply left: the slots
 *          until then are worked and stay so. run is the record at that clock
 *          and worked says how many supplies were taken.
 */
static inline uint32_t jb_work_forward(jb_run *run, const uint32_t *supplies, size_t count, uint32_t *worked) {
    const uint32_t none = 0;
    return jb_forward(jb_table_words(&run->table), run->order, jb_state_words(run), count == 0 ? &none : supplies, count,
                      worked);
}

/*
 * Commits a proposal: its table and order take the place of those that run, at the clock
 * that the run shows. The slots up to the least release of the new rows are idle.
 * In:      run, table and order, any values; the last two are the proposal, which need
 *          not come from jb_ask_sheet. Neither is run's own, since run is written: to
 *          begin the same sheet again, hand in copies of run->table and run->order.
 * Out:     0, and run holds table and order, the clock that it had, and zeros for all
 *          rows: all are open, and none has got work or used a slot.
 * Refused: 9 if the record is unsound; then for the proposal 3, 4, 11, 5 or 12 to 15 for
 *          the table, 6 for the order, 16 if the order is not correct; then 17 if a row
 *          of run is open (jb_first_open names it), and 18 if a row of table has its
 *          release below run->clock (jb_first_released_before names it). run is then as
 *          it was, every byte of it; it is written again as it stood. Of a proposal as
 *          jb_ask_sheet answered it with 0 only 9, 17 and 18 come.
 */
static inline uint32_t jb_commit_sheet(jb_run *run, const jb_table *table, const uint8_t order[JB_ROWS]) {
    return jb_commit(jb_table_words(table), order, (uint32_t *)(void *)&run->table, run->order, jb_state_words(run));
}

/*
 * Lets a table start later by so many slots, 0 to 2,000,000 slots: they are added to the
 * release and to the deadline of each row. An order that was correct stays so, since all
 * times move together; this is tested and not proved, and a commit judges the order in any
 * case. So plan first, and move the table when the clock is known at which it is committed.
 * It is meant for tables that pass the checks; a deadline that comes to lie after 1,000,000
 * slots is refused (5) where the table goes in.
 */
static inline void jb_start_later(jb_table *table, uint32_t slots) {
    for (uint32_t index = 0; index < table->n && index < JB_ROWS; index++) {
        table->release[index] += slots;
        table->deadline[index] += slots;
    }
}

/*
 * The lowest row of a table with a release below this clock (in slots), 0 if there is
 * none: with run->clock, the row for which a commit is refused by 18.
 */
static inline uint32_t jb_first_released_before(const jb_table *table, uint32_t clock) {
    for (uint32_t row = 1; row <= table->n && row <= JB_ROWS; row++) {
        if (table->release[row - 1] < clock) {
            return row;
        }
    }
    return 0;
}

/*
 * Where a row of a run stands: 1 for yes, 0 for no. A row that the table has is
 * exactly one of open, done and dropped, and may be late besides; an open one may
 * be loading or wait. All answer 0 for a row that the table does not have: for row 0, for a
 * row above run->table.n, and for any row above 64.
 */
static inline int jb_has_row(const jb_run *run, uint32_t row) {
    return row >= 1 && row <= run->table.n && row <= JB_ROWS;
}

/* The row is not closed: it has neither got its work nor been dropped. */
static inline int jb_is_open(const jb_run *run, uint32_t row) {
    return jb_has_row(run, row) && run->closing[row - 1] == 0;
}

/* The lowest open row of a run, 0 if all are closed: the row for which a commit is refused by 17. */
static inline uint32_t jb_first_open(const jb_run *run) {
    for (uint32_t row = 1; jb_has_row(run, row); row++) {
        if (jb_is_open(run, row)) {
            return row;
        }
    }
    return 0;
}

/* The row is closed and has got all its work, before its deadline or after it. */
static inline int jb_is_done(const jb_run *run, uint32_t row) {
    return jb_has_row(run, row) && run->closing[row - 1] != 0 && run->got[row - 1] == run->table.work[row - 1];
}

/* The row is closed without all its work. Only LO rows are dropped. */
static inline int jb_is_dropped(const jb_run *run, uint32_t row) {
    return jb_has_row(run, row) && run->closing[row - 1] != 0 && run->got[row - 1] != run->table.work[row - 1];
}

/*
 * The need of so much work at a speed, in slots, as the archive works it out: the worst
 * finish of a row that is alone and released at slot 0. 0 where the work, the speed or
 * K is beyond its limits.
 */
static inline uint32_t jb_need_of(uint32_t work, uint32_t speed, uint32_t loading) {
    const jb_table alone = {1, speed, speed, loading, {0}, {work}, {JB_LAST_DEADLINE}, {JB_LO}, {0}, {0}};
    const uint8_t order[JB_ROWS] = {1};
    uint32_t finishes[JB_ROWS];
    jb_finishes(jb_table_words(&alone), order, finishes);
    return finishes[0];
}

/*
 * A row's need at N in slots. 0 for a row that the table does not have, and where N, K
 * or the row's work is beyond its limits.
 */
static inline uint32_t jb_need(const jb_table *table, uint32_t row) {
    return row < 1 || row > table->n || row > JB_ROWS ? 0 : jb_need_of(table->work[row - 1], table->normal, table->loading);
}

/*
 * A LO row's allowance in slots, those that it may use: the larger of its need at N and
 * of the need of its promised part at G. It is meant for tables that pass the checks. 0
 * for a HI row, which has none, and for a row that the table does not have.
 */
static inline uint32_t jb_allowance(const jb_table *table, uint32_t row) {
    const uint32_t need = jb_need(table, row);
    if (need == 0 || table->level[row - 1] != JB_LO) {
        return 0;
    }
    const uint32_t promised = jb_need_of(table->promised[row - 1], table->degraded, table->loading);
    return need < promised ? promised : need;
}

/*
 * The row was dropped because the clock has reached its deadline, and not because
 * its allowance was used up. A row dropped at another clock than its deadline was
 * dropped for its allowance, and so was one that had used all of it at its deadline.
 */
static inline int jb_is_dropped_for_deadline(const jb_run *run, uint32_t row) {
    return jb_is_dropped(run, row) && run->closing[row - 1] == run->table.deadline[row - 1] &&
           run->used[row - 1] < jb_allowance(&run->table, row);
}

/*
 * A part of the row is promised, and the row has got it: of a row that was dropped, the
 * coarse result is there. 0 where nothing is promised.
 */
static inline int jb_has_promised(const jb_run *run, uint32_t row) {
    return jb_has_row(run, row) && run->table.promised[row - 1] != 0 && run->got[row - 1] >= run->table.promised[row - 1];
}

/* How many loading slots the row has used so far, 0 to K slots; 0 for a row that the table does not have. */
static inline uint32_t jb_loaded(const jb_run *run, uint32_t row) {
    const uint32_t used = jb_has_row(run, row) ? run->used[row - 1] : 0;
    return used < run->table.loading ? used : run->table.loading;
}

/*
 * The row waits: it is open, and so is the row that it follows. No slot runs it before
 * that one is closed. 0 for a row that follows none.
 */
static inline int jb_is_waiting(const jb_run *run, uint32_t row) {
    return jb_is_open(run, row) && jb_is_open(run, run->table.follows[row - 1]);
}

/* The row is open, and the next slot that it runs is a loading slot: it has used fewer than K slots. */
static inline int jb_is_loading(const jb_run *run, uint32_t row) {
    return jb_is_open(run, row) && jb_loaded(run, row) < run->table.loading;
}

/*
 * The row is done after its deadline, or is still open at a clock that has
 * reached its deadline. In a run only HI rows are late: a LO row is dropped at its
 * deadline, and a dropped row is not late, since it is never done.
 */
static inline int jb_is_late(const jb_run *run, uint32_t row) {
    return (jb_is_done(run, row) && run->closing[row - 1] > run->table.deadline[row - 1]) ||
           (jb_is_open(run, row) && run->clock >= run->table.deadline[row - 1]);
}

#ifdef __cplusplus
}
#endif

#endif
