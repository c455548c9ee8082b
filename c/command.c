/*
 * The command tools/jasminebrace: plans, judges, lists, runs, explains and writes
 * sheets, says which rows are left where no order is correct, counts their correct orders,
 * plays a day of several, says their least workable speeds, and reads verdicts back from
 * their sentences.
 *
 * It has no check, no limit, no planner, no search and no writer of its own: what it
 * says of a sheet, an order or a run is what the archive answered, and a sheet, a
 * report, a sentence, and each field of 8 bytes of a plain form, is written by the
 * archive, which also reads the sentences. It knows how a sheet is laid out, in such
 * fields, to cut it into parts and to ask the archive's reader about each part inside a
 * sheet that is right everywhere else.
 * Rows files and rows as words are in table.h.
 *
 * Exit status: see enum status.
 */
#include "jasminebrace.h"
#include "table.h"

#include <errno.h>
#include <inttypes.h>
#include <stdarg.h>
#include <stdbool.h>
#include <stdio.h>
#include <stdlib.h>
#include <string.h>

enum status {
    FINE = 0,      /* an order, or yes, or done */
    NO = 1,        /* no correct order exists, or none at any speed of a range, or 0 are counted, or the order is not correct */
    REFUSED = 2,   /* the sheet, the order or the run is refused by a number other than 7 */
    NOT_USABLE = 3 /* arguments, a file or standard output cannot be used; nothing is said of a sheet */
};

/* What the command line asks for. */
typedef struct {
    bool plain;        /* figures alone, in fields of 8 bytes or with spaces between, or a report's bytes alone */
    bool stretches;    /* run and day: a line for each stretch of slots */
    bool slacks;       /* speeds: a line for each G under one order */
    uint32_t sheet;    /* day: the number of the sheet that runs, first in plain lines; 0 for other commands */
    bool limited;      /* plan: a ceiling was given */
    uint32_t ceiling;  /* plan: that ceiling, in trials */
    const char *order; /* run: row numbers with commas between, or NULL for the planned order */
    char **words;      /* the arguments that are no options, after the command's name */
    size_t count;      /* how many there are */
} request;

/* A sheet as far as the reader has to see it. */
typedef struct {
    size_t length; /* JB_PROGRAM_INPUT stands for that many bytes or more */
    uint8_t bytes[JB_PROGRAM_INPUT];
} sheet_file;

/* ---- what is said ---- */

#if defined(__GNUC__)
__attribute__((format(printf, 1, 2)))
#endif
static int not_usable(const char *format, ...) {
    va_list figures;
    va_start(figures, format);
    fputs("jasminebrace: ", stderr);
    vfprintf(stderr, format, figures);
    fputc('\n', stderr);
    va_end(figures);
    return NOT_USABLE;
}

static int status_of(uint32_t number) {
    return number == JB_OK ? FINE : number == JB_NO_ORDER ? NO : REFUSED;
}

/*
 * A figure as a field of 8 bytes, which holds it: all that are put are below
 * 100,000,000. The largest are worst finishes, and slots after a deadline. A
 * finish is at most the latest release, 999,999 slots, and the needs of 64 rows,
 * 1,000,016 slots each: at most 65,001,023 slots.
 */
static void put_field(uint32_t figure) {
    uint8_t field[JB_FIELD];
    jb_field(figure, field);
    fwrite(field, 1, sizeof field, stdout);
}

static void put_two_fields(uint32_t first, uint32_t second) {
    put_field(first);
    put_field(second);
    putchar('\n');
}

static void put_three_fields(uint32_t first, uint32_t second, uint32_t third) {
    put_field(first);
    put_field(second);
    put_field(third);
    putchar('\n');
}

/* The number of the sheet that runs, where plain lines begin with it. */
static void put_sheet_field(const request *asked) {
    if (asked->sheet != 0) {
        put_field(asked->sheet);
    }
}

/* A slack in two fields: the slots before the deadline and the slots after it; at least one is 0. */
static void put_slack(int64_t slack) {
    put_field(slack > 0 ? (uint32_t)slack : 0);
    put_field(slack < 0 ? (uint32_t)-slack : 0);
}

static const char *slots(int64_t count) {
    return count == 1 || count == -1 ? "slot" : "slots";
}

static const char *work_units(uint32_t count) {
    return count == 1 ? "work unit" : "work units";
}

/* The unit of a speed, after its figure. */
static const char *per_slot(uint32_t speed) {
    return speed == 1 ? "work unit per slot" : "work units per slot";
}

static const char *trials(uint32_t count) {
    return count == 1 ? "trial" : "trials";
}

static const char *rows_word(uint32_t count) {
    return count == 1 ? "row" : "rows";
}

static const char *level_word(uint32_t level) {
    return level == JB_LO ? "LO" : "HI";
}

/* A sentence as the archive wrote it, in a line of its own. It goes out before whatever is then said on standard error. */
static void put_sentence(const uint8_t *line, uint32_t length) {
    fwrite(line, 1, length, stdout);
    putchar('\n');
    fflush(stdout);
}

/* What the planner answered, as a sentence (rule 24.3). */
static void put_planners_sentence(uint32_t number, uint64_t left, const uint8_t order[JB_ROWS], uint32_t made) {
    uint8_t line[JB_LONGEST_SENTENCE];
    uint32_t length;
    jb_write_plan(number, left, order, made, line, sizeof line, &length);
    put_sentence(line, length);
}

/* What the judge answered, as a sentence (rule 24.7); the slack is in slots. */
static void put_judges_sentence(uint32_t number, uint32_t yes, uint32_t row, int32_t slack) {
    uint8_t line[JB_LONGEST_SENTENCE];
    uint32_t length;
    jb_write_verdict(number, yes, row, slack, line, sizeof line, &length);
    put_sentence(line, length);
}

/* ---- what is wrong with a sheet ---- */

/* A sheet of one row that the reader accepts. Probes put one part of another sheet in its place. */
static const char PROBE[] = "       1       1       1       0\n"
                            "       0       1       1       0       0       0\n";
enum {
    PROBE_LENGTH = JB_FIRST_LINE + JB_ROW_LINE,
    FIRST_LINE_FIELDS = 4,
    LOADING_FIELD = 4, /* that of K in the first line, from 1 */
    ROW_FIELDS = 6,
    RELEASE_FIELD = 1, /* that of the release in the line of a row */
    WORK_FIELD = 2,
    LEVEL_FIELD = 4,
    PROMISED_FIELD = 5, /* that of the promised part in the line of a row */
    FOLLOWS_FIELD = 6,  /* that of the followed row */
    LINE_END = 10
};

/* A place in a sheet and what stands there. */
typedef struct {
    uint32_t row;   /* from 1; 0 for the first line, and where no place was found */
    uint32_t field; /* from 1; the line end counts as the one after the last; 0 where no field is at fault */
    size_t byte;    /* the first byte at fault, from 1; 0 where no place was found */
    char what[160]; /* what is there */
    size_t whole;   /* bytes of a sheet of as many rows as the first line announces; 0 where it was not asked for */
} fault;

static uint32_t ask_reader(const uint8_t *bytes, size_t length) {
    jb_table table;
    return jb_read_table(bytes, length, &table);
}

/* The reader's answer about the probe with these bytes at a place of it, counted from 0. */
static uint32_t ask_probe(size_t place, const uint8_t *bytes, size_t count) {
    uint8_t probe[PROBE_LENGTH];
    memcpy(probe, PROBE, PROBE_LENGTH);
    memcpy(probe + place, bytes, count);
    return ask_reader(probe, PROBE_LENGTH);
}

/* The reader's answer about the probe with a row's field in place of its own; fields count from 1. */
static uint32_t ask_row_field(uint32_t field, const uint8_t bytes[JB_FIELD]) {
    return ask_probe(JB_FIRST_LINE + (field - 1) * JB_FIELD, bytes, JB_FIELD);
}

/*
 * The first byte, from 1, after which no bytes could make a well-formed field
 * of these, 0 if there is none: each beginning is tried with digits 1 after it.
 */
static size_t malformed_byte(const uint8_t *bytes, size_t count) {
    for (size_t kept = 1; kept <= count; kept++) {
        uint8_t tried[JB_FIELD];
        memset(tried, '1', JB_FIELD);
        memcpy(tried, bytes, kept);
        if (ask_row_field(1, tried) == JB_MALFORMED) {
            return kept;
        }
    }
    return 0;
}

static bool is_line_end(uint8_t byte) {
    return ask_probe(PROBE_LENGTH - 1, &byte, 1) != JB_MALFORMED;
}

static bool is_byte_order_mark(const uint8_t *bytes, size_t length) {
    return length >= 3 && bytes[0] == 0xEF && bytes[1] == 0xBB && bytes[2] == 0xBF;
}

/* Names the byte at an index of a sheet. */
static void name_byte(const uint8_t *bytes, size_t length, size_t index, char *name, size_t room) {
    const unsigned byte = bytes[index];
    if (index == 0 && is_byte_order_mark(bytes, length)) {
        snprintf(name, room, "a UTF-8 byte order mark (bytes 239, 187, 191)");
    } else if (byte == '\t') {
        snprintf(name, room, "a tab (byte 9)");
    } else if (byte == LINE_END) {
        snprintf(name, room, "a line end (byte 10)");
    } else if (byte == '\r') {
        snprintf(name, room, "a carriage return (byte 13)");
    } else if (byte == ' ') {
        snprintf(name, room, "a space (byte 32)");
    } else if (byte > ' ' && byte < 127) {
        snprintf(name, room, "'%c' (byte %u)", (int)byte, byte);
    } else {
        snprintf(name, room, "byte %u", byte);
    }
}

static void note_byte(const uint8_t *bytes, size_t length, size_t index, const char *belongs, fault *found) {
    char name[64];
    name_byte(bytes, length, index, name, sizeof name);
    found->byte = index + 1;
    snprintf(found->what, sizeof found->what, "%s %s", name, belongs);
}

static uint32_t fields_of(uint32_t row) {
    return row == 0 ? FIRST_LINE_FIELDS : ROW_FIELDS;
}

/* The first byte that the reader finds malformed where it stands, in a sheet or in the beginning of one. */
static bool find_malformed(const uint8_t *bytes, size_t length, fault *found) {
    size_t at = 0;
    for (found->row = 0; at < length; found->row++) {
        for (found->field = 1; found->field <= fields_of(found->row) && at < length; found->field++) {
            const size_t held = length - at < JB_FIELD ? length - at : JB_FIELD;
            const size_t bad = malformed_byte(bytes + at, held);
            if (bad != 0) {
                const uint8_t byte = bytes[at + bad - 1];
                note_byte(bytes, length, at + bad - 1,
                          byte == '0'   ? "where a space or a digit 1 to 9 belongs"
                          : byte == ' ' ? "where a digit belongs"
                                        : "where a space or a digit belongs",
                          found);
                return true;
            }
            at += held;
        }
        if (at < length) {
            if (!is_line_end(bytes[at])) {
                note_byte(bytes, length, at, "where the line end (byte 10) belongs", found);
                return true;
            }
            at++;
        }
    }
    found->row = 0;
    found->field = 0;
    return false;
}

/* How many rows a well-formed first line announces: as many as make the reader content with the length. */
static uint32_t rows_announced(const uint8_t first_line[JB_FIRST_LINE]) {
    uint8_t tried[JB_LONGEST_SHEET];
    memcpy(tried, first_line, JB_FIRST_LINE);
    for (uint32_t rows = 1; rows <= JB_ROWS; rows++) {
        const size_t before = JB_FIRST_LINE + (rows - 1) * (size_t)JB_ROW_LINE;
        memcpy(tried + before, PROBE + JB_FIRST_LINE, JB_ROW_LINE);
        if (ask_reader(tried, before + JB_ROW_LINE) != JB_LENGTH) {
            return rows;
        }
    }
    return 0;
}

static bool lacks_a_line_end(const uint8_t *bytes, size_t length) {
    uint8_t longer[JB_PROGRAM_INPUT];
    if (length >= sizeof longer) {
        return false;
    }
    memcpy(longer, bytes, length);
    longer[length] = LINE_END;
    return ask_reader(longer, length + 1) != JB_LENGTH;
}

/* Why the reader answered 1. */
static void find_length_fault(const uint8_t *bytes, size_t length, fault *found) {
    if (length < JB_FIRST_LINE) {
        found->whole = JB_FIRST_LINE;
        if (!find_malformed(bytes, length, found)) {
            found->byte = length + 1;
            snprintf(found->what, sizeof found->what, "the sheet ends before this byte");
        }
        return;
    }
    const uint32_t rows = rows_announced(bytes);
    const size_t whole = JB_FIRST_LINE + rows * (size_t)JB_ROW_LINE;
    found->whole = whole;
    if (find_malformed(bytes, length < whole ? length : whole, found)) {
        return;
    }
    if (lacks_a_line_end(bytes, length)) {
        found->row = rows;
        found->field = ROW_FIELDS + 1;
        found->byte = length + 1;
        snprintf(found->what, sizeof found->what, "the last line end (byte 10) is missing");
    } else if (length > whole) {
        char name[64];
        name_byte(bytes, length, whole, name, sizeof name);
        found->byte = whole + 1;
        snprintf(found->what, sizeof found->what, "%s follows the last row, row %" PRIu32, name, rows);
    } else {
        found->row = (uint32_t)((length - JB_FIRST_LINE) / JB_ROW_LINE + 1);
        found->byte = length + 1;
        snprintf(found->what, sizeof found->what, "the sheet ends before this byte");
    }
}

/* Where a field of a sheet begins, from 0. */
static size_t field_begin(uint32_t row, uint32_t field) {
    const size_t line = row == 0 ? 0 : JB_FIRST_LINE + (row - 1) * (size_t)JB_ROW_LINE;
    return line + (field - 1) * (size_t)JB_FIELD;
}

/* The figure of a field that the reader takes for well formed. */
static uint32_t figure_of(const uint8_t *bytes, uint32_t row, uint32_t field) {
    uint8_t copy[JB_FIELD];
    const text_piece whole = {copy, JB_FIELD};
    uint32_t figure = 0;
    memcpy(copy, bytes + field_begin(row, field), JB_FIELD);
    read_figure(without_blanks_before(whole), &figure);
    return figure;
}

/* A whole field at fault: the first of its bytes, and its figure. */
static void note_field(const uint8_t *bytes, uint32_t row, uint32_t field, fault *found) {
    found->row = row;
    found->field = field;
    found->byte = field_begin(row, field) + 1;
    snprintf(found->what, sizeof found->what, "the figure is %" PRIu32, figure_of(bytes, row, field));
}

/* Which speed made the reader answer 4: N if it is refused beside the probe's G of 1, else G. */
static void find_speed_fault(const uint8_t *bytes, fault *found) {
    const bool normal = ask_probe(JB_FIELD, bytes + JB_FIELD, JB_FIELD) == JB_SPEEDS;
    note_field(bytes, 0, normal ? 2 : 3, found);
}

/*
 * Which figure made the reader answer 5: in the first row that is refused by
 * itself, the one that is refused in a row that is right otherwise, else the
 * release, which is measured by the deadline of its own row.
 */
static void find_row_fault(const uint8_t *bytes, size_t length, fault *found) {
    uint32_t row = 1;
    for (size_t at = JB_FIRST_LINE; at + JB_ROW_LINE <= length; at += JB_ROW_LINE, row++) {
        const uint8_t *line = bytes + at;
        if (ask_probe(JB_FIRST_LINE, line, JB_ROW_LINE) != JB_ROW_LIMITS) {
            continue;
        }
        for (uint32_t field = 2; field <= ROW_FIELDS; field++) {
            if (ask_row_field(field, line + (field - 1) * JB_FIELD) == JB_ROW_LIMITS) {
                note_field(bytes, row, field, found);
                return;
            }
        }
        note_field(bytes, row, RELEASE_FIELD, found);
        return;
    }
}

/* Which promised part made the reader answer 12: that of the first row that is refused so by itself. */
static void find_promise_fault(const uint8_t *bytes, size_t length, fault *found) {
    uint32_t row = 1;
    for (size_t at = JB_FIRST_LINE; at + JB_ROW_LINE <= length; at += JB_ROW_LINE, row++) {
        if (ask_probe(JB_FIRST_LINE, bytes + at, JB_ROW_LINE) == JB_PROMISED) {
            note_field(bytes, row, PROMISED_FIELD, found);
            const size_t said = strlen(found->what);
            name_wrong_promise(figure_of(bytes, row, WORK_FIELD), figure_of(bytes, row, LEVEL_FIELD), found->what + said,
                               sizeof found->what - said);
            return;
        }
    }
}

/* The table of a sheet that is refused for its waits: read without them, with the followed rows put in as they stand. */
static void read_with_waits(const uint8_t *bytes, size_t length, jb_table *table) {
    uint8_t copy[JB_LONGEST_SHEET];
    memcpy(copy, bytes, length);
    for (size_t at = field_begin(1, FOLLOWS_FIELD); at + JB_FIELD < length; at += JB_ROW_LINE) {
        jb_field(0, copy + at);
    }
    jb_read_table(copy, length, table);
    for (uint32_t row = 1; row <= table->n; row++) {
        table->follows[row - 1] = figure_of(bytes, row, FOLLOWS_FIELD);
    }
}

/* Whose followed row made the reader answer 13, 14 or 15. */
static void find_wait_fault(uint32_t number, const uint8_t *bytes, size_t length, fault *found) {
    refused_figure refused = {0, 0, {0}};
    jb_table table;
    read_with_waits(bytes, length, &table);
    find_refused_wait(&table, &refused);
    if (refused.row != 0) {
        note_field(bytes, (uint32_t)refused.row, FOLLOWS_FIELD, found);
        const size_t said = strlen(found->what);
        name_wrong_wait(number, &table, refused.row, found->what + said, sizeof found->what - said);
    }
}

/* Where and why the reader answered this number. */
static void find_fault(uint32_t number, const uint8_t *bytes, size_t length, fault *found) {
    memset(found, 0, sizeof *found);
    switch (number) {
    case JB_LENGTH: find_length_fault(bytes, length, found); break;
    case JB_MALFORMED: find_malformed(bytes, length, found); break;
    case JB_ROW_COUNT: note_field(bytes, 0, 1, found); break;
    case JB_SPEEDS: find_speed_fault(bytes, found); break;
    case JB_LOADING: note_field(bytes, 0, LOADING_FIELD, found); break;
    case JB_ROW_LIMITS: find_row_fault(bytes, length, found); break;
    case JB_PROMISED: find_promise_fault(bytes, length, found); break;
    case JB_NOT_LOWER:
    case JB_RELEASED_LATER:
    case JB_FOLLOWS_LOW: find_wait_fault(number, bytes, length, found); break;
    default: break;
    }
}

/* What belongs into a field; NULL for the row count, which no rows file has, and for a line end. */
static const column_kind *kind_of_field(uint32_t row, uint32_t field) {
    if (field > fields_of(row) || (row == 0 && field == 1)) {
        return NULL;
    }
    return row == 0 ? &TABLE_KINDS[field - 2] : &ROW_KINDS[field - 1];
}

static const char *field_name(uint32_t row, uint32_t field) {
    const column_kind *kind = kind_of_field(row, field);
    return kind != NULL ? kind->name : field > fields_of(row) ? "line end" : "row count n";
}

/* The line of a byte as an editor counts it, and where that line begins; all from 1. */
static size_t line_of(const uint8_t *bytes, size_t byte, size_t *begin) {
    size_t line = 1;
    *begin = 1;
    for (size_t index = 0; index + 1 < byte; index++) {
        if (bytes[index] == LINE_END) {
            line++;
            *begin = index + 2;
        }
    }
    return line;
}

static void put_words(FILE *to, uint32_t number) {
    fprintf(to, "number %" PRIu32 ": %s\n", number, jb_words(number));
}

static void put_remedy(FILE *to, uint32_t number) {
    fprintf(to, "remedy: %s\n", jb_remedy(number));
}

static void put_place(FILE *to, const uint8_t *bytes, const fault *found) {
    fputs("where:", to);
    if (found->row != 0) {
        fprintf(to, " row %" PRIu32 ",", found->row);
    } else if (found->field != 0) {
        fputs(" first line,", to);
    }
    if (found->field != 0) {
        fprintf(to, " %s,", field_name(found->row, found->field));
    }
    if (found->byte != 0) {
        size_t begin;
        const size_t line = line_of(bytes, found->byte, &begin);
        fprintf(to, " byte %zu (line %zu, byte %zu of it):", found->byte, line, found->byte - begin + 1);
    }
    fprintf(to, " %s\n", found->what);
}

/* Says what is allowed in place of a figure that the reader refused. */
static void put_allowed(FILE *to, const uint8_t *bytes, const fault *found) {
    const column_kind *kind = kind_of_field(found->row, found->field);
    char allowed[ALLOWED];
    uint32_t other = 0;
    if (kind == NULL) {
        put_allowed_rows(to);
        return;
    }
    if (kind->other != 0) {
        other = figure_of(bytes, found->row, (uint32_t)kind->other + (found->row == 0));
    }
    const bool high = found->row != 0 && figure_of(bytes, found->row, LEVEL_FIELD) != JB_LO;
    const figure_line line = {found->row, high, kind->other == 0 ? NULL : &other};
    name_allowed(kind, &line, allowed, sizeof allowed);
    fprintf(to, "allowed: %s\n", allowed);
}

/* Says why the reader answered this number, and what to do. */
static void explain_refusal(FILE *to, uint32_t number, const uint8_t *bytes, size_t length) {
    fault found;
    find_fault(number, bytes, length, &found);
    put_words(to, number);
    if (found.whole != 0) {
        const char *more = length >= JB_PROGRAM_INPUT ? " or more" : "";
        const char *of =
            found.whole == JB_FIRST_LINE ? "a first line alone takes" : "the rows that its first line announces make it";
        fprintf(to, "length: the sheet has %zu bytes%s; %s %zu\n", length, more, of, found.whole);
    }
    put_place(to, bytes, &found);
    if (number != JB_LENGTH && number != JB_MALFORMED) {
        put_allowed(to, bytes, &found);
    }
    put_remedy(to, number);
}

/* ---- rows left without a correct order ---- */

static bool any_waits(const jb_table *table) {
    bool any = false;
    for (uint32_t index = 0; index < table->n; index++) {
        any = any || table->follows[index] != 0;
    }
    return any;
}

static jb_table without_waits(const jb_table *table) {
    jb_table other = *table;
    memset(other.follows, 0, sizeof other.follows);
    return other;
}

/* What the archive's report says of each row under an order, by row, in slots. */
typedef struct {
    uint32_t finish[JB_ROWS];
    int64_t slack[JB_ROWS];
} row_times;

/* A figure of a report, counted from 1 in its line. */
static int64_t report_figure(const uint8_t *line, size_t figure) {
    char text[JB_FIGURE + 1] = {0};
    memcpy(text, line + (figure - 1) * JB_FIGURE, JB_FIGURE);
    return strtoll(text, NULL, 10);
}

/* Worst finishes and slacks under an order, from the report. Gives its number. */
static uint32_t take_times(const jb_table *table, const uint8_t order[JB_ROWS], row_times *times) {
    uint8_t report[JB_LONGEST_REPORT];
    uint32_t length;
    const uint32_t number = jb_report_order(table, order, report, sizeof report, &length);
    for (size_t place = 0; number == JB_OK && place < table->n; place++) {
        const uint8_t *line = report + place * JB_PLACE_LINE;
        const size_t index = (size_t)report_figure(line, 2) - 1;
        times->finish[index] = (uint32_t)report_figure(line, 4);
        times->slack[index] = report_figure(line, 5);
    }
    return number;
}

/*
 * The moment of a row's promised part under an order, in slots: the archive's worst
 * finish of a HI row that has this part as its work and stands in the row's place. 0
 * where nothing is promised. Waits are left out: under an order that keeps them they
 * change no slot, and the archive lets no HI row follow a LO row.
 */
static uint32_t promised_moment(const jb_table *table, const uint8_t order[JB_ROWS], uint32_t row) {
    jb_table other = without_waits(table);
    uint32_t worst[JB_ROWS];
    if (table->promised[row - 1] == 0) {
        return 0;
    }
    other.level[row - 1] = JB_HI;
    other.work[row - 1] = table->promised[row - 1];
    other.promised[row - 1] = 0;
    jb_worst_finishes(&other, order, worst);
    return worst[row - 1];
}

static bool is_left(uint64_t left, uint32_t row) {
    return left >> (row - 1) & 1;
}

static uint32_t how_many(uint64_t left) {
    uint32_t ones = 0;
    for (; left != 0; left >>= 1) {
        ones += (uint32_t)(left & 1);
    }
    return ones;
}

static void put_rows_left(FILE *to, uint64_t left) {
    for (uint32_t row = 1; row <= JB_ROWS; row++) {
        if (is_left(left, row)) {
            fprintf(to, " %" PRIu32, row);
        }
    }
    fputc('\n', to);
}

/* How a row left stands with all other rows left above it (rule 26.9). */
typedef struct {
    uint32_t row;
    uint32_t finish;   /* its worst finish there, in slots */
    uint32_t promised; /* when it has its promised part there, in slots; 0 where nothing is promised */
    int64_t slack;     /* in slots; below 0 it is short by so many */
    uint32_t follower; /* the lowest row left that follows it, 0 for none */
} row_left;

/* The order of a row below all other rows left and above those that are not left, by number otherwise. */
static void order_below_others(uint32_t n, uint64_t left, uint32_t row, uint8_t order[JB_ROWS]) {
    const uint64_t itself = UINT64_C(1) << (row - 1);
    const uint64_t parts[] = {left & ~itself, itself, ~left};
    size_t places = 0;
    memset(order, 0, JB_ROWS);
    for (size_t part = 0; part < sizeof parts / sizeof parts[0]; part++) {
        for (uint32_t next = 1; next <= n; next++) {
            if (is_left(parts[part], next)) {
                order[places++] = (uint8_t)next;
            }
        }
    }
}

/* The lowest row left that follows a row and has a number above this one; 0 where there is none. */
static uint32_t next_follower(const jb_table *table, uint64_t left, uint32_t followed, uint32_t above) {
    uint32_t row = above + 1;
    while (row <= table->n && !(is_left(left, row) && table->follows[row - 1] == followed)) {
        row++;
    }
    return row <= table->n ? row : 0;
}

/* Looks at a row left: the archive's report has its worst finish and slack, as if no row waited. */
static row_left look_at_left(const jb_table *table, uint64_t left, uint32_t row) {
    const jb_table other = without_waits(table);
    uint8_t order[JB_ROWS];
    row_times times = {{0}, {0}};
    order_below_others(table->n, left, row, order);
    take_times(&other, order, &times);
    const row_left found = {row, times.finish[row - 1], promised_moment(&other, order, row), times.slack[row - 1],
                            next_follower(table, left, row, 0)};
    return found;
}

/* Says which rows left follow a row, which has such ones. */
static void put_followers(FILE *to, const jb_table *table, uint64_t left, const row_left *of) {
    uint32_t row = of->follower;
    uint32_t next = next_follower(table, left, of->row, row);
    fprintf(to, next == 0 ? " row %" PRIu32 " follows it" : " rows %" PRIu32, row);
    while (next != 0) {
        row = next;
        next = next_follower(table, left, of->row, row);
        fprintf(to, next == 0 ? " and %" PRIu32 " follow it" : ", %" PRIu32, row);
    }
}

/* Says how many slots a row left is short, or has to spare, and which rows left keep it from standing lowest. */
static void put_row_left(FILE *to, const jb_table *table, uint64_t left, const row_left *of) {
    const bool is_short = of->slack < 0;
    fprintf(to, "row %" PRIu32 ": %" PRId64 " %s %s %s", of->row, is_short ? -of->slack : of->slack, slots(of->slack),
            is_short ? "short" : "to spare", how_many(left) == 1 ? "by itself" : "with all other rows left above it");
    if (is_short && of->promised > of->finish) {
        fputs(", for its promised part", to);
    }
    if (of->follower != 0) {
        fputs(is_short ? ";" : ", but", to);
        put_followers(to, table, left, of);
        fputs(", so it cannot stand lowest", to);
    }
    fputc('\n', to);
}

/* Says each row left. */
static void put_each_left(FILE *to, const jb_table *table, uint64_t left) {
    for (uint32_t row = 1; row <= table->n; row++) {
        if (is_left(left, row)) {
            const row_left found = look_at_left(table, left, row);
            put_row_left(to, table, left, &found);
        }
    }
}

/* Says what may be concluded from the rows left, and what not (rule 26.10). */
static void put_meaning(FILE *to, const jb_table *table, uint64_t left) {
    const bool one = how_many(left) == 1;
    const uint32_t others = table->n - how_many(left);
    fprintf(to, "meaning: as long as %s, N, G and K stay as they are, no order is correct, whatever is done with other rows\n",
            one ? "this row" : "all of these rows");
    fputs(one ? "to be done: this row has to go or to change, or N, G or K\n"
              : "to be done: at least one of these rows has to go or to change, or N, G or K; it is not said which, nor that one is "
                "enough\n",
          to);
    if (others != 0) {
        fprintf(to, "the other %s alone: a correct order exists\n", rows_word(others));
    }
}

/* Says which rows are left, how each stands among them, and what that means. */
static void put_left(FILE *to, const jb_table *table, uint64_t left) {
    fputs("rows left:", to);
    put_rows_left(to, left);
    put_each_left(to, table, left);
    put_meaning(to, table, left);
}

/* Says of a table without a correct order, if rows of it follow rows, whether it would have one if none did. */
static void put_waits_matter(FILE *to, const jb_table *table) {
    const jb_table other = without_waits(table);
    uint8_t order[JB_ROWS];
    uint64_t left;
    if (any_waits(table)) {
        const bool matter = jb_plan_table(&other, order, &left) == JB_OK;
        fprintf(to, "waits: without them %s\n", matter ? "a correct order exists" : "no correct order exists either");
    }
}

/*
 * Says that no correct order exists, which rows are left, whether waits are the reason, and
 * what was not looked for; what the rows left tell is said by the command left. To find out about waits the table is planned without
 * them, so that nothing is said of them where that is not to be done, as beside a ceiling.
 */
static void explain_no_order(FILE *to, const jb_table *table, uint64_t left, bool plan_without_waits) {
    put_words(to, JB_NO_ORDER);
    fputs("rows left:", to);
    put_rows_left(to, left);
    if (plan_without_waits) {
        put_waits_matter(to, table);
    }
    put_remedy(to, JB_NO_ORDER);
    fputs("not looked for: orders that would serve only because runs drop LO rows at their deadlines\n", to);
}

/* The first line is well formed up to K's field, and ends where that begins: so it was before a sheet had K. */
static bool lacks_loading(const uint8_t *bytes, size_t length) {
    const size_t begin = field_begin(0, LOADING_FIELD);
    return length > begin && is_line_end(bytes[begin]) && ask_probe(0, bytes, begin) != JB_MALFORMED;
}

/* The line that begins here is well formed up to a field of a row, and ends where that begins. */
static bool ends_before(const uint8_t *bytes, size_t length, size_t line, uint32_t field) {
    const size_t end = line + field_begin(0, field);
    return length > end && is_line_end(bytes[end]) && ask_probe(JB_FIRST_LINE, bytes + line, end - line) != JB_MALFORMED;
}

/* How many fields the line of a row that begins here lacks, as in older sheets: that of the followed row, or the last two. */
static unsigned row_lacks(const uint8_t *bytes, size_t length, size_t line) {
    return ends_before(bytes, length, line, FOLLOWS_FIELD) ? 1 : ends_before(bytes, length, line, PROMISED_FIELD) ? 2 : 0;
}

/* The reader finds nothing malformed in the first line. */
static bool has_first_line(const uint8_t *bytes, size_t length) {
    return length >= JB_FIRST_LINE && ask_probe(0, bytes, JB_FIRST_LINE) != JB_MALFORMED;
}

/* What is missing in an older sheet, and what brings it up: without K's field or with it, and how many fields each row lacks. */
static const char *const OLDER_SHEETS[2][3] = {
    {"",
     "the field of the followed row (a row number) is missing; a sheet from before rows could follow rows is brought up by a "
     "field '       0' before the line end of each row: sed '2,$s/$/       0/' SHEET",
     "the fields of the promised part (in work units) and of the followed row (a row number) are missing; a sheet from before "
     "both is brought up by two fields '       0' before the line end of each row: sed '2,$s/$/       0       0/' SHEET"},
    {"the field of K (loading, in slots) is missing; a sheet from before K is brought up by a field '       0' before its first "
     "line end: sed '1s/$/       0/' SHEET",
     "the fields of K (loading, in slots) and of the followed row (a row number) are missing; they are brought in by a field "
     "'       0' before each line end: sed 's/$/       0/' SHEET",
     "the fields of K (loading, in slots), of the promised part (in work units) and of the followed row (a row number) are "
     "missing; a sheet from before all three is brought up by a field '       0' before each line end, and another one before "
     "that of each row: sed 's/$/       0/; 2,$s/$/       0/' SHEET"}};

/* Says what to do with a rows file that was given for a sheet, and with an older sheet. */
static void put_hint(FILE *to, const sheet_file *sheet) {
    sheet_file copy = *sheet;
    const text_piece text = {copy.bytes, copy.length};
    const bool no_loading = lacks_loading(sheet->bytes, sheet->length);
    const size_t rows = no_loading ? field_begin(0, LOADING_FIELD) + 1 : JB_FIRST_LINE;
    const bool first_line = no_loading || has_first_line(sheet->bytes, sheet->length);
    const unsigned lacking = first_line ? row_lacks(sheet->bytes, sheet->length, rows) : 0;
    if (begins_as_rows_file(text)) {
        fputs("hint: this is a rows file; 'jasminebrace sheet ROWS.csv' makes a sheet of it\n", to);
    } else if (no_loading || lacking != 0) {
        fprintf(to, "hint: %s\n", OLDER_SHEETS[no_loading][lacking]);
    }
}

/* Says why a sheet was answered with a number other than 0. */
static void explain_number(FILE *to, uint32_t number, const sheet_file *sheet, uint64_t left) {
    if (number == JB_NO_ORDER) {
        jb_table table;
        jb_read_table(sheet->bytes, sheet->length, &table);
        explain_no_order(to, &table, left, true);
    } else {
        explain_refusal(to, number, sheet->bytes, sheet->length);
        put_hint(to, sheet);
    }
}

/* ---- what is read ---- */

static const char *name_of_file(const char *name) {
    return strcmp(name, "-") == 0 ? "standard input" : name;
}

/* Reads up to so many bytes of a file. Gives FINE, or NOT_USABLE with the reason said. */
static int read_file(const char *name, const char *kind, uint8_t *bytes, size_t room, size_t *length) {
    const bool standard = strcmp(name, "-") == 0;
    if (*name == '\0') {
        return not_usable("the name of the %s is empty", kind);
    }
    errno = 0;
    FILE *file = standard ? stdin : fopen(name, "rb");
    if (file == NULL) {
        return not_usable("%s cannot be opened: %s", name, strerror(errno));
    }
    *length = fread(bytes, 1, room, file);
    const bool failed = ferror(file) != 0;
    const int reason = errno;
    if (!standard) {
        fclose(file);
    }
    if (failed && standard && reason == EBADF) {
        return not_usable("standard input is closed");
    }
    if (failed) {
        return not_usable("%s cannot be read: %s", name_of_file(name), strerror(reason));
    }
    return FINE;
}

/* Reads as much of a sheet as the reader has to see. Gives FINE, or NOT_USABLE with the reason said. */
static int read_sheet(const char *name, sheet_file *sheet) {
    return read_file(name, "sheet", sheet->bytes, sizeof sheet->bytes, &sheet->length);
}

/* A decimal number up to a limit that ends at one of these bytes, or at the end of the text. */
static bool read_number(const char **text, const char *ends, uint32_t most, uint32_t *number) {
    uint64_t value = 0;
    const char *from = *text;
    for (; **text >= '0' && **text <= '9'; ++*text) {
        value = 10 * value + (uint64_t)(**text - '0');
        if (value > most) {
            return false;
        }
    }
    *number = (uint32_t)value;
    return *text != from && (**text == '\0' || strchr(ends, **text) != NULL);
}

/* An order in the making: how many numbers were given. */
typedef struct {
    uint8_t places[JB_ROWS];
    size_t count;
} order_list;

/* Takes row numbers from a word, commas between them. Gives FINE, or NOT_USABLE with the reason said. */
static int add_rows(const char *word, order_list *order) {
    const char *at = word;
    for (;;) {
        uint32_t row;
        if (!read_number(&at, ",", UINT32_MAX, &row)) {
            return not_usable("not a row number: '%s'", word);
        }
        if (order->count == JB_ROWS) {
            return not_usable("an order has at most %d places; more row numbers were given", JB_ROWS);
        }
        /* A place holds numbers up to 255. None above 64 is a row, so the archive refuses 255 as it would refuse them. */
        order->places[order->count++] = (uint8_t)(row < 255 ? row : 255);
        if (*at == '\0') {
            return FINE;
        }
        at++;
    }
}

static int add_words(char **words, size_t count, order_list *order) {
    for (size_t index = 0; index < count; index++) {
        const int status = add_rows(words[index], order);
        if (status != FINE) {
            return status;
        }
    }
    return FINE;
}

/* A supply in work units per slot, or a count, 'x' and a supply. */
static bool read_supply(const char *word, uint32_t *times, uint32_t *supply) {
    const char *at = word;
    *times = 1;
    if (!read_number(&at, "x", UINT32_MAX, supply)) {
        return false;
    }
    if (*at == '\0') {
        return true;
    }
    *times = *supply;
    at++;
    return *times != 0 && read_number(&at, "", UINT32_MAX, supply);
}

/* The list of all supplies, one for each slot; NULL with the reason said. */
static uint32_t *read_supplies(char **words, size_t count, size_t *total) {
    /* One more than any run takes is enough for the archive to refuse the rest. */
    const size_t most = (size_t)JB_LAST_CLOCK + 1;
    uint32_t times;
    uint32_t supply;
    *total = 0;
    for (size_t index = 0; index < count; index++) {
        if (!read_supply(words[index], &times, &supply)) {
            not_usable("not a supply from 0 to 4294967295, nor a count from 1 and a supply as 1000x5: '%s'", words[index]);
            return NULL;
        }
        *total = times < most - *total ? *total + times : most;
    }
    uint32_t *supplies = (uint32_t *)malloc((*total + 1) * sizeof *supplies);
    if (supplies == NULL) {
        not_usable("there is no memory for %zu supplies", *total);
        return NULL;
    }
    size_t filled = 0;
    for (size_t index = 0; index < count; index++) {
        read_supply(words[index], &times, &supply);
        for (; times > 0 && filled < *total; times--) {
            supplies[filled++] = supply;
        }
    }
    return supplies;
}

/* ---- the commands ---- */

/* Says a refusal: in plain form its number and the count of rows left, and always the explanation. */
static int refuse_sheet(const request *asked, uint32_t number, const sheet_file *sheet, uint64_t left) {
    if (asked->plain) {
        put_two_fields(number, how_many(left));
    }
    explain_number(stderr, number, sheet, left);
    return status_of(number);
}

/* Says a refusal that is none of an order that was given. */
static int refuse_call(uint32_t number) {
    put_words(stderr, number);
    put_remedy(stderr, number);
    return status_of(number);
}

/* The place of a row in an order, from 1. */
static uint32_t place_of(const order_list *order, uint32_t row) {
    uint32_t place = 1;
    while (place < JB_ROWS && order->places[place - 1] != row) {
        place++;
    }
    return place;
}

/*
 * The row whose wait makes the archive refuse an order of a table: the first one such
 * that it does so where this row and those before it wait; 0 where it would refuse the
 * order without any waits.
 */
static uint32_t broken_wait(const jb_table *table, const order_list *order) {
    jb_table other = without_waits(table);
    uint32_t finishes[JB_ROWS];
    uint32_t row = 0;
    while (jb_worst_finishes(&other, order->places, finishes) == JB_OK) {
        if (row == table->n) {
            return 0;
        }
        other.follows[row] = table->follows[row];
        row++;
    }
    return row;
}

/* Says a refusal of an order, and which row stands in it above the one that it follows, if that is the reason. */
static int refuse_order(const request *asked, uint32_t number, const jb_table *table, const order_list *order) {
    const uint32_t row = broken_wait(table, order);
    if (asked->plain) {
        put_two_fields(number, 0);
    }
    put_words(stderr, number);
    if (row != 0) {
        const uint32_t followed = table->follows[row - 1];
        fprintf(stderr, "where: place %" PRIu32 ", row %" PRIu32 ": it follows row %" PRIu32, place_of(order, row), row, followed);
        fprintf(stderr, ", which stands below it, in place %" PRIu32 "\n", place_of(order, followed));
    }
    put_remedy(stderr, number);
    return status_of(number);
}

/* Reads the sheet that the request names first. Gives FINE, or a status with everything said. */
static int load_table(const request *asked, sheet_file *sheet, jb_table *table) {
    int status = read_sheet(asked->words[0], sheet);
    if (status == FINE) {
        const uint32_t number = jb_read_table(sheet->bytes, sheet->length, table);
        if (number != JB_OK) {
            status = refuse_sheet(asked, number, sheet, 0);
        }
    }
    return status;
}

/* The order that was given, or the planned one where none was. Gives FINE, or a status with everything said. */
static int load_order(const request *asked, const sheet_file *sheet, const jb_table *table, order_list *order) {
    if (order->count != 0) {
        return FINE;
    }
    uint64_t left;
    const uint32_t number = jb_plan_table(table, order->places, &left);
    return number == JB_OK ? FINE : refuse_sheet(asked, number, sheet, left);
}

/* Reads the sheet, and plans it where no order was given. Gives FINE, or a status with everything said. */
static int load_table_and_order(const request *asked, jb_table *table, order_list *order) {
    sheet_file sheet;
    const int status = load_table(asked, &sheet, table);
    return status == FINE ? load_order(asked, &sheet, table, order) : status;
}

/* The same with the order that the words after the sheet give, if there are any. */
static int load_words(const request *asked, jb_table *table, order_list *order) {
    const int status = add_words(asked->words + 1, asked->count - 1, order);
    return status == FINE ? load_table_and_order(asked, table, order) : status;
}

/* The number of reading a sheet and planning it, with the order and the rows left. */
static uint32_t read_and_plan(const sheet_file *sheet, jb_table *table, uint8_t order[JB_ROWS], uint64_t *left) {
    const uint32_t number = jb_read_table(sheet->bytes, sheet->length, table);
    *left = 0;
    return number == JB_OK ? jb_plan_table(table, order, left) : number;
}

/* What the planning program writes, byte for byte; the explanation of a refusal beside it. */
static int plan_plain(const sheet_file *sheet) {
    jb_table table;
    uint8_t order[JB_ROWS];
    uint64_t left;
    uint8_t text[JB_PROGRAM_TEXT];
    const uint32_t number = read_and_plan(sheet, &table, order, &left);
    fwrite(text, 1, jb_program_text(sheet->bytes, sheet->length, text), stdout);
    if (number != JB_OK) {
        explain_number(stderr, number, sheet, left);
    }
    return status_of(number);
}

/* Says a row, its level, and the row that it follows, if it follows one. */
static void put_row(const jb_table *table, uint32_t row) {
    printf("row %" PRIu32 " (%s", row, level_word(table->level[row - 1]));
    if (table->follows[row - 1] != 0) {
        printf(", follows row %" PRIu32, table->follows[row - 1]);
    }
    putchar(')');
}

/* Says the slack of each place of an order, highest first. */
static int put_places(const request *asked, const jb_table *table, const uint8_t order[JB_ROWS]) {
    row_times times;
    const uint32_t number = take_times(table, order, &times);
    if (number != JB_OK) {
        return refuse_call(number);
    }
    for (uint32_t place = 1; place <= table->n; place++) {
        const uint32_t row = order[place - 1];
        const int64_t slack = times.slack[row - 1];
        if (asked->plain) {
            put_three_fields(place, row, (uint32_t)slack);
        } else {
            printf("place %" PRIu32 ": ", place);
            put_row(table, row);
            printf(", slack %" PRId64 " %s\n", slack, slots(slack));
        }
    }
    return FINE;
}

/* What planning a sheet at a ceiling has answered. */
typedef struct {
    uint32_t number;
    jb_table table;
    uint8_t order[JB_ROWS];
    uint64_t left;
    uint32_t trials; /* made */
} counted_plan;

/*
 * Reads a sheet and plans it at the ceiling that was given, in trials, or else at the most
 * that its rows can take. A sheet that the reader refuses is answered with its number and zeros.
 */
static void plan_within(const request *asked, const sheet_file *sheet, counted_plan *made) {
    memset(made, 0, sizeof *made);
    made->number = jb_read_table(sheet->bytes, sheet->length, &made->table);
    if (made->number == JB_OK) {
        const uint32_t ceiling = asked->limited ? asked->ceiling : jb_most_trials(made->table.n);
        made->number = jb_plan_table_within(&made->table, ceiling, made->order, &made->left, &made->trials);
    }
}

/* Says how many trials were made, and how many were allowed. */
static void put_trials(FILE *to, uint32_t made, uint32_t ceiling) {
    fprintf(to, "trials made: %" PRIu32 ", of a ceiling of %" PRIu32 " %s\n", made, ceiling, trials(ceiling));
}

/* Says that a sheet takes more trials than the ceiling, what that leaves open, and which ceiling is always enough for it. */
static void explain_ceiling(FILE *to, const counted_plan *made, uint32_t ceiling) {
    const uint32_t rows = made->table.n;
    const uint32_t most = jb_most_trials(rows);
    put_words(to, JB_OVER_CEILING);
    put_trials(to, made->trials, ceiling);
    fputs("not said: whether a correct order exists; 19 says neither that one does nor that none does\n", to);
    fprintf(to, "always enough: a ceiling of %" PRIu32 " %s, for %" PRIu32 " %s\n", most, trials(most), rows, rows_word(rows));
    put_remedy(to, JB_OVER_CEILING);
}

/* Says why planning was not answered 0; where a ceiling was given, also how many trials were made. */
static void explain_counted(FILE *to, const request *asked, const counted_plan *made, const sheet_file *sheet) {
    if (made->number == JB_OVER_CEILING) {
        explain_ceiling(to, made, asked->ceiling);
        return;
    }
    if (asked->limited && made->number == JB_NO_ORDER) {
        explain_no_order(to, &made->table, made->left, false);
        put_trials(to, made->trials, asked->ceiling);
        return;
    }
    explain_number(to, made->number, sheet, made->left);
}

/* Plans, and tells the answer as a sentence; in the plain form at a ceiling the trials are the third field of the first line. */
static int plan_counted(const request *asked, const sheet_file *sheet) {
    counted_plan made;
    plan_within(asked, sheet, &made);
    if (asked->plain) {
        put_three_fields(made.number, made.number == JB_OK ? made.table.n : how_many(made.left), made.trials);
    } else {
        put_planners_sentence(made.number, made.left, made.order, made.trials);
    }
    if (made.number != JB_OK) {
        explain_counted(stderr, asked, &made, sheet);
        return status_of(made.number);
    }
    return put_places(asked, &made.table, made.order);
}

static int plan(const request *asked) {
    sheet_file sheet;
    const int status = read_sheet(asked->words[0], &sheet);
    if (status != FINE) {
        return status;
    }
    return asked->plain && !asked->limited ? plan_plain(&sheet) : plan_counted(asked, &sheet);
}

/* What the judge answered. */
typedef struct {
    uint32_t number;
    uint32_t yes;
    uint32_t row;
    int32_t slack; /* in slots */
} verdict;

/* Tells a verdict: as a sentence and the level of the row that it names, or in the plain form as fields. */
static int put_verdict(const request *asked, const jb_table *table, const verdict *said) {
    if (asked->plain) {
        put_field(said->number);
        put_field(said->yes);
        put_field(said->row);
        put_slack(said->slack);
        putchar('\n');
    } else {
        put_judges_sentence(said->number, said->yes, said->row, said->slack);
        fputs("tightest: ", stdout);
        put_row(table, said->row);
        putchar('\n');
    }
    return said->yes ? FINE : NO;
}

/* Tells that nothing was judged, as a sentence; the explanation comes after it. The plain form has its own line for that. */
static void put_no_verdict(const request *asked, uint32_t number) {
    if (!asked->plain) {
        put_judges_sentence(number, 0, 0, 0);
    }
}

static int judge(const request *asked) {
    sheet_file sheet;
    jb_table table;
    order_list order = {{0}, 0};
    verdict said;
    int status = add_words(asked->words + 1, asked->count - 1, &order);
    if (status == FINE) {
        status = read_sheet(asked->words[0], &sheet);
    }
    if (status != FINE) {
        return status;
    }
    const uint32_t number = jb_read_table(sheet.bytes, sheet.length, &table);
    if (number != JB_OK) {
        put_no_verdict(asked, number);
        return refuse_sheet(asked, number, &sheet, 0);
    }
    said.number = jb_judge_order(&table, order.places, &said.yes, &said.row, &said.slack);
    if (said.number != JB_OK) {
        put_no_verdict(asked, said.number);
        return refuse_order(asked, said.number, &table, &order);
    }
    return put_verdict(asked, &table, &said);
}

static void put_order(const order_list *order, uint32_t n) {
    fputs("order:", stdout);
    for (uint32_t place = 0; place < n; place++) {
        printf(" %u", (unsigned)order->places[place]);
    }
    putchar('\n');
}

/* What stands before the lines of rows or slots: the order, or in the plain form 0 and the row count. */
static void put_heading(const request *asked, const order_list *order, uint32_t n) {
    if (asked->plain) {
        put_two_fields(JB_OK, n);
    } else {
        put_order(order, n);
    }
}

/* Says a row's worst finish, the moment of its promised part if it has one, its deadline and its slack. */
static void put_times(const request *asked, const jb_table *table, const row_times *times, uint32_t row, uint32_t promised) {
    const uint32_t finish = times->finish[row - 1];
    const uint32_t deadline = table->deadline[row - 1];
    const int64_t slack = times->slack[row - 1];
    if (asked->plain) {
        put_field(row);
        put_field(finish);
        put_field(deadline);
        put_slack(slack);
        put_field(promised);
        putchar('\n');
        return;
    }
    put_row(table, row);
    printf(": worst finish %" PRIu32 " %s", finish, slots(finish));
    if (promised != 0) {
        printf(", promised part at %" PRIu32 " %s", promised, slots(promised));
    }
    printf(", deadline %" PRIu32 " %s, slack %" PRId64 " %s\n", deadline, slots(deadline), slack, slots(slack));
}

static int finishes(const request *asked) {
    jb_table table;
    order_list order = {{0}, 0};
    row_times times;
    const int status = load_words(asked, &table, &order);
    if (status != FINE) {
        return status;
    }
    const uint32_t number = take_times(&table, order.places, &times);
    if (number != JB_OK) {
        return refuse_order(asked, number, &table, &order);
    }
    put_heading(asked, &order, table.n);
    for (uint32_t row = 1; row <= table.n; row++) {
        put_times(asked, &table, &times, row, promised_moment(&table, order.places, row));
    }
    return FINE;
}

/* What stands above a report: what its last line has, then name and unit of each column, 10 columns wide as its figures. */
static const char REPORT_HEADING[] =
    "last line: sum of needs at N (slots), count of rows with slack below 0 slots\n"
    "                                   worst\n"
    "     place       row need at N    finish     slack\n"
    "  (from 1)  (from 1)   (slots)   (slots)   (slots)\n";

/* The report is the archive's, byte for byte; nothing stands after it. */
static int report(const request *asked) {
    jb_table table;
    order_list order = {{0}, 0};
    uint8_t text[JB_LONGEST_REPORT];
    uint32_t length;
    const int status = load_words(asked, &table, &order);
    if (status != FINE) {
        return status;
    }
    const uint32_t number = jb_report_order(&table, order.places, text, sizeof text, &length);
    if (number != JB_OK) {
        return refuse_order(asked, number, &table, &order);
    }
    if (!asked->plain) {
        fputs(REPORT_HEADING, stdout);
    }
    fwrite(text, 1, length, stdout);
    return FINE;
}

/* What counting the correct orders of a sheet has answered. */
typedef struct {
    uint32_t number;
    uint32_t n;               /* rows */
    uint32_t count;           /* correct orders */
    uint32_t lowest[JB_ROWS]; /* in how many of them each row stands lowest */
} counted_orders;

/* Figures in 10 columns each, as a report has them: a field of 8 bytes does not hold every count. */
static void put_columns(const uint32_t *figures, size_t count) {
    for (size_t index = 0; index < count; index++) {
        printf("%*" PRIu32, JB_FIGURE, figures[index]);
    }
    putchar('\n');
}

static void put_plain_count(const counted_orders *made) {
    const uint32_t first[] = {made->number, made->n, made->count, made->number == JB_OK ? jb_arrangements(made->n) : 0};
    put_columns(first, sizeof first / sizeof first[0]);
    for (uint32_t row = 1; row <= made->n; row++) {
        const uint32_t line[] = {row, made->lowest[row - 1]};
        put_columns(line, sizeof line / sizeof line[0]);
    }
}

/* Says of how many arrangements how many are correct orders, and in how many of these each row stands lowest. */
static void put_count(const jb_table *table, const counted_orders *made) {
    const uint32_t all = jb_arrangements(made->n);
    printf("%" PRIu32 " of %" PRIu32 " %s of %" PRIu32 " %s %s\n", made->count, all, all == 1 ? "arrangement" : "arrangements", made->n,
           rows_word(made->n), made->count == 1 ? "is a correct order" : "are correct orders");
    if (made->count == 0) {
        puts("no order is correct: 'jasminebrace plan SHEET' says which rows are left, and what to do");
        return;
    }
    for (uint32_t row = 1; row <= made->n; row++) {
        const uint32_t lowest = made->lowest[row - 1];
        put_row(table, row);
        printf(": lowest in %" PRIu32 " correct %s\n", lowest, lowest == 1 ? "order" : "orders");
    }
}

/* Says that a sheet has more rows than are counted, how many it has, and that nothing else is wrong with it. */
static void explain_too_many_rows(FILE *to, const sheet_file *sheet) {
    fault found;
    memset(&found, 0, sizeof found);
    note_field(sheet->bytes, 0, 1, &found);
    put_words(to, JB_TOO_MANY_ROWS);
    put_place(to, sheet->bytes, &found);
    fprintf(to, "allowed: 1 to %d rows, to be counted; the sheet is accepted otherwise\n", JB_MOST_COUNTED);
    put_remedy(to, JB_TOO_MANY_ROWS);
}

/* Says why orders were not counted. */
static int refuse_count(const request *asked, const sheet_file *sheet, uint32_t number) {
    const counted_orders none = {number, 0, 0, {0}};
    if (asked->plain) {
        put_plain_count(&none);
    }
    if (number == JB_TOO_MANY_ROWS) {
        explain_too_many_rows(stderr, sheet);
    } else {
        explain_number(stderr, number, sheet, 0);
    }
    return status_of(number);
}

/* Counts the correct orders of a sheet. */
static int count_orders(const request *asked) {
    static uint32_t scratch[JB_SCRATCH];
    sheet_file sheet;
    jb_table table;
    counted_orders made;
    const int status = read_sheet(asked->words[0], &sheet);
    if (status != FINE) {
        return status;
    }
    made.number = jb_read_table(sheet.bytes, sheet.length, &table);
    if (made.number == JB_OK) {
        made.number = jb_count_orders(&table, scratch, JB_SCRATCH, &made.count, made.lowest);
    }
    if (made.number != JB_OK) {
        return refuse_count(asked, &sheet, made.number);
    }
    made.n = table.n;
    if (asked->plain) {
        put_plain_count(&made);
    } else {
        put_count(&table, &made);
    }
    return made.count == 0 ? NO : FINE;
}

/* A speed that is sought while the other one is kept as it is. */
typedef struct {
    const char *name; /* of the speed sought */
    char letter;      /* of the speed sought, G or N */
    char kept;        /* of the other one */
    uint32_t (*least)(const uint8_t *sheet, size_t length, uint32_t *speed, uint8_t order[JB_ROWS]);
} search;

static const search LEAST_DEGRADED = {"degraded speed", 'G', 'N', jb_read_least_degraded_speed};
static const search LEAST_NORMAL = {"normal speed", 'N', 'G', jb_read_least_normal_speed};

static uint32_t speed_of(const jb_table *table, char letter) {
    return letter == 'G' ? table->degraded : table->normal;
}

static jb_table with_speed(const jb_table *table, char letter, uint32_t speed) {
    jb_table other = *table;
    *(letter == 'G' ? &other.degraded : &other.normal) = speed;
    return other;
}

/* The planner's number and rows left at these speeds, in work units per slot. */
static uint32_t plan_at(jb_table table, uint32_t normal, uint32_t degraded, uint64_t *left) {
    uint8_t order[JB_ROWS];
    table.normal = normal;
    table.degraded = degraded;
    return jb_plan_table(&table, order, left);
}

/* Some of these rows promise a part. */
static bool any_promised(const jb_table *table, uint64_t rows) {
    bool any = false;
    for (uint32_t index = 0; index < table->n; index++) {
        any = any || (rows >> index & 1 && table->promised[index] != 0);
    }
    return any;
}

/* What the rows left at these speeds may need: fewer waits if there is an order without any. */
static void put_rows_remedy(FILE *to, const jb_table *table, uint32_t normal, uint32_t degraded) {
    uint64_t left;
    uint64_t none;
    plan_at(*table, normal, degraded, &left);
    const bool promised = any_promised(table, left);
    const bool fewer = any_waits(table) && plan_at(without_waits(table), normal, degraded, &none) == JB_OK;
    fprintf(to, "remedy: give the rows left later deadlines%s less work", promised || fewer ? "," : " or");
    fputs(!promised ? "" : fewer ? ", smaller promised parts" : " or smaller promised parts", to);
    fputs(fewer ? " or fewer waits" : "", to);
}

/*
 * What to do where no speed of a range will do, as far as it can help: a larger
 * speed of the other kind if there is an order with both at their largest, a smaller
 * K if there is one without loading, at the speeds given, and both if it takes both.
 */
static void put_speed_remedy(FILE *to, const search *of, const jb_table *table, uint32_t normal, uint32_t degraded) {
    jb_table unloaded = *table;
    unloaded.loading = 0;
    uint64_t left;
    put_rows_remedy(to, table, normal, degraded);
    const bool faster = plan_at(*table, JB_MOST_SPEED, JB_MOST_SPEED, &left) == JB_OK;
    const bool lighter = plan_at(unloaded, normal, degraded, &left) == JB_OK;
    if (faster && lighter) {
        fprintf(to, ", the processor a larger %c, or the table a smaller K\n", of->kept);
    } else if (faster) {
        fprintf(to, ", or the processor a larger %c\n", of->kept);
    } else if (lighter) {
        fputs(", or the table a smaller K\n", to);
    } else if (plan_at(unloaded, JB_MOST_SPEED, JB_MOST_SPEED, &left) == JB_OK) {
        fprintf(to, ", or the processor a larger %c and the table a smaller K\n", of->kept);
    } else {
        fputc('\n', to);
    }
}

/* Says that no speed of the range has a correct order, and gives the rows left at its largest. */
static uint64_t explain_no_speed(FILE *to, const search *of, const jb_table *table) {
    const bool degraded = of->letter == 'G';
    const uint32_t least = degraded ? 1 : table->degraded;
    const uint32_t largest = degraded ? table->normal : JB_MOST_SPEED;
    const uint32_t degraded_there = degraded ? largest : table->degraded;
    uint64_t left;
    plan_at(*table, largest, degraded_there, &left);
    fprintf(to, "number %d: no %c from %" PRIu32 " to %" PRIu32 " %s has a correct order\n", JB_NO_ORDER, of->letter, least,
            largest, per_slot(largest));
    fprintf(to, "rows left at %c = %" PRIu32 " %s:", of->letter, largest, per_slot(largest));
    put_rows_left(to, left);
    put_speed_remedy(to, of, table, largest, degraded_there);
    return left;
}

/* Says a correct order with the slack of each place; in the plain form the lines of its places alone. */
static int put_correct_order(const request *asked, const jb_table *table, const uint8_t order[JB_ROWS]) {
    if (!asked->plain) {
        printf("a correct order of %" PRIu32 " %s, highest place first\n", table->n, rows_word(table->n));
    }
    return put_places(asked, table, order);
}

/* Says the least speed of a sheet and the order at it, or that there is none. A sheet that is refused is explained elsewhere. */
static int put_least_speed(const request *asked, const search *of, const sheet_file *sheet, const jb_table *table) {
    const uint32_t kept = speed_of(table, of->kept);
    uint8_t order[JB_ROWS];
    uint32_t speed;
    const uint32_t number = of->least(sheet->bytes, sheet->length, &speed, order);
    if (asked->plain) {
        put_three_fields(number, speed, number == JB_OK ? table->n : 0);
    } else if (status_of(number) != REFUSED) {
        printf("least %s, with %c = %" PRIu32 " %s: ", of->name, of->kept, kept, per_slot(kept));
    }
    if (number == JB_OK) {
        const jb_table at_speed = with_speed(table, of->letter, speed);
        if (!asked->plain) {
            printf("%c = %" PRIu32 " %s\n", of->letter, speed, per_slot(speed));
        }
        return put_correct_order(asked, &at_speed, order);
    }
    if (number == JB_NO_ORDER) {
        if (!asked->plain) {
            puts("none");
        }
        explain_no_speed(asked->plain ? stderr : stdout, of, table);
    }
    return status_of(number);
}

static int least_speeds(const request *asked) {
    sheet_file sheet;
    jb_table table;
    const int status = read_sheet(asked->words[0], &sheet);
    if (status != FINE) {
        return status;
    }
    const uint32_t number = jb_read_table(sheet.bytes, sheet.length, &table);
    if (number != JB_OK) {
        explain_number(stderr, number, &sheet, 0);
    }
    const int degraded = put_least_speed(asked, &LEAST_DEGRADED, &sheet, &table);
    const int normal = put_least_speed(asked, &LEAST_NORMAL, &sheet, &table);
    return degraded > normal ? degraded : normal;
}

/* Reads the sheet, and takes the order at its least G where none was given. Gives FINE, or a status with everything said. */
static int load_least(const request *asked, jb_table *table, order_list *order) {
    sheet_file sheet;
    uint32_t speed;
    const int status = load_table(asked, &sheet, table);
    if (status != FINE || order->count != 0) {
        return status;
    }
    const uint32_t number = jb_least_degraded_speed(table, &speed, order->places);
    if (number == JB_NO_ORDER) {
        const uint64_t left = explain_no_speed(stderr, &LEAST_DEGRADED, table);
        if (asked->plain) {
            put_two_fields(number, how_many(left));
        }
    }
    return status_of(number);
}

/* Says the row of least slack under an order, in words. */
static void put_least_slack(const jb_table *table, uint32_t row, int32_t slack) {
    printf("least slack: row %" PRIu32 " (%s), %" PRId32 " %s\n", row, level_word(table->level[row - 1]), slack, slots(slack));
}

/* Says the judge's verdict on an order at one G. Gives the judge's number. */
static uint32_t put_slack_at(const request *asked, const jb_table *table, const order_list *order, uint32_t speed) {
    const jb_table at_speed = with_speed(table, 'G', speed);
    uint32_t yes;
    uint32_t row;
    int32_t slack;
    const uint32_t number = jb_judge_order(&at_speed, order->places, &yes, &row, &slack);
    if (number != JB_OK) {
        return number;
    }
    if (asked->plain) {
        put_field(speed);
        put_field(row);
        put_slack(slack);
        putchar('\n');
    } else {
        printf("G = %" PRIu32 " %s: %s, ", speed, per_slot(speed), yes ? "correct" : "not correct");
        put_least_slack(table, row, slack);
    }
    return number;
}

/* One order at each G from 1 to N. */
static int slacks(const request *asked) {
    jb_table table;
    order_list order = {{0}, 0};
    int status = add_words(asked->words + 1, asked->count - 1, &order);
    if (status == FINE) {
        status = load_least(asked, &table, &order);
    }
    if (status != FINE) {
        return status;
    }
    row_times times;
    uint32_t number = take_times(&table, order.places, &times);
    if (number != JB_OK) {
        return refuse_order(asked, number, &table, &order);
    }
    put_heading(asked, &order, table.n);
    for (uint32_t place = 1; asked->plain && place <= table.n; place++) {
        put_two_fields(place, order.places[place - 1]);
    }
    for (uint32_t speed = 1; number == JB_OK && speed <= table.normal; speed++) {
        number = put_slack_at(asked, &table, &order, speed);
    }
    return status_of(number);
}

static int speeds(const request *asked) {
    return asked->slacks ? slacks(asked) : least_speeds(asked);
}

/* How a row has closed, for plain lines: see the help of run. */
enum closing_code {
    OPEN = 0,
    DONE = 1,
    DROPPED = 2, /* its slots used up */
    DONE_LATE = 3,
    DROPPED_FOR_DEADLINE = 4,
    DROPPED_NOT_RUN = 5 /* for its deadline too, but not by a slot that it ran */
};

static uint32_t closing_figure(const jb_run *run, uint32_t row) {
    if (jb_is_dropped(run, row)) {
        return jb_is_dropped_for_deadline(run, row) ? DROPPED_FOR_DEADLINE : DROPPED;
    }
    return !jb_is_done(run, row) ? OPEN : jb_is_late(run, row) ? DONE_LATE : DONE;
}

/* Says of a row that was dropped whether it has got its promised part, if it has one. */
static void put_promise_of_dropped(const jb_run *run, uint32_t row) {
    const uint32_t promised = run->table.promised[row - 1];
    if (promised != 0) {
        printf(", promised %" PRIu32 " %s %s", promised, work_units(promised), jb_has_promised(run, row) ? "got" : "not got");
    }
}

/*
 * How a row has closed, in words; nothing while it is open. Before that, the clock at
 * which it got its promised part, unless that is 0.
 */
static void put_closing(const jb_run *run, uint32_t row, uint32_t promised_at) {
    if (promised_at != 0) {
        const uint32_t promised = run->table.promised[row - 1];
        printf(", promised %" PRIu32 " %s got at clock %" PRIu32, promised, work_units(promised), promised_at);
    }
    if (jb_is_dropped(run, row)) {
        const char *why = jb_is_dropped_for_deadline(run, row) ? "its deadline" : "its slots used up";
        printf(", dropped at clock %" PRIu32 ", %s", run->closing[row - 1], why);
        if (promised_at == 0) {
            put_promise_of_dropped(run, row);
        }
    } else if (jb_is_done(run, row)) {
        printf(", done at clock %" PRIu32, run->closing[row - 1]);
        if (jb_is_late(run, row)) {
            const uint32_t late = run->closing[row - 1] - run->table.deadline[row - 1];
            printf(", late by %" PRIu32 " %s", late, slots(late));
        }
    }
}

/* How many of the slots between two records were loading slots of the row that ran in them; 0 for row 0. */
static uint32_t loading_between(const jb_run *before, const jb_run *after, uint32_t row) {
    return jb_loaded(after, row) - jb_loaded(before, row);
}

/*
 * The clock at which a row got its promised part in the slots between two records, which
 * had these supplies; 0 if not in them. The slots are halved until one is left.
 */
static uint32_t promised_between(const jb_run *before, const jb_run *after, uint32_t row, const uint32_t *supplies) {
    jb_run run = *before;
    size_t left = after->clock - before->clock;
    if (jb_has_promised(before, row) || !jb_has_promised(after, row)) {
        return 0;
    }
    while (left > 1) {
        const size_t half = left / 2;
        jb_run copy = run;
        uint32_t worked;
        jb_work_forward(&copy, supplies, half, &worked);
        if (jb_has_promised(&copy, row)) {
            left = half;
        } else {
            run = copy;
            supplies += half;
            left -= half;
        }
    }
    return run.clock + 1;
}

/* Says what the slot between two records did. */
static void put_slot(const request *asked, const jb_run *before, const jb_run *run, uint32_t row, uint32_t supply) {
    const uint32_t slot = before->clock;
    const uint32_t promised_at = promised_between(before, run, row, &supply);
    const uint32_t got = row == 0 ? 0 : run->got[row - 1];
    const uint32_t work = row == 0 ? 0 : run->table.work[row - 1];
    const uint32_t loading = loading_between(before, run, row);
    if (asked->plain) {
        put_sheet_field(asked);
        put_field(slot);
        put_field(row);
        put_field(got);
        put_field(work);
        put_field(closing_figure(run, row));
        put_field(loading);
        put_field(promised_at);
    } else if (row == 0) {
        printf("slot %" PRIu32 ": idle, supply %" PRIu32 " work units", slot, supply);
    } else {
        printf("slot %" PRIu32 ": row %" PRIu32, slot, row);
        if (loading != 0) {
            printf(", loading slot %" PRIu32 " of %" PRIu32, jb_loaded(run, row), run->table.loading);
        }
        printf(", supply %" PRIu32 " work units, got %" PRIu32 " of %" PRIu32 " work units", supply, got, work);
        put_closing(run, row, promised_at);
    }
    putchar('\n');
}

/* Says what the stretch of slots between two records did; supplies are those of its slots. */
static void put_stretch(const request *asked, const jb_run *before, const jb_run *run, uint32_t row, const uint32_t *supplies) {
    const uint32_t first = before->clock;
    const uint32_t length = run->clock - first;
    const uint32_t promised_at = promised_between(before, run, row, supplies);
    const uint32_t loading = loading_between(before, run, row);
    if (asked->plain) {
        put_sheet_field(asked);
        put_field(first);
        put_field(length);
        put_field(row);
        put_field(closing_figure(run, row));
        put_field(loading);
        put_field(promised_at);
    } else {
        printf("from slot %" PRIu32 ", %" PRIu32 " %s", first, length, slots(length));
        if (loading != 0) {
            printf(" (%" PRIu32 " loading)", loading);
        }
        if (row == 0) {
            fputs(": idle", stdout);
        } else {
            printf(": row %" PRIu32, row);
            put_closing(run, row, promised_at);
        }
    }
    putchar('\n');
}

/* A row closed earlier than another, or at the same clock and with a lower number. */
static bool closed_before(const jb_run *run, uint32_t row, uint32_t other) {
    const uint32_t clock = run->closing[row - 1];
    const uint32_t others = run->closing[other - 1];
    return clock < others || (clock == others && row < other);
}

/*
 * Of the rows that closed between two records while another one ran, in turn, the
 * one that comes after this one, or the first with 0; 0 where there is none. The
 * clock alone closes such rows: LO rows at their deadlines.
 */
static uint32_t next_dropped(const jb_run *before, const jb_run *after, uint32_t ran, uint32_t this_one) {
    uint32_t next = 0;
    for (uint32_t row = 1; row <= after->table.n; row++) {
        const bool dropped = row != ran && jb_is_open(before, row) && !jb_is_open(after, row);
        if (dropped && (this_one == 0 || closed_before(after, this_one, row)) && (next == 0 || closed_before(after, row, next))) {
            next = row;
        }
    }
    return next;
}

/* The plain line of a row that was dropped at its deadline while another one ran. */
static void put_plain_dropped(const request *asked, const jb_run *run, uint32_t row) {
    const uint32_t clock = run->closing[row - 1];
    put_sheet_field(asked);
    if (asked->stretches) {
        put_field(clock);
        put_field(0);
        put_field(row);
    } else {
        put_field(clock - 1);
        put_field(row);
        put_field(run->got[row - 1]);
        put_field(run->table.work[row - 1]);
    }
    put_three_fields(DROPPED_NOT_RUN, 0, 0);
}

/* Says that a row was dropped at its deadline while another one ran. */
static void put_dropped(const request *asked, const jb_run *run, uint32_t row) {
    if (asked->plain) {
        put_plain_dropped(asked, run, row);
    } else {
        printf("at clock %" PRIu32 ": row %" PRIu32 ", got %" PRIu32 " of %" PRIu32 " work units, dropped at its deadline",
               run->closing[row - 1], row, run->got[row - 1], run->table.work[row - 1]);
        put_promise_of_dropped(run, row);
        putchar('\n');
    }
}

static void put_all_dropped(const request *asked, const jb_run *before, const jb_run *run, uint32_t ran) {
    for (uint32_t row = next_dropped(before, run, ran, 0); row != 0; row = next_dropped(before, run, ran, row)) {
        put_dropped(asked, run, row);
    }
}

/* A row ran in every one of so many slots between two records of a run; with row 0, none did in any. */
static bool ran_alone(const jb_run *before, const jb_run *after, uint32_t row, uint32_t length) {
    if (row == 0) {
        return memcmp(before->used, after->used, sizeof before->used) == 0;
    }
    return after->used[row - 1] - before->used[row - 1] == length;
}

/*
 * Works a run to the end of the stretch in which the coming row runs on, or of
 * the supplies. Pieces of twice the length are tried on a copy as long as the
 * row runs through them, then pieces of half the length down to one slot. Each
 * piece is tried once, so that a stretch costs a few times its own slots.
 */
static uint32_t work_stretch(jb_run *run, const uint32_t *supplies, size_t count, uint32_t *row) {
    const uint32_t number = jb_coming_row(run, row);
    bool growing = true;
    size_t piece = 1;
    while (number == JB_OK && piece > 0 && count > 0) {
        const size_t tried = piece < count ? piece : count;
        jb_run copy = *run;
        uint32_t worked;
        if (jb_work_forward(&copy, supplies, tried, &worked) == JB_OK && ran_alone(run, &copy, *row, (uint32_t)tried)) {
            *run = copy;
            supplies += tried;
            count -= tried;
        } else {
            growing = false;
        }
        piece = growing ? 2 * piece : piece / 2;
    }
    return number;
}

static uint32_t run_slots(const request *asked, jb_run *run, const uint32_t *supplies, size_t count) {
    for (size_t index = 0; index < count && !ferror(stdout); index++) {
        uint32_t row;
        const jb_run before = *run;
        const uint32_t number = jb_work_slot(run, supplies[index], &row);
        if (number != JB_OK) {
            return number;
        }
        put_slot(asked, &before, run, row, supplies[index]);
        put_all_dropped(asked, &before, run, row);
    }
    return JB_OK;
}

static uint32_t run_stretches(const request *asked, jb_run *run, const uint32_t *supplies, size_t count) {
    while (count > 0 && !ferror(stdout)) {
        uint32_t row;
        const jb_run before = *run;
        const uint32_t number = work_stretch(run, supplies, count, &row);
        if (number != JB_OK) {
            return number;
        }
        put_stretch(asked, &before, run, row, supplies);
        put_all_dropped(asked, &before, run, row);
        supplies += run->clock - before.clock;
        count -= run->clock - before.clock;
    }
    return JB_OK;
}

/* Says of an open row that it is late, and for which row it waits. */
static void put_lateness(FILE *to, const jb_run *run, uint32_t row) {
    const bool late = jb_is_late(run, row);
    if (jb_is_waiting(run, row)) {
        fprintf(to, " (%swaits for row %" PRIu32 ")", late ? "late, " : "", run->table.follows[row - 1]);
    } else if (late) {
        fputs(" (late)", to);
    }
}

/* Says which rows are open, or that none is, and ends the line. */
static void put_open_list(FILE *to, const jb_run *run) {
    bool any = false;
    for (uint32_t row = 1; row <= run->table.n; row++) {
        if (jb_is_open(run, row)) {
            fprintf(to, "%s %" PRIu32, any ? "," : " rows still open:", row);
            put_lateness(to, run, row);
            any = true;
        }
    }
    fputs(any ? "\n" : " no row is open\n", to);
}

static void put_open_rows(const jb_run *run) {
    printf("after %" PRIu32 " %s:", run->clock, slots(run->clock));
    put_open_list(stdout, run);
}

/* Works a run over all supplies and says what they did. Gives FINE, or a status with everything said. */
static int work_supplies(const request *asked, jb_run *run, const uint32_t *supplies, size_t count) {
    const uint32_t number = asked->stretches ? run_stretches(asked, run, supplies, count) : run_slots(asked, run, supplies, count);
    if (!asked->plain) {
        put_open_rows(run);
    }
    return number == JB_OK ? FINE : refuse_call(number);
}

static int run_with(const request *asked, const uint32_t *supplies, size_t count) {
    jb_table table;
    jb_run run;
    order_list order = {{0}, 0};
    int status = asked->order == NULL ? FINE : add_rows(asked->order, &order);
    if (status == FINE) {
        status = load_table_and_order(asked, &table, &order);
    }
    if (status != FINE) {
        return status;
    }
    const uint32_t number = jb_fresh_run(&table, order.places, &run);
    if (number != JB_OK) {
        return refuse_order(asked, number, &table, &order);
    }
    put_heading(asked, &order, table.n);
    return work_supplies(asked, &run, supplies, count);
}

static int run(const request *asked) {
    size_t count;
    uint32_t *supplies = read_supplies(asked->words + 1, asked->count - 1, &count);
    if (supplies == NULL) {
        return NOT_USABLE;
    }
    const int status = run_with(asked, supplies, count);
    free(supplies);
    return status;
}

/* ---- a day of several sheets on one clock ---- */

/* A sheet of a day with the supplies of its slots. */
typedef struct {
    uint32_t number;    /* which of the day's sheets it is, from 1 */
    const char *name;   /* of its file */
    sheet_file file;
    uint32_t *supplies; /* one for each slot, in work units per slot */
    size_t count;       /* how many there are */
} day_sheet;

/* The word between the supplies of a sheet and the next sheet; no supply is written so. */
static const char THEN[] = "then";

/* How many words stand before the next THEN, or before the end, from the second of a sheet's words on: its own file may have any name. */
static size_t words_of_sheet(char **words, size_t count) {
    size_t taken = count < 1 ? count : 1;
    while (taken < count && strcmp(words[taken], THEN) != 0) {
        taken++;
    }
    return taken;
}

/* Takes a sheet of a day from its words: a file and supplies. Gives FINE, or NOT_USABLE with the reason said. */
static int take_day_sheet(char **words, size_t count, day_sheet *taken) {
    if (count < 2) {
        return not_usable("sheet %" PRIu32 "%s%s has no %s", taken->number, count == 0 ? "" : ", ", count == 0 ? "" : words[0],
                          count == 0 ? "file" : "supplies");
    }
    taken->name = words[0];
    taken->supplies = read_supplies(words + 1, count - 1, &taken->count);
    return taken->supplies == NULL ? NOT_USABLE : read_sheet(taken->name, &taken->file);
}

/* A file that is given twice is read twice, but standard input is there once. */
static int take_standard_input(const day_sheet *taken, bool *given) {
    const bool standard = strcmp(taken->name, "-") == 0;
    if (standard && *given) {
        return not_usable("sheet %" PRIu32 ": standard input is given for an earlier sheet already", taken->number);
    }
    *given = *given || standard;
    return FINE;
}

/* How many sheets the words of a day have. */
static size_t sheets_of_day(char **words, size_t count) {
    size_t sheets = 0;
    for (size_t at = 0; at <= count; at += words_of_sheet(words + at, count - at) + 1) {
        sheets++;
    }
    return sheets;
}

/* Takes all sheets of a day before anything is worked or said. Gives FINE, or NOT_USABLE with the reason said. */
static int take_day(char **words, size_t count, day_sheet *sheets) {
    bool standard = false;
    int status = FINE;
    for (size_t at = 0; at <= count && status == FINE; sheets++) {
        const size_t held = words_of_sheet(words + at, count - at);
        status = take_day_sheet(words + at, held, sheets);
        if (status == FINE) {
            status = take_standard_input(sheets, &standard);
        }
        at += held + 1;
    }
    return status;
}

static void put_day_sheet(FILE *to, const day_sheet *of) {
    fprintf(to, "sheet %" PRIu32 " (%s)", of->number, name_of_file(of->name));
}

/* How many rows of a run are open. */
static uint32_t open_rows(const jb_run *run) {
    uint32_t open = 0;
    for (uint32_t row = 1; row <= run->table.n; row++) {
        open += (uint32_t)jb_is_open(run, row);
    }
    return open;
}

/* How many rows of a table have their releases below a clock, in slots. */
static uint32_t released_before(const jb_table *table, uint32_t clock) {
    uint32_t before = 0;
    for (uint32_t index = 0; index < table->n; index++) {
        before += table->release[index] < clock;
    }
    return before;
}

/* A day as far as it has come. */
typedef struct {
    request asked;         /* with the number of the sheet in hand, 0 before the first */
    const day_sheet *held; /* the sheet in hand, NULL before the first */
    jb_run run;            /* its record, all zero before the first */
} day_run;

/* The plain line of a sheet: its number, the answer's number, how many rows, which row, and the clock in slots. */
static void put_plain_sheet(const day_run *today, const day_sheet *next, uint32_t number, uint32_t count, uint32_t row) {
    if (today->asked.plain) {
        put_field(next->number);
        put_field(number);
        put_three_fields(count, row, today->run.clock);
    }
}

/* Says where a row stands when nothing more is worked. */
static void put_standing(const request *asked, const jb_run *run, uint32_t row) {
    const uint32_t got = run->got[row - 1];
    const uint32_t work = run->table.work[row - 1];
    if (asked->plain) {
        put_sheet_field(asked);
        put_field(row);
        put_field(got);
        put_three_fields(work, closing_figure(run, row), run->closing[row - 1]);
        return;
    }
    put_row(&run->table, row);
    printf(": got %" PRIu32 " of %" PRIu32 " work units", got, work);
    if (jb_is_open(run, row)) {
        fputs(", open", stdout);
        put_lateness(stdout, run, row);
    }
    put_closing(run, row, 0);
    putchar('\n');
}

/* Says that a sheet is refused and the one in hand stays, and where each row of that one stands. */
static void put_kept_record(const day_run *today, const day_sheet *next) {
    if (!today->asked.plain) {
        put_day_sheet(stdout, next);
        printf(": refused at clock %" PRIu32 "; ", today->run.clock);
        put_day_sheet(stdout, today->held);
        puts(" stays as it was");
    }
    for (uint32_t row = 1; row <= today->run.table.n; row++) {
        put_standing(&today->asked, &today->run, row);
    }
}

/* Says which sheet is refused, before the reasons and after all that was worked. */
static void name_refused(const day_sheet *next) {
    fflush(stdout);
    put_day_sheet(stderr, next);
    fputs(" is refused\n", stderr);
}

/* Says that no proposal can be made of a sheet. */
static int refuse_asking(const day_run *today, const day_sheet *next, uint32_t number, uint64_t left) {
    name_refused(next);
    put_plain_sheet(today, next, number, how_many(left), 0);
    explain_number(stderr, number, &next->file, left);
    return status_of(number);
}

/* Says that a row of the sheet in hand is open: which ones are. */
static void explain_open(const day_run *today, const day_sheet *next) {
    put_plain_sheet(today, next, JB_ROW_OPEN, open_rows(&today->run), jb_first_open(&today->run));
    put_words(stderr, JB_ROW_OPEN);
    fputs("where: ", stderr);
    put_day_sheet(stderr, today->held);
    fprintf(stderr, ", clock %" PRIu32 ":", today->run.clock);
    put_open_list(stderr, &today->run);
}

/* Says that a release of the next sheet is below the clock: the lowest row that has one, and where it stands. */
static void explain_early(const day_run *today, const day_sheet *next, const jb_table *table) {
    const uint32_t clock = today->run.clock;
    const uint32_t row = jb_first_released_before(table, clock);
    fault found = {0, 0, 0, {0}, 0};
    put_plain_sheet(today, next, JB_RELEASED_BEFORE, released_before(table, clock), row);
    put_words(stderr, JB_RELEASED_BEFORE);
    note_field(next->file.bytes, row, RELEASE_FIELD, &found);
    put_place(stderr, next->file.bytes, &found);
    fprintf(stderr, "allowed: %" PRIu32 " %s or more, from the clock on\n", clock, slots(clock));
}

/* Says that a proposal is not committed. */
static int refuse_commit(const day_run *today, const day_sheet *next, uint32_t number, const jb_table *table) {
    name_refused(next);
    if (number == JB_ROW_OPEN) {
        explain_open(today, next);
    } else if (number == JB_RELEASED_BEFORE) {
        explain_early(today, next, table);
    } else {
        put_plain_sheet(today, next, number, 0, 0);
        put_words(stderr, number);
    }
    put_remedy(stderr, number);
    return status_of(number);
}

/* Says that a sheet has taken its place. */
static void put_changed(const day_run *today, const day_sheet *next, const order_list *order) {
    put_plain_sheet(today, next, JB_OK, today->run.table.n, 0);
    if (!today->asked.plain) {
        put_day_sheet(stdout, next);
        printf(": %s at clock %" PRIu32 "\n", today->held == NULL ? "begun" : "committed", today->run.clock);
        put_order(order, today->run.table.n);
    }
}

/*
 * Asks for a sheet and puts it into the record: as a fresh one where no sheet is in hand,
 * else by a commit. Gives FINE, or a status with the reason said.
 */
static int change_sheet(day_run *today, const day_sheet *next) {
    jb_table table;
    order_list order = {{0}, 0};
    uint64_t left;
    uint32_t number = jb_ask_sheet(next->file.bytes, next->file.length, &table, order.places, &left);
    if (number != JB_OK) {
        return refuse_asking(today, next, number, left);
    }
    number = today->held == NULL ? jb_fresh_run(&table, order.places, &today->run)
                                 : jb_commit_sheet(&today->run, &table, order.places);
    if (number != JB_OK) {
        return refuse_commit(today, next, number, &table);
    }
    put_changed(today, next, &order);
    today->held = next;
    today->asked.sheet = next->number;
    return FINE;
}

/* Plays the sheets one after another on one record, up to the first that is refused. */
static int play_day(const request *asked, const day_sheet *sheets, size_t count) {
    day_run today;
    memset(&today, 0, sizeof today);
    today.asked = *asked;
    today.held = NULL;
    for (size_t index = 0; index < count; index++) {
        const day_sheet *next = &sheets[index];
        int status = change_sheet(&today, next);
        if (status != FINE && today.held != NULL) {
            put_kept_record(&today, next);
        }
        if (status == FINE) {
            status = work_supplies(&today.asked, &today.run, next->supplies, next->count);
        }
        if (status != FINE || ferror(stdout)) {
            return status;
        }
    }
    return FINE;
}

static int day(const request *asked) {
    const size_t count = sheets_of_day(asked->words, asked->count);
    day_sheet *sheets = (day_sheet *)calloc(count, sizeof *sheets);
    if (sheets == NULL) {
        return not_usable("there is no memory for %zu sheets", count);
    }
    for (size_t index = 0; index < count; index++) {
        sheets[index].number = (uint32_t)(index + 1);
    }
    int status = take_day(asked->words, asked->count, sheets);
    if (status == FINE) {
        status = play_day(asked, sheets, count);
    }
    for (size_t index = 0; index < count; index++) {
        free(sheets[index].supplies);
    }
    free(sheets);
    return status;
}

static void put_plain_fault(uint32_t number, const sheet_file *sheet, uint64_t left) {
    fault found;
    size_t begin;
    find_fault(number, sheet->bytes, sheet->length, &found);
    put_field(number);
    put_field(found.row);
    put_field(found.field);
    put_field((uint32_t)found.byte);
    put_field(found.byte == 0 ? 0 : (uint32_t)line_of(sheet->bytes, found.byte, &begin));
    putchar('\n');
    for (uint32_t row = 1; row <= JB_ROWS; row++) {
        if (is_left(left, row)) {
            put_field(row);
            putchar('\n');
        }
    }
}

static int explain(const request *asked) {
    sheet_file sheet;
    jb_table table;
    uint8_t order[JB_ROWS];
    uint64_t left;
    const int status = read_sheet(asked->words[0], &sheet);
    if (status != FINE) {
        return status;
    }
    const uint32_t number = read_and_plan(&sheet, &table, order, &left);
    if (asked->plain) {
        put_plain_fault(number, &sheet, left);
    } else if (number == JB_OK) {
        printf("number 0: nothing is wrong; the sheet has %" PRIu32 " %s and a correct order\n", table.n, rows_word(table.n));
    } else {
        explain_number(stdout, number, &sheet, left);
    }
    return status_of(number);
}

/* The number and the count of rows left, then a line for each of these: see the help of left. */
static void put_plain_left(uint32_t number, const jb_table *table, uint64_t left) {
    put_two_fields(number, how_many(left));
    for (uint32_t row = 1; row <= table->n; row++) {
        if (is_left(left, row)) {
            const row_left found = look_at_left(table, left, row);
            put_field(row);
            put_field(found.finish);
            put_field(table->deadline[row - 1]);
            put_slack(found.slack);
            put_two_fields(found.promised, found.follower);
        }
    }
}

/* Plans a sheet and says which rows are left, if any: in words on standard output, in the plain form the words as plan has them. */
static int rows_left(const request *asked) {
    sheet_file sheet;
    jb_table table;
    uint8_t order[JB_ROWS];
    uint64_t left;
    const int status = read_sheet(asked->words[0], &sheet);
    if (status != FINE) {
        return status;
    }
    const uint32_t number = read_and_plan(&sheet, &table, order, &left);
    if (status_of(number) == REFUSED) {
        return refuse_sheet(asked, number, &sheet, left);
    }
    if (asked->plain) {
        put_plain_left(number, &table, left);
        if (number == JB_NO_ORDER) {
            explain_no_order(stderr, &table, left, true);
        }
    } else if (number == JB_NO_ORDER) {
        put_left(stdout, &table, left);
    } else {
        printf("no row is left: the sheet has %" PRIu32 " %s and a correct order\n", table.n, rows_word(table.n));
    }
    return status_of(number);
}

/* ---- writing a sheet, and the rows of one ---- */

/* The file begins as a sheet does, or as one from before K: the reader finds nothing malformed in its first line. */
static bool begins_as_sheet(text_piece text) {
    return has_first_line(text.bytes, text.length) || lacks_loading(text.bytes, text.length);
}

/* Why a file is no rows file, as far as its first bytes and its length tell; NULL if they do not. */
static const char *no_rows_file(text_piece text) {
    const char *other = other_kind_of_file(text);
    if (other == NULL && begins_as_sheet(text)) {
        return "this is a sheet and not a rows file; 'jasminebrace rows SHEET' makes a rows file of it";
    }
    _Static_assert(MOST_ROWS_BYTES == 16777216, "as is said here");
    if (other == NULL && text.length > MOST_ROWS_BYTES) {
        return "the file has more than 16,777,216 bytes, which is the most that is allowed; delete the empty rows below the "
               "last row and save it again";
    }
    return other;
}

/* Takes the text of a rows file. Gives FINE, or NOT_USABLE with the reason said. */
static int take_rows_file(const char *name, text_piece text, written_table *written) {
    const char *other = no_rows_file(text);
    char place[128];
    trouble found;
    if (other != NULL) {
        return not_usable("%s: %s", name, other);
    }
    if (read_rows(text, written, &found)) {
        written->file = name;
        return FINE;
    }
    name_place(found.line, found.column, place, sizeof place);
    return not_usable("%s%s%s: %s", name, found.line == 0 ? "" : ", ", place, found.what);
}

static int load_rows_file(const char *name, written_table *written) {
    const size_t room = MOST_ROWS_BYTES + 1;
    text_piece text = {(uint8_t *)malloc(room), 0};
    if (text.bytes == NULL) {
        return not_usable("there is no memory for a rows file");
    }
    int status = read_file(name, "rows file", text.bytes, room, &text.length);
    if (status == FINE) {
        status = take_rows_file(name_of_file(name), text, written);
    }
    free(text.bytes);
    return status;
}

/* What to say besides of a word that is no figure: the first may be a rows file, and K may have been left out. */
static const char *more_on_word(size_t column, text_piece word) {
    if (column == 1 && is_text(word)) {
        return "; a rows file is given alone, without other arguments";
    }
    if (column == LOADING_COLUMN && (word.length == 0 || piece_has(word, ','))) {
        return "; K is missing: write N, G and K before the rows, K as 0 where no job loads";
    }
    return "";
}

/* Takes N, G and K from the first three words. Gives FINE, or NOT_USABLE with the reason said. */
static int take_first_words(char **words, size_t count, jb_table *table) {
    text_piece cells[TABLE_COLUMNS] = {{NULL, 0}};
    uint32_t figures[TABLE_COLUMNS];
    char what[320];
    for (size_t index = 0; index < TABLE_COLUMNS && index < count; index++) {
        const text_piece word = {(uint8_t *)words[index], strlen(words[index])};
        cells[index] = without_blanks(word);
    }
    const cell_line line = {cells, TABLE_KINDS, TABLE_COLUMNS, 0};
    const size_t wrong = read_cells(&line, figures, what, sizeof what);
    if (wrong != 0) {
        return not_usable("%s: %s%s", TABLE_KINDS[wrong - 1].name, what, more_on_word(wrong, cells[wrong - 1]));
    }
    set_first_line(table, figures);
    return FINE;
}

/*
 * Takes a row, counted from 1, from a word; without a fifth figure nothing is promised,
 * and without a sixth the row follows none. Gives FINE, or NOT_USABLE with the reason
 * said.
 */
static int take_row_word(char *word, size_t row, jb_table *table) {
    text_piece cells[ROW_COLUMNS];
    uint32_t figures[ROW_COLUMNS] = {0};
    char what[320];
    char *at = word;
    size_t columns = 1;
    for (const char *byte = word; *byte != '\0'; byte++) {
        columns += *byte == ',';
    }
    if (columns < LEVEL_COLUMN || columns > ROW_COLUMNS) {
        return not_usable("a row is release,work,deadline,level or these and promised, or these and follows: '%s'", word);
    }
    for (size_t index = 0; index < columns; index++) {
        const text_piece part = {(uint8_t *)at, strcspn(at, ",")};
        cells[index] = without_blanks(part);
        at += part.length + 1;
    }
    const cell_line line = {cells, ROW_KINDS, columns, row};
    const size_t wrong = read_cells(&line, figures, what, sizeof what);
    if (wrong != 0) {
        return not_usable("row %zu, %s: %s", row, ROW_KINDS[wrong - 1].name, what);
    }
    append_row(table, figures);
    return FINE;
}

/* Takes a table from words: N, G, K and the rows. Gives FINE, or NOT_USABLE with the reason said. */
static int take_table_words(char **words, size_t count, written_table *written) {
    memset(written, 0, sizeof *written);
    written->file = NULL;
    int status = take_first_words(words, count, &written->table);
    for (size_t index = TABLE_COLUMNS; index < count && status == FINE; index++) {
        status = take_row_word(words[index], index - TABLE_COLUMNS + 1, &written->table);
    }
    return status;
}

/* Writes the sheet of a table, or says why the archive's writer refused it. */
static int write_sheet(const written_table *written) {
    uint8_t sheet[JB_LONGEST_SHEET];
    uint32_t length;
    const uint32_t number = jb_write_table(&written->table, sheet, sizeof sheet, &length);
    if (number == JB_OK) {
        fwrite(sheet, 1, length, stdout);
    } else {
        put_words(stderr, number);
        put_refused_place(stderr, number, written);
        put_remedy(stderr, number);
    }
    return status_of(number);
}

static int sheet(const request *asked) {
    written_table written;
    const int status = asked->count == 1 ? load_rows_file(asked->words[0], &written)
                                         : take_table_words(asked->words, asked->count, &written);
    return status == FINE ? write_sheet(&written) : status;
}

/* The rows file has no plain form, so that a refusal puts nothing on standard output. */
static int rows(const request *asked) {
    sheet_file sheet;
    jb_table table;
    request in_words = *asked;
    in_words.plain = false;
    const int status = load_table(&in_words, &sheet, &table);
    if (status == FINE) {
        put_rows(stdout, &table);
    }
    return status;
}

/* ---- verdicts back from their sentences ---- */

enum {
    CARRIAGE_RETURN = 13,
    SENTENCE_ROOM = JB_LONGEST_SENTENCE + 3 /* bytes of a sentence's file that are looked at: a sentence, 13 and 10, and one more */
};

/* How many bytes stand before the line end at their end: byte 10, or 13 and 10. All, if there is none. */
static size_t without_line_end(const uint8_t *bytes, size_t length) {
    if (length == 0 || bytes[length - 1] != LINE_END) {
        return length;
    }
    return length > 1 && bytes[length - 2] == CARRIAGE_RETURN ? length - 2 : length - 1;
}

/* Where bytes can be seen to be no sentence without reading it: no bytes, a second line, too many, no full stop. Bytes count from 1. */
static void put_sentence_fault(FILE *to, const uint8_t *bytes, size_t length) {
    const uint8_t *end = length == 0 ? NULL : (const uint8_t *)memchr(bytes, LINE_END, length);
    char name[64];
    if (length == 0) {
        fputs("where: there are no bytes, or a line end alone\n", to);
    } else if (end != NULL) {
        fprintf(to, "where: byte %zu: a line end (byte 10), and more after it\n", (size_t)(end - bytes) + 1);
    } else if (length > JB_LONGEST_SENTENCE) {
        fprintf(to, "where: byte %d: no sentence has so many bytes\n", JB_LONGEST_SENTENCE + 1);
    } else if (bytes[length - 1] != '.') {
        name_byte(bytes, length, length - 1, name, sizeof name);
        fprintf(to, "where: byte %zu: %s where the full stop belongs, at the end\n", length, name);
    }
}

/* Says what would be a sentence: what plan and judge print first. */
static void put_right_sentences(FILE *to) {
    static const uint8_t order[JB_ROWS] = {2, 1};
    uint8_t line[JB_LONGEST_SENTENCE];
    uint32_t length;
    jb_write_plan(JB_OK, 0, order, 3, line, sizeof line, &length);
    fprintf(to, "right: the first line of plan, as: %.*s\n", (int)length, (const char *)line);
    jb_write_verdict(JB_OK, 0, 2, -10, line, sizeof line, &length);
    fprintf(to, "right: the first line of judge, as: %.*s\n", (int)length, (const char *)line);
}

static void explain_no_sentence(FILE *to, const uint8_t *bytes, size_t length) {
    put_words(to, JB_MALFORMED);
    put_sentence_fault(to, bytes, length);
    put_right_sentences(to);
    put_remedy(to, JB_MALFORMED);
}

/* How many rows in the order a sentence tells: up to the last number that is not 0 (rule 24.4). */
static uint32_t rows_in_order(const uint8_t order[JB_ROWS]) {
    uint32_t places = JB_ROWS;
    while (places > 0 && order[places - 1] == 0) {
        places--;
    }
    return places;
}

/* The figures of an answer in one line with spaces between: see the help. */
static void put_plain_answer(uint32_t number, const jb_answer *told) {
    const uint32_t places = rows_in_order(told->order);
    printf("%" PRIu32 " %" PRIu32 " %" PRIu32 " %" PRIu32 " %" PRIu32 " %" PRIu32 " %" PRId32, number, told->kind, told->number,
           told->trials, told->yes, told->row, told->slack);
    printf(" %" PRIu32 " %" PRIu32, places, how_many(told->left));
    for (uint32_t place = 0; place < places; place++) {
        printf(" %u", (unsigned)told->order[place]);
    }
    put_rows_left(stdout, told->left);
}

/* What the planner's answer has besides its number. */
static void put_planners_figures(const jb_answer *told) {
    const uint32_t places = rows_in_order(told->order);
    const uint32_t left = how_many(told->left);
    printf("trials made: %" PRIu32 " %s\n", told->trials, trials(told->trials));
    printf("order: %" PRIu32 " %s%s", places, rows_word(places), places == 0 ? "" : ", highest first:");
    for (uint32_t place = 0; place < places; place++) {
        printf(" %u", (unsigned)told->order[place]);
    }
    printf("\nrows left: %" PRIu32 " %s%s", left, rows_word(left), left == 0 ? "" : ":");
    put_rows_left(stdout, told->left);
}

/* What the judge's answer has besides its number. */
static void put_judges_figures(const jb_answer *told) {
    printf("correct: ");
    if (told->yes <= 1) {
        puts(told->yes == 1 ? "yes" : "no");
    } else {
        printf("%" PRIu32 ", neither yes (1) nor no (0)\n", told->yes);
    }
    printf("tightest row: %" PRIu32 "\n", told->row);
    printf("slack: %" PRId32 " %s\n", told->slack, slots(told->slack));
}

static void put_answer(const jb_answer *told) {
    printf("answer of: the %s\n", told->kind == JB_PLANNER ? "planner" : "judge");
    put_words(stdout, told->number);
    if (told->kind == JB_PLANNER) {
        put_planners_figures(told);
    } else {
        put_judges_figures(told);
    }
}

/* Reads the answer that a sentence tells, from a file that has it alone, with one line end after it or none. */
static int read_sentence(const request *asked) {
    uint8_t bytes[SENTENCE_ROOM];
    size_t length;
    jb_answer told;
    const int status = read_file(asked->words[0], "sentence's file", bytes, sizeof bytes, &length);
    if (status != FINE) {
        return status;
    }
    const size_t held = without_line_end(bytes, length);
    const uint32_t number = jb_read_answer(bytes, held, &told);
    if (asked->plain) {
        put_plain_answer(number, &told);
    } else if (number == JB_OK) {
        put_answer(&told);
    }
    if (number != JB_OK) {
        explain_no_sentence(stderr, bytes, held);
    }
    return status_of(number);
}

/* ---- help and the command line ---- */

typedef struct {
    const char *name;
    int (*does)(const request *);
    size_t least; /* fewest arguments */
    size_t most;  /* most arguments, 0 for any number */
    const char *usage;
    const char *other; /* another form of it, or NULL */
    const char *help;
} command;

static const char PLAN_HELP[] =
    "makes a correct order, highest place first, with the slack of each row in slots\n"
    "\n"
    "The first line is the planner's answer as a sentence: its number and what that means,\n"
    "the trials made, the rows in the order, highest first, and the rows left. It stands\n"
    "there for a refusal too, and read-sentence gives its figures back. After an order comes\n"
    "a line for each place.\n"
    "\n"
    "A row's slack is its deadline less its worst finish: its finish when every slot\n"
    "supplies exactly N (LO row) or exactly G (HI row) work units. Of a LO row with a\n"
    "promised part it is no more than its deadline less the clock at which the row has\n"
    "got that part when every slot supplies exactly G. Plans do not count on LO rows\n"
    "being dropped at their deadlines, as run drops them: for correct orders and worst\n"
    "finishes late rows go on. So where the answer is 7, an order may still serve, only\n"
    "because late LO rows are dropped; such orders are not looked for. A row that follows\n"
    "another stands below it, and orders in which it does not are not looked for either:\n"
    "beside a 7 it is said whether there is a correct order without such waits, but not\n"
    "with --ceiling: it takes trials of its own to find out.\n"
    "\n"
    "--ceiling: no more than TRIALS trials are made, 0 to 4294967295; if it is given more\n"
    "than once, the last one counts. A trial is counted for\n"
    "each row that is tried at a place; places are filled from the lowest up, and at each\n"
    "rows are tried until one passes. A row that another one without a place follows is\n"
    "skipped there and counts none. If the sheet\n"
    "takes more trials, the answer is 19: it says neither that a correct order exists nor\n"
    "that none does. A sheet of n rows takes at most n * (n + 1) / 2 trials, 2,080 trials\n"
    "with 64 rows: at that ceiling the answer is never 19, and an answer of 0 or 7 is the\n"
    "same at every ceiling that gives one, and without a ceiling.\n"
    "\n"
    "--plain: what the planning program writes. First line: 0 and the row count, or\n"
    "a refusal's number and the count of rows left, which is 0 but for 7. After 0 a\n"
    "line for each place: place, row, slack in slots. With --ceiling the first line has a\n"
    "third field: the trials made, which is the ceiling after 19 and 0 after a number other\n"
    "than 0, 7 and 19.\n";

static const char LEFT_HELP[] =
    "says which rows are left where no order is correct, and how many slots each is short\n"
    "\n"
    "The sheet is planned. If it has a correct order, no row is left, and the status is 0.\n"
    "Where plan answers 7 the status is 1, and a line for each row left has its slack, in\n"
    "slots, with all other rows left above it: how many slots it is short then, or has to\n"
    "spare. Waits are left out of that figure. A row that other rows left follow cannot stand\n"
    "lowest among them, with any slack; every row that has slots to spare is such a row, and\n"
    "the rows that follow it are named. Where a promised part comes later than the worst\n"
    "finish, and so decides, that is said too.\n"
    "As long as all rows left stay as they are, with N, G and K, no order is correct, whatever\n"
    "is done with other rows, and whatever rows are added; the other rows alone, if there are\n"
    "any, have a correct order. So at least one row left has to go or to change, or N, G or K.\n"
    "It is not said which one, nor that one is enough, nor that all of them have to: that a row\n"
    "is short by few slots, or that a row follows it, does not make it the one to cut.\n"
    "\n"
    "--plain: first line: 0 and 0, or a refusal's number and the count of rows left, which is 0\n"
    "but for 7. After 7 a line for each row left, as finishes has it, with one field more: row,\n"
    "worst finish in slots, deadline in slots, slack in slots if it is above 0, slots by which\n"
    "it is below 0, clock of the promised part in slots (0 where nothing is promised), the\n"
    "lowest row left that follows it (0 for none). The words of plan go to standard error.\n";

static const char JUDGE_HELP[] =
    "says whether an order is correct, the row of least slack and that slack in slots\n"
    "\n"
    "ROW.. is the order: row numbers, highest place first, with spaces or commas\n"
    "between them. On a tie the lower row is named. An order in which a row stands above\n"
    "the one that it follows is refused with 6, and that row is named.\n"
    "\n"
    "The first line is the judge's answer as a sentence: yes or no, its number and what that\n"
    "means, the tightest row, which is that of least slack, and its slack in slots. It stands\n"
    "there for a refusal too, and read-sentence gives its figures back. After a verdict a line\n"
    "says the level of that row, and which row it follows, if it follows one.\n"
    "\n"
    "--plain: one line: 0, yes as 1 or no as 0, row of least slack, that slack in slots if\n"
    "it is above 0, and the slots by which it is below 0 (at least one of these two is\n"
    "0). A refusal is a line of its number and 0.\n";

static const char FINISHES_HELP[] =
    "says each row's worst finish and slack in slots, and when it has its promised part\n"
    "\n"
    "ROW.. is the order as for judge; without it the planned order is taken. In worst\n"
    "finishes late LO rows go on; in a run they are dropped at their deadlines. The\n"
    "promised part of a LO row is there, at the latest, at the clock named beside it:\n"
    "the first at which the row has got it when every slot supplies exactly G.\n"
    "\n"
    "--plain: first line: 0 and the row count, or a refusal's number and the count of\n"
    "rows left, 0 but for 7. After 0 a line for each row: row, worst finish in\n"
    "slots, deadline in slots, slack in slots if it is above 0, slots by which it is\n"
    "below 0, clock of the promised part in slots (0 where nothing is promised).\n";

_Static_assert(JB_FIGURE == 10 && JB_PLACE_LINE == 51 && JB_TOTALS_LINE == 21, "as the heading and the help of report say");
static const char REPORT_HELP[] =
    "lists every job under an order, with its need, worst finish and slack in slots\n"
    "\n"
    "ROW.. is the order as for judge; without it the planned order is taken. A line for\n"
    "each place, highest first: place, row, the row's need at N in slots (K, and its work\n"
    "at N rounded up), its worst finish in slots, its slack in slots as plan has it, with\n"
    "the promised part. Then a last line:\n"
    "the needs of all rows added up, in slots, and how many rows have a slack below 0\n"
    "slots. That count is 0 rows exactly if the order is correct; any order is listed,\n"
    "with status 0. The heading names each column and its unit.\n"
    "\n"
    "--plain: the report's bytes alone, without the heading, as the archive wrote them:\n"
    "each figure in 10 columns, a minus right before its first digit, byte 10 at each\n"
    "line's end; 51 bytes for each row and 21 bytes for the last line. A refusal is a\n"
    "line of its number and the count of rows left, which is 0 but for 7, each in a\n"
    "field of 8 bytes.\n";

_Static_assert(JB_MOST_COUNTED == 12 && JB_SCRATCH == 4096, "as the help of count says");
static const char COUNT_HELP[] =
    "says how many orders of a sheet are correct, and which rows stand lowest in them\n"
    "\n"
    "The n rows of a sheet can be arranged in n * (n - 1) * ... * 1 ways, 24 for 4 rows and\n"
    "479001600 for 12. The first line says how many of these arrangements are correct orders,\n"
    "in which every row stands below the one that it follows: those to which judge says yes.\n"
    "The order that plan makes is one of them. Then a line for each row: in how many of the\n"
    "correct orders it stands lowest; together these are all of them. Few correct orders tell\n"
    "of a tight sheet; with 1 there is nothing to choose. With 0 the status is 1, as where\n"
    "plan answers 7, and plan says which rows are left. Orders that would serve only because\n"
    "runs drop LO rows at their deadlines are not counted.\n"
    "A sheet of more than 12 rows is refused with 20, which says nothing of its orders; it may\n"
    "be planned and judged all the same.\n"
    "\n"
    "--plain: each figure in 10 columns. First line: 0, the row count, the count of correct\n"
    "orders, that of arrangements; or a refusal's number and three times 0. After 0 a line\n"
    "for each row: row, in how many correct orders it stands lowest.\n";

static const char SPEEDS_HELP[] =
    "says the least degraded and the least normal speed at which a correct order exists\n"
    "\n"
    "First the least G from 1 to N, with N as it is, then the least N from G to 1,000,\n"
    "with G as it is, in work units per slot; after each the planner's order at that\n"
    "speed, highest place first, with the slack of each row in slots. At every larger\n"
    "speed of the range that order is correct too, and at every smaller one none is. Each\n"
    "answer holds with the other speed as the sheet states it: the two least speeds\n"
    "together may have no correct order. What the sheet states as the speed sought must be\n"
    "within its limits and does not matter otherwise. Correct is meant as for plan, with\n"
    "late rows going on. Status 1 if no speed of one range, or of both, has a correct\n"
    "order: that is said on standard output, and the rows left are then those at the\n"
    "largest speed of the range.\n"
    "\n"
    "--slacks: for one order the judge's verdict at each G from 1 to N: correct or not, the\n"
    "row of least slack (the lower row on a tie) and that slack in slots. ROW.. is the\n"
    "order as for judge; without it the order at the least G is taken. Any order is\n"
    "listed, with status 0.\n"
    "\n"
    "--plain: for G and then for N a first line: 0, the speed in work units per slot and\n"
    "the row count, or a refusal's number, 0 and 0. After 0 a line for each place: place,\n"
    "row, slack in slots. A sheet that is refused gives its number in both first lines.\n"
    "With --slacks: first line: 0 and the row count, or a refusal's number and the count\n"
    "of rows left, 0 but for 7. After 0 a line for each place: place, row. Then a line\n"
    "for each G: G in work units per slot, row of least slack, that slack in slots if it is\n"
    "above 0, slots by which it is below 0.\n";

static const char RUN_HELP[] =
    "works a run, one slot for each supply, and says what each slot did\n"
    "\n"
    "SUPPLY is what a slot supplies in work units, 0 to 4294967295, or COUNTxSUPPLY\n"
    "for as many slots, as 1000x5. --order gives an order of the sheet's rows, correct\n"
    "or not; without it the planned order is taken. --stretches says a line for each\n"
    "stretch of slots in which the same row runs, or none, and not one for each slot.\n"
    "The first K slots that a row runs are its loading slots, which bring no work; a\n"
    "row that was preempted does not load again. A loading slot is named as one, and a\n"
    "stretch says how many of its slots are loading: they are its first ones.\n"
    "A row closes when it is done (all its work got) or dropped. A LO row is dropped if\n"
    "it is not done when its allowance is used up (its need at N, or that of its promised\n"
    "part at G if this is larger), or when the clock reaches its deadline; what the slot\n"
    "right before its deadline brings still counts. Where\n"
    "another row runs in that slot, the drop has a line of its own, 'at clock ..',\n"
    "after that of the slot or of the stretch. A HI row goes on until it is done, late\n"
    "if that is after its deadline.\n"
    "Of a row with a promised part the clock is named at which it got that part, and when\n"
    "it is dropped, whether it has got it. A row that follows another does not run before\n"
    "that one has closed, done or dropped; of rows still open at the end it is said for\n"
    "which row they wait.\n"
    "The clock ends at 2,000,000 slots: a supply beyond that is refused with 8.\n"
    "\n"
    "--plain: first line: 0 and the row count, or a refusal's number and the count of\n"
    "rows left, 0 but for 7. After 0 a line for each slot: slot, row run (0 for\n"
    "none), work units that the row has got, its work in work units, how it closed: 0\n"
    "not closed, 1 done, 2 dropped with its slots used up, 3 done late, 4 dropped at\n"
    "its deadline; loading slots: 1 if the slot is one, else 0; the clock in slots at which\n"
    "the row got its promised part, 0 if not in this slot. With --stretches a line\n"
    "for each stretch: first slot, number of slots, row (0 for none), how it closed at\n"
    "the end of the stretch, loading slots in it, the clock at which the row got its\n"
    "promised part, 0 if not in this stretch. A 5 for how it closed marks a line of\n"
    "a row that did not run: it was dropped at its deadline while another row ran, at\n"
    "the end of the slot; with --stretches the line has its deadline as first slot and\n"
    "0 as number of slots. Supplies are not repeated; some would not fit in 8 bytes.\n";

static const char DAY_HELP[] =
    "plays several sheets on one clock, each in its turn, and says what each slot did\n"
    "\n"
    "The first sheet is planned and begun at clock 0; its slots have the supplies after it,\n"
    "given as for run. At the word 'then' the next sheet is asked for (read and planned) and\n"
    "committed: it takes the place of the sheet before, and the clock goes on. So every row\n"
    "of the sheet before has to be closed by then, done or dropped, and the new releases and\n"
    "deadlines are in slots of the one clock: a release at the clock of the commit is taken,\n"
    "one below it is not. Slots, stretches, and rows that are open at the end are said as by\n"
    "run.\n"
    "A sheet that is refused ends the day: with the number of the reader or of the planner,\n"
    "explained as for plan, with 17 if rows are still open, or with 18 if a release is below\n"
    "the clock; and a supply at clock 2,000,000 slots with 8. What was worked stays, and it is said where each row of the sheet before\n"
    "stands. Files and supplies are looked at before the first slot.\n"
    "\n"
    "--plain: lines of fixed fields, of which the first is the number of the sheet, from 1.\n"
    "A line of 5 fields for each sheet: its number, 0 or a refusal's number, a count of rows,\n"
    "a row, the clock in slots. After 0 the count is the row count and the row is 0; after 7\n"
    "it is that of the rows left; after 17 that of the open rows and the lowest of them; after\n"
    "18 that of the rows with a release below the clock and the lowest of them; else both are\n"
    "0. Then a line of 8 fields for each slot, or with --stretches of 7 fields for each\n"
    "stretch: the sheet's number and the fields of run --plain. After a refusal a line of 6\n"
    "fields for each row of the sheet before: that sheet's number, the row, work units that it\n"
    "has got, its work in work units, how it closed as for run, its closing slot (0 if it is\n"
    "open).\n";

static const char EXPLAIN_HELP[] =
    "says what is wrong with a sheet, where, and what to do about it\n"
    "\n"
    "The place is found by asking the proved reader about parts of the sheet. One\n"
    "fault is named, that of the reader's number; others may show when it is mended.\n"
    "\n"
    "--plain: one line: number, row (0 for the first line or none), field from 1 (the\n"
    "line end counts as the field after the last; 0 for none), byte of the sheet from\n"
    "1 (0 for none), line of that byte. After 7 a line for each row left: row.\n";

static const char SHEET_HELP[] =
    "writes the sheet of a rows file, or of rows as words, by the proved writer\n"
    "\n"
    "ROWS.csv is a rows file, or - for standard input: what jasminebrace rows writes,\n"
    "and what a spreadsheet program saves of it as CSV, with commas:\n"
    "\n"
    "  normal speed N (work units per slot),degraded speed G (work units per slot),loading K (slots),,,\n"
    "  5,2,0,,,\n"
    "  release (slots),work (work units),deadline (slots),level (HI or LO),promised (work units),follows (row or 0)\n"
    "  0,20,10,HI,0,0\n"
    "  5,15,10,LO,4,1\n"
    "\n"
    "The headings stay as they are, upper or lower case; they say the order of the\n"
    "columns and their units. A figure is a whole number with digits alone: no sign,\n"
    "point, comma or zero before it. A level is HI or LO, or 1 or 0. Cells may stand in\n"
    "double quotes with blanks around; lines may end with LF, CR LF or CR; a UTF-8 byte\n"
    "order mark and empty cells and lines at the end do no harm. In a file without the last\n"
    "column, from before rows could follow rows, no row follows another; in one without\n"
    "the last two, from before there were promised parts, none is promised either. There is\n"
    "no row count: a file that is cut off at a line end is taken as fewer rows. A file may\n"
    "have up to 16,777,216 bytes.\n"
    "\n"
    "Without a file: N and G are the normal and the degraded speed in work units per\n"
    "slot, K is the loading of each job in slots, 0 where no job loads; RELEASE and\n"
    "DEADLINE are in slots, WORK and PROMISED in work units, LEVEL is as above. PROMISED\n"
    "is the part of a LO job's work that it is to have at its deadline whenever every slot\n"
    "supplies at least G; it may be left out, and is 0 then, as on every HI job. FOLLOWS is\n"
    "the row that has to be closed before this one runs: a row above it, released no later,\n"
    "and HI if this one is. It is 0 for none, and may be left out then. Rows count from 1\n"
    "as they are given, in a rows file from line 4 on: where rows are moved, inserted or\n"
    "deleted, these figures have to be changed with them.\n"
    "\n"
    "What cannot be taken for a figure, a level or a heading ends with status 3, what\n"
    "the archive refuses with status 2; both name the place and what is allowed.\n"
    "--plain changes nothing: a sheet has no words in it.\n";

static const char ROWS_HELP[] =
    "writes the rows of a sheet as comma-separated text for a spreadsheet program\n"
    "\n"
    "The first line has the headings of the speeds and of the loading, the second N, G\n"
    "and K, the third the headings of the rows, all with their units; then a line for\n"
    "each row. From this text jasminebrace sheet makes the same sheet again.\n"
    "\n"
    "--plain changes nothing: there is one form.\n";

static const char READ_SENTENCE_HELP[] =
    "gives the figures of a verdict back that plan or judge has told as a sentence\n"
    "\n"
    "FILE has the sentence alone, which is the first line of plan or judge, with one line\n"
    "end after it (byte 10, or bytes 13 and 10) or none. A line for each figure: whose answer\n"
    "it is, its number and what that means; of the planner the trials made, the rows in\n"
    "the order, highest first, and the rows left; of the judge yes or no, the tightest row\n"
    "and its slack in slots. Every sentence is read as the answer that it was made of,\n"
    "whatever that is: the status is 0, also where the answer that is told is a refusal or a\n"
    "no. All other bytes are refused with 2: two sentences, a space too many, a figure with a\n"
    "zero before it, a list that is cut off. What is read is what was written, and it is not\n"
    "looked at whether a planner or a judge would answer so.\n"
    "\n"
    "--plain: one line of decimal figures, one space between each two: 0 or 2 for the\n"
    "sentence, the kind (1 planner, 2 judge), the answer's number, trials, yes as 1 or no as\n"
    "0, tightest row, its slack in slots with a minus if it is below 0, count of rows in the\n"
    "order, count of rows left, then the rows in the order, highest first, then the rows left,\n"
    "lowest first. Figures that the other kind has are 0; after 2 all of them are.\n";

static const command COMMANDS[] = {
    {"plan", plan, 1, 1, "plan SHEET", "plan --ceiling TRIALS SHEET", PLAN_HELP},
    {"left", rows_left, 1, 1, "left SHEET", NULL, LEFT_HELP},
    {"judge", judge, 2, 0, "judge SHEET ROW..", NULL, JUDGE_HELP},
    {"finishes", finishes, 1, 0, "finishes SHEET [ROW..]", NULL, FINISHES_HELP},
    {"report", report, 1, 0, "report SHEET [ROW..]", NULL, REPORT_HELP},
    {"count", count_orders, 1, 1, "count SHEET", NULL, COUNT_HELP},
    {"speeds", speeds, 1, 0, "speeds {SHEET | --slacks SHEET [ROW..]}", NULL, SPEEDS_HELP},
    {"run", run, 2, 0, "run SHEET [--order ROW,ROW..] [--stretches] SUPPLY..", NULL, RUN_HELP},
    {"day", day, 2, 0, "day [--stretches] SHEET SUPPLY.. [then SHEET SUPPLY..]..", NULL, DAY_HELP},
    {"explain", explain, 1, 1, "explain SHEET", NULL, EXPLAIN_HELP},
    {"sheet", sheet, 1, 0, "sheet {ROWS.csv | N G K RELEASE,WORK,DEADLINE,LEVEL[,PROMISED[,FOLLOWS]]..}", NULL, SHEET_HELP},
    {"rows", rows, 1, 1, "rows SHEET", NULL, ROWS_HELP},
    {"read-sentence", read_sentence, 1, 1, "read-sentence FILE", NULL, READ_SENTENCE_HELP},
};
enum { COMMAND_COUNT = sizeof COMMANDS / sizeof COMMANDS[0] };

static const command *command_named(const char *name) {
    for (size_t index = 0; index < COMMAND_COUNT; index++) {
        if (strcmp(COMMANDS[index].name, name) == 0) {
            return &COMMANDS[index];
        }
    }
    return NULL;
}

/* The forms of a command, a line for each: the first after these words, the other one below it. */
static void put_forms(FILE *to, const char *before, const command *of) {
    fprintf(to, "%sjasminebrace %s\n", before, of->usage);
    if (of->other != NULL) {
        fprintf(to, "%*sjasminebrace %s\n", (int)strlen(before), "", of->other);
    }
}

static void put_usage(FILE *to) {
    fputs("usage: jasminebrace COMMAND [--plain] ARGUMENTS\n\n", to);
    for (size_t index = 0; index < COMMAND_COUNT; index++) {
        const int length = (int)strcspn(COMMANDS[index].help, "\n");
        put_forms(to, "  ", &COMMANDS[index]);
        fprintf(to, "      %.*s\n", length, COMMANDS[index].help);
    }
    fputs("\n  jasminebrace COMMAND --help\n      says more of a command, and the fields of its --plain form\n", to);
}

static int put_help(const command *of) {
    if (of != NULL) {
        put_forms(stdout, "usage: ", of);
        printf("\n%s %s", of->name, of->help);
        if (of->does == explain) {
            for (uint32_t number = JB_LENGTH; number <= JB_LAST_NUMBER; number++) {
                printf("\nnumber %" PRIu32 ": %s\nremedy: %s\n", number, jb_words(number), jb_remedy(number));
            }
        }
        return FINE;
    }
    put_usage(stdout);
    fputs("\nSHEET, ROWS.csv and FILE are files, or - for standard input. --plain writes\n"
          "figures alone, each in a field of 8 bytes (those of a report and of count in 10\n"
          "columns, those of a sentence with a space between), for scripts. What was asked for\n"
          "goes to standard output, the explanation of a refusal to standard error (that of\n"
          "explain to standard output). plan and judge tell a refusal as a sentence besides, on\n"
          "standard output.\n"
          "\n"
          "Exit status: 0 an order, or yes, or done; 1 no correct order exists (number 7; for\n"
          "speeds: at no speed of a range; for count: a count of 0), or no; 2 refused by another\n"
          "number; 3 cannot be used (arguments, a file, standard output, a missing tool).\n",
          stdout);
    return FINE;
}

static int bad_usage(const command *of) {
    if (of == NULL) {
        put_usage(stderr);
    } else {
        put_forms(stderr, "usage: ", of);
    }
    return NOT_USABLE;
}

/* What the options on a command line said, before it is known whether they fit. */
typedef struct {
    bool help;
    bool version;
    const command *of;
    request asked;
} command_line;

/* Takes a ceiling, in trials. Gives FINE, or NOT_USABLE with the reason said. */
static int take_ceiling(request *asked, const char *word) {
    const char *at = word;
    asked->limited = true;
    if (!read_number(&at, "", UINT32_MAX, &asked->ceiling)) {
        return not_usable("--ceiling: not a number of trials from 0 to 4294967295: '%s'", word);
    }
    return FINE;
}

/* Takes one option. Gives FINE, or NOT_USABLE with the reason said. */
static int take_option(command_line *line, const char *option, const char *next, bool *took_next) {
    const char *const order = "--order";
    const char *const ceiling = "--ceiling";
    *took_next = false;
    if (strcmp(option, "--help") == 0 || strcmp(option, "-h") == 0) {
        line->help = true;
    } else if (strcmp(option, "--version") == 0) {
        line->version = true;
    } else if (strcmp(option, "--plain") == 0) {
        line->asked.plain = true;
    } else if (strcmp(option, "--stretches") == 0) {
        line->asked.stretches = true;
    } else if (strcmp(option, "--slacks") == 0) {
        line->asked.slacks = true;
    } else if (strcmp(option, order) == 0) {
        if (next == NULL) {
            return not_usable("--order needs row numbers with commas between");
        }
        line->asked.order = next;
        *took_next = true;
    } else if (strncmp(option, "--order=", strlen("--order=")) == 0) {
        line->asked.order = option + strlen("--order=");
    } else if (strcmp(option, ceiling) == 0) {
        if (next == NULL) {
            return not_usable("--ceiling needs a number of trials");
        }
        *took_next = true;
        return take_ceiling(&line->asked, next);
    } else if (strncmp(option, "--ceiling=", strlen("--ceiling=")) == 0) {
        return take_ceiling(&line->asked, option + strlen("--ceiling="));
    } else {
        return not_usable("unknown option: '%s'", option);
    }
    return FINE;
}

/* Sorts the words of a command line into the command, its options and its arguments. */
static int take_line(command_line *line, int count, char **words) {
    bool options = true;
    for (int index = 1; index < count; index++) {
        char *word = words[index];
        if (options && strcmp(word, "--") == 0) {
            options = false;
        } else if (options && (strncmp(word, "--", 2) == 0 || strcmp(word, "-h") == 0)) {
            bool took_next;
            const int status = take_option(line, word, index + 1 < count ? words[index + 1] : NULL, &took_next);
            if (status != FINE) {
                return status;
            }
            index += took_next;
        } else if (line->of == NULL) {
            line->of = command_named(word);
            if (line->of == NULL) {
                not_usable("unknown command: '%s'", word);
                return bad_usage(NULL);
            }
        } else {
            line->asked.words[line->asked.count++] = word;
        }
    }
    return FINE;
}

static int do_line(const command_line *line) {
    const command *of = line->of;
    const size_t given = line->asked.count;
    if (line->help) {
        return put_help(of);
    }
    if (line->version) {
        printf("jasminebrace, interface %" PRIu32 "\n", jb_version());
        return FINE;
    }
    if (of == NULL) {
        not_usable("a command is missing");
        return bad_usage(NULL);
    }
    if (of->does != run && line->asked.order != NULL) {
        not_usable("--order belongs to run");
        return bad_usage(of);
    }
    if (of->does != run && of->does != day && line->asked.stretches) {
        not_usable("--stretches belongs to run and day");
        return bad_usage(of);
    }
    if (of->does != speeds && line->asked.slacks) {
        not_usable("--slacks belongs to speeds");
        return bad_usage(of);
    }
    if (of->does != plan && line->asked.limited) {
        not_usable("--ceiling belongs to plan");
        return bad_usage(of);
    }
    /* Without --slacks speeds takes no order. */
    const size_t most = of->does == speeds && !line->asked.slacks ? 1 : of->most;
    if (given < of->least || (most != 0 && given > most)) {
        not_usable("%s takes %s%zu %s; %zu given", of->name, most == 0 ? "at least " : "", of->least,
                   of->least == 1 ? "argument" : "arguments", given);
        return bad_usage(of);
    }
    return of->does(&line->asked);
}

int main(int count, char **words) {
    command_line line = {false, false, NULL, {false, false, false, 0, false, 0, NULL, NULL, 0}};
    if (!jb_fits()) {
        return not_usable("the archive has interface %" PRIu32 " and this program was compiled for %u", jb_version(),
                          JB_VERSION);
    }
    line.asked.words = (char **)calloc((size_t)count + 1, sizeof *line.asked.words);
    if (line.asked.words == NULL) {
        return not_usable("there is no memory for the arguments");
    }
    int status = take_line(&line, count, words);
    if (status == FINE) {
        status = do_line(&line);
    }
    free(line.asked.words);
    errno = 0;
    if (fflush(stdout) != 0 || ferror(stdout)) {
        return not_usable("standard output cannot be written%s%s", errno == 0 ? "" : ": ",
                          errno == 0 ? "" : strerror(errno));
    }
    return status;
}
