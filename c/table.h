/*
 * Tables as their authors write them: in a rows file, which spreadsheet programs
 * open and save, or as words on a command line. Included by c/command.c alone.
 *
 * It knows the form of both. It refuses what is no figure, level or heading, a
 * figure with a zero before its other digits or above 4,294,967,295, and cells
 * and lines that do not belong there. All other figures go to the archive as they
 * are, which alone checks limits; rows after the 64th are read and counted, and
 * the archive gets the count, which it refuses. Which figure made its writer
 * refuse a table is found by asking it about tables of one row that are right but
 * for one figure, and which followed row by asking about the table with no other one.
 *
 * What is said to be allowed is put together here: the largest figures are the
 * header's limits; the smallest ones, the levels, and which figure of a line
 * limits which other one are written in the tables of columns below.
 */
#ifndef JASMINEBRACE_TABLE_H
#define JASMINEBRACE_TABLE_H

#include "csv.h"
#include "jasminebrace.h"

#include <stdarg.h>

enum {
    MOST_ROWS_BYTES = 16 << 20, /* longest rows file that is looked at, in bytes: spreadsheet programs save as many as
                                   1,048,576 empty lines below the last row */
    TABLE_COLUMNS = 3,     /* of what counts for all rows: N, G and K */
    LOADING_COLUMN = 3,    /* that of K, from 1 */
    ROW_COLUMNS = 6,
    LEVEL_COLUMN = 4,      /* the last in files from before promised parts */
    PROMISED_COLUMN = 5,   /* the last in files from before rows could follow rows */
    FOLLOWS_COLUMN = 6,
    TABLE_HEADINGS_LINE = 1,
    TABLE_LINE = 2,
    ROW_HEADINGS_LINE = 3, /* row i stands i lines below it: empty lines are taken at the end alone */
    SHOWN = 64,            /* bytes for a cell's text in a message */
    ALLOWED = 96,          /* bytes for the words on what is allowed */
    WHY = 96               /* bytes for the words on why a figure is refused */
};

/* How another figure of the same line limits those of a column. */
typedef enum { NOT_LIMITED, BELOW_IT, UP_TO_IT, ABOVE_IT } limited_by;

/* What a column of a rows file holds: figures with a unit, such that HI rows have 0 there, levels, or numbers of rows above. */
typedef enum { FIGURES, FIGURES_OF_LOW_ROWS, LEVELS, ROWS_ABOVE } column_holds;

/* What stands in a column of a rows file. */
typedef struct {
    const char *heading;
    const char *name;
    column_holds holds;
    const char *unit;    /* of its figures; NULL for levels and row numbers */
    uint32_t least;      /* smallest figure that the archive takes there */
    uint32_t most;       /* largest figure that it takes there */
    limited_by limit;    /* how another figure of the line limits it */
    size_t other;        /* column of that figure, from 1; 0 where there is none */
    const char *limited; /* how it does, in words */
} column_kind;

static const column_kind TABLE_KINDS[TABLE_COLUMNS] = {
    {"normal speed N (work units per slot)", "normal speed N", FIGURES, "work units per slot", 1, JB_MOST_SPEED, NOT_LIMITED, 0,
     ""},
    {"degraded speed G (work units per slot)", "degraded speed G", FIGURES, "work units per slot", 1, JB_MOST_SPEED, UP_TO_IT, 1,
     ", at most N"},
    {"loading K (slots)", "loading K", FIGURES, "slots", 0, JB_MOST_LOADING, NOT_LIMITED, 0, ""},
};
static const column_kind ROW_KINDS[ROW_COLUMNS] = {
    {"release (slots)", "release", FIGURES, "slots", 0, JB_LAST_DEADLINE - 1, BELOW_IT, 3, ", below the deadline"},
    {"work (work units)", "work", FIGURES, "work units", 1, JB_MOST_WORK, NOT_LIMITED, 0, ""},
    {"deadline (slots)", "deadline", FIGURES, "slots", 1, JB_LAST_DEADLINE, ABOVE_IT, 1, ", above the release"},
    {"level (HI or LO)", "level", LEVELS, NULL, JB_LO, JB_HI, NOT_LIMITED, 0, ""},
    {"promised (work units)", "promised part", FIGURES_OF_LOW_ROWS, "work units", 0, JB_MOST_WORK, UP_TO_IT, 2,
     ", at most the work"},
    {"follows (row or 0)", "followed row", ROWS_ABOVE, NULL, 0, JB_ROWS - 1, NOT_LIMITED, 0, ""},
};

/* A table as it was written, whatever its figures are. */
typedef struct {
    jb_table table;     /* n counts all rows; the columns hold the first 64 of them */
    const char *file;   /* the rows file's name, NULL for words on a command line */
    size_t row_columns; /* of the rows file: fewer in one from before promised parts or from before rows could follow rows,
                           where these are all 0 */
} written_table;

/* What is wrong with a rows file, and where. */
typedef struct {
    size_t line;   /* from 1; 0 for the file as a whole */
    size_t column; /* from 1; 0 for the line as a whole */
    char what[320];
} trouble;

/* ---- figures of a table ---- */

/* N, G and K, which stand after n in the first line of a sheet. */
static void set_first_line(jb_table *table, const uint32_t figures[TABLE_COLUMNS]) {
    table->normal = figures[0];
    table->degraded = figures[1];
    table->loading = figures[2];
}

static void get_first_line(const jb_table *table, uint32_t figures[TABLE_COLUMNS]) {
    figures[0] = table->normal;
    figures[1] = table->degraded;
    figures[2] = table->loading;
}

static void set_row(jb_table *table, size_t index, const uint32_t figures[ROW_COLUMNS]) {
    table->release[index] = figures[0];
    table->work[index] = figures[1];
    table->deadline[index] = figures[2];
    table->level[index] = figures[3];
    table->promised[index] = figures[4];
    table->follows[index] = figures[5];
}

static void get_row(const jb_table *table, size_t index, uint32_t figures[ROW_COLUMNS]) {
    figures[0] = table->release[index];
    figures[1] = table->work[index];
    figures[2] = table->deadline[index];
    figures[3] = table->level[index];
    figures[4] = table->promised[index];
    figures[5] = table->follows[index];
}

static void append_row(jb_table *table, const uint32_t figures[ROW_COLUMNS]) {
    const size_t index = table->n++;
    if (index < JB_ROWS) {
        set_row(table, index, figures);
    }
}

/* ---- what is allowed ---- */

/* A figure with commas between its thousands. */
static void with_commas(uint32_t figure, char text[16]) {
    char digits[16];
    const int count = snprintf(digits, sizeof digits, "%" PRIu32, figure);
    for (int index = 0; index < count; index++) {
        if (index > 0 && (count - index) % 3 == 0) {
            *text++ = ',';
        }
        *text++ = digits[index];
    }
    *text = '\0';
}

/*
 * The smallest and the largest figure that are allowed in a column, beside the
 * figure that limits it if that is known. One that leaves none to choose from is
 * beyond its own limits and does not count.
 */
static void limits_of(const column_kind *kind, const uint32_t *other, uint32_t *least, uint32_t *most) {
    *least = kind->least;
    *most = kind->most;
    if (other == NULL) {
        return;
    }
    if (kind->limit == BELOW_IT && *other > *least && *other <= *most) {
        *most = *other - 1;
    } else if (kind->limit == UP_TO_IT && *other >= *least && *other <= *most) {
        *most = *other;
    } else if (kind->limit == ABOVE_IT && *other >= *least && *other < *most) {
        *least = *other + 1;
    }
}

/* What is known of the line in which a figure stands. */
typedef struct {
    size_t row;            /* the row, from 1; 0 for N, G and K */
    bool high;             /* it is a HI row */
    const uint32_t *other; /* the figure that limits this one; NULL where it is not known */
} figure_line;

/* Which rows a row may follow, in words. */
static void name_rows_above(const figure_line *line, char *text, size_t room) {
    const char *kind = line->high ? "is HI and released no later" : "is released no later";
    if (line->row <= 1) {
        snprintf(text, room, "only 0 (none): no row stands above row 1");
    } else if (line->row == 2) {
        snprintf(text, room, "0 (none), or row 1 if it %s", kind);
    } else {
        const size_t above = line->row <= JB_ROWS ? line->row - 1 : JB_ROWS;
        snprintf(text, room, "0 (none), or one of rows 1 to %zu that %s", above, kind);
    }
}

/* What is allowed in a column, in words. */
static void name_allowed(const column_kind *kind, const figure_line *line, char *text, size_t room) {
    uint32_t least;
    uint32_t most;
    char from[16];
    char to[16];
    limits_of(kind, line->other, &least, &most);
    with_commas(least, from);
    with_commas(most, to);
    if (kind->holds == LEVELS) {
        snprintf(text, room, "HI or LO (or %d or %d)", JB_HI, JB_LO);
    } else if (kind->holds == ROWS_ABOVE) {
        name_rows_above(line, text, room);
    } else if (kind->holds == FIGURES_OF_LOW_ROWS && line->high) {
        snprintf(text, room, "only 0 (%s) on a HI row, all of whose work is promised", kind->unit);
    } else if (least == most) {
        snprintf(text, room, "only %s (%s)%s", to, kind->unit, kind->limited);
    } else {
        snprintf(text, room, "%s to %s %s%s", from, to, kind->unit, kind->limited);
    }
}

/* ---- figures ---- */

static bool is_digits(text_piece text) {
    for (size_t index = 0; index < text.length; index++) {
        if (text.bytes[index] < '0' || text.bytes[index] > '9') {
            return false;
        }
    }
    return text.length > 0;
}

/* Reads a figure. Gives NULL, or what the text is that makes it none. */
static const char *read_figure(text_piece text, uint32_t *figure) {
    uint64_t value = 0;
    if (!is_digits(text)) {
        return "is not a whole number written with digits alone, as 1000";
    }
    if (text.length > 1 && text.bytes[0] == '0') {
        return "has a zero before its other digits; write it without";
    }
    for (size_t index = 0; index < text.length; index++) {
        value = 10 * value + (uint64_t)(text.bytes[index] - '0');
        if (value > UINT32_MAX) {
            return "is above 4294967295, the largest figure that can be read";
        }
    }
    *figure = (uint32_t)value;
    return NULL;
}

/* Reads a level: its word, or a figure, which the archive may refuse. */
static const char *read_level(text_piece text, uint32_t *level) {
    *level = piece_is(text, "HI") ? JB_HI : JB_LO;
    if (piece_is(text, "HI") || piece_is(text, "LO")) {
        return NULL;
    }
    return is_digits(text) ? read_figure(text, level) : "is not a level";
}

/* The cells of a line of figures, and what belongs into them. */
typedef struct {
    const text_piece *cells;
    const column_kind *kinds;
    size_t columns;
    size_t row; /* from 1; 0 for N, G and K */
} cell_line;

/* What the other cells of a line say that counts for a column, from 1. */
static figure_line line_of_cell(const cell_line *line, size_t column, uint32_t *other) {
    const size_t limiting = line->kinds[column - 1].other;
    figure_line known = {line->row, false, NULL};
    uint32_t level;
    if (limiting != 0 && read_figure(line->cells[limiting - 1], other) == NULL) {
        known.other = other;
    }
    known.high = column > LEVEL_COLUMN && read_level(line->cells[LEVEL_COLUMN - 1], &level) == NULL && level == JB_HI;
    return known;
}

/* Reads what stands in a column, from 1, of a line. False with the words for what cannot be taken. */
static bool read_cell(const cell_line *line, size_t column, uint32_t *figure, char *what, size_t room) {
    const column_kind *kind = &line->kinds[column - 1];
    const text_piece text = line->cells[column - 1];
    const char *wrong = kind->holds == LEVELS ? read_level(text, figure) : read_figure(text, figure);
    char shown[SHOWN];
    char allowed[ALLOWED];
    uint32_t other;
    if (wrong == NULL) {
        return true;
    }
    const figure_line known = line_of_cell(line, column, &other);
    name_allowed(kind, &known, allowed, sizeof allowed);
    show_text(text, shown, sizeof shown);
    if (text.length == 0) {
        snprintf(what, room, "nothing stands here; allowed: %s", allowed);
    } else {
        snprintf(what, room, "'%s' %s; allowed: %s", shown, wrong, allowed);
    }
    return false;
}

/* Reads the cells of a line. Gives 0, or the column, from 1, of the first that cannot be taken, with the words for it. */
static size_t read_cells(const cell_line *line, uint32_t *figures, char *what, size_t room) {
    for (size_t column = 1; column <= line->columns; column++) {
        if (!read_cell(line, column, &figures[column - 1], what, room)) {
            return column;
        }
    }
    return 0;
}

/* ---- a rows file ---- */

/* What belongs into a column of a line, both from 1; NULL where no figure does. */
static const column_kind *kind_at(size_t line, size_t column) {
    if (line == TABLE_LINE && column >= 1 && column <= TABLE_COLUMNS) {
        return &TABLE_KINDS[column - 1];
    }
    if (line > ROW_HEADINGS_LINE && column >= 1 && column <= ROW_COLUMNS) {
        return &ROW_KINDS[column - 1];
    }
    return NULL;
}

/* A place in a rows file in words; nothing for the file as a whole. */
static void name_place(size_t line, size_t column, char *text, size_t room) {
    const column_kind *kind = kind_at(line, column);
    if (line == 0) {
        snprintf(text, room, "%s", "");
    } else if (column == 0) {
        snprintf(text, room, "line %zu", line);
    } else if (kind == NULL) {
        snprintf(text, room, "line %zu, column %zu", line, column);
    } else if (kind->unit == NULL) { /* a level, or a row number */
        snprintf(text, room, "line %zu, column %zu (%s)", line, column, kind->name);
    } else {
        snprintf(text, room, "line %zu, column %zu (%s, in %s)", line, column, kind->name, kind->unit);
    }
}

/* Notes what is wrong, and where; gives false. */
#if defined(__GNUC__)
__attribute__((format(printf, 4, 5)))
#endif
static bool set_trouble(trouble *found, size_t line, size_t column, const char *format, ...) {
    va_list figures;
    va_start(figures, format);
    found->line = line;
    found->column = column;
    vsnprintf(found->what, sizeof found->what, format, figures);
    va_end(figures);
    return false;
}

/* The column, from 1, in which a heading stands; 0 if it is not found. */
static size_t column_of(const csv_line *line, const char *heading) {
    for (size_t index = 0; index < CSV_COLUMNS; index++) {
        if (piece_is(line->cells[index], heading)) {
            return index + 1;
        }
    }
    return piece_is(line->beyond, heading) ? line->beyond_column : 0;
}

/* What to do about a heading that is not in its column: it stands in another one, or the file has no column for K. */
static void name_heading_remedy(const csv_line *line, size_t column, const char *heading, char *remedy, size_t room) {
    const size_t elsewhere = column_of(line, heading);
    if (elsewhere != 0) {
        snprintf(remedy, room, "; that heading stands in column %zu: move its column here, or delete what stands before it",
                 elsewhere);
    } else if (line->number == TABLE_HEADINGS_LINE && column == LOADING_COLUMN && line->cells[column - 1].length == 0) {
        snprintf(remedy, room,
                 "; a rows file from before K has no such column: write this heading here and 0 (slots, no loading) in "
                 "line %d, column %d",
                 TABLE_LINE, LOADING_COLUMN);
    } else {
        snprintf(remedy, room, "%s", "");
    }
}

/* Says what stands where a heading belongs, and what to do about it. */
static bool set_heading_trouble(const csv_line *line, size_t column, const char *heading, trouble *found) {
    const text_piece cell = line->cells[column - 1];
    const char *quote = cell.length == 0 ? "" : "'";
    char shown[SHOWN];
    char remedy[160];
    show_text(cell, shown, sizeof shown);
    name_heading_remedy(line, column, heading, remedy, sizeof remedy);
    return set_trouble(found, line->number, column, "%s%s%s stands where the heading '%s' belongs%s", quote,
                       cell.length == 0 ? "nothing" : shown, quote, heading, remedy);
}

/*
 * Nothing may stand after the last column of a line. In a line of figures, one
 * that is written with a comma in it moves the cells after it there.
 */
static bool take_nothing_after(const csv_line *line, size_t columns, bool of_figures, trouble *found) {
    text_piece cell;
    const size_t column = csv_filled_after(line, columns, &cell);
    const bool beside_loading = columns == TABLE_COLUMNS && column <= ROW_COLUMNS;
    char shown[SHOWN];
    char reason[160];
    if (column == 0) {
        return true;
    }
    show_text(cell, shown, sizeof shown);
    if (beside_loading) {
        snprintf(reason, sizeof reason, "N, G and K use %d of the %d columns, and nothing is allowed after column %d",
                 TABLE_COLUMNS, ROW_COLUMNS, TABLE_COLUMNS);
    } else if (columns >= LEVEL_COLUMN && columns < ROW_COLUMNS) {
        snprintf(reason, sizeof reason,
                 "line %d has no heading '%s' in column %zu, and without it nothing is allowed after column %zu",
                 ROW_HEADINGS_LINE, ROW_KINDS[columns].heading, columns + 1, columns);
    } else {
        snprintf(reason, sizeof reason, "a rows file has %d columns, and nothing is allowed after column %d", ROW_COLUMNS,
                 ROW_COLUMNS);
    }
    return set_trouble(found, line->number, column, "'%s' stands here; %s: %s", shown, reason,
                       of_figures       ? "delete the cell that is one too many; if a figure was written with a comma, as "
                                          "1,000, write 1000"
                       : beside_loading ? "delete this cell"
                                        : "delete this column");
}

/* Headings have to be the ones that are written, so that other columns and other units are noticed. */
static bool take_headings(const csv_line *line, const column_kind *kinds, size_t columns, trouble *found) {
    for (size_t column = 1; column <= columns; column++) {
        const char *heading = kinds[column - 1].heading;
        if (!piece_is(line->cells[column - 1], heading)) {
            return set_heading_trouble(line, column, heading, found);
        }
    }
    return take_nothing_after(line, columns, false, found);
}

/* The column's heading, from 1, is missing: its cell is empty, and no other one has it. */
static bool lacks_heading(const csv_line *headings, size_t column) {
    return headings->cells[column - 1].length == 0 && column_of(headings, ROW_KINDS[column - 1].heading) == 0;
}

/* The columns of the rows, by their headings: older files lack that of followed rows, or that of promised parts too. */
static size_t row_columns_of(const csv_line *headings) {
    size_t columns = ROW_COLUMNS;
    while (columns > LEVEL_COLUMN && lacks_heading(headings, columns)) {
        columns--;
    }
    return columns;
}

/* The cell is filled, and not with digits alone. */
static bool is_text(text_piece cell) {
    return cell.length > 0 && !is_digits(cell);
}

/* A level stands after its column, as it does after figures with commas in them. */
static bool is_moved_level(size_t column, text_piece cell) {
    return column > LEVEL_COLUMN && (piece_is(cell, "HI") || piece_is(cell, "LO"));
}

/*
 * Takes a line of figures. Text that is none is named before a cell too many, and
 * that before digits at fault, a moved level and an empty cell: of a figure with a
 * comma in it, as 1,000, the second part may begin with a zero.
 */
static bool take_figures(const csv_line *line, const column_kind *kinds, size_t columns, uint32_t *figures,
                         trouble *found) {
    const size_t row = line->number > ROW_HEADINGS_LINE ? line->number - ROW_HEADINGS_LINE : 0;
    const cell_line cells = {line->cells, kinds, columns, row};
    const size_t wrong = read_cells(&cells, figures, found->what, sizeof found->what);
    found->line = line->number;
    found->column = wrong;
    if (wrong != 0 && is_text(line->cells[wrong - 1]) && !is_moved_level(wrong, line->cells[wrong - 1])) {
        return false;
    }
    return take_nothing_after(line, columns, true, found) && wrong == 0;
}

/* Takes a filled line for what its number makes it. */
static bool take_line_of_rows(const csv_line *line, written_table *written, trouble *found) {
    const bool of_table = line->number <= TABLE_LINE;
    const column_kind *kinds = of_table ? TABLE_KINDS : ROW_KINDS;
    uint32_t figures[ROW_COLUMNS] = {0};
    if (line->number == ROW_HEADINGS_LINE) {
        written->row_columns = row_columns_of(line);
    }
    const size_t columns = of_table ? TABLE_COLUMNS : written->row_columns;
    if (line->number == TABLE_HEADINGS_LINE || line->number == ROW_HEADINGS_LINE) {
        return take_headings(line, kinds, columns, found);
    }
    if (!take_figures(line, kinds, columns, figures, found)) {
        return false;
    }
    if (of_table) {
        set_first_line(&written->table, figures);
    } else {
        append_row(&written->table, figures);
    }
    return true;
}

/* Takes the next line and cuts it into cells. False at the end of the text, and with a trouble, whose line is then not 0. */
static bool next_line(csv_text *text, csv_line *line, trouble *found) {
    text_piece bytes;
    size_t column;
    found->line = 0;
    if (!csv_take_line(text, &bytes)) {
        return false;
    }
    const char separator = csv_other_separator(bytes);
    const char *wrong = csv_cut(bytes, text->line, line, &column);
    if (separator != 0 && (wrong != NULL || line->filled)) {
        return set_trouble(found, text->line, 0, "the cells are separated by %s; save the file with commas between the cells",
                           separator == ';' ? "';'" : "tabs");
    }
    return wrong == NULL || set_trouble(found, text->line, column, "%s", wrong);
}

/* The file ended after so many filled lines. Headings, speeds and K have to be there; the rows are counted by the archive. */
static bool take_end(size_t filled, trouble *found) {
    switch (filled) {
    case 0: return set_trouble(found, 0, 0, "the file is empty; 'jasminebrace rows SHEET' shows what a rows file looks like");
    case TABLE_HEADINGS_LINE:
        return set_trouble(found, TABLE_LINE, 0,
                           "the file ends where the speeds N and G and the loading K belong, as 5,2,0 (work units per slot; "
                           "slots)");
    case TABLE_LINE:
        return set_trouble(found, ROW_HEADINGS_LINE, 0, "the file ends where the headings of the rows belong: %s,%s,%s,%s,%s,%s",
                           ROW_KINDS[0].heading, ROW_KINDS[1].heading, ROW_KINDS[2].heading, ROW_KINDS[3].heading,
                           ROW_KINDS[4].heading, ROW_KINDS[5].heading);
    default: return true;
    }
}

/* Reads the text of a rows file. False with the trouble. */
static bool read_rows(text_piece text, written_table *written, trouble *found) {
    csv_text left = csv_begin(text);
    csv_line line;
    size_t filled = 0;
    size_t empty = 0; /* the first empty line */
    memset(written, 0, sizeof *written);
    while (next_line(&left, &line, found)) {
        if (!line.filled) {
            empty = empty == 0 ? line.number : empty;
        } else if (empty != 0) {
            return set_trouble(found, empty, 0, "this line is empty, and line %zu is not; delete the empty line", line.number);
        } else if (take_line_of_rows(&line, written, found)) {
            filled = line.number;
        } else {
            return false;
        }
    }
    return found->line == 0 && take_end(filled, found);
}

/* What a file is that cannot be a rows file, by its first bytes; NULL if they may begin one. */
static const char *other_kind_of_file(text_piece text) {
    if (piece_begins(text, "\xFF\xFE\0\0", 4) || piece_begins(text, "\0\0\xFE\xFF", 4)) {
        return "this is text in UTF-32; save it as CSV in UTF-8, with commas between the cells";
    }
    if (piece_begins(text, "\xFF\xFE", 2) || piece_begins(text, "\xFE\xFF", 2)) {
        return "this is text in UTF-16; save it as CSV in UTF-8, with commas between the cells";
    }
    if (piece_begins(text, "PK", 2) || piece_begins(text, "\xD0\xCF\x11\xE0", 4)) {
        return "this is a spreadsheet program's own file, or an archive; save it as CSV, with commas between the cells";
    }
    return NULL;
}

/* The text begins as a rows file does: with the first heading, after a mark and in quotes or not, whatever follows. */
static bool begins_as_rows_file(text_piece text) {
    const char *heading = TABLE_KINDS[0].heading;
    const size_t length = strlen(heading);
    text = without_blanks_before(csv_begin(text).left);
    text = without_blanks_before(piece_after(text, piece_begins(text, "\"", 1) ? 1 : 0));
    text.length = text.length < length ? text.length : length;
    return piece_is(text, heading);
}

/* Writes the rows file of a table that the archive accepts. */
static void put_rows(FILE *to, const jb_table *table) {
    fprintf(to, "%s,%s,%s,,,\n", TABLE_KINDS[0].heading, TABLE_KINDS[1].heading, TABLE_KINDS[2].heading);
    fprintf(to, "%" PRIu32 ",%" PRIu32 ",%" PRIu32 ",,,\n", table->normal, table->degraded, table->loading);
    fprintf(to, "%s,%s,%s,%s,%s,%s\n", ROW_KINDS[0].heading, ROW_KINDS[1].heading, ROW_KINDS[2].heading, ROW_KINDS[3].heading,
            ROW_KINDS[4].heading, ROW_KINDS[5].heading);
    for (size_t index = 0; index < table->n; index++) {
        fprintf(to, "%" PRIu32 ",%" PRIu32 ",%" PRIu32 ",%s,%" PRIu32 ",%" PRIu32 "\n", table->release[index],
                table->work[index], table->deadline[index], table->level[index] == JB_LO ? "LO" : "HI", table->promised[index],
                table->follows[index]);
    }
}

/* ---- what the writer refuses ---- */

/* The writer's answer about a table of one row, without loading. */
static uint32_t ask_one_row(uint32_t normal, uint32_t degraded, const uint32_t figures[ROW_COLUMNS]) {
    uint8_t sheet[JB_FIRST_LINE + JB_ROW_LINE];
    uint32_t length;
    jb_table table;
    memset(&table, 0, sizeof table);
    table.n = 1;
    table.normal = normal;
    table.degraded = degraded;
    set_row(&table, 0, figures);
    return jb_write_table(&table, sheet, sizeof sheet, &length);
}

/* A row that the writer accepts. */
static const uint32_t RIGHT_ROW[ROW_COLUMNS] = {0, 1, 1, JB_LO, 0, 0};

/* The writer's answer about this figure in a column, from 0, of a row that is right otherwise. */
static uint32_t ask_figure(size_t column, uint32_t figure) {
    uint32_t figures[ROW_COLUMNS];
    memcpy(figures, RIGHT_ROW, sizeof figures);
    figures[column] = figure;
    return ask_one_row(1, 1, figures);
}

/* A figure that the writer refuses. */
typedef struct {
    size_t row;                    /* from 1; 0 for N, G and K */
    size_t column;                 /* from 1; 0 where none was found */
    uint32_t figures[ROW_COLUMNS]; /* of the row, or N, G and K */
} refused_figure;

/* Which of N, G and K made the writer answer 4 or 11. 11 is K alone; 4 is N if it is refused beside a G of 1, else G. */
static void find_refused_in_first_line(uint32_t number, const jb_table *table, refused_figure *found) {
    const bool normal = number == JB_SPEEDS && ask_one_row(table->normal, 1, RIGHT_ROW) == JB_SPEEDS;
    found->column = number == JB_LOADING ? LOADING_COLUMN : normal ? 1 : 2;
    get_first_line(table, found->figures);
}

/*
 * Which figure made the writer answer 5: in the first row that is refused by
 * itself, the one that is refused in a row that is right otherwise, else the
 * release, which is measured by the deadline of its own row.
 */
static void find_refused_in_rows(const jb_table *table, refused_figure *found) {
    for (size_t index = 0; index < table->n && index < JB_ROWS; index++) {
        get_row(table, index, found->figures);
        if (ask_one_row(1, 1, found->figures) != JB_ROW_LIMITS) {
            continue;
        }
        size_t column = 1;
        while (column < ROW_COLUMNS && ask_figure(column, found->figures[column]) != JB_ROW_LIMITS) {
            column++;
        }
        found->row = index + 1;
        found->column = column < ROW_COLUMNS ? column + 1 : 1;
        return;
    }
}

/* Which promised part made the writer answer 12: that of the first row that is refused so by itself. */
static void find_refused_promise(const jb_table *table, refused_figure *found) {
    for (size_t index = 0; index < table->n && index < JB_ROWS && found->row == 0; index++) {
        get_row(table, index, found->figures);
        if (ask_one_row(1, 1, found->figures) == JB_PROMISED) {
            found->row = index + 1;
            found->column = PROMISED_COLUMN;
        }
    }
}

/* Whose followed row made the writer answer 13, 14 or 15: that of the first row that is refused where no other one waits. */
static void find_refused_wait(const jb_table *table, refused_figure *found) {
    for (size_t index = 0; index < table->n && index < JB_ROWS && found->row == 0; index++) {
        jb_table alone = *table;
        uint32_t length;
        memset(alone.follows, 0, sizeof alone.follows);
        alone.follows[index] = table->follows[index];
        if (jb_write_table(&alone, NULL, 0, &length) != JB_NO_ROOM) {
            get_row(table, index, found->figures);
            found->row = index + 1;
            found->column = FOLLOWS_COLUMN;
        }
    }
}

/* Why a promised part is refused, to be said after its figure. */
static void name_wrong_promise(uint32_t work, uint32_t level, char *text, size_t room) {
    if (level == JB_LO) {
        snprintf(text, room, ", above the row's work of %" PRIu32 " work unit%s", work, work == 1 ? "" : "s");
    } else {
        snprintf(text, room, ", and the row is HI");
    }
}

/* Why a followed row is refused by this number, to be said after its figure. */
static void name_wrong_wait(uint32_t number, const jb_table *table, size_t row, char *text, size_t room) {
    const uint32_t followed = table->follows[row - 1];
    if (number == JB_NOT_LOWER && followed == row) {
        snprintf(text, room, ", which is the row itself");
    } else if (number == JB_NOT_LOWER) {
        snprintf(text, room, ", and no row %" PRIu32 " stands above row %zu", followed, row);
    } else if (number == JB_RELEASED_LATER) {
        snprintf(text, room, ", and row %" PRIu32 " is released later (in slot %" PRIu32 ", row %zu in slot %" PRIu32 ")",
                 followed, table->release[followed - 1], row, table->release[row - 1]);
    } else {
        snprintf(text, room, ", and row %" PRIu32 " is LO and row %zu HI", followed, row);
    }
}

/* Begins a line on a place; that in a rows file is named by the file first. */
static void put_where(FILE *to, const written_table *written) {
    fputs("where: ", to);
    if (written->file != NULL) {
        fprintf(to, "%s, ", written->file);
    }
}

/* Why the writer refused a figure by this number, to be said after it; nothing where the words on what is allowed say enough. */
static void name_why(uint32_t number, const jb_table *table, const refused_figure *found, char *text, size_t room) {
    text[0] = '\0';
    if (found->row != 0 && found->column == PROMISED_COLUMN) {
        name_wrong_promise(found->figures[1], found->figures[LEVEL_COLUMN - 1], text, room);
    } else if (found->row != 0 && found->column == FOLLOWS_COLUMN) {
        name_wrong_wait(number, table, found->row, text, room);
    }
}

/* Where a figure stands in what was written. */
static void name_figure(const written_table *written, const refused_figure *found, const char *name, char *text, size_t room) {
    if (written->file != NULL) {
        name_place(found->row == 0 ? TABLE_LINE : ROW_HEADINGS_LINE + found->row, found->column, text, room);
    } else if (found->row == 0) {
        snprintf(text, room, "%s", name);
    } else {
        snprintf(text, room, "row %zu, %s", found->row, name);
    }
}

/* Says which figure the writer refused by this number and what is allowed in its place. */
static void put_refused_figure(FILE *to, uint32_t number, const written_table *written, const refused_figure *found) {
    const column_kind *kind = found->row == 0 ? &TABLE_KINDS[found->column - 1] : &ROW_KINDS[found->column - 1];
    const bool high = found->row != 0 && found->figures[LEVEL_COLUMN - 1] != JB_LO;
    const figure_line line = {found->row, high, kind->other == 0 ? NULL : &found->figures[kind->other - 1]};
    char place[96];
    char allowed[ALLOWED];
    char why[WHY];
    name_allowed(kind, &line, allowed, sizeof allowed);
    name_why(number, &written->table, found, why, sizeof why);
    name_figure(written, found, kind->name, place, sizeof place);
    put_where(to, written);
    fprintf(to, "%s: the figure is %" PRIu32 "%s\nallowed: %s\n", place, found->figures[found->column - 1], why, allowed);
}

static void put_allowed_rows(FILE *to) {
    fprintf(to, "allowed: 1 to %d rows\n", JB_ROWS);
}

/* Says which row is one too many, or that there is none, and how many are allowed. */
static void put_refused_count(FILE *to, const written_table *written) {
    const uint32_t n = written->table.n;
    const bool is_words = written->file == NULL;
    put_where(to, written);
    if (n == 0 && is_words) {
        fputs("after K: there is no row\n", to);
    } else if (n == 0) {
        fprintf(to, "line %d: there is no row\n", ROW_HEADINGS_LINE + 1);
    } else if (is_words) {
        fprintf(to, "row %d: there are %" PRIu32 " rows\n", JB_ROWS + 1, n);
    } else {
        fprintf(to, "line %d: this is row %d, and there are %" PRIu32 " rows\n", ROW_HEADINGS_LINE + JB_ROWS + 1,
                JB_ROWS + 1, n);
    }
    put_allowed_rows(to);
}

/* Says where in what was written the writer found this number, and what is allowed there. */
static void put_refused_place(FILE *to, uint32_t number, const written_table *written) {
    refused_figure found = {0, 0, {0}};
    if (number == JB_ROW_COUNT) {
        put_refused_count(to, written);
    } else if (number == JB_SPEEDS || number == JB_LOADING) {
        find_refused_in_first_line(number, &written->table, &found);
    } else if (number == JB_ROW_LIMITS) {
        find_refused_in_rows(&written->table, &found);
    } else if (number == JB_PROMISED) {
        find_refused_promise(&written->table, &found);
    } else if (number == JB_NOT_LOWER || number == JB_RELEASED_LATER || number == JB_FOLLOWS_LOW) {
        find_refused_wait(&written->table, &found);
    }
    if (found.column != 0) {
        put_refused_figure(to, number, written, &found);
    }
}

#endif
