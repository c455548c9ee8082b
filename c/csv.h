/*
 * Comma-separated text as spreadsheet programs save it, cut into lines and
 * cells. It knows nothing of jobs. Included by c/table.h alone.
 *
 * A line ends with byte 10, with bytes 13 and 10, or with byte 13 alone; the
 * last line end may be missing. A cell may stand in double quotes, and a double
 * quote inside them is written twice. Blanks (spaces and tabs) around a cell's
 * text do not count. No cell goes beyond its line.
 */
#ifndef JASMINEBRACE_CSV_H
#define JASMINEBRACE_CSV_H

#include <inttypes.h>
#include <stdbool.h>
#include <stddef.h>
#include <stdint.h>
#include <stdio.h>
#include <string.h>

/* Some bytes of a text that is kept elsewhere. */
typedef struct {
    uint8_t *bytes;
    size_t length;
} text_piece;

/* What is left of a text, and the number of the line that was taken last, from 1. */
typedef struct {
    text_piece left;
    size_t line;
} csv_text;

enum { CSV_COLUMNS = 6 };

/* A line cut into cells; a cell that the line does not have is empty. */
typedef struct {
    size_t number; /* from 1 */
    text_piece cells[CSV_COLUMNS];
    text_piece beyond;    /* the first filled cell after them, if there is one */
    size_t beyond_column; /* its column from 1, else 0 */
    bool filled;          /* a cell is filled */
} csv_line;

/* ---- pieces ---- */

static text_piece piece_after(text_piece text, size_t count) {
    const text_piece rest = {text.bytes + count, text.length - count};
    return rest;
}

static bool piece_has(text_piece text, uint8_t byte) {
    return memchr(text.bytes, byte, text.length) != NULL;
}

static bool piece_begins(text_piece text, const char *with, size_t length) {
    return text.length >= length && memcmp(text.bytes, with, length) == 0;
}

static uint8_t lower_case(uint8_t byte) {
    return byte >= 'A' && byte <= 'Z' ? (uint8_t)(byte - 'A' + 'a') : byte;
}

/* The piece has these letters, upper or lower case. */
static bool piece_is(text_piece text, const char *word) {
    for (size_t index = 0; index < text.length; index++) {
        if (word[index] == '\0' || lower_case(text.bytes[index]) != lower_case((uint8_t)word[index])) {
            return false;
        }
    }
    return word[text.length] == '\0';
}

static bool is_blank(uint8_t byte) {
    return byte == ' ' || byte == '\t';
}

static text_piece without_blanks_before(text_piece text) {
    while (text.length > 0 && is_blank(text.bytes[0])) {
        text = piece_after(text, 1);
    }
    return text;
}

static text_piece without_blanks(text_piece text) {
    text = without_blanks_before(text);
    while (text.length > 0 && is_blank(text.bytes[text.length - 1])) {
        text.length--;
    }
    return text;
}

/* ---- lines and cells ---- */

/* The text after a UTF-8 byte order mark, if it begins with one. */
static csv_text csv_begin(text_piece text) {
    const size_t mark = piece_begins(text, "\xEF\xBB\xBF", 3) ? 3 : 0;
    const csv_text whole = {piece_after(text, mark), 0};
    return whole;
}

/* Takes the next line without its line end; false at the end of the text. */
static bool csv_take_line(csv_text *text, text_piece *line) {
    const text_piece left = text->left;
    size_t length = 0;
    if (left.length == 0) {
        return false;
    }
    while (length < left.length && left.bytes[length] != '\r' && left.bytes[length] != '\n') {
        length++;
    }
    line->bytes = left.bytes;
    line->length = length;
    const text_piece end = piece_after(left, length);
    text->left = piece_after(end, piece_begins(end, "\r\n", 2) ? 2 : end.length > 0 ? 1 : 0);
    text->line++;
    return true;
}

/* What stands between the cells of a line that has no comma: ';', a tab, or 0 where neither does. */
static char csv_other_separator(text_piece line) {
    line = without_blanks(line);
    if (piece_has(line, ',')) {
        return 0;
    }
    return piece_has(line, ';') ? ';' : piece_has(line, '\t') ? '\t' : 0;
}

/* Takes a cell whose first byte is the opening quote; a quote that is written twice is put once, in place. */
static const char *csv_take_quoted(text_piece *line, text_piece *cell) {
    size_t kept = 0;
    cell->bytes = line->bytes + 1;
    for (size_t at = 1; at < line->length; at++) {
        if (line->bytes[at] == '"') {
            at++;
            if (at == line->length || line->bytes[at] != '"') {
                cell->length = kept;
                *line = piece_after(*line, at);
                return NULL;
            }
        }
        cell->bytes[kept++] = line->bytes[at];
    }
    return "the double quote that opens this cell is not closed in its line, or a line break stands inside the cell; write "
           "the cell in one line, with both its quotes or with none";
}

static void csv_take_unquoted(text_piece *line, text_piece *cell) {
    size_t length = 0;
    while (length < line->length && line->bytes[length] != ',') {
        length++;
    }
    cell->bytes = line->bytes;
    cell->length = length;
    *line = piece_after(*line, length);
}

/* Takes the next cell of a line and the comma after it. Gives NULL, or what is wrong with the cell. */
static const char *csv_take_cell(text_piece *line, text_piece *cell, bool *another) {
    *line = without_blanks_before(*line);
    if (piece_begins(*line, "\"", 1)) {
        const char *wrong = csv_take_quoted(line, cell);
        if (wrong != NULL) {
            return wrong;
        }
        *line = without_blanks_before(*line);
    } else {
        csv_take_unquoted(line, cell);
    }
    *another = line->length > 0;
    if (*another && line->bytes[0] != ',') {
        return "text follows the closing double quote; write a double quote inside a quoted cell twice";
    }
    *line = piece_after(*line, *another ? 1 : 0);
    *cell = without_blanks(*cell);
    return piece_has(*cell, 0) ? "a byte 0 stands here, which no text has; save the file as CSV in UTF-8" : NULL;
}

/* Cuts a line into its cells. Gives NULL, or what is wrong with the cell in a column, from 1. */
static const char *csv_cut(text_piece text, size_t number, csv_line *line, size_t *column) {
    bool another = true;
    memset(line, 0, sizeof *line);
    line->number = number;
    for (*column = 1; another; ++*column) {
        text_piece cell;
        const char *wrong = csv_take_cell(&text, &cell, &another);
        if (wrong != NULL) {
            return wrong;
        }
        if (*column <= CSV_COLUMNS) {
            line->cells[*column - 1] = cell;
        } else if (cell.length > 0 && line->beyond_column == 0) {
            line->beyond = cell;
            line->beyond_column = *column;
        }
        line->filled = line->filled || cell.length > 0;
    }
    return NULL;
}

/* The column, from 1, of the first filled cell after the first ones, and its text; 0 if all are empty. */
static size_t csv_filled_after(const csv_line *line, size_t first, text_piece *cell) {
    for (size_t index = first; index < CSV_COLUMNS; index++) {
        if (line->cells[index].length > 0) {
            *cell = line->cells[index];
            return index + 1;
        }
    }
    *cell = line->beyond;
    return line->beyond_column;
}

/* ---- text as it can be shown ---- */

/* How many bytes after the first the first byte of a character announces; 4 if it is no such byte. */
static size_t bytes_announced(uint8_t first) {
    return first < 0x80 ? 0 : first < 0xC2 ? 4 : first < 0xE0 ? 1 : first < 0xF0 ? 2 : first < 0xF5 ? 3 : 4;
}

/* The code of the first character of a text in UTF-8, and its length in bytes; length 0 if there is none. */
static uint32_t first_character(text_piece text, size_t *length) {
    const size_t more = bytes_announced(text.bytes[0]);
    uint32_t code = more == 0 ? text.bytes[0] : text.bytes[0] & (0x3Fu >> more);
    *length = 0;
    if (more >= 4 || more >= text.length) {
        return 0;
    }
    for (size_t index = 1; index <= more; index++) {
        if ((text.bytes[index] & 0xC0) != 0x80) {
            return 0;
        }
        code = code << 6 | (text.bytes[index] & 0x3Fu);
    }
    if ((more == 2 && code < 0x800) || (more == 3 && code < 0x10000)) {
        return 0;
    }
    *length = more + 1;
    return code;
}

/* The character would not be seen, or would change how others are seen: a control, a blank, a mark of direction. */
static bool is_unseen(uint32_t code) {
    return code < 0x20 || (code >= 0x7F && code <= 0xA0) || code == 0xAD || (code >= 0x2000 && code <= 0x200F) ||
           (code >= 0x2028 && code <= 0x202F) || (code >= 0x205F && code <= 0x206F) || code == 0x3000 ||
           (code >= 0xD800 && code <= 0xF8FF) || code == 0xFEFF || (code >= 0xFFF0 && code <= 0xFFFB) || code > 0x3FFFF;
}

/* Shows the first character of a text, or its first byte if it begins with none. Gives how many bytes that was. */
static size_t show_character(text_piece text, char *shown, size_t room) {
    size_t length;
    const uint32_t code = first_character(text, &length);
    if (length == 0 || code < 0x20) {
        snprintf(shown, room, "<byte %u>", (unsigned)text.bytes[0]);
        return 1;
    }
    if (is_unseen(code)) {
        snprintf(shown, room, "<U+%04" PRIX32 ">", code);
    } else {
        snprintf(shown, room, "%.*s", (int)length, (const char *)text.bytes);
    }
    return length;
}

/* A text for a message; only the beginning of a long one. */
static void show_text(text_piece text, char *shown, size_t room) {
    size_t used = 0;
    while (text.length > 0) {
        char one[16];
        text = piece_after(text, show_character(text, one, sizeof one));
        const size_t length = strlen(one);
        if (used + length + sizeof ".." > room) {
            memcpy(shown + used, "..", 2);
            used += 2;
            break;
        }
        memcpy(shown + used, one, length);
        used += length;
    }
    shown[used] = '\0';
}

#endif
