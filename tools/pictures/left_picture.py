"""The picture of the rows left of a sheet without a correct order: a lane for each, and how many slots it is short."""

from collections import namedtuple
from html import escape

from pictures.lanes import LaneDrawing
from pictures.measures import FONT, GAP, HEADING, MARGIN, TICK, figure, layout, round_step, width_of
from pictures.styles import BOLD, GRID, INK, SHORT_PATTERN, WAIT, WINDOW, WRONG
from pictures.words import followed, follower_told, level, lines_of_left, sentence_of_left, slack_told

BEFORE_ARROW, AFTER_ARROW = 18, 12  # room on both sides of the arrow to a follower, in pixels

SHORT_BAR = f'fill="url(#short)" stroke="{WRONG}" stroke-width="0.8"'
WAIT_LINE = f'stroke="{WAIT}" stroke-width="2"'

# Rows left: speeds in work units per slot, K in slots, all rows of the sheet by number, and how each row left stands among them, by number.
RowsLeft = namedtuple("RowsLeft", "normal degraded loading rows left")
# A column: the lines of its heading, what stands in it for a row, whether that is right-aligned, and whether it is bad news.
Column = namedtuple("Column", "heading cell right_aligned bad", defaults=[lambda row: False])


def rows_left_of(command):
    """The rows left of a sheet to which the command answers that no order is correct."""
    return RowsLeft(*command.table(), command.left())


def columns_of(shown):
    rows, left = shown.rows, shown.left
    any_promised = any(rows[row].promised for row in left)
    promised = Column(["promised,", "work", "units"], lambda row: figure(rows[row].promised), True)
    moment = Column(["promised", "at G,", "slots"], lambda row: figure(left[row].promised) if left[row].promised else "\u2013", True)
    follows = Column(["follows", "row"], lambda row: followed(rows[row]), True)
    return [
        Column(["row"], str, True),
        *([follows] if any(rows[row].follows for row in left) else []),
        Column(["level"], lambda row: level(rows[row]), False),
        Column(["work,", "work", "units"], lambda row: figure(rows[row].work), True),
        *([promised] if any_promised else []),
        Column(["release,", "slots"], lambda row: figure(rows[row].release), True),
        Column(["deadline,", "slots"], lambda row: figure(rows[row].deadline), True),
        Column(["worst", "finish,", "slots"], lambda row: figure(left[row].finish), True),
        *([moment] if any_promised else []),
        Column(["slack,", "slots"], lambda row: figure(left[row].slack), True, lambda row: left[row].slack < 0),
    ]


class LeftPicture(LaneDrawing):
    """The rows left, each with all the others above it."""

    def __init__(self, shown):
        super().__init__("No order is correct: the rows left, and how many slots each is short", lines_of_left(shown))
        self.shown, self.rows, self.left_rows = shown, shown.rows, shown.left
        self.lane, self.bar, self.mark, self.plot = layout(len(shown.left))
        self.place_axis()
        self.place_columns()
        self.place_bands()
        title = width_of(self.title, bold=True) * 16 / FONT
        widths = [MARGIN + title, *(MARGIN + width_of(line) for line in self.lines), *map(self.label_end, self.left_rows)]
        self.width = round(max(self.right + width_of(figure(self.last)) / 2, *widths) + MARGIN)

    def end(self, row):
        """The clock that decides: the worst finish, or the promised part if it comes later."""
        return max(self.left_rows[row].finish, self.left_rows[row].promised)

    def place_axis(self):
        """From a tick at or before the earliest release to the last clock that is shown."""
        earliest = min(self.rows[row].release for row in self.left_rows)
        self.last = max(max(self.rows[row].deadline, self.end(row)) for row in self.left_rows)
        self.step = round_step(self.last - earliest, self.plot, width_of(figure(self.last)) + 9)
        self.first = earliest // self.step * self.step

    def place_columns(self):
        """Column edges from left to right, and the plot after them."""
        x, self.columns = MARGIN, []
        for column in columns_of(self.shown):
            width = max(width_of(words, bold=True) for words in [*column.heading, *map(column.cell, self.left_rows)])
            self.columns.append((column, x + width if column.right_aligned else x))
            x += width + GAP
        self.left = x + 4
        self.right = self.left + self.plot

    def place_bands(self):
        """Bands from top to bottom: title, headings, tick labels, lanes, tick labels, legend."""
        self.heading_top = self.below_lines() + 14
        self.top = self.heading_top + 3 * HEADING + TICK
        self.bottom = self.top + self.lane * len(self.left_rows)
        self.legend_top = self.bottom + TICK + 22

    def x(self, slot):
        return self.left + self.plot * (slot - self.first) / (self.last - self.first)

    def label_x(self, row):
        """Where the words of a lane begin: after its last mark."""
        return self.x(max(self.rows[row].deadline, self.end(row))) + 14

    def label_end(self, row):
        follower = self.left_rows[row].follower
        width = width_of(slack_told(self.left_rows[row]), bold=True)
        return self.label_x(row) + width + (BEFORE_ARROW + AFTER_ARROW + width_of(follower_told(follower), bold=True) if follower else 0)

    # Marks besides those of all lanes; the legend draws the same ones.

    def short_bar(self, x1, x2, y):
        self.rect(x1, y - self.bar / 2, max(x2 - x1, 0.8), self.bar, SHORT_BAR)

    def window_bar(self, x1, x2, y):
        self.rect(x1, y - self.bar / 2 - 3, max(x2 - x1, 0.8), self.bar + 6, f'fill="{WINDOW}"')

    def follower_mark(self, x, y):
        """An arrow downwards, since a follower stands below the row that it follows."""
        self.line(x, y - 6, x, y, WAIT_LINE)
        self.path([(x, y + 6), (x - 4, y - 1), (x + 4, y - 1)], f'fill="{WAIT}"')

    # Parts of the picture, from top to bottom.

    def headings(self):
        for column, x in self.columns:
            self.heading(x, column.heading, "end" if column.right_aligned else "start")
        self.text((self.left + self.right) / 2, self.heading_top + 3 * HEADING - 4, "clock, slots", "middle", style=BOLD)

    def ticks(self):
        for slot in range(self.first, self.last + 1, self.step):
            x = self.x(slot)
            self.line(x, self.top - 3, x, self.bottom + 3, GRID)
            self.text(x, self.top - 6, figure(slot), "middle")
            self.text(x, self.bottom + 16, figure(slot), "middle")

    def lanes(self):
        for index in range(len(self.left_rows) + 1):
            y = self.top + self.lane * index
            self.line(MARGIN, y, self.width - MARGIN, y, GRID)

    def row(self, number, y):
        row, of = self.rows[number], self.left_rows[number]
        for column, x in self.columns:
            anchor = "end" if column.right_aligned else "start"
            self.text(x, y + 4, column.cell(number), anchor, WRONG if column.bad(number) else INK)
        self.window_bar(self.x(row.release), self.x(row.deadline), y)
        if of.late:
            self.short_bar(self.x(row.deadline), self.x(self.end(number)), y)
        self.release_mark(self.x(row.release), y)
        self.deadline_mark(self.x(row.deadline), y)
        self.closing_mark(self.x(of.finish), y, "late" if of.finish > row.deadline else "done")
        if of.promised:
            self.promise_mark(self.x(of.promised), y)
        self.label(number, y)

    def label(self, number, y):
        """How many slots a row is short, or has to spare, and the row that follows it."""
        of, words, x = self.left_rows[number], slack_told(self.left_rows[number]), self.label_x(number)
        self.text(x, y + 4, words, colour=WRONG if of.late else INK, style=BOLD)
        if of.follower:
            x += width_of(words, bold=True) + BEFORE_ARROW
            self.follower_mark(x, y)
            self.text(x + AFTER_ARROW, y + 4, follower_told(of.follower), colour=WAIT, style=BOLD)

    def legend(self):
        entries = [
            (lambda x, y: self.window_bar(x, x + 24, y), "from release to deadline"),
            (lambda x, y: self.release_mark(x + 12, y), "release"),
            (lambda x, y: self.deadline_mark(x + 12, y), "deadline"),
        ]
        late = {of.finish > self.rows[row].deadline for row, of in self.left_rows.items()}
        if True in late:
            entries.append((lambda x, y: self.closing_mark(x + 12, y, "late"), "worst finish after the deadline"))
        if False in late:
            entries.append((lambda x, y: self.closing_mark(x + 12, y, "done"), "worst finish in time"))
        entries.append((lambda x, y: self.short_bar(x, x + 24, y), "the slots that a row is short"))
        if any(of.promised for of in self.left_rows.values()):
            entries.append((lambda x, y: self.promise_mark(x + 12, y), "the promised part is got, at exactly G"))
        if any(of.follower for of in self.left_rows.values()):
            entries.append((lambda x, y: self.follower_mark(x + 12, y), "a row left follows it: it cannot stand lowest among them, with any slack"))
        self.legend_of(entries, self.legend_top)

    def drawn(self):
        told = {row: sentence_of_left(self.shown, row) for row in self.left_rows}
        self.heading_lines()
        self.lanes()
        self.ticks()
        self.headings()
        for index, row in enumerate(self.left_rows):
            self.add(f"<g><title>{escape(told[row])}</title>")
            self.row(row, self.top + self.lane * (index + 0.5))
            self.add("</g>")
        self.legend()
        return self.svg(" ".join([self.title + ".", *self.lines, *told.values()]))

    def patterns(self):
        return [SHORT_PATTERN]
