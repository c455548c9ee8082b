"""What pictures with a lane for each row have: the marks in it, and headings of columns."""

from pictures.asking import AT_DEADLINE
from pictures.drawing import Drawing
from pictures.measures import HEADING, short
from pictures.styles import BOLD, INK, PAPER, PROMISED, WRONG


class LaneDrawing(Drawing):
    """A picture with a lane for each row, before it is known where these stand."""

    # Marks; the legend draws the same ones.

    def release_mark(self, x, y):
        half, size = self.lane / 2 - 2, 3.6 * self.mark
        self.line(x, y - half, x, y + half, f'stroke="{INK}" stroke-width="1.2"')
        self.path([(x, y - half), (x - size, y - half + 2 * size), (x + size, y - half + 2 * size)], f'fill="{INK}"')

    def deadline_mark(self, x, y):
        half, size = self.lane / 2 - 1, 4 * self.mark
        self.line(x, y - half, x, y + half, f'stroke="{INK}" stroke-width="{short(2.6 * self.mark)}"')
        self.path([(x, y + half), (x - size, y + half - 1.6 * size), (x + size, y + half - 1.6 * size)], f'fill="{INK}"')

    def closing_mark(self, x, y, how):
        size = self.mark
        if how == "done":
            style = f'fill="{PAPER}" stroke="{INK}" stroke-width="{short(1.8 * size)}"'
            self.add(f'<circle cx="{short(x)}" cy="{short(y)}" r="{short(4.4 * size)}" {style}/>')
        elif how == "late":
            reach = 7.5 * size
            corners = [(x, y - reach), (x + reach, y), (x, y + reach), (x - reach, y)]
            self.path(corners, f'fill="{WRONG}" stroke="{PAPER}" stroke-width="1"')
            style = f'stroke="{PAPER}" stroke-width="{short(1.7 * size)}"'
            self.line(x, y - 4 * size, x, y + 1.2 * size, style)
            self.line(x, y + 2.4 * size, x, y + 4 * size, style)
        elif how == "dropped":
            for colour, width in ((PAPER, 5.2), (WRONG, 2.6)):
                self.cross(x, y, 4.4 * size, f'stroke="{colour}" stroke-width="{short(width * size)}" stroke-linecap="round"')
        elif how == AT_DEADLINE:
            reach = 6.5 * size
            corners = [(x - reach, y - reach), (x + reach, y - reach), (x + reach, y + reach), (x - reach, y + reach)]
            self.path(corners, f'fill="{WRONG}" stroke="{PAPER}" stroke-width="1"')
            self.cross(x, y, 3.4 * size, f'stroke="{PAPER}" stroke-width="{short(2 * size)}" stroke-linecap="round"')

    def promise_mark(self, x, y):
        """A flag whose pole stands at the clock."""
        half, size = self.lane / 2 - 1, 3.6 * self.mark
        self.line(x, y - half, x, y + half, f'stroke="{PROMISED}" stroke-width="{short(2 * self.mark)}"')
        self.path([(x, y - half), (x + 2 * size, y - half + size), (x, y - half + 2 * size)], f'fill="{PROMISED}"')

    def cross(self, x, y, reach, style):
        self.line(x - reach, y - reach, x + reach, y + reach, style)
        self.line(x - reach, y + reach, x + reach, y - reach, style)

    # Headings of columns, in up to three lines.

    def heading(self, x, words, anchor):
        first = self.heading_top + HEADING * (3 - len(words)) + 9
        for index, line in enumerate(words):
            self.text(x, first + HEADING * index, line, anchor, style=BOLD)
