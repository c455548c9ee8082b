"""The picture of how slow a processor may be: the slack of the tightest row against the degraded speed G."""

from html import escape

from pictures.drawing import Drawing
from pictures.measures import FONT, HEADING, MARGIN, TICK, figure, many, round_step, short, tick_step, width_of
from pictures.stretches import Speeds, merged
from pictures.styles import ASKED, BOLD, GRID, GROUND, HALO, INK, LOW_PATTERN, PAPER, SUPPLY, WRONG
from pictures.words import level

SCALE = 260  # height of the scale of slacks
ABOVE, BELOW = 24, 32  # room above the scale of slacks, and below it for what is off the scale
STRIP = 14  # height of the strip of tightest rows

STEP_LINE = f'fill="none" stroke="{INK}" stroke-width="2.4"'
LEAST_LINE = f'stroke="{INK}" stroke-width="1.4"'
ORDER_LINE = f'stroke="{INK}" stroke-width="1.4" stroke-dasharray="2 3"'
NOT_ENOUGH = f'fill="{WRONG}" fill-opacity="0.09"'


class SpeedPicture(Drawing):
    """The slack of the tightest row at each degraded speed G, under one order."""

    def __init__(self, verdicts, lines):
        super().__init__("How slow may the processor be? The slack of the tightest row at each degraded speed G", lines)
        self.verdicts = verdicts
        self.plot = 720
        self.marks = self.marks_of(verdicts)
        self.slacks = merged(Speeds(speed, speed + 1, slack) for speed, slack in sorted(verdicts.slack.items()))
        self.tightest = merged(Speeds(speed, speed + 1, row) for speed, row in sorted(verdicts.tightest.items()))
        self.step = tick_step(verdicts.normal, self.plot)
        self.place_scale()
        self.cut = self.low > min(verdicts.slack.values())
        if self.cut:
            self.lines = [*lines, self.cut_told()]
        self.place_parts()

    def marks_of(self, verdicts):
        """What is marked: the least workable G, and the G from which on the order is correct where that is another; the line, the mark and its words."""
        best, least = verdicts.best, verdicts.least
        found = [(best, LEAST_LINE, self.least_mark, f"least workable G: {many(best, 'work unit')} per slot")] if best else []
        if least not in (0, best):
            found.append((least, ORDER_LINE, self.order_mark, f"this order is correct from G = {many(least, 'work unit')} per slot on"))
        return found

    def place_scale(self):
        """The least and the largest slack on the scale, both sides of 0. It does not go far below 0, or what is near 0 were not seen."""
        least, largest = min(self.verdicts.slack.values()), max(self.verdicts.slack.values())
        self.high = max(largest, 1)
        self.low = min(max(least, -max(10, 2 * abs(largest))), -1)
        self.slack_step = round_step(self.high - self.low, SCALE, 24)

    def cut_told(self):
        least, speed = min((slack, speed) for speed, slack in self.verdicts.slack.items())
        return (
            f"Slacks below {many(self.low, 'slot')} are off the scale, so that those near 0 can be seen: "
            f"they go down to {many(least, 'slot')} at G = {many(speed, 'work unit')} per slot."
        )

    def place_parts(self):
        """Edges from left to right, and bands from top to bottom: title, regions, least G, scale, tick labels, tightest rows, legend."""
        self.slack_heading = ["slack of", "the tightest", "row, slots"]
        labels = [figure(slack) for slack in self.slack_ticks()]
        widths = [width_of(words, bold=True) for words in [*self.slack_heading, "tightest row", *labels]]
        self.left = MARGIN + max(widths) + 10
        self.right = self.left + self.plot
        title = width_of(self.title, bold=True) * 16 / FONT
        self.width = round(max(self.right, MARGIN + title, *(MARGIN + width_of(line) for line in self.lines)) + MARGIN)
        self.region_y = self.below_lines() + 22
        self.top = self.region_y + 12 + 16 * max(1, len(self.marks))
        self.bottom = self.top + ABOVE + SCALE + BELOW
        self.strip_top = self.bottom + TICK + HEADING + 14
        self.legend_top = self.strip_top + STRIP + 44

    def slack_ticks(self):
        first = -(-self.low // self.slack_step) * self.slack_step
        return range(first, self.high + 1, self.slack_step)

    def speed_ticks(self):
        """Round speeds, and 1 if its label does not touch the next one's."""
        ticks = list(range(self.step, self.verdicts.normal + 1, self.step))
        room = self.plot * (self.step - 1) / self.verdicts.normal
        return ticks if room < width_of("1") + width_of(figure(self.step)) else [1, *ticks]

    def x(self, speed):
        """Each G has a column of its own, and stands in its middle."""
        return self.left + self.plot * (speed - 0.5) / self.verdicts.normal

    def edge(self, speed):
        """Where the column of a G begins."""
        return self.x(speed - 0.5)

    def y(self, slack):
        return self.top + ABOVE + SCALE * (self.high - slack) / (self.high - self.low)

    # Parts of the picture, from top to bottom.

    def regions(self):
        """The G that are not enough on tinted ground, and both regions named where there is room."""
        enough = self.verdicts.least or self.verdicts.normal + 1
        self.rect(self.left, self.top, self.plot, self.bottom - self.top, GROUND)
        if enough > 1:
            self.rect(self.left, self.top, self.edge(enough) - self.left, self.bottom - self.top, f'id="not-enough" {NOT_ENOUGH}')
        whom = "" if self.verdicts.least == self.verdicts.best else " for this order"
        for first, after, name, colour in ((1, enough, "not enough", WRONG), (enough, self.verdicts.normal + 1, "enough", SUPPLY)):
            words = name + whom
            if self.edge(after) - self.edge(first) >= width_of(words, bold=True) + 8:
                self.text((self.edge(first) + self.edge(after)) / 2, self.region_y, words, "middle", colour, BOLD)

    def axes(self):
        for speed in self.speed_ticks():
            self.line(self.x(speed), self.top, self.x(speed), self.bottom + 4, GRID)
            self.text(self.x(speed), self.bottom + 17, figure(speed), "middle")
        for slack in self.slack_ticks():
            self.line(self.left - 4, self.y(slack), self.right, self.y(slack), GRID)
            self.text(self.left - 8, self.y(slack) + 4, figure(slack), "end", style=BOLD if slack == 0 else "")
        self.line(self.left, self.top, self.left, self.bottom, f'stroke="{INK}"')
        self.line(self.left, self.bottom, self.right, self.bottom, f'stroke="{INK}"')
        for index, words in enumerate(self.slack_heading):
            self.text(self.left - 8, self.top - 6 + HEADING * (index - len(self.slack_heading) + 1), words, "end", style=BOLD)
        middle = (self.left + self.right) / 2
        self.text(middle, self.bottom + TICK + HEADING + 1, "degraded speed G, work units per slot", "middle", style=BOLD)

    def zero_line(self, x1, x2, y):
        self.line(x1, y, x2, y, f'stroke="{INK}" stroke-width="1.6" stroke-dasharray="7 3"')

    def steps(self):
        """A level line for each stretch of equal slack; it comes up from below where slacks are off the scale, which has marks there."""
        self.zero_line(self.left, self.right, self.y(0))
        shown = [stretch for stretch in self.slacks if stretch.figure >= self.low]
        points = [(self.edge(speed), self.y(slack)) for first, after, slack in shown for speed in (first, after)]
        begin = points[0][0]
        if begin > self.left:
            points.insert(0, (begin, self.bottom))
            marks = max(1, round((begin - self.left) / 40))
            for index in range(marks):
                self.cut_mark(self.left + (begin - self.left) * (index + 0.5) / marks, self.bottom - 12)
        self.path(points, f'id="slacks" {STEP_LINE}', closed=False)

    def cut_mark(self, x, y):
        self.path([(x - 5, y - 4), (x + 5, y - 4), (x, y + 6)], f'fill="{INK}"')

    def step_figures(self):
        """The slack of each stretch on the scale, where there is room."""
        for first, after, slack in self.slacks:
            if slack >= self.low and self.edge(after) - self.edge(first) >= width_of(figure(slack), bold=True) + 2:
                self.text((self.edge(first) + self.edge(after)) / 2, self.y(slack) - 8, figure(slack), "middle", INK, HALO)

    def least_mark(self, x, y):
        self.add(f'<circle cx="{short(x)}" cy="{short(y)}" r="5.5" fill="{ASKED}" stroke="{INK}" stroke-width="2"/>')

    def order_mark(self, x, y):
        self.rect(x - 5, y - 5, 10, 10, f'fill="{PAPER}" stroke="{INK}" stroke-width="2"')

    def marked(self):
        """Each mark stands on the line of slacks, if its slack is on the scale, with its words above the plot, one below the other."""
        for index, (speed, line, mark, words) in enumerate(self.marks):
            x, half = self.x(speed), width_of(words, bold=True) / 2
            self.line(x, self.top - 4, x, self.bottom, line)
            if self.verdicts.slack[speed] >= self.low:
                mark(x, self.y(self.verdicts.slack[speed]))
            y = self.top - 8 - 16 * (len(self.marks) - 1 - index)
            self.text(min(max(x, self.left + half + 6), self.right - half), y, words, "middle", style=BOLD)

    def strip(self):
        """Which row is the tightest: its level as in other pictures, and its number where there is room."""
        middle = self.strip_top + STRIP / 2
        self.text(self.left - 8, middle + 4, "tightest row", "end", style=BOLD)
        for stretch in self.tightest:
            first, after, row = stretch
            self.add(f"<g><title>{escape(self.stretch_told(stretch))}</title>")
            self.bar_rect(self.edge(first), self.edge(after), middle, level(self.verdicts.rows[row]))
            if first > 1:
                self.line(self.edge(first), self.strip_top, self.edge(first), self.strip_top + STRIP, f'stroke="{PAPER}" stroke-width="1.6"')
            if self.edge(after) - self.edge(first) >= width_of(str(row), bold=True) + 2:
                self.text((self.edge(first) + self.edge(after)) / 2, self.strip_top + STRIP + 14, str(row), "middle", style=BOLD)
            self.add("</g>")

    def legend(self):
        entries = [
            (lambda x, y: self.path([(x, y), (x + 24, y)], STEP_LINE, closed=False), "slack of the tightest row"),
            (lambda x, y: self.zero_line(x, x + 24, y), "slack 0: in time with no slot to spare"),
        ]
        if self.verdicts.least != 1:
            entries.append((lambda x, y: self.rect(x, y - 8, 24, 16, NOT_ENOUGH), "not enough: the tightest row can be late"))
        for _, _, mark, _ in self.marks:
            name = "least workable G: smaller ones have no correct order" if mark == self.least_mark else "the least G at which this order is correct"
            entries.append((lambda x, y, mark=mark: mark(x + 12, y), name))
        if self.cut:
            entries.append((lambda x, y: self.cut_mark(x + 12, y), f"off the scale: a slack below {many(self.low, 'slot')}"))
        for kind in sorted({level(self.verdicts.rows[row]) for row in self.verdicts.tightest.values()}):
            entries.append((lambda x, y, kind=kind: self.bar_rect(x, x + 24, y, kind), f"the tightest row is {kind}"))
        self.legend_of(entries, self.legend_top)

    def stretch_told(self, stretch):
        """A stretch of speeds with the same tightest row, in words."""
        first, last = stretch.first, stretch.after - 1
        slack = self.verdicts.slack
        speeds = f"At G = {many(first, 'work unit')}" if first == last else f"From G = {figure(first)} to {many(last, 'work unit')}"
        slacks = many(slack[first], "slot") if slack[first] == slack[last] else f"{figure(slack[first])} to {figure(slack[last])} slots"
        return f"{speeds} per slot row {stretch.figure}, {level(self.verdicts.rows[stretch.figure])}, is the tightest, its slack {slacks}."

    def drawn(self):
        self.heading_lines()
        self.regions()
        self.axes()
        self.steps()
        self.marked()
        self.step_figures()
        self.strip()
        self.legend()
        told = [self.stretch_told(stretch) for stretch in self.tightest]
        if len(told) > 40:
            told[20:-20] = ["And so on."]
        return self.svg(" ".join([self.title + ".", *self.lines, *told]))

    def patterns(self):
        return [LOW_PATTERN]
