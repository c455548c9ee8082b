"""Where the parts of a run's picture stand: columns, lanes and bands, and the time axis."""

from collections import namedtuple

from pictures.asking import AT_DEADLINE
from pictures.lanes import LaneDrawing
from pictures.measures import GAP, HEADING, MARGIN, TICK, figure, layout, tick_step, width_of
from pictures.run import any_promised, any_waits, highest
from pictures.words import closing, followed, level

PANEL = 72  # height of the supplies

# A column: the lines of its heading, what stands in it for a run, a place and a row, and whether that is bad news.
Column = namedtuple("Column", "heading cell right_aligned bad", defaults=[lambda run, row: False])


def columns_before(run):
    promised = Column(["promised,", "work", "units"], lambda run, place, row: figure(run.rows[row].promised), True)
    follows = Column(["follows", "row"], lambda run, place, row: followed(run.rows[row]), True)
    return [
        Column(["place"], lambda run, place, row: str(place), True),
        Column(["row"], lambda run, place, row: str(row), True),
        *([follows] if any_waits(run) else []),
        Column(["level"], lambda run, place, row: level(run.rows[row]), False),
        Column(["work,", "work", "units"], lambda run, place, row: figure(run.rows[row].work), True),
        *([promised] if any_promised(run) else []),
        Column(["release,", "slots"], lambda run, place, row: figure(run.rows[row].release), True),
        Column(["deadline,", "slots"], lambda run, place, row: figure(run.rows[row].deadline), True),
    ]


def columns_after(run):
    moment = Column(["promised", "at G,", "slots"], lambda run, place, row: figure(run.moment[row]) if run.moment[row] else "\u2013", True)

    def lost(run, row):
        return run.outcome[row].how in ("late", "dropped", AT_DEADLINE)

    def below_zero(run, row):
        return run.slack[row] < 0

    return [
        Column(["closing,", "slots"], lambda run, place, row: closing(run.outcome[row]), True),
        Column(["in this", "run"], lambda run, place, row: run.outcome[row].how, False, lost),
        Column(["worst", "finish,", "slots"], lambda run, place, row: figure(run.finish[row]), True),
        *([moment] if any_promised(run) else []),
        Column(["slack,", "slots"], lambda run, place, row: figure(run.slack[row]), True, below_zero),
    ]


def axis_end(run):
    """The slots that the axis shows: the run, and deadlines that are not much later."""
    worked = max(1, run.slots)
    near = [row.deadline for row in run.rows.values() if row.deadline <= worked + max(1, worked // 2)]
    return max([worked, *near])


class RunLayout(LaneDrawing):
    """The picture of a run before anything is drawn."""

    def __init__(self, run, asked, title, lines):
        super().__init__(title, lines)
        self.run, self.asked = run, asked
        self.lane, self.bar, self.mark, self.plot = layout(len(run.order))
        self.slots = axis_end(run)
        self.step = tick_step(self.slots, self.plot)
        self.most = 1.2 * max(run.normal, min(highest(run), 2 * run.normal))  # the top of the scale of supplies
        self.beyond = [row.deadline for row in run.rows.values() if row.deadline > self.slots]
        self.place_columns()
        self.place_bands()

    def place_columns(self):
        """Column edges from left to right; the plot stands between the two groups of columns."""
        x = MARGIN + 14
        self.before, x = self.placed(columns_before(self.run), x)
        self.left = x + 4
        self.right = self.left + self.plot
        x = self.right + max(GAP, width_of(figure(self.slots)) / 2 + 4)
        self.beyond_left = self.right + 14
        if self.beyond:
            widths = [width_of(words, bold=True) for words in ["deadline", *map(figure, self.beyond)]]
            x = max(x, self.beyond_left + max(widths) + GAP)
        self.after, x = self.placed(columns_after(self.run), x)
        self.width = round(x - GAP + MARGIN)

    def placed(self, columns, x):
        """Each column with the x that its words are aligned at, and the x after the last."""
        found = []
        for column in columns:
            cells = [column.cell(self.run, place, row) for place, row in enumerate(self.run.order, 1)]
            width = max([width_of(words, bold=True) for words in column.heading + cells])
            found.append((column, x + width if column.right_aligned else x))
            x += width + GAP
        return found, x

    def place_bands(self):
        """Bands from top to bottom: title, supplies, headings, tick labels, lanes, idle time, tick labels, legend."""
        self.panel_top = self.below_lines() + 18
        self.panel_bottom = self.panel_top + PANEL
        self.heading_top = self.panel_bottom + 14
        self.top = self.heading_top + 3 * HEADING + TICK
        self.idle_y = self.top + self.lane * (len(self.run.order) + 0.5)
        self.bottom = self.top + self.lane * (len(self.run.order) + 1)
        self.legend_top = self.bottom + TICK + 22

    def x(self, slot):
        return self.left + self.plot * slot / self.slots

    def supply_y(self, supply):
        return self.panel_bottom - PANEL * min(supply, self.most) / self.most
