"""The picture of a run: its supplies, and a lane for each row."""

from html import escape

from pictures.asking import AT_DEADLINE
from pictures.measures import HEADING, MARGIN, figure, many, width_of
from pictures.run import any_promised, any_waits, highest, lowest
from pictures.run_layout import PANEL, RunLayout
from pictures.styles import (
    ASKED,
    ASKED_EDGE,
    BOLD,
    GRID,
    GROUND,
    HALO,
    IDLE_PATTERN,
    INK,
    LOW_PATTERN,
    PAPER,
    PROMISED,
    SOFT,
    SUPPLY,
    WAIT,
    WINDOW,
    WRONG,
    loading_patterns,
)
from pictures.words import level, sentence, slots_told, supplies_told

STEPS = 1200  # supplies that are still drawn one by one; more are drawn as a band
PROMISED_EDGE = f'fill="none" stroke="{PROMISED}" stroke-width="1.8" stroke-dasharray="4 2"'
WAIT_LINE = f'fill="none" stroke="{WAIT}" stroke-width="2"'
ASKED_LANE = f'fill="{ASKED}" stroke="{ASKED_EDGE}" stroke-width="1.4"'


class RunPicture(RunLayout):
    """A run."""

    # Marks besides those of all lanes; the legend draws the same ones.

    def beyond_mark(self, x, y):
        self.path([(x, y - 4), (x + 7, y), (x, y + 4)], f'fill="{INK}"')

    def promised_edge(self, x1, x2, y):
        low, high = y - self.bar / 2 - 2, y + self.bar / 2 + 2
        self.path([(x1, low), (x2, low), (x2, high), (x1, high)], PROMISED_EDGE)

    def wait_arrow(self, points):
        """A line with a head at its last point, which is level if the line ends so, and upright if not."""
        size = 4 * self.mark
        (_, y1), (x, y) = points[-2:]
        level_head = [(x - 2 * size, y - size), (x - 2 * size, y + size)]
        upright_head = [(x - size, y - 2 * size), (x + size, y - 2 * size)]
        self.path(points, WAIT_LINE, closed=False)
        self.path([(x, y), *(level_head if y1 == y else upright_head)], f'fill="{WAIT}"')

    def wait_points(self, number, first):
        """From the closing of the row that a row follows down to the lane of this one, and along it to its first slot if that is later."""
        followed = self.run.rows[number].follows
        x1, x2 = self.x(self.run.outcome[followed].closing), self.x(first)
        y1, y2 = self.lane_y(followed) + 5.4 * self.mark, self.lane_y(number)
        if x2 - x1 > 12 * self.mark:
            return [(x1, y1), (x1, y2), (x2, y2)]
        return [(x1, y1), (x2, y2 - self.bar / 2)]

    def lane_y(self, number):
        """The middle of a row's lane."""
        return self.top + self.lane * (self.run.order.index(number) + 0.5)

    def stretch_bars(self, stretch, y, kind):
        """The slots of a row that runs: its loading slots first, if there are any, then those that bring work."""
        first, working, after = stretch.first, stretch.first + stretch.loading, stretch.after
        if first < working:
            self.bar_rect(self.x(first), self.x(working), y, kind + " loading")
        if working < after:
            self.bar_rect(self.x(working), self.x(after), y, kind)

    def promised_part(self, stretches, outcome, y):
        """A dashed edge around the slots that bring a row its promised part, and the flag where it has it."""
        end = outcome.promised or self.slots
        for stretch in stretches:
            working, after = stretch.first + stretch.loading, min(stretch.after, end)
            if working < after:
                self.promised_edge(self.x(working), self.x(after), y)
        if outcome.promised:
            self.promise_mark(self.x(outcome.promised), y)

    def loading_mark(self, x, y):
        self.bar_rect(x, x + 12, y, "HI loading")
        self.bar_rect(x + 12, x + 24, y, "LO loading")

    # Parts of the picture, from top to bottom.

    def supplies(self):
        run, bottom, crowded = self.run, self.panel_bottom, len(self.run.supplied) > STEPS
        self.rect(self.left, self.panel_top, self.plot, PANEL, GROUND)
        self.grid(self.panel_top, bottom)
        if crowded:
            self.supply_band()
        else:
            self.supply_steps()
        self.line(self.left, bottom, self.right, bottom, f'stroke="{INK}"')
        for speed, dashes in ((run.normal, "7 3"), (run.degraded, "2 3")):
            y = self.supply_y(speed)
            self.line(self.left, y, self.right, y, f'stroke="{INK}" stroke-dasharray="{dashes}"')
        if not crowded:
            self.supply_figures()
        equal = run.normal == run.degraded
        self.text(self.left - 8, self.supply_y(run.normal) + 4, f"N = {'G = ' if equal else ''}{figure(run.normal)}", "end")
        if not equal:
            self.text(self.right + 8, self.supply_y(run.degraded) + 4, f"G = {figure(run.degraded)}")
        self.text(self.left - 8, bottom + 4, "0", "end")
        told = ["work units per slot", f"highest in this run: {figure(highest(run))}", f"lowest in this run: {figure(lowest(run))}"]
        if crowded:
            told.append("band: from lowest to highest")
        self.text(MARGIN + 14, self.panel_top + 12, "supply,", style=BOLD)
        for index, words in enumerate(told):
            self.text(MARGIN + 14, self.panel_top + 28 + 15 * index, words, colour=SOFT)

    def supply_steps(self):
        points = []
        for first, after, supply in self.run.supplied:
            points += [(self.x(first), self.supply_y(supply)), (self.x(after), self.supply_y(supply))]
        ground = [(points[0][0], self.panel_bottom), *points, (points[-1][0], self.panel_bottom)]
        self.path(ground, f'fill="{SUPPLY}" fill-opacity="0.14"')
        self.path(points, f'fill="none" stroke="{SUPPLY}" stroke-width="2.2"', closed=False)

    def supply_figures(self):
        """The figure of each supply where there is room, with an arrow if it is above the scale."""
        for first, after, supply in self.run.supplied:
            words = figure(supply) + (" \u2191" if supply > self.most else "")
            if self.x(after) - self.x(first) >= width_of(words, bold=True) + 4:
                y = self.supply_y(supply)
                y = y - 5 if y - 5 > self.panel_top + 8 else y + 15
                self.text((self.x(first) + self.x(after)) / 2, y, words, "middle", SUPPLY, HALO)

    def supply_band(self):
        """Supplies that change too often to be seen one by one: for each pixel from the lowest to the highest."""
        low, high = {}, {}
        for first, after, supply in self.run.supplied:
            for pixel in range(int(self.x(first)), int(self.x(after)) + 1):
                low[pixel] = min(low.get(pixel, supply), supply)
                high[pixel] = max(high.get(pixel, supply), supply)
        upper = [(pixel, self.supply_y(high[pixel])) for pixel in sorted(high)]
        lower = [(pixel, self.supply_y(low[pixel])) for pixel in sorted(low, reverse=True)]
        self.path([*upper, *lower], f'fill="{SUPPLY}" fill-opacity="0.55" stroke="{SUPPLY}"')

    def headings(self):
        for column, x in self.before + self.after:
            self.heading(x, column.heading, "end" if column.right_aligned else "start")
        if self.beyond:
            self.heading(self.beyond_left, ["deadline", "beyond,", "slots"], "start")
        self.text((self.left + self.right) / 2, self.heading_top + 3 * HEADING - 4, "clock, slots", "middle", style=BOLD)

    def grid(self, top, bottom):
        for slot in range(0, self.slots + 1, self.step):
            self.line(self.x(slot), top, self.x(slot), bottom, GRID)

    def ticks(self):
        self.grid(self.top - 3, self.bottom + 3)
        for slot in range(0, self.slots + 1, self.step):
            x = self.x(slot)
            self.text(x, self.top - 6, figure(slot), "middle")
            self.text(x, self.bottom + 16, figure(slot), "middle")

    def lanes(self):
        for index in range(len(self.run.order) + 2):
            y = self.top + self.lane * index
            self.line(MARGIN, y, self.width - MARGIN, y, GRID)
        if self.asked:
            top = self.top + self.lane * self.run.order.index(self.asked)
            self.rect(MARGIN - 9, top, self.width - 2 * MARGIN + 18, self.lane, ASKED_LANE)

    def job(self, place, number, stretches):
        run, row, outcome = self.run, self.run.rows[number], self.run.outcome[number]
        y = self.lane_y(number)
        style = BOLD if number == self.asked else ""
        if number == self.asked:
            self.path([(MARGIN - 4, y - 6), (MARGIN + 6, y), (MARGIN - 4, y + 6)], f'fill="{INK}"')
        for column, x in self.before + self.after:
            anchor = "end" if column.right_aligned else "start"
            colour = WRONG if column.bad(run, number) else INK
            self.text(x, y + 4, column.cell(run, place, number), anchor, colour, style)
        if row.release < self.slots:
            end = min(row.deadline, self.slots)
            window = PAPER if number == self.asked else WINDOW
            self.rect(self.x(row.release), y - self.bar / 2 - 3, self.x(end) - self.x(row.release), self.bar + 6, f'fill="{window}"')
        for stretch in stretches:
            self.stretch_bars(stretch, y, level(row))
            self.slot_edges(stretch, y)
        if row.promised:
            self.promised_part(stretches, outcome, y)
        if row.release <= self.slots:
            self.release_mark(self.x(row.release), y)
        if row.deadline <= self.slots:
            self.deadline_mark(self.x(row.deadline), y)
        else:
            self.beyond_mark(self.right + 3, y)
            self.text(self.beyond_left, y + 4, figure(row.deadline), style=style)
        if outcome.closing:
            self.closing_mark(self.x(outcome.closing), y, outcome.how)

    def waits(self, by_row):
        """The arrows to followers that run, over all lanes: each on paper, so that it is seen on bars, and none on the paper of another."""
        rows = self.run.rows
        ran = [row for row in self.run.order if rows[row].follows and by_row[row] and self.run.outcome[rows[row].follows].closing]
        arrows = {row: self.wait_points(row, by_row[row][0].first) for row in ran}
        for points in arrows.values():
            self.path(points, f'fill="none" stroke="{PAPER}" stroke-width="5"', closed=False)
        for row, points in arrows.items():
            self.add(f'<g id="wait-{row}">')
            self.wait_arrow(points)
            self.add("</g>")

    def slot_edges(self, stretch, y):
        """Light lines at the ticks inside of a stretch."""
        for slot in range((stretch.first // self.step + 1) * self.step, stretch.after, self.step):
            x = self.x(slot)
            self.line(x, y - self.bar / 2, x, y + self.bar / 2, f'stroke="{PAPER}" stroke-width="1.2"')

    def idle(self, stretches):
        self.text(self.left - 8, self.idle_y + 4, "idle", "end", SOFT)
        for stretch in stretches:
            self.bar_rect(self.x(stretch.first), self.x(stretch.after), self.idle_y, "idle")
        count = sum(stretch.after - stretch.first for stretch in stretches)
        x = self.after[0][1] - width_of("closing,", bold=True)
        self.text(x, self.idle_y + 4, f"{many(count, 'idle slot')}", colour=SOFT)

    def legend(self):
        entries = [
            (lambda x, y: self.bar_rect(x, x + 24, y, "HI"), "a HI row runs"),
            (lambda x, y: self.bar_rect(x, x + 24, y, "LO"), "a LO row runs"),
            (lambda x, y: self.bar_rect(x, x + 24, y, "idle"), "idle: no row is released and open"),
            (lambda x, y: self.rect(x, y - self.bar / 2 - 3, 24, self.bar + 6, f'fill="{WINDOW}"'), "from release to deadline"),
            (lambda x, y: self.release_mark(x + 12, y), "release"),
            (lambda x, y: self.deadline_mark(x + 12, y), "deadline"),
            (lambda x, y: self.closing_mark(x + 12, y, "done"), "done in time"),
            (lambda x, y: self.closing_mark(x + 12, y, "late"), "late: done after its deadline"),
            (lambda x, y: self.closing_mark(x + 12, y, "dropped"), "dropped: LO, its slots used up without being done"),
        ]
        if self.run.loading:
            entries.insert(2, (self.loading_mark, "loading: a row runs, and the slot brings no work"))
        if any_promised(self.run):
            entries.append((lambda x, y: self.promised_edge(x, x + 24, y), "slots that bring the promised part (work units: its column)"))
            entries.append((lambda x, y: self.promise_mark(x + 12, y), "the promised part is got"))
        if any_waits(self.run):
            entries.append((lambda x, y: self.wait_arrow([(x, y - 8), (x, y), (x + 24, y)]), "from the closing of a row to the first slot of its follower"))
        if any(outcome.how == AT_DEADLINE for outcome in self.run.outcome.values()):
            entries.append((lambda x, y: self.closing_mark(x + 12, y, AT_DEADLINE), "dropped at its deadline: LO, not done when the clock reached it"))
        if self.beyond:
            entries.append((lambda x, y: self.beyond_mark(x + 9, y), "the deadline is beyond the axis"))
        if self.asked:
            entries.append((lambda x, y: self.rect(x, y - 7, 24, 14, ASKED_LANE), "the row asked about"))
        self.legend_of(entries, self.legend_top)

    def drawn(self):
        run = self.run
        by_row = {row: [] for row in [0, *run.order]}
        for stretch in run.ran:
            by_row[stretch.row].append(stretch)
        self.heading_lines()
        self.lanes()
        self.ticks()
        self.supplies()
        self.headings()
        for place, row in enumerate(run.order, 1):
            self.add(f"<g><title>{escape(sentence(run, place, row, by_row[row]))}</title>")
            self.job(place, row, by_row[row])
            self.add("</g>")
        self.waits(by_row)
        self.idle(by_row[0])
        self.legend()
        told = [self.title + ".", *self.lines, supplies_told(run)]
        told += [sentence(run, place, row, by_row[row]) for place, row in enumerate(run.order, 1)]
        idle = ", ".join(slots_told(stretch) for stretch in by_row[0])
        told.append(f"Idle: {idle}." if idle else "No slot is idle.")
        return self.svg(" ".join(told))

    def patterns(self):
        return [LOW_PATTERN, IDLE_PATTERN, *(loading_patterns() if self.run.loading else [])]
