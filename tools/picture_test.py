#!/usr/bin/env python3
"""Looks at pictures of tools/draw.py without a browser.

    picture_test.py PICTURE MARKS ROW SHEET RAN
    picture_test.py PICTURE MARKS --speeds SHEET SLACKS SPEEDS
    picture_test.py PICTURE MARKS --left SHEET LEFT

PICTURE   an SVG file that draw.py wrote
MARKS     most shapes and words that it may have
ROW       the row that is marked, 0 for none
SHEET     the sheet that it shows
RAN       the lines of `jasminebrace run --plain --stretches` for the run that it shows, as a file; of a worst run, those for the sheet in
          which each LO row has the last deadline there is, since late LO rows go on in it
SLACKS    the lines of `jasminebrace speeds --slacks --plain` for the order that it shows, as a file
SPEEDS    the lines of `jasminebrace speeds --plain`, as a file: the least G of the sheet is the second figure of the first
LEFT      the lines of `jasminebrace left --plain`, as a file

Says what is wrong and ends with 1, or ends with 0. Every picture is well formed and has a title and a description for screen readers, no two
words overlap and none leaves the picture. In that of a run every closing of the command is told once and has the one mark of its kind at its
clock, each row's bars stand in the slots that it ran, as loading ones in its loading slots and nowhere else, a promised part has its flag at the
clock at which the command says that it is got and dashed edges around the slots up to there, an arrow goes from the closing of a followed row to
the first slot of its follower, if there are both, and the rows followed stand in a column of their own, loading, promised parts, waits and rows
dropped at their deadlines are in the legend exactly if there are any, and the row asked about is marked; in its worst run it closes at its worst
finish, or has got its promised part when that is due at exactly G. In that of speeds the axes have their units and round ticks, the line has the command's slack at each G, or the G is said to be off the
scale, the least workable G is marked with its figure, and so is the least G at which the order is correct if that is another, at which the
ground of the G that are not enough ends, and the tightest rows stand in their speeds. In that of rows left each has a lane, and no other row:
its release, its deadline, its worst finish and its promised part are marked where the command has them, the slots from its deadline on that it is
short are marked exactly if there are any, and told with their figure, a row left that follows it is named exactly if there is one, and the
words say that no order is correct, what has to change, and what is not said.
"""

import os
import re
import sys
import xml.etree.ElementTree as ElementTree
from collections import namedtuple

# The widths of letters are those of the pictures. Their package is beside this file, and no compiled files of it are left in the tree.
sys.path.insert(0, os.path.dirname(os.path.abspath(__file__)))
sys.dont_write_bytecode = True

from pictures.measures import FONT, width_of

SVG = "{http://www.w3.org/2000/svg}"
OUTCOMES = {1: "done", 2: "dropped", 3: "late", 4: "dropped at deadline", 5: "dropped at deadline"}
WRONG = "#b00020"  # what marks of rows that are not done in time are drawn in
PROMISED = "#5b21b6"  # what flags and edges of promised parts are drawn in
WAIT = "#0b6e69"  # what arrows to followers are drawn in
INK, WINDOW = "#1f2328", "#eceff2"  # what releases and deadlines are drawn in, and the slots between them
NEAR = 0.3  # pixels by which a place may differ, since coordinates are rounded
NARROWEST = 0.8  # width in pixels of a bar that would be narrower

# A stretch of slots as the command tells it: its first slot, slots, row, how the row closed, loading slots, which are its first ones, and the
# clock at which the row got its promised part, 0 if not in it. One of no slots is a row that was dropped at its deadline while another one ran.
Stretch = namedtuple("Stretch", "first count row how loading promised")
# How a row closed, and at which clock in slots, 0 while it is open.
Closing = namedtuple("Closing", "how clock")


def boxes(root):
    """Each text with its left, top, right and bottom, in pixels."""
    found = []
    for text in root.iter(SVG + "text"):
        size = float(text.get("font-size", FONT))
        width = width_of(text.text, text.get("font-weight") == "bold") * size / FONT
        x, y = float(text.get("x")), float(text.get("y"))
        left = x - {"start": 0, "middle": width / 2, "end": width}[text.get("text-anchor", "start")]
        found.append((text.text, left, y - 0.76 * size, left + width, y + 0.2 * size))
    return found


def overlap(one, other):
    return one[1] < other[3] and other[1] < one[3] and one[2] < other[4] and other[2] < one[4]


def common_faults(root, most):
    """What no picture may have."""
    width, height = float(root.get("width")), float(root.get("height"))
    texts = boxes(root)
    for text in texts:
        if text[1] < 0 or text[2] < 0 or text[3] > width or text[4] > height:
            yield f"'{text[0]}' leaves the picture"
    for index, one in enumerate(texts):
        for other in texts[index + 1 :]:
            if overlap(one, other):
                yield f"'{one[0]}' and '{other[0]}' overlap"
    count = sum(1 for _ in root.iter())
    if count > most:
        yield f"{count} shapes and words, more than {most}"
    title, told = root.find(SVG + "title"), root.find(SVG + "desc")
    if root.get("role") != "img" or title is None or told is None or root.get("aria-labelledby") != f"{title.get('id')} {told.get('id')}":
        yield "no title and description for screen readers"


def run_faults(root, asked, sheet, ran):
    told = root.find(SVG + "desc")
    lanes = [lane for lane in root.iter(SVG + "g") if lane.find(SVG + "title") is not None]
    worst = root.find(SVG + "title").text.startswith("Worst run of row ")
    for_promise = worst and " for its promised part: " in root.find(SVG + "title").text
    loading, deadlines, parts, follows = figures_of(sheet)
    stretches = stretches_of(ran)
    closings = {row_of(lane): closing_of(row_of(lane), stretches, deadlines, worst) for lane in lanes}
    yield from closing_faults(closings, told.text, lanes)
    yield from mark_of_closing_faults(closings, axis(root), root, lanes)
    yield from bar_faults(stretches, axis(root), lanes)
    yield from loading_faults(stretches, loading, root, lanes)
    yield from promise_faults(stretches, parts, axis(root), root, lanes)
    yield from wait_faults(stretches, closings, follows, axis(root), root, lanes)
    yield from wait_word_faults(closings, follows, root, lanes)
    if for_promise:
        yield from promise_run_faults(asked, lanes)
    elif worst:
        yield from worst_run_faults(closings[asked], asked, lanes)
    marked = [row_of(lane) for lane in lanes if any(text.get("font-weight") == "bold" for text in lane.iter(SVG + "text"))]
    if marked != ([asked] if asked else []):
        yield f"rows {marked} are marked, not row {asked}"


def row_of(lane):
    return int(lane.find(SVG + "title").text.split("row ")[1].split(",")[0])


def stretches_of(ran):
    with open(ran, encoding="ascii") as file:
        return [Stretch(*map(int, line.split())) for line in file.read().splitlines()[1:]]


def figures_of(sheet):
    """K of a sheet and the deadline of each row, both in slots, the promised part of each row in work units, and the row that it follows."""
    with open(sheet, encoding="ascii") as file:
        first, *rows = [[int(line[at : at + 8]) for at in range(0, len(line), 8)] for line in file.read().splitlines()]
    return first[3], *({row: line[figure] for row, line in enumerate(rows, 1)} for figure in (2, 4, 5))


def closing_of(row, stretches, deadlines, worst):
    """The closing that the command told of a row. In a worst run it knew another deadline of a LO row: done after its own the row is late,
    and dropped at the other one it is open."""
    for part in stretches:
        if part.row == row and part.how:
            how, clock = OUTCOMES[part.how], part.first + part.count
            if worst and how == OUTCOMES[4]:
                break
            return Closing("late" if worst and how == "done" and clock > deadlines[row] else how, clock)
    return Closing("open", 0)


def closing_faults(closings, told, lanes):
    """The closings against the words of each lane."""
    for lane in lanes:
        row, words = row_of(lane), [text.text for text in lane.iter(SVG + "text")]
        how, clock = closings[row]
        if how not in words or (f"{clock:,}" if clock else "\u2013") not in words:
            yield f"row {row} is {how} at {clock}, and its lane says {words}"
        if lane.find(SVG + "title").text not in told:
            yield f"row {row} is not in the description"


def corners_of(path):
    return [tuple(map(float, point.split(","))) for point in path.get("d").strip("MZ").split(" ")]


def marks_of_closing(lane):
    """The marks of a lane by their shape, each with its middle: a circle, a diamond, a square, or a cross outside a square."""
    found = [("done", float(circle.get("cx"))) for circle in lane.iter(SVG + "circle")]
    for path in lane.iter(SVG + "path"):
        if path.get("fill") == WRONG:
            corners = corners_of(path)
            upright = corners[0][1] == corners[1][1]
            found.append((OUTCOMES[4] if upright else "late", (corners[0][0] + corners[1][0]) / 2 if upright else corners[0][0]))
    crossed = [(float(line.get("x1")) + float(line.get("x2"))) / 2 for line in lane.iter(SVG + "line") if line.get("stroke") == WRONG]
    return found + [("dropped" if len(crossed) == 2 else "part of a cross", x) for x in crossed[::2]]


def mark_of_closing_faults(closings, x, root, lanes):
    """Each closed row has the mark of its kind at its clock, and no other; rows dropped at their deadlines are in the legend if there are any."""
    for lane in lanes:
        row = row_of(lane)
        how, clock = closings[row]
        marks = marks_of_closing(lane)
        if [kind for kind, _ in marks] != ([how] if clock else []) or any(abs(place - x(clock)) > NEAR for _, place in marks):
            yield f"row {row} is {how} at {clock}, and has the marks {marks}"
    named = sum(1 for text in root.iter(SVG + "text") if text.text.startswith("dropped at its deadline: "))
    if named != any(how == OUTCOMES[4] for how, _ in closings.values()):
        yield f"the legend names rows dropped at their deadlines {named} times"


def worst_run_faults(closing, asked, lanes):
    """In its worst run a row closes at its worst finish, if it does not stay open."""
    told = next(lane.find(SVG + "title").text for lane in lanes if row_of(lane) == asked)
    if closing.clock and f"; worst finish {closing.clock:,} slot" not in told:
        yield f"row {asked} closes at {closing.clock} in its worst run, and its lane says: {told}"


def axis(root):
    """Where a slot begins, or a G stands, in pixels, by the first and the last of the lowest tick labels."""
    ticks = [text for text in root.findall(SVG + "text") if text.get("text-anchor") == "middle" and text.text.replace(",", "").isdigit()]
    lowest = max(float(tick.get("y")) for tick in ticks)
    places = {int(tick.text.replace(",", "")): float(tick.get("x")) for tick in ticks if float(tick.get("y")) == lowest}
    return between(places)


def between(places):
    """Where a figure stands, in pixels, by the places of the least and the largest figure that have a label."""
    first, last = min(places), max(places)
    return lambda figure: places[first] + (places[last] - places[first]) * (figure - first) / max(1, last - first)


def expected_bars(stretches, row, x):
    """Left edge and width of each bar of a row, in pixels, and whether it is one of loading slots."""
    for part in stretches:
        if part.row == row:
            working, after = part.first + part.loading, part.first + part.count
            for begin, end, loads in ((part.first, working, True), (working, after, False)):
                if begin < end:
                    yield x(begin), max(x(end) - x(begin), NARROWEST), loads


def bar_faults(stretches, x, lanes):
    """The bars of each lane, which are its rectangles with an edge, and its words, against the slots that its row ran."""
    for lane in lanes:
        row = row_of(lane)
        ran = ", ".join(told_slots(part.first, part.count) for part in stretches if part.row == row and part.count)
        if f"; runs in {ran or 'no slot'}; " not in lane.find(SVG + "title").text:
            yield f"row {row} runs in {ran or 'no slot'}, and its lane says: {lane.find(SVG + 'title').text}"
        edged = [bar for bar in lane.iter(SVG + "rect") if bar.get("stroke")]
        drawn = [(float(bar.get("x")), float(bar.get("width")), bar.get("fill").endswith("-loading)")) for bar in edged]
        expected = list(expected_bars(stretches, row, x))
        if len(drawn) != len(expected):
            yield f"row {row} has {len(drawn)} bars and not {len(expected)}"
        for one, other in zip(drawn, expected):
            if abs(one[0] - other[0]) > NEAR or abs(one[1] - other[1]) > NEAR or one[2] != other[2]:
                yield f"row {row} has a bar (left, width, loading) {one} and not {other}"


def told_slots(first, count):
    return f"slot {first:,}" if count == 1 else f"slots {first:,} to {first + count - 1:,}"


def loading_faults(stretches, loading, root, lanes):
    """Loading in words: each row's loading slots in its lane, and an entry of the legend, exactly if there is loading."""
    for lane in lanes:
        row, words = row_of(lane), lane.find(SVG + "title").text
        slots = [told_slots(part.first, part.loading) for part in stretches if part.row == row and part.loading]
        if loading and f"; loads in {', '.join(slots) or 'no slot'}; " not in words:
            yield f"row {row} loads in {slots}, and its lane says: {words}"
        if not loading and "loads" in words:
            yield f"row {row} is said to load: {words}"
    named = sum(1 for text in root.iter(SVG + "text") if text.text.startswith("loading: "))
    patterns = sum(1 for pattern in root.iter(SVG + "pattern") if pattern.get("id").endswith("-loading"))
    if (named, patterns) != ((1, 2) if loading else (0, 0)):
        yield f"with K {loading} the legend names loading {named} times, and there are {patterns} patterns for it"


def expected_edges(stretches, row, clock, x):
    """Left and right of each dashed edge of a row that gets its promised part at this clock, 0 if it does not."""
    for part in stretches:
        working, after = part.first + part.loading, part.first + part.count
        end = min(after, clock) if clock else after
        if part.row == row and working < end:
            yield x(working), x(end)


def promise_faults(stretches, parts, x, root, lanes):
    """Each promised part: its flag, its edges and its words, exactly if the row has one; and its two entries in the legend."""
    for lane in lanes:
        row, words = row_of(lane), lane.find(SVG + "title").text
        clock = max((part.promised for part in stretches if part.row == row), default=0)
        drawn = [corners_of(path) for path in lane.iter(SVG + "path") if path.get("stroke") == PROMISED and path.get("stroke-dasharray")]
        edges = [(corners[0][0], corners[1][0]) for corners in drawn]
        expected = list(expected_edges(stretches, row, clock, x)) if parts[row] else []
        if len(edges) != len(expected) or any(abs(a - b) > NEAR for one, other in zip(edges, expected) for a, b in zip(one, other)):
            yield f"row {row} has the promised edges {edges} and not {expected}"
        flags = [corners_of(path)[0][0] for path in lane.iter(SVG + "path") if path.get("fill") == PROMISED]
        poles = [float(line.get("x1")) for line in lane.iter(SVG + "line") if line.get("stroke") == PROMISED]
        if [round(place) for place in flags] != [round(place) for place in poles] or len(flags) != (clock != 0):
            yield f"row {row} has its promised part at {clock}, and flags at {flags} on poles at {poles}"
        elif clock and abs(flags[0] - x(clock)) > NEAR:
            yield f"row {row} has its promised part at {clock}, and its flag at {flags[0]}"
        got = f"got after {clock:,} slot" if clock else "not got in this run"
        said = f"; promised part {parts[row]:,} work unit{'' if parts[row] == 1 else 's'}, {got}"
        if (said in words) != (parts[row] != 0) or ("; promised part" in words) != (parts[row] != 0):
            yield f"of row {row} {parts[row]} work units are promised, {got}, and its lane says: {words}"
    legend = ("slots that bring the promised part", "the promised part is got")
    named = [sum(1 for text in root.iter(SVG + "text") if text.text.startswith(entry)) for entry in legend]
    if named != ([1, 1] if any(parts.values()) else [0, 0]):
        yield f"the legend names promised parts {named} times"


def height_of(lane):
    """The middle of a lane, by its words."""
    return float(lane.find(SVG + "text").get("y")) - 4


def arrows_of(root, row):
    """Where the arrows to a follower begin, where their lines end, and the points of their heads."""
    paths = [path for group in root.iter(SVG + "g") if group.get("id") == f"wait-{row}" for path in group.iter(SVG + "path")]
    lines = [corners_of(path) for path in paths if path.get("stroke") == WAIT]
    heads = [corners_of(path)[0] for path in paths if path.get("fill") == WAIT]
    return [line[0] for line in lines], [line[-1] for line in lines], heads


def wait_faults(stretches, closings, follows, x, root, lanes):
    """An arrow from the closing of a followed row, in its lane, to the first slot of its follower, in this one's, exactly if there are both."""
    heights = {row_of(lane): height_of(lane) for lane in lanes}
    for lane in lanes:
        row = row_of(lane)
        ran = [part.first for part in stretches if part.row == row and part.count]
        clock = closings[follows[row]].clock if follows[row] else 0
        begins, ends, heads = arrows_of(root, row)
        if len(begins) != bool(clock and ran) or heads != ends:
            yield f"row {row} follows row {follows[row]}, closed at {clock}, and has arrows from {begins} to {heads}"
        elif begins:
            places = [(x(clock), heights[follows[row]]), (x(ran[0]), heights[row])]
            if any(abs(one[0] - other[0]) > NEAR or abs(one[1] - other[1]) > 10 for one, other in zip([*begins, *heads], places)):
                yield f"row {row} follows row {follows[row]}, and its arrow goes from {begins[0]} to {heads[0]} and not from {places[0]} to {places[1]}"


def wait_word_faults(closings, follows, root, lanes):
    """Waits in words: in the lane of each follower and in its column, and an entry of the legend, exactly if there are any."""
    texts = list(root.iter(SVG + "text"))
    heading = [text.get("x") for text in texts if text.text == "follows"]
    for lane in lanes:
        row, words = row_of(lane), lane.find(SVG + "title").text
        clock = closings[follows[row]].clock if follows[row] else 0
        over = f"closed after {clock:,} slot" if clock else "open at the end"
        if ("; follows row" in words) != bool(follows[row]) or (follows[row] and f"; follows row {follows[row]}, {over}" not in words):
            yield f"row {row} follows row {follows[row]}, {over}, and its lane says: {words}"
        cells = [text.text for text in lane.iter(SVG + "text") if text.get("x") in heading]
        if heading and cells != [str(follows[row]) if follows[row] else "\u2013"]:
            yield f"row {row} follows row {follows[row]}, and its column says {cells}"
    named = sum(1 for text in texts if text.text.startswith("from the closing of a row "))
    if (len(heading), named) != ((1, 1) if any(follows.values()) else (0, 0)):
        yield f"{len(heading)} columns of followed rows, and the legend names arrows {named} times"


def promise_run_faults(asked, lanes):
    """In the run at exactly G a row gets its promised part when it is due at exactly G."""
    told = next(lane.find(SVG + "title").text for lane in lanes if row_of(lane) == asked)
    due = re.search("; promised part [^;]*, got after ([0-9,]+) slots?, at exactly G after ([0-9,]+) slots?; ", told)
    if not due or due.group(1) != due.group(2):
        yield f"row {asked} does not get its promised part when it is due: {told}"


# ---- pictures of speeds ----

# At one G, in work units per slot: the tightest row, and its slack in slots.
Verdict = namedtuple("Verdict", "row slack")


def verdicts_of(slacks):
    """The command's verdict at each G: its lines of four fields of 8 bytes."""
    with open(slacks, encoding="ascii") as file:
        lines = [[int(line[at : at + 8]) for at in range(0, len(line), 8)] for line in file.read().splitlines()]
    return {line[0]: Verdict(line[1], line[2] - line[3]) for line in lines if len(line) == 4}


def number_of(words):
    return int(words.replace(",", "").replace("\u2212", "-"))


def slack_places(root):
    """The height of each label of the scale of slacks."""
    labels = [text for text in root.iter(SVG + "text") if text.get("text-anchor") == "end" and re.fullmatch("\u2212?[0-9,]+", text.text)]
    return {number_of(label.text): float(label.get("y")) - 4 for label in labels}


def is_round(step):
    return step > 0 and re.fullmatch("[125]0*", str(step))


def axis_faults(root, places):
    words = [text.text for text in root.iter(SVG + "text")]
    if "degraded speed G, work units per slot" not in words or "slack of the tightest row, slots" not in " ".join(words):
        yield "an axis has no name or no unit"
    figures = sorted(places)
    steps = {after - before for before, after in zip(figures, figures[1:])}
    if 0 not in places or len(steps) != 1 or not all(map(is_round, steps)):
        yield f"the ticks of the slacks are {figures}"


def level_lines(root):
    """Left, right and height of each level piece of the line of slacks."""
    path = next(path for path in root.iter(SVG + "path") if path.get("id") == "slacks")
    points = [tuple(map(float, point.split(","))) for point in path.get("d")[1:].split(" ")]
    return [(one[0], other[0], one[1]) for one, other in zip(points, points[1:]) if one[1] == other[1] and one[0] < other[0]]


def cut_of(root):
    """What the picture tells of slacks that are off its scale: the least that is on it, the least of all, and its G."""
    told = root.find(SVG + "desc").text
    return re.search("Slacks below (\u2212[0-9,]+) slots? are off the scale.* down to (\u2212[0-9,]+) slots at G = ([0-9,]+) work unit per slot\\.", told)


def lowest_of(root, verdicts):
    """The least slack on the scale."""
    cut = cut_of(root)
    return number_of(cut.group(1)) if cut else min(verdict.slack for verdict in verdicts.values())


def line_faults(root, verdicts, x, y):
    """The line against the slacks: those that are off the scale have no line and are told, and nothing else is."""
    pieces = level_lines(root)
    cut, lowest = cut_of(root), lowest_of(root, verdicts)
    for speed, verdict in verdicts.items():
        heights = {height for left, right, height in pieces if left < x(speed) < right}
        expected = [y(verdict.slack)] if verdict.slack >= lowest else []
        if len(heights) != len(expected) or any(abs(one - other) > NEAR for one, other in zip(heights, expected)):
            yield f"at G = {speed} the line is at {heights} and not at {expected}"
    if cut and (lowest > -10 or number_of(cut.group(3)) != 1 or number_of(cut.group(2)) != verdicts[1].slack):
        yield f"it is not so: {cut.group(0)}"
    zero = [line for line in root.iter(SVG + "line") if line.get("stroke-dasharray") and abs(float(line.get("y1")) - y(0)) < NEAR]
    if len(zero) != 1 or float(zero[0].get("x1")) > x(1) or float(zero[0].get("x2")) < x(len(verdicts)):
        yield "there is no line of slack 0 from side to side"


def centre(mark):
    """The middle of a circle or of a square mark."""
    if mark.get("r"):
        return float(mark.get("cx")), float(mark.get("cy"))
    return float(mark.get("x")) + 5, float(mark.get("y")) + 5


def mark_faults(root, name, tag, speed, words, place):
    """One mark: its words stand above the plot exactly if there is such a G, and a mark on the line of slacks if its slack is on the scale."""
    said = [text.text for text in root.iter(SVG + "text") if text.text.startswith(words) and text.text.endswith((" per slot", " on"))]
    units = f"{speed:,} work unit{'' if speed == 1 else 's'} per slot"
    expected = [f"{words}{units}" + (" on" if name == "order" else "")] if speed else []
    if said != expected:
        yield f"it names {said} and not {expected}"
    marks = [centre(mark) for mark in root.iter(SVG + tag) if mark.get("stroke-width") == "2"]
    if place and not any(abs(left - place[0]) <= NEAR and abs(top - place[1]) <= NEAR for left, top in marks):
        yield f"no mark stands at G = {speed}"
    if not speed and marks:
        yield f"a mark of the {name}, and there is no such G"


def least_faults(root, verdicts, best, x, y):
    """The marks of the least workable G and of the least G for this order, their figures, and the ground of those that are not enough."""
    least = min((speed for speed, verdict in verdicts.items() if verdict.slack >= 0), default=0)
    lowest = lowest_of(root, verdicts)

    def place(speed):
        return (x(speed), y(verdicts[speed].slack)) if speed and verdicts[speed].slack >= lowest else None

    other = least if least != best else 0
    yield from mark_faults(root, "least", "circle", best, "least workable G: ", place(best))
    yield from mark_faults(root, "order", "rect", other, "this order is correct from G = ", place(other))
    ground = [(float(rect.get("x")), float(rect.get("width"))) for rect in root.iter(SVG + "rect") if rect.get("id") == "not-enough"]
    end = x((least or len(verdicts) + 1) - 0.5)
    expected = [(x(0.5), end - x(0.5))] if least != 1 else []
    if len(ground) != len(expected) or any(abs(a - b) > NEAR for one, other in zip(ground, expected) for a, b in zip(one, other)):
        yield f"the ground of what is not enough is {ground} and not {expected}"


def strip_faults(root, verdicts, high, x):
    """The bars of the tightest rows, one for each stretch of speeds, in the fill of their level, with their numbers if they have one."""
    stretches = []
    for speed, verdict in sorted(verdicts.items()):
        if not stretches or stretches[-1][2] != verdict.row:
            stretches.append([speed, speed, verdict.row])
        stretches[-1][1] = speed
    groups = [group for group in root.iter(SVG + "g") if group.find(SVG + "title") is not None]
    if len(groups) != len(stretches):
        yield f"{len(groups)} stretches of tightest rows and not {len(stretches)}"
    for group, (first, last, row) in zip(groups, stretches):
        bar = group.find(SVG + "rect")
        left, width = float(bar.get("x")), float(bar.get("width"))
        named = [text.text for text in group.iter(SVG + "text")]
        if abs(left - x(first - 0.5)) > NEAR or abs(width - max(x(last + 0.5) - x(first - 0.5), NARROWEST)) > NEAR:
            yield f"row {row} is the tightest from G = {first} to {last}, and its bar is at {left}, {width} wide"
        if named not in ([], [str(row)]) or (width > 30 and not named) or f" row {row}, " not in group.find(SVG + "title").text:
            yield f"row {row} is the tightest from G = {first} to {last}, and its bar is named {named}"
        if (bar.get("fill") == "url(#low)") == high[row]:
            yield f"row {row} is the tightest from G = {first} to {last}, and has the fill of the other level"


def speed_faults(root, sheet, slacks, speeds):
    verdicts = verdicts_of(slacks)
    with open(speeds, encoding="ascii") as file:
        best = int(file.readline()[8:16])
    with open(sheet, encoding="ascii") as file:
        high = {row: line[24:32].endswith("1") for row, line in enumerate(file.read().splitlines())}
    places = slack_places(root)
    yield from axis_faults(root, places)
    x, y = columns(root, len(verdicts)), between(places)
    yield from line_faults(root, verdicts, x, y)
    yield from least_faults(root, verdicts, best, x, y)
    yield from strip_faults(root, verdicts, high, x)


def columns(root, normal):
    """Where a G stands, in pixels: in the middle of its column, of which there are N."""
    ground = next(rect for rect in root.iter(SVG + "rect") if rect.get("fill") == "#fafbfc")
    left, width = float(ground.get("x")), float(ground.get("width"))
    place = axis(root)
    return place if normal > 1 else lambda speed: left + width * (speed - 0.5)


# ---- pictures of rows left ----

# A row left: the sheet's release, work, deadline, level (HI or not), promised part and followed row, and the command's worst finish, slots to
# spare, slots short, clock of the promised part (0: none) and lowest row left that follows it (0: none).
Left = namedtuple("Left", "release work deadline high part follows finish spare late promised follower")


def fields_of(name):
    """The figures of each line of a file, in fields of 8 bytes."""
    with open(name, encoding="ascii") as file:
        return [[int(line[at : at + 8]) for at in range(0, len(line), 8)] for line in file.read().splitlines()]


def left_of(sheet, left):
    """The rows left by number, and how many rows the sheet has."""
    rows, lines = fields_of(sheet)[1:], fields_of(left)[1:]
    found = {}
    for row, finish, deadline, spare, late, promised, follower in lines:
        release, work, _, level, part, follows = rows[row - 1]
        found[row] = Left(release, work, deadline, level == 1, part, follows, finish, spare, late, promised, follower)
    return found, len(rows)


def slots_of(count):
    return f"{count:,} slot{'' if count == 1 else 's'}"


def slack_words(of):
    return f"{slots_of(of.late)} short" if of.late else f"{slots_of(of.spare)} to spare"


def differ(places, expected):
    return len(places) != len(expected) or any(abs(one - other) > NEAR for one, other in zip(sorted(places), sorted(expected)))


def rects_of(lane, fill):
    """Left and right edge of each rectangle with this fill."""
    rects = [(float(rect.get("x")), float(rect.get("width"))) for rect in lane.iter(SVG + "rect") if rect.get("fill") == fill]
    return [edge for left, width in rects for edge in (left, left + width)]


def left_place_faults(row, of, lane, x):
    """Where things stand in the lane of a row left."""
    begin, end = x(of.release), x(of.deadline)
    window, short = rects_of(lane, WINDOW), rects_of(lane, "url(#short)")
    if differ(window, [begin, max(end, begin + NARROWEST)]):
        yield f"row {row} has its window at {window} and not from {begin} to {end}"
    expected = [end, max(x(of.deadline + of.late), end + NARROWEST)] if of.late else []
    if differ(short, expected):
        yield f"row {row} is {of.late} slots short, marked at {short} and not at {expected}"
    upright = [float(line.get("x1")) for line in lane.iter(SVG + "line") if line.get("stroke") == INK]
    if differ(upright, [begin, end]):
        yield f"row {row} has its release and its deadline at {upright} and not at {begin} and {end}"
    marks = marks_of_closing(lane)
    kind = "late" if of.finish > of.deadline else "done"
    if [name for name, _ in marks] != [kind] or abs(marks[0][1] - x(of.finish)) > NEAR:
        yield f"row {row} has its worst finish at {of.finish}, {kind}, and the marks {marks}"
    flags = [corners_of(path)[0][0] for path in lane.iter(SVG + "path") if path.get("fill") == PROMISED]
    if differ(flags, [x(of.promised)] if of.promised else []):
        yield f"row {row} has its promised part at {of.promised}, and flags at {flags}"


def left_word_faults(row, of, lane, told):
    """What the lane of a row left says: its cells, its label, and its sentence."""
    words = [text.text for text in lane.iter(SVG + "text")]
    follower = f"row {of.follower} follows it"
    slack = f"\u2212{of.late:,}" if of.late else f"{of.spare:,}"
    cells = [str(row), "HI" if of.high else "LO", *(f"{figure:,}" for figure in (of.work, of.release, of.deadline, of.finish)), slack]
    if any(words.count(cell) < cells.count(cell) for cell in cells):
        yield f"row {row} has {cells}, and its lane says {words}"
    if [text for text in words if text.endswith((" short", " to spare"))] != [slack_words(of)]:
        yield f"row {row} is {slack_words(of)}, and its lane says {words}"
    arrows = sum(1 for path in lane.iter(SVG + "path") if path.get("fill") == WAIT)
    if [text for text in words if text.endswith(" follows it")] != ([follower] if of.follower else []) or arrows != bool(of.follower):
        yield f"row {row} is followed by row {of.follower}, and its lane says {words} with {arrows} arrows"
    sentence = lane.find(SVG + "title").text
    parts = [
        f"Row {row}, {'HI' if of.high else 'LO'}, work {of.work:,} work unit",
        f", release {slots_of(of.release)}, deadline {slots_of(of.deadline)}; ",
        f"worst finish {slots_of(of.finish)}; ",
        f"; {slack_words(of)}" + (f"; {follower}, so it cannot stand lowest." if of.follower else "."),
        *([f"; follows row {of.follows}; "] if of.follows else []),
        *([f"promised part {of.part:,} work unit", f", got after {slots_of(of.promised)} at exactly G; "] if of.promised else []),
    ]
    if sentence not in told or any(part not in sentence for part in parts):
        yield f"row {row} is not told as {parts}: {sentence}"


def left_meaning_faults(root, found, count):
    """The words on what may be concluded, and the legend."""
    told, texts = root.find(SVG + "desc").text, [text.text for text in root.iter(SVG + "text")]
    one, others = len(found) == 1, count - len(found)
    lines = [
        f"As long as {'this row' if one else 'all of these rows'}, N, G and K stay as they are, no order is correct, whatever is done with other rows.",
        "This row has to go or to change, or N, G or K."
        if one
        else "At least one of these rows has to go or to change, or N, G or K; it is not said which, nor that one is enough.",
    ]
    alone = f"The other {'row alone has' if others == 1 else 'rows alone have'} a correct order."
    if any(line not in texts or line not in told for line in lines) or (alone in texts) != (others > 0) or (alone in told) != (others > 0):
        yield f"it is not said what the rows left mean: {told}"
    if not any(text.startswith(f"Rows left: {len(found)} of {count}; N = ") and " per slot" in text for text in texts):
        yield f"it is not said that {len(found)} of {count} rows are left"
    if not root.find(SVG + "title").text.startswith("No order is correct: "):
        yield "the title does not say that no order is correct"
    legend = {
        "the slots that a row is short": True,
        "the promised part is got, at exactly G": any(of.promised for of in found.values()),
        "a row left follows it: it cannot stand lowest among them, with any slack": any(of.follower for of in found.values()),
        "worst finish after the deadline": any(of.finish > of.deadline for of in found.values()),
        "worst finish in time": any(of.finish <= of.deadline for of in found.values()),
    }
    for entry, there in legend.items():
        if texts.count(entry) != there:
            yield f"the legend names '{entry}' {texts.count(entry)} times"
    if "clock, slots" not in texts:
        yield "the axis has no name or no unit"


def left_faults(root, sheet, left):
    found, count = left_of(sheet, left)
    lanes = [lane for lane in root.iter(SVG + "g") if lane.find(SVG + "title") is not None]
    shown = [int(re.match("Row ([0-9]+),", lane.find(SVG + "title").text).group(1)) for lane in lanes]
    if shown != list(found):
        yield f"rows {shown} have lanes and not {list(found)}"
        return
    x, told = axis(root), root.find(SVG + "desc").text
    for lane, (row, of) in zip(lanes, found.items()):
        yield from left_place_faults(row, of, lane, x)
        yield from left_word_faults(row, of, lane, told)
    yield from left_meaning_faults(root, found, count)


def faults(picture, most, *rest):
    root = ElementTree.parse(picture).getroot()
    yield from common_faults(root, int(most))
    if rest[0] == "--speeds":
        yield from speed_faults(root, *rest[1:])
    elif rest[0] == "--left":
        yield from left_faults(root, *rest[1:])
    else:
        asked, sheet, ran = rest
        yield from run_faults(root, int(asked), sheet, ran)


def main():
    picture = sys.argv[1]
    found = list(faults(*sys.argv[1:]))
    for fault in found:
        print(f"{picture}: {fault}", file=sys.stderr)
    return 1 if found else 0


if __name__ == "__main__":
    sys.exit(main())
