#!/usr/bin/env python3
"""Draws a run of a sheet, its rows left if no order is correct, or how slow the processor may be for it, as an SVG picture.

    draw.py SHEET [{--row | --promise} R] [--order R,R,..] [--supplies WORD ..] OUT.svg
    draw.py SHEET --speeds [--order R,R,..] OUT.svg

--row R         the row asked about, which is marked. Without --supplies its
                worst run is drawn: every slot supplies exactly N work units if
                the row is LO, exactly G if it is HI, until all rows are closed.
                In it late LO rows go on, since plans do not count on their
                being dropped; in all other runs they are dropped at their
                deadlines, as on the plotter.
--promise R     the same for the promised part of a LO row: the run in which it is
                judged, in which every slot supplies exactly G work units. The
                slots that bring a promised part have a dashed edge, in every run,
                and a flag stands where it is got.
--supplies ..   a run of your own: each word is the supply of one slot in work
                units, or COUNTxSUPPLY for COUNT slots that supply SUPPLY each.
--order R,R,..  the order to draw, highest place first. Without it the sheet is
                planned.

Without --row, --promise and --supplies every slot supplies exactly N. In every
run an arrow goes from the closing of a row to the first slot of one that
follows it.

A sheet of which no order is correct has no planned one to draw. Without options
the rows left are drawn instead, with how many slots each is short when all the
others stand above it, and what may be concluded from that; the command's words go
to standard error, and the exit status is 1. With --row, --promise or --supplies, but
without --order, nothing is drawn then.

--speeds        instead of a run: the slack of the tightest row against the
                degraded speed G, from 1 to N work units per slot, under one
                order: the one given, else the planned one at the least G that
                has a correct order. The least workable G is marked, and so is
                the least G at which a given order is correct, if it is another.

Order, worst finishes, slacks and run come from the proved archive by way of the command
jasminebrace beside this file; nothing is planned, run or checked here. What the
command refuses is told in its own words with its own exit status: 1 no correct
order exists (see above for what is drawn then), 2 the sheet, the order or a supply is
refused, 3 an argument or a file cannot be used.
"""

import os
import sys
from collections import namedtuple

# The package beside this file is found even where Python does not look there of itself, and leaves no compiled files in the tree.
sys.path.insert(0, os.path.dirname(os.path.realpath(__file__)))
sys.dont_write_bytecode = True

from pictures.asking import NO_ORDER, NOT_USABLE, Command, Stopped
from pictures.left_picture import LeftPicture, rows_left_of
from pictures.run import run_of
from pictures.run_picture import RunPicture
from pictures.speed_picture import SpeedPicture
from pictures.verdicts import verdicts_of
from pictures.words import lines_of, lines_of_verdicts

COMMAND = os.path.join(os.path.dirname(os.path.abspath(__file__)), "jasminebrace")

Given = namedtuple("Given", "sheet row promise order supplies speeds output")


def given_by(words):
    """What the command line asks for: the sheet first, the picture last, options between."""
    if len(words) < 2:
        raise Stopped(NOT_USABLE, usage())
    sheet, *rest, output = words
    if not output.endswith(".svg"):
        raise Stopped(NOT_USABLE, f"the picture's name does not end in .svg: '{output}'\n{usage()}")
    found = {"--row": "", "--promise": "", "--order": "", "--supplies": [], "--speeds": False}
    while rest:
        option, *rest = rest
        if option not in found or found[option]:
            raise Stopped(NOT_USABLE, f"'{option}' is no option, or is given twice\n{usage()}")
        if option == "--speeds":
            found[option] = True
            continue
        taken = len(rest) if option == "--supplies" else min(1, len(rest))
        while option == "--supplies" and any(word in found for word in rest[:taken]):
            taken -= 1
        if not taken or rest[0] in found:
            raise Stopped(NOT_USABLE, f"nothing follows {option}\n{usage()}")
        found[option] = rest[:taken] if option == "--supplies" else rest[0]
        rest = rest[taken:]
    row = found["--row"] or found["--promise"]
    if found["--row"] and found["--promise"]:
        raise Stopped(NOT_USABLE, f"--row and --promise do not go together\n{usage()}")
    if row and not (row.isascii() and row.isdigit() and int(row)):
        raise Stopped(NOT_USABLE, f"'{row}' is no row number")
    if found["--speeds"] and (row or found["--supplies"]):
        raise Stopped(NOT_USABLE, f"--speeds draws no run: --row, --promise and --supplies do not go with it\n{usage()}")
    return Given(sheet, int(row or 0), bool(found["--promise"]), found["--order"], found["--supplies"], found["--speeds"], output)


def usage():
    return "usage:" + "\n      ".join(line[3:] for line in __doc__.split("\n")[2:4])


def picture_of(given):
    """The text of the picture that the command line asks for, and the exit status that goes with it."""
    command = Command(COMMAND, given.sheet)
    if given.speeds:
        verdicts = verdicts_of(command, given)
        return SpeedPicture(verdicts, lines_of_verdicts(verdicts, given)).drawn(), 0
    try:
        run, title = run_of(command, given)
    except Stopped as reason:
        if reason.status != NO_ORDER:
            raise
        return picture_without_order(command, given), NO_ORDER
    return RunPicture(run, given.row, title, lines_of(run, given.row, given)).drawn(), 0


def picture_without_order(command, given):
    """The rows left, unless a run was asked for."""
    if given.row or given.supplies:
        raise Stopped(NO_ORDER, "a run needs an order: give one by --order; without options the rows left are drawn")
    return LeftPicture(rows_left_of(command)).drawn()


def main():
    words = sys.argv[1:]
    if "--help" in words:
        print(__doc__, end="")
        return 0
    try:
        given = given_by(words)
        text, status = picture_of(given)
        with open(given.output, "w", encoding="utf-8", newline="\n") as file:
            file.write(text)
    except (Stopped, OSError) as reason:
        words = str(reason) if isinstance(reason, Stopped) else f"{reason.filename} cannot be used: {reason.strerror}"
        if words:
            print(f"draw.py: {words}", file=sys.stderr)
        return getattr(reason, "status", NOT_USABLE)
    return status


if __name__ == "__main__":
    sys.exit(main())
