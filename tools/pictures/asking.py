"""The command jasminebrace, asked about one sheet, and its answers as figures."""

import copy
import os
import subprocess
import sys
from collections import namedtuple

from pictures.stretches import Ran

NO_ORDER, NOT_USABLE = 1, 3  # exit statuses
LAST_DEADLINE = 1_000_000  # slots; no sheet has a later one
AT_DEADLINE = "dropped at deadline"
CLOSED = {1: "done", 2: "dropped", 3: "late", 4: AT_DEADLINE, 5: AT_DEADLINE}

# Slots, work units, slots, HI or not, work units, row number (0: none).
Row = namedtuple("Row", "release work deadline high promised follows")
# A row left, with all other rows left above it: worst finish, slack, how much that is below 0, clock of its promised part at exactly G (0: none),
# all in slots; and the lowest row left that follows it (0: none).
Left = namedtuple("Left", "finish slack late promised follower")
# What became of a row: at which clock it closed (0 while it is open), how: "done", "late", "dropped" (its slots used up), AT_DEADLINE or
# "open"; and the clock at which it got its promised part (0: it did not, or has none).
Outcome = namedtuple("Outcome", "closing how promised")


class Stopped(Exception):
    """Nothing is drawn: the exit status, and the reason unless the command has told it."""

    def __init__(self, status, reason=""):
        super().__init__(reason)
        self.status = status


class Command:
    """The command jasminebrace on one sheet."""

    def __init__(self, program, sheet):
        self.program, self.sheet, self.bytes = program, sheet, b""
        if sheet == "-":
            self.bytes = sys.stdin.buffer.read()
        elif os.path.exists(sheet) and not os.path.isfile(sheet) and not os.path.isdir(sheet):
            with open(sheet, "rb") as pipe:  # it can be read only once
                self.sheet, self.bytes = "-", pipe.read()

    def ask(self, *words, quietly=False, expected=0):
        """The figures of each line that the command answers with, without the first line. Any status but the expected one ends everything."""
        name, *rest = words
        errors = subprocess.DEVNULL if quietly else None
        call = [self.program, name, "--plain", self.sheet, *rest]
        try:
            done = subprocess.run(call, input=self.bytes, stdout=subprocess.PIPE, stderr=errors, check=False)
        except OSError as reason:
            raise Stopped(NOT_USABLE, f"{self.program} cannot be run: {reason.strerror}") from reason
        if done.returncode != expected:
            raise Stopped(done.returncode)
        return [fields(line) for line in done.stdout.decode("ascii").splitlines()[1:]]

    def lines(self):
        """The lines of a sheet that the command has accepted."""
        text = self.bytes
        if self.sheet != "-":
            with open(self.sheet, "rb") as file:
                text = file.read()
        return text.decode("ascii").splitlines()

    def late_rows_going_on(self):
        """The command on the same sheet with the last deadline there is for each LO row, so that no earlier one drops it in a run."""
        first, *rows = self.lines()
        moved = [row if fields(row)[3] == 1 else f"{row[:16]}{LAST_DEADLINE:8}{row[24:]}" for row in rows]
        other = copy.copy(self)
        other.sheet, other.bytes = "-", "".join(line + "\n" for line in [first, *moved]).encode("ascii")
        return other

    def table(self):
        """N, G, K and the rows of a sheet that the command has accepted."""
        first, *rows = self.lines()
        _, normal, degraded, loading = fields(first)
        rows = {number: Row(a, c, d, level == 1, r, w) for number, (a, c, d, level, r, w) in enumerate(map(fields, rows), 1)}
        return normal, degraded, loading, rows

    def planned(self):
        """The planned order, with commas between."""
        return ",".join(str(row) for _, row, _ in self.ask("plan"))

    def left(self):
        """A line for each row left of a sheet without a correct order, by row, without the command's words: they were told by planning it."""
        lines = self.ask("left", quietly=True, expected=NO_ORDER)
        return {
            row: Left(finish, before - after, after, promised, follower) for row, finish, _, before, after, promised, follower in lines
        }

    def slacks(self, order, quietly=False):
        """An order, the one at the least G unless one is given, and its tightest row and that row's slack by G."""
        lines = self.ask("speeds", "--slacks", *([order] if order else []), quietly=quietly)
        taken = [row for _, row in (line for line in lines if len(line) == 2)]
        by_speed = {speed: (row, before - after) for speed, row, before, after in lines[len(taken) :]}
        return taken, by_speed

    def stretches(self, order, supplies):
        """The stretches of rows in a run, and what became of each row."""
        ran, outcome = [], {row: Outcome(0, "open", 0) for row in places(order)}
        for first, count, row, how, loading, promised in self.ask("run", "--order", order, "--stretches", *supplies):
            if count:
                ran.append(Ran(first, first + count, row, loading))
            if how:
                outcome[row] = outcome[row]._replace(closing=first + count, how=CLOSED[how])
            if promised:
                outcome[row] = outcome[row]._replace(promised=promised)
        return ran, outcome


def places(order):
    """The rows of an order that the command has accepted, highest place first."""
    return [int(row) for row in order.replace(",", " ").split()]


def fields(line):
    """The figures of a line of 8-byte fields."""
    return [int(line[at : at + 8]) for at in range(0, len(line), 8)]
