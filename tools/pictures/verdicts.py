"""Whether one order is correct at each degraded speed G, put together from what the command answers."""

from collections import namedtuple

from pictures.asking import Stopped

# One order at each G: speeds in work units per slot, K in slots, rows by number, order, tightest row and its slack in slots by G, the least G
# at which the order is correct (0: none), and the least G at which any order is, with that order (0 and none if there is none).
Verdicts = namedtuple("Verdicts", "normal degraded loading rows order tightest slack least best best_order")


def least_of(by_speed):
    """The least G at which the tightest row is not late, 0 if there is none."""
    return min((speed for speed, (_, slack) in by_speed.items() if slack >= 0), default=0)


def verdicts_of(command, given):
    """One order at each G, as the command line asks for it."""
    order, by_speed = command.slacks(given.order)
    least = best = least_of(by_speed)
    best_order = order
    if given.order:
        try:
            best_order, other = command.slacks("", quietly=True)
            best = least_of(other)
        except Stopped:
            best, best_order = 0, []
    tightest = {speed: row for speed, (row, _) in by_speed.items()}
    slack = {speed: slots for speed, (_, slots) in by_speed.items()}
    return Verdicts(*command.table(), order, tightest, slack, least, best, best_order)
