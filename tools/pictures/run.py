"""A run of a sheet, put together from what the command answers."""

from collections import namedtuple

from pictures.asking import AT_DEADLINE, LAST_DEADLINE, NOT_USABLE, Stopped, places
from pictures.measures import many
from pictures.stretches import Supplied, merged

LAST_CLOCK = 2_000_000  # slots; no run is longer

# A run: speeds in work units per slot, K in slots, rows by number, order, worst finish, slack and clock of the promised part at exactly G (0:
# none) by row in slots, outcome by row, stretches of rows and of supplies, slots worked.
Run = namedtuple("Run", "normal degraded loading rows order finish slack moment outcome ran supplied slots")


def supplied_by(words):
    """The stretches of supplies that the words of a command line mean."""
    found, clock = [], 0
    for word in words:
        count, supply = word.split("x") if "x" in word else ("1", word)
        found.append(Supplied(clock, clock + int(count), int(supply)))
        clock += int(count)
    return merged(found)


def own_run(command, order, words):
    """The run over the words of a command line."""
    ran, outcome = command.stretches(order, words)
    return ran, outcome, supplied_by(words)


def steady_run(command, order, supply, slots):
    """The run in which every slot supplies the same, at least so many slots long, until every row is closed or the clock ends."""
    while True:
        slots = min(slots, LAST_CLOCK)
        ran, outcome = command.stretches(order, [f"{slots}x{supply}"])
        if slots == LAST_CLOCK or all(row.closing for row in outcome.values()):
            break
        slots *= 2
    if all(row.closing for row in outcome.values()):
        slots = max(row.closing for row in outcome.values())
        ran = [stretch for stretch in ran if stretch.first < slots]
    return ran, outcome, [Supplied(0, slots, supply)]


def worst_run(command, order, supply, slots):
    """The run in which every slot supplies the same and late LO rows go on, as plans count them.

    Up to LAST_DEADLINE slots it is the run with that deadline for every LO row. If one is still open then, it ends there.
    """
    patient = command.late_rows_going_on()
    ran, outcome, supplied = steady_run(patient, order, supply, slots)
    if any(row.how == AT_DEADLINE for row in outcome.values()):
        ran, outcome, supplied = own_run(patient, order, [f"{LAST_DEADLINE}x{supply}"])
    *_, rows = command.table()
    return ran, {number: late_by(rows[number].deadline, closed) for number, closed in outcome.items()}, supplied


def late_by(deadline, closed):
    """How a row closed, seen from its own deadline, where the command knew a later one."""
    if closed.how == AT_DEADLINE:
        return closed._replace(closing=0, how="open")
    return closed._replace(how="late") if closed.how == "done" and closed.closing > deadline else closed


def run_of(command, given):
    """The run that the command line asks for, with its title."""
    order = given.order or command.planned()
    finishes = command.ask("finishes", order)
    finish = {row: worst for row, worst, *_ in finishes}
    slack = {row: before - after for row, _, _, before, after, _ in finishes}
    moment = {row: promised for row, *_, promised in finishes}
    normal, degraded, loading, rows = command.table()
    if given.row and given.row not in rows:
        raise Stopped(NOT_USABLE, f"the sheet has no row {given.row}; its rows are 1 to {len(rows)}")
    if given.promise and not rows[given.row].promised:
        raise Stopped(NOT_USABLE, f"nothing is promised of row {given.row}: its promised part is 0 work units")
    if given.supplies:
        title = "The run with the supplies given"
        ran, outcome, supplied = own_run(command, order, given.supplies)
    else:
        at_degraded = given.promise or (given.row and rows[given.row].high)
        name, speed = ("G", degraded) if at_degraded else ("N", normal)
        title = f"Worst run of row {given.row}" if given.row else "The run at normal speed"
        title += " for its promised part" if given.promise else ""
        title += f": every slot supplies exactly {name} = {many(speed, 'work unit')}"
        steady = worst_run if given.row else steady_run
        ran, outcome, supplied = steady(command, order, speed, max(finish.values()))
    slots = supplied[-1].after
    return Run(normal, degraded, loading, rows, places(order), finish, slack, moment, outcome, ran, supplied, slots), title


def any_promised(run):
    return any(row.promised for row in run.rows.values())


def any_waits(run):
    return any(row.follows for row in run.rows.values())


def highest(run):
    return max(stretch.supply for stretch in run.supplied)


def lowest(run):
    return min(stretch.supply for stretch in run.supplied)
