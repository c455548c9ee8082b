"""In words: runs and verdicts under the title of a picture, in its cells and for screen readers."""

from pictures.asking import AT_DEADLINE
from pictures.measures import figure, many
from pictures.run import highest, lowest


def level(row):
    return "HI" if row.high else "LO"


def closing(outcome):
    return figure(outcome.closing) if outcome.closing else "\u2013"


def followed(row):
    return str(row.follows) if row.follows else "\u2013"


def order_shown(order):
    return " ".join(map(str, order[:24])) + (" \u2026" if len(order) > 24 else "")


def order_told(kind, run, speeds):
    """The order of a run or of verdicts, the speeds as told, and K if rows load."""
    loading = f", K = {many(run.loading, 'slot')}" if run.loading else ""
    return f"Order ({kind}), highest place first: {order_shown(run.order)}; {speeds}{loading}."


def lines_of(run, asked, given):
    """What stands under the title."""
    kind = "given" if given.order else "planned"
    speeds = f"N = {figure(run.normal)}, G = {figure(run.degraded)} work units per slot"
    lines = [order_told(kind, run, speeds)]
    if given.supplies:
        words = " ".join(given.supplies)
        lines.append("Supplies given, in work units for a slot: " + (words if len(words) <= 88 else words[:85] + " \u2026") + ".")
    if asked:
        row = run.rows[asked]
        lines.append(
            f"Row {asked}, marked: {level(row)}, {outcome_told(run.outcome[asked])}, deadline {many(row.deadline, 'slot')}; "
            f"its worst finish is {many(run.finish[asked], 'slot')}, its slack {many(run.slack[asked], 'slot')}."
        )
        if row.promised:
            lines.append(f"Its promised part: {promise_told(run, asked)}.")
    return lines


def lines_of_verdicts(verdicts, given):
    """What stands under the title of a picture of speeds."""
    kind = "given" if given.order else "at the least G"
    speeds = f"N = {many(verdicts.normal, 'work unit')} per slot"
    lines = [order_told(kind, verdicts, speeds)]
    if verdicts.least:
        lines.append(f"Correct from G = {many(verdicts.least, 'work unit')} per slot on.")
    else:
        lines.append(f"Correct at no G from 1 to {many(verdicts.normal, 'work unit')} per slot.")
    if given.order and not verdicts.best:
        lines.append("No other order is correct at any of them either.")
    elif given.order and verdicts.best == verdicts.least:
        lines.append("No order is correct at a smaller G.")
    elif given.order:
        lines.append(f"The order {order_shown(verdicts.best_order)} is correct from G = {many(verdicts.best, 'work unit')} per slot on.")
    return lines


def slots_told(stretch):
    last = stretch.after - 1
    return f"slot {figure(last)}" if last == stretch.first else f"slots {figure(stretch.first)} to {figure(last)}"


def loading_told(stretches):
    """The loading slots of a row's stretches."""
    loading = [stretch._replace(after=stretch.first + stretch.loading) for stretch in stretches if stretch.loading]
    return ", ".join(map(slots_told, loading)) or "no slot"


def supplies_told(run):
    if len(run.supplied) > 20:
        return f"The supplies change often, between {figure(lowest(run))} and {many(highest(run), 'work unit')} per slot."
    return "Supplies: " + "; ".join(f"{slots_told(part)}, {many(part.supply, 'work unit')} each" for part in run.supplied) + "."


def outcome_told(outcome):
    if outcome.how == "open":
        return "open at the end"
    words = {"late": "done late", AT_DEADLINE: "dropped at its deadline"}
    return f"{words.get(outcome.how, outcome.how)} after {many(outcome.closing, 'slot')}"


def promise_told(run, number):
    """The promised part of a row that has one: when it has got it in this run, and when at the latest at exactly G."""
    row, clock = run.rows[number], run.outcome[number].promised
    got = f"got after {many(clock, 'slot')}" if clock else "not got in this run"
    return f"{many(row.promised, 'work unit')}, {got}, at exactly G after {many(run.moment[number], 'slot')}"


def wait_told(run, number):
    """The row that a row follows, and when its wait is over in this run."""
    clock = run.outcome[number].closing
    return f"row {number}, closed after {many(clock, 'slot')}" if clock else f"row {number}, open at the end"


def sentence(run, place, number, stretches):
    row, outcome = run.rows[number], run.outcome[number]
    ran = ", ".join(slots_told(stretch) for stretch in stretches) or "no slot"
    loads = f"loads in {loading_told(stretches)}; " if run.loading else ""
    promise = f"promised part {promise_told(run, number)}; " if row.promised else ""
    follows = f"follows {wait_told(run, row.follows)}; " if row.follows else ""
    return (
        f"Place {place}: row {number}, {level(row)}, work {many(row.work, 'work unit')}, release {many(row.release, 'slot')}, "
        f"deadline {many(row.deadline, 'slot')}; {follows}runs in {ran}; {loads}{promise}{outcome_told(outcome)}; "
        f"worst finish {many(run.finish[number], 'slot')}, slack {many(run.slack[number], 'slot')}."
    )


# Rows left without a correct order.


def slack_told(of):
    """How a row left stands among the others."""
    return f"{many(of.late, 'slot')} short" if of.late else f"{many(of.slack, 'slot')} to spare"


def follower_told(row):
    return f"row {row} follows it"


def lines_of_left(shown):
    """What stands under the title of a picture of rows left."""
    count, others = len(shown.left), len(shown.rows) - len(shown.left)
    these = "this row" if count == 1 else "all of these rows"
    waits = ", as if no row waited" if any(shown.rows[row].follows for row in shown.left) else ""
    each = "It stands by itself." if count == 1 else f"Each stands with all the others above it{waits}."
    loading = f", K = {many(shown.loading, 'slot')}" if shown.loading else ""
    change = "This row" if count == 1 else "At least one of these rows"
    doubt = "" if count == 1 else "; it is not said which, nor that one is enough"
    lines = [
        f"Rows left: {count} of {len(shown.rows)}; N = {figure(shown.normal)}, G = {figure(shown.degraded)} work units per slot{loading}. {each}",
        f"As long as {these}, N, G and K stay as they are, no order is correct, whatever is done with other rows.",
        f"{change} has to go or to change, or N, G or K{doubt}.",
    ]
    if others:
        lines.append("The other row alone has a correct order." if others == 1 else "The other rows alone have a correct order.")
    return lines


def sentence_of_left(shown, number):
    row, of = shown.rows[number], shown.left[number]
    promise = f"promised part {many(row.promised, 'work unit')}, got after {many(of.promised, 'slot')} at exactly G; " if row.promised else ""
    follower = f"; {follower_told(of.follower)}, so it cannot stand lowest" if of.follower else ""
    follows = f"follows row {row.follows}; " if row.follows else ""
    return (
        f"Row {number}, {level(row)}, work {many(row.work, 'work unit')}, release {many(row.release, 'slot')}, "
        f"deadline {many(row.deadline, 'slot')}; {follows}worst finish {many(of.finish, 'slot')}; {promise}{slack_told(of)}{follower}."
    )
