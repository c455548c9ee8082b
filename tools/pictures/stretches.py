"""Stretches: slots or speeds that lie side by side and have something in common."""

from collections import namedtuple

# Slots from first up to but without after, and what each supplies in work units.
Supplied = namedtuple("Supplied", "first after supply")
# Slots from first up to but without after, the row that runs in them (0: none), and how many of them, its first ones, are loading slots.
Ran = namedtuple("Ran", "first after row loading")
# Speeds G from first up to but without after, in work units per slot, and what is the same at all of them: a row, or a slack in slots.
Speeds = namedtuple("Speeds", "first after figure")


def merged(stretches):
    """Neighbouring stretches of equal figures as one."""
    found = []
    for stretch in stretches:
        if found and found[-1][2] == stretch[2]:
            found[-1] = found[-1]._replace(after=stretch.after)
        else:
            found.append(stretch)
    return found
