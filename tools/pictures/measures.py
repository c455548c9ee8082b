"""Measures: lengths in pixels, how wide words are, figures as they are written, and ticks."""

from collections import namedtuple

FONT = 12
MARGIN = 18
GAP = 12  # between columns
HEADING = 13  # height of a heading's line
TICK = 20  # height of the tick labels

# Widths of letters in thousandths of the font's size (DejaVu Sans and Verdana, the widest that a reader is likely to have).
WIDTHS = {
    letter: width
    for width, letters in {
        300: "'ijlIJ ,.",
        370: "/:;|f-()[]t!",
        520: "\"*_rsz?",
        600: "cLFkvxyPTYoae",
        640: "EhnuSbdgpq$0123456789{}",
        700: "KAVXZBRC",
        790: "UNHDG&OQ",
        840: "w#+<=>~",
        990: "mMW%@",
    }.items()
    for letter in letters
}

# How a picture of up to so many rows is laid out: the height of a lane and of a bar in it, the size of marks, the width of the time axis.
Layout = namedtuple("Layout", "lane bar mark plot")
LAYOUTS = {12: Layout(30, 16, 1.0, 520), 32: Layout(24, 14, 0.85, 620), 64: Layout(19, 13, 0.7, 720)}


def width_of(words, bold=False):
    """About how wide the words are in pixels."""
    thousandths = sum(WIDTHS.get(letter, 1000) for letter in words)
    return thousandths * FONT / 1000 * (1.12 if bold else 1)


def figure(number):
    """A number with commas, and a true minus."""
    return f"{number:,}".replace("-", "\u2212")


def many(number, unit):
    return f"{figure(number)} {unit}" + ("" if abs(number) == 1 else "s")


def short(number):
    """A coordinate with at most one decimal."""
    text = f"{number:.1f}"
    return text[:-2] if text.endswith(".0") else text


def layout(rows):
    return LAYOUTS[min(most for most in LAYOUTS if rows <= most)]


def round_step(amount, pixels, least):
    """What stands between two ticks: 1, 2 or 5 times a power of ten, such that they are so many pixels apart at least."""
    power = 1
    while True:
        for factor in (1, 2, 5):
            if pixels * factor * power / amount >= least:
                return factor * power
        power *= 10


def tick_step(amount, plot):
    """What stands between two ticks of a level axis, such that no two labels touch."""
    return round_step(amount, plot, width_of(figure(amount)) + 9)
