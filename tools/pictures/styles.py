"""Styles: colours, lines, and how bars are filled."""

INK, SOFT, FAINT, PAPER = "#1f2328", "#5a626b", "#d5d9de", "#ffffff"
HIGH, LOW, LOW_LINES, WINDOW = "#a8481c", "#a9cbe8", "#2f6ea3", "#eceff2"
ASKED, ASKED_EDGE, SUPPLY, WRONG, PROMISED, WAIT = "#fff2c2", "#b58900", "#3f6212", "#b00020", "#5b21b6", "#0b6e69"

BOLD = ' font-weight="bold"'
HALO = f'{BOLD} stroke="{PAPER}" stroke-width="3" paint-order="stroke"'
GRID = f'stroke="{FAINT}" stroke-width="0.8"'
GROUND = 'fill="#fafbfc"'  # behind supplies and slacks

# How the bar of a stretch is filled, and its edge.
FILLS = {
    "HI": (HIGH, HIGH),
    "LO": ("url(#low)", LOW_LINES),
    "HI loading": ("url(#high-loading)", HIGH),
    "LO loading": ("url(#low-loading)", LOW_LINES),
    "idle": ("url(#idle)", SOFT),
}

# How a LO row's bar is filled, and that of idle slots.
LOW_PATTERN = (
    '<pattern id="low" width="6" height="6" patternUnits="userSpaceOnUse" patternTransform="rotate(45)">'
    f'<rect width="6" height="6" fill="{LOW}"/><line x1="0" y1="0" x2="0" y2="6" stroke="{LOW_LINES}" stroke-width="2.4"/></pattern>'
)
IDLE_PATTERN = (
    '<pattern id="idle" width="5" height="5" patternUnits="userSpaceOnUse">'
    f'<rect width="5" height="5" fill="{PAPER}"/><circle cx="2.5" cy="2.5" r="0.9" fill="{SOFT}"/></pattern>'
)
# How the slots that a row is short are filled.
SHORT_PATTERN = (
    '<pattern id="short" width="6" height="6" patternUnits="userSpaceOnUse" patternTransform="rotate(-45)">'
    f'<rect width="6" height="6" fill="{PAPER}"/><line x1="0" y1="0" x2="0" y2="6" stroke="{WRONG}" stroke-width="3"/></pattern>'
)


def loading_patterns():
    """Level lines on paper, in the colour of the level."""
    return [
        f'<pattern id="{name}-loading" width="4" height="4" patternUnits="userSpaceOnUse">'
        f'<rect width="4" height="4" fill="{PAPER}"/><line x1="0" y1="2" x2="4" y2="2" stroke="{colour}" stroke-width="1.2"/></pattern>'
        for name, colour in (("high", HIGH), ("low", LOW_LINES))
    ]
