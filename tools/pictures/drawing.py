"""What all pictures have: shapes, title, legend, and the SVG text around them."""

from html import escape

from pictures.measures import FONT, LAYOUTS, MARGIN, short, width_of
from pictures.styles import FILLS, INK, PAPER, SOFT


class Drawing:
    """A picture in the making: what it says at its top, its parts, its width and its height."""

    def __init__(self, title, lines):
        self.title, self.lines = title, lines
        self.parts = []
        self.lane, self.bar, self.mark = LAYOUTS[12][:3]

    def patterns(self):
        return []

    # Shapes.

    def add(self, text):
        self.parts.append(text)

    def rect(self, x, y, width, height, style):
        self.add(f'<rect x="{short(x)}" y="{short(y)}" width="{short(width)}" height="{short(height)}" {style}/>')

    def line(self, x1, y1, x2, y2, style):
        self.add(f'<line x1="{short(x1)}" y1="{short(y1)}" x2="{short(x2)}" y2="{short(y2)}" {style}/>')

    def path(self, points, style, closed=True):
        self.add(f'<path d="M{" ".join(f"{short(x)},{short(y)}" for x, y in points)}{"Z" * closed}" {style}/>')

    def text(self, x, y, words, anchor="start", colour=INK, style=""):
        where = f'x="{short(x)}" y="{short(y)}"' + ("" if anchor == "start" else f' text-anchor="{anchor}"')
        self.add(f'<text {where} fill="{colour}"{style}>{escape(words)}</text>')

    def bar_rect(self, x1, x2, y, kind):
        fill, edge = FILLS[kind]
        style = f'fill="{fill}" stroke="{edge}" stroke-width="0.8"'
        self.rect(x1, y - self.bar / 2, max(x2 - x1, 0.8), self.bar, style)

    # What all pictures have.

    def heading_lines(self):
        self.text(MARGIN, 30, self.title, style=' font-weight="bold" font-size="16"')
        for index, line in enumerate(self.lines):
            self.text(MARGIN, 52 + 18 * index, line, colour=SOFT)

    def below_lines(self):
        """Where there is room below the title and its lines."""
        return 44 + 18 * len(self.lines)

    def legend_of(self, entries, top):
        """Marks with their words, and the height of the picture, which ends below them."""
        x, y = MARGIN + 14, top
        for mark, words in entries:
            needed = 32 + width_of(words)
            if x + needed > self.width - MARGIN:
                x, y = MARGIN + 14, y + max(26, self.lane)
            mark(x, y)
            self.text(x + 32, y + 4, words)
            x += needed + 20
        self.height = round(y + 24)

    def svg(self, told):
        size = f'viewBox="0 0 {self.width} {self.height}" width="{self.width}" height="{self.height}"'
        font = f'font-family="DejaVu Sans, Verdana, sans-serif" font-size="{FONT}"'
        role = 'role="img" aria-labelledby="picture-title picture-desc"'
        head = [
            f'<svg xmlns="http://www.w3.org/2000/svg" {size} {font} {role}>',
            f'<title id="picture-title">{escape(self.title)}</title>',
            f'<desc id="picture-desc">{escape(told)}</desc>',
            "<defs>",
            *self.patterns(),
            "</defs>",
            f'<rect width="{self.width}" height="{self.height}" fill="{PAPER}"/>',
        ]
        return "\n".join([*head, *self.parts, "</svg>"]) + "\n"
