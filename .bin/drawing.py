"""What a drawing is made of: an SVG with its styles and hatchings, lines without needless points, labels that do not lie over each
other. Nothing is told by colour alone: lines differ by their dashes, areas by their hatching."""

import itertools
import re
from typing import NamedTuple, Optional
from xml.sax import saxutils

WIDTH, LEFT, RIGHT = 1120, 150, 24  # the whole drawing; the columns of names and of nothing beside the plot
TEXT, SMALL, TITLE = 12, 11, 20
LINE = 14  # from a line of small text to the next
GAP = 6  # between two texts

INK, BLUE, GRID = "#000", "#0b3f80", "#c8c8c8"

STYLE = f"""
text {{ font-family: "Liberation Sans", Arial, Helvetica, "DejaVu Sans", sans-serif; font-size: {TEXT}px; fill: {INK}; }}
.small {{ font-size: {SMALL}px; }}
.title {{ font-size: {TITLE}px; font-weight: bold; }}
.strong {{ font-weight: bold; }}
.right {{ text-anchor: end; }}
.middle {{ text-anchor: middle; }}
.halo {{ paint-order: stroke; stroke: #fff; stroke-width: 3px; stroke-linejoin: round; }}
.grid {{ stroke: {GRID}; stroke-width: 0.6; }}
.frame {{ stroke: {INK}; stroke-width: 1; fill: none; }}
.speed {{ stroke: {INK}; stroke-width: 2.2; fill: none; stroke-linejoin: round; }}
.thin {{ stroke-width: 1.1; }}
.limit {{ stroke: {BLUE}; stroke-width: 1.8; fill: none; stroke-dasharray: 8 4; }}
.over {{ stroke: {BLUE}; stroke-width: 0.8; fill: none; stroke-dasharray: 1.5 2.5; }}
.band {{ fill: url(#band); }}
.braked {{ fill: url(#braked); }}
.brake {{ fill: {INK}; }}
.lit {{ fill: #a8a8a8; stroke: {INK}; stroke-width: 0.8; }}
.protected {{ fill: url(#protected); stroke: {INK}; stroke-width: 0.8; }}
.unprotected {{ fill: #555; stroke: {INK}; stroke-width: 0.8; }}
.standing {{ fill: url(#standing); stroke: {INK}; stroke-width: 0.8; }}
.bts {{ fill: url(#bts); stroke: {INK}; stroke-width: 0.8; }}
.mark {{ fill: {INK}; stroke: #fff; stroke-width: 0.8; }}
.lead {{ stroke: {INK}; stroke-width: 0.8; }}
.beacon {{ stroke: #666; stroke-width: 0.9; stroke-dasharray: 2 3; }}
.tick {{ stroke: {INK}; stroke-width: 1.2; }}
.refused {{ stroke: {INK}; stroke-width: 3; }}
@page {{ size: A4 landscape; margin: 8mm; }}
@media print {{ svg:root {{ width: 100vw; height: 100vh; }} }}
"""


def hatch(name, size, lines, width, ink, ground="#fff"):
    return (f'<pattern id="{name}" width="{size}" height="{size}" patternUnits="userSpaceOnUse"><rect width="{size}" height="{size}" '
            f'fill="{ground}"/><path d="{lines}" stroke="{ink}" stroke-width="{width}" fill="none"/></pattern>')


HATCHES = [
    hatch("band", 6, "M-1,1 L1,-1 M0,6 L6,0 M5,7 L7,5", 0.9, "#6f87a8", "#eef1f6"),
    hatch("braked", 5, "M2.5,0 V5", 0.8, "#9a9a9a", "none"),  # the band is seen through it
    hatch("protected", 5, "M-1,4 L1,6 M0,0 L5,5 M4,-1 L6,1", 1.2, INK),
    hatch("standing", 4, "M0,2 H4", 1, INK),
    hatch("bts", 5, "M0,2.5 H5 M2.5,0 V5", 0.8, INK),
]

# From the paper up.
GROUND, NET, LINES, FRONT = range(4)


def escape(text):
    """A text as it stands in an SVG. What no XML may have is a blank: control characters, bytes that were no text."""
    return saxutils.escape(re.sub("[\x00-\x1f\x7f-\x9f\ud800-\udfff\ufffe\uffff]", " ", text))


def width_of(text, size=SMALL):
    """A text's width, rather too wide than too narrow: no two machines have the same fonts."""
    return 0.56 * size * len(text)


def path(points):
    return "M" + " ".join(f"{x:.1f},{y:.1f}" for x, y in points)


class Drawing:
    """An SVG in the making, in layers."""

    def __init__(self):
        self.layers = [[] for _ in range(4)]

    def add(self, part, layer=FRONT):
        self.layers[layer].append(part)

    def text(self, x, y, words, kind="small", squeezed=""):
        self.add(f'<text x="{x:.1f}" y="{y:.1f}" class="{kind}"{squeezed}>{escape(words)}</text>')

    def title(self, x, y, words):
        """A title; one that is too long for the drawing is squeezed."""
        room = WIDTH - RIGHT - x
        self.text(x, y, words, "title", f' textLength="{room}" lengthAdjust="spacingAndGlyphs"' if width_of(words, TITLE) > room else "")

    def line(self, x1, y1, x2, y2, kind, layer=FRONT):
        self.add(f'<path d="{path([(x1, y1), (x2, y2)])}" class="{kind}"/>', layer)

    def box(self, x1, y1, x2, y2, kind, layer=FRONT):
        self.add(f'<rect x="{x1:.1f}" y="{y1:.1f}" width="{x2 - x1:.1f}" height="{y2 - y1:.1f}" class="{kind}"/>', layer)

    def triangle(self, x, y):
        """A mark that points up to a place."""
        self.add(f'<path d="M{x:.1f},{y:.1f} l4,8 h-8 z" class="mark"/>')

    def diamond(self, x, y):
        self.add(f'<path d="M{x:.1f},{y - 5:.1f} l5,5 l-5,5 l-5,-5 z" class="mark"/>')

    def svg(self, title, about, height):
        size = f'width="{WIDTH}" height="{height:.0f}"'
        head = [f'<svg xmlns="http://www.w3.org/2000/svg" viewBox="0 0 {WIDTH} {height:.0f}" {size}>', f"<title>{escape(title)}</title>",
                f"<desc>{escape(about)}</desc>", f"<style>{STYLE}</style>", "<defs>", *HATCHES, "</defs>", f'<rect {size} fill="#fff"/>']
        return "\n".join([*head, *itertools.chain(*self.layers), "</svg>", ""])


# ---- scales and lines

class Scale:
    """Values from 0 to top, as places from start to end."""

    def __init__(self, top, start, end):
        self.top, self.start, self.end = top, start, end

    def __call__(self, value):
        return self.start + (self.end - self.start) * value / self.top


def step_for(top, most, steps):
    """The first of the steps that makes no more than so many marks, the last where none does."""
    return next((step for step in steps if top / step <= most), steps[-1])


def marks(top, step):
    return [step * k for k in range(int(top / step + 1e-9) + 1)]


def runs(values):
    """Equal values that follow each other: the value, the first index and the one behind the last."""
    at = 0
    for value, group in itertools.groupby(values):
        end = at + sum(1 for _ in group)
        yield value, at, end
        at = end


def thinned(points):
    """The points of a line without those that nobody would see: of a column of half a pixel the first, lowest, highest and last
    stay, and of points in a straight line the ends."""
    kept = []
    for _, column in itertools.groupby(points, key=lambda point: int(2 * point[0])):
        column = list(column)
        low, high = (choose(range(len(column)), key=lambda k: column[k][1]) for choose in (min, max))
        kept += [column[k] for k in sorted({0, low, high, len(column) - 1})]
    line = []
    for point in kept:
        while len(line) > 1 and is_between(line[-1], line[-2], point):
            line.pop()
        line.append(point)
    return line


def is_between(b, a, c):
    """Does b lie on the way from a to c, as far as an eye can tell?"""
    if not min(a[1], c[1]) <= b[1] <= max(a[1], c[1]):
        return False
    return a[0] == c[0] or abs(a[1] + (c[1] - a[1]) * (b[0] - a[0]) / (c[0] - a[0]) - b[1]) < 0.05


# ---- labels

class Label(NamedTuple):
    """A text beside its mark: where the mark is, where the text starts and ends, and its row, counted from the mark's; a line leads
    from the mark to it. Where there is no room for it the row is None."""
    mark: float
    start: float
    end: float
    words: str
    row: Optional[int] = None


def placed(marks_and_words, most):
    """The labels of marks, from left to right, in so many rows, each to the right of its mark, or to the left where that has no room.
    They are set from right to left, so that a line meets no other label."""
    labels, last = [], [None] * most
    for x, words in reversed(marks_and_words):
        wide = width_of(words)
        tried = (Label(x, start, start + wide, words, row) for start in (x, x - wide) for row in range(most))
        label = next((label for label in tried if fits(label, last)), Label(x, x, x, words))
        if label.row is not None:
            last[label.row] = label
        labels.append(label)
    return labels[::-1]


def fits(label, last):
    """Is there room for a label in the drawing, and beside the last one set in each row?"""
    if label.start < LEFT or label.end > WIDTH - RIGHT + GAP:
        return False
    for other in filter(None, last):
        if other.row == label.row and label.start < other.end + GAP and other.start < label.end + GAP:
            return False
        if other.row > label.row and label.start <= other.mark <= label.end + GAP:
            return False
        if other.row < label.row and other.start <= label.mark <= other.end + GAP:
            return False
    return True
