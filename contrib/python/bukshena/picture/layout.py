"""Where everything of a figure stands on the paper: the window, lines cut to it, names beside their points.

All places are whole numbers of hundredths of a millimetre, from the upper left corner, y downwards. They are rounded once,
from exact fractions, so the same figure has the same picture everywhere."""
from dataclasses import dataclass
from fractions import Fraction
from math import isqrt

from bukshena.faults import BAD_DATA, Fault
from bukshena.figure import Dot, Figure, Stroke
from bukshena.picture import names
from bukshena.picture.window import Window, window_of

MILLIMETRE = 100
DOT = 62
RING = 125
FURTHER = 320
ARROW = 420
ARROW_LINE = 700

Place = tuple[int, int]


@dataclass(frozen=True)
class Cut:
    """A line as it is drawn: `whole` from edge to edge, `part` the piece over its points, or None where it has no two."""
    stroke: Stroke
    whole: tuple[Place, Place]
    part: 'tuple[Place, Place] | None'


@dataclass(frozen=True)
class Spot:
    dot: Dot
    at: Place


@dataclass(frozen=True)
class Arrow:
    """For a point outside of the window, or at infinity."""
    dot: Dot
    start: Place
    tip: Place


@dataclass
class Layout:
    """Size and what is drawn, from the lowest to the uppermost."""
    width: int
    height: int
    window: Window
    polygons: list[tuple[Place, ...]]
    cuts: list[Cut]
    sides: list[Cut]
    spots: list[Spot]
    arrows: list[Arrow]
    labels: list[names.Label]
    figure: Figure

    @property
    def title(self):
        """What the picture shows, in the program's words."""
        said = [f'{said.tone.what} {said.statement}' for said in self.figure.said]
        return ', '.join(said) or 'a figure of points and lines'


class Paper:
    """Maps the plane to the paper."""

    def __init__(self, window):
        self.window, self.width, self.height = window, window.width, window.height

    def place(self, triple) -> Place:
        a, b, c = triple
        window = self.window
        return rounded((Fraction(a, c) - window.left) * window.scale), rounded((window.top - Fraction(b, c)) * window.scale)

    def holds(self, place):
        return 0 <= place[0] <= self.width and 0 <= place[1] <= self.height

    def direction(self, line) -> Place:
        """Along a line on the paper, to the right, or upwards where it is upright."""
        a, b, _ = line
        return (-b, -a) if b < 0 else (b, a) if b > 0 else (0, -1)

    def edge_to_edge(self, line):
        """Where a line enters and leaves the paper, in its direction; None where it does not cross it."""
        a, b, c = line
        window = self.window
        # on the paper the line is a x - b y + d = 0
        d = c * window.scale + a * window.left * window.scale + b * window.top * window.scale
        found = []
        if b:
            found += [(Fraction(x), (a * x + d) / b) for x in (0, self.width)]
        if a:
            found += [((b * y - d) / a, Fraction(y)) for y in (0, self.height)]
        inside = sorted({p for p in found if 0 <= p[0] <= self.width and 0 <= p[1] <= self.height})
        if len(inside) < 2:
            return None
        ends = [(rounded(x), rounded(y)) for x, y in (inside[0], inside[-1])]
        along = self.direction(line)
        return tuple(sorted(ends, key=lambda p: p[0] * along[0] + p[1] * along[1]))


def rounded(number) -> int:
    """To the next whole number, halves upwards."""
    return (2 * number.numerator + number.denominator) // (2 * number.denominator)


def step(direction, length) -> Place:
    """A step of this length in a direction."""
    dx, dy = direction
    square = dx * dx + dy * dy

    def part(d):
        size = isqrt(length * length * d * d // square) if square else 0
        return size if d >= 0 else -size
    return part(dx), part(dy)


def moved(place, by) -> Place:
    return place[0] + by[0], place[1] + by[1]


def within(start, end, bounds):
    """A piece of a line cut to the piece `bounds` of the same line, by their order along it; None where they are apart."""
    (sx, sy), (ex, ey) = bounds
    dx, dy = ex - sx, ey - sy

    def at(place):
        return (place[0] - sx) * dx + (place[1] - sy) * dy
    first, last = max(start, bounds[0], key=at), min(end, bounds[1], key=at)
    return (first, last) if at(first) < at(last) else None


class Maker:
    def __init__(self, figure, options):
        self.figure, self.options = figure, options
        self.window = window_of(figure, options)
        self.paper = Paper(self.window)

    def made(self) -> Layout:
        figure, paper = self.figure, self.paper
        self.spots = [Spot(dot, paper.place(dot.triple)) for dot in figure.dots.values() if not dot.is_far]
        self.outside = [spot for spot in self.spots if not paper.holds(spot.at)]
        self.spots = [spot for spot in self.spots if paper.holds(spot.at)]
        cuts = [cut for cut in map(self.cut, figure.strokes.values()) if cut]
        sides = [cut for cut in map(self.cut, figure.sides) if cut]
        arrows = self.arrows(cuts)
        if not (self.spots or cuts or arrows):
            raise Fault(BAD_DATA, 'there is nothing to draw: no element of the screen is in the picture')
        polygons = [tuple(map(paper.place, polygon)) for polygon in figure.polygons]
        layout = Layout(paper.width, paper.height, self.window, polygons, cuts, sides, self.spots, arrows, [], figure)
        layout.labels = names.placed(layout, self.options)
        return layout

    # ---- lines

    def cut(self, stroke) -> 'Cut | None':
        whole = self.paper.edge_to_edge(stroke.triple)
        if whole is None or whole[0] == whole[1]:
            return None
        return Cut(stroke, whole, self.part(stroke, whole))

    def part(self, stroke, whole):
        """The piece over the points on a line, a little further at both ends; None where there are less than two."""
        if stroke.ends:
            at = [self.paper.place(triple) for triple in stroke.ends if triple[2]]
            further = 0
        else:
            dots = [dot for dot in self.figure.dots_on(stroke) if not dot.is_far]
            at = [self.paper.place(dot.triple) for dot in dots]
            further = FURTHER
        dx, dy = whole[1][0] - whole[0][0], whole[1][1] - whole[0][1]
        at.sort(key=lambda p: p[0] * dx + p[1] * dy)
        if not at:
            return None
        by = step((dx, dy), further)
        start, end = moved(at[0], (-by[0], -by[1])), moved(at[-1], by)
        if self.runs_far(stroke):
            end = whole[1]
        elif at[0] == at[-1]:
            return None
        return within(start, end, whole)

    def runs_far(self, stroke):
        if stroke.ends:
            return any(c == 0 for _, _, c in stroke.ends)
        return any(dot.is_far for dot in self.figure.dots_on(stroke))

    # ---- points that are not on the paper

    def arrows(self, cuts):
        far = [dot for dot in self.figure.dots.values() if dot.is_far]
        shown = [self.far_arrow(dot, cut) for dot in far for cut in self.cuts_to(dot, cuts)]
        shown += [self.lonely_arrow(dot) for dot in far if not self.cuts_to(dot, cuts)]
        if self.options.window is None:
            shown += [self.outside_arrow(spot, cuts) for spot in self.outside if spot.dot.names]
        return shown

    def cuts_to(self, dot, cuts):
        return [cut for cut in cuts if dot in self.figure.dots_on(cut.stroke)]

    def far_arrow(self, dot, cut):
        start, end = cut.whole
        back = step((start[0] - end[0], start[1] - end[1]), ARROW)
        return Arrow(dot, moved(end, back), end)

    def lonely_arrow(self, dot):
        """A direction through which no line is drawn: an arrow from the middle of the paper to its edge."""
        a, b, _ = dot.triple
        return self.arrow_to(dot, (a, -b) if (b, a) > (0, 0) else (-a, b))

    def outside_arrow(self, spot, cuts):
        on = self.cuts_to(spot.dot, cuts)
        if on:
            end = min(on[0].whole, key=lambda p: (p[0] - spot.at[0]) ** 2 + (p[1] - spot.at[1]) ** 2)
            start = on[0].whole[0] if end == on[0].whole[1] else on[0].whole[1]
            back = step((start[0] - end[0], start[1] - end[1]), ARROW)
            return Arrow(spot.dot, moved(end, back), end)
        return self.arrow_to(spot.dot, (spot.at[0] - self.paper.width // 2, spot.at[1] - self.paper.height // 2))

    def arrow_to(self, dot, direction):
        dx, dy = direction
        half = self.paper.width // 2, self.paper.height // 2
        reach = [Fraction(size, abs(d)) for size, d in zip(half, (dx, dy)) if d]
        tip = half[0] + rounded(min(reach) * dx), half[1] + rounded(min(reach) * dy)
        back = step((-dx, -dy), ARROW_LINE)
        return Arrow(dot, moved(tip, back), tip)


def layout_of(figure, options) -> Layout:
    return Maker(figure, options).made()
