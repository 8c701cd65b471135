"""Which part of the plane a picture shows, and how large."""
from dataclasses import dataclass
from fractions import Fraction

from bukshena.figure import cross

MARGIN = 750
# a point is left outside where it is so many times further from the middle than the next nearer one
APART = Fraction(5, 2)
APART_IN_THEOREM = 8
LARGEST = 1000
HIGHEST, LOWEST = Fraction(5, 4), Fraction(2, 5)


@dataclass(frozen=True)
class Window:
    """`left` and `top` in units of the plane, `scale` hundredths of a millimetre for a unit, the size in hundredths."""
    left: Fraction
    top: Fraction
    scale: Fraction
    width: int
    height: int


def window_of(figure, options) -> Window:
    width = int(options.width * 100)
    if options.window is not None:
        left, low, right, top = options.window
        scale = Fraction(width) / (right - left)
        return Window(left, top, scale, width, max(1, int((top - low) * scale)))
    return around(points_to_see(figure), width)


def points_to_see(figure):
    """Places that the window has to hold, as pairs of fractions."""
    dots = [(dot.triple, dot.tone is not None) for dot in figure.dots.values() if not dot.is_far]
    lines = [stroke.triple for stroke in figure.strokes.values()]
    if len(dots) < 2:
        made = {cross(p, q) for k, p in enumerate(lines) for q in lines[:k]} - {None}
        dots += [(triple, False) for triple in sorted(made) if triple[2]]
    places = [((Fraction(a, c), Fraction(b, c)), is_told) for (a, b, c), is_told in dots]
    seen = near_ones(places)
    return seen + feet(lines, seen)


def near_ones(places):
    """The places without those that lie far apart from the others and would shrink the figure."""
    if len(places) < 4:
        return [place for place, _ in places]
    middle = [sorted(place[k] for place, _ in places)[len(places) // 2] for k in (0, 1)]
    told = sorted((max(abs(place[k] - middle[k]) for k in (0, 1)), place, is_told) for place, is_told in places)
    for count in range((3 * len(told) + 4) // 5, len(told)):
        inner, outer = told[count - 1][0], told[count][0]
        if inner and outer > APART * inner:
            return [place for away, place, is_told in told if away <= (APART_IN_THEOREM * inner if is_told else inner)]
    return [place for _, place, _ in told]


def feet(lines, seen):
    """For each line that would miss the picture its nearest place, where that is near."""
    if not seen:
        return []
    left, right, low, high = box_of(seen)
    middle, reach = ((left + right) / 2, (low + high) / 2), max(right - left, high - low)
    found = []
    for a, b, c in lines:
        sides = {(a * x + b * y + c > 0) - (a * x + b * y + c < 0) for x in (left, right) for y in (low, high)}
        away = Fraction(a * middle[0] + b * middle[1] + c, a * a + b * b)
        foot = middle[0] - a * away, middle[1] - b * away
        if len(sides) == 1 and 0 not in sides and max(abs(foot[k] - middle[k]) for k in (0, 1)) <= reach:
            found.append(foot)
    return found


def box_of(places):
    xs, ys = [x for x, _ in places], [y for _, y in places]
    return min(xs), max(xs), min(ys), max(ys)


def around(places, width) -> Window:
    """The window around places, with a margin, not too high and not too low."""
    left, right, low, high = box_of(places or [(Fraction(0), Fraction(0))])
    room, tallest = width - 2 * MARGIN, int(HIGHEST * width) - 2 * MARGIN
    room, tallest = max(room, width // 2), max(tallest, width // 2)
    scales = [size / length for size, length in ((Fraction(room), right - left), (Fraction(tallest), high - low)) if length]
    scale = min(scales) if scales else Fraction(LARGEST)
    height = max(int((high - low) * scale) + 2 * MARGIN, int(LOWEST * width))
    return Window((left + right) / 2 - width / scale / 2, (low + high) / 2 + height / scale / 2, scale, width, height)
