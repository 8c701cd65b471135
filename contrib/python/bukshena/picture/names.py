"""Names beside their points: eight places around each, and the one taken that hides least."""
import re
from dataclasses import dataclass

FONT = 360
SMALL = 250
SMALL_DROP = 90
GAP = 45
# how much further a name is where it is right beside, above or below
BESIDE = 25
# widths in thousandths of the font's size, of the widest of the usual sans-serif fonts
WIDTHS = {
    'A': 684, 'B': 686, 'C': 722, 'D': 770, 'E': 667, 'F': 611, 'G': 778, 'H': 752, 'I': 295, 'J': 500, 'K': 667, 'L': 557,
    'M': 863, 'N': 748, 'O': 787, 'P': 667, 'Q': 787, 'R': 722, 'S': 667, 'T': 611, 'U': 732, 'V': 684, 'W': 989, 'X': 685,
    'Y': 667, 'Z': 685, 'a': 613, 'b': 635, 'c': 550, 'd': 635, 'e': 615, 'f': 352, 'g': 635, 'h': 634, 'i': 278, 'j': 278,
    'k': 579, 'l': 278, 'm': 974, 'n': 634, 'o': 612, 'p': 635, 'q': 635, 'r': 411, 's': 521, 't': 392, 'u': 634, 'v': 592,
    'w': 818, 'x': 592, 'y': 592, 'z': 525, ' ': 318, '=': 838,
}
DIGIT = 636
UP, DOWN, DEEP = 745, 30, 250
BELOW_LINE = set('gjpqyQJ')

# of each place around a point the direction, and how much it is liked less than the first
PLACES = ((1, -1, 0), (-1, -1, 20), (1, 1, 25), (-1, 1, 30), (1, 0, 40), (-1, 0, 45), (0, -1, 40), (0, 1, 45))
HARD = 10 ** 7
# how bad it is to hide a piece of a line: beyond its points, over them, and where it belongs to a statement
FAINT_WEIGHT, LINE_WEIGHT, TOLD_WEIGHT = 1, 4, 8


@dataclass(frozen=True)
class Run:
    """Letters, or digits that stand lower."""
    text: str
    is_low: bool


@dataclass(frozen=True)
class Label:
    """A name with its place: the box that it fills, x and y of its baseline, where `side` -1, 0 or 1 says whether x is the
    text's right end, its middle or its left end."""
    runs: tuple[Run, ...]
    box: tuple[int, int, int, int]
    at: tuple[int, int]
    side: int
    tone: object = None
    is_line: bool = False

    @property
    def text(self):
        return ''.join(run.text for run in self.runs)


def runs_of(names):
    """The runs of names that share a place: `A = B`. Digits at the end of letters stand lower."""
    runs = []
    for name in names:
        if runs:
            runs.append(Run(' = ', False))
        letters, digits = re.match(r'([A-Za-z]*?)(\d*)\Z', name).groups() if re.match(r'[A-Za-z]+\d*\Z', name) else (name, '')
        runs.append(Run(letters, False))
        if digits:
            runs.append(Run(digits, True))
    return tuple(runs)


def size_of(runs):
    """Width, height above the baseline and depth below it."""
    width = sum(WIDTHS.get(letter, DIGIT) * (SMALL if run.is_low else FONT) for run in runs for letter in run.text) // 1000 + 1
    deep = any(set(run.text) & BELOW_LINE for run in runs if not run.is_low)
    depth = FONT * (DEEP if deep else DOWN) // 1000
    if any(run.is_low for run in runs):
        depth = max(depth, SMALL_DROP + SMALL * DOWN // 1000)
    return width, FONT * UP // 1000, depth


def candidates(runs, place, radius, tone, is_line=False, dislike=0):
    """The labels at eight places around a point, nearer and further, each with how much it is disliked."""
    width, up, depth = size_of(runs)
    found = []
    for ring, away in enumerate((radius + GAP, radius + GAP + 150)):
        for dx, dy, worse in PLACES:
            gap = away * 7 // 10 if dx and dy else away + BESIDE
            ax, ay = place[0] + dx * gap, place[1] + dy * gap
            left = ax - (width if dx < 0 else width // 2 if dx == 0 else 0)
            base = ay + (up // 2 if dy == 0 else -depth if dy < 0 else up)
            box = (left, base - up, left + width, base + depth)
            found.append((Label(runs, box, (ax, base), dx, tone, is_line), dislike + worse + 240 * ring))
    return found


# ---- what a box hides

def overlap(a, b, pad=0):
    """How many units two boxes share, the first widened by `pad`."""
    wide = min(a[2] + pad, b[2]) - max(a[0] - pad, b[0])
    high = min(a[3] + pad, b[3]) - max(a[1] - pad, b[1])
    return wide * high if wide > 0 and high > 0 else 0


def length_in(box, start, end):
    """About how much of a segment runs through a box."""
    (x, y), (u, v) = start, end
    low, high = 0, 1 << 20
    for at, way, least, most in ((x, u - x, box[0], box[2]), (y, v - y, box[1], box[3])):
        if way == 0:
            if not least < at < most:
                return 0
            continue
        first, last = sorted((((least - at) << 20) // way, ((most - at) << 20) // way))
        low, high = max(low, first), min(high, last)
        if low >= high:
            return 0
    return (high - low) * (abs(u - x) + abs(v - y)) >> 20


class Placing:
    """Chooses for each name one of its places."""

    def __init__(self, layout, options):
        self.width, self.height = layout.width, layout.height
        self.dots = [spot.at for spot in layout.spots]
        self.segments = []
        for cut in layout.cuts + layout.sides:
            if cut.part is not None and options.is_whole:
                self.segments.append((*cut.whole, FAINT_WEIGHT))
            self.segments.append((*(cut.part or cut.whole), TOLD_WEIGHT if cut.stroke.tone else LINE_WEIGHT))
        self.segments += [(arrow.start, arrow.tip, LINE_WEIGHT) for arrow in layout.arrows]
        self.radius = 75

    def cost(self, box):
        """What a label there hides, but for other labels."""
        cost = 0
        if box[0] < 30 or box[1] < 30 or box[2] > self.width - 30 or box[3] > self.height - 30:
            cost += HARD
        for x, y in self.dots:
            if overlap(box, (x - self.radius, y - self.radius, x + self.radius, y + self.radius), 8):
                cost += HARD
        padded = box[0] - 20, box[1] - 20, box[2] + 20, box[3] + 20
        for start, end, weight in self.segments:
            cost += weight * length_in(padded, start, end)
        return cost

    def placed(self, lists):
        """Of each list of labels one, so that the sum of what they hide is small: each in turn takes its best place among
        the others, until none moves."""
        choices = [[(label, dislike + self.cost(label.box)) for label, dislike in found] for found in lists]
        taken = [min(found, key=lambda choice: choice[1])[0] for found in choices]
        for _ in range(40):
            before = list(taken)
            for k, found in enumerate(choices):
                others = [label.box for j, label in enumerate(taken) if j != k]
                taken[k] = min(found, key=lambda choice: choice[1] + HARD * sum(overlap(choice[0].box, box, 25) > 0 for box in others))[0]
            if taken == before:
                break
        return taken


def placed(layout, options) -> list[Label]:
    lists = []
    for spot in layout.spots:
        if spot.dot.names:
            radius = 130 if spot.dot.is_through else 62
            lists.append(candidates(runs_of(spot.dot.names), spot.at, radius, spot.dot.tone))
    lists += arrow_lists(layout)
    if options.line_names:
        lists += line_lists(layout)
    return Placing(layout, options).placed(lists)


def arrow_lists(layout):
    """A point that arrows go to is named at one of them."""
    lists = {}
    for arrow in layout.arrows:
        if arrow.dot.names:
            found = lists.setdefault(arrow.dot.triple, [])
            found += candidates(runs_of(arrow.dot.names), arrow.start, 40, arrow.dot.tone, dislike=120)
    return list(lists.values())


def line_lists(layout):
    """A line is named beside one of ten places of it."""
    lists = []
    for cut in layout.cuts:
        if cut.stroke.names:
            (x, y), (u, v) = cut.part or cut.whole
            found = []
            for k in (1, 19, 2, 18, 3, 17, 5, 15, 7, 13):
                place = x + (u - x) * k // 20, y + (v - y) * k // 20
                found += candidates(runs_of(cut.stroke.names), place, 0, cut.stroke.tone, True, 80 + 8 * min(k, 20 - k))
            lists.append(found)
    return lists
