"""How things look: colours that are told apart by people with colour blindness (the palette of Okabe and Ito), and in
print by their widths and dashes."""
from dataclasses import dataclass
from math import isqrt

from bukshena.figure import FALSE, MARKED

BLACK, GREY, PALE = '#000000', '#606870', '#c4c9cf'
BLUE, GREEN, PURPLE, ORANGE, VERMILION = '#0072b2', '#009e73', '#cc79a7', '#e69f00', '#d55e00'
PROVED_COLOURS = (BLUE, GREEN, PURPLE, ORANGE)
FILLS = ('#dbe9f6', '#fbe6cf', '#dcefe6', '#f3e1ec')

LINE, CARRIER, MEMBER, THEOREM, FAINT = 26, 22, 42, 62, 14
RING_WIDTH, EDGE_WIDTH = 36, 20
HEAD = 190


@dataclass(frozen=True)
class Look:
    """Widths in hundredths of a millimetre; `dashes` lengths of dashes and gaps."""
    colour: str
    width: int
    dashes: 'str | None' = None


@dataclass(frozen=True)
class DotLook:
    colour: str
    fill: str
    edge: str
    radius: int
    ring: int = 0


def colour(tone):
    if tone is None or tone.what == MARKED:
        return BLACK
    return VERMILION if tone.what == FALSE else PROVED_COLOURS[tone.count % len(PROVED_COLOURS)]


# in print the theorems are told apart by these
DASHES = (None, '240 90', '90 70', '240 70 60 70')


def of_stroke(stroke) -> Look:
    tone = stroke.tone
    if stroke.ends:
        return Look(VERMILION, MEMBER, '110 80')
    if tone is None:
        return Look(GREY, CARRIER, '60 60') if stroke.is_carrier else Look(GREY, LINE)
    width = THEOREM if stroke.is_theorem else MEMBER
    if tone.what == FALSE:
        return Look(VERMILION, width, '110 80')
    if tone.what == MARKED:
        return Look(BLACK, MEMBER, '160 90')
    return Look(colour(tone), width, DASHES[tone.count % len(DASHES)])


def faint(look) -> Look:
    """Of a line beyond its points."""
    return Look(PALE if look.colour == GREY else look.colour, FAINT)


def of_arrow(arrow) -> Look:
    return Look(of_dot(arrow.dot).colour, LINE)


def level(cut):
    """Lines in colour are drawn over the others."""
    return (cut.stroke.tone is not None, cut.stroke.is_theorem)


def segments(layout, options):
    """Each segment that is drawn, with its look, from the lowest to the uppermost."""
    for cut in sorted(layout.cuts, key=level):
        look = of_stroke(cut.stroke)
        if options.is_whole or cut.part is None:
            yield (*cut.whole, faint(look) if cut.part else look)
        if cut.part is not None:
            yield (*cut.part, look)
    for cut in layout.sides:
        if cut.part:
            yield (*cut.part, of_stroke(cut.stroke))


def of_dot(dot) -> DotLook:
    own = colour(dot.tone)
    if dot.is_through:
        return DotLook(own, own, own, 62, 125)
    if not dot.names:
        return DotLook(GREY, 'white', GREY, 45)
    return DotLook(own, own, 'white', 72)


def text(label):
    if label.tone is None:
        return GREY if label.is_line else None
    return colour(label.tone)


def fill(count):
    return FILLS[count % len(FILLS)]


def head(start, tip):
    """The corners of an arrow's head."""
    dx, dy = tip[0] - start[0], tip[1] - start[1]
    length = isqrt(dx * dx + dy * dy) or 1
    back = tip[0] - HEAD * dx // length, tip[1] - HEAD * dy // length
    side = -dy * HEAD * 2 // (5 * length), dx * HEAD * 2 // (5 * length)
    return tip, (back[0] + side[0], back[1] + side[1]), (back[0] - side[0], back[1] - side[1])
