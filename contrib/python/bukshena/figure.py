"""A figure from a screen and the script that it answers: what is drawn, in exact numbers.

A point and a line are three whole numbers each, as on the screen: (a, b, c) is the point (a/c, b/c), or the direction
(a, b) where c is 0; as a line it is ax + by + c = 0. What is proved is read from the program's ledger and its steps of
derivation alone. What is `null` or `far`, and the line at infinity, are in no figure."""
from dataclasses import dataclass, field
from math import gcd

from bukshena import replies
from bukshena.faults import BAD_DATA, Fault

Triple = tuple[int, int, int]

PROVED, FALSE, MARKED = 'proved', 'false', 'marked'


@dataclass(frozen=True)
class Tone:
    """Why something is drawn in colour: `what` is proved, false or marked, `count` tells several of them apart, from 0."""
    what: str
    count: int = 0


@dataclass
class Dot:
    """A point of the plane, or a direction. `is_through` says that a statement's lines go through it; without names it is
    no element of the sketch."""
    triple: Triple
    names: list[str] = field(default_factory=list)
    tone: 'Tone | None' = None
    is_through: bool = False

    @property
    def is_far(self):
        return self.triple[2] == 0


@dataclass
class Stroke:
    """A line. `is_theorem` where a statement says that three points lie on it, `is_carrier` where it is no element of the
    sketch and a point was put on it by `along`. `ends` are the dots between which alone it is drawn, where there are some."""
    triple: Triple
    names: list[str] = field(default_factory=list)
    tone: 'Tone | None' = None
    is_theorem: bool = False
    is_carrier: bool = False
    ends: tuple[Triple, ...] = ()


@dataclass(frozen=True)
class Said:
    """A statement that the figure shows, in the program's words."""
    statement: str
    tone: Tone


@dataclass
class Figure:
    dots: dict[Triple, Dot] = field(default_factory=dict)
    strokes: dict[Triple, Stroke] = field(default_factory=dict)
    # the sides of three points that are false to be collinear
    sides: list[Stroke] = field(default_factory=list)
    polygons: list[tuple[Triple, ...]] = field(default_factory=list)
    said: list[Said] = field(default_factory=list)

    def dots_on(self, stroke):
        """The dots of the plane, those with names or a tone, that lie on a line."""
        return [dot for dot in self.dots.values() if meets(dot.triple, stroke.triple)]


# ---- triples

def normal(triple) -> Triple:
    """The triple without common divisors, the last number that is not 0 positive."""
    a, b, c = (int(number) for number in triple)
    divisor = gcd(gcd(a, b), c)
    sign = 1 if (c or b or a) > 0 else -1
    return sign * a // divisor, sign * b // divisor, sign * c // divisor


def cross(p, q):
    """The line through two points, or the point on two lines; None where they are the same."""
    a, b, c = p[1] * q[2] - p[2] * q[1], p[2] * q[0] - p[0] * q[2], p[0] * q[1] - p[1] * q[0]
    return normal((a, b, c)) if a or b or c else None


def meets(p, l):
    return p[0] * l[0] + p[1] * l[1] + p[2] * l[2] == 0


def first_cross(triples):
    """The line through the first two of several points that are not the same; None where all are."""
    return next((made for p in triples for q in triples if (made := cross(p, q))), None)


def is_in_plane(line):
    return line[0] != 0 or line[1] != 0


# ---- from a script and its reply

class Maker:
    def __init__(self, reader, options):
        self.reader, self.options = reader, options
        self.figure = Figure()
        screens = [reply for reply in reader.found if isinstance(reply, replies.Screen)]
        if not screens:
            raise Fault(BAD_DATA, 'the script asks for no screen, so there is nothing to draw; end it with a line `screen`')
        self.shown = {shown.name: shown for shown in screens[-1].elements}
        self.triples = {name: normal(shown.numbers) for name, shown in self.shown.items() if shown.numbers}
        self.hidden = set(options.hide)
        self.must_be_shown([*options.hide, *(name for polygon in options.fill for name in polygon)])

    def must_be_shown(self, names):
        for name in names:
            if name not in self.shown:
                raise Fault(BAD_DATA, f'{name} is no element of the screen, which has {" ".join(self.shown) or "none"}')

    def kind(self, name):
        return self.shown[name].kind

    def made(self):
        self.add_elements()
        self.add_carriers()
        for polygon in self.options.fill:
            self.figure.polygons.append(self.corners(polygon))
        for statement in self.proved_claims():
            self.say(statement, PROVED)
        for statement in self.options.mark:
            self.mark(statement)
        if self.options.failing is not None:
            self.say(self.options.failing.statement, FALSE)
        return self.figure

    def corners(self, names):
        found = tuple(self.triples[name] for name in names if name in self.triples and self.kind(name) == 'point')
        if len(found) < len(names) or len(found) < 3 or any(c == 0 for _, _, c in found):
            raise Fault(BAD_DATA, f'{" ".join(names)} cannot be filled: three or more points of the plane can be')
        return found

    # ---- elements

    def add_elements(self):
        for name, triple in self.triples.items():
            if name in self.hidden:
                continue
            if self.kind(name) == 'point':
                self.dot(triple).names.append(name)
            elif is_in_plane(triple):
                self.stroke(triple).names.append(name)

    def dot(self, triple):
        return self.figure.dots.setdefault(triple, Dot(triple))

    def stroke(self, triple):
        return self.figure.strokes.setdefault(triple, Stroke(triple))

    def add_carriers(self):
        """A point by `along` lies on a line through two others, and a line by `pencil` goes through the meet of two: these
        are drawn where nothing of the sketch is there."""
        elements = self.reader.sketch.elements
        for element in elements.values():
            names = [elements[number].name for number in element.below]
            if element.word not in ('along', 'pencil') or not all(name in self.triples for name in [element.name, *names]):
                continue
            if {element.name, *names} & self.hidden:
                continue
            carrier = cross(*(self.triples[name] for name in names))
            if carrier and not self.is_drawn(carrier, element.kind):
                self.add_carrier(carrier, element.kind)

    def is_drawn(self, triple, kind):
        return any(self.triples[name] == triple and self.kind(name) != kind for name in self.triples)

    def add_carrier(self, triple, kind):
        if kind == 'line':
            self.dot(triple)
        elif is_in_plane(triple):
            self.stroke(triple).is_carrier = True

    # ---- statements

    def proved_claims(self):
        """The claims that the last ledger proves, and what steps of derivation gave."""
        ledgers = [reply for reply in self.reader.found if isinstance(reply, replies.Ledger)]
        entries = ledgers[-1].entries if ledgers else ()
        found = [entry.statement for entry in entries if entry.is_proved and entry.claimed_at is not None]
        found += [reply.statement for reply in self.reader.found if isinstance(reply, replies.Inferred)]
        return list(dict.fromkeys(found))

    def is_proved(self, statement):
        ledgers = [reply for reply in self.reader.found if isinstance(reply, replies.Ledger)]
        entries = ledgers[-1].entries if ledgers else ()
        return any(entry.is_proved and key_of(entry.statement) == key_of(statement) for entry in entries)

    def mark(self, statement):
        """What the user wants to be seen: in a theorem's colour where the ledger proves it, and else as marked, where it is
        so on this screen."""
        word, *names = statement.split()
        self.must_be_shown(names)
        if self.is_proved(statement):
            if key_of(statement) not in [key_of(said.statement) for said in self.figure.said]:
                self.say(statement, PROVED)
        elif self.is_so(statement):
            self.say(statement, MARKED)
        else:
            raise Fault(BAD_DATA, f'{statement}: this is not so on the screen, so it is not marked')

    def is_so(self, statement):
        names = statement.split()[1:]
        triples = [self.triples.get(name) for name in names]
        kinds = {self.kind(name) for name in names}
        if None in triples or len(names) not in (2, 3) or (len(names) == 3 and len(kinds) == 2):
            return False
        if len(names) == 3:
            line = first_cross(triples)
            return line is None or all(meets(triple, line) for triple in triples)
        return triples[0] == triples[1] if len(kinds) == 1 else meets(*triples)

    def say(self, statement, what):
        names = statement.split()[1:]
        if not all(name in self.triples for name in names) or self.hidden.issuperset(names):
            return
        tone = Tone(what, sum(said.tone.what == what for said in self.figure.said))
        self.figure.said.append(Said(statement, tone))
        triples = [self.triples[name] for name in names]
        if len(names) == 3 and self.kind(names[0]) == 'point':
            self.say_collinear(triples, tone)
        elif len(names) == 3:
            self.say_concurrent(triples, tone)
        for name in names:
            self.colour(self.triples[name], self.kind(name), tone)

    def colour(self, triple, kind, tone):
        drawn = (self.figure.dots if kind == 'point' else self.figure.strokes).get(triple)
        if drawn is not None and drawn.tone is None:
            drawn.tone = tone

    def say_collinear(self, points, tone):
        if tone.what == FALSE:
            for k in range(3):
                line = cross(points[k - 1], points[k])
                if line and is_in_plane(line):
                    self.figure.sides.append(Stroke(line, tone=tone, ends=(points[k - 1], points[k])))
            return
        line = first_cross(points)
        if line and is_in_plane(line):
            stroke = self.stroke(line)
            stroke.tone, stroke.is_theorem = stroke.tone or tone, True

    def say_concurrent(self, lines, tone):
        places = {cross(p, q) for k, p in enumerate(lines) for q in lines[:k]} - {None}
        for place in sorted(places):
            dot = self.dot(place)
            dot.tone, dot.is_through = dot.tone or tone, True


def key_of(statement):
    """The same for each order of the names; `collinear` and `concurrent` are the same of other kinds."""
    word, *names = statement.split()
    return {'collinear': 'triple', 'concurrent': 'triple'}.get(word, word), tuple(sorted(names))


def figure_of(script, reply, options):
    """The figure of the last screen of a script, with the whole reply to it. Fault 65 where it has none."""
    return Maker(replies.reader_of(script, reply), options).made()
