"""Sketches of points and lines: triples, degrees, heights, grids, verdicts, conjectures, pictures.

Written from docs/ alone, to compare with the program: it shares nothing with it. Where a statement is false it finds
the least failing point as the program does; that one holds it only believes, from values modulo a prime."""
import random

ELEMENTS, PARAMETERS, NUMBERS, CLAIMS = 64, 24, 1000, 60
TALL, GREAT, SIZE = 2**41, 2**126, 2**20
PRIME = 2**89 - 1


def sample(position, p):
    return ((31 * position + 17 * p + (position + 1) * p * p + 5) % 101) % 7 - 3


def grid_value(k):
    return (k + 1) // 2 if k % 2 else -(k // 2)


def cross(a, b):
    return (a[1] * b[2] - a[2] * b[1], a[2] * b[0] - a[0] * b[2], a[0] * b[1] - a[1] * b[0])


def dot(a, b):
    return a[0] * b[0] + a[1] * b[1] + a[2] * b[2]


def cross_height(h, g):
    return (h[1] * g[2] + h[2] * g[1], h[2] * g[0] + h[0] * g[2], h[0] * g[1] + h[1] * g[0])


class Element:
    def __init__(self, number, name, kind, how, args):
        self.number, self.name, self.kind, self.how, self.args = number, name, kind, how, args

    def parameters(self):
        n = 2 * self.number
        return {'free': [n, n + 1], 'cut': [n], 'blend': [n]}.get(self.how, [])

    def names(self):
        return list(self.args) if self.how in ('cut', 'blend', 'cross') else []


def other(kind):
    return 'line' if kind == 'point' else 'point'


class Sketch:
    """The live elements by number, the claims, the values of each element, and the next number."""

    def __init__(self):
        self.elements, self.claims, self.settings, self.next = {}, [], {}, 0

    def listed(self):
        return [self.elements[n] for n in sorted(self.elements)]

    def by_name(self, name):
        return next((e for e in self.elements.values() if e.name == name), None)

    def current(self):
        return {p: v for n, e in self.elements.items() for p, v in zip(e.parameters(), self.settings[n])}

    # ---- along the construction

    def along(self, wanted, absent, rule):
        found = {}
        for n in wanted:
            self._along(n, found, absent, rule)
        return found

    def _along(self, n, found, absent, rule):
        if n in found:
            return
        e = self.elements[n]
        for k in e.names():
            self._along(k, found, absent, rule)
        found[n] = rule(e, [found[k] for k in e.names()])

    def needed(self, wanted):
        return sorted(self.along(wanted, None, lambda e, of: e))

    def triples(self, wanted, value, modulus=None):
        def rule(e, of):
            p = 2 * e.number
            if e.how == 'free':
                made = (value(p), value(p + 1), 1)
            elif e.how == 'fixed':
                made = e.args
            elif e.how == 'cut':
                made = cross(of[0], (1, 0, -value(p)))
            elif e.how == 'blend':
                made = tuple(a + value(p) * b for a, b in zip(*of))
            else:
                made = cross(*of)
            return tuple(x % modulus for x in made) if modulus else made
        return self.along(wanted, (0, 0, 0), rule)

    def plain_heights(self, wanted, magnitude):
        def rule(e, of):
            p = 2 * e.number
            if e.how == 'free':
                return max(1, magnitude(p), magnitude(p + 1))
            if e.how == 'fixed':
                return max(abs(x) for x in e.args)
            if e.how == 'cut':
                return (1 + magnitude(p)) * of[0]
            if e.how == 'blend':
                return of[0] + max(1, magnitude(p)) * of[1]
            return 2 * of[0] * of[1]
        return self.along(wanted, 0, rule)

    def heights(self, wanted, magnitude):
        def rule(e, of):
            p = 2 * e.number
            if e.how == 'free':
                return (max(1, magnitude(p)), max(1, magnitude(p + 1)), 1)
            if e.how == 'fixed':
                return tuple(max(1, abs(x)) for x in e.args)
            if e.how == 'cut':
                m, h = magnitude(p), of[0]
                return (max(1, m) * h[1], max(h[0], h[2] + m * h[0]), h[1])
            if e.how == 'blend':
                return tuple(a + max(1, magnitude(p)) * b for a, b in zip(*of))
            return cross_height(*of)
        return self.along(wanted, (0, 0, 0), rule)

    def degrees(self, wanted):
        """Of each element its degree in each parameter, those above 0."""
        def rule(e, of):
            if e.how == 'cross':
                made = dict(of[0])
                for p, d in of[1].items():
                    made[p] = made.get(p, 0) + d
            else:
                made = {p: max(d.get(p, 0) for d in of) for d in of for p in d}
                made.update({p: 1 for p in e.parameters()})
            return made
        return self.along(wanted, {}, rule)


# ---- what is asked: a statement, or an expression

def parts(statement, t):
    what, *ns = statement
    if what == 'null':
        return list(t[ns[0]])
    if what == 'same':
        return list(cross(t[ns[0]], t[ns[1]]))
    if what == 'on':
        return [dot(t[ns[0]], t[ns[1]])]
    if what == 'triple':
        return [dot(t[ns[0]], cross(t[ns[1]], t[ns[2]]))]
    total = 0
    for number, brackets in statement[1]:
        product = number
        for a, b, c in brackets:
            product *= dot(t[a], cross(t[b], t[c]))
        total += product
    return [total]


def names_of(statement):
    if statement[0] == 'zero':
        return sorted({n for _, brackets in statement[1] for b in brackets for n in b})
    return list(statement[1:])


def triple_height(h, a, b, c):
    return dot(h[a], cross_height(h[b], h[c]))


def height(sketch, statement, magnitude):
    h = sketch.heights(names_of(statement), magnitude)
    what, *ns = statement
    if what == 'null':
        return max(h[ns[0]])
    if what == 'same':
        return max(cross_height(h[ns[0]], h[ns[1]]))
    if what == 'on':
        return dot(h[ns[0]], h[ns[1]])
    if what == 'triple':
        return triple_height(h, *ns)
    total = 0
    for number, brackets in statement[1]:
        product = max(1, abs(number))
        for b in brackets:
            product *= triple_height(h, *b)
        total += product
    return total


def degree_table(sketch, statement):
    d = sketch.degrees(names_of(statement))

    def sum_over(ns):
        made = {}
        for n in ns:
            for p, degree in d[n].items():
                made[p] = made.get(p, 0) + degree
        return made
    if statement[0] != 'zero':
        return sum_over(statement[1:])
    made = {}
    for _, brackets in statement[1]:
        for p, degree in sum_over([n for b in brackets for n in b]).items():
            made[p] = max(made.get(p, 0), degree)
    return made


def blocks(sketch, statement):
    """The blocks of the grid: the parameters of each, and its degree."""
    degrees = degree_table(sketch, statement)
    made = []
    for e in sketch.listed():
        ps = e.parameters()
        if ps and degrees.get(ps[0], 0) > 0:
            made.append((ps, degrees[ps[0]]))
    return made


def size(blocks):
    made = 1
    for ps, d in blocks:
        made *= (d + 1) * (d + 2) // 2 if len(ps) == 2 else d + 1
    return made


def points(blocks):
    """The points of the grid in their order, each a map from parameters to values."""
    if not blocks:
        yield {}
        return
    (ps, d), rest = blocks[0], blocks[1:]
    firsts = [(i, j) for i in range(d + 1) for j in range(d + 1 - i)] if len(ps) == 2 else [(i,) for i in range(d + 1)]
    for digits in firsts:
        front = {p: grid_value(k) for p, k in zip(ps, digits)}
        for point in points(rest):
            yield {**front, **point}


def seems_to_hold(sketch, statement):
    for _ in range(3):
        values = {}

        def value(p):
            return values.setdefault(p, random.randrange(PRIME))
        t = sketch.triples(names_of(statement), value, PRIME)
        if any(x % PRIME for x in parts(statement, t)):
            return False
    return True


def verdict(sketch, statement):
    """('proved',), ('false', [(parameter, value)]), ('unsettled', 'grid' or 'height')."""
    grid = blocks(sketch, statement)
    magnitudes = {p: (d + 1) // 2 for ps, d in grid for p in ps}
    axes = sorted(magnitudes)
    needed, count = names_of(statement), size(grid)
    if count <= SIZE and height(sketch, statement, lambda p: magnitudes.get(p, 0)) <= GREAT:
        if seems_to_hold(sketch, statement):
            return ('proved',)
        for point in points(grid):
            if any(parts(statement, sketch.triples(needed, lambda p: point.get(p, 0)))):
                return ('false', [(p, point[p]) for p in axes])
        raise AssertionError('no point of the grid fails')
    for position in range(8):
        if any(parts(statement, sketch.triples(needed, lambda p: sample(position, p)))):
            return ('false', [(p, sample(position, p)) for p in axes])
    return ('unsettled', 'grid' if count > SIZE else 'height')


# ---- what is noticed

def is_plain(sketch, statement):
    what, *ns = statement
    if what == 'on':
        return any(sketch.elements[a].how in ('cut', 'cross') and b in sketch.elements[a].args for a, b in (ns, ns[::-1]))
    if what == 'triple':
        return any(sketch.elements[n].how == 'blend' and sorted([n, *sketch.elements[n].args]) == sorted(ns) for n in ns)
    return False


def conjectures(sketch):
    live = [e.number for e in sketch.listed()]
    at = [sketch.triples(live, lambda p, s=s: sample(s, p)) for s in range(8)]

    def holds(statement):
        return not any(any(parts(statement, t)) for t in at)
    nowhere = {n for n in live if holds(('null', n))}
    together = {(n, m) for n in live for m in live if n < m and holds(('same', n, m))}
    kind = {n: sketch.elements[n].kind for n in live}
    found = []
    for place, n in enumerate(live):
        below = live[:place]
        tried = [('null', n)] + [('same', k, n) for k in below if kind[k] == kind[n]]
        tried += [('on', k, n) for k in below if kind[k] != kind[n]]
        tried += [('triple', j, k, n) for i, j in enumerate(below) for k in below[i + 1:] if kind[j] == kind[k] == kind[n]]
        for s in tried:
            if s[0] != 'null':
                if any(k in nowhere for k in s[1:]):
                    continue
                if s[0] == 'triple' and any((a, b) in together for i, a in enumerate(s[1:]) for b in s[i + 2:]):
                    continue
            if holds(s) and not is_plain(sketch, s):
                found.append(s)
    return found


# ---- where elements are

def primitive(t):
    from math import gcd
    g = gcd(gcd(t[0], t[1]), t[2])
    last = next(x for x in reversed(t) if x)
    g = g if last > 0 else -g
    return tuple(x // g for x in t)


def shown(sketch):
    """Of each element its state: 'far', 'null', or its primitive triple."""
    values, live, made = sketch.current(), [e.number for e in sketch.listed()], []
    heights = sketch.heights(live, lambda p: abs(values.get(p, 0)))
    triples = sketch.triples(live, lambda p: values.get(p, 0))
    for e in sketch.listed():
        t = triples[e.number]
        state = 'far' if max(heights[e.number]) > TALL else primitive(t) if any(t) else 'null'
        made.append((e.name, e.kind, state))
    return made


def picture(entries, is_dual=False):
    lines = ['<svg xmlns="http://www.w3.org/2000/svg" viewBox="-500 -500 1000 1000">']
    for name, kind, state in entries:
        kind = other(kind) if is_dual else kind
        if isinstance(state, str):
            continue
        a, b, c = state
        if kind == 'point':
            if c:
                lines.append(f'<circle id="{name}" cx="{50 * a // c}" cy="{-(50 * b // c)}" r="4"/>')
        elif b and abs(b) >= abs(a):
            y1, y2 = -(50 * (10 * a - c) // b), -(50 * (-10 * a - c) // b)
            lines.append(f'<line id="{name}" x1="-500" y1="{y1}" x2="500" y2="{y2}" stroke="black"/>')
        elif a:
            x1, x2 = 50 * (10 * b - c) // a, 50 * (-10 * b - c) // a
            lines.append(f'<line id="{name}" x1="{x1}" y1="500" x2="{x2}" y2="-500" stroke="black"/>')
    return lines + ['</svg>']
