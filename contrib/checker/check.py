#!/usr/bin/env python3
"""check.py < CERTIFICATES: checks certificates, one a line, and writes what docs/FORMATS.md prescribes for each.

An outside checker: it was written from docs/FORMATS.md alone and has nothing in common with the program, nor with
contrib/evaluator. It trusts nobody: so it is one file that takes nothing from contrib/python either, though its reader is
there too. Who trusts neither may read this: the numbers are Python's, which have any size."""
import json
import math
import re
import sys
from collections import defaultdict, namedtuple
from itertools import accumulate

LINE, ELEMENTS, PARAMETERS, NUMBERS, FIXED = 65536, 64, 24, 1000, 1000
TALL, GREAT, SIZE = 2**41, 2**126, 2**20

Element = namedtuple('Element', 'n kind how args below parameters')


class Invalid(Exception):
    """With the number of what is wrong."""


def need(number, is_so):
    if not is_so:
        raise Invalid(number)


# ---- number 1: JSON

class Fraction:
    """A number that is not in the plain spelling of a whole one, or has more than 64 bits."""


def fraction(text):
    if math.isinf(float(text)):
        raise ValueError(text)
    return Fraction()


def whole(text):
    return int(text) if len(text) < 22 and -2**63 <= int(text) < 2**64 and text != '-0' else fraction(text)


def refused(text):
    raise ValueError(text)


def members(pairs):
    json.dumps(pairs, default=str, ensure_ascii=False).encode('utf-8')  # half a surrogate pair is no text
    return dict(pairs)


def value_of(line):
    need(1, len(line) <= LINE)
    try:
        text = line.decode('utf-8')
        bare = re.sub(r'"(?:[^"\\]|\\.)*"', '', text)
        if max(accumulate((c in '[{') - (c in ']}') for c in bare), default=0) > 127:
            raise ValueError('too deep')
        value = json.loads(text, parse_int=whole, parse_float=fraction, parse_constant=refused, object_pairs_hook=members)
        members([('', value)])
        return value
    except ValueError:
        raise Invalid(1)


# ---- number 2: shapes

def number(x):
    return type(x) is int and -2**31 <= x < 2**31


def place(x):
    return number(x) and x >= 0


def word(*words):
    return lambda x: type(x) is str and x in words


def row(*shapes):
    return lambda x: type(x) is list and len(x) == len(shapes) and all(fits(y) for fits, y in zip(shapes, x))


def rows(*shapes):
    return lambda x: type(x) is list and all(any(fits(y) for fits in shapes) for y in x)


KIND = word('point', 'line')
CLAIM = [row(word('null'), place), row(word('same', 'on'), place, place), row(word('triple'), place, place, place)]
COMMON = {
    'claim': lambda x: any(fits(x) for fits in CLAIM),
    'elements': rows(row(place, KIND, word('free')), row(place, KIND, word('fixed'), number, number, number),
                     row(place, KIND, word('cut'), place), row(place, KIND, word('blend', 'cross'), place, place)),
}
VALUES = rows(number)
SHAPES = {
    (1, 'proved'): {'degrees': rows(row(place, number)), 'grid': rows(row(place, VALUES))},
    (2, 'proved'): {'degrees': rows(row(place, number), row(place, place, number)),
                    'grid': rows(row(place, VALUES), row(place, place, VALUES, VALUES))},
    (1, 'false'): {'values': rows(row(place, number))},
    (2, 'false'): {'values': rows(row(place, number))},
}


def has_its_shapes(v):
    if type(v) is not dict or type(v.get('version')) is not int or type(v.get('verdict')) is not str:
        return False
    shapes = SHAPES.get((v['version'], v['verdict']))
    if shapes is None or set(v) != {'version', 'verdict', *COMMON, *shapes}:
        return False
    return all(fits(v[key]) for key, fits in {**COMMON, **shapes}.items())


# ---- number 3: a sketch, and a claim about it

def figure_of(entries):
    figure, last, plain = {}, -1, {}
    for n, kind, how, *args in entries:
        below = args if how in ('cut', 'blend', 'cross') else []
        need(3, last < n < NUMBERS and all(k in figure for k in below))
        need(3, all((figure[k].kind == kind) == (how == 'blend') for k in below))
        need(3, how != 'fixed' or any(args) and max(map(abs, args)) <= FIXED)
        figure[n] = Element(n, kind, how, args, below, [2 * n, 2 * n + 1][:{'free': 2, 'cut': 1, 'blend': 1}.get(how, 0)])
        of = [plain[k] for k in below]
        plain[n] = {'free': lambda: 3, 'fixed': lambda: max(map(abs, args)), 'cut': lambda: 4 * of[0],
                    'blend': lambda: of[0] + 3 * of[1], 'cross': lambda: 2 * of[0] * of[1]}[how]()
        need(3, plain[n] <= TALL)
        last = n
    need(3, len(figure) <= ELEMENTS and sum(len(e.parameters) for e in figure.values()) <= PARAMETERS)
    return figure


def check_claim(figure, what, ns):
    need(3, all(n in figure for n in ns) and all(a < b for a, b in zip(ns, ns[1:])))
    need(3, len({figure[n].kind for n in ns}) == (2 if what == 'on' else 1))


# ---- triples, heights and degrees

def cross(s, t):
    return s[1] * t[2] - s[2] * t[1], s[2] * t[0] - s[0] * t[2], s[0] * t[1] - s[1] * t[0]


def sums(s, t):
    return s[1] * t[2] + s[2] * t[1], s[2] * t[0] + s[0] * t[2], s[0] * t[1] + s[1] * t[0]


def dot(s, t):
    return s[0] * t[0] + s[1] * t[1] + s[2] * t[2]


def triple_of(e, of, at):
    if e.how == 'free':
        return at[2 * e.n], at[2 * e.n + 1], 1
    if e.how == 'fixed':
        return e.args
    s, t = of[e.below[0]], at[2 * e.n]
    if e.how == 'cut':
        return -t * s[1], s[2] + t * s[0], -s[1]
    other = of[e.below[1]]
    return tuple(x + t * y for x, y in zip(s, other)) if e.how == 'blend' else cross(s, other)


def heights_of(e, of, most):
    if e.how == 'free':
        return max(1, most[2 * e.n]), max(1, most[2 * e.n + 1]), 1
    if e.how == 'fixed':
        return [max(1, abs(x)) for x in e.args]
    h, m = of[e.below[0]], most[2 * e.n]
    if e.how == 'cut':
        return max(1, m) * h[1], max(h[0], h[2] + m * h[0]), h[1]
    other = of[e.below[1]]
    return [x + max(1, m) * y for x, y in zip(h, other)] if e.how == 'blend' else sums(h, other)


def parts_of(what, ts, cross=cross):
    """The parts of a statement; by `sums` in the place of `cross`, their heights."""
    if what == 'null':
        return ts[0]
    if what == 'same':
        return cross(*ts)
    return [dot(*ts) if what == 'on' else dot(ts[0], cross(ts[1], ts[2]))]


def degrees_of(figure, ns):
    """Of the statement about these elements, its degree in each parameter that has one above 0."""
    found = {}
    for e in figure.values():
        of, mine = [found[k] for k in e.below], defaultdict(int)
        for p in {p for d in of for p in d}:
            mine[p] = sum(d[p] for d in of) if e.how == 'cross' else max(d[p] for d in of)
        mine.update({p: 1 for p in e.parameters})
        found[e.n] = mine
    total = defaultdict(int)
    for n in ns:
        for p, d in found[n].items():
            total[p] += d
    return total


def needed(figure, ns):
    wanted = set(ns)
    for e in reversed(figure.values()):
        wanted |= set(e.below) if e.n in wanted else set()
    return [e for e in figure.values() if e.n in wanted]


def check_height(figure, what, ns, most):
    of = {}
    for e in needed(figure, ns):
        of[e.n] = heights_of(e, of, most)
    need(7, max(parts_of(what, [of[n] for n in ns], sums)) <= GREAT)


# ---- numbers 4 to 8

def check_degrees(figure, entries, ns):
    parameters = [p for e in figure.values() for p in e.parameters]
    pairs = [e.parameters for e in figure.values() if e.how == 'free']
    named = [p for *ps, d in entries for p in ps]
    need(4, all(a[0] < b[0] for a, b in zip(entries, entries[1:])) and len(set(named)) == len(named))
    need(4, all(ps[0] in parameters if len(ps) == 1 else ps in pairs for *ps, d in entries))
    degrees, allowed = degrees_of(figure, ns), {p: d for *ps, d in entries for p in ps}
    need(4, all(degrees[p] <= allowed.get(p, 0) for p in parameters))


def blocks_of(degrees, grid):
    """Of each entry its parameters and its points."""
    need(5, [row[:len(row) // 2] for row in grid] == [ps for *ps, d in degrees])
    blocks = []
    for row, (*ps, d) in zip(grid, degrees):
        lists = row[len(row) // 2:]
        need(5, all(len(set(xs)) == len(xs) == len(lists[0]) > d for xs in lists))
        m = len(lists[0])
        blocks.append((ps, m if len(lists) == 1 else m * (m + 1) // 2, lists))
    need(6, math.prod(size for _, size, _ in blocks) <= SIZE)
    return [(ps, [(x,) for x in lists[0]] if len(lists) == 1 else
             [(x, y) for i, x in enumerate(lists[0]) for y in lists[1][:len(lists[0]) - i]]) for ps, _, lists in blocks]


def is_zero_on(blocks, figure, what, ns):
    """All parts are 0 at every point: an element is computed again where a block turns on which it depends."""
    place_of = {p: k for k, (ps, _) in enumerate(blocks) for p in ps}
    levels, layers = {}, [[] for _ in range(len(blocks) + 1)]
    for e in needed(figure, ns):
        levels[e.n] = max([levels[k] for k in e.below] + [place_of[p] + 1 for p in e.parameters if p in place_of], default=0)
        layers[levels[e.n]].append(e)
    at, of = defaultdict(int), {}

    def is_zero_from(k):
        for e in layers[k]:
            of[e.n] = triple_of(e, of, at)
        if k == len(blocks):
            return not any(parts_of(what, [of[n] for n in ns]))
        for point in blocks[k][1]:
            at.update(zip(blocks[k][0], point))
            if not is_zero_from(k + 1):
                return False
        return True
    return is_zero_from(0)


def finding_of(line):
    """'proved' or 'false'; Invalid with the first number that applies."""
    v = value_of(line)
    need(2, has_its_shapes(v))
    what, *ns = v['claim']
    figure = figure_of(v['elements'])
    check_claim(figure, what, ns)
    if v['verdict'] == 'false':
        need(5, [p for p, _ in v['values']] == [p for e in figure.values() for p in e.parameters])
        check_height(figure, what, ns, defaultdict(int, {p: abs(x) for p, x in v['values']}))
        need(8, not is_zero_on([([p], [(x,)]) for p, x in v['values']], figure, what, ns))
    else:
        check_degrees(figure, v['degrees'], ns)
        blocks = blocks_of(v['degrees'], v['grid'])
        most = {p: max(abs(point[k]) for point in points) for ps, points in blocks for k, p in enumerate(ps)}
        check_height(figure, what, ns, defaultdict(int, most))
        need(8, is_zero_on(blocks, figure, what, ns))
    return v['verdict']


def reply_to(line):
    if len(line) <= LINE and not line.strip(b' \t'):
        return ''
    try:
        return f'valid {finding_of(line)}'
    except Invalid as why:
        return f'invalid {why}'


def main():
    *lines, rest = sys.stdin.buffer.read().split(b'\n')
    lines = [line[:-1] if line.endswith(b'\r') else line for line in lines] + ([rest] if rest else [])
    replies = [reply for reply in map(reply_to, lines) if reply]
    print(''.join(reply + '\n' for reply in replies), end='')
    return any(reply.startswith('invalid') for reply in replies)


if __name__ == '__main__':
    sys.exit(main())
