"""Certificates, versions 1 and 2, checked point by point.

Written from docs/FORMATS.md alone, to compare with the program: it shares nothing with it. A line is read by
contrib/python, which was written from there too."""
import itertools
import math
import os
import sys

import geometry as g
from geometry import Element, Sketch, other

sys.path.append(os.path.join(os.path.dirname(os.path.abspath(__file__)), '..', 'python'))
from bukshena.certificates import has_shapes, read


def rebuilt(entries):
    """The sketch of the elements; None where they make none."""
    sketch = Sketch()
    for n, kind, how, *args in entries:
        e = Element(n, f'e{n}', kind, how, tuple(args))
        if n >= g.NUMBERS or n < sketch.next or any(k not in sketch.elements for k in e.names()):
            return None
        if any(sketch.elements[k].kind != (kind if how == 'blend' else other(kind)) for k in e.names()):
            return None
        if how == 'fixed' and (not any(args) or any(abs(x) > 1000 for x in args)):
            return None
        sketch.elements[n], sketch.next = e, n + 1
    es = sketch.listed()
    if len(es) > g.ELEMENTS or sum(len(e.parameters()) for e in es) > g.PARAMETERS:
        return None
    heights = sketch.plain_heights([e.number for e in es], lambda p: 3)
    return None if any(h > g.TALL for h in heights.values()) else sketch


def fits(sketch, claim):
    what, *ns = claim
    if any(n not in sketch.elements for n in ns) or any(a >= b for a, b in zip(ns, ns[1:])):
        return False
    kinds = {sketch.elements[n].kind for n in ns}
    return len(kinds) == (2 if what == 'on' else 1)


def first_fault(line):
    """The number of the first thing that is wrong, or the finding."""
    try:
        v = read(line)
    except (ValueError, RecursionError):
        return 1
    if not has_shapes(v):
        return 2
    sketch, claim = rebuilt(v['elements']), tuple(v['claim'])
    if sketch is None or not fits(sketch, claim):
        return 3
    parameters = [p for e in sketch.listed() for p in e.parameters()]
    return false_fault(sketch, claim, parameters, v['values']) if v['verdict'] == 'false' else proved_fault(sketch, claim, parameters, v)


def false_fault(sketch, claim, parameters, values):
    if [p for p, _ in values] != parameters:
        return 5
    at = dict(values)
    if g.height(sketch, claim, lambda p: abs(at.get(p, 0))) > g.GREAT:
        return 7
    if not any(g.parts(claim, sketch.triples(claim[1:], lambda p: at.get(p, 0)))):
        return 8
    return 'false'


def proved_fault(sketch, claim, parameters, v):
    entries = [(x[:-1], x[-1]) for x in v['degrees']]
    named = [p for ps, _ in entries for p in ps]
    pairs = [e.parameters() for e in sketch.listed() if e.how == 'free']
    allowed = {p: d for ps, d in entries for p in ps}
    degrees = g.degree_table(sketch, claim)
    if (any(a[0][0] >= b[0][0] for a, b in zip(entries, entries[1:])) or len(set(named)) < len(named)
            or any(ps[0] not in parameters if len(ps) == 1 else ps not in pairs for ps, _ in entries)
            or any(degrees.get(p, 0) > allowed.get(p, 0) for p in parameters)):
        return 4
    cut = [(x[:1], x[1:]) if len(x) == 2 else (x[:2], x[2:]) for x in v['grid']]
    if ([ps for ps, _ in cut] != [ps for ps, _ in entries]
            or any(len(set(xs)) < len(xs) for _, lists in cut for xs in lists)
            or any(len({len(xs) for xs in lists}) > 1 for _, lists in cut)
            or any(len(lists[0]) <= d for (_, lists), (_, d) in zip(cut, entries))):
        return 5
    if math.prod(len(ls[0]) if len(ls) == 1 else len(ls[0]) * (len(ls[0]) + 1) // 2 for _, ls in cut) > g.SIZE:
        return 6
    most = {p: max(map(abs, xs)) for ps, lists in cut for p, xs in zip(ps, lists)}
    if g.height(sketch, claim, lambda p: most.get(p, 0)) > g.GREAT:
        return 7
    firsts = [[dict(zip(ps, point)) for point in points(lists)] for ps, lists in cut]
    for chosen in itertools.product(*firsts):
        at = {p: x for part in chosen for p, x in part.items()}
        if any(g.parts(claim, sketch.triples(claim[1:], lambda p: at.get(p, 0)))):
            return 8
    return 'proved'


def points(lists):
    if len(lists) == 1:
        return [(x,) for x in lists[0]]
    m = len(lists[0])
    return [(lists[0][i], lists[1][j]) for i in range(m) for j in range(m - i)]


def check(lines):
    """The reply to the words `check`, and whether a line is invalid."""
    replies, is_invalid = [], False
    for line in lines:
        if len(line) > 65536 or line.strip(b' \t'):
            found = first_fault(line)
            replies.append(f'invalid {found}' if type(found) is int else f'valid {found}')
            is_invalid = is_invalid or type(found) is int
    return replies, is_invalid
