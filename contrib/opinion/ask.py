#!/usr/bin/env python3
"""ask.py smt|coq < CERTIFICATE: writes what a certificate says as a question to another prover.

`smt` is a problem in SMT-LIB: is there a position at which the statement fails? Of a certificate that says `proved`
the answer should be `unsat`, of one that says `false` it should be `sat`, at the certificate's values. `coq` is a file with
one theorem, that the statement holds, or that it fails at these values. Both files stand alone. Degrees and grids
are not used: who asks another prover need not believe them. docs/FORMATS.md has the format of certificates."""
import json
import os
import sys

BESIDE = os.path.dirname(os.path.dirname(os.path.abspath(__file__)))
# the package stands beside this folder, or, where both are installed, in share/bukshena
sys.path += [os.path.join(BESIDE, 'python'), os.path.join(BESIDE, '..', '..', '..', 'bukshena', 'python')]
from bukshena.certificates import certificate, parameters_of
from bukshena.faults import BAD_DATA, WRONG_WORDS, Fault


# ---- what a certificate names

def fault_of(v):
    """What a certificate names that is not there, which could not be said to another prover, or None. Whether it is valid
    is for `check`."""
    known = set()
    for n, _, how, *args in v['elements']:
        if n in known or how != 'fixed' and not known.issuperset(args):
            return f'element {n} stands twice, or names one that does not stand before it'
        known.add(n)
    if not known.issuperset(v['claim'][1:]):
        return 'its claim names an element that is not listed'
    if v['verdict'] == 'false' and sorted(p for p, _ in v['values']) != sorted(parameters_of(v['elements'])):
        return 'its values are not those of its parameters'
    return None


# ---- terms: a writer has a number, a parameter, a coordinate, sums, differences and products

class Smt:
    name = staticmethod(lambda n, k: f'e{n}{"xyz"[k]}')
    parameter = staticmethod(lambda p: f'p{p}')
    number = staticmethod(lambda x: f'{x}.0' if x >= 0 else f'(- {-x}.0)')
    plus = staticmethod(lambda *xs: f'(+ {" ".join(xs)})')
    minus = staticmethod(lambda x, y: f'(- {x} {y})')
    times = staticmethod(lambda x, y: f'(* {x} {y})')


class Coq:
    name = staticmethod(lambda n, k: f'e{n}{"xyz"[k]}')
    parameter = staticmethod(lambda p: f'p{p}')
    number = staticmethod(lambda x: f'{x}' if x >= 0 else f'({x})')
    plus = staticmethod(lambda *xs: f'({" + ".join(xs)})')
    minus = staticmethod(lambda x, y: f'({x} - {y})')
    times = staticmethod(lambda x, y: f'{x} * {y}')


class Polynomials:
    """Each number is a polynomial in the parameters: of each list of parameters, in rising order, its coefficient."""
    def __init__(self):
        self.known = {}

    def name(self, n, k):
        return self.known[n][k]

    def parameter(self, p):
        return {(p,): 1}

    def number(self, x):
        return {(): x} if x else {}

    def plus(self, *xs):
        total = {}
        for x in xs:
            for m, c in x.items():
                total[m] = total.get(m, 0) + c
        return {m: c for m, c in total.items() if c}

    def minus(self, x, y):
        return self.plus(x, {m: -c for m, c in y.items()})

    def times(self, x, y):
        return self.plus(*({tuple(sorted(m + n)): c * d for n, d in y.items()} for m, c in x.items()))


def text_of(polynomial):
    return ' + '.join('*'.join([f'({c})'] + [f'p{p}' for p in m]) for m, c in sorted(polynomial.items())) or '0'


def cross(w, s, t):
    return [w.minus(w.times(s[1], t[2]), w.times(s[2], t[1])), w.minus(w.times(s[2], t[0]), w.times(s[0], t[2])),
            w.minus(w.times(s[0], t[1]), w.times(s[1], t[0]))]


def dot(w, s, t):
    return w.plus(*(w.times(x, y) for x, y in zip(s, t)))


def coordinates(w, element):
    n, _, how, *args = element
    mine, next_one = w.parameter(2 * n), w.parameter(2 * n + 1)
    named = [[w.name(k, c) for c in range(3)] for k in args] if how in ('cut', 'blend', 'cross') else []
    if how == 'free':
        return [mine, next_one, w.number(1)]
    if how == 'fixed':
        return [w.number(x) for x in args]
    if how == 'cut':
        (a, b, c), zero = named[0], w.number(0)
        return [w.minus(zero, w.times(mine, b)), w.plus(c, w.times(mine, a)), w.minus(zero, b)]
    if how == 'blend':
        return [w.plus(x, w.times(mine, y)) for x, y in zip(*named)]
    return cross(w, *named)


def parts(w, claim):
    what, *ns = claim
    ts = [[w.name(n, c) for c in range(3)] for n in ns]
    if what == 'null':
        return ts[0]
    if what == 'same':
        return cross(w, *ts)
    return [dot(w, *ts) if what == 'on' else dot(w, ts[0], cross(w, ts[1], ts[2]))]


# ---- the two files

# Z3's own way: products are multiplied out, so that what is 0 everywhere is seen to be
CHECK = '(check-sat-using (then (using-params simplify :som true :som_blowup 4294967295) smt))'


def smt(v):
    lines = ['; Is there a position at which the statement fails? It is one of', f'; {json.dumps(v["claim"])}', '(set-logic QF_NRA)']
    lines += [f'(declare-const {Smt.parameter(p)} Real)' for p in parameters_of(v['elements'])]
    for element in v['elements']:
        for k, x in enumerate(coordinates(Smt, element)):
            lines.append(f'(define-fun {Smt.name(element[0], k)} () Real {x})')
    lines += [f'(assert (= {Smt.parameter(p)} {Smt.number(x)}))' for p, x in v.get('values', [])]
    lines.append(f'(assert (not (and {" ".join(f"(= {x} 0.0)" for x in parts(Smt, v["claim"]))})))')
    return lines + [CHECK]


def coq(v):
    names = [Coq.parameter(p) for p in parameters_of(v['elements'])]
    made = [(Coq.name(element[0], k), x) for element in v['elements'] for k, x in enumerate(coordinates(Coq, element))]
    claim = ' /\\ '.join(f'{x} = 0' for x in parts(Coq, v['claim']))
    lines = ['Require Import ZArith.', 'Open Scope Z_scope.', '', f'(* {json.dumps(v["claim"])} *)'.replace('"', "'")]
    lines.append(f'Theorem {"holds" if v["verdict"] == "proved" else "fails"} :')
    lines.append(f'  forall {" ".join(names + [name for name, _ in made])} : Z,')
    lines += [f'  {name} = {x} ->' for name, x in made]
    if v['verdict'] == 'proved':
        lines += [f'  {claim}.', 'Proof.', f'  intros {" ".join(names + [name for name, _ in made] + ["H" + name for name, _ in made])}.']
        w = Polynomials()
        for element in v['elements']:
            w.known[element[0]] = coordinates(w, element)
            for k, x in enumerate(w.known[element[0]]):
                e = Coq.name(element[0], k)
                # where a coordinate is multiplied out the next one stays short; Coq sees to it that it is the same
                lines.append(f'  assert (M{e} : {e} = {text_of(x)}) by (rewrite H{e}; ring). clear H{e}. subst {e}.')
        return lines + ['  repeat split; ring.', 'Qed.']
    lines += [f'  {Coq.parameter(p)} = {Coq.number(x)} ->' for p, x in v['values']]
    return lines + [f'  ~ ({claim}).', 'Proof. intros. subst. vm_compute. intuition discriminate. Qed.']


def main(words):
    try:
        if words not in (['smt'], ['coq']):
            raise Fault(WRONG_WORDS, 'say smt or coq')
        made = certificate(sys.stdin.read())
        wrong = fault_of(made)
        if wrong:
            raise Fault(BAD_DATA, f'the line is no certificate: {wrong}; bukshena check says more')
    except Fault as fault:
        print(fault.sentence, file=sys.stderr)
        return fault.status
    print('\n'.join({'smt': smt, 'coq': coq}[words[0]](made)))
    return 0


if __name__ == '__main__':
    sys.exit(main(sys.argv[1:]))
