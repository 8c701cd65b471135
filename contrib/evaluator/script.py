"""The script language: lines, refusals, replies, tools, batches, and generated scripts.

Written from docs/ alone, to compare with the program: it shares nothing with it."""
import json
import re

import geometry as g
from geometry import Element, Sketch, other

NAME = re.compile(rb'[A-Za-z][A-Za-z0-9]{0,7}\Z')
NUMBER = re.compile(rb'-?[0-9]{1,4}\Z')
STATEMENTS = {b'null': 1, b'same': 2, b'on': 2, b'collinear': 3, b'concurrent': 3}
RULES = {b'span': 4, b'extend': 4, b'lie': 4, b'unique': 4, b'move': 3}
# the words behind the command: n a name, # a number
FORMS = {b'point': 'n##', b'line': 'n##', b'fixpoint': 'n###', b'fixline': 'n###', b'on': 'nn#', b'through': 'nn#',
         b'along': 'nnn#', b'pencil': 'nnn#', b'join': 'nnn', b'meet': 'nnn', b'drop': 'n', b'dual': '', b'undo': '',
         b'redo': '', b'screen': '', b'conjectures': '', b'ledger': '', b'svg': '', b'show': '#', b'close': '#'}
KINDS = {'point': ('point', 'free'), 'line': ('line', 'free'), 'fixpoint': ('point', 'fixed'), 'fixline': ('line', 'fixed'),
         'on': ('point', 'cut'), 'through': ('line', 'cut'), 'along': ('point', 'blend'), 'pencil': ('line', 'blend'),
         'join': ('line', 'cross'), 'meet': ('point', 'cross')}


class Refused(Exception):
    pass


def refuse(word):
    raise Refused(word)


def words_of(line):
    return re.split(rb'[ \t]+', line.strip(b' \t')) if line.strip(b' \t') else []


def is_odd(line):
    return len(line) > 200 or any(b != 9 and not 32 <= b <= 126 for b in line)


class Session:
    def __init__(self, views=('table', 'plane', 'dual')):
        self.sketch, self.done, self.undone, self.count = Sketch(), [], [], 0
        self.views, self.closed, self.refused, self.lines = views, set(), 0, []

    # ---- a line

    def line(self, line):
        """The reply to a line, as a list of lines; None where it has none."""
        self.count += 1
        try:
            return self.answer(line)
        except Refused as refusal:
            self.refused += 1
            return [f'refused {self.count} {refusal}']

    def answer(self, line):
        if len(line) > 200:
            refuse('long')
        if is_odd(line):
            refuse('ascii')
        words = words_of(line)
        if not words or words[0].startswith(b'#'):
            return None
        if words[0] == b'zero':
            return self.zero(words[1:])
        if words[0] == b'infer':
            return self.infer(words[1:])
        return self.command(*self.read(words))

    def read(self, words):
        first = words[0]
        if first in (b'claim', b'certify'):
            if len(words) == 1:
                refuse('arity')
            if words[1] not in STATEMENTS:
                refuse('command')
            form, rest = 'n' * STATEMENTS[words[1]], words[2:]
        elif first == b'drag':
            form, rest = {2: 'n#', 3: 'n##'}.get(len(words) - 1, 'bad'), words[1:]
        elif first in FORMS:
            form, rest = FORMS[first], words[1:]
        else:
            refuse('command')
        if len(rest) != len(form):
            refuse('arity')
        for word, what in zip(rest, form):
            if what == 'n' and not NAME.match(word):
                refuse('name')
        for word, what in zip(rest, form):
            if what == '#' and not (NUMBER.match(word) and -1000 <= int(word) <= 1000):
                refuse('number')
        said = [words[1].decode()] if first in (b'claim', b'certify') else []
        return first.decode(), said + [w.decode() if what == 'n' else int(w) for w, what in zip(rest, form)]

    def command(self, what, args):
        if what in KINDS:
            return self.change(self.addition(what, *args))
        if what == 'drag':
            return self.change(self.drag(args[0], tuple(args[1:])))
        if what == 'drop':
            return self.change(self.drop(args[0]))
        if what == 'claim':
            return self.change(self.claim(args[0], args[1:]))
        if what == 'dual':
            return self.change(('dual',))
        if what == 'undo':
            return self.move(self.done, lambda d: (self.done[:-1], [d] + self.undone), -1)
        if what == 'redo':
            return self.move(self.undone, lambda d: (self.done + [d], self.undone[1:]), 0)
        if what == 'screen':
            return screen(self.sketch)
        if what == 'conjectures':
            return [statement_text(self.sketch, s) for s in g.conjectures(self.sketch)]
        if what == 'ledger':
            listed = g.conjectures(self.sketch)
            listed += [c for c in self.sketch.claims if c not in listed]
            return [ledger_line(self.sketch, s, statement_text(self.sketch, s)) for s in listed]
        if what == 'certify':
            return self.certify(args[0], args[1:])
        if what == 'svg':
            return g.picture(g.shown(self.sketch))
        if args[0] not in range(len(self.views)) or args[0] in self.closed:
            refuse('view')
        if what == 'close':
            self.closed.add(args[0])
            return ['ok']
        kind = self.views[args[0]]
        return screen(self.sketch) if kind == 'table' else g.picture(g.shown(self.sketch), kind == 'dual')

    # ---- changes

    def change(self, delta):
        apply(self.sketch, delta)
        self.done, self.undone = self.done + [delta], []
        return ['ok']

    def move(self, deltas, lists, place):
        if not deltas:
            refuse('nothing')
        self.done, self.undone = lists(deltas[place])
        self.sketch = Sketch()
        for delta in self.done:
            apply(self.sketch, delta)
        return ['ok']

    def found(self, names):
        es = [self.sketch.by_name(n) for n in names]
        if None in es:
            refuse('unknown')
        return es

    def addition(self, word, name, *args):
        sketch, (kind, how) = self.sketch, KINDS[word]
        if sketch.by_name(name):
            refuse('taken')
        names = [a for a in args if isinstance(a, str)]
        numbers = tuple(a for a in args if not isinstance(a, str))
        es = self.found(names)
        if any(e.kind != (kind if how == 'blend' else other(kind)) for e in es):
            refuse('kind')
        if how == 'fixed' and not any(numbers):
            refuse('zero')
        e = Element(sketch.next, name, kind, how, numbers if how == 'fixed' else tuple(e.number for e in es))
        live = sum(len(x.parameters()) for x in sketch.elements.values())
        if len(sketch.elements) == g.ELEMENTS or live + len(e.parameters()) > g.PARAMETERS or sketch.next == g.NUMBERS:
            refuse('full')
        sketch.elements[e.number] = e
        height = sketch.plain_heights([e.number], lambda p: 3)[e.number]
        del sketch.elements[e.number]
        if height > g.TALL:
            refuse('tall')
        return 'add', e, () if how == 'fixed' else numbers

    def drop(self, name):
        e, = self.found([name])
        if any(e.number in x.names() for x in self.sketch.elements.values()) or any(e.number in c[1:] for c in self.sketch.claims):
            refuse('used')
        return 'drop', e.number

    def drag(self, name, values):
        e, = self.found([name])
        if not values or len(values) != len(e.parameters()):
            refuse('fixed')
        return 'drag', e.number, values

    def resolve(self, word, names, is_claim=False):
        es = self.found(names)
        kinds = [e.kind for e in es]
        fits = {'null': True, 'same': len(set(kinds)) == 1, 'on': kinds == ['point', 'line'],
                'collinear': set(kinds) == {'point'}, 'concurrent': set(kinds) == {'line'}}[word]
        if not fits:
            refuse('kind')
        if is_claim and len(self.sketch.claims) == g.CLAIMS:
            refuse('full')
        ns = sorted(e.number for e in es)
        if len(set(ns)) < len(ns):
            refuse('repeat')
        return ({'collinear': 'triple', 'concurrent': 'triple'}.get(word, word), *ns)

    def claim(self, word, names):
        s = self.resolve(word, names, is_claim=True)
        if s in self.sketch.claims:
            refuse('repeat')
        return 'claim', s

    # ---- certificates, expressions, derivations

    def certify(self, word, names):
        s = self.resolve(word, names)
        r = g.verdict(self.sketch, s)
        return [ledger_line(self.sketch, s, statement_text(self.sketch, s), r) if r[0] == 'unsettled' else certificate(self.sketch, s, r)]

    def zero(self, words):
        if not words:
            refuse('arity')
        terms = expression(words)
        if terms is None:
            refuse('shape')
        names = [n for _, brackets in terms for b in brackets for n in b]
        of = dict(zip(names, self.found(names)))
        if any(len({of[n].kind for n in b}) > 1 for _, brackets in terms for b in brackets):
            refuse('kind')
        s = ('zero', [(number, [tuple(of[n].number for n in b) for b in brackets]) for number, brackets in terms])
        if g.height(self.sketch, s, lambda p: 3) > g.GREAT:
            refuse('great')
        return [ledger_line(self.sketch, s, 'zero')]

    def infer(self, words):
        if words and words[0] not in RULES:
            refuse('command')
        if not words or len(words) != 1 + RULES[words[0]]:
            refuse('arity')
        if any(not NAME.match(w) for w in words[1:]):
            refuse('name')
        rule, es = words[0].decode(), self.found([w.decode() for w in words[1:]])
        capitals = {'span': 'PPPl', 'extend': 'PPPP', 'lie': 'PPPl', 'unique': 'PPll', 'move': 'PPl'}[rule]
        kind = es[0].kind
        if any(e.kind != (kind if c == 'P' else other(kind)) for e, c in zip(es, capitals)):
            refuse('kind')
        n = [e.number for e in es]
        if len(set(n)) < len(n):
            refuse('repeat')

        def made(what, *ns):
            return (what, *sorted(ns))
        a, b, c, d = n + [None] * (4 - len(n))
        premises, side, conclusion = {
            'span': lambda: ([made('on', a, d), made('on', b, d), made('on', c, d)], made('null', d), made('triple', a, b, c)),
            'extend': lambda: ([made('triple', a, b, c), made('triple', a, b, d)], made('same', a, b), made('triple', a, c, d)),
            'lie': lambda: ([made('triple', a, b, c), made('on', a, d), made('on', b, d)], made('same', a, b), made('on', c, d)),
            'unique': lambda: ([made('on', a, c), made('on', a, d), made('on', b, c), made('on', b, d)], made('same', c, d), made('same', a, b)),
            'move': lambda: ([made('same', a, b), made('on', a, c)], made('null', a), made('on', b, c)),
        }[rule]()
        for s in premises:
            if not g.is_plain(self.sketch, s) and g.verdict(self.sketch, s)[0] != 'proved':
                refuse('unproved')
        t = [self.sketch.triples(side[1:], lambda p, k=k: g.sample(k, p)) for k in range(8)]
        if not any(any(g.parts(side, at)) for at in t):
            refuse('degenerate')
        return [f'inferred {statement_text(self.sketch, conclusion)}']


def apply(sketch, delta):
    what = delta[0]
    if what == 'add':
        e = delta[1]
        sketch.elements[e.number] = Element(e.number, e.name, e.kind, e.how, e.args)
        sketch.settings[e.number], sketch.next = delta[2], e.number + 1
    elif what == 'drop':
        del sketch.elements[delta[1]]
    elif what == 'drag':
        sketch.settings[delta[1]] = delta[2]
    elif what == 'claim':
        sketch.claims.append(delta[1])
    else:
        for e in sketch.elements.values():
            e.kind = other(e.kind)


# ---- texts

def screen(sketch):
    return [f"{name} {kind} {state if isinstance(state, str) else ' '.join(map(str, state))}" for name, kind, state in g.shown(sketch)]


def statement_text(sketch, s):
    what, es = s[0], [sketch.elements[n] for n in s[1:]]
    if what == 'on':
        es.sort(key=lambda e: e.kind != 'point')
    if what == 'triple':
        what = 'collinear' if es[0].kind == 'point' else 'concurrent'
    return ' '.join([what] + [e.name for e in es])


def ledger_line(sketch, s, text, r=None):
    r = r or g.verdict(sketch, s)
    if r[0] == 'unsettled':
        return f'unsettled {r[1]} {text}'
    values = ' '.join(parameter_text(sketch, p) + f'={v}' for p, v in r[1]) if r[0] == 'false' else ''
    return f'{r[0]} {text}' + (f' at {values}' if values else '')


def parameter_text(sketch, p):
    e = sketch.elements[p // 2]
    letter = 't' if e.how != 'free' else ('xy' if e.kind == 'point' else 'uv')[p % 2]
    return f'{e.name}.{letter}'


def expression(words):
    """The terms, each a signed number and a list of brackets of names; None where the words are none."""
    sign, words = 1, list(words)
    if words[0] == b'-':
        sign, words = -1, words[1:]
    terms = []
    while True:
        number, brackets = 1, []
        if words and re.match(rb'[0-9]{1,4}\Z', words[0]):
            number = int(words[0])
            if number > 1000:
                return None
            words = words[1:]
        while words and words[0] not in (b'+', b'-'):
            found = re.match(rb'\[([^,\]]*),([^,\]]*),([^,\]]*)\]\Z', words[0])
            if not found or not all(NAME.match(n) for n in found.groups()):
                return None
            brackets.append(tuple(n.decode() for n in found.groups()))
            words = words[1:]
        if not 1 <= len(brackets) <= 8:
            return None
        terms.append((sign * number, brackets))
        if not words:
            return terms if len(terms) <= 16 else None
        sign, words = (1 if words[0] == b'+' else -1), words[1:]


def entry_of(e):
    return [e.number, e.kind, e.how, *e.args]


def certificate(sketch, s, r):
    made = {'claim': list(s), 'elements': [entry_of(sketch.elements[n]) for n in sketch.needed(s[1:])], 'verdict': r[0], 'version': 2}
    if r[0] == 'proved':
        grid = g.blocks(sketch, s)
        made['degrees'] = [[*ps, d] for ps, d in grid]
        made['grid'] = [[*ps, *[[g.grid_value(k) for k in range(d + 1)] for _ in ps]] for ps, d in grid]
    else:
        made['values'] = [list(v) for v in r[1]]
    return json.dumps(made, sort_keys=True, separators=(',', ':'))


# ---- whole inputs

def lines_of(data):
    *whole, rest = data.split(b'\n')
    return [line[:-1] if line.endswith(b'\r') else line for line in whole] + ([rest] if rest else [])


def expansion(lines):
    tools, body, given = {}, None, []
    for line in lines:
        words = [] if is_odd(line) else words_of(line)
        if body is not None:
            if words == [b'end']:
                tools[body[0]], body = body[1:], None
            else:
                body[2].append(line)
                if len(body[2]) == 32:
                    tools[body[0]], body = body[1:], None
        elif (len(words) == 3 and words[0] == b'tool' and NAME.match(words[1]) and words[1] not in tools
              and re.match(rb'[0-8]\Z', words[2]) and len(tools) < 40):
            body = (words[1], int(words[2]), [])
        elif (len(words) >= 3 and words[0] == b'use' and words[1] in tools and NAME.match(words[2])
              and len(words) - 3 == tools[words[1]][0]):
            given += [changed(line, words[2], words[3:]) for line in tools[words[1]][1]]
        else:
            given.append(line)
    return given


def changed(line, prefix, others):
    def change(word):
        if re.match(rb'\$[1-9]\Z', word) and int(word[1:]) <= len(others):
            return others[int(word[1:]) - 1]
        return prefix + word[1:] if re.match(rb'\$[A-Za-z][A-Za-z0-9]*\Z', word) else word
    return line if is_odd(line) else b' '.join(map(change, words_of(line)))


def run(lines, session=None):
    """The replies to a script's lines, and whether one was refused."""
    session = session or Session()
    replies = [reply for line in lines for reply in (session.line(line) or [])]
    return replies, session.refused > 0


def batch(lines):
    jobs, replies, is_refused = [[]], [], False
    for line in lines:
        if line == b'===':
            jobs.append([])
        else:
            jobs[-1].append(line)
    if not jobs[-1]:
        jobs.pop()
    for k, job in enumerate(jobs, 1):
        replies.append(f'job {k}')
        if sum(len(line) + 1 for line in job) > 65536:
            given, refused = ['refused job'], True
        else:
            given, refused = run(expansion(job), Session(views=()))
        replies, is_refused = replies + given, is_refused or refused
    return replies, is_refused


# ---- generated scripts

FIGURE = '''fixpoint O 0 0 1
point A 1 0
point B 0 1
point C -1 -1
along D O A 1
along E O B 2
along F O C 3
join ab A B
join de D E
meet X ab de
join bc B C
join ef E F
meet Y bc ef
join ca C A
join fd F D
meet Z ca fd
claim collinear X Y Z'''.splitlines()


class Generator:
    """PCG-XSH-RR with 64 bits of state, stream 1."""
    def __init__(self, seed):
        self.state = seed + 3
        self.step()

    def step(self):
        self.state = (self.state * 6364136223846793005 + 3) % 2**64

    def pick(self, m):
        state = self.state
        self.step()
        turn, x = state >> 59, (((state >> 18) ^ state) >> 27) % 2**32
        return ((x >> turn | x << (32 - turn)) % 2**32) % m


def generated(seed):
    draw, lines = Generator(seed), list(FIGURE)
    for _ in range(1000):
        w = draw.pick(8)
        if w < 5:
            name, x, y = 'ABC'[draw.pick(3)], draw.pick(2001) - 1000, draw.pick(2001) - 1000
            lines.append(f'drag {name} {x} {y}')
        elif w == 5:
            name, t = 'DEF'[draw.pick(3)], draw.pick(2001) - 1000
            lines.append(f'drag {name} {t}')
        else:
            lines.append('undo' if w == 6 else 'redo')
    return lines + ['screen', 'ledger']


def summary(seed):
    session, counts = Session(views=()), dict.fromkeys(('ok', 'refused', 'proved', 'false', 'unsettled'), 0)
    for line in generated(seed):
        reply = session.line(line.encode())
        if line == 'ledger':
            for entry in reply:
                counts[entry.split()[0]] += 1
        elif line != 'screen':
            counts[reply[0].split()[0]] += 1
    return 'gen {} lines {} ok {ok} refused {refused} proved {proved} false {false} unsettled {unsettled}'.format(seed, session.count, **counts)
