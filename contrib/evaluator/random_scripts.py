"""Random scripts, for comparisons. Names are few and numbers small, so that figures degenerate, and lines are refused, often.
The same seed gives the same script each time."""
import random

POINTS, LINES = 'A B C D E F G'.split(), 'a b c d e f g'.split()
BROKEN = ['', '  ', '# a comment', 'point', 'point A 1', 'points A 1 2', 'point 9A 1 2', 'point A 1 x', 'point A 1 1001',
          'claim', 'claim foo A', 'claim null', 'drag A', 'show', 'show 7', 'close -1', 'x' * 201, 'point \xc3\xa9 1 2',
          'certify same A', 'zero', 'zero [A,B]', 'zero + [A,B,C]', 'infer', 'infer foo A', 'infer span A B C', 'end',
          'use mid m A B', 'tool mid 9', '\tdual ', 'undo 1', 'screen now']


class Writer:
    def __init__(self, seed):
        self.draw = random.Random(seed)
        self.points, self.lines = [], []

    def number(self):
        return str(self.draw.choice([0, 0, 1, 1, -1, 2, -2, 3, 5, self.draw.randint(-1000, 1000)]))

    def name(self, kind):
        made = self.points if kind == 'P' else self.lines
        if made and self.draw.random() < 0.97:
            return self.draw.choice(made)
        return self.draw.choice(POINTS if kind == 'P' else LINES)

    def new(self, kind):
        pool, made = (POINTS, self.points) if kind == 'P' else (LINES, self.lines)
        free = [n for n in pool if n not in made]
        if free and self.draw.random() < 0.93:
            made.append(self.draw.choice(free))
            return made[-1]
        return self.draw.choice(pool)

    def filled(self, form):
        """N, n: a new point, a new line; P, l: the names of one; #: a number; other words stand for themselves."""
        words = form.split()
        rest = [self.number() if w == '#' else self.name('P') if w == 'P' else self.name('l') if w == 'l' else w for w in words]
        return ' '.join(self.new('P') if w == 'N' else self.new('l') if w == 'n' else w for w in rest)

    def line(self):
        chance = self.draw.random()
        if chance < 0.05:
            return self.draw.choice(BROKEN)
        if chance < 0.55:
            return self.filled(self.draw.choice([
                'point N # #', 'point N # #', 'line n # #', 'fixpoint N # # #', 'fixline n # # #', 'on N l #', 'through n P #',
                'along N P P #', 'pencil n l l #', 'join n P P', 'join n P P', 'meet N l l', 'meet N l l']))
        if chance < 0.72:
            return self.filled(self.draw.choice(['drag P # #', 'drag P #', 'drag l #', 'drag l # #', 'drop P', 'drop l', 'dual',
                                                 'undo', 'undo', 'redo']))
        if chance < 0.84:
            return self.filled('claim ' + self.statement())
        return self.filled(self.draw.choice(self.asking()))

    def statement(self):
        return self.draw.choice(['null P', 'null l', 'same P P', 'same l l', 'on P l', 'on P l', 'collinear P P P', 'concurrent l l l'])

    def asking(self):
        return ['screen', 'screen', 'conjectures', 'svg', 'show 0', 'show 2', 'close 1', 'certify ' + self.statement(),
                'infer span P P P l', 'infer extend P P P P', 'infer lie P P P l', 'infer unique P P l l', 'infer move P P l',
                self.expression()]

    def expression(self):
        terms = []
        for _ in range(self.draw.randint(1, 2)):
            brackets = [f"[{','.join(self.name('P') for _ in range(3))}]" for _ in range(self.draw.randint(1, 2))]
            terms.append(' '.join(([self.draw.choice(['2', '0', '-', '1000'])] if self.draw.random() < 0.2 else []) + brackets))
        return 'zero ' + self.draw.choice([' + ', ' - ']).join(terms)

    def script(self):
        figure = ['point N # #'] * 2 + [self.draw.choice(['point N # #', 'fixpoint N # # 1', 'along N P P #']), 'join n P P', 'join n P P']
        lines = [self.filled(form) for form in figure] + [self.line() for _ in range(self.draw.randint(5, 40))]
        return lines + (['ledger', 'screen'] if len(self.points + self.lines) <= 12 else ['screen'])
