"""`bukshena ledger`: claims first, what was noticed, how much is plain, drags that lead where a statement fails."""
import os
import re
import tempfile
import unittest
from fractions import Fraction

from bukshena import process, replies, script
from bukshena.drawing import Drawing
from tests.common import EXAMPLES, SECONDS, TOP, command, read

UNSETTLED = '''point A 0 0
point B 1 2
point C 3 1
point D 2 -1
point E -1 2
point F 2 3
join ab A B
join cd C D
meet X ab cd
along Y E F 1
join l X Y
on P l 1
on Q l 2
on R l 3
'''


def example(name):
    return os.path.join(TOP, 'examples', f'{name}.txt')


def cross(a, b):
    return a[1] * b[2] - a[2] * b[1], a[2] * b[0] - a[0] * b[2], a[0] * b[1] - a[1] * b[0]


def is_so(statement, numbers):
    """Whether a statement is so of these triples, which are exact."""
    what, *names = statement.split(' ')
    triples = [numbers[name] for name in names]
    if what == 'null':
        return not any(triples[0])
    if what == 'same':
        return not any(cross(*triples))
    other = triples[1] if what == 'on' else cross(triples[1], triples[2])
    return sum(x * y for x, y in zip(triples[0], other)) == 0


class Shown(unittest.TestCase):
    def shown(self, *words, status=0, **more):
        said, wrong, got = command('ledger', *words, **more)
        self.assertEqual((got, wrong), (status, ''), said)
        return said.splitlines()

    def test_examples(self):
        """Each entry of each ledger is shown once, or counted, and --all shows them all."""
        for path in EXAMPLES:
            with self.subTest(path=path):
                text = script.asked(read(path), 'ledger')
                entries = [f'{e.verdict} {e.statement}' for e in
                           replies.reader_of(text, process.run_script(text, seconds=SECONDS).reply).found[-1].entries]
                whole = [line for line in self.shown('--all', path) if re.match(r'  \S', line)]
                self.assertEqual(sorted(line.split('  (')[0].strip() for line in whole), sorted(entries))
                short = self.shown(path)
                folded = [int(line.split()[0]) for line in short if line.endswith('--all shows which.')]
                self.assertEqual(len([line for line in short if re.match(r'  \S', line)]) + sum(folded), len(entries))
                self.assertFalse([line for line in short if 'false' in line and line not in self.shown('--all', path)])

    def test_the_theorem_comes_first(self):
        self.assertEqual(self.shown(example('desargues')), [
            'Claims', '  proved collinear X Y Z  (line 21, noticed too)',
            '6 more are proved, and hold by the way the figure is drawn; --all shows which.'])

    def test_what_was_not_noticed(self):
        said = self.shown(example('verdicts'))
        self.assertIn('  false on I b  (line 18, not noticed)', said)
        self.assertIn('    depends on no parameter, and fails', said)

    def test_drags_lead_to_where_a_statement_fails(self):
        for name, statement in (('verdicts', 'on I b'), ('false-conjecture', 'collinear P Q Z')):
            with process.Kept(seconds=SECONDS) as kept:
                for line in read(example(name)).splitlines():
                    kept.ask(line)
                entry = next(e for e in replies.entries(kept.ask('ledger')) if e.statement == statement)
                shown = '\n'.join(self.shown(example(name)))
                for drag in entry.drags():
                    self.assertIn(f'\n      {drag}', shown)
                    self.assertEqual(kept.ask(drag), 'ok\n')
                numbers = {e.name: e.numbers for e in replies.screen(kept.ask('screen'))}
                self.assertTrue(all(isinstance(x, Fraction) for x in numbers['P' if name == 'false-conjecture' else 'A']))
                self.assertFalse(is_so(statement, numbers))

    def test_advice(self):
        said = self.shown('-', data=UNSETTLED.encode())
        at = said.index('  unsettled grid collinear P Q R')
        self.assertRegex(said[at + 1], r'^    [Ff]ix points|^    \S.* fix points')

    def test_lines_that_are_refused(self):
        said = self.shown('-', data=b'point A 0 0\npoint A 1 1\ntool m 0\n', status=1)
        self.assertEqual(said, ['-:2: refused taken: point A 1 1',
                                '-:3: the tool m has no end: 0 lines behind it became its body', 'No claims.'])

    def test_faults(self):
        for words, status in (((), 64), (('x', 'y'), 64), (('nowhere',), 66), (('/',), 66)):
            said, wrong, got = command('ledger', *words)
            self.assertEqual((said, got), ('', status))
            self.assertRegex(wrong, r'\Abukshena: [^\n]+\n\Z')


class Plain(unittest.TestCase):
    """What is sorted out as plain, by figures made by hand."""

    def drawing(self, text, same=()):
        sketch = script.Sketch()
        for line in text.splitlines():
            sketch.accept(line.split(' '))
        return sketch, Drawing(sketch, {tuple(sketch.named(name).number for name in pair) for pair in same})

    def expect(self, text, plain, other, same=()):
        sketch, drawing = self.drawing(text, same)
        for statements, want in ((plain, True), (other, False)):
            for statement in statements:
                self.assertEqual(drawing.shows(sketch.statement(statement.split(' '))), want, statement)

    def test_points_of_a_line(self):
        figure = 'point A 0 0\npoint B 1 2\njoin l A B\non P l 1\nalong Q A B 3\npoint C 5 5\njoin m A C\nmeet X l m'
        self.expect(figure, ['collinear A B P', 'collinear P Q B', 'on Q l', 'collinear P Q X'],
                    ['collinear A B C', 'on C l', 'same A X', 'null A'], same=[('A', 'X')])

    def test_lines_of_a_point(self):
        figure = 'line a 0 0\nline b 1 2\nmeet P a b\nthrough l P 1\npencil m a b 3\nline c 5 5'
        self.expect(figure, ['concurrent a b l', 'concurrent l m b', 'on P m'], ['concurrent a b c', 'on P c'])

    def test_two_points_that_are_the_same_make_no_line(self):
        figure = ('point A 0 0\npoint B 1 2\npoint C 3 1\njoin l A B\njoin m A C\nmeet X l m\njoin n A X\nalong P A X 1')
        self.expect(figure, ['collinear A P X'], ['collinear A B C', 'collinear B C X'], same=[('A', 'X')])


if __name__ == '__main__':
    unittest.main()
