"""Scripts as the program reads them, and replies as values."""
import unittest
from fractions import Fraction

from bukshena import process, replies, script
from bukshena.faults import BAD_DATA, Fault
from tests.common import EXAMPLES, RANDOM, SECONDS, random_script, read
import script as evaluator  # of contrib/evaluator


class Lines(unittest.TestCase):
    def test_words(self):
        for line, words in ((b' point\tA  1 2 ', ['point', 'A', '1', '2']), (b'# x', []), (b'', []), (b'#', []), (b'a #', ['a', '#']),
                            ('point É'.encode(), []), (b'x' * 200, ['x' * 200]), (b'x' * 201, [])):
            self.assertEqual(script.words_of(line), words, line)

    def test_ends_of_lines(self):
        self.assertEqual(script.lines_of(b'a\r\nb\n\nc\r'), [b'a', b'b', b'', b'c\r'])
        self.assertEqual(script.lines_of(b''), [])

    def test_expansions(self):
        """As contrib/evaluator has them, which was written from the documents by another hand."""
        for seed in range(RANDOM):
            data = random_script(seed)
            self.assertEqual([line.text for line in script.expand(data).lines],
                             evaluator.expansion(evaluator.lines_of(data)), f'seed {seed}')

    def test_lines_of_the_file(self):
        made = script.expand(b'tool m 1\npoint $a 1 2\n# x\nend\npoint A 1 1\nuse m p A\ndual\n')
        self.assertEqual([(line.number, line.at, line.text, line.use) for line in made.lines],
                         [(1, 5, b'point A 1 1', None), (2, 6, b'point pa 1 2', 'm'), (3, 6, b'# x', 'm'), (4, 7, b'dual', None)])
        self.assertEqual((made.line_at(4).at, made.is_open, made.unended), (7, False, ()))

    def test_tools_without_an_end(self):
        body = b'dual\n' * 32
        made = script.expand(b'tool m 0\n' + body + b'tool n 0\nscreen\n')
        self.assertEqual([(tool.name, tool.at, len(tool.body)) for tool in made.unended], [(b'm', 1, 32), (b'n', 34, 1)])
        self.assertTrue(made.is_open)

    def test_what_is_asked_behind_a_script(self):
        for data, want in ((b'', b'ledger\n'), (b'dual', b'dual\nledger\n'), (b'dual\n', b'dual\nledger\n'),
                           (b'dual\r', b'dual\r\r\nledger\n'), (b'tool m 0\n', b'tool m 0\nend\nledger\n')):
            self.assertEqual(script.asked(data, 'ledger'), want)


class Sketches(unittest.TestCase):
    def made(self, *lines):
        sketch = script.Sketch()
        for at, line in enumerate(lines, 1):
            sketch.accept(line.split(' '), at)
        return sketch

    def test_changes_are_taken_back_and_made_again(self):
        lines = ['point A 0 0', 'point B 1 2', 'join l A B', 'claim on A l', 'drag A 3 4', 'dual', 'point C 1 1', 'drop C']
        states = [repr(self.made(*lines[:count]).__dict__['elements']) for count in range(len(lines) + 1)]
        sketch = self.made(*lines)
        for count in reversed(range(len(lines))):
            sketch.accept(['undo'])
            self.assertEqual(repr(sketch.elements), states[count])
        self.assertEqual((sketch.claims, sketch.next), ([], 0))
        for count in range(len(lines)):
            sketch.accept(['redo'])
            self.assertEqual(repr(sketch.elements), states[count + 1])
        self.assertEqual([sketch.text_of(claim) for claim in sketch.claims], ['on l A'])

    def test_many_changes_take_no_long_time(self):
        sketch = self.made('point A 0 0')
        for _ in range(50_000):
            sketch.accept(['drag', 'A', '1', '2'])
        for _ in range(50_000):
            sketch.accept(['undo'])
        self.assertEqual(sketch.named('A').values, (0, 0))

    def test_construction(self):
        sketch = self.made('point A 0 0', 'point B 1 2', 'point C 1 1', 'join l A B', 'on P l 1', 'dual')
        self.assertEqual([e.name for e in sketch.construction(['P'])], ['A', 'B', 'l', 'P'])
        self.assertEqual((sketch.names('point'), sketch.named('A').letters, sketch.named('P').letters), (['l'], 'uv', 't'))
        self.assertEqual([sorted(sketch.points_on()[n]) for n in (0, 3, 4)], [[3], [0, 1, 4], [3]])


class Values(unittest.TestCase):
    def test_examples(self):
        """What is read off the examples' replies is what stands there, line for line."""
        for path in EXAMPLES:
            found = replies.read(read(path), read(path[:-3] + 'reply'))
            self.assertEqual([text for reply in found for text in texts_of(reply)],
                             read(path[:-3] + 'reply').decode().splitlines(), path)

    def test_numbers_are_exact(self):
        self.assertEqual(replies.shown('A point -1 2 2199023255552'),
                         replies.Shown('A', 'point', (Fraction(-1), Fraction(2), Fraction(2**41))))
        self.assertEqual(replies.shown('A line far').state, 'far')
        entry = replies.entry('false on P l at A.x=0 A.y=-37 P.t=2')
        self.assertEqual(entry.drags(), ['drag A 0 -37', 'drag P 2'])
        self.assertEqual((entry.is_false, entry.names, entry.values[1].number), (True, ['P', 'l'], Fraction(-37)))

    def test_lines_that_are_none(self):
        for text in ('', 'ok', 'A point 1 2', 'A circle 1 2 3', 'proved', 'proved on P', 'unsettled on P l', 'proved on P l at A.z=1'):
            self.assertIsNone(replies.shown(text), text)
            self.assertIsNone(replies.entry(text), text)
        self.assertEqual((replies.refusal('refused 12 taken'), replies.refusal('refused point 1 2 3')), ((12, 'taken'), None))

    def test_names_that_look_like_statements(self):
        text = (b'fixpoint same 0 0 1\npoint point 0 0\nfixpoint null 0 0 1\nfixline line 0 0 1\ndrag point 1 2\n'
                b'conjectures\nscreen\nledger\nledger\nconjectures\nshow 0\ncertify on point line\n')
        whole = process.run_script(text, seconds=SECONDS)
        found = replies.read(text, whole.reply)
        self.assertEqual([line for reply in found for line in texts_of(reply)], whole.text.splitlines())
        self.assertEqual([type(reply).__name__ for reply in found[5:]],
                         ['Conjectures', 'Screen', 'Ledger', 'Ledger', 'Conjectures', 'Screen', 'Certificate'])

    def test_a_reply_to_another_script(self):
        for text, reply in ((b'dual\n', ''), (b'dual\n', 'ok\nok\n'), (b'screen\n', 'A point 1 2 3\n'), (b'undo\n', 'ok\n'),
                            (b'join l A B\n', 'ok\n'), (b'zero [A,B,C]\n', 'ok\n'), (b'certify null A\n', '{\n'), (b'svg\n', 'ok\n'),
                            (b'point A 1 1\nscreen\n', 'ok\nA circle\n'), (b'dual\n', b'\xff\n')):
            with self.assertRaises(Fault) as raised:
                replies.read(text, reply)
            self.assertEqual(raised.exception.status, BAD_DATA)


def texts_of(reply):
    """The lines of a reply, written again from its values."""
    if isinstance(reply, replies.Ok):
        return ['ok']
    if isinstance(reply, replies.Refusal):
        return [f'refused {reply.line} {reply.cause}']
    if isinstance(reply, replies.Screen):
        return [f'{e.name} {e.kind} {e.state or " ".join(map(str, e.numbers))}' for e in reply.elements]
    if isinstance(reply, (replies.Picture, replies.Certificate)):
        return reply.text.splitlines()
    if isinstance(reply, replies.Conjectures):
        return list(reply.statements)
    if isinstance(reply, replies.Inferred):
        return [f'inferred {reply.statement}']
    return [text_of(e) for e in (reply.entries if isinstance(reply, replies.Ledger) else [reply.entry])]


def text_of(entry):
    values = ' '.join(f'{v.name}.{v.letter}={v.number}' for v in entry.values)
    return f'{entry.verdict} {entry.statement}' + (f' at {values}' if values else '')


if __name__ == '__main__':
    unittest.main()
