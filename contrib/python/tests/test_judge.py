"""`bukshena judge`: the examples, one fault at a time, and files that a batch would carry out otherwise."""
import json
import os
import tempfile
import time
import unittest

from bukshena import replies
from tests.common import EXAMPLES, command, program_of, read

FIGURE = 'point A 0 0\npoint B 4 2\njoin l A B\non P l 2\nclaim collinear A B P\n'
# a script with one fault, and what is said of it behind the file's name
FAULTS = [
    ('arity', 'point A 1\n' + FIGURE, ':1: refused arity: point A 1'),
    ('command', FIGURE + 'points Q 1 2\n', ':6: refused command: points Q 1 2'),
    ('unknown', FIGURE + 'join m A Z\n', ':6: refused unknown: join m A Z'),
    ('taken', FIGURE + '# a comment\n\npoint A 1 2\n', ':8: refused taken: point A 1 2'),
    ('kind', FIGURE + 'claim on l A\n', ':6: refused kind: claim on l A'),
    ('ascii', FIGURE + 'point É 1 2\n', ':6: refused ascii: point ?? 1 2'),
    ('mark', '\ufeff# a comment\n' + FIGURE, ':1: refused ascii: the file begins with a byte order mark; save it without'),
    ('long', FIGURE + '#' * 201 + '\n', f':6: refused long: {"#" * 60} ..'),
    ('false', FIGURE + 'point C 1 1\nclaim collinear A B C\n', ':7: false collinear A B C at A.x=0 A.y=0 B.x=0 B.y=1 C.x=1 C.y=0'),
    ('unsettled', FIGURE + 'fixpoint G 800 800 -800\nfixpoint H 800 -800 800\nalong K G H 1\nfixpoint Q 1 1 1\nfixpoint R -1 1 1\n'
     'fixpoint S 1 1 -1\nfixline g 1 1 1\njoin a K Q\njoin b K R\njoin c K S\nmeet T a g\njoin n T S\nmeet M a n\nmeet L b n\n'
     'meet N c n\njoin u K M\njoin v L K\njoin w K N\nclaim concurrent u v w\n', None),
    ('tool', FIGURE + 'tool mid 2\njoin $l $1 $2\nclaim null A\n', ':6: the tool mid has no end: 2 lines behind it became its body'),
    ('used', FIGURE + 'tool far 1\n# in a body\npoint $1 1 1\nend\n\nuse far r A\n', ':11: refused taken: point A 1 1'),
]


class Judge(unittest.TestCase):
    def setUp(self):
        room = tempfile.TemporaryDirectory()
        self.addCleanup(room.cleanup)
        self.room = room.name

    def written(self, name, data):
        path = os.path.join(self.room, name)
        with open(path, 'wb') as file:
            file.write(data if isinstance(data, bytes) else data.encode())
        return path

    def judged(self, *words, status, **more):
        said, wrong, got = command('judge', *words, **more)
        self.assertEqual((got, wrong), (status, ''), said)
        return said.splitlines()

    def test_examples(self):
        """The claims of all examples, with the verdicts of the replies beside them, by one run. It takes half a second; a
        machine that is slow and loaded has half a minute."""
        want, claims = [], 0
        for path in EXAMPLES:
            ledgers = [r for r in replies.read(read(path), read(path[:-3] + 'reply')) if isinstance(r, replies.Ledger)]
            entries = [e for e in ledgers[-1].entries if e.claimed_at] if ledgers else []
            claims += len(entries)
            want += sorted(f'{path}:{e.claimed_at}: {e.verdict} {e.statement}' for e in entries) or [f'{path}: no claims']
        begun = time.monotonic()
        *said, last = self.judged(*EXAMPLES, status=1)
        seconds = time.monotonic() - begun
        self.assertEqual([line.split(' at ')[0] for line in said], want)
        self.assertEqual(last, f'{len(EXAMPLES)} files, {claims} claims: 16 proved, 3 false, 2 unsettled')
        if 'SLOW' not in os.environ:
            self.assertLess(seconds, 30)

    def test_a_fault_each(self):
        paths = [self.written(f'{name}.txt', text) for name, text, _ in FAULTS]
        for path, (name, _, remark) in zip(paths, FAULTS):
            said = self.judged(path, status=1)
            if remark:
                self.assertIn(path + remark, said, name)
            self.assertTrue(any(line.endswith(': proved collinear A B P') for line in said), said)
        well = self.written('well.txt', FIGURE)
        together = self.judged(well, *paths, well, status=1)
        self.assertEqual(together[0], f'{well}:5: proved collinear A B P')
        self.assertEqual(together[-2], together[0])
        for path, (_, _, remark) in zip(paths, FAULTS):
            self.assertTrue(remark is None or path + remark in together, path)

    def test_what_is_allowed(self):
        names = {name: self.written(f'{name}.txt', text) for name, text, _ in FAULTS}
        self.judged('--allow-false', names['false'], status=0)
        self.judged('--allow-unsettled', names['false'], status=1)
        self.judged('--allow-false', names['unsettled'], status=1)
        self.judged('--allow-unsettled', names['unsettled'], status=0)
        self.judged('--allow-unsettled', '--allow-false', names['taken'], status=1)
        self.judged('--allow-unsettled', '--allow-false', names['tool'], status=1)

    def test_json(self):
        path = self.written('false.txt', FAULTS[8][1] + 'point A 1 1\n')
        said, _, status = command('judge', '--json', path, os.path.join(self.room, 'nowhere'))
        whole, missing = json.loads(said)
        self.assertEqual(status, 66)
        self.assertEqual((whole['file'], whole['well'], whole['fault']), (path, False, None))
        self.assertEqual([c['verdict'] for c in whole['claims']], ['proved', 'false'])
        self.assertEqual(whole['claims'][1]['values'], {'A.x': 0, 'A.y': 0, 'B.x': 0, 'B.y': 1, 'C.x': 1, 'C.y': 0})
        self.assertEqual(whole['claims'][1]['drags'], ['drag A 0 0', 'drag B 0 1', 'drag C 1 0'])
        self.assertEqual(whole['refused'], [{'line': 8, 'number': 8, 'cause': 'taken', 'text': 'point A 1 1'}])
        self.assertIn('nowhere', missing['fault'])

    def test_no_file_runs_into_the_next(self):
        """A last line without a line feed, a carriage return there, an open tool, a line ===, views, and no line at all."""
        cut = self.written('cut.txt', FIGURE.rstrip('\n'))
        returned = self.written('returned.txt', FIGURE + 'dual\r')
        opened = self.written('opened.txt', FIGURE + 'tool t 0')
        ended = self.written('ended.txt', FIGURE + '===\n' + FIGURE)
        views = self.written('views.txt', FIGURE + 'show 0\nclose 1\n')
        empty = self.written('empty.txt', '')
        said = self.judged(cut, returned, opened, ended, views, empty, cut, status=1)
        proved = {path: f'{path}:5: proved collinear A B P' for path in (cut, returned, opened, ended, views)}
        self.assertEqual(said[:8], [
            proved[cut], proved[returned], f'{returned}:6: refused ascii: dual?', proved[opened],
            f'{opened}:6: the tool t has no end: 0 lines behind it became its body', proved[ended],
            f'{ended}:6: refused command: ===', f'{ended}:7: refused taken: point A 0 0'])
        self.assertEqual(said[-4:-1], [proved[views], f'{empty}: no claims', proved[cut]])
        self.judged(cut, views, empty, status=0)

    def test_long_files(self):
        """64 kB are carried out, and no more; a file that what is asked behind it would make too long has its own run."""
        comments = '#' * 99 + '\n'
        full = FIGURE + comments * ((65536 - len(FIGURE)) // 100)
        full += '\n' * (65536 - len(full))
        whole, more = self.written('whole.txt', full), self.written('more.txt', full + '\n')
        self.judged(whole, status=0)
        said, wrong, status = command('judge', more, whole)
        self.assertEqual(status, 65)
        self.assertIn(f'{more} has more than 65,536 bytes', wrong)
        self.assertIn(f'{whole}:5: proved collinear A B P', said)

    def test_standard_input(self):
        self.assertEqual(self.judged('-', status=0, data=FIGURE.encode())[0], '-:5: proved collinear A B P')

    def test_claims_that_were_taken_back(self):
        path = self.written('back.txt', FIGURE + 'claim null A\nundo\n')
        self.assertEqual(self.judged(path, status=0)[0], f'{path}:5: proved collinear A B P')
        dual = self.written('dual.txt', FIGURE + 'dual\n')
        self.assertEqual(self.judged(dual, status=0)[0], f'{dual}:5: proved concurrent A B P')

    def test_a_program_that_answers_something_else(self):
        path = self.written('figure.txt', FIGURE)
        for text in ('cat', 'exit 0', 'kill -9 $$', 'echo job 1; echo ok', "printf '\\377'", 'echo job 2', 'exit 9'):
            said, wrong, status = command('judge', path, BUKSHENA_PROGRAM=program_of(self.room, f'cat >/dev/null; {text}' if text != 'cat' else text))
            self.assertIn(status, (65, 70), text)
            self.assertRegex(wrong, r'\Abukshena: [^\n]*figure\.txt[^\n]*\n\Z', text)
        said, wrong, status = command('judge', '--seconds', '0.3', path, path, BUKSHENA_PROGRAM=program_of(self.room, 'exec sleep 600'))
        self.assertEqual(status, 75)
        self.assertRegex(wrong, r'\Abukshena: [^\n]*figure\.txt and 1 other file: [^\n]*\n\Z')

    def test_words(self):
        for words in ((), ('--seconds', '0', 'x'), ('--seconds', 'x', 'x'), ('--workers', '17', 'x'), ('--allow', 'x')):
            said, wrong, status = command('judge', *words)
            self.assertEqual((said, status), ('', 64), words)
            self.assertRegex(wrong, r'\Abukshena: [^\n]+\n\Z')
        self.assertEqual(command('judge', '--help')[2], 0)


if __name__ == '__main__':
    unittest.main()
