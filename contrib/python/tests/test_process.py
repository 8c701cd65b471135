"""A kept program answers as one run of the whole script does, and what ends a program is a fault with its meaning."""
import os
import re
import tempfile
import time
import unittest

from bukshena import process, replies, script
from bukshena.faults import BAD_DATA, ENDED, MISSING, NO_INPUT, NO_OUTPUT, TOO_LATE, WRONG_WORDS, Fault
from tests.common import EXAMPLES, RANDOM, SECONDS, TOP, program_named, program_of, random_script, read

CLASSES = {
    replies.Ok: 1, replies.Refusal: 1, replies.Zero: 1, replies.Inferred: 1, replies.Certificate: 1, replies.Uncertified: 1,
    replies.Screen: lambda reply: len(reply.elements), replies.Picture: lambda reply: reply.text.count('\n'),
    replies.Conjectures: lambda reply: len(reply.statements), replies.Ledger: lambda reply: len(reply.entries),
}


def size_of(reply):
    """The number of lines of a reply."""
    size = CLASSES[type(reply)]
    return size if isinstance(size, int) else size(reply)


def raw_lines(data):
    """The lines of a script with their carriage returns, of which a kept program takes one away too."""
    *whole, rest = data.split(b'\n')
    return whole + ([rest + b'\r' if rest.endswith(b'\r') else rest] if rest else [])


class LineByLine(unittest.TestCase):
    def compare(self, name, data):
        """Line by line and whole, the replies and the status are the same, and the values that are read off them fit."""
        whole = process.run_script(data, seconds=SECONDS)
        with process.Kept(seconds=SECONDS) as kept:
            parts = [kept.ask(line) for line in raw_lines(data)]
            self.assertEqual((''.join(parts), kept.status), (whole.text, whole.status), name)
            self.assertEqual(kept.lines, len(script.expand(data).lines), name)
        reader = replies.reader_of(data, whole.reply)
        sizes = {}
        for reply in reader.found:
            sizes[reply.at] = sizes.get(reply.at, 0) + size_of(reply)
        self.assertEqual([part.count('\n') for part in parts], [sizes.get(at + 1, 0) for at in range(len(parts))], name)
        self.compare_sketch(name, data, reader.sketch)

    def compare_sketch(self, name, data, sketch):
        """The names and kinds that a sketch was told of are those that the program shows."""
        shown = process.run_script(script.asked(data, 'screen'), seconds=SECONDS).text.splitlines()
        count = len(sketch.elements)
        on_screen = [replies.shown(line) for line in shown[len(shown) - count:]]
        self.assertEqual([(e.name, e.kind) for e in on_screen], [(e.name, e.kind) for e in sketch.live()], name)

    def test_examples(self):
        for path in EXAMPLES:
            with self.subTest(path=path):
                self.compare(path, read(path))

    def test_random_scripts(self):
        for seed in range(RANDOM):
            with self.subTest(seed=seed):
                self.compare(f'seed {seed}', random_script(seed))

    def test_lines_that_have_no_reply(self):
        with process.Kept() as kept:
            said = [kept.ask(line) for line in ('', '# a comment', 'tool m 1', 'screen', 'show 1000', 'end', 'screen', 'use m a B')]
            self.assertEqual(said, ['', '', '', '', '', '', '', 'refused 5 view\n'])
            self.assertEqual((kept.lines, kept.status), (5, 1))

    def test_a_line_that_is_refused_as_the_second_one_is(self):
        with process.Kept() as kept:
            self.assertEqual([kept.ask('show 1000'), kept.ask('show 999'), kept.ask('dual')],
                             ['refused 1 view\n', 'refused 2 view\n', 'ok\n'])

    def test_names_that_look_like_replies(self):
        with process.Kept() as kept:
            for line in ('fixpoint refused 0 0 1', 'fixpoint ok 1 0 1', 'point view 2 3', 'join job ok refused'):
                self.assertEqual(kept.ask(line), 'ok\n')
            self.assertEqual(kept.ask('screen').splitlines()[0], 'refused point 0 0 1')

    def test_a_long_line(self):
        with process.Kept(seconds=60) as kept:
            self.assertEqual(kept.ask('#' * 300_000), 'refused 1 long\n')
            self.assertEqual(kept.ask('dual\r'), 'ok\n')
            self.assertRaises(ValueError, kept.ask, 'dual\ndual')

    def test_an_answer_comes_at_once(self):
        with process.Kept() as kept:
            for line in ('point A 0 0', 'point B 1 2'):
                kept.ask(line)
            times = []
            for k in range(50):
                begun = time.monotonic()
                self.assertEqual(kept.ask(f'join l{k} A B'), 'ok\n')
                times.append(time.monotonic() - begun)
            # the shortest: a loaded machine takes its time over some
            self.assertLess(min(times), 0.05)


class Ends(unittest.TestCase):
    def setUp(self):
        room = tempfile.TemporaryDirectory()
        self.addCleanup(room.cleanup)
        self.room = room.name

    def fault(self, program, act):
        """The status and the sentence of the fault that the act ends with, by this program."""
        with program_named(program_of(self.room, program)):
            with self.assertRaises(Fault) as raised:
                act()
        self.assertTrue(raised.exception.sentence.startswith('bukshena: '))
        return raised.exception.status, raised.exception.sentence

    @staticmethod
    def ask_kept(seconds=20.0):
        with process.Kept(seconds=seconds) as kept:
            for _ in range(3):
                kept.ask('point A 0 0')

    def is_gone(self, pid):
        try:
            os.kill(pid, 0)
        except ProcessLookupError:
            return True
        return False

    def test_meanings_are_the_launcher_s(self):
        launcher = read(os.path.join(TOP, 'launcher', 'run.sh')).decode()
        told = {int(status): text for status, text in re.findall(r"^ +(\d)\) echo '(.*)' ;;$", launcher, re.M)}
        self.assertEqual(told, process.MEANINGS)
        self.assertEqual(process.meaning(9), 'the program ended with status 9')

    def test_statuses(self):
        for status, want in ((2, WRONG_WORDS), (3, NO_INPUT), (4, NO_OUTPUT), (5, BAD_DATA), (6, ENDED), (9, ENDED)):
            got, sentence = self.fault(f'cat >/dev/null; exit {status}', lambda: process.run_script(b'dual\n'))
            self.assertEqual(got, want, sentence)
        self.assertEqual(self.fault('kill -9 $$', lambda: process.run_script(b'dual\n'))[0], ENDED)

    def test_the_program_is_wrong_about_its_words(self):
        with self.assertRaises(Fault) as raised:
            process.run(['run', '--workers', '17'])
        self.assertEqual(raised.exception.status, WRONG_WORDS)

    def test_too_much_input(self):
        with self.assertRaises(Fault) as raised:
            process.run_script(b'\n' * (2**24 + 1), seconds=SECONDS)
        self.assertEqual((raised.exception.status, raised.exception.sentence),
                         (BAD_DATA, 'bukshena: the input has more than 16,777,216 bytes'))

    def test_the_program_ends_in_the_middle(self):
        for program in ('exit 0', 'exit 7', 'read line; echo ok; exit 3', 'read line; kill -9 $$', 'read line; exec 1>&-; sleep 0.2'):
            status, sentence = self.fault(program, self.ask_kept)
            self.assertIn(status, (ENDED, NO_INPUT), f'{program}: {sentence}')

    def test_the_limit_of_time(self):
        for act in (lambda: self.ask_kept(0.3), lambda: process.run_script(b'dual\n', seconds=0.3)):
            begun = time.monotonic()
            status, sentence = self.fault('exec sleep 600', act)
            self.assertEqual(status, TOO_LATE, sentence)
            self.assertLess(time.monotonic() - begun, 300)

    def test_a_program_that_reads_nothing(self):
        with program_named(program_of(self.room, 'exec sleep 600')):
            kept = process.Kept(seconds=0.3)
            self.assertRaises(Fault, kept.ask, '#' * 1_000_000)
            self.assertTrue(self.is_gone(kept.pid))

    def test_what_is_written_is_no_reply(self):
        said = r"while read line; do printf '\377\n'; done"
        self.assertEqual(self.fault(said, lambda: process.run_script(b'dual\n').text)[0], ENDED)

    def test_a_program_that_is_missing(self):
        for path in (os.path.join(self.room, 'nowhere'), self.room):
            with program_named(path):
                for act in (process.Kept, lambda: process.run(['run'])):
                    with self.assertRaises(Fault) as raised:
                        act()
                    self.assertEqual(raised.exception.status, MISSING)
                    self.assertIn(path, raised.exception.sentence)

    def test_the_program_ends_with_the_object(self):
        with process.Kept() as kept:
            kept.ask('dual')
        self.assertTrue(self.is_gone(kept.pid))
        left = process.Kept()
        pid = left.pid
        left.ask('dual')
        del left
        self.assertTrue(self.is_gone(pid))


if __name__ == '__main__':
    unittest.main()
