"""What is wrong outside of the program's own answers is one sentence that names it, and a status; never a traceback."""
import importlib.util
import os
import re
import subprocess
import sys
import tempfile
import unittest

from bukshena.command import MODULES
from tests.terminal import environment

SCRIPT = b'point A 0 0\npoint B 4 2\njoin l A B\non P l 2\nclaim collinear A B P\nscreen\nledger\n'
READERS = ('judge', 'ledger', 'picture', 'prompt', 'watch')
SECONDS = 60
LONGEST = 16777216


def is_there(word):
    """Whether the package has the command."""
    try:
        return importlib.util.find_spec(MODULES[word]) is not None
    except ModuleNotFoundError:
        return False


class BadInput(unittest.TestCase):
    def setUp(self):
        room = tempfile.TemporaryDirectory()
        self.addCleanup(room.cleanup)
        self.room = room.name

    def path(self, name):
        return os.path.join(self.room, name)

    def written(self, name, data):
        """The path of a new file with these bytes. A name of bytes need not be a text."""
        path = os.path.join(os.fsencode(self.room), os.fsencode(name))
        with open(path, 'wb') as file:
            file.write(data)
        return os.fsdecode(path)

    def ask(self, word, *words, **more):
        """What a command writes and its status; `watch` is left as soon as it has drawn once."""
        env = environment(HOME=self.room, **more)
        command = [sys.executable, '-m', 'bukshena', word, *words]
        if word == 'watch':
            command = [sys.executable, '-c', ONCE, *words]
        done = subprocess.run([os.fsencode(word) for word in command], stdin=subprocess.DEVNULL, stdout=subprocess.PIPE,
                              stderr=subprocess.PIPE, env=env, timeout=SECONDS)
        said = done.stdout.decode('utf-8', 'surrogateescape'), done.stderr.decode('utf-8', 'surrogateescape')
        self.assertNotIn('Traceback', said[0] + said[1], f'{word} {words}')
        self.assertLess(done.returncode, 128, f'{word} {words}')
        return (*said, done.returncode, word, words)

    def words(self, word, path):
        return [word, path, '-o', self.path('out.svg')] if word in ('picture', 'watch') else [word, path]

    def commands(self):
        return [word for word in READERS if is_there(word)]

    def expect_sentence(self, said, status, *named):
        """One sentence on standard error that has these words, and the status."""
        self.assertEqual(said[2], status, said)
        self.assertRegex(said[1], r'\Abukshena: [^\n]+\n\Z', said)
        for text in named:
            self.assertIn(text, said[1], said)

    def expect_sentences(self, said, *named):
        """Sentences or places of a file on standard error and standard output that have these words."""
        for text in named:
            self.assertIn(text, said[0] + said[1], said)
        for line in said[1].splitlines():
            self.assertRegex(line, r'\Abukshena: |\A\S+:\d+: ', said)

    # ---- files

    def test_a_file_that_is_missing(self):
        for word in self.commands():
            said = self.ask(*self.words(word, self.path('nowhere.txt')))
            self.expect_sentence(said, 66, 'nowhere.txt')

    def test_a_folder(self):
        for word in self.commands():
            said = self.ask(*self.words(word, self.room))
            self.expect_sentence(said, 66, self.room)

    def test_a_file_that_may_not_be_read(self):
        path = self.written('closed.txt', SCRIPT)
        os.chmod(path, 0)
        if os.access(path, os.R_OK):
            self.skipTest('who may read all files runs this')
        for word in self.commands():
            self.expect_sentence(self.ask(*self.words(word, path)), 66, path)

    def test_names_in_any_encoding(self):
        for name in ('figure \u00e9 \u2115.txt', b'figure-\xe9.txt'):
            path = self.written(name, SCRIPT)
            for locale in ('C.UTF-8', 'C'):
                for word in self.commands():
                    said = self.ask(*self.words(word, path), LC_ALL=locale)
                    self.assertEqual((said[1], said[2]), ('', 0), said)
                    missing = self.ask(*self.words(word, path + '.not'), LC_ALL=locale)
                    self.expect_sentence(missing, 66, path + '.not')

    # ---- bytes

    def test_comments_in_any_encoding(self):
        for comment in ('# \u00e9t\u00e9\n'.encode(), b'# \xe9t\xe9\n', b'# \x00\xff\n'):
            path = self.written('s.txt', SCRIPT[:12] + comment + SCRIPT[12:])
            for word in self.commands():
                said = self.ask(*self.words(word, path))
                self.expect_sentences(said)
                if word in ('judge', 'prompt'):
                    self.expect_sentences(said, 'ascii')
            if is_there('judge'):
                said = self.ask('judge', path)
                self.assertIn(f'{path}:2: ', said[0] + said[1])
                self.assertEqual(said[2], 1)

    def test_a_byte_order_mark(self):
        path = self.written('s.txt', b'\xef\xbb\xbf' + SCRIPT)
        for word in self.commands():
            said = self.ask(*self.words(word, path))
            self.expect_sentences(said)
            if word in ('judge', 'prompt'):
                self.assertNotEqual(said[2], 0)
                self.expect_sentences(said, 'byte order mark')

    def test_more_than_the_program_reads(self):
        path = self.written('s.txt', SCRIPT + b'#' * 99 + b'\n' * (LONGEST - 99 - len(SCRIPT) + 1))
        for word in self.commands():
            said = self.ask(*self.words(word, path))
            if word == 'watch':
                self.expect_sentences(said, 'bukshena: ', path)
            else:
                self.assertIn(said[2], (1, 65), said)
                self.expect_sentences(said, path)

    def test_more_lines_than_are_read_one_by_one(self):
        path = self.written('s.txt', SCRIPT + b'\n' * (LONGEST - len(SCRIPT)))
        for word in ('judge', 'ledger', 'picture'):
            said = self.ask(*self.words(word, path))
            self.assertEqual(said[2], 65, said)
            self.expect_sentences(said, path)

    def test_an_empty_file_and_one_without_a_last_line_feed(self):
        for data in (b'', b'\n', b'\r\n', SCRIPT[:-1], SCRIPT.replace(b'\n', b'\r\n')):
            path = self.written('s.txt', data)
            for word in self.commands():
                self.expect_sentences(self.ask(*self.words(word, path)))

    def test_a_tool_without_an_end(self):
        path = self.written('s.txt', SCRIPT + b'tool t 1\njoin $a $1 A\n')
        for word in self.commands():
            said = self.ask(*self.words(word, path))
            self.expect_sentences(said)
            if word in ('judge', 'prompt'):
                self.expect_sentences(said, 'tool t', 'end')
            if word == 'judge':
                self.assertIn(f'{path}:8: ', said[0] + said[1])
                self.assertEqual(said[2], 1)

    # ---- the program

    def test_a_program_that_is_missing(self):
        path = self.written('s.txt', SCRIPT)
        plain = self.written('plain', b'')
        for program in (self.path('nowhere'), self.room, plain):
            for word in self.commands():
                said = self.ask(*self.words(word, path), BUKSHENA_PROGRAM=program)
                if word == 'watch':
                    self.expect_sentences(said, program)
                else:
                    self.expect_sentence(said, 69, program)

    def test_a_program_that_ends_in_the_middle(self):
        path = self.written('s.txt', SCRIPT)
        for end in ('kill -9 $$', 'kill -SEGV $$', 'exit 3', 'exit 6', 'exit 0', 'echo ok; exit 99'):
            program = self.written('program', f'#!/bin/sh\nread line\n{end}\n'.encode())
            os.chmod(program, 0o755)
            for word in self.commands():
                said = self.ask(*self.words(word, path), BUKSHENA_PROGRAM=program)
                self.expect_sentences(said, 'bukshena: ')
                if word != 'watch':
                    self.assertGreaterEqual(said[2], 64, f'{end}: {said}')

    def test_a_program_that_writes_something_else(self):
        path = self.written('s.txt', SCRIPT)
        for text in ('\\377\\000', 'ok', 'A point 1 2 3\\nA line x y z', 'proved what'):
            program = self.written('program', f"#!/bin/sh\ncat > {self.path('kept')}\nprintf '{text}\\n'\n".encode())
            os.chmod(program, 0o755)
            for word in self.commands():
                if word != 'prompt':
                    self.expect_sentences(self.ask(*self.words(word, path), BUKSHENA_PROGRAM=program))

    # ---- output

    def test_output_that_cannot_be_written(self):
        path = self.written('s.txt', SCRIPT)
        if is_there('picture'):
            said = self.ask('picture', path, '-o', self.path('nowhere/x.svg'))
            self.expect_sentence(said, 73, 'nowhere/x.svg')
        for word in ('judge', 'ledger', 'prompt'):
            if is_there(word):
                with self.subTest(word), open('/dev/full', 'w') as full:
                    done = subprocess.run([sys.executable, '-m', 'bukshena', word, path], stdin=subprocess.DEVNULL,
                                          stdout=full, stderr=subprocess.PIPE, env=environment(HOME=self.room))
                    said = '', done.stderr.decode(), done.returncode
                    self.expect_sentence(said, 73)

    def test_wrong_words(self):
        for word in self.commands():
            self.expect_sentence(self.ask(word, self.path('s.txt'), '--no-such-word'), 64, '--no-such-word')


# `watch` that ends after its first look
ONCE = """
import sys
from bukshena import watch
from bukshena.command import MODULES, main
watch.stamps = lambda path: [watch.stamp(path)]
sys.exit(main(['watch', *sys.argv[1:]]))
"""
