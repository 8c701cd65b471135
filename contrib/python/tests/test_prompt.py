import os
import re
import signal
import subprocess
import sys
import tempfile
import time
import unittest

from bukshena import process
from bukshena.session import Session
from tests.terminal import Terminal, environment, is_gone

FREE = ('point A 0 0', 'point B 1 0', 'point C 0 1')
CTRL_C, CTRL_D, TAB, UP = '\x03', '\x04', '\t', '\x1b[A'


def without_terminal(text, *words, **more):
    data = text if isinstance(text, bytes) else text.encode()
    return subprocess.run([sys.executable, '-m', 'bukshena', 'prompt', *words], input=data, stdout=subprocess.PIPE,
                          stderr=subprocess.PIPE, env=environment(**more))


class AtTerminal(unittest.TestCase):
    def setUp(self):
        room = tempfile.TemporaryDirectory()
        self.addCleanup(room.cleanup)
        self.room = room.name

    def prompt(self, *words, **more):
        terminal = Terminal('prompt', *words, XDG_STATE_HOME=self.room, HOME=self.room, **more)
        self.addCleanup(terminal.__exit__)
        terminal.until(r'^1> ' if not words else r'^\d+> ')
        return terminal

    def path(self, name):
        return os.path.join(self.room, name)

    def written(self, name):
        with open(self.path(name), encoding='ascii') as file:
            return file.read()

    def program_of(self, terminal):
        """The number of the process that the prompt keeps."""
        found = subprocess.run(['ps', '-o', 'pid=', '--ppid', str(terminal.pid)], stdout=subprocess.PIPE).stdout.split()
        return int(found[0])

    def test_numbers_are_those_of_the_saved_script(self):
        terminal = self.prompt()
        for line in FREE:
            self.assertIn('\nok\n', terminal.ask(line))
        self.assertRegex(terminal.ask('point A 5 5'), r'\nrefused 4 taken\n  The new name is in use\..*\n5> \Z')
        self.assertIn('\nok\n', terminal.ask('undo'))
        self.assertIn('\nok\n', terminal.ask('redo'))
        self.assertRegex(terminal.ask('redo'), r'refused 7 nothing')
        terminal.ask('')
        terminal.ask('help')
        self.assertIn('C point 0 1 1\n9> ', terminal.ask('screen'))
        terminal.ask(f'save {self.path("s.txt")}')
        self.assertEqual(self.written('s.txt').split('\n'),
                         [*FREE, '# refused taken: point A 5 5', 'undo', 'redo', '# refused nothing: redo', 'screen', ''])
        self.assertRegex(terminal.ask('join l A Q'), 'refused 9 unknown')

    def test_ctrl_c_leaves_the_line_and_ctrl_d_ends(self):
        terminal = self.prompt()
        terminal.type('point Z 9 9')
        terminal.until('point Z 9 9')
        terminal.pause()
        terminal.type(CTRL_C)
        terminal.until(r'^1> ')
        self.assertIn('ok', terminal.ask('point A 0 0'))
        self.assertIn('A point 0 0 1\n3> ', terminal.ask('screen'))
        terminal.type(CTRL_D)
        self.assertEqual(terminal.status(), 0)

    def test_completion(self):
        terminal = self.prompt()
        for line in FREE:
            terminal.ask(line)
        for typed, whole in (('joi' + TAB + 'ab ' + 'A B', 'join ab A B'), ('on P a' + TAB + '2', 'on P ab 2'),
                             ('claim col' + TAB + 'A B P', 'claim collinear A B P'),
                             ('meet X a' + TAB + 'ab', 'meet X ab ab'), ('certify on C a' + TAB, 'certify on C ab'),
                             ('infer uni' + TAB + 'A B ab ab', 'infer unique A B ab ab')):
            self.assertIn(whole, terminal.ask(typed))
        terminal.type('join l ' + TAB + TAB)
        listed = terminal.until(r'\n\d+> join l ')
        self.assertIn(['A', 'B', 'C', 'P', 'X'], [line.split() for line in listed.split('\n')])

    def test_history_is_kept_across_sessions(self):
        with self.prompt() as terminal:
            terminal.ask('point A 0 0')
            terminal.ask('point B 1 0')
            terminal.type(CTRL_D)
            terminal.status()
        self.assertEqual(self.written('bukshena/history'), 'point A 0 0\npoint B 1 0\n')
        self.assertEqual(os.stat(self.path('bukshena/history')).st_mode & 0o777, 0o600)
        terminal = self.prompt(TERM='vt100')
        terminal.type(UP + UP + '\r')
        terminal.until(r'ok\n2> ')
        self.assertIn('A point 0 0 1', terminal.ask('screen'))

    def test_history_that_cannot_be_kept_is_told(self):
        with open(self.path('bukshena'), 'w'):
            pass
        self.assertIn('keeps no history', self.prompt().said)

    def test_help(self):
        terminal = self.prompt()
        self.assertIn('Ctrl-C leaves the line', terminal.ask('help'))
        self.assertIn('The point on l and m.', terminal.ask('help meet'))
        self.assertIn('in use', terminal.ask('help taken'))
        self.assertIn('writes the lines so far', terminal.ask('help save'))
        self.assertIn('Is it collinear', terminal.ask('help colinear'))
        self.assertIn('Is it join', terminal.ask('jion l A B'))

    def test_save_and_load_ask_before_something_is_lost(self):
        terminal = self.prompt()
        script = self.path('s.txt')
        with open(script, 'w') as file:
            file.write('point P 3 4\npoint P 1 1\nscreen')
        terminal.ask('point A 0 0')
        self.assertIn('is there already', terminal.ask(f'save {script}'))
        self.assertIn('1 line of this session is not saved', terminal.ask(f'load {script}'))
        terminal.ask('point B 1 0')
        self.assertIn('2 lines of this session are not saved', terminal.ask(f'load {script}'))
        self.assertIn('3 lines, 1 refused', terminal.ask(f'load {script}'))

    def test_load(self):
        script = self.path('s.txt')
        with open(script, 'w') as file:
            file.write('point P 3 4\npoint P 1 1\nscreen')
        terminal = self.prompt()
        said = terminal.ask(f'load {script}')
        self.assertIn('\n2: point P 1 1\nrefused 2 taken\n', said)
        self.assertTrue(said.endswith('P point 3 4 1\n%s: 3 lines, 1 refused\n4> ' % script), said)
        terminal.ask('drag P 5 6')
        self.assertIn('4 lines', terminal.ask(f'save {script}'))
        self.assertEqual(self.written('s.txt'), 'point P 3 4\n# refused taken: point P 1 1\nscreen\ndrag P 5 6\n')
        again = self.prompt(script)
        self.assertIn('P point 5 6 1', again.ask('screen'))

    def test_a_picture(self):
        terminal = self.prompt()
        for line in (*FREE, 'join ab A B'):
            terminal.ask(line)
        terminal.ask(f'picture {self.path("p.svg")}')
        self.assertIn('</svg>', self.written('p.svg'))
        self.assertRegex(terminal.ask('picture'), 'bukshena: picture wants the name of a file')
        self.assertIn('bukshena: ', terminal.ask(f'picture {self.path("p.nothing")}'))
        self.assertIn('bukshena: ', terminal.ask(f'picture {self.path("nowhere/p.svg")}'))

    def test_tools(self):
        terminal = self.prompt()
        for line in ('point A 1 0', 'point B 3 2'):
            terminal.ask(line)
        self.assertTrue(terminal.ask('tool mid 2', r'^mid\| ').endswith('mid| '))
        terminal.ask('join $ab $1 $2', r'^mid\| ')
        terminal.ask('on $p $ab 0', r'^mid\| ')
        self.assertTrue(terminal.ask('end').endswith('3> '))
        self.assertTrue(terminal.ask('use mid m A B').endswith('ok\nok\n5> '))
        self.assertIn('refused 5 taken\n', terminal.ask('use mid m A B'))
        self.assertIn('refused 7 command', terminal.ask('use mid m A'))
        self.assertIn('use mid n A B', terminal.ask('use mi' + TAB + 'n A B'))

    def test_a_program_that_is_killed_is_told_and_begun_anew(self):
        terminal = self.prompt()
        for line in FREE:
            terminal.ask(line)
        os.kill(self.program_of(terminal), signal.SIGKILL)
        self.assertRegex(terminal.ask('point D 5 5').replace('\n', ' '), 'bukshena: the program ended in the middle.*lines '
                         'before stand')
        self.assertIn('3 lines', terminal.ask(f'save {self.path("s.txt")}'))
        self.assertRegex(terminal.ask('point A 5 5'), 'refused 4 taken')
        self.assertIn('C point 0 1 1\n6> ', terminal.ask('screen'))

    def test_a_long_line_is_told_and_left(self):
        slow = self.path('slow')
        with open(slow, 'w') as file:
            file.write('#!/bin/sh\nread a\nread b\necho ok\necho refused 2 view\nread c\nsleep 1000\n')
        os.chmod(slow, 0o755)
        terminal = self.prompt(BUKSHENA_PROGRAM=slow)
        self.assertIn('ok', terminal.ask('point A 0 0'))
        terminal.type('ledger\r')
        terminal.until('bukshena: the program is still at work; Ctrl-C leaves this line')
        terminal.type(CTRL_C)
        self.assertIn('this line was left; the lines before stand', terminal.until(r'^2> '))
        self.assertIn('1 line', terminal.ask(f'save {self.path("s.txt")}'))

    def test_a_limit_of_time(self):
        slow = self.path('slow')
        with open(slow, 'w') as file:
            file.write('#!/bin/sh\nexec sleep 1000\n')
        os.chmod(slow, 0o755)
        terminal = self.prompt('--seconds', '0.2', BUKSHENA_PROGRAM=slow)
        self.assertIn('bukshena: no answer after 0.2 seconds', terminal.ask('point A 0 0'))

    def test_without_readline(self):
        hidden = self.path('readline.py')
        with open(hidden, 'w') as file:
            file.write('raise ImportError\n')
        code = f'import sys; sys.path.insert(0, {self.room!r}); from bukshena.command import main; sys.exit(main(["prompt"]))'
        with Terminal(python=('-c', code), HOME=self.room) as terminal:
            terminal.until(r'^1> ')
            self.assertIn('ok', terminal.ask('point A 0 0'))
            terminal.type(CTRL_D)
            self.assertEqual(terminal.status(), 0)

    def test_a_text_that_is_pasted(self):
        terminal = self.prompt(TERM='xterm')
        terminal.type('\x1b[200~' + '\n'.join(FREE) + '\n\x1b[201~\r')
        terminal.until(r'4> ')
        terminal.type('screen\r')
        terminal.until(r'C point 0 1 1')

    def test_the_program_ends_with_a_prompt_that_is_ended(self):
        for number in (signal.SIGTERM, signal.SIGHUP):
            slow = self.path('slow')
            with open(slow, 'w') as file:
                file.write('#!/bin/sh\nread a\nread b\necho ok\necho refused 2 view\nexec sleep 1000\n')
            os.chmod(slow, 0o755)
            terminal = self.prompt(BUKSHENA_PROGRAM=slow)
            terminal.ask('point A 0 0')
            program = self.program_of(terminal)
            terminal.type('ledger\r')
            terminal.until('still at work')
            os.kill(terminal.pid, number)
            self.assertEqual(terminal.status(), 128 + number)
            self.assertTrue(is_gone(program))

    def test_nothing_is_left_behind(self):
        terminal = self.prompt()
        terminal.ask('point A 0 0')
        program = self.program_of(terminal)
        terminal.ask('quit', 'quit')
        self.assertEqual(terminal.status(), 0)
        self.assertTrue(is_gone(program))


class WithoutTerminal(unittest.TestCase):
    def test_replies_are_those_of_the_program(self):
        done = without_terminal('point A 1 2\nscreen\n')
        self.assertEqual((done.stdout, done.stderr, done.returncode), (b'ok\nA point 1 2 1\n', b'', 0))

    def test_last_line_without_an_end(self):
        self.assertEqual(without_terminal('point A 1 2\nscreen').stdout, b'ok\nA point 1 2 1\n')

    def test_status_where_a_line_is_refused(self):
        done = without_terminal('point A\n')
        self.assertRegex(done.stdout.decode(), r'\Arefused 1 arity\n  The number of words is wrong\.')
        self.assertEqual(done.returncode, 1)

    def test_an_encoding_that_lacks_a_letter(self):
        done = without_terminal('help through\n', PYTHONIOENCODING='ascii', LC_ALL='C', PYTHONUTF8='0',
                                PYTHONCOERCECLOCALE='0')
        self.assertEqual(done.returncode, 0, done.stderr)
        self.assertIn(b'through N P t', done.stdout)

    def test_wrong_words(self):
        done = without_terminal('', '--nothing')
        self.assertEqual(done.returncode, 64)
        self.assertRegex(done.stderr.decode(), r'\Abukshena: .*--nothing.*\n\Z')


class Answering(unittest.TestCase):
    def test_a_join_is_answered_within_five_milliseconds(self):
        session = Session()
        self.addCleanup(session.leave)
        for line in FREE:
            session.ask(line.encode())
        times = []
        for number in range(30):
            begun = time.perf_counter()
            self.assertEqual(session.ask(b'join l%d A B' % number), 'ok\n')
            times.append(time.perf_counter() - begun)
        self.assertLessEqual(min(times), 0.005)

    def test_the_saved_script_gives_the_replies_that_were_shown(self):
        session = Session()
        self.addCleanup(session.leave)
        typed = (*FREE, 'join l A B', 'join l A B', 'ledger', 'undo', 'tool t 1', 'join $l A $1', 'screen', 'end', 'use t m C',
                 'use t m C', 'nothing', 'dual', 'meet X A B', 'screen')
        shown = ''.join(session.ask(line.encode()) for line in typed)
        saved = process.run_script(session.script()).text
        alone = re.compile(r'refused (5|12) \w+\n')
        self.assertEqual(alone.sub('', shown), saved)
        session.leave()
        again = session.ask(b'screen')
        self.assertTrue(saved.endswith(again) and again.count('point') == 2, again)

    def test_names_by_kind(self):
        session = Session()
        self.addCleanup(session.leave)
        for line in (*FREE, 'join l A B', 'dual', 'undo', 'ledger', 'bad', 'drop C'):
            session.ask(line.encode())
        self.assertEqual(session.names(), [('A', 'point'), ('B', 'point'), ('l', 'line')])
        session.ask(b'dual')
        self.assertEqual(session.names(), [('A', 'line'), ('B', 'line'), ('l', 'point')])
