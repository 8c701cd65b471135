"""The program, asked by pipes: a whole input in one run, or kept and answered line by line.

How a kept program's reply is seen to be whole: behind each line a second one is sent, `show 1000`, which is refused
as `view` in every state and changes nothing but the count of lines (that is a law that is proved of every refused
line). Its refusal has a number that is known, so it ends the reply, also that of `ledger`, `conjectures` or
`screen`, which have no end mark of their own, and that of a line that has none. In refusals these second lines are
counted out again, and the status is of the user's lines alone, so both are as in one run of the whole script. A
second run of the whole script would do as well, but would prove again what a kept program has proved already.
Within the body of a tool no line is answered, and no second one is sent. The reply is whole once the program has
written it, so no time is waited out."""
import os
import re
import select
import shutil
import subprocess
import time
import weakref
from collections import deque
from dataclasses import dataclass

from bukshena.faults import BAD_DATA, ENDED, MISSING, NO_INPUT, NO_OUTPUT, TOO_LATE, WRONG_WORDS, Fault
from bukshena.script import Expander

SECONDS = 20.0
SECOND_LINE = b'show 1000\n'
IN_CHECKOUT = ('crates', 'geo_app', 'out', 'geo_app')
INSTALLED = ('libexec', 'bukshena', 'bukshena')
PIECE = 65536

# what a status says, in the launcher's words, and the status that this package ends with
MEANINGS = {
    1: 'a line was refused or invalid: its reply says why',
    2: 'these words are none that the program knows; bukshena --help lists them',
    3: 'the input could not be read to its end',
    4: 'the output could not be written',
    5: 'the input has more than 16,777,216 bytes',
    6: 'memory was wanting',
}
STATUSES = {2: WRONG_WORDS, 3: NO_INPUT, 4: NO_OUTPUT, 5: BAD_DATA, 6: ENDED}


@dataclass(frozen=True)
class Outcome:
    """What the program wrote, whole, and its status: 1 where a line was refused or a certificate invalid, and 0."""
    reply: bytes
    status: int

    @property
    def text(self):
        return text_of(self.reply)


def text_of(reply):
    """A reply as a text. Fault 70 where it is none."""
    try:
        return reply.decode('ascii')
    except UnicodeDecodeError:
        raise Fault(ENDED, 'the program wrote what is no reply; BUKSHENA_PROGRAM may name another one') from None


def meaning(status):
    """What a status of the program says, as the launcher tells it."""
    return MEANINGS.get(status, f'the program ended with status {status}')


# ---- the program's file

def above(path, steps):
    for _ in range(steps):
        path = os.path.dirname(path)
    return path


def places():
    """Where the program may be: beside this package in a checkout, where it was installed, beside the command."""
    here = os.path.realpath(__file__)
    yield os.path.join(above(here, 4), *IN_CHECKOUT)
    yield os.path.join(above(here, 5), *INSTALLED)
    command = shutil.which('bukshena')
    if command:
        command = os.path.realpath(command)
        yield os.path.join(above(command, 1), *IN_CHECKOUT)
        yield os.path.join(above(command, 2), *INSTALLED)


def find_program():
    """The path of the program. Fault 69 where there is none."""
    named = os.environ.get('BUKSHENA_PROGRAM')
    if named:
        return named
    for place in places():
        if os.access(place, os.X_OK):
            return place
    raise Fault(MISSING, 'the program is not built; `bukshena run FILE` builds it, or BUKSHENA_PROGRAM names its file')


def not_started(program, error):
    return Fault(MISSING, f'{program} cannot be started: {error.strerror.lower()}')


# ---- one run

def run(words, data=b'', seconds=SECONDS):
    """Runs the program on these words and this input. Faults: 75 past the time, and one for each status above 1."""
    program = find_program()
    try:
        done = subprocess.run([program, *words], input=data, stdout=subprocess.PIPE, timeout=seconds)
    except subprocess.TimeoutExpired:
        raise too_late(seconds) from None
    except OSError as error:
        raise not_started(program, error) from None
    if done.returncode not in (0, 1):
        raise ended(done.returncode)
    return Outcome(done.stdout, done.returncode)


def run_script(text, workers=None, seconds=SECONDS):
    """Carries out a script in one run."""
    return run(['run'] if workers is None else ['run', '--workers', str(workers)], text, seconds)


def too_late(seconds):
    return Fault(TOO_LATE, f'no answer after {seconds:g} seconds; a longer limit or a smaller grid may help')


def ended(status):
    if status in MEANINGS:
        return Fault(STATUSES.get(status, ENDED), meaning(status))
    said = f'by signal {-status}' if status < 0 else f'with status {status}'
    return Fault(ENDED, f'the program ended in the middle, {said}')


# ---- a kept program

class Deadline:
    """A number of seconds from now on, or None for no limit."""

    def __init__(self, seconds):
        self.seconds, self.end = seconds, None if seconds is None else time.monotonic() + seconds

    def left(self):
        return None if self.end is None else max(0.0, self.end - time.monotonic())


def put_away(program):
    """Ends a program that may still be running, and waits for it."""
    program.kill()
    for pipe in (program.stdin, program.stdout):
        pipe.close()
    program.wait()


class Kept:
    """A program that is kept and answers line by line. It ends with this object, at the latest.

    It has a session of its own, so that Ctrl-C at a terminal does not end it."""

    def __init__(self, seconds=SECONDS, workers=None):
        self.path, self.seconds = find_program(), seconds
        words = ['run'] if workers is None else ['run', '--workers', str(workers)]
        try:
            self.program = subprocess.Popen([self.path, *words], stdin=subprocess.PIPE, stdout=subprocess.PIPE,
                                            bufsize=0, start_new_session=True)
        except OSError as error:
            raise not_started(self.path, error) from None
        os.set_blocking(self.program.stdin.fileno(), False)
        self.finalize = weakref.finalize(self, put_away, self.program)
        self.expander = Expander()
        self.sent = 0
        self.rest, self.lines_read = b'', deque()
        self.status = 0

    def __enter__(self):
        return self

    def __exit__(self, *_):
        self.close()

    def close(self):
        self.finalize()

    @property
    def lines(self):
        """How many lines have been carried out, as the program counts them."""
        return self.expander.given

    @property
    def pid(self):
        """The number of the program's process."""
        return self.program.pid

    def ask(self, line, seconds=None):
        """The reply to one line: its lines, each with its line feed, or nothing.

        The limit of time is this one, or that of the object; where both are None there is none. Fault 75 past it, 70
        where the program ended. After a fault, or Ctrl-C, the object is closed."""
        data = line.encode('utf-8', 'surrogateescape') if isinstance(line, str) else line
        if b'\n' in data:
            raise ValueError('one line at a time')
        try:
            limit = self.seconds if seconds is None else seconds
            return text_of(self.answer(data, Deadline(limit)))
        except BaseException:
            self.close()
            raise

    def answer(self, data, deadline):
        before = self.expander.given
        self.expander.take(data[:-1] if data.endswith(b'\r') else data)
        if self.expander.body is not None:
            self.write(data + b'\n', deadline)
            return b''
        self.sent += 1
        self.write(data + b'\n' + SECOND_LINE, deadline)
        end = b'refused %d view' % (self.expander.given + self.sent)
        return self.read_up_to(end, before, deadline)

    def read_up_to(self, end, before, deadline):
        lines, offset = [], self.sent - 1
        while True:
            line = self.read_line(deadline)
            if line == end:
                return b''.join(lines)
            refusal = re.match(rb'refused (\d+) ([a-z]+)\Z', line)
            if refusal:
                self.status = 1
                line = b'refused %d %s' % (int(refusal[1]) - offset, refusal[2])
            lines.append(line + b'\n')

    def read_line(self, deadline):
        while not self.lines_read:
            self.wait([self.program.stdout], [], deadline)
            piece = os.read(self.program.stdout.fileno(), PIECE)
            if not piece:
                raise self.gone()
            *whole, self.rest = (self.rest + piece).split(b'\n')
            self.lines_read.extend(whole)
        return self.lines_read.popleft()

    def write(self, data, deadline):
        while data:
            self.wait([], [self.program.stdin], deadline)
            try:
                data = data[os.write(self.program.stdin.fileno(), data[:PIECE]):]
            except BrokenPipeError:
                raise self.gone() from None

    def wait(self, reads, writes, deadline):
        if not any(select.select(reads, writes, [], deadline.left())):
            raise too_late(deadline.seconds)

    def gone(self):
        return ended(self.program.wait())
