"""The programs that the page's server runs: a few at one time, each for a limited time, each ended in any case."""
import subprocess
import threading

from bukshena import process
from bukshena.faults import BAD_DATA, TOO_LATE, Fault

TOGETHER = 8
SECONDS = 20.0


class Superseded(Exception):
    """The page that asked has asked anew, so this program was ended."""


class TooMany(Exception):
    """As many programs run as may run at one time."""


class Programs:
    """At most `together` programs at one time, each for at most `seconds`.

    A program that answers a question with an owner is ended where its owner asks again."""

    def __init__(self, together=TOGETHER, seconds=SECONDS):
        self.seconds = seconds
        self.places = threading.BoundedSemaphore(together)
        self.lock = threading.Lock()
        self.owned = {}
        self.running = set()

    def run(self, words, data, owner=None):
        """What the program writes. Faults as those of `process.run`; Superseded; TooMany."""
        if not self.places.acquire(blocking=False):
            raise TooMany()
        try:
            return self.run_in_place(words, data, owner)
        finally:
            self.places.release()

    def run_in_place(self, words, data, owner):
        program = self.begin(words, owner)
        try:
            reply, _ = program.communicate(data, timeout=self.seconds)
        except subprocess.TimeoutExpired:
            raise Fault(TOO_LATE, f'the program was ended after {self.seconds:g} seconds without an answer') from None
        finally:
            if program.poll() is None:
                program.kill()
                program.communicate()
            is_superseded = self.end(program, owner)
        if is_superseded:
            raise Superseded()
        if program.returncode not in (0, 1):
            raise process.ended(program.returncode)
        return reply

    def begin(self, words, owner):
        path = process.find_program()
        with self.lock:
            before = self.owned.get(owner) if owner else None
            if before:
                before.kill()
            try:
                program = subprocess.Popen([path, *words], stdin=subprocess.PIPE, stdout=subprocess.PIPE,
                                           start_new_session=True)
            except OSError as error:
                raise process.not_started(path, error) from None
            self.running.add(program)
            if owner:
                self.owned[owner] = program
        return program

    def end(self, program, owner):
        """Whether another program has taken this one's place."""
        with self.lock:
            self.running.discard(program)
            if not owner or self.owned.get(owner) is program:
                self.owned.pop(owner, None)
                return False
        return program.returncode < 0

    def end_all(self):
        with self.lock:
            for program in self.running:
                program.kill()


def carry_out(programs, given, owner=None):
    """The lines of the program's reply to these lines, each a `script.Given`."""
    text = b''.join(line.text + b'\n' for line in given)
    if len(text) > 2**24:
        raise Fault(BAD_DATA, 'the script is too long')
    return programs.run(['run'], text, owner).decode('ascii').splitlines()
