"""A command at a terminal of its own, typed at and read as a person would."""
import fcntl
import os
import pty
import re
import select
import signal
import struct
import sys
import termios
import time

PACKAGE = os.path.dirname(os.path.dirname(os.path.abspath(__file__)))
# for what comes by itself, however slow or loaded the machine is
SECONDS = 300


def environment(**more):
    """The environment of a command of the package, with a terminal that has no colours."""
    kept = {name: value for name, value in os.environ.items() if name != 'XDG_STATE_HOME'}
    return {**kept, 'PYTHONPATH': PACKAGE, 'TERM': 'dumb', 'LC_ALL': 'C.UTF-8', **more}


def is_gone(pid):
    """Whether a process has ended, or ends soon; one that nobody has waited for yet has ended too."""
    limit = time.monotonic() + SECONDS
    while time.monotonic() < limit:
        try:
            with open(f'/proc/{pid}/stat', encoding='ascii', errors='replace') as file:
                if file.read().rpartition(')')[2].split()[0] in 'ZX':
                    return True
        except (FileNotFoundError, ProcessLookupError):
            return True
        time.sleep(0.02)
    return False


class Terminal:
    """Runs `python3 -m bukshena` with these words. `said` is all that it wrote, without carriage returns."""

    def __init__(self, *words, python=('-m', 'bukshena'), **more):
        self.said, self.seen = '', 0
        self.pid, self.master = pty.fork()
        if self.pid == 0:
            os.execve(sys.executable, [sys.executable, *python, *words], environment(**more))
        fcntl.ioctl(self.master, termios.TIOCSWINSZ, struct.pack('HHHH', 40, 100, 0, 0))

    def __enter__(self):
        return self

    def __exit__(self, *_):
        if self.pid:
            os.kill(self.pid, signal.SIGKILL)
            os.waitpid(self.pid, 0)
            self.pid = 0
        if self.master is not None:
            os.close(self.master)
            self.master = None

    def type(self, text):
        os.write(self.master, text.encode('utf-8', 'surrogateescape'))

    def read(self, seconds):
        """Reads what is there by then. False at the end."""
        if select.select([self.master], [], [], seconds)[0]:
            try:
                self.said += os.read(self.master, 65536).decode('utf-8', 'replace').replace('\r', '')
            except OSError:
                return False
        return True

    def pause(self, seconds=1.0):
        """As a person does before Ctrl-C: one that comes before Python waits for a key again is seen with that key only."""
        limit = time.monotonic() + seconds
        while time.monotonic() < limit:
            self.read(0.05)

    def until(self, pattern, seconds=SECONDS):
        """What it writes from the last such call on, up to a pattern and with it."""
        limit = time.monotonic() + seconds
        while True:
            found = re.compile(pattern, re.M).search(self.said, self.seen)
            if found:
                told = self.said[self.seen:found.end()]
                self.seen = found.end()
                return told
            left = limit - time.monotonic()
            if left <= 0 or not self.read(left):
                raise AssertionError(f'no {pattern!r} in {self.said[self.seen:]!r}')

    def ask(self, line, prompt=r'^\d+> '):
        """Types a line; what is written up to the next prompt."""
        self.type(line + '\r')
        return self.until(prompt)

    def status(self, seconds=SECONDS):
        """The exit status, once it has ended."""
        limit = time.monotonic() + seconds
        while time.monotonic() < limit:
            self.read(0.05)
            pid, status = os.waitpid(self.pid, os.WNOHANG)
            if pid:
                self.pid = 0
                return os.WEXITSTATUS(status) if os.WIFEXITED(status) else -os.WTERMSIG(status)
        raise AssertionError(f'it has not ended: {self.said!r}')
