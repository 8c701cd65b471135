#!/usr/bin/env python3
"""bench/refused_memory.py: runs the program with its N-th request for memory, read or write refused, for each N in turn.

For each run of the program N goes up from 1 until it makes fewer calls; of more than 400 calls every so many is refused.
Where memory was refused the status is 6, and what was written is a front part of what the program writes else; where
several workers search, a thread that can't begin is done without, and then all is as else. Where a read was refused the
status is 3, and the replies to the whole lines before it were written, of a batch those to the whole rounds. Where a
write was refused the status is 4, and a front part was written. The calls are refused by bench/refused_memory.c, a
library that is loaded into the proved program as it stands. How many runs there were is printed. It needs gcc and glibc.
"""
import os
import subprocess
import sys
import tempfile

TOP = os.path.dirname(os.path.dirname(os.path.abspath(__file__)))
PROGRAM = os.environ.get("BUKSHENA", os.path.join(TOP, "crates", "geo_app", "out", "geo_app"))

PIECE = 16
MOST = 400
STATUS = {"MEMORY": 6, "READ": 3, "WRITE": 4}


def read(name):
    with open(os.path.join(TOP, name), "rb") as file:
        return file.read()


def certificates():
    """A certificate that is proved, one that is false, one that is invalid and one that is none."""
    lines = [read(f"examples/certificates/{name}.json") for name in ("pappus-fixed", "triangle")]
    return lines[0] + lines[1] + lines[1].replace(b'"false"', b'"proved"') + b"\n{\n"


def runs():
    """The words of each run, and its input."""
    script = read("cases/scripts/every-command.txt")
    pappus = read("examples/pappus-fixed.txt")
    jobs = b"===\n".join([read("cases/tools/midpoint.txt"), read("examples/first.txt"), b"point A\n", script])
    return [(["run"], script), (["run", "--workers", "4"], script), (["run", "--workers", "4"], pappus), (["check"], certificates()),
            (["batch"], jobs), (["batch", "--workers", "2"], jobs), (["gen", "7"], b""), (["gen", "7", "--workers", "4"], b"")]


class Refusals:
    def __init__(self, library, words, script):
        self.library, self.words, self.script = library, words, script
        self.status, self.whole, _ = self.run(script, {})
        self.count = self.failed = 0

    def run(self, script, refused):
        """The status, the bytes that are written, and whether a call was refused."""
        names = dict(os.environ, LD_PRELOAD=self.library, PIECE=str(PIECE), **refused)
        done = subprocess.run([PROGRAM, *self.words], input=script, capture_output=True, env=names)
        return done.returncode, done.stdout, done.stderr == b"refused\n"

    def workers(self):
        return int(self.words[-1]) if "--workers" in self.words else 1

    def before(self, number):
        """The whole lines among the bytes that were read before this read, of a batch the whole rounds."""
        lines = self.script[: (number - 1) * PIECE].split(b"\n")[:-1]
        if self.words[0] == "batch":
            ends = [at for at, line in enumerate(lines, 1) if line == b"==="]
            rounds = len(ends) // self.workers() * self.workers()
            lines = lines[: ends[rounds - 1]] if rounds else []
        return b"".join(line + b"\n" for line in lines)

    def is_right(self, what, number, status, wrote):
        if what == "MEMORY" and self.workers() > 1 and (status, wrote) == (self.status, self.whole):
            return True
        if what == "READ" and wrote != self.run(self.before(number), {})[1]:
            return False
        return status == STATUS[what] and self.whole.startswith(wrote)

    def calls(self, what):
        """How many calls the run makes, found by doubling and halving."""
        low, high = 0, 1
        while self.run(self.script, {f"REFUSED_{what}": str(high)})[2]:
            low, high = high, 2 * high
        while high - low > 1:
            middle = (low + high) // 2
            low, high = (middle, high) if self.run(self.script, {f"REFUSED_{what}": str(middle)})[2] else (low, middle)
        return low

    def refuse(self, what):
        calls = self.calls(what)
        step = max(1, calls // MOST)
        for number in range(1, calls + 1, step):
            status, wrote, refused = self.run(self.script, {f"REFUSED_{what}": str(number)})
            self.count += refused
            if refused and not self.is_right(what, number, status, wrote):
                self.failed += 1
                print(f"{' '.join(self.words)}: where {what.lower()} {number} of {calls} is refused the status is {status}, and {len(wrote)} bytes are written")
        return f"{calls} of {what.lower()}"


def main():
    count = failed = 0
    with tempfile.TemporaryDirectory() as folder:
        library = os.path.join(folder, "refused_memory.so")
        source = os.path.join(TOP, "bench", "refused_memory.c")
        subprocess.run(["gcc", "-O2", "-Wall", "-shared", "-fPIC", "-o", library, source], check=True)
        for words, script in runs():
            refusals = Refusals(library, words, script)
            told = [refusals.refuse(what) for what in STATUS if what != "READ" or script]
            print(f"{' '.join(words)}: {', '.join(told)}; {refusals.count} runs, {refusals.failed} failed", flush=True)
            count += refusals.count
            failed += refusals.failed
    print(f"{count} runs, {failed} failed")
    return 1 if failed else 0


if __name__ == "__main__":
    sys.exit(main())
