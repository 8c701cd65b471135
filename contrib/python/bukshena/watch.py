"""`bukshena watch FILE`: judges a script and draws it, again whenever the file changes, until Ctrl-C."""
import os
import sys
import time

from bukshena import files
from bukshena.command import Words, carry_out
from bukshena.faults import NO_INPUT, WRONG_WORDS, Fault

LOOKS_A_SECOND = 5


def stamp(path):
    """What tells a change of a file: its time and its size. Fault 66 where there is no such file."""
    try:
        found = os.stat(path)
    except OSError as error:
        raise Fault(NO_INPUT, f'{path} cannot be read: {files.cause(error)}') from None
    if os.path.isdir(path):
        raise Fault(NO_INPUT, f'{path} is a folder; name a file of it')
    return found.st_mtime_ns, found.st_size


def stamps(path):
    """The stamp at each look, or the sentence that says why there is none."""
    while True:
        try:
            yield stamp(path)
        except Fault as fault:
            yield fault.sentence
        time.sleep(1 / LOOKS_A_SECOND)


def look(path, picture):
    """Judges the script and draws it. What goes wrong is told, and the watch goes on."""
    print(time.strftime('%H:%M:%S'), path, flush=True)
    attempt(carry_out, ['judge', path])
    if attempt(carry_out, ['picture', path, '-o', picture]) == 0:
        print(picture, flush=True)


def attempt(act, *given):
    """The status of what is carried out. A fault is told."""
    try:
        return act(*given)
    except Fault as fault:
        sys.stdout.flush()
        print(fault.sentence, file=sys.stderr, flush=True)
        return fault.status
    finally:
        sys.stdout.flush()


def watch(path, picture):
    seen = None
    for found in stamps(path):
        if found == seen:
            continue
        seen = found
        if isinstance(found, str):
            print(f'{found}; it is looked for again', file=sys.stderr, flush=True)
        else:
            look(path, picture)


def main(words):
    reader = Words('watch', description='Judges a script and draws it whenever the file changes, until Ctrl-C.')
    reader.add_argument('file', metavar='FILE', help='a script')
    reader.add_argument('-o', dest='picture', metavar='NAME', help='the picture; FILE with .svg, if not said')
    read = reader.parse_args(words)
    if read.file == '-':
        raise Fault(WRONG_WORDS, 'watch wants the name of a file: standard input does not change')
    picture = read.picture or os.path.splitext(read.file)[0] + '.svg'
    if os.path.abspath(picture) == os.path.abspath(read.file):
        raise Fault(WRONG_WORDS, f'the picture would be written over {read.file}; name another by -o')
    stamp(read.file)
    try:
        watch(read.file, picture)
    except KeyboardInterrupt:
        return 0
