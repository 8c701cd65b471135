"""What the tests share: the folders of the checkout, its examples, random scripts, commands as a user calls them."""
import contextlib
import glob
import os
import random
import subprocess
import sys

from tests.terminal import PACKAGE, environment

TOP = os.path.dirname(os.path.dirname(PACKAGE))
# behind the package, which has the name of a module there
sys.path.append(os.path.join(TOP, 'contrib', 'evaluator'))
from random_scripts import Writer

EXAMPLES = sorted(glob.glob(os.path.join(TOP, 'examples', '*.txt')))
# an unproved build is slow: RANDOM_SCRIPTS takes fewer of them
RANDOM = int(os.environ.get('RANDOM_SCRIPTS', '200'))
SECONDS = 600
TOOLS = [['tool mid 2', 'join $a $1 $2', 'on $P $a 1', 'end', 'use mid t A B', 'use mid $ A B'],
         ['tool far 1', '# of a body', '', 'drag $1 1 2', 'end', 'use far q A', 'use far q'],
         ['tool mid 2', 'screen'], ['tool one 0', 'end', 'use one r', 'use one'], ['use mid u B C'], ['end']]


def read(path):
    with open(path, 'rb') as file:
        return file.read()


def random_script(seed):
    """A random script, as bytes, in which tools are made and used too."""
    draw, lines = random.Random(-seed), Writer(seed).script()
    for _ in range(draw.randrange(3)):
        place = draw.randrange(len(lines))
        lines[place:place] = draw.choice(TOOLS)
    if draw.random() < 0.2:
        lines += ['conjectures', 'conjectures', 'screen', 'ledger', 'ledger', 'show 0', 'svg', 'screen']
    return ('\n'.join(lines) + draw.choice(['\n', '', '\r\n'])).encode('latin-1')


def command(*words, data=b'', **more):
    """What a command of the package writes to standard output and standard error, and its status."""
    done = subprocess.run([sys.executable, '-m', 'bukshena', *words], input=data, stdout=subprocess.PIPE,
                          stderr=subprocess.PIPE, env=environment(**more), timeout=SECONDS)
    return done.stdout.decode(), done.stderr.decode(), done.returncode


def program_of(room, text):
    """The path of a program that is this shell script."""
    path = os.path.join(room, 'program')
    with open(path, 'w', encoding='utf-8') as file:
        file.write(f'#!/bin/sh\n{text}\n')
    os.chmod(path, 0o755)
    return path


@contextlib.contextmanager
def program_named(path):
    """Within it, BUKSHENA_PROGRAM names this program."""
    before = os.environ.get('BUKSHENA_PROGRAM')
    os.environ['BUKSHENA_PROGRAM'] = path
    try:
        yield
    finally:
        if before is None:
            del os.environ['BUKSHENA_PROGRAM']
        else:
            os.environ['BUKSHENA_PROGRAM'] = before
