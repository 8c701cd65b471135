"""The commands of this package. Each is a module with `main(words) -> status`, imported where it is asked for."""
import argparse
import importlib
import os
import sys

from bukshena.faults import MISSING, NO_OUTPUT, WRONG_WORDS, Fault
from bukshena.files import cause

MODULES = {
    'picture': 'bukshena.picture',
    'judge': 'bukshena.judge',
    'ledger': 'bukshena.ledger',
    'prompt': 'bukshena.prompt',
    'watch': 'bukshena.watch',
    'draw': 'bukshena.page',
}
INTERRUPTED = 130


class Words(argparse.ArgumentParser):
    """Reads the words behind a command. Wrong ones are Fault 64; `--help` shows the page of the command."""

    def __init__(self, word, **others):
        super().__init__(prog=f'bukshena {word}', allow_abbrev=False, **others)

    def error(self, message):
        raise Fault(WRONG_WORDS, f'{message}; {self.prog} --help shows its words')


def module_of(word):
    try:
        return importlib.import_module(MODULES[word])
    except ModuleNotFoundError as error:
        if not (error.name or '').startswith('bukshena'):
            raise
        raise Fault(MISSING, f'{word} is not installed: the package lacks {error.name}') from None


def carry_out(words):
    if not words or words[0] not in MODULES:
        said = f'{words[0]} is no command' if words else 'a command is missing'
        raise Fault(WRONG_WORDS, f'{said}; there are {", ".join(MODULES)}')
    return module_of(words[0]).main(words[1:])


def prepare_output():
    """Names of files are written as the bytes that they are."""
    for stream in (sys.stdout, sys.stderr):
        if hasattr(stream, 'reconfigure'):
            stream.reconfigure(encoding=sys.getfilesystemencoding(), errors='surrogateescape')


def leave_output():
    """What could not be written is not tried again at the end."""
    os.dup2(os.open(os.devnull, os.O_WRONLY), sys.stdout.fileno())


def main(words):
    """The exit status. A fault is one line on standard error."""
    prepare_output()
    try:
        status = carry_out(words)
        sys.stdout.flush()
        return status
    except Fault as fault:
        if fault.status == NO_OUTPUT:
            leave_output()
        print(fault.sentence, file=sys.stderr)
        return fault.status
    except KeyboardInterrupt:
        return INTERRUPTED
    except OSError as error:
        leave_output()
        if not isinstance(error, BrokenPipeError):
            print(f'bukshena: the output cannot be written: {cause(error)}', file=sys.stderr)
        return NO_OUTPUT
