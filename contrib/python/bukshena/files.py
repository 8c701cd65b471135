"""Inputs and outputs named on the command line; `-` is standard input or output. Each fault names its file."""
import os
import sys

from bukshena.faults import BAD_DATA, NO_INPUT, NO_OUTPUT, Fault

INPUT_BYTES = 2**24
SCRIPT_LINES = 2**18


def read(path):
    """The bytes of a script. Fault 66 where it cannot be read, 65 where it is longer than any input of the program."""
    try:
        if path == '-':
            data = sys.stdin.buffer.read(INPUT_BYTES + 1)
        else:
            with open(path, 'rb') as file:
                data = file.read(INPUT_BYTES + 1)
    except (OSError, ValueError) as error:
        raise Fault(NO_INPUT, why_unread(path, error)) from None
    if len(data) > INPUT_BYTES:
        raise Fault(BAD_DATA, f'{name_of(path)} has more than {INPUT_BYTES:,} bytes; cut it into several scripts')
    return data


def read_script(path):
    """The bytes of a script whose reply is to be read line by line. Fault 65 also where it has too many lines for that."""
    data = read(path)
    if data.count(b'\n') > SCRIPT_LINES:
        raise Fault(BAD_DATA, f'{name_of(path)} has more than {SCRIPT_LINES:,} lines; cut it into several scripts')
    return data


def why_unread(path, error):
    name = name_of(path)
    if isinstance(error, IsADirectoryError):
        return f'{name} is a folder; name a file of it'
    if isinstance(error, FileNotFoundError):
        return f'there is no file {name}; look at its name, and at the folder you are in'
    if isinstance(error, PermissionError):
        return f'{name} cannot be read; look at its permissions'
    return f'{name} cannot be read: {cause(error)}'


def write(path, data):
    """Writes a file whole or leaves what was there: its bytes go to a file beside it first. Fault 73."""
    try:
        if path == '-':
            sys.stdout.buffer.write(data)
            sys.stdout.buffer.flush()
        elif os.path.exists(path) and not os.path.isfile(path):
            with open(path, 'wb') as file:
                file.write(data)
        else:
            replace(os.path.realpath(path), data)
    except (OSError, ValueError) as error:
        name = 'standard output' if path == '-' else path
        raise Fault(NO_OUTPUT, f'{name} cannot be written: {cause(error)}') from None


def replace(path, data):
    """Puts a file with these bytes in the place of what is there, with its permissions."""
    beside = f'{path}.{os.getpid()}.part'
    try:
        with open(beside, 'wb') as file:
            file.write(data)
        if os.path.exists(path):
            os.chmod(beside, os.stat(path).st_mode & 0o7777)
        os.replace(beside, path)
    finally:
        if os.path.exists(beside):
            os.remove(beside)


def cause(error):
    """The operating system's words for an error, with a small first letter."""
    text = getattr(error, 'strerror', None) or str(error)
    return text[:1].lower() + text[1:]


def name_of(path):
    """A file's name as it is told to the user."""
    return 'standard input' if path == '-' else path
