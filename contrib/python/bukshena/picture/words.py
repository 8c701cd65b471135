"""The words of `bukshena picture`, and what is asked of the program for them."""
import os

from bukshena import files, picture
from bukshena.command import Words
from bukshena.faults import BAD_DATA, WRONG_WORDS, Fault

PAGE = '''Draws the last screen of a script, with the claims that are proved in colour. The figure is where the program's
screen has it; names and the ends of lines are the picture's own.'''
STATUSES = '''Statuses: 0 it is drawn; 64 wrong words; 65 there is nothing to draw; 66 the file cannot be read; 69 the
program, or a converter, is missing; 70 the program ended in the middle; 73 the picture cannot be written; 75 the time
limit passed.'''
SECONDS = 60.0
ENDINGS = ('.svg', '.tex', '.pdf', '.png')


def reader():
    words = Words('picture', description=PAGE, epilog=STATUSES)
    words.add_argument('file', metavar='FILE', help='a script, or - for standard input')
    words.add_argument('-o', dest='output', metavar='NAME', default='-',
                       help='NAME.svg, .tex, .pdf or .png; standard output, as SVG, if not said')
    words.add_argument('--width', metavar='80mm', default='80mm', help='the width of the picture')
    words.add_argument('--window', nargs=4, metavar=('X0', 'Y0', 'X1', 'Y1'), help='what is seen of the plane')
    words.add_argument('--whole', action='store_true', help='draws lines from edge to edge')
    words.add_argument('--hide', metavar='NAMES', default='', help='elements that are left out, with commas between')
    words.add_argument('--mark', action='append', default=[], metavar='STATEMENT',
                       help="a statement that is seen too, as 'collinear A B C'; in colour where it is proved")
    words.add_argument('--fill', action='append', default=[], metavar='NAMES',
                       help='fills a polygon whose corners are these points, with commas between')
    words.add_argument('--line-names', action='store_true', help='names the lines too')
    words.add_argument('--counterexample', type=int, metavar='N', help='draws where the Nth false claim of the ledger fails')
    return words


def main(words):
    read = read_words(words)
    files.write(read.output, made(files.read_script(read.file), read))
    return 0


def read_words(words):
    return understood(reader().parse_args(words))


def understood(read):
    """The words with their values: `ending` of the picture's name, and `options` of the figure and its drawing."""
    read.ending = os.path.splitext(read.output)[1] if read.output != '-' else '.svg'
    if read.ending not in ENDINGS:
        raise Fault(WRONG_WORDS, f'{read.output}: the name of a picture ends with .svg, .tex, .pdf or .png')
    if read.output != '-' and os.path.realpath(read.output) == os.path.realpath(read.file):
        raise Fault(WRONG_WORDS, f'the picture would be written over {read.file}; name another by -o')
    window = window_of(read.window) if read.window else None
    read.options = picture.options_of(names_in(read.hide), read.whole, millimetres(read.width), window, None,
                                      statements_in(read.mark), map(names_in, read.fill), read.line_names)
    return read


def names_in(text):
    return [name for name in text.replace(',', ' ').split() if name]


def statements_in(texts):
    """The statements to be marked, in the program's words. Fault 64 where one is none."""
    from bukshena.script import STATEMENTS
    for text in texts:
        word, *names = text.split() or ['']
        if STATEMENTS.get(word) != len(names):
            raise Fault(WRONG_WORDS, f"--mark {text}: a statement is wanted, as 'collinear A B C'")
    return [' '.join(text.split()) for text in texts]


def millimetres(text):
    number = text[:-2] if text.endswith('mm') else text
    if not (number.isascii() and number.isdigit() and 10 <= int(number) <= 1000):
        raise Fault(WRONG_WORDS, f'{text} is no width from 10mm to 1000mm')
    return int(number)


def window_of(texts):
    """The corners as exact numbers: 1/3 and 2.5 are numbers too."""
    from fractions import Fraction
    try:
        left, low, right, top = map(Fraction, texts)
    except (ValueError, ZeroDivisionError):
        raise Fault(WRONG_WORDS, f'--window {" ".join(texts)}: four numbers are wanted, X0 Y0 X1 Y1') from None
    if not (left < right and low < top):
        raise Fault(WRONG_WORDS, '--window wants the lower left corner and then the upper right one: X0 Y0 X1 Y1')
    return left, low, right, top


def made(data, read):
    """The bytes of the picture. The program is run once, and once more for a counterexample."""
    from bukshena import process
    script = question(data, read)
    return from_reply(script, process.run_script(script, seconds=SECONDS).text, read)


def question(data, read):
    """The script with what is asked behind it. Of a counterexample the program is asked first, for its values."""
    from bukshena.script import asked
    if read.counterexample is None:
        return asked(data, 'ledger', 'screen')
    read.options.failing = failing_entry(data, read.counterexample)
    return asked(data, *read.options.failing.drags(), 'screen')


def from_reply(script, reply, read):
    """The bytes of the picture, from the reply to what was asked."""
    layout = picture.layout_for(script, reply, read.options)
    if read.ending == '.svg':
        from bukshena.picture.svg import svg
        return svg(layout, read.options).encode('ascii')
    if read.ending == '.tex':
        from bukshena.picture.tikz import tikz
        return tikz(layout, read.options).encode('ascii')
    from bukshena.picture.convert import converted
    return converted(layout, read.options, read.ending)


def failing_entry(data, count):
    """The ledger's false entry of this number, from 1. Fault 65 where it has less."""
    from bukshena import process, replies
    from bukshena.script import asked
    script = asked(data, 'ledger')
    entries = replies.read(script, process.run_script(script, seconds=SECONDS).text)[-1].entries
    found = [entry for entry in entries if entry.is_false]
    if not 1 <= count <= len(found):
        has = 'no false entry' if not found else f'{len(found)} false {"entry" if len(found) == 1 else "entries"}'
        raise Fault(BAD_DATA, f'--counterexample {count}: the ledger has {has}')
    return found[count - 1]
