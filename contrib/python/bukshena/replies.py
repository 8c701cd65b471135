"""The program's replies as values. All numbers are exact: `Fraction`.

`read(script, reply)` goes through a whole reply beside the script that it answers. Each value has `line`, the
number that the program counts, and `at`, the line of the file that asked for it; lines without a reply have none.
What a single line says is read by `entry`, `shown` and the like, which prompts and servers use on replies that came
line by line."""
import re
from dataclasses import dataclass
from fractions import Fraction
from itertools import takewhile

from bukshena.faults import BAD_DATA, Fault
from bukshena.script import STATEMENTS, Sketch, expand

NAME = '[A-Za-z][A-Za-z0-9]{0,7}'
SCREEN_LINE = re.compile(rf'({NAME}) (point|line) (null|far|(-?\d+) (-?\d+) (-?\d+))\Z')
STATEMENT = rf'null {NAME}|(?:same|on) {NAME} {NAME}|(?:collinear|concurrent) {NAME} {NAME} {NAME}'
STATEMENT_LINE = re.compile(rf'(?:{STATEMENT})\Z')
VALUE = rf'{NAME}\.[xyuvt]=-?\d+'
VERDICT = 'proved|false|unsettled grid|unsettled height'
ENTRY_LINE = re.compile(rf'({VERDICT}) ({STATEMENT}|zero)(?: at ({VALUE}(?: {VALUE})*))?\Z')
REFUSAL_LINE = re.compile(r'refused (\d+) ([a-z]+)\Z')

PROVED, FALSE, GRID, HEIGHT = 'proved', 'false', 'unsettled grid', 'unsettled height'


@dataclass(frozen=True)
class Ok:
    line: int
    at: int


@dataclass(frozen=True)
class Refusal:
    """`cause` is the word of the refusal."""
    line: int
    at: int
    cause: str


@dataclass(frozen=True)
class Shown:
    """An element on the screen. `numbers` are its three, and None where its `state` is `null` or `far`."""
    name: str
    kind: str
    numbers: 'tuple[Fraction, Fraction, Fraction] | None'
    state: str = ''


@dataclass(frozen=True)
class Screen:
    line: int
    at: int
    elements: tuple[Shown, ...]


@dataclass(frozen=True)
class Picture:
    """The text of an SVG, as it was written."""
    line: int
    at: int
    text: str


@dataclass(frozen=True)
class Conjectures:
    line: int
    at: int
    statements: tuple[str, ...]


@dataclass(frozen=True)
class Value:
    """A parameter, as `A` and `x`, and its value."""
    name: str
    letter: str
    number: Fraction


@dataclass(frozen=True)
class Entry:
    """A verdict on a statement, or on `zero`.

    `claimed_at` is the line of the file with the claim, or None where it was not claimed. `is_noticed` is None
    where the replies do not tell: of a statement that was claimed, where no `conjectures` was asked in the same
    state."""
    statement: str
    verdict: str
    values: tuple[Value, ...] = ()
    claimed_at: 'int | None' = None
    is_noticed: 'bool | None' = None

    @property
    def origin(self):
        """`claimed` or `noticed`; a claim that was noticed is `claimed`."""
        return 'noticed' if self.claimed_at is None else 'claimed'

    @property
    def is_proved(self):
        return self.verdict == PROVED

    @property
    def is_false(self):
        return self.verdict == FALSE

    @property
    def is_unsettled(self):
        return self.verdict in (GRID, HEIGHT)

    @property
    def names(self):
        return self.statement.split(' ')[1:]

    def drags(self):
        """The commands that bring the sketch to the values at which the statement fails."""
        numbers = {}
        for value in self.values:
            numbers.setdefault(value.name, []).append(str(value.number))
        return [' '.join(['drag', name, *given]) for name, given in numbers.items()]


@dataclass(frozen=True)
class Ledger:
    line: int
    at: int
    entries: tuple[Entry, ...]


@dataclass(frozen=True)
class Zero:
    line: int
    at: int
    entry: Entry


@dataclass(frozen=True)
class Inferred:
    line: int
    at: int
    statement: str


@dataclass(frozen=True)
class Certificate:
    """`value` is the object of JSON; `text` the line as it was written. Whether it is valid is not looked at."""
    line: int
    at: int
    text: str
    value: dict


@dataclass(frozen=True)
class Uncertified:
    """The reply of `certify` to a statement that is unsettled."""
    line: int
    at: int
    entry: Entry


# ---- one line

def shown(text):
    """An element of a line of the screen, or None where the line is none."""
    found = SCREEN_LINE.match(text)
    if not found:
        return None
    numbers = None if found[4] is None else tuple(Fraction(found[k]) for k in (4, 5, 6))
    return Shown(found[1], found[2], numbers, '' if numbers else found[3])


def value(text):
    name, letter, number = re.match(r'(\w+)\.(\w)=(-?\d+)\Z', text).groups()
    return Value(name, letter, Fraction(number))


def entry(text):
    """The verdict of a line of a ledger or of `zero`, or None where the line is none."""
    found = ENTRY_LINE.match(text)
    if not found:
        return None
    return Entry(found[2], found[1], tuple(map(value, found[3].split(' '))) if found[3] else ())


def refusal(text):
    """The number and the cause of a line that is refused, or None."""
    found = REFUSAL_LINE.match(text)
    return (int(found[1]), found[2]) if found else None


def screen(text):
    """The elements of the reply to a `screen`."""
    return tuple(shown(line) for line in text.splitlines())


def entries(text):
    """The entries of the reply to a `ledger`."""
    return tuple(entry(line) for line in text.splitlines())


# ---- a whole reply

class Unread(Exception):
    """The reply is none of the script's."""


class Reader:
    """Goes through the lines of a reply beside those of its script, and keeps what the script has made."""

    def __init__(self, given, texts):
        self.given, self.texts, self.place = given, texts, 0
        self.sketch = Sketch()
        # what no reply tells between two changes: the conjectures, where they were asked
        self.noticed = None
        self.found = []

    def text(self):
        """The next line, or '' behind the last one."""
        return self.texts[self.place] if self.place < len(self.texts) else ''

    def next(self):
        if self.place == len(self.texts):
            raise Unread('it ends before the script does')
        self.place += 1
        return self.texts[self.place - 1]

    def all(self):
        for index, line in enumerate(self.given):
            reply = self.reply(index, line)
            if reply is not None:
                self.found.append(reply)
        if self.place < len(self.texts):
            raise Unread(f'its line {self.place + 1} answers no line of the script')
        return self.found

    def reply(self, index, line):
        refused = refusal(self.text())
        if refused and refused[0] == line.number:
            self.next()
            return Refusal(line.number, line.at, refused[1])
        words = line.words
        if not words:
            return None
        made = READERS.get('show' + words[1] if words[0] == 'show' else words[0], Reader.ok)
        return made(self, index, line)

    def ok(self, index, line):
        if self.next() != 'ok':
            raise Unread(f'line {line.number} of the script is not answered by ok')
        try:
            self.sketch.accept(line.words, line.at)
        except (AttributeError, IndexError, KeyError, ValueError):
            raise Unread(f'line {line.number} of the script cannot be answered by ok') from None
        if line.words[0] not in ('claim', 'drag', 'close'):
            self.noticed = None
        return Ok(line.number, line.at)

    def screen(self, index, line):
        return Screen(line.number, line.at, tuple(self.parsed(shown) for _ in self.sketch.elements))

    def picture(self, index, line):
        texts = [self.next()]
        while texts[-1] != '</svg>':
            texts.append(self.next())
        return Picture(line.number, line.at, '\n'.join(texts) + '\n')

    def conjectures(self, index, line):
        statements = []
        while STATEMENT_LINE.match(self.text()) and self.text() not in statements[:1] and not self.screen_begins(index):
            statements.append(self.next())
        self.noticed = frozenset(statements)
        return Conjectures(line.number, line.at, tuple(statements))

    def screen_begins(self, index):
        """Whether the next lines are the screen that is asked next: elements may have names such as `same`."""
        if index + 1 == len(self.given) or self.given[index + 1].words not in (['screen'], ['show', '0']):
            return False
        lines = [shown(text) for text in self.texts[self.place:self.place + len(self.sketch.elements)]]
        return [(e.name, e.kind) for e in lines if e] == [(e.name, e.kind) for e in self.sketch.live()]

    def ledger(self, index, line):
        claimed = {self.sketch.text_of(claim): claim.at for claim in self.sketch.claims}
        listed = []
        while self.goes_on(index, listed):
            listed.append(entry(self.next()))
        return Ledger(line.number, line.at, tuple(self.known(made, claimed) for made in listed))

    def goes_on(self, index, listed):
        made = entry(self.text())
        if made is None or made.statement == 'zero' or any(made.statement == other.statement for other in listed):
            return False
        return not (made.is_unsettled and self.is_certified_next(index, made.statement))

    def is_certified_next(self, index, statement):
        """Whether an unsettled line is the reply to the next `certify`: one of the ledger would come again."""
        words = self.given[index + 1].words if index + 1 < len(self.given) else []
        if words[:1] != ['certify'] or None in map(self.sketch.named, words[2:]):
            return False
        if self.sketch.text_of(self.sketch.statement(words[1:])) != statement:
            return False
        behind = takewhile(entry, self.texts[self.place + 1:])
        return self.text() not in behind

    def known(self, made, claimed):
        at = claimed.get(made.statement)
        noticed = made.statement in self.noticed if self.noticed is not None else (True if at is None else None)
        return Entry(made.statement, made.verdict, made.values, at, noticed)

    def zero(self, index, line):
        return Zero(line.number, line.at, self.parsed(entry))

    def inferred(self, index, line):
        found = re.match(rf'inferred ({STATEMENT})\Z', self.next())
        if not found:
            raise Unread(f'line {line.number} of the script is not answered by inferred')
        return Inferred(line.number, line.at, found[1])

    def certificate(self, index, line):
        if not self.text().startswith('{'):
            return Uncertified(line.number, line.at, self.parsed(entry))
        from bukshena.certificates import certificate
        text = self.next()
        try:
            return Certificate(line.number, line.at, text, certificate(text))
        except Fault:
            raise Unread(f'its line {self.place} is no certificate') from None

    def parsed(self, parse):
        text = self.next()
        made = parse(text)
        if made is None:
            raise Unread(f'its line {self.place} is not what was asked for: {text[:60]}')
        return made


READERS = {
    'screen': Reader.screen, 'show0': Reader.screen, 'svg': Reader.picture, 'show1': Reader.picture,
    'show2': Reader.picture, 'conjectures': Reader.conjectures, 'ledger': Reader.ledger, 'zero': Reader.zero,
    'infer': Reader.inferred, 'certify': Reader.certificate,
}


def reader_of(script, reply):
    """The reader of a whole reply, at its end: `found` has the replies, `sketch` what the script has made. Fault 65."""
    data = script.encode('utf-8', 'surrogateescape') if isinstance(script, str) else script
    text = reply.decode('ascii', 'replace') if isinstance(reply, bytes) else reply
    reader = Reader(expand(data).lines, text.splitlines())
    try:
        reader.all()
    except Unread as why:
        raise Fault(BAD_DATA, f'the reply is none to the script: {why}') from None
    return reader


def read(script, reply):
    """The replies to a script's lines, in their order, each with the line that asked for it. Fault 65 where the reply
    is none of the script's."""
    return reader_of(script, reply).found
