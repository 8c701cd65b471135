"""Scripts as the program reads them: lines, words, tools, names, claims.

Lines are bytes. The program counts the lines that a `use` gives and not those of a tool; `Given` has of each line
that it carries out the number that it counts and the line of the file, both from 1. Nothing here decides what a
line is answered: a `Sketch` is told of the lines that were."""
import re
from dataclasses import dataclass, field

STATEMENTS = {'null': 1, 'same': 2, 'on': 2, 'collinear': 3, 'concurrent': 3}
RULES = {'span': 4, 'extend': 4, 'lie': 4, 'unique': 4, 'move': 3}
# the words behind an addition: n the new name, p and l names of a point and of a line, # a number
ADDITIONS = {
    'point': 'n##', 'line': 'n##', 'fixpoint': 'n###', 'fixline': 'n###', 'on': 'nl#', 'through': 'np#',
    'along': 'npp#', 'pencil': 'nll#', 'join': 'npp', 'meet': 'nll',
}
# of each addition the kind that it makes, and the letters of its parameters
KINDS = {
    'point': 'point', 'fixpoint': 'point', 'on': 'point', 'along': 'point', 'meet': 'point',
    'line': 'line', 'fixline': 'line', 'through': 'line', 'pencil': 'line', 'join': 'line',
}
FREE = ('point', 'line')
RATIOS = ('on', 'through', 'along', 'pencil')
COMMANDS = (*ADDITIONS, 'drag', 'drop', 'dual', 'undo', 'redo', 'claim', 'certify', 'infer', 'zero', 'screen',
            'conjectures', 'ledger', 'svg', 'show', 'close')
TOOL_WORDS = ('tool', 'end', 'use')

LINE_BYTES = 200
JOB_BYTES = 65536
INPUT_BYTES = 2**24
BODY_LINES = 32
TOOLS = 40
JOB_END = b'==='

NAME = re.compile(rb'[A-Za-z][A-Za-z0-9]{0,7}\Z')
NUMBER = re.compile(rb'-?[0-9]{1,4}\Z')


# ---- lines and words

def lines_of(data):
    """The lines of a script, without their ends. A last one without a line feed keeps its carriage return."""
    *whole, rest = data.split(b'\n')
    return [line[:-1] if line.endswith(b'\r') else line for line in whole] + ([rest] if rest else [])


def is_odd(line):
    """Whether the line is refused as `long` or `ascii`."""
    return len(line) > LINE_BYTES or any(byte != 9 and not 32 <= byte <= 126 for byte in line)


def raw_words(line):
    return [] if is_odd(line) else [word for word in re.split(rb'[ \t]+', line) if word]


def words_of(line):
    """The words of a command, as texts; none of a blank line, a comment, or a line that is odd."""
    words = [word.decode('ascii') for word in raw_words(line)]
    return [] if words and words[0].startswith('#') else words


def is_silent(line):
    """Whether the line has no reply: it is blank, or a comment, and not odd."""
    return not is_odd(line) and not words_of(line)


# ---- tools

@dataclass
class Tool:
    name: bytes
    arguments: int
    at: int
    body: list[bytes] = field(default_factory=list)


@dataclass(frozen=True)
class Given:
    """A line that the program carries out. `number` is the one that it counts, `at` the line of the file."""
    number: int
    at: int
    text: bytes
    use: 'str | None' = None

    @property
    def words(self):
        return words_of(self.text)


class Expander:
    """Takes the lines of a script one by one, and gives those that the program carries out."""

    def __init__(self):
        self.tools: dict[bytes, Tool] = {}
        self.body: 'Tool | None' = None
        self.unended: list[Tool] = []
        self.taken = self.given = 0

    def take(self, line) -> list[Given]:
        self.taken += 1
        words = raw_words(line)
        if self.body is not None:
            self.take_into_body(line, words)
            return []
        if self.begins_body(words):
            self.body = Tool(words[1], int(words[2]), self.taken)
            return []
        if self.is_use(words):
            tool = self.tools[words[1]]
            return [self.give(filled(body, words[2], words[3:]), tool.name.decode()) for body in tool.body]
        return [self.give(line, None)]

    def give(self, line, tool):
        self.given += 1
        return Given(self.given, self.taken, line, tool)

    def take_into_body(self, line, words):
        if words != [b'end']:
            self.body.body.append(line)
            if len(self.body.body) < BODY_LINES:
                return
            self.unended.append(self.body)
        self.tools[self.body.name] = self.body
        self.body = None

    def begins_body(self, words):
        return (len(words) == 3 and words[0] == b'tool' and NAME.match(words[1]) and words[1] not in self.tools
                and re.match(rb'[0-8]\Z', words[2]) and len(self.tools) < TOOLS)

    def is_use(self, words):
        return (len(words) >= 3 and words[0] == b'use' and words[1] in self.tools and NAME.match(words[2])
                and len(words) - 3 == self.tools[words[1]].arguments)

    def ended(self):
        """The tools that no `end` closed, now that the input is at its end."""
        return self.unended + ([self.body] if self.body else [])


def filled(line, prefix, names):
    """A line of a body with its names filled in."""
    def fill(word):
        if re.match(rb'\$[1-9]\Z', word) and int(word[1:]) <= len(names):
            return names[int(word[1:]) - 1]
        return prefix + word[1:] if re.match(rb'\$[A-Za-z][A-Za-z0-9]*\Z', word) else word
    return line if is_odd(line) else b' '.join(map(fill, raw_words(line)))


@dataclass(frozen=True)
class Expansion:
    """The lines that the program carries out, and the tools that no `end` closed."""
    lines: tuple[Given, ...]
    unended: tuple[Tool, ...]
    is_open: bool

    def line_at(self, number):
        """The line that the program counts as `number`."""
        return self.lines[number - 1]


def expand(data):
    expander = Expander()
    given = [line for text in lines_of(data) for line in expander.take(text)]
    return Expansion(tuple(given), tuple(expander.ended()), expander.body is not None)


def asked(data, *commands):
    """A script with commands behind it that are sure to be carried out: its last line is ended as it stands, and a
    tool that is still open is ended too. No line of it is answered otherwise."""
    ends = b'' if data.endswith(b'\n') or not data else b'\r\n' if data.endswith(b'\r') else b'\n'
    closing = ['end'] if expand(data).is_open else []
    return data + ends + b''.join(command.encode('ascii') + b'\n' for command in [*closing, *commands])


# ---- what the lines make

@dataclass
class Element:
    """`word` is the addition that made it, `below` the numbers of the elements that it names, `at` its line in the
    file.

    `kind` is that of the moment; `values` are those of its parameters, or of a fixed one the triple."""
    number: int
    name: str
    word: str
    kind: str
    below: tuple[int, ...]
    values: tuple[int, ...]
    at: int

    @property
    def letters(self):
        """The letters of its parameters: x and y, u and v, t, or none."""
        if self.word in FREE:
            return 'xy' if self.kind == 'point' else 'uv'
        return 't' if self.word in RATIOS else ''


@dataclass(frozen=True)
class Claim:
    """A statement by the rising numbers of its elements; `what` is null, same, on, or triple."""
    what: str
    numbers: tuple[int, ...]
    at: int = 0

    @property
    def key(self):
        return self.what, self.numbers


class Sketch:
    """What the accepted lines of a script have made. Tell it of each line that was answered by `ok`."""

    def __init__(self):
        self.elements: dict[int, Element] = {}
        self.claims: list[Claim] = []
        self.next = 0
        # changes, each with what takes it back
        self.done, self.undone = [], []

    def accept(self, words, at=0):
        """Carries out a line that was answered by `ok`."""
        if words[0] == 'undo':
            words, at, take_back = self.done.pop()
            take_back()
            self.undone.append((words, at))
        elif words[0] == 'redo':
            words, at = self.undone.pop()
            self.done.append((words, at, self.change(words, at)))
        elif words[0] != 'close':
            self.undone = []
            self.done.append((words, at, self.change(words, at)))

    def change(self, words, at):
        """Makes a change, and returns what takes it back."""
        word, *rest = words
        if word in ADDITIONS:
            return self.add(word, rest, at)
        if word == 'drag':
            return self.drag(self.named(rest[0]), tuple(map(int, rest[1:])))
        if word == 'drop':
            return self.drop(self.named(rest[0]))
        if word == 'claim':
            self.claims.append(self.statement(rest, at))
            return self.claims.pop
        self.dual()
        return self.dual

    def add(self, word, rest, at):
        names = [self.named(text).number for text, what in zip(rest, ADDITIONS[word]) if what in 'pl']
        numbers = [int(text) for text, what in zip(rest, ADDITIONS[word]) if what == '#']
        number = self.next
        self.elements[number] = Element(number, rest[0], word, KINDS[word], tuple(names), tuple(numbers), at)
        self.next += 1

        def take_back():
            del self.elements[number]
            self.next = number
        return take_back

    def drag(self, element, values):
        number, before = element.number, element.values
        element.values = values

        def take_back():
            self.elements[number].values = before
        return take_back

    def drop(self, element):
        del self.elements[element.number]

        def take_back():
            self.elements[element.number] = element
        return take_back

    def dual(self):
        for element in self.elements.values():
            element.kind = other(element.kind)

    # ---- names

    def named(self, name) -> 'Element | None':
        return next((element for element in self.elements.values() if element.name == name), None)

    def live(self):
        """The elements by rising number."""
        return [self.elements[number] for number in sorted(self.elements)]

    def names(self, kind=None):
        """The names in use, by rising number; of one kind where it is named."""
        return [element.name for element in self.live() if kind in (None, element.kind)]

    def statement(self, words, at=0):
        """The claim that the words of a statement make."""
        numbers = tuple(sorted(self.named(name).number for name in words[1:]))
        return Claim({'collinear': 'triple', 'concurrent': 'triple'}.get(words[0], words[0]), numbers, at)

    def text_of(self, claim):
        """A statement as the program writes it now."""
        elements = [self.elements[number] for number in claim.numbers]
        what = claim.what
        if what == 'on':
            elements.sort(key=lambda element: element.kind != 'point')
        if what == 'triple':
            what = 'collinear' if elements[0].kind == 'point' else 'concurrent'
        return ' '.join([what, *(element.name for element in elements)])

    # ---- construction

    def construction(self, names):
        """The elements that the named ones depend on, and these, by rising number."""
        wanted = {self.named(name).number for name in names}
        for number in sorted(self.elements, reverse=True):
            if number in wanted:
                wanted.update(self.elements[number].below)
        return [self.elements[number] for number in sorted(wanted)]

    def points_on(self):
        """By how the figure is drawn, of each element's number those that lie on it or that it lies on."""
        on = {number: set() for number in self.elements}
        for element in self.elements.values():
            if element.word in ('on', 'through', 'join', 'meet'):
                for number in element.below:
                    on[element.number].add(number)
                    on[number].add(element.number)
        return on


def other(kind):
    return 'line' if kind == 'point' else 'point'
