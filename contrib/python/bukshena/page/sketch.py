"""A script as the page shows it: each line's answer, the elements with their places, the ledger with what it rests on.

The program is asked for every answer. The quick look leaves out the commands that settle statements; these are asked
apart, and only where the construction has changed, since a verdict does not depend on where a sketch stands."""
import json
from collections import Counter

from bukshena import replies
from bukshena.evaluate import HOW
from bukshena.script import ADDITIONS, RATIOS, TOOL_WORDS, Expander, Given, expand, lines_of, raw_words
from bukshena.page.programs import carry_out

SLOW = ('ledger', 'conjectures', 'certify', 'infer', 'zero')
SILENT = ('screen', 'svg', 'show', 'close')
# in the place of a line `tool`, `use` or `end` that does not fit, and is refused as `command` wherever it stands
NO_COMMAND = b'refuse'


class Look:
    """A script that was carried out. `sketch` is what it made, `shown` the screen, `answers` the replies by the line of
    the file, `given` the lines that were carried out."""

    def __init__(self, given, reader):
        self.given, self.sketch = given, reader.sketch
        self.shown = reader.found[-1].elements
        self.answers = {}
        for reply in reader.found[:-1]:
            self.answers.setdefault(reply.at, []).append(reply)


def given_lines(text):
    """The lines that the program carries out, so that they may be sent by themselves."""
    given = expand(text.encode('utf-8', 'surrogatepass')).lines
    return [Given(line.number, line.at, NO_COMMAND, line.use) if line.words[:1] and line.words[0] in TOOL_WORDS else line
            for line in given]


def is_slow(line):
    return line.words[:1] and line.words[0] in SLOW


def followed(given, *commands):
    """The lines, and commands of our own behind them."""
    count = len(given)
    return given + [Given(count + k, 0, command) for k, command in enumerate(commands, 1)]


def reader_of(given, texts):
    reader = replies.Reader(given, texts)
    reader.all()
    return reader


def look_at(programs, text, owner=None):
    """Carries out a script but for its slow commands."""
    given = given_lines(text)
    quick = followed([Given(line.number, line.at, b'#') if is_slow(line) else line for line in given], b'screen')
    return Look(given, reader_of(quick, carry_out(programs, quick, owner)))


# ---- what the page is told

def as_told(look, text):
    """The look as an object of JSON."""
    sketch = look.sketch
    lines = lines_of(text.encode('utf-8', 'surrogatepass'))
    waiting = Counter(line.at for line in look.given if is_slow(line))
    by_tools = {line.at for line in look.given if line.use}
    last = {element.at: element.number for element in sketch.live()}
    return {
        'lines': [line_told(look.answers.get(at, []), waiting[at]) for at in range(1, len(lines) + 1)],
        'elements': [{**element_told(sketch, element, shown), 'tool': element.at in by_tools,
                      'helper': element.at in by_tools and last[element.at] != element.number}
                     for element, shown in zip(sketch.live(), look.shown)],
        'claims': [sketch.text_of(claim) for claim in sketch.claims],
        'undo': sketch.done[-1][1] if sketch.done else 0,
        'key': construction_key(look),
        'tools': tools_told(text),
    }


def line_told(answers, waits):
    """Of a line of the file: the word it is refused by or '', its answers, and how many of them are asked apart."""
    refused = [reply.cause for reply in answers if isinstance(reply, replies.Refusal)]
    told = [answer_text(reply) for reply in answers]
    return {'refused': refused[0] if refused else '', 'answers': told, 'waits': waits}


def answer_text(reply):
    """A reply as it is told beside its line."""
    if isinstance(reply, replies.Refusal):
        return f'refused {reply.cause}'
    if isinstance(reply, replies.Screen):
        return '\n'.join(map(shown_text, reply.elements))
    if isinstance(reply, replies.Picture):
        return 'svg'
    if isinstance(reply, replies.Conjectures):
        return '\n'.join(reply.statements)
    if isinstance(reply, replies.Ledger):
        return '\n'.join(map(entry_text, reply.entries))
    if isinstance(reply, (replies.Zero, replies.Uncertified)):
        return entry_text(reply.entry)
    if isinstance(reply, replies.Inferred):
        return f'inferred {reply.statement}'
    return reply.text if isinstance(reply, replies.Certificate) else 'ok'


def shown_text(shown):
    place = ' '.join(map(str, shown.numbers)) if shown.numbers else shown.state
    return f'{shown.name} {shown.kind} {place}'


def entry_text(entry):
    values = ' '.join(f'{value.name}.{value.letter}={value.number}' for value in entry.values)
    return f'{entry.verdict} {entry.statement}' + (f' at {values}' if values else '')


def element_told(sketch, element, shown):
    below = [sketch.elements[number].name for number in element.below]
    users = [user.name for user in sketch.live() if element.number in user.below]
    claims = [sketch.text_of(claim) for claim in sketch.claims if element.number in claim.numbers]
    place = [int(number) for number in shown.numbers] if shown.numbers else shown.state
    return {'name': element.name, 'kind': element.kind, 'word': element.word, 'how': HOW[element.word], 'below': below,
            'values': list(element.values), 'place': place, 'users': users, 'claims': claims, 'at': element.at}


def tools_told(text):
    """The script's own tools, with their arguments' kinds where the bodies tell them."""
    data = text.encode('utf-8', 'surrogatepass')
    expander = Expander()
    for line in lines_of(data):
        expander.take(line)
    return [{'name': tool.name.decode(), 'kinds': kinds_of(tool)} for tool in expander.tools.values()]


def kinds_of(tool):
    """`point`, `line` or `any` for each argument of a tool."""
    kinds = ['any'] * tool.arguments
    for line in tool.body:
        words = [word.decode() for word in raw_words(line)]
        forms = ADDITIONS.get(words[0]) if words else None
        for word, what in zip(words[1:], forms or ''):
            if what in 'pl' and word[:1] == '$' and word[1:].isdigit() and 1 <= int(word[1:]) <= tool.arguments:
                kinds[int(word[1:]) - 1] = 'point' if what == 'p' else 'line'
    return kinds


def construction_key(look):
    """A text that changes where the construction or a slow command does, and not where only values change."""
    accepted = [line for line in look.given if line.words and not is_refused(look, line)]
    goes_back = any(line.words[0] in ('undo', 'redo') for line in accepted)
    kept = [line.words for line in accepted if line.words[0] not in SILENT]
    return json.dumps([without_values(words) for words in kept if goes_back or words[0] != 'drag'])


def is_refused(look, line):
    return any(isinstance(reply, replies.Refusal) and reply.line == line.number for reply in look.answers.get(line.at, []))


def without_values(words):
    if words[0] in ('point', 'line', 'drag'):
        return words[:2]
    return words[:-1] if words[0] in RATIOS else words


# ---- verdicts

def judge(programs, text, owner):
    """The ledger of a script, and the answers to its slow commands in their order."""
    given = given_lines(text)
    asked = followed(given, b'conjectures', b'ledger')
    reader = reader_of(asked, carry_out(programs, asked, owner))
    slow = {line.number for line in given if is_slow(line)}
    return {
        'entries': [entry_told(reader.sketch, entry) for entry in in_order(reader.found[-1].entries)],
        'slow': [answer_text(reply) for reply in reader.found if reply.line in slow and reply.at],
    }


def in_order(entries):
    """Claims first, in the order of claiming."""
    claimed = [entry for entry in entries if entry.claimed_at is not None]
    return sorted(claimed, key=lambda entry: entry.claimed_at) + [entry for entry in entries if entry.claimed_at is None]


def entry_told(sketch, entry):
    return {
        'text': entry_text(entry), 'verdict': entry.verdict, 'statement': entry.statement, 'names': entry.names,
        'drags': entry.drags(), 'values': [f'{v.name}.{v.letter} = {v.number}' for v in entry.values],
        'claimed': entry.claimed_at is not None, 'noticed': bool(entry.is_noticed),
        'built': entry.is_proved and is_built(sketch, entry.statement),
    }


def is_built(sketch, statement):
    """Whether a statement that is proved holds by the way the figure was drawn: its elements lie on one by `on`,
    `through`, `join` and `meet`, or by `along` and `pencil` of two that lie on it."""
    word, *names = statement.split()
    numbers = [sketch.named(name).number for name in names]
    if word not in ('on', 'collinear', 'concurrent'):
        return False
    on = incidences(sketch)
    if word == 'on':
        return numbers[1] in on[numbers[0]]
    return bool(set.intersection(*(on[number] for number in numbers)))


def incidences(sketch):
    on = sketch.points_on()
    for element in sketch.live():
        if HOW[element.word] == 'blend':
            for number in on[element.below[0]] & on[element.below[1]]:
                on[element.number].add(number)
                on[number].add(element.number)
    return on
