"""bukshena ledger FILE: the ledger of a script for people. The verdicts are the program's, in its words."""
from bukshena import files, process, replies
from bukshena.command import Words
from bukshena.drawing import Drawing
from bukshena.faults import Fault
from bukshena.judge import SECONDS, positive, printable, unended_text, worker_count
from bukshena.script import asked, expand

PAGE = '''Shows what became of the claims of a script, each with its line and whether it was noticed too; then what
was noticed; and how much holds by the way the figure is drawn. False statements have the drags that lead to where
they fail, unsettled ones what may be done.'''
STATUSES = '''Statuses: 0; 1 a line was refused, or a tool has no end; 64 wrong words; 65 the file is too long; 66
it cannot be read; 69 the program is missing; 70 it ended in the middle; 75 the time limit passed.'''


class Read:
    """A script with its whole reply, and of its ledger the claims, what was noticed, and what is plain."""

    def __init__(self, data, options):
        words = ['run'] if options.workers is None else ['run', '--workers', str(options.workers)]
        text = asked(data, 'conjectures', 'ledger')
        reader = replies.reader_of(text, process.run(words, text, options.seconds).text)
        self.expansion, self.sketch = expand(data), reader.sketch
        self.refused = [reply for reply in reader.found if isinstance(reply, replies.Refusal)]
        entries = reader.found[-1].entries
        self.claims = sorted((e for e in entries if e.claimed_at is not None), key=lambda e: e.claimed_at)
        noticed = [e for e in entries if e.claimed_at is None]
        proved = [(e, self.sketch.statement(e.statement.split(' '))) for e in entries if e.is_proved]
        drawing = Drawing(self.sketch, {statement.numbers for _, statement in proved if statement.what == 'same'})
        self.plain = [e for e, statement in proved if e in noticed and drawing.shows(statement)]
        self.noticed = [e for e in noticed if e not in self.plain]


def lines_on(entry):
    """An entry, and below it what may be done."""
    origin = ''
    if entry.claimed_at is not None:
        origin = f'  (line {entry.claimed_at}, {"noticed too" if entry.is_noticed else "not noticed"})'
    yield f'  {entry.verdict} {entry.statement}{origin}'
    if entry.is_false:
        yield '    fails where these have led:' if entry.values else '    depends on no parameter, and fails'
        yield from (f'      {drag}' for drag in entry.drags())
    if entry.is_unsettled:
        yield f'    {advice(entry)}'


def advice(entry):
    from bukshena import answers
    return answers.advice(entry) or 'See docs/ANSWERS.md.'


def section(title, entries):
    if entries:
        yield title
        for entry in entries:
            yield from lines_on(entry)


def lines_of_ledger(read, has_all):
    yield from section('Claims', read.claims)
    if not read.claims:
        yield 'No claims.'
    yield from section('Noticed', read.noticed)
    if read.plain and has_all:
        yield from section('Proved, by the way the figure is drawn', read.plain)
    elif read.plain:
        said = 'more is proved, and holds' if len(read.plain) == 1 else 'more are proved, and hold'
        yield f'{len(read.plain)} {said} by the way the figure is drawn; --all shows which.'


def lines_on_refused(path, read):
    for reply in read.refused:
        text = printable(read.expansion.line_at(reply.line).text)
        yield f'{path}:{reply.at}: refused {reply.cause}: {text}'
    for tool in read.expansion.unended:
        yield f'{path}:{tool.at}: {unended_text(tool)}'


def options_of(words):
    parser = Words('ledger', description=PAGE, epilog=STATUSES)
    parser.add_argument('file', metavar='FILE', help='a script; - is standard input')
    parser.add_argument('--all', action='store_true', help='shows also what holds by the way the figure is drawn')
    parser.add_argument('--seconds', type=positive, default=SECONDS, metavar='N', help='the limit of time, 600')
    parser.add_argument('--workers', type=worker_count, metavar='N', help='threads that settle a claim, 1 to 16')
    return parser.parse_args(words)


def main(words):
    options = options_of(words)
    data = files.read_script(options.file)
    try:
        read = Read(data, options)
    except Fault as fault:
        raise fault.about(files.name_of(options.file)) from None
    for line in [*lines_on_refused(options.file, read), *lines_of_ledger(read, options.all)]:
        print(line)
    return 1 if read.refused or read.expansion.unended else 0
