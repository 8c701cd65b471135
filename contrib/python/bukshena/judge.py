"""bukshena judge FILE..: the claims of scripts and what became of them, for texts that must not be built otherwise.

The files are joined to one input of `batch`, so that one run of the program answers them all; behind each stands a
`ledger`, which settles its claims. A file of which a batch would say something else than a run has one of its own:
`has_own_run` says which these are. All verdicts are the program's."""
import json
import os
import re
from dataclasses import dataclass, field

from bukshena import files, process, replies
from bukshena.command import Words
from bukshena.faults import BAD_DATA, ENDED, Fault
from bukshena.script import INPUT_BYTES, JOB_BYTES, JOB_END, asked, expand, lines_of

SECONDS = 600.0
MOST_WORKERS = 16
SHOWN_BYTES = 60
MARK = b'\xef\xbb\xbf'

PAGE = '''Says of each claim of the files what became of it, as FILE:LINE: proved, false or unsettled, and of each
line that is refused why. The status is 0 only where no line is refused and each claim is proved; what zero, infer
and certify answer is not judged.'''
STATUSES = '''Statuses: 0 all is well; 1 a line was refused, a claim is not proved, or a tool has no end; 64 wrong
words; 65 a file is too long; 66 a file cannot be read; 69 the program is missing; 70 it ended in the middle; 75 the
time limit passed.'''


@dataclass
class Refused:
    """A line that was refused: of the file, as the program counts it, and its text with what a `use` filled in."""
    at: int
    number: int
    cause: str
    text: bytes

    def sentence(self):
        if self.cause == 'ascii' and self.at == 1 and self.text.startswith(MARK):
            return 'refused ascii: the file begins with a byte order mark; save it without'
        return f'refused {self.cause}: {printable(self.text)}'


@dataclass
class Judged:
    """What is known of a file. `fault` is why it was not judged, `unended` the tools that no `end` closed."""
    path: str
    data: bytes = b''
    refused: list[Refused] = field(default_factory=list)
    claims: list[replies.Entry] = field(default_factory=list)
    unended: list = field(default_factory=list)
    fault: 'Fault | None' = None

    def unproved(self, options):
        allowed = {'false': options.allow_false, 'unsettled grid': options.allow_unsettled,
                   'unsettled height': options.allow_unsettled}
        return [claim for claim in self.claims if not claim.is_proved and not allowed[claim.verdict]]

    def is_well(self, options):
        return not (self.fault or self.refused or self.unended or self.unproved(options))

    def remarks(self):
        """The lines that are told, each with its line of the file, in their order."""
        said = [(claim.claimed_at, verdict_text(claim)) for claim in self.claims]
        said += [(line.at, line.sentence()) for line in self.refused]
        said += [(tool.at, unended_text(tool)) for tool in self.unended]
        return [f'{self.path}:{at}: {text}' for at, text in sorted(said, key=lambda remark: remark[0])]


def verdict_text(claim):
    values = ' '.join(f'{value.name}.{value.letter}={value.number}' for value in claim.values)
    return f'{claim.verdict} {claim.statement}' + (f' at {values}' if values else '')


def unended_text(tool):
    count = len(tool.body)
    return f'the tool {tool.name.decode()} has no end: {counted(count, "line")} behind it became its body'


def printable(text):
    """A line as it may be shown: cut, and each byte that is not printed replaced."""
    shown = re.sub(r'[^ -~]', '?', text[:SHOWN_BYTES].decode('latin-1'))
    return shown + ' ..' if len(text) > SHOWN_BYTES else shown


# ---- asking

def prepared(data):
    """A script with its claims settled behind it."""
    return asked(data, 'ledger')


def job_bytes(data):
    """The size of a job, as the program has it: each end of a line counts as one byte."""
    return sum(len(line) + 1 for line in lines_of(data))


def has_own_run(data):
    """Whether a batch would carry the script out otherwise: there are no views in it, and it ends a job at `===`.
    What is asked behind a script may also make it too long for a job."""
    lines = lines_of(data)
    return (JOB_END in lines or job_bytes(prepared(data)) > JOB_BYTES
            or any(line.split()[:1] in ([b'show'], [b'close']) for line in lines))


def parts_of(files_of_batch):
    """Groups of files whose joined scripts are no longer than an input."""
    group, size = [], 0
    for judged in files_of_batch:
        more = len(prepared(judged.data)) + len(JOB_END) + 2
        if group and size + more > INPUT_BYTES:
            yield group
            group, size = [], 0
        group.append(judged)
        size += more
    if group:
        yield group


def ask_batch(group, options):
    """Judges files by one run of the program."""
    data = b''.join(prepared(judged.data) + JOB_END + b'\n' for judged in group)
    outcome = process.run(['batch', *workers(options, len(group))], data, options.seconds)
    for judged, reply in zip(group, jobs_of(outcome.text, len(group))):
        understand(judged, reply)


def ask_alone(judged, options):
    outcome = process.run(['run', *workers(options, MOST_WORKERS)], prepared(judged.data), options.seconds)
    understand(judged, outcome.text)


def workers(options, most):
    count = options.workers or min(os.cpu_count() or 1, MOST_WORKERS)
    count = min(count, most)
    return ['--workers', str(count)] if count > 1 else []


def jobs_of(text, count):
    """The replies to each job of a batch."""
    jobs, lines = [], text.splitlines(keepends=True)
    for line in lines:
        if line == f'job {len(jobs) + 1}\n':
            jobs.append([])
        elif jobs:
            jobs[-1].append(line)
    if len(jobs) != count or lines[:1] != ['job 1\n']:
        raise Fault(ENDED, f'the program answered {len(jobs)} scripts of {count}')
    return [''.join(job) for job in jobs]


def understand(judged, reply):
    """Takes from a whole reply what it says of the file."""
    lines = expand(judged.data).lines
    reader = replies.reader_of(prepared(judged.data), reply)
    judged.refused = [Refused(reply.at, reply.line, reply.cause, lines[reply.line - 1].text)
                      for reply in reader.found if isinstance(reply, replies.Refusal)]
    ledger = reader.found[-1]
    judged.claims = [entry for entry in ledger.entries if entry.claimed_at is not None]
    if len(judged.claims) != len(reader.sketch.claims):
        raise Fault(ENDED, f'{judged.path}: the ledger has {len(judged.claims)} claims of {len(reader.sketch.claims)}')


def faulty(judged, ask):
    """Carries out an act on a file; a fault is the file's and names it."""
    try:
        ask()
    except Fault as fault:
        judged.fault = fault if judged.path in fault.sentence else fault.about(judged.path)


def read(path):
    judged = Judged(path)

    def take():
        judged.data = files.read(path)
        if job_bytes(judged.data) > JOB_BYTES:
            raise Fault(BAD_DATA, f'{files.name_of(path)} has more than {JOB_BYTES:,} bytes; cut it into scripts, '
                                  'or `bukshena run` it')
        judged.unended = list(expand(judged.data).unended)
    faulty(judged, take)
    return judged


def judge_files(paths, options):
    """What is known of each file, in the order of the paths."""
    found = [read(path) for path in paths]
    process.find_program()
    together, alone = [], []
    for judged in found:
        if not judged.fault:
            (alone if has_own_run(judged.data) else together).append(judged)
    for group in parts_of(together):
        ask_group(group, options)
    for judged in alone:
        faulty(judged, lambda judged=judged: ask_alone(judged, options))
    return found


def ask_group(group, options):
    """Judges files by one run; a fault names them."""
    try:
        ask_batch(group, options)
    except Fault as fault:
        others = f' and {counted(len(group) - 1, "other file")}' if len(group) > 1 else ''
        advice = '; judged one by one, they show which it is' if others else ''
        raise fault.about(group[0].path + others, advice) from None


# ---- telling

def as_json(judged, options):
    claims = [{'line': claim.claimed_at, 'statement': claim.statement, 'verdict': claim.verdict,
               'values': {f'{value.name}.{value.letter}': int(value.number) for value in claim.values},
               'drags': claim.drags()} for claim in judged.claims]
    refused = [{'line': line.at, 'number': line.number, 'cause': line.cause, 'text': printable(line.text)}
               for line in judged.refused]
    unended = [{'line': tool.at, 'tool': tool.name.decode()} for tool in judged.unended]
    return {'file': judged.path, 'well': judged.is_well(options), 'claims': claims, 'refused': refused,
            'unended': unended, 'fault': judged.fault.sentence if judged.fault else None}


def counted(count, what):
    return f'{count} {what}' if count == 1 else f'{count} {what}s'


def summary(found):
    claims = [claim for judged in found for claim in judged.claims]
    kinds = [('proved', sum(claim.is_proved for claim in claims)), ('false', sum(claim.is_false for claim in claims)),
             ('unsettled', sum(claim.is_unsettled for claim in claims))]
    verdicts = ', '.join(f'{count} {kind}' for kind, count in kinds if count)
    refused = sum(len(judged.refused) for judged in found)
    return (f'{counted(len(found), "file")}, {counted(len(claims), "claim")}' + (f': {verdicts}' if verdicts else '')
            + (f'; {counted(refused, "line")} refused' if refused else ''))


def tell(found, options):
    if options.json:
        print(json.dumps([as_json(judged, options) for judged in found], indent=1))
        return
    for judged in found:
        for remark in judged.remarks():
            print(remark)
        if not judged.fault and not judged.claims:
            print(f'{judged.path}: no claims')
    print(summary(found))


def positive(text):
    number = float(text)
    if not number > 0:
        raise ValueError(text)
    return number


def worker_count(text):
    number = int(text)
    if not 1 <= number <= MOST_WORKERS:
        raise ValueError(text)
    return number


positive.__name__, worker_count.__name__ = 'number of seconds', 'number of workers'


def options_of(words):
    parser = Words('judge', description=PAGE, epilog=STATUSES)
    parser.add_argument('files', nargs='+', metavar='FILE', help='a script; - is standard input')
    parser.add_argument('--allow-unsettled', action='store_true', help='a claim that is unsettled is no failure')
    parser.add_argument('--allow-false', action='store_true', help='a claim that is false is no failure')
    parser.add_argument('--json', action='store_true', help='writes it as a list of JSON, a member for each file')
    parser.add_argument('--seconds', type=positive, default=SECONDS, metavar='N', help='the limit of time, 600')
    parser.add_argument('--workers', type=worker_count, metavar='N', help='threads, 1 to 16; as many as processors')
    return parser.parse_args(words)


def main(words):
    options = options_of(words)
    found = judge_files(options.files, options)
    tell(found, options)
    faults = [judged.fault for judged in found if judged.fault]
    if faults:
        raise Faults(faults)
    return 0 if all(judged.is_well(options) for judged in found) else 1


class Faults(Fault):
    """Several, each told in a line of its own; the status is the first one's."""

    def __init__(self, faults):
        super().__init__(faults[0].status, '\n'.join(fault.sentence for fault in faults))
