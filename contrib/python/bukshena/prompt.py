"""`bukshena prompt`: the program at a terminal, with history, completion, help, and files.

The lines go to the program as they are typed, and its replies are shown as they are. The prompt has some words of its
own; none of them is a command of the program, and none of them counts as a line."""
import contextlib
import difflib
import os
import re
import shutil
import signal
import subprocess
import sys

from bukshena import answers, files
from bukshena.command import Words
from bukshena.completion import Completion
from bukshena.faults import BAD_DATA, ENDED, WRONG_WORDS, Fault
from bukshena.script import COMMANDS, INPUT_BYTES, RULES, STATEMENTS, TOOL_WORDS
from bukshena.session import Session

try:
    import readline
except ImportError:
    readline = None

HISTORY_LINES = 2000
# seconds without an answer after which it is told that the program is at work
PATIENCE = 3.0
WIDTH = 100
REFUSAL = re.compile(r'refused \d+ ([a-z]+)\Z')
# runs a command of this package as the launcher does
ANOTHER = ('import sys; sys.path.insert(0, sys.argv.pop(1)); '
           'from bukshena.command import main; sys.exit(main(sys.argv[1:]))')
PACKAGE = os.path.dirname(os.path.dirname(os.path.abspath(__file__)))
BYTE_ORDER_MARK = b'\xef\xbb\xbf'

WELCOME = 'Bukshena. One command a line, as `point A 0 0`; help lists them, TAB completes, Ctrl-D ends.'
PAGE = """\
Draw    point A 0 0         a free point            line l 1 2       a free line
        fixpoint O 0 0 1    a fixed point           fixline l 0 1 0  a fixed line
        join l A B          the line through two    meet X l m       the point of two
        on P l 2            a point on l            through l P 2    a line through P
        along M A B 1       a point on the line AB  pencil n l m 1   its dual
Change  drag A 1 2, drop A, dual, undo, redo
Ask     screen              where everything is     conjectures      what seems to hold
        claim on P l        or null, same,          ledger           what became of
                            collinear, concurrent                    what was claimed
        certify on P l      a certificate           infer span ..    derivation steps
        zero [A,B,C]        sums of determinants    svg, show 1, close 1
Tools   tool T k, end, use T R ..
Here    help WORD           what a command or an answer means
        save FILE           writes the lines so far, refused ones as comments
        load FILE           begins anew, with the lines of a file
        picture FILE        draws the sketch to a file .svg, .tex, .pdf or .png
        Ctrl-C leaves the line. Ctrl-D, or quit, ends."""

OWN_HELP = {
    'help': '`help` lists the commands, `help WORD` tells what a command or an answer means.',
    'save': '`save FILE` writes the lines so far, for `bukshena run FILE`. A refused line is written as a comment, so '
            'that each line has the number that it had here.',
    'load': '`load FILE` begins anew, with the lines of a file. Answers other than `ok` are shown.',
    'picture': '`picture FILE` draws the sketch, with what is claimed and proved in colour, to a file whose name ends with .svg, .tex, '
               '.pdf or .png. `bukshena picture --help` has more.',
    'quit': '`quit`, `exit` or Ctrl-D ends the prompt.',
    'exit': '`quit`, `exit` or Ctrl-D ends the prompt.',
}


class Prompt:
    """What is done with each line. `is_asked` says whether somebody is there to read questions.

    `status` is 1 where a line was refused, and that of the last fault where one was told."""

    def __init__(self, session, is_asked):
        self.session, self.is_asked = session, is_asked
        self.saved, self.known_files = 0, set()
        self.asked = self.asked_before = None
        self.status = 0

    def take(self, line):
        """Carries out a line. Faults are told, and the prompt goes on."""
        words = line.split()
        own = OWN.get(words[0]) if words else None
        self.asked, self.asked_before = None, self.asked
        try:
            if own:
                own(self, line.strip()[len(words[0]):].strip())
            elif words:
                self.show(line, self.ask(line))
        except Fault as fault:
            self.tell(fault)
        sys.stdout.flush()

    def tell(self, fault):
        sys.stdout.flush()
        said = fault.sentence
        if fault.status == ENDED:
            said += '. The lines before stand; the next one begins the program anew'
        print(said, file=sys.stderr, flush=True)
        self.status = fault.status

    def ask(self, line):
        with patience(self.is_asked):
            return self.session.ask(line.encode('utf-8', 'surrogateescape'))

    def show(self, line, reply):
        """Writes a reply; below a refusal, what it means."""
        for text in reply.splitlines():
            say(text)
            refusal = REFUSAL.match(text)
            if refusal:
                self.status = self.status or 1
                explain(refusal[1], line)

    # ---- words of the prompt's own

    def help(self, word):
        if not word:
            say(PAGE)
            return
        word = word.strip('`').lower()
        width = min(shutil.get_terminal_size().columns - 1, WIDTH)
        text = answers.fill(OWN_HELP[word], width) if word in OWN_HELP else answers.help_for(word, width)
        if not text:
            near = nearest(word, [*answers.words(), *OWN])
            text = f'No help on {word}.' + (f' Is it {near}?' if near else ' help lists the commands.')
        say(text)

    def save(self, path):
        path = file_named('save', path)
        if os.path.exists(path) and path not in self.known_files and not self.is_sure(f'save {path}'):
            raise Fault(BAD_DATA, f'{path} is there already; type save {path} again to write over it')
        files.write(path, self.session.script())
        self.known_files.add(path)
        self.saved = len(self.session.texts)
        say(f'{path}: {counted(self.saved)}')
        self.tell_of_body()

    def load(self, path):
        path = file_named('load', path)
        texts = lines_in(path)
        unsaved = len(self.session.texts) - self.saved
        if unsaved and not self.is_sure(f'load {path}'):
            lost = f'{counted(unsaved)} of this session {"is" if unsaved == 1 else "are"} not saved'
            raise Fault(BAD_DATA, f'{lost}; save first, or type load {path} again')
        self.session.begin_again()
        refused = sum(self.load_line(text) for text in texts)
        self.known_files.add(path)
        self.saved = len(self.session.texts)
        say(f'{path}: {counted(self.saved)}, {refused} refused')
        self.tell_of_body()

    def load_line(self, text):
        """Carries out a line of a file; how many refusals it has. Its answers are shown, but not `ok`."""
        line = text.decode('utf-8', 'surrogateescape')
        shown = [said for said in self.ask(line).splitlines() if said != 'ok']
        refused = sum(bool(REFUSAL.match(said)) for said in shown)
        if refused:
            say(f'{len(self.session.texts)}: {line}')
        self.show(line, '\n'.join(shown))
        return refused

    def tell_of_body(self):
        if self.session.body is not None:
            say(f'The tool {self.session.body} has no `end` yet.')

    def picture(self, path):
        path = file_named('picture', path)
        words = [sys.executable, '-I', '-S', '-c', ANOTHER, PACKAGE, 'picture', '-', '-o', path]
        done = subprocess.run(words, input=self.session.script(), stdout=subprocess.PIPE, stderr=subprocess.PIPE)
        if done.returncode:
            told = done.stderr.decode(errors='replace').strip().split('\n')[-1]
            raise Fault(done.returncode, told or f'no picture was drawn: status {done.returncode}')
        say(path)

    def end(self, _):
        raise EOFError

    def is_sure(self, command):
        """Whether the line before was this command too, and was asked back; or nobody is there to be asked."""
        self.asked = command
        return not self.is_asked or self.asked_before == command


OWN = {'help': Prompt.help, 'save': Prompt.save, 'load': Prompt.load, 'picture': Prompt.picture, 'quit': Prompt.end,
       'exit': Prompt.end}


# ---- texts

def say(text):
    """Prints a text; what the terminal's encoding lacks is written as question marks."""
    try:
        print(text)
    except UnicodeEncodeError:
        encoding = sys.stdout.encoding
        print(text.encode(encoding, 'replace').decode(encoding))


def explain(cause, line):
    words = line.split()
    says, advised = answers.meaning(cause), answers.advice(cause)
    if cause == 'command' and words:
        near = nearest(words[0], [*COMMANDS, *TOOL_WORDS, *OWN]) if words[0] not in COMMANDS else \
            nearest(words[1], [*STATEMENTS, *RULES])
        advised = f'Is it {near}?' if near else advised
    width = min(shutil.get_terminal_size().columns - 1, WIDTH)
    if says or advised:
        say(answers.fill(f'{says} {advised}'.strip(), width, '  '))


def nearest(word, known):
    """The known words that are spelt most like this one, in a text, or ''."""
    return ' or '.join(difflib.get_close_matches(word, dict.fromkeys(known), 2))


def counted(number):
    return f'{number} line' if number == 1 else f'{number} lines'


def file_named(word, path):
    if not path:
        raise Fault(WRONG_WORDS, f'{word} wants the name of a file behind it')
    if len(path) > 1 and path[0] == path[-1] and path[0] in '"\'':
        path = path[1:-1]
    return os.path.expanduser(path)


def lines_in(path):
    """The lines of a script. Faults: 66 where it cannot be read, 65 where it is too long or begins with a mark."""
    data = files.read(path)
    if len(data) > INPUT_BYTES:
        raise Fault(BAD_DATA, f'{path} has more than 16,777,216 bytes: cut it into several scripts')
    if data.startswith(BYTE_ORDER_MARK):
        raise Fault(BAD_DATA, f'{path} begins with a byte order mark, which the program refuses; save it without')
    whole = data[:-1] if data.endswith(b'\n') else data
    return [line[:-1] if line.endswith(b'\r') else line for line in whole.split(b'\n')] if data else []


@contextlib.contextmanager
def patience(is_asked):
    """Tells, after some seconds, that the program is at work."""
    if not is_asked:
        yield
        return
    before = signal.signal(signal.SIGALRM, tell_of_work)
    signal.setitimer(signal.ITIMER_REAL, PATIENCE)
    try:
        yield
    finally:
        signal.setitimer(signal.ITIMER_REAL, 0)
        signal.signal(signal.SIGALRM, before)


def tell_of_work(*_):
    print('bukshena: the program is still at work; Ctrl-C leaves this line', file=sys.stderr, flush=True)


# ---- history

def history_path():
    state = os.environ.get('XDG_STATE_HOME', '')
    if not os.path.isabs(state):
        state = os.path.join(os.path.expanduser('~'), '.local', 'state')
    return os.path.join(state, 'bukshena', 'history')


class History:
    """The lines typed before, in a file. Each line is kept as soon as it is typed, whatever becomes of the prompt."""

    def __init__(self):
        self.path = history_path()
        try:
            os.makedirs(os.path.dirname(self.path), mode=0o700, exist_ok=True)
            open(self.path, 'a').close()
            os.chmod(self.path, 0o600)
            readline.read_history_file(self.path)
        except OSError as error:
            print(f'bukshena: {self.path} keeps no history: {files.cause(error)}', file=sys.stderr)
            self.path = None
        readline.set_history_length(HISTORY_LINES)
        self.length = readline.get_current_history_length()

    def keep(self):
        added, self.length = readline.get_current_history_length() - self.length, readline.get_current_history_length()
        if self.path and added > 0:
            try:
                readline.append_history_file(added, self.path)
            except OSError:
                self.path = None


# ---- where lines come from

def typed_lines(session):
    """The lines typed at a terminal, until Ctrl-D. Ctrl-C leaves the one that is typed."""
    sys.stdin.reconfigure(errors='surrogateescape')
    history = None
    if readline:
        history = History()
        Completion(readline, session, OWN)
    while True:
        try:
            line = input(f'{session.body}| ' if session.body else f'{session.number}> ')
        except KeyboardInterrupt:
            print()
            continue
        except EOFError:
            print()
            return
        if history:
            history.keep()
        # a text that is pasted may have many lines
        yield from re.split(r'\r?\n|\r', line)


def given_lines():
    """The lines of an input that is no terminal."""
    for line in sys.stdin.buffer:
        line = line[:-1] if line.endswith(b'\n') else line
        yield line.decode('utf-8', 'surrogateescape').rstrip('\r')


def talk(prompt, lines):
    for line in lines:
        try:
            prompt.take(line)
        except KeyboardInterrupt:
            if not prompt.is_asked:
                raise
            print('\nbukshena: this line was left; the lines before stand', file=sys.stderr)
        except EOFError:
            return


def stop(number, _):
    """Ends the prompt, and with it the program, where it is told to end or its terminal goes away."""
    raise SystemExit(128 + number)


def main(words):
    reader = Words('prompt', description='Reads commands, with history, completion and help.')
    reader.add_argument('file', nargs='?', metavar='FILE', help='a script to begin with')
    reader.add_argument('--seconds', type=float, metavar='N', help='leave a line that is not answered by then')
    read = reader.parse_args(words)
    is_asked = sys.stdin.isatty() and sys.stdout.isatty()
    for number in (signal.SIGTERM, signal.SIGHUP):
        signal.signal(number, stop)
    session = Session(read.seconds)
    prompt = Prompt(session, is_asked)
    if is_asked:
        print(WELCOME)
    try:
        if read.file:
            talk(prompt, [f'load {read.file}'])
        talk(prompt, typed_lines(session) if is_asked else given_lines())
    finally:
        session.leave()
    return 0 if is_asked else prompt.status
