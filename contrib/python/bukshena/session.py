"""The lines that were typed so far, with the program that carried them out."""
import re

from bukshena import process
from bukshena.script import Expander

# commands that change nothing: where a program is begun anew, a comment keeps their place
ASKING = ('screen', 'conjectures', 'ledger', 'certify', 'infer', 'zero', 'svg', 'show')
REFUSED = re.compile(r'refused \d+ ([a-z]+)\n\Z')
# is refused in every state, by a text that is no line of a screen
MARK = b'drop 0\n'
NO_LIMIT = 1e8
NAMES_SECONDS = 2.0


class Session:
    """`texts` are the lines so far as they are saved, as bytes: a refused one as a comment, so that numbers stay."""

    def __init__(self, seconds=None):
        self.seconds = NO_LIMIT if seconds is None else seconds
        self.kept = None
        self.begin_again()

    def begin_again(self):
        """No lines, and no program."""
        self.leave()
        self.texts, self.expander = [], Expander()
        self.found_at, self.found = None, []

    @property
    def number(self):
        """The number that the program counts for the next line."""
        return self.expander.given + 1

    @property
    def body(self):
        """The name of the tool whose body has no end yet, or None."""
        return self.expander.body and self.expander.body.name.decode()

    @property
    def tools(self):
        return sorted(name.decode() for name in self.expander.tools)

    def script(self):
        return b''.join(text + b'\n' for text in self.texts)

    # ---- the program

    def ask(self, line):
        """The reply to a line of bytes, which is one of the lines so far from then on.

        Faults of the program, and Ctrl-C, end the program and leave the lines so far as they were."""
        program = self.program()
        try:
            reply = program.ask(line)
        except BaseException:
            self.leave()
            raise
        self.add(line, reply)
        return reply

    def add(self, line, reply):
        given = self.expander.take(line)
        refused = REFUSED.match(reply)
        alone = len(given) == 1 and given[0].use is None
        self.texts.append(comment_of(line, refused[1]) if refused and alone else line)

    def program(self):
        """The program, with the lines so far carried out. It is begun anew where it ended."""
        if self.kept is None:
            self.kept = process.Kept(seconds=self.seconds)
            try:
                for text in self.again():
                    self.kept.ask(text)
            except BaseException:
                self.leave()
                raise
        return self.kept

    def leave(self):
        """Ends the program. The lines so far stay, and the next line begins a new one."""
        kept, self.kept = self.kept, None
        if kept is not None:
            kept.close()

    def again(self):
        """The lines that bring a new program to where this one is."""
        expander = Expander()
        for text in self.texts:
            given = expander.take(text)
            is_asking = len(given) == 1 and given[0].use is None and given[0].words[:1] in ([word] for word in ASKING)
            yield b'#' if is_asking else text

    # ---- names

    def names(self):
        """The names in use with their kinds, as pairs, as a program of its own tells; none within a tool's body."""
        if self.body is None and self.found_at != len(self.texts):
            lines = b''.join(text + b'\n' for text in self.again())
            reply = process.run_script(lines + MARK + b'screen\n', seconds=NAMES_SECONDS).text.split('\n')
            last = max(at for at, text in enumerate(reply) if re.match(r'refused \d+ name\Z', text))
            self.found = [tuple(text.split()[:2]) for text in reply[last + 1:] if text]
            self.found_at = len(self.texts)
        return self.found if self.body is None else []


def comment_of(line, cause):
    """A refused line as a comment, which the program passes over and counts."""
    text = b'# refused %s: ' % cause.encode() + bytes(byte if 32 <= byte <= 126 else 63 for byte in line)
    return text[:200]
