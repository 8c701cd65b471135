"""What TAB completes at the prompt: command words, statement words, rules, and the names in use by kind."""
import glob
import os

from bukshena import answers
from bukshena.faults import Fault
from bukshena.script import ADDITIONS, COMMANDS, RULES, TOOL_WORDS

# the words behind a command: p a point, l a line, e any element, s one of the same kind as the one before
NAMES = {**ADDITIONS, 'drag': 'e##', 'drop': 'e'}
STATEMENT_NAMES = {'null': 'e', 'same': 'es', 'on': 'pl', 'collinear': 'ppp', 'concurrent': 'lll'}
RULE_NAMES = {'span': 'esso', 'extend': 'esss', 'lie': 'esso', 'unique': 'esos', 'move': 'eso'}
OTHER = {'point': 'line', 'line': 'point'}
OF_FILES = ('save', 'load', 'picture')
DELIMITERS = ' \t[,]'
VIEWS = ('0', '1', '2')


def candidates(before, session, own):
    """The words that may stand behind the text `before`, which ends where a word begins. `own` are the prompt's."""
    words = before.replace('[', ' ').replace(',', ' ').split()
    if not words:
        return sorted([*own, *COMMANDS, *TOOL_WORDS])
    first, rest = words[0], words[1:]
    if first == 'help':
        return [] if rest else sorted({*own, *answers.words()})
    if first in ('claim', 'certify'):
        return named(STATEMENT_NAMES, rest, session)
    if first == 'infer':
        return named(RULE_NAMES, rest, session)
    if first in ('show', 'close'):
        return [] if rest else list(VIEWS)
    if first == 'zero':
        return in_bracket(before, session)
    if first == 'use':
        return use(rest, session)
    return of_kind(NAMES.get(first, ''), rest, session)


def named(forms, rest, session):
    """A word of a table, and the names behind it."""
    return of_kind(forms.get(rest[0], ''), rest[1:], session) if rest else sorted(forms)


def of_kind(form, rest, session):
    """The names in use that fit the next place of a form, without those that stand before."""
    wanted = form[len(rest):len(rest) + 1]
    if not wanted or wanted not in 'pleso':
        return []
    kinds = dict(session.names())
    first = next((kinds[name] for name in rest if name in kinds), None)
    kind = {'p': 'point', 'l': 'line', 's': first, 'o': OTHER.get(first)}.get(wanted)
    return [name for name in kinds if name not in rest and kind in (None, kinds[name])]


def in_bracket(before, session):
    """The names in use, of the kind of those that stand in the bracket."""
    if before.rfind('[') <= before.rfind(']'):
        return []
    return of_kind('ess', before[before.rfind('[') + 1:].replace(',', ' ').split(), session)


def use(rest, session):
    if not rest:
        return session.tools
    tool = session.expander.tools.get(rest[0].encode('ascii', 'replace'))
    return of_kind('#' + 'e' * tool.arguments, rest[1:], session) if tool else []


def files(path):
    """The files and folders that the path begins."""
    return sorted(found + '/' * os.path.isdir(found) for found in glob.glob(glob.escape(path) + '*'))


class Completion:
    """What readline asks for."""

    def __init__(self, readline, session, own):
        self.readline, self.session, self.own = readline, session, own
        self.found = []
        readline.set_completer(self.complete)
        readline.set_completer_delims(DELIMITERS)
        is_libedit = 'libedit' in (readline.__doc__ or '')
        readline.parse_and_bind('bind ^I rl_complete' if is_libedit else 'tab: complete')

    def complete(self, text, state):
        """The candidate number `state` for a text, or None. What goes wrong here leaves the line as it is."""
        if state == 0:
            try:
                self.found = self.all_for(text)
            except (Fault, OSError, ValueError):
                self.found = []
        return self.found[state] if state < len(self.found) else None

    def all_for(self, text):
        before = self.readline.get_line_buffer()[:self.readline.get_begidx()]
        if before.split()[:1] in ([word] for word in OF_FILES):
            return files(text)
        end = '' if '[' in before else ' '
        return [word + end for word in candidates(before, self.session, self.own) if word.startswith(text)]
