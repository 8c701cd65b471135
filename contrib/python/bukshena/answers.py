"""What docs/ANSWERS.md and docs/LANGUAGE.md say of each word, as plain text.

The pages are read where they stand: docs/ of the checkout, or where `make install` puts them. Where they are missing
every text is empty, so that an answer of the program is shown all the same."""
import functools
import os
import re
import textwrap
from collections import namedtuple

# A piece of a page: `under` is the heading it stands below; `kind` is 'heading', 'paragraph', 'row' or 'code'. The
# content is a text, but for a row a dict from the table's headings to its cells, and for code a list of lines.
Piece = namedtuple('Piece', 'under kind content')

# from the folder of this package: of the checkout, and two of what is installed
PLACES = ('../../../docs', '../../docs', '../../../doc/bukshena')
CAUSE, ADVICE = '*Usual cause*', '*What to do*'
# tables of LANGUAGE.md whose first cell is what is typed
TYPED = ('Words', 'Statement')
EXAMPLE_LINES = 14


def find_page(name):
    """The path of a page, or None."""
    here = os.path.dirname(os.path.realpath(__file__))
    for folder in PLACES:
        path = os.path.normpath(os.path.join(here, folder, name))
        if os.path.isfile(path):
            return path
    return None


@functools.lru_cache(maxsize=None)
def pieces(name):
    """The pieces of a page in their order; none where the page is missing."""
    path = find_page(name)
    if path is None:
        return ()
    try:
        with open(path, encoding='utf-8', errors='replace') as file:
            return tuple(cut(file.read().split('\n')))
    except OSError:
        return ()


def cut(lines):
    """Cuts the lines of a page into pieces."""
    under, headings, code = '', None, None
    for line in lines:
        if code is not None:
            if line.startswith('```'):
                yield Piece(under, 'code', code)
                code = None
            else:
                code.append(line)
        elif line.startswith('```'):
            code = []
        elif line.startswith('#'):
            under, headings = line.lstrip('#').strip(), None
            yield Piece(under, 'heading', under)
        elif line.startswith('|'):
            cells = [cell.strip() for cell in line.strip('|').split('|')]
            if headings is None:
                headings = cells
            elif set(line) - set('|-: '):
                yield Piece(under, 'row', dict(zip(headings, cells)))
        elif line.strip():
            headings = None
            yield Piece(under, 'paragraph', line)


def plain(text):
    """A text without the marks of links and of emphasis; words in backticks keep them."""
    text = re.sub(r'\[([^\[\]]*)\]\([^()]*\)', r'\1', text)
    return re.sub(r'(?<![\w`*])\*{1,2}([^*`\s][^*]*?)\*{1,2}(?![\w*])', r'\1', text).strip()


def typed(text):
    """What stands in backticks, one by one."""
    return re.findall(r'`([^`]+)`', text)


# ---- answers


def section(word):
    """The pieces of ANSWERS.md below the heading that names the word."""
    return [p for p in pieces('ANSWERS.md') if word in typed(p.under) and p.kind != 'heading']


def parted(word):
    """What an answer says, its usual cause, and what to do, each as one line or ''."""
    parts = {'': '', CAUSE: '', ADVICE: ''}
    for piece in section(word):
        if piece.kind != 'paragraph':
            continue
        at = ''
        for text in re.split(rf'({re.escape(CAUSE)}|{re.escape(ADVICE)})', piece.content):
            if text in parts and text:
                at = text
            elif text.strip(' :') and not parts[at]:
                parts[at] = text.strip()
    texts = (re.sub(r'^(of `\w+`)?:\s*', '', text) for text in parts.values())
    return tuple(without_lead(plain(text)) for text in texts)


def without_lead(text):
    """A text without the last sentence where that leads to an example below it."""
    sentences = re.split(r'(?<=[.?!]) (?=[A-Z`])', text)
    return ' '.join(sentences[:-1] if sentences[-1].endswith(':') else sentences)


def sentence(text):
    """A text with a capital at its beginning, where that is a letter, and a full stop at its end."""
    text = text[:1].upper() + text[1:]
    return text if not text or text.endswith(('.', '?', '!', ':')) else text + '.'


def meaning(cause):
    """What a refusal, a verdict or a state says, in one line: `taken`, `unsettled grid`, `far`. '' where unknown."""
    return sentence(parted(cause)[0])


def advice(about):
    """What to do about an answer, in one line: of a word as above, or of an entry of a ledger."""
    return sentence(parted(str(getattr(about, 'verdict', about)))[2])


# ---- help


def language_rows(word):
    """The rows of LANGUAGE.md on what begins with this word, and a step of derivation by the name of its rule."""
    for piece in pieces('LANGUAGE.md'):
        if piece.kind != 'row' or next(iter(piece.content)) not in TYPED:
            continue
        for form in typed(next(iter(piece.content.values()))):
            first, *rest = form.split()
            if first == word or (first == 'infer' and rest[:1] == [word]):
                yield piece.content
                break


def language_paragraphs(word):
    return [p.content for p in pieces('LANGUAGE.md') if p.kind == 'paragraph' and p.content.startswith(f'`{word}` ')]


def example_of(*words_before):
    """A line of LANGUAGE.md that begins with these words and is carried out, or ''."""
    for piece in pieces('LANGUAGE.md'):
        for line in piece.content if piece.kind == 'code' else ():
            said, *reply = re.split(r'\s{2,}', line.rstrip(), maxsplit=1)
            if said.split()[:len(words_before)] == list(words_before) and reply \
                    and not reply[0].startswith('refused'):
                return said
    return ''


def fill(text, width, indent=''):
    return textwrap.fill(text, width, initial_indent=indent, subsequent_indent=indent, break_long_words=False,
                         break_on_hyphens=False)


def help_on_row(word, row, width):
    """A form that is typed, what it does, and an example."""
    (table, forms), *cells = row.items()
    is_statement = table == 'Statement'
    behind = ', behind `claim` or `certify`' if is_statement else ''
    yield fill(', '.join(typed(forms)) + behind, width)
    for heading, cell in cells:
        lead = '' if heading.startswith('What') else f'{heading}: '
        yield fill(lead + (plain(cell) if lead else sentence(plain(cell))), width, '  ')
    first = typed(forms)[0].split()
    example = example_of('claim', word) if is_statement else example_of(*first[:2 if first[0] == 'infer' else 1])
    if example not in ('', word):
        yield f'  For example: {example}'[:width]


def help_on_answer(heading, width):
    """What the answers of a heading of ANSWERS.md say, their cause, what to do, and a script that shows it."""
    answers = typed(heading)
    says, cause, advised = map(sentence, parted(answers[0]))
    names = ', '.join(f'`{answer}`' for answer in answers)
    yield fill(f'The answer{"s" if len(answers) > 1 else ""} {names}: {says}'.strip(), width)
    for piece in section(answers[0]):
        if piece.kind == 'row':
            yield fill('; '.join(f'{heading}: {plain(cell)}' for heading, cell in piece.content.items()), width, '  ')
    if cause:
        yield fill(f'Usual cause: {cause}', width, '  ')
    if advised:
        yield fill(f'What to do: {advised}', width, '  ')
    example = next((p.content for p in section(answers[0]) if p.kind == 'code'), [])
    if len(example) <= EXAMPLE_LINES:
        yield from (f'    {line.rstrip()}'[:width] for line in example)


def help_for(word, width=100):
    """All that the pages say of a word, in lines of at most `width` characters; '' where they say nothing."""
    parts = []
    for row in language_rows(word):
        parts += help_on_row(word, row, width)
    parts += [fill(plain(text), width) for text in language_paragraphs(word)]
    if parts and not any('For example' in part for part in parts) and example_of(word) not in ('', word):
        parts.append(f'  For example: {example_of(word)}'[:width])
    for heading in answer_headings():
        if word in typed(heading) or any(is_about(answer, word) for answer in typed(heading)):
            parts += help_on_answer(heading, width)
    return '\n'.join(parts)


def is_about(answer, word):
    """Whether help on a word has a longer answer: `unsettled grid` for `unsettled`. Answers of `check` stand alone."""
    first, *rest = answer.split()
    return bool(rest) and word in (first, *rest) and (first != 'valid' or word == 'valid')


def answer_headings():
    """The headings of ANSWERS.md that name answers: refusals, verdicts, states."""
    return [p.content for p in pieces('ANSWERS.md') if p.kind == 'heading' and p.content.startswith('`')]


def words():
    """Each word that has help, sorted."""
    found = {word for heading in answer_headings() for answer in typed(heading) for word in answer.split()}
    for piece in pieces('LANGUAGE.md'):
        forms = ()
        if piece.kind == 'row' and next(iter(piece.content)) in TYPED:
            forms = typed(next(iter(piece.content.values())))
        elif piece.kind == 'paragraph':
            forms = re.findall(r'^`([a-z]+)` ', piece.content)
        for form in forms:
            found.add(form.split()[0])
            found.update(form.split()[1:2] if form.startswith('infer ') else ())
    return sorted(found)
