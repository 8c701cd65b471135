#!/usr/bin/env python3
"""make.py [PAGE]: draws the figures of docs/GALLERY.md anew, in docs/gallery/, and the figure of README.md, and makes one
page of docs/GALLERY.md and of the scripts, replies and pictures that it names.

The page, docs/gallery.html where none is named, needs nothing else: the pictures stand in it. Without its style sheet it
reads from top to bottom. The pictures are those of `bukshena picture`, with the words that stand here."""
import html
import os
import re
import sys
from types import SimpleNamespace

TOP = os.path.dirname(os.path.dirname(os.path.dirname(os.path.abspath(__file__))))
sys.path.insert(1, os.path.join(TOP, 'contrib', 'python'))
from bukshena import files, ledger, replies
from bukshena.picture import words as picture_words

# the words of each picture, and those of the figures in which more is to be seen
ALL = ['--whole', '--width', '100mm']
TRIANGLES = ['--fill', 'A,B,C', '--fill', 'D,E,F']
OTHERS = {
    'desargues': TRIANGLES, 'desargues-converse': TRIANGLES, 'doubly-perspective': TRIANGLES,
    'brackets': ['--mark', 'collinear X Y Z'], 'centroid': ['--fill', 'A,B,C'],
    'quadrilateral': ['--mark', 'collinear e f g'], 'unsettled': ['--mark', 'collinear X Y Z'],
    'false-conjecture': ['--counterexample', '1'],
}
README = ('docs/desargues.svg', 'desargues', [*TRIANGLES, '--width', '100mm'])

STYLE = '''body { font: 16px/1.5 sans-serif; max-width: 62em; margin: 2em auto; padding: 0 1em; color: #222; background: #fff }
a { color: #0062a0 }
section { clear: both; border-top: 1px solid #ccc; padding: 1em 0; overflow: hidden }
figure { float: left; margin: 0 1.5em 1em 0; max-width: 100% }
svg { display: block; border: 1px solid #ccc; width: 400px; height: auto; max-width: 100% }
pre { font-size: 13px; line-height: 1.35; background: #f6f6f6; padding: .7em; overflow: auto; max-height: 26em; white-space: pre-wrap; margin: .5em 0 }
@media (prefers-color-scheme: dark) {
  body { color: #ddd; background: #16191d }
  a { color: #7cc0f0 }
  pre { background: #22272d }
  section, svg { border-color: #444 }
}'''


def read(path):
    with open(path, encoding='utf-8') as file:
        return file.read()


def script_of(name):
    return os.path.join(TOP, 'examples', f'{name}.txt')


def figures(text):
    """Of each figure its title, the name of its script, and what is said of it, as markdown."""
    found = []
    for part in text.split('\n## ')[1:]:
        title, picture, prose = part.strip().split('\n\n')
        found.append((title, re.fullmatch(r'!\[.*\]\(gallery/(.+)\.svg\)', picture)[1], prose))
    return found


# ---- pictures

def pictures(listed):
    """Each picture that is kept, with the name of its script and its words, read."""
    for _, name, _ in listed:
        yield f'docs/gallery/{name}.svg', name, words_of(name, [*ALL, *OTHERS.get(name, [])])
    path, name, words = README
    yield path, name, words_of(name, words)


def words_of(name, words):
    return picture_words.read_words([script_of(name), *words])


def draw(listed):
    os.makedirs(os.path.join(TOP, 'docs', 'gallery'), exist_ok=True)
    for path, name, words in pictures(listed):
        files.write(os.path.join(TOP, path), picture_words.made(files.read(script_of(name)), words))


# ---- the page

def anchor(title):
    return re.sub(r'[^\w\- ]', '', title.lower()).replace(' ', '-')


def prose_of(markdown, to_docs):
    """Markdown's links, code and nothing else."""
    text = html.escape(markdown, quote=False)
    text = re.sub(r'\[([^\]]+)\]\(([^)]+)\)', lambda m: f'<a href="{os.path.normpath(os.path.join(to_docs, m[2])) if ":" not in m[2] else m[2]}">{m[1]}</a>', text)
    return re.sub(r'`([^`]+)`', r'<code>\1</code>', text)


def answers(name):
    """What a script is answered, for people: what it asks for by line first, and then its claims."""
    data = files.read(script_of(name))
    for reply in replies.read(data, read(f'{TOP}/examples/{name}.reply')):
        if isinstance(reply, replies.Inferred):
            yield f'line {reply.at}: inferred {reply.statement}'
        elif isinstance(reply, replies.Refusal):
            yield f'line {reply.at}: refused {reply.cause}'
        elif isinstance(reply, (replies.Zero, replies.Uncertified)):
            yield f'line {reply.at}: {reply.entry.verdict} {reply.entry.statement}'
    options = SimpleNamespace(workers=None, seconds=ledger.SECONDS)
    yield from ledger.lines_of_ledger(ledger.Read(data, options), False)


def section_of(title, name, prose, to_docs):
    return f'''<section id="{anchor(title)}">
<h2>{html.escape(title, quote=False)}</h2>
<figure>
{read(f'{TOP}/docs/gallery/{name}.svg').strip()}
</figure>
<p>{prose_of(prose, to_docs)}</p>
<h3>What is answered</h3>
<pre>{html.escape(chr(10).join(answers(name)), quote=False)}</pre>
<h3>Script</h3>
<pre>{html.escape(read(script_of(name)), quote=False)}</pre>
</section>'''


def page(path):
    text = read(f'{TOP}/docs/GALLERY.md')
    to_docs = os.path.relpath(f'{TOP}/docs', os.path.dirname(os.path.abspath(path)))
    listed = figures(text)
    index = '\n'.join(f'<li><a href="#{anchor(title)}">{html.escape(title, quote=False)}</a></li>' for title, _, _ in listed)
    sections = '\n'.join(section_of(*figure, to_docs) for figure in listed)
    return f'''<!DOCTYPE html>
<html lang="en">
<head>
<meta charset="utf-8">
<meta name="viewport" content="width=device-width">
<meta name="color-scheme" content="light dark">
<title>Bukshena: gallery</title>
<style>
{STYLE}
</style>
</head>
<body>
<h1>Bukshena: gallery</h1>
<p>Figures of points and lines, each with its script and with what the program answers: <code>proved</code> means that the
statement holds in all positions. What is proved is in colour.</p>
<ul>
{index}
</ul>
{sections}
</body>
</html>
'''


if __name__ == '__main__':
    path = sys.argv[1] if len(sys.argv) > 1 else f'{TOP}/docs/gallery.html'
    draw(figures(read(f'{TOP}/docs/GALLERY.md')))
    made = page(path)
    with open(path, 'w', encoding='utf-8') as file:
        file.write(made)
