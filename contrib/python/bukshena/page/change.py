"""Changes of a script that the page makes as a whole: one step back or forth, positions written into the lines, and a
figure ten times as large. Each is a new text, and the program is asked what it makes."""
from fractions import Fraction
from math import gcd

from bukshena import evaluate
from bukshena.evaluate import HOW, LARGEST
from bukshena.page import sketch as page_sketch
from bukshena.page.programs import carry_out
from bukshena.script import KINDS


class NotPossible(Exception):
    """With the key of a text of the page, and what is filled into it."""

    def __init__(self, key, **filled):
        super().__init__(key)
        self.key, self.filled = key, filled


# ---- back and forth

def last_change(look):
    """The line of the file with the last change, and how many changes it made."""
    if not look.sketch.done:
        raise NotPossible('nothing_to_undo')
    at = look.sketch.done[-1][1]
    count = 0
    while count < len(look.sketch.done) and look.sketch.done[-1 - count][1] == at:
        count += 1
    return at, count


def undo(programs, text, owner):
    """The text without its last change, the line that was taken out with its number, and the look of it.

    The program is asked to undo, and the new text has to show the same screen and claims as its answer; where the lines
    themselves undo and redo, `undo` is written behind them."""
    look = page_sketch.look_at(programs, text, owner)
    at, count = last_change(look)
    wanted = by_program(programs, look, [b'undo'] * count, owner)
    if not any(line.words[:1] and line.words[0] in ('undo', 'redo') for line in look.given):
        lines = text.split('\n')
        line = lines.pop(at - 1)
        shorter = '\n'.join(lines)
        found = page_sketch.look_at(programs, shorter, owner)
        if state(found.shown, found.sketch) == wanted:
            return shorter, {'at': at, 'line': line}, found
    longer = written(text, look, ['undo'] * count)
    return longer, {'at': 0, 'line': ''}, page_sketch.look_at(programs, longer, owner)


def redo(programs, text, taken, owner):
    """The text with a line that `undo` took out put back, and the look of it; the program's own `redo` says the same."""
    lines = text.split('\n')
    lines.insert(taken['at'] - 1, taken['line'])
    longer = '\n'.join(lines)
    look = page_sketch.look_at(programs, longer, owner)
    at, count = last_change(look)
    again = by_program(programs, look, [b'undo'] * count + [b'redo'] * count, owner)
    if at != taken['at'] or again != state(look.shown, look.sketch):
        raise NotPossible('nothing_to_redo')
    return longer, look


def by_program(programs, look, commands, owner):
    """The screen and the claims after commands behind a script."""
    quick = [line for line in look.given if not page_sketch.is_slow(line)]
    quick = [page_sketch.Given(k, line.at, line.text) for k, line in enumerate(quick, 1)]
    asked = page_sketch.followed(quick, *commands, b'screen')
    reader = page_sketch.reader_of(asked, carry_out(programs, asked, owner))
    return state(reader.found[-1].elements, reader.sketch)


def state(shown, sketch):
    return shown, [claim.key for claim in sketch.claims]


def written(text, look, commands):
    """The text with commands behind its last line that is no question."""
    lines = text.split('\n')
    changes = [line.at for line in look.given if line.words and line.words[0] not in page_sketch.SILENT + page_sketch.SLOW]
    at = max(changes, default=0) or next((k for k, line in enumerate(lines) if not line.strip()), len(lines))
    return '\n'.join(lines[:at] + commands + lines[at:])


# ---- positions in the lines, and a larger figure

def positions(look, text):
    """The text with each element's values in its own line, and without drags."""
    values = {element.number: tuple(element.values) for element in look.sketch.live()}
    return rewritten(look, text, values)


def larger(look, text, factor=10):
    """The text of the figure that is `factor` times as large, and the names of those elements whose values are rounded."""
    sketch = look.sketch
    if any(element.kind != KINDS[element.word] for element in sketch.live()):
        raise NotPossible('larger_dual')
    before, after, values, rounded = evaluate.triples(sketch), {}, {}, []
    for element in sketch.live():
        of = [after[number] for number in element.below]
        exact = enlarged(element, before[element.number], of, factor)
        values[element.number] = tuple(map(evaluate.nearest, exact)) if HOW[element.word] != 'fixed' else exact
        if values[element.number] != tuple(exact):
            rounded.append(element.name)
        if any(abs(number) > LARGEST for number in exact):
            raise NotPossible('larger_range', name=element.name)
        after[element.number] = evaluate.triple(element.word, of, values[element.number])
    return rewritten(look, text, values), rounded


def enlarged(element, triple, of, factor):
    """The values with which an element stands where the larger figure has it, given those that it is made of there."""
    how = HOW[element.word]
    wanted = stretched(element.kind, triple, factor)
    if how == 'fixed':
        return primitive(wanted)
    if how == 'free' and element.kind == 'point':
        return tuple(factor * value for value in element.values)
    if how == 'free':
        return tuple(Fraction(value, factor) for value in element.values)
    if how == 'cross':
        return ()
    places = [wanted] if element.kind == 'point' else points_of(wanted)
    found = [evaluate.values_at(element.word, element.kind, of, place) for place in places]
    return next((values for values in found if values is not None), tuple(map(Fraction, element.values)))


def stretched(kind, triple, factor):
    a, b, c = triple
    return (factor * a, factor * b, c) if kind == 'point' else (a, b, factor * c)


def points_of(line):
    """Some finite points of a line."""
    a, b, c = line
    square = a * a + b * b
    if square == 0:
        return []
    x, y = Fraction(-a * c) / square, Fraction(-b * c) / square
    return [(x - k * b, y + k * a, 1) for k in (0, 1, -1)]


def primitive(triple):
    divisor = gcd(gcd(*map(abs, triple[:2])), abs(triple[2])) or 1
    return tuple(number // divisor for number in triple)


def rewritten(look, text, values):
    """The text with these values in the lines of the live elements, and without the drags; those that a tool drew are
    dragged behind them."""
    if any(line.words[:1] and line.words[0] in ('undo', 'redo') for line in look.given):
        raise NotPossible('goes_back')
    drawn_by_tools = {line.at for line in look.given if line.use}
    lines, behind = text.split('\n'), []
    written_values = {words[1]: words for words, *_ in look.sketch.done if words[0] in HOW}
    for element in look.sketch.live():
        numbers = list(map(str, values[element.number]))
        words = written_values[element.name]
        if not numbers or list(words[len(words) - len(numbers):]) == numbers:
            continue
        if element.at not in drawn_by_tools:
            lines[element.at - 1] = ' '.join([*words[:len(words) - len(numbers)], *numbers])
        elif HOW[element.word] == 'fixed':
            raise NotPossible('larger_tool', name=element.name)
        else:
            behind.append(' '.join(['drag', element.name, *numbers]))
    drags = {at for words, at, *_ in look.sketch.done if words[0] == 'drag' and at not in drawn_by_tools}
    last = max((at for _, at, *_ in look.sketch.done), default=0)
    kept = [line for at, line in enumerate(lines[:last], 1) if at not in drags]
    return '\n'.join(kept + behind + lines[last:])
