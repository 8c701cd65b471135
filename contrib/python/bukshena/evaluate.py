"""Exact places of a sketch's elements at given values of their parameters, for pictures that move.

The program alone says what is proved, and where the elements stand at the whole numbers of a script. Between whole
numbers, while a point is dragged, it says nothing: there the figure is computed here, by exact fractions. The rules
are those of docs/PROVED.md, along a construction. A triple is a tuple of three numbers, homogeneous
coordinates; it is (0, 0, 0) where the construction breaks down. A place is the triple of a point of the plane."""
from fractions import Fraction

LARGEST = 1000
HOW = {'point': 'free', 'line': 'free', 'fixpoint': 'fixed', 'fixline': 'fixed', 'on': 'cut', 'through': 'cut',
       'along': 'blend', 'pencil': 'blend', 'join': 'cross', 'meet': 'cross'}


def moved_by(sketch, number):
    """The numbers of this element and of all that depend on it, rising. `sketch` is one of `script.Sketch`."""
    moved = {number}
    for element in sketch.live():
        if moved.intersection(element.below):
            moved.add(element.number)
    return sorted(moved)


def cross(a, b):
    return (a[1] * b[2] - a[2] * b[1], a[2] * b[0] - a[0] * b[2], a[0] * b[1] - a[1] * b[0])


def dot(a, b):
    return a[0] * b[0] + a[1] * b[1] + a[2] * b[2]


def triple(word, of, values):
    """The triple of an element that was added by `word`, from the triples of those that it is made of and the values of
    its parameters; of a fixed one, from its numbers."""
    how = HOW[word]
    if how == 'free':
        return (values[0], values[1], 1)
    if how == 'fixed':
        return tuple(values)
    if how == 'cut':
        return cross(of[0], (1, 0, -values[0]))
    if how == 'blend':
        return tuple(a + values[0] * b for a, b in zip(*of))
    return cross(*of)


def triples(sketch, changed=None, known=None):
    """The triples of all elements by number. `changed` has values by number in place of the sketch's own; `known`
    the triples at the sketch's own values, so that only what depends on a changed element is computed."""
    changed = changed or {}
    if known is None:
        found, wanted = {}, sorted(sketch.elements)
    else:
        found = dict(known)
        wanted = sorted({number for one in changed for number in moved_by(sketch, one)})
    for number in wanted:
        element = sketch.elements[number]
        found[number] = triple(element.word, [found[k] for k in element.below], changed.get(number, element.values))
    return found


# ---- values that bring an element to a place

def foot(line, place):
    """The point of the line that is nearest to a finite place; None for the line at infinity and a null line."""
    a, b, c = line
    square = a * a + b * b
    if square == 0 or place[2] == 0:
        return None
    x, y = Fraction(place[0]) / place[2], Fraction(place[1]) / place[2]
    return ((b * (b * x - a * y) - a * c) / Fraction(square), (a * (a * y - b * x) - b * c) / Fraction(square), 1)


def ratio(first, second):
    """The t with first + t * second = 0, for two triples that are multiples of one; None where there is none."""
    at = max(range(3), key=lambda k: abs(second[k]))
    return None if second[at] == 0 else -Fraction(first[at]) / second[at]


def values_at(word, kind, of, place, turning=None):
    """The values with which an element goes through `place`, or is nearest to it, as a tuple of fractions; None where
    there are none. `word` added the element, `kind` is its kind of the moment, `of` has the triples of the elements that
    it is made of. A free line keeps its direction, which is that of `of[0]`, or turns about the place `turning`."""
    how = HOW[word]
    if how == 'free':
        if kind == 'line':
            line = cross(turning, place) if turning else parallel(of[0], place)
            return whole_part(line)
        return whole_part(place)
    if how == 'cut':
        if kind == 'point':
            at = foot(of[0], place)
            return None if at is None or of[0][1] == 0 else (at[0],)
        return one(ratio_of(dot(cross(of[0], (1, 0, 0)), place), dot(cross((0, 0, 1), of[0]), place)))
    if how == 'blend':
        if kind == 'point':
            at = foot(cross(*of), place)
            return None if at is None else one(ratio(cross(of[0], at), cross(of[1], at)))
        return one(ratio_of(dot(of[0], place), dot(of[1], place)))
    return None


def parallel(line, place):
    """The line through a finite place in the direction of a line."""
    return (line[0] * place[2], line[1] * place[2], -(line[0] * place[0] + line[1] * place[1]))


def whole_part(place):
    """The first two numbers of a triple whose last number is made 1; None where that is 0."""
    return None if place[2] == 0 else (Fraction(place[0]) / place[2], Fraction(place[1]) / place[2])


def ratio_of(first, second):
    """The t with first + t * second = 0, for two numbers."""
    return None if second == 0 else -Fraction(first) / second


def one(value):
    return None if value is None else (value,)


def nearest(value):
    """The whole number of a script that is nearest to a value."""
    return max(-LARGEST, min(LARGEST, (2 * value.numerator + value.denominator) // (2 * value.denominator)))


def as_floats(numbers):
    """A triple as floating numbers of size at most 1, for drawing; None where it is null."""
    largest = max(abs(number) for number in numbers)
    return None if largest == 0 else [float(Fraction(number) / largest) for number in numbers]
