"""Certificates as they are written: a line of JSON, and what shape it has. Written from docs/FORMATS.md alone.

Nothing here says that a certificate is valid: `bukshena check` does, and contrib/checker for who trusts nobody."""
import json
import math

from bukshena.faults import BAD_DATA, Fault

LINE_BYTES = 65536
DEEPEST = 127
SHAPES = {'free': 0, 'fixed': 3, 'cut': 1, 'blend': 2, 'cross': 2}
CLAIMS = {'null': 1, 'same': 2, 'on': 2, 'triple': 3}
LIMIT = 2**31


class Float:
    """A number that is not a whole one for the reader: one with a point or an exponent, -0, or one past 64 bits."""


def read_float(text):
    if math.isinf(float(text)):
        raise ValueError(text)
    return Float()


def read_whole(text):
    n = int(text)
    return n if -2**63 <= n < 2**64 and text != '-0' else read_float(text)


def refuse_word(text):
    raise ValueError(text)


def read(line):
    """The value that a line of bytes reads as; ValueError, or RecursionError, where it is no JSON."""
    depth = deepest = 0
    for byte in bytes_outside_strings(line):
        depth += (byte in b'[{') - (byte in b']}')
        deepest = max(deepest, depth)
    if deepest > DEEPEST or len(line) > LINE_BYTES:
        raise ValueError('deep or long')
    value = json.loads(line.decode('utf-8'), parse_float=read_float, parse_int=read_whole, parse_constant=refuse_word)
    json.dumps(value, default=str, ensure_ascii=False).encode('utf-8')  # a lone surrogate is refused
    return value


def bytes_outside_strings(line):
    is_inside = is_escaped = False
    for byte in line:
        if is_inside:
            is_inside = is_escaped or byte != 34
            is_escaped = not is_escaped and byte == 92
        else:
            is_inside = byte == 34
            yield byte


def is_whole(x):
    return type(x) is int and -LIMIT <= x < LIMIT


def is_count(x):
    return is_whole(x) and x >= 0


def is_list_of(xs, test):
    return type(xs) is list and all(test(x) for x in xs)


def is_element(x):
    return (type(x) is list and len(x) >= 3 and is_count(x[0]) and x[1] in ('point', 'line') and type(x[2]) is str
            and SHAPES.get(x[2]) == len(x) - 3 and all((is_whole if x[2] == 'fixed' else is_count)(y) for y in x[3:]))


def is_claim(x):
    return type(x) is list and x and type(x[0]) is str and CLAIMS.get(x[0]) == len(x) - 1 and all(map(is_count, x[1:]))


def is_values(x):
    return is_list_of(x, is_whole)


def has_shapes(v):
    """Whether a value has the members of a certificate, each of its shape."""
    if type(v) is not dict or v.get('version') not in (1, 2) or type(v['version']) is not int:
        return False
    if set(v) == {'claim', 'degrees', 'elements', 'grid', 'verdict', 'version'}:
        def is_degree(x):
            return type(x) is list and (len(x) == 2 or len(x) == 3 and v['version'] == 2) and all(map(is_count, x[:-1])) and is_whole(x[-1])

        def is_grid(x):
            return type(x) is list and (len(x) == 2 and is_count(x[0]) and is_values(x[1])
                                        or len(x) == 4 and v['version'] == 2 and all(map(is_count, x[:2])) and all(map(is_values, x[2:])))
        finding = v['verdict'] == 'proved' and is_list_of(v['degrees'], is_degree) and is_list_of(v['grid'], is_grid)
    elif set(v) == {'claim', 'elements', 'values', 'verdict', 'version'}:
        finding = v['verdict'] == 'false' and is_list_of(v['values'], lambda x: type(x) is list and len(x) == 2 and is_count(x[0]) and is_whole(x[1]))
    else:
        return False
    return finding and is_list_of(v['elements'], is_element) and is_claim(v['claim'])


def certificate(text):
    """The object of a certificate's line, with its numbers as they stand there. Whether it is valid is not looked at.
    Fault 65."""
    try:
        made = read(text.strip().encode('utf-8', 'surrogateescape'))
    except (ValueError, RecursionError) as error:
        raise Fault(BAD_DATA, f'the line is no certificate: {error}') from None
    if not has_shapes(made):
        raise Fault(BAD_DATA, 'the line is no certificate: it has not the members of one, or one has another shape')
    return made


def parameters_of(elements):
    """The numbers of the parameters of a certificate's elements, rising."""
    count = {'free': 2, 'cut': 1, 'blend': 1}
    return [p for n, _, how, *_ in elements for p in (2 * n, 2 * n + 1)[:count.get(how, 0)]]
