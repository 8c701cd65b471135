"""bukshena picture FILE: a picture of a script's last screen, with names, segments and the theorem's line.

`draw_svg(script, reply, options)` and `draw_tikz` take a script and the program's whole reply to it, in which there has
to be a screen; they ask nobody, and give the same text for the same words."""
from types import SimpleNamespace


def options_of(hide=(), is_whole=False, width=80, window=None, failing=None, mark=(), fill=(), line_names=False):
    """What a figure and its drawing are told. `hide` names that are left out; `is_whole` draws lines from edge to edge;
    `width` in millimetres; `window` left, low, right, high in units of the plane, or None; `failing` a false
    `replies.Entry` at whose values the script's last screen is; `mark` statements to be seen; `fill` corners of
    polygons; `line_names` whether lines are named too."""
    return SimpleNamespace(hide=tuple(hide), is_whole=is_whole, width=width, window=window, failing=failing,
                           mark=tuple(mark), fill=tuple(fill), line_names=line_names)


def layout_for(script, reply, options=None):
    """Where everything of the picture stands. Fault 65 where there is nothing to draw."""
    from bukshena.figure import figure_of
    from bukshena.picture.layout import layout_of
    options = options or options_of()
    return layout_of(figure_of(script, reply, options), options)


def draw_svg(script, reply, options=None):
    """The picture as SVG."""
    from bukshena.picture.svg import svg
    options = options or options_of()
    return svg(layout_for(script, reply, options), options)


def draw_tikz(script, reply, options=None):
    """The picture as a file of LaTeX that compiles by itself, and that another document may \\input."""
    from bukshena.picture.tikz import tikz
    options = options or options_of()
    return tikz(layout_for(script, reply, options), options)


def main(words):
    from bukshena.picture.words import main as carry_out
    return carry_out(words)
