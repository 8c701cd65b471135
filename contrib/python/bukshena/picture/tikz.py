"""A layout as a file of LaTeX: pdflatex makes a page of the picture's size of it; in a document that has the package
tikz, \\input puts the picture in its place. Names are in the document's mathematical letters."""
from bukshena.picture import looks

HEAD = r'''% TITLE
% pdflatex makes a page of this file; a document with \usepackage{tikz} may \input it.
\expandafter\ifx\csname @nodocument\endcsname\relax
  \def\sketchend{}%
\else
  \documentclass{article}
  \usepackage[paperwidth=WIDTH,paperheight=HEIGHT,margin=0mm]{geometry}
  \usepackage{tikz}
  \pagestyle{empty}
  \begin{document}
  \noindent
  \def\sketchend{\end{document}}%
\fi
\begin{tikzpicture}[x=1mm,y=1mm,line cap=round,inner sep=0mm,outer sep=0mm]'''
# a name in a halo: place, anchor, colour, text
NAME = r'''\def\sketchname#1#2#3#4{%
  \foreach \angle in {0,30,...,330} \node[anchor=#2,white] at ([shift={(\angle:0.45mm)}]#1) {#4};
  \node[anchor=#2,#3] at (#1) {#4};}'''
ANCHORS = {1: 'base west', 0: 'base', -1: 'base east'}
LETTERS = 'abcdefghijklmnopqrstuvwxyz'


def number(hundredths):
    sign, (whole, rest) = '-' if hundredths < 0 else '', divmod(abs(hundredths), 100)
    return sign + f'{whole}.{rest:02}'.rstrip('0').rstrip('.')


class Writer:
    def __init__(self, layout, options):
        self.layout, self.options = layout, options
        self.colours = {}

    def colour(self, code):
        """The name of a colour such as #0072b2."""
        if code in (None, looks.BLACK, 'white'):
            return 'black' if code != 'white' else code
        return self.colours.setdefault(code, 'sketch' + LETTERS[len(self.colours)])

    def place(self, place):
        return f'({self.pair(place)})'

    def pair(self, place):
        return f'{number(place[0])},{number(self.layout.height - place[1])}'

    def line(self, start, end, look):
        dashes = ''
        if look.dashes:
            lengths = [number(int(length)) + 'mm' for length in look.dashes.split()]
            dashes = ',dash pattern=' + ' '.join(f'on {on} off {off}' for on, off in zip(lengths[::2], lengths[1::2]))
        style = f'{self.colour(look.colour)},line width={number(look.width)}mm{dashes}'
        return f'\\draw[{style}] {self.place(start)} -- {self.place(end)};'

    def polygon(self, corners, code):
        return f'\\fill[{self.colour(code)}] {" -- ".join(map(self.place, corners))} -- cycle;'

    def circle(self, at, radius, fill, edge, width):
        style = f'fill={self.colour(fill)},draw={self.colour(edge)},line width={number(width)}mm'
        return f'\\filldraw[{style}] {self.place(at)} circle[radius={number(radius)}mm];'

    def name(self, label):
        letters = ''.join(f'_{{{run.text}}}' if run.is_low else named(run.text) for run in label.runs)
        return f'\\sketchname{{{self.pair(label.at)}}}{{{ANCHORS[label.side]}}}{{{self.colour(looks.text(label))}}}{{${letters}$}}'

    def drawn(self):
        layout = self.layout
        found = [self.polygon(polygon, looks.fill(k)) for k, polygon in enumerate(layout.polygons)]
        found += [self.line(*segment) for segment in looks.segments(layout, self.options)]
        for arrow in layout.arrows:
            look = looks.of_arrow(arrow)
            found += [self.line(arrow.start, arrow.tip, look), self.polygon(looks.head(arrow.start, arrow.tip), look.colour)]
        for spot in layout.spots:
            look = looks.of_dot(spot.dot)
            if look.ring:
                found.append(self.circle(spot.at, look.ring, 'white', look.colour, looks.RING_WIDTH))
            found.append(self.circle(spot.at, look.radius, look.fill, look.edge, looks.EDGE_WIDTH))
        return found + [NAME] * bool(layout.labels) + [self.name(label) for label in layout.labels]

    def text(self):
        layout, drawn = self.layout, self.drawn()
        head = HEAD.replace('TITLE', layout.title)
        for word, length in (('WIDTH', layout.width), ('HEIGHT', layout.height)):
            head = head.replace(word, f'{number(length)}mm')
        colours = [f'\\definecolor{{{name}}}{{HTML}}{{{code[1:].upper()}}}' for code, name in self.colours.items()]
        frame = f'\\useasboundingbox (0,0) rectangle {self.place((layout.width, 0))};'
        return '\n'.join([head, *colours, frame, *drawn, '\\end{tikzpicture}%', '\\sketchend', ''])


def named(text):
    """The letters of a name, or the sign between two names."""
    return text if not text.isalnum() or len(text) == 1 else f'\\mathit{{{text}}}'


def tikz(layout, options) -> str:
    return Writer(layout, options).text()
