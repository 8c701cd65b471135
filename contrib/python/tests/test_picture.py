"""Pictures of scripts: every example, names beside points, the theorem, arrows, a counterexample, LaTeX, and what cannot
be drawn."""
import glob
import os
import re
import shutil
import subprocess
import sys
import tempfile
import unittest
import xml.etree.ElementTree

from bukshena import files, picture, process
from bukshena.picture import convert, looks
from bukshena.script import asked

from tests.common import EXAMPLES, TOP, command
from tests.terminal import environment

SVG = '{http://www.w3.org/2000/svg}'
GALLERY = sorted(path.replace('.svg', '.txt') for path in glob.glob(os.path.join(TOP, 'examples', '*.svg')))
HIDDEN = 'O A B C D E F X Y Z ab bc ca de ef fd'
FAR = b'point A 0 0\npoint B 4 2\njoin l A B\nfixline w 0 0 1\nmeet F l w\nfixpoint G 1 0 0\nscreen\n'


def reply_to(script):
    script = asked(script, 'ledger', 'screen')
    return script, process.run_script(script).text


def example(name):
    return os.path.join(TOP, 'examples', name + '.txt')


def layout_of(script, **options):
    return picture.layout_for(*reply_to(script), picture.options_of(**options))


def drawn(path, **options):
    return picture.draw_svg(*reply_to(files.read(path)), picture.options_of(**options))


def lines_in(svg):
    """The segments of a picture: two places, colour, width."""
    found = re.findall(r'<line x1="(-?\d+)" y1="(-?\d+)" x2="(-?\d+)" y2="(-?\d+)" stroke="(#\w+)" stroke-width="(\d+)"', svg)
    return [((int(a), int(b)), (int(c), int(d)), colour, int(width)) for a, b, c, d, colour, width in found]


def meet(a, b):
    return a[0] < b[2] and b[0] < a[2] and a[1] < b[3] and b[1] < a[3]


class Room(unittest.TestCase):
    def setUp(self):
        room = tempfile.TemporaryDirectory()
        self.addCleanup(room.cleanup)
        self.room = room.name

    def path(self, name):
        return os.path.join(self.room, name)

    def written(self, name, data):
        files.write(self.path(name), data)
        return self.path(name)


class Figures(Room):
    def test_each_example_is_drawn_the_same_twice(self):
        for path in EXAMPLES:
            svg, again = self.path('a.svg'), self.path('b.svg')
            self.assertEqual(command('picture', path, '-o', svg), ('', '', 0), path)
            self.assertEqual(command('picture', '-', '-o', again, data=files.read(path)), ('', '', 0), path)
            self.assertEqual(files.read(svg), files.read(again), path)
            xml.etree.ElementTree.fromstring(files.read(svg).decode())

    def test_no_name_is_over_a_point_or_another_name_or_outside(self):
        for path in GALLERY:
            for is_whole in (False, True):
                layout = layout_of(files.read(path), is_whole=is_whole)
                boxes = [(label.text, label.box) for label in layout.labels]
                for at, (text, box) in enumerate(boxes):
                    for spot in layout.spots:
                        x, y = spot.at
                        self.assertFalse(meet(box, (x - 62, y - 62, x + 62, y + 62)), f'{path}: {text} is over a point')
                    for other, there in boxes[:at]:
                        self.assertFalse(meet(box, there), f'{path}: {text} is over {other}')
                    self.assertTrue(0 <= box[0] and 0 <= box[1] and box[2] <= layout.width and box[3] <= layout.height, f'{path}: {text}')

    def test_each_point_of_the_screen_has_its_name(self):
        for path in GALLERY:
            script, reply = reply_to(files.read(path))
            root = xml.etree.ElementTree.fromstring(picture.draw_svg(script, reply))
            named = {name for text in root.iter(SVG + 'text') for name in ''.join(text.itertext()).split(' = ')}
            shown = reply.splitlines()[reply.count('\n') - len(re.findall(r'^\w+ (?:point|line) ', reply, re.M)):]
            points = {line.split()[0] for line in shown if re.match(r'\w+ point -?\d', line)}
            self.assertEqual(named & points, points, path)

    def test_points_stand_where_the_screen_has_them(self):
        svg = picture.draw_svg(*reply_to(b'point A 0 0\npoint B 4 0\npoint C 0 4\n'))
        a, b, c = [(int(x), int(y)) for x, y in re.findall(r'<circle cx="(\d+)" cy="(\d+)"', svg)]
        self.assertLessEqual(abs((b[0] - a[0]) - (a[1] - c[1])), 1)
        self.assertEqual((a[1], a[0]), (b[1], c[0]))

    def test_a_point_far_from_the_others_is_an_arrow_and_the_others_are_not_small(self):
        near = b'point A 0 0\npoint B 2 0\npoint C 0 2\npoint D 2 2\njoin l A B\n'
        svg = picture.draw_svg(*reply_to(near + b'point E 900 0\n'))
        self.assertRegex(svg, 'data-far="E"')
        a, b = [int(re.search(rf'<circle cx="(\d+)"[^>]*data-point="{name}"', svg)[1]) for name in 'AB']
        self.assertGreater(b - a, 4000)

    def test_figures_that_are_near_are_shown_whole(self):
        svg = drawn(example('verdicts'))
        for name in ('A O', 'B', 'C', 'D', 'M'):
            self.assertIn(f'data-point="{name}"', svg)


class Theorems(Room):
    def test_the_line_through_three_points_is_in_colour(self):
        for name in ('desargues', 'pappus', 'pascal', 'trilinear-polar'):
            coloured = [line for line in lines_in(drawn(example(name))) if line[2] == looks.BLUE]
            self.assertEqual([line[3] for line in coloured], [looks.THEOREM], name)

    def test_the_point_on_three_lines_is_in_colour(self):
        for name in ('desargues-converse', 'pappus-dual', 'doubly-perspective', 'centroid'):
            svg = drawn(example(name))
            self.assertEqual(len(re.findall(f'<circle [^>]*fill="white" stroke="{looks.BLUE}"', svg)), 1, name)
            self.assertEqual(sum(line[2] == looks.BLUE for line in lines_in(svg)), 3, name)

    def test_what_is_not_proved_is_not_in_colour(self):
        svg = drawn(example('unsettled'))
        for colour in looks.PROVED_COLOURS:
            self.assertNotIn(colour, svg)

    def test_several_theorems_have_colours_and_dashes_of_their_own(self):
        claims = b'point A 0 0\npoint B 4 2\npoint C 0 3\nalong M A B 1\nalong N A C 1\nclaim collinear A B M\nclaim collinear A C N\n'
        svg = picture.draw_svg(*reply_to(claims))
        self.assertEqual({line[2] for line in lines_in(svg)}, {looks.BLUE, looks.GREEN})
        self.assertIn('stroke-dasharray', svg)

    def test_a_counterexample_is_drawn_where_it_fails(self):
        for name in ('false-conjecture', 'verdicts', 'centroid'):
            path = self.path('f.svg')
            self.assertEqual(command('picture', example(name), '--counterexample', '1', '-o', path), ('', '', 0))
            self.assertIn(looks.VERMILION, files.read(path).decode(), name)


class Words(Room):
    def test_lines_end_a_little_behind_their_points_or_at_the_edge(self):
        script = b'point A 0 0\npoint B 4 2\npoint C 1 4\njoin l A B\n'
        layout = layout_of(script)
        (start, end, _, _), = lines_in(picture.draw_svg(*reply_to(script)))
        at = {spot.dot.names[0]: spot.at for spot in layout.spots}
        for place, name in ((start, 'A'), (end, 'B')):
            away = sum((p - q) ** 2 for p, q in zip(place, at[name])) ** 0.5
            self.assertTrue(250 < away < 350, away)
        whole = lines_in(picture.draw_svg(*reply_to(script), picture.options_of(is_whole=True)))[0]
        for x, y in whole[:2]:
            self.assertTrue(x in (0, layout.width) or y in (0, layout.height), (x, y))

    def test_a_point_at_infinity_is_an_arrow_at_the_edge(self):
        layout = layout_of(FAR)
        self.assertEqual({arrow.dot.names[0] for arrow in layout.arrows}, {'F', 'G'})
        for arrow in layout.arrows:
            x, y = arrow.tip
            self.assertTrue(x in (0, layout.width) or y in (0, layout.height), (x, y))
        svg = picture.draw_svg(*reply_to(FAR))
        self.assertIn('data-far="F"', svg)
        self.assertIn('>F</text>', svg)

    def test_width_window_and_hidden_names(self):
        path = self.path('f.svg')
        given = ['picture', example('desargues'), '-o', path]
        command(*given, '--width', '123mm')
        self.assertIn(' width="123mm" ', files.read(path).decode())
        command(*given, '--window', '-1', '-2', '9', '3')
        self.assertIn(' width="80mm" height="40mm" ', files.read(path).decode())
        command(*given, '--hide', 'O,de')
        svg = files.read(path).decode()
        self.assertNotIn('>O</text>', svg)
        self.assertNotIn('data-line="de"', svg)

    def test_marks_fills_and_names_of_lines(self):
        path = self.path('f.svg')
        given = ['picture', example('desargues'), '-o', path]
        command(*given, '--fill', 'A,B,C', '--fill', 'D E F', '--line-names')
        svg = files.read(path).decode()
        for code in looks.FILLS[:2]:
            self.assertIn(f'fill="{code}"', svg)
        self.assertIn('>ab</text>', svg)
        self.assertEqual(command(*given, '--mark', 'collinear O A D')[2], 0)
        self.assertIn('stroke="#0', files.read(path).decode())
        for statement, status in (('collinear O A B', 65), ('collinear O A', 64), ('on the way', 65), ('there is', 64), ('', 64)):
            self.assertEqual(command(*given, '--mark', statement)[2], status, statement)

    def test_what_cannot_be_drawn_is_a_sentence(self):
        empty, desargues, false = self.written('empty.txt', b'\n'), example('desargues'), example('false-conjecture')
        own = self.written('own.svg', b'point A 0 0\n')
        for given, status in (
                (['nowhere.txt'], 66), ([desargues, '--hide', HIDDEN], 65), ([self.room], 66), ([empty], 65), ([desargues, '-o', 'x.gif'], 64),
                ([desargues, '--hide', 'NONE'], 65), ([desargues, '--width', 'wide'], 64), ([desargues, '--width', '9mm'], 64),
                ([desargues, '--width', '\u00b2mm'], 64), ([desargues, '--window', '1', '1', '0', '0'], 64),
                ([desargues, '--window', '0', '0', 'nan', '1'], 64), ([desargues, '--window', '0', '0', '1/0', '1'], 64),
                ([desargues, '--fill', 'A,B'], 65), ([desargues, '--counterexample', '9'], 65),
                ([false, '--counterexample', '0'], 65), ([false, '--counterexample', '2'], 65),
                ([own, '-o', own], 64), ([desargues, '-o', self.path('nowhere/x.svg')], 73), ([], 64)):
            said, told, got = command('picture', *given)
            self.assertEqual((said, got), ('', status), given)
            self.assertEqual(len(told.splitlines()), 1, (given, told))
            self.assertTrue(told.startswith('bukshena: '), (given, told))

    @unittest.skipUnless(os.path.exists('/dev/full'), '/dev/full')
    def test_an_output_that_is_full_is_told(self):
        with open('/dev/full', 'wb') as full:
            done = subprocess.run([sys.executable, '-m', 'bukshena', 'picture', example('desargues')], stdout=full, stderr=subprocess.PIPE, env=environment())
        self.assertEqual((done.stderr, done.returncode), (b'bukshena: standard output cannot be written: no space left on device\n', 73))


class Converted(Room):
    def test_pdf_and_png_by_each_converter_that_is_installed(self):
        layout = layout_of(files.read(example('desargues')))
        found = [name for name in convert.CONVERTERS['.pdf'] if shutil.which(name)]
        if not found:
            self.skipTest(', '.join(convert.CONVERTERS['.pdf']))
        for ending, head in (('.pdf', b'%PDF-'), ('.png', b'\x89PNG')):
            for name in found:
                if name in convert.CONVERTERS[ending]:
                    with self.subTest(name + ending):
                        self.assertTrue(convert.converted(layout, picture.options_of(), ending, [name]).startswith(head))

    def test_without_a_converter_its_names_are_told(self):
        _, told, status = command('picture', example('desargues'), '-o', self.path('x.pdf'), PATH=self.room)
        self.assertEqual(status, 69)
        self.assertRegex(told, r'\Abukshena: .*rsvg-convert.*inkscape.*chromium.*pdflatex.*\n\Z')
        self.assertFalse(os.path.exists(self.path('x.pdf')))


@unittest.skipUnless(shutil.which('pdflatex'), 'pdflatex')
class Latex(Room):
    """Each figure of the gallery by itself, and all of them in another document."""

    def pages(self, name):
        """How many pages LaTeX makes of a file, and the size of the first one in millimetres."""
        given = ['pdflatex', '-interaction=nonstopmode', '-halt-on-error', f'-jobname={name[:-4]}', f'\\pdfobjcompresslevel=0 \\input{{{name}}}']
        done = subprocess.run(given, cwd=self.room, stdout=subprocess.PIPE, stderr=subprocess.STDOUT, timeout=300)
        self.assertEqual(done.returncode, 0, done.stdout.decode('latin-1')[-2000:])
        said = done.stdout.decode('latin-1')
        self.assertNotIn('Overfull', said)
        self.assertNotIn('Warning', re.sub(r'.*Label\(s\) may have changed.*', '', said))
        data = files.read(self.path(name.replace('.tex', '.pdf')))
        box = re.search(rb'/MediaBox\s*\[0 0 ([\d.]+) ([\d.]+)\]', data)
        return re.search(r'Output written on .*?\((\d+) page', said)[1], [float(length) * 25.4 / 72 for length in box.groups()]

    def test_each_by_itself_and_all_in_one_document(self):
        names = []
        for path in GALLERY:
            name = os.path.basename(path).replace('.txt', '.tex')
            script, reply = reply_to(files.read(path))
            self.written(name, picture.draw_tikz(script, reply, picture.options_of(is_whole=True)).encode('ascii'))
            layout = picture.layout_for(script, reply)
            count, size = self.pages(name)
            self.assertEqual(count, '1', name)
            for got, want in zip(size, (layout.width / 100, layout.height / 100)):
                self.assertAlmostEqual(got, want, delta=0.1)
            names.append(name)
        body = '\n'.join(f'Figure \\input{{{name}}}\n\nand \\resizebox{{30mm}}{{!}}{{\\input{{{name}}}}}.\n' for name in names)
        self.written('book.tex', f'\\documentclass{{article}}\n\\usepackage{{tikz}}\n\\begin{{document}}\n\\raggedright\n{body}\\end{{document}}\n'.encode())
        self.assertGreaterEqual(int(self.pages('book.tex')[0]), 2)


if __name__ == '__main__':
    unittest.main()
