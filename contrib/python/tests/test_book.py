import os
import shutil
import subprocess
import tempfile
import unittest

TOP = os.path.abspath(os.path.join(os.path.dirname(os.path.abspath(__file__)), *[os.pardir] * 3))


@unittest.skipUnless(shutil.which('make'), 'make')
class Book(unittest.TestCase):
    """The example of contrib/book: it is built where all is proved, and not where something is not."""

    def setUp(self):
        room = tempfile.TemporaryDirectory()
        self.addCleanup(room.cleanup)
        self.book = os.path.join(room.name, 'book')
        shutil.copytree(os.path.join(TOP, 'contrib', 'book'), self.book, ignore=shutil.ignore_patterns('judged', '*.svg', '*.aux'))

    def make(self, *targets):
        done = subprocess.run(['make', '-C', self.book, f'BUKSHENA={os.path.join(TOP, "bukshena")}', *targets], stdout=subprocess.PIPE,
                              stderr=subprocess.STDOUT)
        return done.returncode, done.stdout.decode()

    def figure(self, name):
        with open(os.path.join(self.book, 'figures', name), encoding='ascii') as file:
            return file.read()

    def test_it_is_built_where_each_claim_is_proved(self):
        self.assertEqual(self.make()[0], 0)
        for name in ('desargues.svg', 'pappus.svg'):
            self.assertTrue(self.figure(name).startswith('<svg ') and self.figure(name).endswith('</svg>\n'))
        status, said = self.make()
        self.assertEqual(status, 0)
        self.assertNotIn('judge', said)

    def test_it_is_not_built_where_a_claim_is_not_proved_or_a_line_is_refused(self):
        script = self.figure('desargues.txt')
        for line, told in (('claim collinear A B C\n', 'false collinear A B C'), ('claim on X ba\n', 'refused unknown')):
            with open(os.path.join(self.book, 'figures', 'desargues.txt'), 'w') as file:
                file.write(script + line)
            status, said = self.make()
            self.assertNotEqual(status, 0)
            self.assertIn(f'figures/desargues.txt:{script.count(chr(10)) + 1}: {told}', said)
            self.assertFalse(os.path.exists(os.path.join(self.book, 'figures', 'desargues.svg')))

    def test_figures_for_latex(self):
        self.assertEqual(self.make('latex')[0], 0)
        for name in ('desargues.tex', 'pappus.tex'):
            self.assertIn('\\begin{tikzpicture}', self.figure(name))

    @unittest.skipUnless(shutil.which('pdflatex'), 'pdflatex')
    def test_the_book_by_latex(self):
        self.make('latex')
        words = ['pdflatex', '-interaction=nonstopmode', '-halt-on-error', 'book.tex']
        done = subprocess.run(words, cwd=self.book, stdout=subprocess.PIPE, timeout=300)
        self.assertEqual(done.returncode, 0, done.stdout.decode('latin-1')[-1000:])
        self.assertIn('Output written on book.pdf', done.stdout.decode('latin-1'))
