import os
import tempfile
import time
import unittest

from tests.terminal import SECONDS, Terminal

TRUE = 'point A 0 0\npoint B 4 2\njoin l A B\non P l 2\nclaim collinear A B P\nscreen\n'
CTRL_C = '\x03'


class Watch(unittest.TestCase):
    def setUp(self):
        room = tempfile.TemporaryDirectory()
        self.addCleanup(room.cleanup)
        self.script, self.picture = os.path.join(room.name, 'f.txt'), os.path.join(room.name, 'f.svg')
        self.write(TRUE)

    def write(self, text):
        with open(self.script, 'w') as file:
            file.write(text)

    def watch(self, *words):
        terminal = Terminal('watch', self.script, *words)
        self.addCleanup(terminal.__exit__)
        terminal.until(r'^\d\d:\d\d:\d\d .*f\.txt')
        return terminal

    def wait_for(self, path, text):
        limit = time.monotonic() + SECONDS
        while time.monotonic() < limit:
            if os.path.exists(path):
                with open(path, encoding='utf-8') as file:
                    drawn = file.read()
                if text in drawn:
                    return drawn
            time.sleep(0.05)
        raise AssertionError(f'{path} has no {text}')

    def test_judges_and_draws_again_until_ctrl_c(self):
        terminal = self.watch()
        terminal.until('proved')
        self.assertNotIn('>Q<', self.wait_for(self.picture, '</svg>'))
        self.write(TRUE + 'point Q 5 5\nclaim collinear A B Q\nscreen\n')
        terminal.until(r'f\.txt:8: .*false')
        self.wait_for(self.picture, '>Q<')
        self.write(TRUE + 'point A 5 5\n')
        terminal.until(r'f\.txt:7: .*taken')
        terminal.type(CTRL_C)
        self.assertEqual(terminal.status(), 0)

    def test_a_file_that_goes_away_is_looked_for(self):
        terminal = self.watch()
        terminal.until('proved')
        self.wait_for(self.picture, '</svg>')
        os.rename(self.script, self.script + '~')
        terminal.until(r'f\.txt cannot be read: no such file or directory; it is looked for again')
        os.rename(self.script + '~', self.script)
        terminal.until('proved')

    def test_a_change_is_seen_soon(self):
        terminal = self.watch()
        terminal.until('proved')
        begun = time.monotonic()
        self.write(TRUE + '\n')
        terminal.until(r'^\d\d:\d\d:\d\d .*f\.txt')
        self.assertLess(time.monotonic() - begun, 60)

    def test_another_picture(self):
        path = self.picture.replace('f.svg', 'other.svg')
        self.watch('-o', path)
        self.wait_for(path, '</svg>')
        self.assertFalse(os.path.exists(self.picture))

    def test_a_picture_is_not_written_over_its_script(self):
        for words in (('-o', self.script), ('-o', os.path.join(os.path.dirname(self.script), '.', 'f.txt'))):
            with Terminal('watch', self.script, *words) as terminal:
                terminal.until('would be written over')
                self.assertEqual(terminal.status(), 64)
