import os
import re
import unittest
from unittest import mock

from bukshena import answers
from bukshena.script import COMMANDS, RULES, STATEMENTS, TOOL_WORDS

TOP = os.path.dirname(os.path.dirname(os.path.dirname(os.path.dirname(os.path.abspath(__file__)))))


def refusals():
    """The words of the program's refusals, from its source."""
    with open(os.path.join(TOP, 'crates/geo_session/src/texts.rt'), encoding='utf-8') as file:
        return re.findall(r'Refusal::\w+ => b"(\w+)"', file.read())


class Answers(unittest.TestCase):
    def test_each_refusal_has_a_meaning_and_an_advice(self):
        self.assertGreater(len(refusals()), 15)
        for word in refusals():
            for text in (answers.meaning(word), answers.advice(word)):
                self.assertRegex(text, r'\A\S.*[.?!]\Z', word)

    def test_verdicts_and_states(self):
        for word in ('proved', 'false', 'unsettled grid', 'unsettled height', 'inferred', 'proved zero', 'null', 'far'):
            self.assertTrue(answers.meaning(word) and answers.advice(word), word)
        self.assertIn('fix points', answers.advice('unsettled grid').lower())

    def test_advice_of_an_entry(self):
        entry = mock.Mock(verdict='unsettled grid')
        self.assertEqual(answers.advice(entry), answers.advice('unsettled grid'))

    def test_one_line_without_marks(self):
        for word in (*refusals(), 'proved', 'false', 'unsettled grid'):
            for text in (answers.meaning(word), answers.advice(word)):
                self.assertNotRegex(text, r'\n|\]\(|\*\*|Usual cause|What to do', word)

    def test_each_word_has_help(self):
        known = {*COMMANDS, *STATEMENTS, *RULES, *TOOL_WORDS, *refusals(), 'proved', 'false', 'unsettled', 'far'}
        self.assertEqual(known - set(answers.words()), set())
        for word in answers.words():
            self.assertTrue(answers.help_for(word), word)

    def test_help_on_a_command(self):
        self.assertEqual(answers.help_for('meet').split('\n'),
                         ['meet N l m', '  The point on l and m.', '  Parameters: none', '  For example: meet X l m'])

    def test_width(self):
        for word in answers.words():
            for line in answers.help_for(word, 60).split('\n'):
                self.assertLessEqual(len(line), 60, f'{word}: {line}')

    def test_no_help_on_what_is_no_word(self):
        for word in ('nowhere', '', 'P', '`'):
            self.assertEqual((answers.meaning(word), answers.advice(word), answers.help_for(word)), ('', '', ''))

    def test_without_the_pages_texts_are_empty(self):
        answers.pieces.cache_clear()
        try:
            with mock.patch.object(answers, 'PLACES', ('nowhere',)):
                self.assertEqual((answers.meaning('taken'), answers.help_for('join'), answers.words()), ('', '', []))
        finally:
            answers.pieces.cache_clear()
