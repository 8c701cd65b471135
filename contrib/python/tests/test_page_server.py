"""The page's server: what it refuses, what it ends, and what its answers rest on."""
import http.client
import json
import os
import stat
import tempfile
import threading
import time
import unittest
import urllib.error
import urllib.request
from fractions import Fraction

from bukshena import evaluate
from bukshena.faults import TOO_LATE, Fault
from bukshena.page import change, sketch
from bukshena.page.programs import Programs
from bukshena.page.server import CLOSED_SECONDS, SILENT_SECONDS, UNOPENED_SECONDS, Page, Server
from tests.terminal import Terminal

SCRIPT = 'point A 1 2\npoint B 3 1\njoin l A B\non P l 2\nclaim on P l\n'


class Served(unittest.TestCase):
    def setUp(self):
        self.server = Server(Page(SCRIPT, seconds=300))
        threading.Thread(target=self.server.serve_forever, daemon=True).start()
        self.secret = self.server.page.secret

    def tearDown(self):
        self.server.shutdown()
        self.server.server_close()

    def request(self, method, path, body=None, **headers):
        connection = http.client.HTTPConnection('127.0.0.1', self.server.server_port, timeout=300)
        try:
            connection.putrequest(method, path, skip_host=True, skip_accept_encoding=True)
            given = {'Host': f'127.0.0.1:{self.server.server_port}', **headers}
            if method == 'POST':
                given = {'Origin': self.server.address, 'Content-Length': str(len(body or b'')), **given}
            for name, value in given.items():
                if value is not None:
                    connection.putheader(name.replace('_', '-'), value)
            connection.endheaders()
            if body:
                try:
                    connection.send(body)
                except (BrokenPipeError, ConnectionResetError):
                    pass
            response = connection.getresponse()
            return response.status, response.read()
        finally:
            connection.close()

    def ask(self, question, **asked):
        status, body = self.request('POST', f'/{self.secret}/{question}', json.dumps({'page': 'one', **asked}).encode())
        return status, json.loads(body)

    def test_what_is_refused(self):
        inside = f'/{self.secret}/'
        here = inside + 'here'
        cases = [
            ('GET', inside, None, {}, 200), ('GET', inside + 'main.js', None, {}, 200), ('POST', here, b'{}', {}, 200),
            ('GET', '/', None, {}, 403), ('GET', '/wrong/', None, {}, 403), ('POST', '/wrong/here', b'{}', {}, 403),
            ('GET', inside, None, {'Host': 'example.org'}, 403), ('GET', inside, None, {'Host': None}, 403),
            ('POST', here, b'{}', {'Origin': 'http://example.org'}, 403), ('POST', here, b'{}', {'Origin': None}, 403),
            ('POST', here, b'{}', {'Origin': 'null'}, 403), ('POST', here, b' ' * 2**21, {}, 413),
            ('POST', here, b'', {'Content-Length': None}, 411), ('POST', here, b'{}', {'Content-Length': '-2'}, 411),
            ('POST', here, b'[', {}, 400), ('POST', here, b'[]', {}, 400), ('POST', inside + 'look', b'{}', {}, 400),
            ('POST', inside + 'nothing', b'{}', {}, 404), ('GET', inside + 'server.py', None, {}, 404),
            ('GET', inside + '../server.py', None, {}, 404), ('GET', '/open/wrong', None, {}, 403),
        ]
        for method, path, body, headers, status in cases:
            with self.subTest(path=path.replace(self.secret, 'SECRET'), headers=headers, status=status):
                self.assertEqual(self.request(method, path, body, **headers)[0], status)

    def test_a_ticket_opens_once(self):
        path = f'/open/{self.server.page.ticket}'
        self.assertEqual([self.request('GET', path)[0] for _ in range(2)], [303, 403])

    def test_a_sketch_and_its_ledger(self):
        status, told = self.ask('look', script=SCRIPT + 'point A 1\n')
        self.assertEqual((status, told['lines'][-1]['refused'], told['elements'][3]['place']), (200, 'arity', [4, 3, 2]))
        _, judged = self.ask('judge', script=SCRIPT)
        self.assertEqual([(entry['text'], entry['claimed']) for entry in judged['entries']], [('proved on P l', True), ('proved collinear A B P', False)])
        _, moved = self.ask('move', id=told['id'], name='P', place=[9, 2, 4])
        self.assertEqual(moved['nearest'], [3])
        self.assertEqual(self.ask('move', id='gone', name='P', place=[9, 2, 4])[0], 410)
        self.assertEqual(self.ask('move', id=told['id'], name='P', place=[9, 2, 0])[0], 400)

    def test_pictures(self):
        """The ledger is asked for them, so what is proved stands in them."""
        for form, pattern in (('svg', r'(?s)^<svg .*<title>.*proved.*</svg>$'), ('tikz', r'(?s)\\begin\{tikzpicture\}.*\\end\{tikzpicture\}')):
            status, told = self.ask('picture', script=SCRIPT, form=form, ledger=True)
            self.assertEqual(status, 200, told)
            self.assertRegex(told['text'].strip(), pattern)

    def test_a_certificate_is_made_and_checked(self):
        _, made = self.ask('certify', script=SCRIPT, statement='on P l')
        self.assertEqual(self.ask('check', certificate=made['certificate']), (200, {'answer': 'valid proved'}))


class Slow(unittest.TestCase):
    """With a program that never answers."""

    def setUp(self):
        handle, self.path = tempfile.mkstemp()
        os.write(handle, b'#!/bin/sh\nexec sleep 600\n')
        os.close(handle)
        os.chmod(self.path, stat.S_IRWXU)
        self.before = os.environ.get('BUKSHENA_PROGRAM')
        os.environ['BUKSHENA_PROGRAM'] = self.path

    def tearDown(self):
        if self.before is None:
            del os.environ['BUKSHENA_PROGRAM']
        else:
            os.environ['BUKSHENA_PROGRAM'] = self.before
        os.remove(self.path)

    def judging(self, page, owner, outcomes):
        """A thread in which a page of this name asks; how that ends is put to the outcomes."""
        def judge():
            try:
                page.ask_judge({'script': '', 'page': owner})
            except Exception as error:
                outcomes.append(type(error).__name__)
        thread = threading.Thread(target=judge)
        thread.start()
        return thread

    def until(self, is_so):
        limit = time.monotonic() + 300
        while not is_so():
            self.assertLess(time.monotonic(), limit)
            time.sleep(0.01)

    def test_at_most_eight_programs_at_once(self):
        page, outcomes = Page(seconds=600), []
        threads = [self.judging(page, str(number), outcomes) for number in range(8)]
        self.until(lambda: len(page.programs.running) == 8)
        self.judging(page, 'one more', outcomes).join()
        self.assertEqual(outcomes, ['TooMany'])
        self.assertEqual(len(page.programs.running), 8)
        page.programs.end_all()
        for thread in threads:
            thread.join()
        self.assertEqual(outcomes, ['TooMany'] + 8 * ['Fault'])
        self.assertFalse(page.programs.running)

    def test_a_program_has_twenty_seconds(self):
        self.assertEqual(Page().programs.seconds, 20)
        page = Page(seconds=0.3)
        with self.assertRaises(Fault) as raised:
            page.ask_judge({'script': '', 'page': 'one'})
        self.assertEqual(raised.exception.status, TOO_LATE)
        self.assertFalse(page.programs.running)

    def test_a_page_that_asks_again_ends_its_program(self):
        page, outcomes = Page(seconds=600), []
        first = self.judging(page, 'one', outcomes)
        self.until(lambda: page.programs.running)
        second = self.judging(page, 'one', outcomes)
        first.join()
        self.assertEqual(outcomes, ['Superseded'])
        page.programs.end_all()
        second.join()
        self.assertEqual(outcomes, ['Superseded', 'Fault'])


class Ends(unittest.TestCase):
    def test_when_the_server_ends(self):
        self.assertEqual(CLOSED_SECONDS, 300)
        page, now = Page(), time.monotonic()
        self.assertFalse(page.is_over(now + UNOPENED_SECONDS - 5))
        page.empty_since = now
        self.assertTrue(page.is_over(now + UNOPENED_SECONDS + 5))
        page.hear('one')
        heard = page.heard['one']
        self.assertFalse(page.is_over(heard + SILENT_SECONDS - 5))
        page.forget('one')
        self.assertFalse(page.is_over(page.empty_since + CLOSED_SECONDS - 5))
        self.assertTrue(page.is_over(page.empty_since + CLOSED_SECONDS + 5))

    def test_it_ends_by_itself_once_its_last_page_is_closed(self):
        server = Server(Page())
        server.page.hear('one')
        thread = threading.Thread(target=server.serve_forever, daemon=True)
        thread.start()
        server.page.forget('one')
        server.page.empty_since -= CLOSED_SECONDS + 1
        thread.join(300)
        self.assertFalse(thread.is_alive())
        server.server_close()

    def test_ctrl_c_ends_it(self):
        with Terminal('draw', '--no-browser') as terminal:
            address = terminal.until(r'^http://127\.0\.0\.1:\d+/\S+/$').strip()
            with urllib.request.urlopen(address, timeout=300) as answer:
                self.assertIn(b'<!DOCTYPE html>', answer.read())
            terminal.type('\x03')
            self.assertEqual(terminal.status(), 0)
        with self.assertRaises(urllib.error.URLError):
            urllib.request.urlopen(address, timeout=300)


class Changes(unittest.TestCase):
    def look(self, text):
        return sketch.look_at(Programs(), text)

    def test_undo_and_redo_agree_with_the_program(self):
        programs, text, taken = Programs(), SCRIPT + 'drag P 5\nscreen\n', []
        for _ in range(6):
            shorter, line, _ = change.undo(programs, text, None)
            taken.append((text, line))
            text = shorter
        self.assertEqual(text, 'screen\n')
        for longer, line in reversed(taken):
            text, _ = change.redo(programs, text, line, None)
            self.assertEqual(text, longer)
        self.assertEqual(change.undo(programs, 'point A 1 2\nundo\nredo\n', None)[0], 'point A 1 2\nundo\nredo\nundo\n')

    def test_positions_and_ten_times(self):
        text = SCRIPT + 'drag B 5 2\n'
        self.assertEqual(change.positions(self.look(text), text), SCRIPT.replace('B 3 1', 'B 5 2'))
        self.assertEqual(change.larger(self.look(SCRIPT), SCRIPT), ('point A 10 20\npoint B 30 10\njoin l A B\non P l 20\nclaim on P l\n', []))
        with self.assertRaises(change.NotPossible):
            change.larger(self.look('point A 500 2\n'), 'point A 500 2\n')

    def test_values_bring_an_element_to_its_place(self):
        look = self.look('point A 1 2\npoint B 7 3\njoin l A B\non P l 4\nalong Q A B 3\nthrough m B 2\npencil n l m 5\n')
        found = evaluate.triples(look.sketch)
        for element, shown in zip(look.sketch.live(), look.shown):
            self.assertFalse(any(evaluate.cross(found[element.number], shown.numbers)))
            if element.word in ('on', 'along'):
                of = [found[k] for k in element.below]
                values = evaluate.values_at(element.word, element.kind, of, found[element.number])
                self.assertEqual(values, tuple(map(Fraction, element.values)))


if __name__ == '__main__':
    unittest.main()
