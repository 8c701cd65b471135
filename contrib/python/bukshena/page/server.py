"""The page's server, on 127.0.0.1 alone: it hands out the page and asks the program.

Each address begins with a secret that is new for each start. A request is refused with another host, origin or secret,
or with a body over a megabyte. No request names a file or writes one. The server ends some minutes after the last page
was closed."""
import functools
import hashlib
import hmac
import json
import os
import secrets
import threading
import time
from collections import OrderedDict
from fractions import Fraction
from http.server import BaseHTTPRequestHandler, ThreadingHTTPServer

from bukshena import answers, evaluate
from bukshena.evaluate import HOW
from bukshena.faults import Fault
from bukshena.page import change, sketch
from bukshena.page.programs import SECONDS, TOGETHER, Programs, Superseded, TooMany

HOST = '127.0.0.1'
BODY_BYTES = 2**20
LOOKS_KEPT = 64
CLOSED_SECONDS = 300
UNOPENED_SECONDS = 3600
# a page that is open is heard at least once a minute
SILENT_SECONDS = 180
FOLDER = os.path.dirname(os.path.realpath(__file__))
TYPES = {'.html': 'text/html; charset=utf-8', '.css': 'text/css; charset=utf-8', '.js': 'text/javascript; charset=utf-8',
         '.svg': 'image/svg+xml', '.json': 'application/json'}
HEADERS = {
    'Content-Security-Policy': "default-src 'none'; script-src 'self'; style-src 'self'; img-src 'self' data: blob:; "
                               "connect-src 'self'; base-uri 'none'; form-action 'none'; frame-ancestors 'none'",
    'X-Content-Type-Options': 'nosniff',
    'X-Frame-Options': 'DENY',
    'Referrer-Policy': 'no-referrer',
    'Cross-Origin-Resource-Policy': 'same-origin',
    'Cache-Control': 'no-store',
}


class Refused(Exception):
    """A request that is not answered, with the status of HTTP and the key of the text that says why."""

    def __init__(self, status, key):
        super().__init__(key)
        self.status, self.key = status, key


@functools.lru_cache(maxsize=None)
def texts():
    """All texts of the page and of its server, by their keys."""
    with open(os.path.join(FOLDER, 'texts.json'), encoding='utf-8') as file:
        return json.load(file)


@functools.lru_cache(maxsize=None)
def library():
    """The tools that the page offers besides those of the script: of each its name, kinds and lines."""
    with open(os.path.join(FOLDER, 'tools.json'), encoding='utf-8') as file:
        return json.load(file)


class Page:
    """What the server knows: its secret, the pages that are open, the sketches that were looked at last.

    `script` is the text that a page begins with, `name` the name of its file."""

    def __init__(self, script='', name='', seconds=SECONDS, together=TOGETHER):
        self.secret, self.ticket = secrets.token_urlsafe(24), secrets.token_urlsafe(24)
        self.script, self.name = script, name
        self.programs = Programs(together, seconds)
        self.lock = threading.Lock()
        self.looks = OrderedDict()
        self.heard = {}
        self.was_open = False
        self.empty_since = time.monotonic()

    # ---- pages that are open

    def hear(self, page):
        with self.lock:
            self.heard[page], self.was_open = time.monotonic(), True

    def forget(self, page):
        with self.lock:
            if self.heard.pop(page, None) and not self.heard:
                self.empty_since = time.monotonic()

    def is_over(self, now):
        """Whether the last page has been closed for so long that the server ends."""
        with self.lock:
            for page in [page for page, then in self.heard.items() if now - then > SILENT_SECONDS]:
                self.empty_since = max(self.empty_since, self.heard.pop(page))
            if self.heard:
                return False
            return now - self.empty_since > (CLOSED_SECONDS if self.was_open else UNOPENED_SECONDS)

    def take_ticket(self, ticket):
        """Whether this is the ticket, which opens the page once."""
        with self.lock:
            is_right = self.ticket is not None and same(ticket, self.ticket)
            if is_right:
                self.ticket = None
            return is_right

    # ---- sketches

    def keep(self, text, look):
        name = hashlib.sha256(text.encode('utf-8', 'surrogatepass')).hexdigest()[:24]
        with self.lock:
            self.looks[name] = (look, evaluate.triples(look.sketch))
            self.looks.move_to_end(name)
            while len(self.looks) > LOOKS_KEPT:
                self.looks.popitem(last=False)
        return name

    def kept(self, name):
        with self.lock:
            found = self.looks.get(name)
        if found is None:
            raise Refused(410, 'sketch_gone')
        return found

    def told(self, text, look):
        return {**sketch.as_told(look, text), 'id': self.keep(text, look), 'script': text}

    # ---- what is asked

    def ask_look(self, asked):
        text = text_of(asked)
        return self.told(text, sketch.look_at(self.programs, text))

    def ask_judge(self, asked):
        return sketch.judge(self.programs, text_of(asked), owner=asked.get('page'))

    def ask_undo(self, asked):
        text, taken, look = change.undo(self.programs, text_of(asked), None)
        return {**self.told(text, look), 'taken': taken}

    def ask_redo(self, asked):
        text, look = change.redo(self.programs, text_of(asked), taken_of(asked), None)
        return self.told(text, look)

    def ask_larger(self, asked):
        text = text_of(asked)
        larger, rounded = change.larger(sketch.look_at(self.programs, text), text)
        return {**self.told(larger, sketch.look_at(self.programs, larger)), 'rounded': rounded}

    def ask_positions(self, asked):
        text = text_of(asked)
        tidy = change.positions(sketch.look_at(self.programs, text), text)
        return self.told(tidy, sketch.look_at(self.programs, tidy))

    def ask_move(self, asked):
        """Where the elements stand while one of them is dragged to a place."""
        look, known = self.kept(asked.get('id'))
        element = look.sketch.named(asked.get('name'))
        if element is None:
            raise Refused(400, 'bad_request')
        of = [known[number] for number in element.below] or [known[element.number]]
        values = evaluate.values_at(element.word, element.kind, of, place_of(asked), turning_of(asked))
        if not values:
            return {'places': {}, 'values': []}
        moved = evaluate.triples(look.sketch, {element.number: values}, known)
        return {
            'places': {look.sketch.elements[k].name: evaluate.as_floats(moved[k])
                       for k in evaluate.moved_by(look.sketch, element.number)},
            'values': [float(value) for value in values],
            'nearest': [evaluate.nearest(value) for value in values],
        }

    def ask_place(self, asked):
        """The whole numbers with which a new element is nearest to a place."""
        look, known = self.kept(asked.get('id'))
        word, names = asked.get('word'), asked.get('names', [])
        elements = [look.sketch.named(name) for name in names]
        if word not in HOW or None in elements:
            raise Refused(400, 'bad_request')
        kind = 'point' if word in ('point', 'on', 'along') else 'line'
        of = [known[element.number] for element in elements] or [None]
        values = evaluate.values_at(word, kind, of, place_of(asked), turning_of(asked))
        return {'nearest': None if values is None else [evaluate.nearest(value) for value in values]}

    def ask_certify(self, asked):
        statement = asked.get('statement')
        if not isinstance(statement, str) or '\n' in statement:
            raise Refused(400, 'bad_request')
        given = sketch.given_lines(text_of(asked))
        quick = [line for line in given if not sketch.is_slow(line)]
        texts_sent = [line.text for line in quick] + [b'certify ' + statement.encode('ascii', 'replace')]
        reply = self.programs.run(['run'], b'\n'.join(texts_sent) + b'\n').decode('ascii').splitlines()
        return {'certificate': reply[-1] if reply else ''}

    def ask_check(self, asked):
        certificate = asked.get('certificate')
        if not isinstance(certificate, str) or '\n' in certificate:
            raise Refused(400, 'bad_request')
        reply = self.programs.run(['check'], certificate.encode('utf-8', 'replace') + b'\n')
        return {'answer': reply.decode('ascii').strip()}

    def ask_picture(self, asked):
        return {'text': picture_of(self.programs, text_of(asked), asked)}

    def ask_here(self, asked):
        return {}

    def ask_bye(self, asked):
        self.forget(str(asked.get('page')))
        return {}


QUESTIONS = {name[len('ask_'):]: name for name in vars(Page) if name.startswith('ask_')}


def picture_of(programs, text, asked):
    """The figure as SVG or TikZ, by the picture maker of this package."""
    try:
        from bukshena import picture
    except ImportError:
        raise Refused(501, 'no_picture_maker') from None
    given = [line for line in sketch.given_lines(text) if not sketch.is_slow(line)]
    commands = [b'screen', b'ledger'] if asked.get('ledger') else [b'screen']
    script = b'\n'.join([line.text for line in given] + commands) + b'\n'
    reply = programs.run(['run'], script)
    draw = picture.draw_tikz if asked.get('form') == 'tikz' else picture.draw_svg
    return draw(script.decode('ascii', 'replace'), reply.decode('ascii'), None)


def same(a, b):
    return hmac.compare_digest(a.encode('utf-8', 'replace'), b.encode('utf-8', 'replace'))


def text_of(asked):
    if not isinstance(asked.get('script'), str):
        raise Refused(400, 'bad_request')
    return asked['script']


def taken_of(asked):
    taken = asked.get('taken')
    if not (isinstance(taken, dict) and isinstance(taken.get('line'), str) and isinstance(taken.get('at'), int)):
        raise Refused(400, 'bad_request')
    return taken


def triple_of(numbers):
    """A place: three whole numbers, the last of which is not 0."""
    if not (isinstance(numbers, list) and len(numbers) == 3 and all(isinstance(number, int) for number in numbers)
            and numbers[2] != 0 and all(abs(number) < 2**60 for number in numbers)):
        raise Refused(400, 'bad_request')
    return (Fraction(numbers[0], numbers[2]), Fraction(numbers[1], numbers[2]), 1)


def place_of(asked):
    return triple_of(asked.get('place'))


def turning_of(asked):
    return triple_of(asked['turning']) if asked.get('turning') else None


# ---- requests

class Handler(BaseHTTPRequestHandler):
    protocol_version = 'HTTP/1.1'
    server_version, sys_version = 'bukshena', ''
    disable_nagle_algorithm = True
    wbufsize = 65536
    timeout = 120

    def log_message(self, *_):
        pass

    def do_GET(self):
        self.answer(self.get)

    def do_POST(self):
        self.answer(self.post)

    def answer(self, method):
        try:
            method()
        except Refused as why:
            self.refuse(why.status, why.key)
        except TooMany:
            self.refuse(503, 'too_many')
        except Superseded:
            self.refuse(409, 'superseded')
        except change.NotPossible as why:
            self.refuse(422, why.key, **why.filled)
        except Fault as fault:
            self.send_json(502, {'fault': 'program_fault', 'filled': {'sentence': fault.sentence[len('bukshena: '):]}})
        except (BrokenPipeError, ConnectionResetError):
            self.close_connection = True
        except Exception:
            self.refuse(500, 'own_fault')
            raise

    def check_origin(self):
        if self.headers.get('Host') != f'{HOST}:{self.server.server_port}':
            raise Refused(403, 'other_host')
        origin = self.headers.get('Origin')
        if (origin is not None or self.command == 'POST') and origin != self.server.address:
            raise Refused(403, 'other_origin')
        if self.headers.get('Sec-Fetch-Site', 'none') not in ('none', 'same-origin') and self.command == 'POST':
            raise Refused(403, 'other_origin')

    def path_inside(self):
        """What stands behind the secret in the path."""
        secret, _, rest = self.path.partition('?')[0][1:].partition('/')
        if not same(secret, self.server.page.secret):
            raise Refused(403, 'other_secret')
        return rest

    def get(self):
        self.check_origin()
        page = self.server.page
        if self.path.startswith('/open/') and page.take_ticket(self.path[len('/open/'):]):
            return self.send(303, 'text/plain', b'', {'Location': f'/{page.secret}/'})
        rest = self.path_inside()
        if rest == 'start.json':
            return self.send_json(200, {'texts': texts(), 'library': library(), 'script': page.script, 'name': page.name,
                                        'meanings': meanings(), 'seconds': page.programs.seconds})
        name = rest or 'page.html'
        if name not in files():
            raise Refused(404, 'no_such_page')
        with open(os.path.join(FOLDER, name), 'rb') as file:
            return self.send(200, TYPES[os.path.splitext(name)[1]], file.read())

    def post(self):
        try:
            self.check_origin()
            question = QUESTIONS.get(self.path_inside())
            body = self.body()
        except Refused:
            # the body is not read, so nothing can follow on this connection
            self.close_connection = True
            raise
        if question is None:
            raise Refused(404, 'no_such_page')
        asked = parsed(body)
        page = self.server.page
        if question != 'ask_bye':
            page.hear(str(asked.get('page')))
        self.send_json(200, getattr(page, question)(asked))

    def body(self):
        length = self.headers.get('Content-Length', '')
        if not length.isascii() or not length.isdigit() or self.headers.get('Transfer-Encoding'):
            raise Refused(411, 'no_length')
        if len(length) > 12 or int(length) > BODY_BYTES:
            raise Refused(413, 'too_large')
        return self.rfile.read(int(length))

    def refuse(self, status, key, **filled):
        self.send_json(status, {'fault': key, 'filled': filled})

    def send_json(self, status, value):
        self.send(status, TYPES['.json'], json.dumps(value).encode('ascii'))

    def send(self, status, kind, body, more=None):
        self.send_response(status)
        for name, value in {**HEADERS, **(more or {})}.items():
            self.send_header(name, value)
        self.send_header('Content-Type', kind)
        self.send_header('Content-Length', str(len(body)))
        if self.close_connection:
            self.send_header('Connection', 'close')
        self.end_headers()
        self.wfile.write(body)
        self.wfile.flush()


def parsed(body):
    try:
        asked = json.loads(body)
    except (ValueError, RecursionError):
        raise Refused(400, 'bad_request') from None
    if not isinstance(asked, dict):
        raise Refused(400, 'bad_request')
    return asked


@functools.lru_cache(maxsize=None)
def files():
    """The names of the files that are handed out."""
    return frozenset(name for name in os.listdir(FOLDER) if name.endswith(('.html', '.css', '.js', '.svg')))


@functools.lru_cache(maxsize=None)
def meanings():
    """What each refusal, verdict and state says and what to do about it, by its word."""
    words = ('proved', 'false', 'unsettled grid', 'unsettled height', 'inferred', 'null', 'far', 'long', 'ascii', 'command',
             'arity', 'shape', 'name', 'number', 'taken', 'unknown', 'kind', 'zero', 'full', 'tall', 'used', 'fixed', 'nothing',
             'repeat', 'great', 'unproved', 'view', 'degenerate')
    return {word: {'meaning': answers.meaning(word), 'advice': answers.advice(word)} for word in words}


class Server(ThreadingHTTPServer):
    """Answers for a page at `address`, each request in a thread of its own."""
    daemon_threads = True

    def __init__(self, page, port=0):
        super().__init__((HOST, port), Handler)
        self.page = page

    @property
    def address(self):
        return f'http://{HOST}:{self.server_port}'

    @property
    def page_address(self):
        return f'{self.address}/{self.page.secret}/'

    def handle_error(self, request, client_address):
        """A connection that breaks is no news; other errors are answered, and told by `Handler.answer`."""
        if os.environ.get('BUKSHENA_PAGE_ERRORS'):
            super().handle_error(request, client_address)

    def service_actions(self):
        if self.page.is_over(time.monotonic()):
            threading.Thread(target=self.shutdown, daemon=True).start()

    def server_close(self):
        self.page.programs.end_all()
        super().server_close()
