"""bukshena draw: the page in the browser. Draw with the mouse, see the theorems."""
import threading
import webbrowser

from bukshena import files
from bukshena.command import Words
from bukshena.faults import BAD_DATA, MISSING, Fault
from bukshena.process import find_program


def main(words):
    from bukshena.page.server import BODY_BYTES, Page, Server
    parser = Words('draw', description='Opens a page in the browser: draw with the mouse, see the theorems.')
    parser.add_argument('file', nargs='?', help='the script to begin with')
    parser.add_argument('--no-browser', action='store_true', help='print the address, and open no browser')
    said = parser.parse_args(words)
    find_program()
    script = files.read(said.file) if said.file else b''
    if len(script) > BODY_BYTES // 2:
        raise Fault(BAD_DATA, f'{files.name_of(said.file)} has more than {BODY_BYTES // 2:,} bytes; `bukshena run` takes it')
    try:
        server = Server(Page(text_of(script), said.file or ''))
    except OSError as error:
        raise Fault(MISSING, f'no port of 127.0.0.1 can be opened: {files.cause(error)}') from None
    print(server.page_address, flush=True)
    if not said.no_browser:
        # the address that the browser is handed opens the page once, since others may read the words of a process
        once = f'{server.address}/open/{server.page.ticket}'
        threading.Thread(target=webbrowser.open, args=(once,), daemon=True).start()
    try:
        server.serve_forever()
    except KeyboardInterrupt:
        pass
    finally:
        server.server_close()
    return 0


def text_of(data):
    """A script as the page's text. Bytes that are no UTF-8 are refused by the program in either spelling."""
    try:
        return data.decode('utf-8')
    except UnicodeDecodeError:
        return data.decode('latin-1')
