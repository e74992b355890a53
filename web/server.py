"""The server: the page's files, and the worlds behind it, to whoever has the token, on this machine alone."""

import json
import secrets
from hmac import compare_digest
from http import HTTPStatus
from http.server import BaseHTTPRequestHandler, ThreadingHTTPServer
from pathlib import Path
from threading import BoundedSemaphore, Thread
from time import monotonic
from traceback import print_exc

from pictures import STYLE
from run import Fault, TooMuch
from worlds import BadRequest, NoWorld, TooManyWorlds, Worlds

HERE = Path(__file__).resolve().parent

#: The greatest body of a request, in bytes: a schedule of the greatest size as JSON.
MOST_BODY = 1 << 20
#: How much of a body that is refused is read, so that who sends it reads the answer.
MOST_SKIPPED = 1 << 25
#: How many requests are answered at once. Others wait.
MOST_REQUESTS = 16
#: How long a connection may be silent, in seconds.
MOST_SILENCE = 15

_KINDS = {".html": "text/html; charset=utf-8", ".css": "text/css; charset=utf-8", ".js": "text/javascript; charset=utf-8", ".svg": "image/svg+xml"}

#: The files that are given out, by the path behind the token.
FILES = {"": HERE / "index.html", **{path.name: path for path in HERE.iterdir() if path.suffix in (".css", ".js", ".svg")}}

#: The style of pictures, which is no file: the drawing code has it.
PICTURE_STYLE = "picture.css"

_HEADERS = {
    "Content-Security-Policy": "default-src 'none'; script-src 'self'; style-src 'self'; connect-src 'self'; img-src 'self'; "
    "base-uri 'none'; form-action 'none'; frame-ancestors 'none'",
    "X-Content-Type-Options": "nosniff",
    "Referrer-Policy": "no-referrer",
    "Cross-Origin-Opener-Policy": "same-origin",
    "Cross-Origin-Resource-Policy": "same-origin",
    "Cache-Control": "no-store",
}


class Refusal(Exception):
    """A request that isn't answered, with its status."""

    def __init__(self, status, why):
        super().__init__(why)
        self.status = status


class Server:
    """A server over an engine. It is closed at the end of a `with`."""

    def __init__(self, engine, port=0):
        self.worlds = Worlds(engine)
        self.token = secrets.token_urlsafe(24)
        self._listener = _Listener(("127.0.0.1", port), _Handler)
        self._listener.server = self

    @property
    def port(self):
        """The port that it listens on."""
        return self._listener.server_address[1]

    @property
    def origin(self):
        """The origin of the page."""
        return f"http://127.0.0.1:{self.port}"

    @property
    def address(self):
        """The address of the page, with the token."""
        return f"{self.origin}/{self.token}/"

    def serve(self):
        """Answers requests until `stop`."""
        self._listener.serve_forever(poll_interval=0.2)

    def stop(self):
        """Ends `serve`, which may be in this very thread, as in a handler of signals."""
        Thread(target=self._listener.shutdown, daemon=True).start()

    def __enter__(self):
        return self

    def __exit__(self, *_):
        self._listener.server_close()
        self.worlds.close_all()


class _Listener(ThreadingHTTPServer):
    daemon_threads = True
    request_queue_size = 64

    def __init__(self, *words):
        super().__init__(*words)
        self.room = BoundedSemaphore(MOST_REQUESTS)

    def handle_error(self, request, client_address):
        """A connection that breaks off is no fault of the server."""


class _Handler(BaseHTTPRequestHandler):
    server_version = "polydb"
    sys_version = ""
    timeout = MOST_SILENCE
    has_read = False

    def do_GET(self):
        """A file of the page, or the stories."""
        self._answer(lambda owner, path: self._get(owner, path))

    def do_POST(self):
        """A call on the worlds."""
        self._answer(lambda owner, path: self._post(owner, path))

    def log_message(self, *_):
        """Nothing is logged: the address has the token."""

    def _answer(self, answer):
        owner = self.server.server
        with self.server.room:
            try:
                status, kind, body = answer(owner, self._checked_path(owner))
            except Refusal as refusal:
                status, kind, body = refusal.status, "application/json", _json({"error": str(refusal)})
                self._skip_body()
            except Exception:  # A fault of the server: it is shown in the terminal, and the page goes on.
                print_exc()
                status, kind, body = HTTPStatus.INTERNAL_SERVER_ERROR, "application/json", _json({"error": "the server has a fault: see its terminal"})
            self._send(status, kind, body)

    # A body that isn't read would break the connection off before the answer is there. Of one that is too large this much is read, and thrown away.
    def _skip_body(self):
        length = self.headers.get("Content-Length", "")
        left = min(int(length), MOST_SKIPPED) if _is_length(length) and not self.has_read else 0
        until = monotonic() + MOST_SILENCE
        while left > 0 and monotonic() < until:
            piece = self.rfile.read1(min(left, 1 << 16))
            left = left - len(piece) if piece else 0

    # The path behind the token, of a request that the page itself, or the person at the address bar, has made.
    def _checked_path(self, owner):
        if self.headers.get("Host") != f"127.0.0.1:{owner.port}":
            raise Refusal(HTTPStatus.FORBIDDEN, "another host")
        origin = self.headers.get("Origin")
        if origin is not None and origin != owner.origin:
            raise Refusal(HTTPStatus.FORBIDDEN, "another origin")
        if self.headers.get("Sec-Fetch-Site", "none") not in ("none", "same-origin"):
            raise Refusal(HTTPStatus.FORBIDDEN, "another origin")
        token, _, path = self.path.removeprefix("/").partition("/")
        if not compare_digest(token.encode(), owner.token.encode()):
            raise Refusal(HTTPStatus.NOT_FOUND, "no such page")
        return path

    def _get(self, owner, path):
        if path == "stories":
            return HTTPStatus.OK, "application/json", _json(owner.worlds.stories())
        if path == PICTURE_STYLE:
            return HTTPStatus.OK, _KINDS[".css"], STYLE.encode()
        file = FILES.get(path)
        if file is None:
            raise Refusal(HTTPStatus.NOT_FOUND, "no such page")
        return HTTPStatus.OK, _KINDS[file.suffix], file.read_bytes()

    def _post(self, owner, path):
        call = self._read_call()
        try:
            return HTTPStatus.OK, "application/json", _json(owner.worlds.answer(path, call))
        except Fault as fault:
            said = {"error": str(fault), "line": fault.line, "cause": fault.cause, "column": fault.column}
            return HTTPStatus.UNPROCESSABLE_ENTITY, "application/json", _json(said)
        except TooMuch as error:
            raise Refusal(HTTPStatus.REQUEST_ENTITY_TOO_LARGE, str(error)) from error
        except TooManyWorlds as error:
            raise Refusal(HTTPStatus.TOO_MANY_REQUESTS, str(error)) from error
        except NoWorld as error:
            raise Refusal(HTTPStatus.NOT_FOUND, str(error)) from error
        except BadRequest as error:
            raise Refusal(HTTPStatus.BAD_REQUEST, str(error)) from error

    def _read_call(self):
        if self.headers.get_content_type() != "application/json":
            raise Refusal(HTTPStatus.UNSUPPORTED_MEDIA_TYPE, "JSON is needed")
        length = self.headers.get("Content-Length", "")
        if not _is_length(length):
            raise Refusal(HTTPStatus.LENGTH_REQUIRED, "a length is needed")
        if int(length) > MOST_BODY:
            raise Refusal(HTTPStatus.REQUEST_ENTITY_TOO_LARGE, f"a request may have {MOST_BODY} bytes")
        self.has_read = True
        try:
            return json.loads(self.rfile.read(int(length)))
        except (ValueError, RecursionError) as error:
            raise Refusal(HTTPStatus.BAD_REQUEST, "that is no JSON") from error

    def _send(self, status, kind, body):
        self.send_response(status)
        for name, value in _HEADERS.items():
            self.send_header(name, value)
        self.send_header("Content-Type", kind)
        self.send_header("Content-Length", str(len(body)))
        self.end_headers()
        self.wfile.write(body)


def _is_length(text):
    return text.isascii() and text.isdigit() and len(text) <= 12


def _json(value):
    return json.dumps(value, separators=(",", ":")).encode()
