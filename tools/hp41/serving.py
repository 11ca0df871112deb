"""The server of the page. It listens on 127.0.0.1 only, and serves one browser: the first one that opens its address with the token.

A refused request gets an answer with the reason. The bench is used by one request at a time."""
import hmac
import json
import os
import secrets
import select
import socket
import sys
import threading
import time
from http.server import BaseHTTPRequestHandler, ThreadingHTTPServer
from typing import Any, Callable, Optional, Sequence, Union
from urllib.parse import parse_qs

from . import TOOLS
from .decks import NO_ANSWER, Failure

FOLDER = os.path.join(TOOLS, "page")

# The files that are served from the folder.
FILES = {"": ("calculator.html", "text/html; charset=utf-8"), "calculator.css": ("calculator.css", "text/css; charset=utf-8"),
         **{name: (name, "text/javascript; charset=utf-8")
            for name in ("elements.js", "display.js", "keys.js", "panels.js", "memory.js", "times.js", "lessons.js", "files.js",
                         "settings.js", "printing.js", "calculator.js")}}

# The paths after the token that requests name, except for the files.
PATHS = {"GET": "deck, events, recorded, state or a file such as calculator.js", "POST": "do, export or import"}

LONGEST_BODY, LONGEST_PATH = 8_388_608, 2000
MOST_CONNECTIONS = 48
# A browser has at most six connections at a time, and each open page holds one.
MOST_PAGES = 4

# Times in seconds: for a request to arrive completely, between two events, for which a page may be away (for example while another
# address is open in its tab), how long before the end of this time a warning is printed, and until the first page must be opened.
SLOWEST, BEAT, AWAY, WARNING, FIRST = 10, 0.5, 120, 60, 600
# How long the rest of a refused request is read and ignored.
MOMENT = 2

HEADERS = {
    "Content-Security-Policy": "default-src 'none'; script-src 'self'; style-src 'self'; img-src 'self' data:; connect-src 'self'; "
                               "base-uri 'none'; form-action 'none'; frame-ancestors 'none'",
    "X-Content-Type-Options": "nosniff",
    "Referrer-Policy": "no-referrer",
    "Cache-Control": "no-store",
    "Cross-Origin-Resource-Policy": "same-origin",
    "Cross-Origin-Opener-Policy": "same-origin",
    # No request can arrive on a connection that is being closed.
    "Connection": "close",
}


# A connection, and the functions that answer requests, by name.
Request = Union[socket.socket, tuple[bytes, socket.socket]]
Answers = dict[str, Callable[..., Any]]


class Refusal(Exception):
    """The reason why a request is refused, and its HTTP status."""

    def __init__(self, status: int, why: str) -> None:
        """Takes the HTTP status and the message."""
        super().__init__(why)
        self.status = status


def quoted(values: Optional[Sequence[str]]) -> str:
    """Returns the values of a header for a message, each in quotes and at most 100 characters of it."""
    return ", ".join(f"'{value[:100]}'" for value in values) if values else "nothing"


class Server(ThreadingHTTPServer):
    """The server, its token and cookie, and the number of open pages."""
    daemon_threads = True
    request_queue_size = 64

    def __init__(self, port: int, answers: Answers) -> None:
        """`answers` are the functions that answer requests, by name."""
        super().__init__(("127.0.0.1", port), Handler)
        self.answers = answers
        self.token = secrets.token_urlsafe(24)
        self.cookie: Optional[str] = None
        self.port = self.server_address[1]
        # The connections: for each when it began, and whether its request has arrived.
        self.connections: dict[Request, tuple[float, bool]] = {}
        # The number of open pages, for how long there may be none, and until when.
        self.pages, self.patience, self.until = 0, FIRST, time.monotonic() + FIRST
        self.lock, self.closing, self.warned = threading.RLock(), False, False

    def address(self) -> str:
        """Returns the address of the page."""
        return f"http://127.0.0.1:{self.port}/{self.token}/"

    def process_request(self, request: Request, client_address: Any) -> None:
        """Handles a connection. If there are too many, the oldest one whose request has not arrived is closed, so that connections that
        are idle cannot keep others away."""
        with self.lock:
            waiting = [other for other, (_, has_arrived) in self.connections.items() if not has_arrived]
            is_full = len(self.connections) >= MOST_CONNECTIONS
            if is_full and waiting:
                self.drop(waiting[0])
            is_taken = not is_full or bool(waiting)
            if is_taken:
                self.connections[request] = (time.monotonic(), False)
        if is_taken:
            super().process_request(request, client_address)
        else:
            self.shutdown_request(request)

    def drop(self, request: Request) -> None:
        """Closes a connection; its thread then ends."""
        self.connections.pop(request, None)
        try:
            if isinstance(request, socket.socket):
                request.shutdown(socket.SHUT_RDWR)
        except OSError:
            pass

    def arrived(self, request: Request) -> bool:
        """Notes that the request of a connection has arrived. Returns whether the connection is still there."""
        with self.lock:
            if request not in self.connections:
                return False
            self.connections[request] = (self.connections[request][0], True)
            return True

    def process_request_thread(self, request: Request, client_address: Any) -> None:
        """Handles a connection in its thread, and forgets it afterwards."""
        try:
            super().process_request_thread(request, client_address)
        finally:
            with self.lock:
                self.connections.pop(request, None)

    def handle_error(self, request: Request, client_address: Any) -> None:
        """Ignores a broken connection."""

    def service_actions(self) -> None:
        """Closes connections whose request takes too long, and ends the server when no page has been open for some time."""
        now = time.monotonic()
        with self.lock:
            for request in [one for one, (begun, has_arrived) in self.connections.items() if not has_arrived and now > begun + SLOWEST]:
                self.drop(request)
            left = self.until - now if not self.pages else AWAY
            is_warned, self.warned = self.warned, left < WARNING
        if left < 0 and not self.closing:
            self.closing = True
            threading.Thread(target=self.shutdown, daemon=True).start()
        elif self.warned and not is_warned:
            self.warn(f"no page is open: the session ends in {WARNING} seconds; open {self.address()} to keep it")

    def warn(self, text: str) -> None:
        """Prints a warning, if standard error can be written."""
        try:
            print(f"calculator: {text}", file=sys.stderr, flush=True)
        except (OSError, ValueError):
            pass

    def open_page(self, count: int) -> None:
        """Counts a page that opens or closes."""
        with self.lock:
            if self.pages + count > MOST_PAGES:
                raise Refusal(409, f"{MOST_PAGES} pages of this calculator are open already: close one")
            self.pages += count
            self.patience, self.until = AWAY, time.monotonic() + AWAY

    def stay(self) -> None:
        """Notes that a page is there, or that it comes back."""
        with self.lock:
            self.until = time.monotonic() + self.patience

    def take_cookie(self, given: str) -> Optional[str]:
        """Returns the cookie for the first browser that opens the page. Other browsers are refused."""
        with self.lock:
            if self.cookie is None:
                self.cookie = secrets.token_urlsafe(24)
                return self.cookie
        if not hmac.compare_digest(given.encode(), self.cookie.encode()):
            raise Refusal(403, "this calculator is open in another browser: start tools/calculator again for a second one")
        return None


class Handler(BaseHTTPRequestHandler):
    """A connection."""
    server: Server
    protocol_version = "HTTP/1.1"
    server_version, sys_version = "bench", ""
    timeout = SLOWEST

    def log_message(self, *_: object) -> None:
        """Logs nothing."""

    def do_GET(self) -> None:
        """Answers a GET request."""
        self.answer(self.get)

    def do_POST(self) -> None:
        """Answers a POST request."""
        self.answer(self.post)

    def answer(self, how: Callable[[str, dict[str, str]], None]) -> None:
        """Answers a request, or says why it is refused."""
        try:
            how(*self.checked())
        except Refusal as refusal:
            self.reply(refusal.status, "text/plain; charset=utf-8", f"{refusal}\n".encode())
            self.turn_away()
        except Failure as failure:
            self.reply(409, "text/plain; charset=utf-8", f"{failure}\n".encode())
        except (TypeError, ValueError, LookupError, AttributeError, OverflowError, RecursionError) as error:
            why = f"{type(error).__name__}: {error}"[:200].encode("ascii", "backslashreplace").decode()
            self.reply(400, "text/plain; charset=utf-8", f"the request has wrong values or lacks some ({why}): reload the page\n".encode())
        except Exception as fault:
            self.reply(500, "text/plain; charset=utf-8", f"internal error in tools/calculator: {fault!r}: please report it\n".encode())

    def turn_away(self) -> None:
        """Closes a connection whose request may not have been read completely. The rest is ignored for a moment, so that the answer is
        not lost."""
        self.close_connection = True
        try:
            self.connection.shutdown(socket.SHUT_WR)
            self.connection.settimeout(MOMENT)
            left = 1 << 20
            while left > 0 and (part := self.connection.recv(65536)):
                left -= len(part)
        except OSError:
            pass

    def checked(self) -> tuple[str, dict[str, str]]:
        """Returns what a request names after the token, and its query. Requests that do not come from the page itself are refused."""
        host = f"127.0.0.1:{self.server.port}"
        if self.headers.get_all("Host") not in ([host], [f"localhost:{self.server.port}"]):
            raise Refusal(403, f"found {quoted(self.headers.get_all('Host'))} as the Host header, expected {host}")
        if self.headers.get_all("Origin") not in (None, [f"http://{self.headers['Host']}"]):
            raise Refusal(403, f"found {quoted(self.headers.get_all('Origin'))} as the Origin header, expected "
                               f"http://{self.headers['Host']}")
        if len(self.path) > LONGEST_PATH:
            raise Refusal(414, f"the path has {len(self.path)} characters: at most {LONGEST_PATH} are allowed")
        begin = f"/{self.server.token}/"
        if not hmac.compare_digest(self.path[:len(begin)].encode(), begin.encode()):
            raise Refusal(403, "the address lacks the token: open the address that tools/calculator printed")
        if self.command == "GET":
            self.want_arrival()
        name, _, query = self.path[len(begin):].partition("?")
        # The page itself may be opened by a link in another page.
        if name and self.headers.get("Sec-Fetch-Site", "none") not in ("none", "same-origin"):
            raise Refusal(403, "the request comes from another web page: open the address that tools/calculator printed")
        self.server.stay()
        return name, {key: values[-1] for key, values in parse_qs(query).items()}

    def want_arrival(self) -> None:
        """Notes that the request has arrived, unless its connection was closed because it took too long."""
        if not self.server.arrived(self.connection):
            raise Refusal(408, f"the request did not arrive within {SLOWEST} seconds")

    def given_cookie(self) -> str:
        """Returns the cookie of the browser for this server."""
        parts = (part.strip().partition("=") for part in self.headers.get("Cookie", "").split(";"))
        return next((value for name, _, value in parts if name == f"bench-{self.server.port}"), "")

    def get(self, name: str, asked: dict[str, str]) -> None:
        """Answers a GET request for a path after the token."""
        more: dict[str, str] = {}
        if name == "":
            cookie = self.server.take_cookie(self.given_cookie())
            if cookie:
                more["Set-Cookie"] = f"bench-{self.server.port}={cookie}; HttpOnly; SameSite=Lax; Path=/{self.server.token}/"
        else:
            self.want_cookie()
        if name in FILES:
            file, kind = FILES[name]
            with open(os.path.join(FOLDER, file), "rb") as opened:
                self.reply(200, kind, opened.read(), more)
        elif name == "events":
            self.events()
        elif name == "deck":
            self.save("text/plain", self.server.answers["deck"](asked), "branch.deck" if "branch" in asked else "session.deck")
        elif name == "recorded":
            self.save("text/html", self.server.answers["recorded"](), "session.html")
        elif name == "state":
            self.tell(self.server.answers["state"](asked))
        else:
            raise self.unknown(name)

    def save(self, kind: str, data: bytes, name: str) -> None:
        """Sends bytes that the browser saves as a file of this name."""
        self.reply(200, f"{kind}; charset=utf-8", data, {"Content-Disposition": f'attachment; filename="{name}"'})

    def post(self, name: str, _: dict[str, str]) -> None:
        """Answers a POST request for a path after the token."""
        self.want_cookie()
        length = self.headers.get("Content-Length", "")
        coding = self.headers.get("Transfer-Encoding")
        if coding or not (length.isascii() and length.isdigit()):
            found = f"'{coding[:100]}' as its Transfer-Encoding" if coding else f"'{length[:100]}' as its Content-Length" if length else "no Content-Length"
            raise Refusal(411, f"the request has {found}: expected a Content-Length, the length of its body in bytes")
        if int(length) > LONGEST_BODY:
            raise Refusal(413, f"the request body has {int(length):,} bytes: at most {LONGEST_BODY:,} are allowed")
        if self.headers.get_content_type() != "application/json":
            raise Refusal(415, f"the request body is {self.headers.get_content_type()}: expected application/json")
        body = self.rfile.read(int(length))
        self.want_arrival()
        if len(body) < int(length):
            raise Refusal(400, f"the request body has {len(body):,} bytes, expected {int(length):,}")
        if name not in ("do", "import", "export"):
            raise self.unknown(name)
        asked = json.loads(body)
        if not isinstance(asked, dict):
            raise Refusal(400, f"the request body is `{body[:40].decode(errors='replace')}`, expected a JSON object: reload the page")
        answer = self.server.answers[name](asked)
        if isinstance(answer, bytes):
            self.reply(200, "application/octet-stream", answer)
        else:
            self.tell(answer)

    def unknown(self, name: str) -> Refusal:
        """Returns the error for a path after the token that no request of this method has."""
        return Refusal(404, f"{self.command} request of the unknown path '{name[:100]}', expected {PATHS[self.command]}")

    def want_cookie(self) -> None:
        """Refuses a browser that has not opened the page."""
        if self.server.cookie is None or not hmac.compare_digest(self.given_cookie().encode(), self.server.cookie.encode()):
            raise Refusal(403, "this browser has not opened the calculator: open the address that tools/calculator printed")

    def tell(self, answer: object) -> None:
        """Sends an answer as JSON."""
        self.reply(200, "application/json", json.dumps(answer).encode())

    def reply(self, status: int, kind: str, body: bytes, more: Optional[dict[str, str]] = None) -> None:
        """Sends a whole reply. If the browser has closed the connection, nothing is sent."""
        try:
            self.send_response(status)
            for name, value in {**HEADERS, "Content-Type": kind, "Content-Length": str(len(body)), **(more or {})}.items():
                self.send_header(name, value)
            self.end_headers()
            self.wfile.write(body)
        except OSError:
            self.close_connection = True

    def events(self) -> None:
        """Sends the number of the last change to a page, whenever it changes and twice a second. The page counts as open as long as it
        reads this."""
        self.server.open_page(1)
        self.send_response(200)
        for name, value in {**HEADERS, "Content-Type": "text/event-stream"}.items():
            self.send_header(name, value)
        try:
            self.end_headers()
            while not self.server.closing:
                self.wfile.write(f"data: {json.dumps(self.server.answers['version']())}\n\n".encode())
                self.wfile.flush()
                if select.select([self.connection], [], [], BEAT)[0] and not self.connection.recv(4096):
                    return
        except OSError:
            pass
        finally:
            self.server.open_page(-1)


def serve(server: Server) -> None:
    """Serves until no page is open any more, or until Ctrl-C."""
    try:
        server.serve_forever(0.2)
    except KeyboardInterrupt:
        pass
    finally:
        server.server_close()


def listen(port: int, answers: Answers) -> Server:
    """Returns a server on a port; with port 0 on any free port."""
    try:
        return Server(port, answers)
    except (OSError, OverflowError) as error:
        why = getattr(error, "strerror", None) or error
        raise Failure(f"cannot listen on 127.0.0.1:{port}: {why}; try another port with --port", NO_ANSWER) from error
