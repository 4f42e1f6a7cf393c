"""The server of a page: on 127.0.0.1 alone, with a token in the address. Each request is checked before anything is done for it."""
import hmac
import io
import json
import os
import secrets
import threading
from http.server import BaseHTTPRequestHandler
from typing import Callable, NamedTuple
from urllib.parse import parse_qs, unquote

from .mistakes import told as mistake
from .output import tell
from .play_connections import BoundedServer, Deadline
from .play_jobs import BadRequest, job_of, number, text
from .play_runs import Stopped
from .play_session import Session
from .play_work import Refusal
from .play_world import wanted_of
from .text import Refused

HERE = os.path.dirname(os.path.realpath(__file__))
PAGE = f"{HERE}/page"
TYPES = {".html": "text/html; charset=utf-8", ".css": "text/css; charset=utf-8", ".js": "text/javascript; charset=utf-8",
         ".svg": "image/svg+xml"}
ADDRESS = "127.0.0.1"
# a picture with the longest sides, three planes and samples of two bytes, and its header; and a program with its escapes
MOST_PICTURE, MOST_WORDS = 4096 * 4096 * 6 + 1024, 1 << 20
# seconds that a request may take to come, and that an answer may take to go; and how many connections there are at a time
PATIENCE, MOST_CONNECTIONS, MOST_WORDS_OF_ADDRESS = 30, 64, 16
POLICY = ("default-src 'none'; script-src 'self'; style-src 'self'; img-src 'self' data: blob:; connect-src 'self'; base-uri 'none'; "
          "form-action 'none'; frame-ancestors 'none'")
HEADERS = {"Content-Security-Policy": POLICY, "X-Content-Type-Options": "nosniff", "Referrer-Policy": "no-referrer",
           "Cache-Control": "no-store", "Cross-Origin-Resource-Policy": "same-origin", "Cross-Origin-Opener-Policy": "same-origin"}


class Answer(NamedTuple):
    """The status of an answer, its type and its bytes."""

    status: int
    kind: str
    data: bytes


def told(it: dict, status: int = 200) -> Answer:
    return Answer(status, "application/json", json.dumps(it).encode())


def framed(it: dict, data: bytes) -> Answer:
    """A line of JSON, and bytes behind it."""
    return Answer(200, "application/octet-stream", json.dumps(it).encode() + b"\n" + data)


def page_files() -> dict[str, str]:
    """The files of the page by name, and the types of those that are served."""
    return {name: TYPES[os.path.splitext(name)[1]] for name in sorted(os.listdir(PAGE)) if os.path.splitext(name)[1] in TYPES}


class Server(BoundedServer):
    """The server of one session."""

    def __init__(self, session: Session, port: int = 0, patience: float = PATIENCE):
        self.session, self.token, self.files, self.patience = session, secrets.token_urlsafe(24), page_files(), patience
        # pictures come one at a time, so that no more than one is held that is not whole
        self.upload = threading.Lock()
        super().__init__((ADDRESS, port), Handler, MOST_CONNECTIONS)

    @property
    def origin(self) -> str:
        return f"http://{ADDRESS}:{self.server_address[1]}"

    def address(self) -> str:
        """What the user's browser opens."""
        return f"{self.origin}/{self.token}/"

    def handle_error(self, request, client_address) -> None:
        """A page that goes away in the middle of an answer is nothing to tell of."""


class Handler(BaseHTTPRequestHandler):
    """One connection of the page."""

    protocol_version, server_version, sys_version = "HTTP/1.1", "tf", ""
    server: Server

    def setup(self) -> None:
        super().setup()
        self.coming = Deadline(self.connection, self.server.patience)
        self.rfile = io.BufferedReader(self.coming)

    def handle_one_request(self) -> None:
        self.coming.begin()
        super().handle_one_request()

    def log_message(self, format: str, *args) -> None:
        """Nothing is printed of requests."""

    def do_GET(self) -> None:
        self.answer(self.get)

    def do_POST(self) -> None:
        self.answer(self.post)

    def answer(self, way: Callable[[str, dict[str, str]], Answer]) -> None:
        """Sends what a request is answered; what is refused closes the connection, since its body was not read."""
        try:
            found = way(*self.asked())
        except BadRequest as refusal:
            self.close_connection = True
            found = told({"refused": refusal.why}, refusal.status)
        self.connection.settimeout(self.server.patience)
        self.send_response(found.status)
        for name, value in {**HEADERS, "Content-Type": found.kind, "Content-Length": str(len(found.data))}.items():
            self.send_header(name, value)
        if self.close_connection:
            self.send_header("Connection", "close")
        self.end_headers()
        self.wfile.write(found.data)

    def asked(self) -> tuple[str, dict[str, str]]:
        """The name that is asked for and the words behind it, of a request that comes from our page."""
        path, _, query = self.path.partition("?")
        if not path.startswith("/"):
            raise BadRequest("a request names a path")
        self.judge_sender(path)
        try:
            words = {name: found[0] for name, found in parse_qs(query, max_num_fields=MOST_WORDS_OF_ADDRESS).items()}
        except ValueError:
            raise BadRequest("the address has too many words") from None
        return unquote(path.split("/", 2)[2]), words

    def judge_sender(self, path: str) -> None:
        """Another host in the address, a page of another origin, or a wrong token is refused."""
        host, origin, site = (self.headers.get(it) for it in ("Host", "Origin", "Sec-Fetch-Site"))
        if host != self.server.origin.removeprefix("http://"):
            raise BadRequest("this host is not answered", 403)
        parts = path.split("/", 2)
        if len(parts) < 3 or not hmac.compare_digest(parts[1].encode(), self.server.token.encode()):
            raise BadRequest("the address has not the token of this page", 403)
        if origin not in ((self.server.origin,) if self.command == "POST" else (None, self.server.origin)):
            raise BadRequest("the request comes from another page", 403)
        if site not in (None, "same-origin", "none") and not (parts[2] == "" and self.is_navigation()):
            raise BadRequest("the request comes from another site", 403)

    def is_navigation(self) -> bool:
        """Whether a browser goes to the page itself, as from the file that tf lets it open. The token in the address is judged before."""
        wanted = {"Sec-Fetch-Mode": "navigate", "Sec-Fetch-Dest": "document"}
        return self.command == "GET" and all(self.headers.get(name) == value for name, value in wanted.items())

    def get(self, name: str, words: dict[str, str]) -> Answer:
        name = name or "index.html"
        if name in self.server.files:
            with open(f"{PAGE}/{name}", "rb") as file:
                return Answer(200, self.server.files[name], file.read())
        if name == "start":
            return told(self.server.session.start())
        if name == "input":
            return Answer(200, "application/octet-stream", self.server.session.input(words.get("key", "")))
        raise BadRequest("there is no such page", 404)

    def post(self, name: str, words: dict[str, str]) -> Answer:
        session = self.server.session
        if name == "open":
            return done(lambda: told(session.open(words.get("name", "picture")[:200], self.picture())))
        if name not in WAYS:
            raise BadRequest("there is no such request", 404)
        if self.headers.get_content_type() != "application/json":
            raise BadRequest("a request is application/json", 415)
        return done(lambda: WAYS[name](session, self.json()))

    def picture(self) -> bytes:
        """The bytes of a picture, once no other is on its way."""
        if not self.server.upload.acquire(timeout=self.server.patience):
            raise BadRequest("another picture is on its way", 503)
        try:
            self.coming.begin()
            return self.body(MOST_PICTURE)
        finally:
            self.server.upload.release()

    def body(self, most: int) -> bytes:
        """The bytes of a request, of which its header says how many there are."""
        length = self.headers.get("Content-Length", "")
        if not length.isascii() or not length.isdigit():
            raise BadRequest("the length of the request is not said", 411)
        if len(length) > 12 or int(length) > most:
            raise BadRequest(f"a request has at most {most} bytes", 413)
        try:
            found = self.rfile.read(int(length))
        except TimeoutError:
            raise BadRequest("the request took too long", 408) from None
        if len(found) < int(length):
            raise BadRequest("the request is cut off")
        return found

    def json(self) -> dict:
        try:
            found = json.loads(self.body(MOST_WORDS))
        except (ValueError, RecursionError):
            raise BadRequest("the request is no JSON") from None
        if not isinstance(found, dict):
            raise BadRequest("the request is no object")
        return found


def run(session: Session, asked: dict) -> Answer:
    return framed(*session.run(job_of(asked)))


def stage(session: Session, asked: dict) -> Answer:
    return framed(*session.stage(job_of(asked), text(asked, "stage"), number(asked, "side", 0)))


WAYS: dict[str, Callable[[Session, dict], Answer]] = {
    "run": run,
    "stage": stage,
    "plan": lambda session, asked: told(session.plan(job_of(asked))),
    "world": lambda session, asked: told(session.world(job_of(asked), wanted_of(asked))),
    "example": lambda session, asked: told(session.example(text(asked, "example"))),
    "save": lambda session, asked: told(session.save(asked)),
}


def done(way: Callable[[], Answer]) -> Answer:
    """An answer, or why there is none: a fault of the program, a run that was ended, or what tf itself refuses. A mistake of tf is told in
    the page and on the terminal, and the page goes on."""
    try:
        return way()
    except Refusal as refusal:
        return framed({"fault": refusal.shown}, b"")
    except Stopped as stopped:
        return framed({"stopped": stopped.why}, b"")
    except Refused as refused:
        return framed({"refused": str(refused)}, b"")
    except BadRequest:
        raise
    except Exception as error:
        line, _ = mistake(error)
        tell(line)
        return framed({"refused": line}, b"")
