"""What the tests of `tf play` share: a server in a folder of its own, and requests to it."""
import http.client
import json
import os
import subprocess
import tempfile
import threading
from urllib.parse import urlsplit

from _tf import play_given, play_server
from _tf.play_runs import Runs
from _tf.words import asked

TOP = os.path.dirname(os.path.dirname(os.path.realpath(__file__)))
COPY = "param R; param C;\nimage I(R, C);\nfunc f(x in [0 .. R-1], y in [0 .. C-1]) { else : I(x, y); }\noutput f max 255;\n"
SMALL = b"P5\n3 2\n255\n" + bytes([1, 2, 3, 40, 50, 60])
# 256 million points, and at each of them more than a thousand operations: some minutes at least
SLOW = ("image I(2, 3);\nfunc f(x in [0 .. 16000], y in [0 .. 16000]) { else : " + " + ".join(["x * y % 7"] * 600)
        + "; }\naccum a [0 .. 0] over (x in [0 .. 16000], y in [0 .. 16000]) sum f(x, y) at 0;\n")


def content(path: str) -> bytes:
    with open(path, "rb") as file:
        return file.read()


def write(path: str, data: bytes) -> str:
    with open(path, "wb") as file:
        file.write(data)
    return path


def tf(*words: str) -> bytes:
    """What tf writes."""
    return subprocess.run([f"{TOP}/tools/tf", *words], stdout=subprocess.PIPE, check=True).stdout


class Played:
    """A server over a program and a picture in a folder of its own, and requests to it."""

    def __init__(self, program: str = COPY, picture: bytes = SMALL, words: tuple[str, ...] = (), seconds: float = 20.0,
                 memory: int | None = None, patience: float = play_server.PATIENCE):
        self.room = tempfile.TemporaryDirectory(prefix="test-play-")
        self.folder = self.room.name
        write(f"{self.folder}/p.pipe", program.encode())
        write(f"{self.folder}/p.pgm", picture)
        before = os.getcwd()
        os.chdir(self.folder)
        try:
            session = play_given.session_of(asked(["play", "p.pipe", "p.pgm", *words]), Runs(seconds, memory))
        finally:
            os.chdir(before)
        self.server = play_server.Server(session, patience=patience)
        self.thread = threading.Thread(target=self.server.serve_forever, daemon=True)
        self.thread.start()

    def __enter__(self) -> "Played":
        return self

    def __exit__(self, *_) -> None:
        self.server.session.runs.end()
        self.server.shutdown()
        self.server.server_close()
        self.room.cleanup()

    def ask(self, method: str, name: str, body: bytes | None = None, token: str | None = None, **headers: str) -> tuple[int, bytes]:
        """The status and the bytes of an answer. Headers are as the page sends them, where they are not named."""
        usual = {"Host": urlsplit(self.server.origin).netloc}
        if method == "POST":
            usual |= {"Origin": self.server.origin, "Content-Type": "application/json", "Content-Length": str(len(body or b""))}
        sent = {key: it for key, it in {**usual, **{key.replace("_", "-"): it for key, it in headers.items()}}.items() if it is not None}
        connection = http.client.HTTPConnection("127.0.0.1", self.server.server_address[1], timeout=60)
        try:
            connection.putrequest(method, f"/{self.server.token if token is None else token}/{name}", skip_host=True, skip_accept_encoding=True)
            for key, value in sent.items():
                connection.putheader(key, value)
            connection.endheaders(body)
            answer = connection.getresponse()
            self.headers = answer.headers
            return answer.status, answer.read()
        finally:
            connection.close()

    def post(self, name: str, **asked_for) -> tuple[dict, bytes]:
        """What a request is told, and the bytes behind that."""
        self.status, answer = self.ask("POST", name, json.dumps(asked_for).encode())
        line, _, data = answer.partition(b"\n")
        return json.loads(line), data

    def run(self, text: str = COPY, **more) -> tuple[dict, bytes]:
        return self.post("run", text=text, **more)

    def values(self, name: str, text: str, **more) -> tuple[dict, list[int]]:
        """The values of a stage, from the planes of their bytes."""
        told, data = self.post("stage", text=text, stage=name, **more)
        count = told["rows"] * told["cols"]
        low, high = (zip(data[at : at + count], data[at + count : at + 2 * count]) for at in (0, 2 * count))
        return told, [((a << 8 | b) - 32768 << 16) + (c << 8 | d) for (c, d), (a, b) in zip(low, high)]
