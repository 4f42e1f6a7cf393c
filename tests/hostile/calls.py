"""Calls of tf in processes that are forked from this one, which has loaded all of it: some hundred a second."""
import gc
import importlib
import os
import pkgutil
import signal
import sys
import tempfile
import time
import webbrowser
from typing import BinaryIO, Callable, NamedTuple

TOP = os.path.dirname(os.path.dirname(os.path.dirname(os.path.realpath(__file__))))
sys.path.insert(0, f"{TOP}/python/tilefarm")

import _tf
from _tf import leaving, main, play_server

# seconds after which a call is ended: none takes as many
LONGEST = 120
# the statuses of docs/COMMANDS.md, without that of a mistake of tf
STATUSES = range(7)

for it in pkgutil.walk_packages(_tf.__path__, "_tf."):
    if it.name != "_tf.cluster_task":
        importlib.import_module(it.name)
# (what is collected in a child would be copied for it)
gc.freeze()


class Ended(NamedTuple):
    """How a call ended: its status (128 and more for a signal), and what it wrote and told."""

    words: list[str]
    status: int
    written: bytes
    told: str

    def fault(self) -> str:
        """What is wrong with how it ended, or nothing."""
        if "Traceback" in self.told:
            return f"{self.words} ends with a traceback:\n{self.told}"
        if self.status not in STATUSES:
            return f"{self.words} ends with status {self.status}:\n{self.told}"
        if self.status and not self.told and not self.written:
            return f"{self.words} ends with status {self.status} and says nothing"
        return ""


def call(words: list[str], room: str, stdin: bytes = b"", first: Callable[[], object] = lambda: None, **environment: str) -> Ended:
    """Calls tf with these words in a folder; `first` is done in its process before."""
    with in_memory() as given, in_memory() as out, in_memory() as told:
        given.write(stdin)
        given.seek(0)
        status = waited(forked(words, room, (given, out, told), first, environment))
        out.seek(0)
        told.seek(0)
        return Ended(words, status, out.read(), told.read().decode("utf-8", "replace"))


def begin(words: list[str], room: str, first: Callable[[], object], **environment: str) -> int:
    """Begins a call, of which nobody hears what it writes and tells, and answers its process."""
    with open(os.devnull, "r+b") as nothing:
        return forked(words, room, (nothing, nothing, nothing), first, environment)


def forked(words: list[str], room: str, streams: tuple[BinaryIO, BinaryIO, BinaryIO], first: Callable[[], object], environment: dict[str, str]) -> int:
    child = os.fork()
    if not child:
        perform(words, room, streams, first, environment)
    return child


def in_memory() -> BinaryIO:
    return open(os.memfd_create("test-hostile"), "w+b")


def perform(words: list[str], room: str, streams: tuple[BinaryIO, BinaryIO, BinaryIO], first: Callable[[], object],
            environment: dict[str, str]) -> None:
    """The call itself, in its own process, which ends here. A page is not served."""
    status = 99
    try:
        os.chdir(room)
        os.environ.update(environment)
        for number, stream in enumerate(streams):
            os.dup2(stream.fileno(), number)
        sys.stdin, sys.stdout, sys.stderr = (open(number, mode, closefd=False) for number, mode in enumerate("rww"))
        sys.argv = ["tf", *words]
        play_server.Server.serve_forever = lambda _: None
        webbrowser.open = lambda _: True
        tempfile.tempdir = None
        first()
        leaving.watch()
        status = main.main()
    except SystemExit as found:
        status = found.code if isinstance(found.code, int) else 98
    except BaseException:
        sys.excepthook(*sys.exc_info())
    finally:
        for stream in (sys.stdout, sys.stderr):
            if stream:
                stream.flush()
        os._exit(status)


def code_of(status: int) -> int:
    """The status as a shell has it: 128 and more for a signal."""
    code = os.waitstatus_to_exitcode(status)
    return code if code >= 0 else 128 - code


def waited(child: int) -> int:
    """The status of a process, which is ended where it takes too long."""
    end = time.monotonic() + LONGEST
    while time.monotonic() < end:
        found, status = os.waitpid(child, os.WNOHANG)
        if found:
            return code_of(status)
        time.sleep(0.001)
    os.kill(child, signal.SIGKILL)
    os.waitpid(child, 0)
    return 128 + signal.SIGALRM
