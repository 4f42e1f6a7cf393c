"""How a signal ends tf: its children are ended, its own files are gone, and the status is 128 and the signal's number.

What has to be ended or removed is listed here from its first moment on: a child is started, and a file is made, while a signal is held.
This is loaded before all else of tf, and loads what it needs where it needs it.
"""
import contextlib
import functools
import os
import signal
import threading
import time
from typing import TYPE_CHECKING, BinaryIO, Callable, Iterator

if TYPE_CHECKING:
    import subprocess

WATCHED = (signal.SIGINT, signal.SIGTERM, signal.SIGHUP)
# seconds that a child has to end by itself, and how often a folder is removed in which a thread may still make a file
PATIENCE, TRIES = 2.0, 20
# the signals that Python ignores, and other programs are not to
IGNORED = (signal.SIGPIPE, signal.SIGXFSZ)


class Held:
    """The children and the own files of this process, what clears the terminal, and the signal that waits while one of them is made."""

    def __init__(self):
        self.children: set[int] = set()
        self.paths: set[str] = set()
        self.clear: Callable[[], None] = lambda: None
        self.guard, self.depth, self.waiting, self.is_over = threading.RLock(), 0, 0, False


mine = Held()


def watch() -> None:
    """Lets signals end tf from here on. What ignores one from its start, as by nohup, goes on to ignore it."""
    for it in WATCHED:
        if signal.getsignal(it) is not signal.SIG_IGN:
            signal.signal(it, lambda number, _: leave(number))


@contextlib.contextmanager
def held() -> Iterator[None]:
    """While this is done no signal ends tf, but after it."""
    is_main = threading.current_thread() is threading.main_thread()
    mine.depth += is_main
    try:
        with mine.guard:
            if mine.is_over:
                raise OSError("tf is ended by a signal")
            yield
    finally:
        mine.depth -= is_main
        if is_main and mine.waiting and not mine.depth:
            leave(mine.waiting)


def leave(number: int) -> None:
    """Ends children, removes own files, and leaves. It runs in the main thread, and waits for what that holds. It loads no module of tf, since
    one may be half loaded."""
    if mine.depth:
        mine.waiting = number
        return
    for it in WATCHED:
        signal.signal(it, signal.SIG_IGN)
    with mine.guard:
        mine.is_over = True
    end([*mine.children])
    for path in [*mine.paths]:
        remove(path)
    # (the signal may have come while standard error was written to, which Python does not take twice)
    with contextlib.suppress(OSError, RuntimeError):
        mine.clear()
    os._exit(128 + number)


def end(children: list[int]) -> None:
    """Ends processes: at first each is asked, and what goes on is killed."""
    until = time.monotonic() + PATIENCE
    for number in (signal.SIGTERM, signal.SIGKILL):
        for it in filter(is_there, children):
            with contextlib.suppress(ProcessLookupError):
                os.kill(it, number)
        while any(map(is_there, children)) and time.monotonic() < until:
            time.sleep(0.005)


def is_there(child: int) -> bool:
    """Whether a child goes on. It stays for whoever waits for it."""
    try:
        return os.waitid(os.P_PID, child, os.WEXITED | os.WNOHANG | os.WNOWAIT) is None
    except ChildProcessError:
        return False


def remove(path: str) -> None:
    """Removes a file, or a folder with all that is in it. (Whoever made a folder has loaded what removes it.)"""
    for _ in range(TRIES):
        if os.path.isdir(path) and not os.path.islink(path):
            import shutil

            shutil.rmtree(path, ignore_errors=True)
        else:
            with contextlib.suppress(OSError):
                os.unlink(path)
        if not os.path.lexists(path):
            return
        time.sleep(0.005)


# children


def start(words: list[str], **how) -> "subprocess.Popen":
    """Starts a process that ends with tf, until `forget` is called with it."""
    import subprocess

    with held():
        child = subprocess.Popen(words, **how)
        mine.children.add(child.pid)
    return child


def forget(child: "subprocess.Popen") -> None:
    """A process that has ended is none of ours any more."""
    mine.children.discard(child.pid)


@contextlib.contextmanager
def started(words: list[str], **how) -> Iterator["subprocess.Popen"]:
    """A process, which does not outlast this."""
    child = start(words, **how)
    try:
        yield child
    finally:
        if child.poll() is None:
            child.kill()
            child.wait()
        forget(child)


def run(words: list[str], data: bytes | None = None, timeout: float | None = None, **how) -> "subprocess.CompletedProcess":
    """Runs a process to its end on these bytes, where any are given."""
    import subprocess

    given = {} if data is None else {"stdin": subprocess.PIPE}
    with started(words, **given, **how) as child:
        written, told = child.communicate(data, timeout)
        return subprocess.CompletedProcess(words, child.returncode, written, told)


@functools.cache
def environment() -> dict[str, str]:
    """What those processes get, which is that of the first one. (To go through it takes longer than to start one.)"""
    return {**os.environ}


class Child:
    """A process whose streams are open files, by their numbers, standard input first. It ends with tf, until it has been waited for. To start it
    takes a fraction of the time that `start` takes, and loads nothing."""

    def __init__(self, words: list[str], *streams: int):
        actions = [(os.POSIX_SPAWN_DUP2, handle, number) for number, handle in enumerate(streams)]
        self.status: int | None = None
        with held():
            self.pid = os.posix_spawnp(words[0], words, environment(), file_actions=actions, setsigdef=IGNORED)
            mine.children.add(self.pid)

    def __enter__(self) -> "Child":
        return self

    def __exit__(self, *_) -> None:
        self.kill()
        self.wait()

    def wait(self) -> int:
        """Waits for its end, and answers its status, which is below 0 where a signal ended it."""
        while not self.has_ended(0):
            pass
        return self.status

    def has_ended(self, how: int = os.WNOHANG) -> bool:
        """Whether it has ended."""
        if self.status is None:
            child, status = os.waitpid(self.pid, how)
            if child:
                self.status = os.waitstatus_to_exitcode(status)
                mine.children.discard(self.pid)
        return self.status is not None

    def kill(self) -> None:
        """Ends it, where nobody has waited for it."""
        if self.status is None:
            os.kill(self.pid, signal.SIGKILL)


# own files


def usual_folder() -> str:
    """Where the system has folders of own files. (Python tries each by a file, before the first call: it goes before a signal ends tf.)"""
    import tempfile

    with held():
        return tempfile.gettempdir()


def nameless_file() -> BinaryIO:
    """A new file that has no name, or soon none. (Python tries the folder of such files by one with a name, before the first.)"""
    import tempfile

    with held():
        return tempfile.TemporaryFile()


@contextlib.contextmanager
def room(prefix: str = "tf-", folder: str | None = None) -> Iterator[str]:
    """A new folder, which is gone after this."""
    import tempfile

    with held():
        made = tempfile.TemporaryDirectory(prefix=prefix, dir=folder)
        mine.paths.add(made.name)
    try:
        with made:
            yield made.name
    finally:
        mine.paths.discard(made.name)


def named_anew(start: str) -> tuple[int, str]:
    """A file whose name nobody has, opened, and that name."""
    while True:
        made = f"{start}{os.urandom(6).hex()}"
        with contextlib.suppress(FileExistsError):
            return os.open(made, os.O_RDWR | os.O_CREAT | os.O_EXCL | os.O_NOFOLLOW | os.O_CLOEXEC, 0o600), made


@contextlib.contextmanager
def new_file(prefix: str, folder: str) -> Iterator[tuple[int, str]]:
    """A new file, opened, and its name. It is gone after this, where it has not been given another name."""
    with held():
        handle, made = named_anew(os.path.join(folder, prefix))
        mine.paths.add(made)
    try:
        yield handle, made
    finally:
        with contextlib.suppress(FileNotFoundError):
            os.unlink(made)
        mine.paths.discard(made)
