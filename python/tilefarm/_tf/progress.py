"""What tf is at, told on a terminal where it takes more than a second, and nowhere else."""
import contextlib
import sys
import threading
import time
from typing import Callable, Iterator

from . import aside, leaving
from .streams import printable

FIRST, EACH = 1.0, 0.25
CLEAR = "\r\x1b[K"
is_quiet = False
shown = threading.Event()


def is_told() -> bool:
    """Whether somebody looks at standard error."""
    return not is_quiet and aside.now() is None and sys.stderr is not None and sys.stderr.isatty()


@contextlib.contextmanager
def doing(what: str, share: Callable[[], float | None] = lambda: None) -> Iterator[None]:
    """While this is done, says so, with the share of it that is done where that is known."""
    def done(_: float) -> str:
        part = share()
        return "" if part is None else f", {min(int(100 * part), 100)} %"

    with telling(what, done):
        yield


@contextlib.contextmanager
def counting(what: str, done: Callable[[], int], every: int | None = None) -> Iterator[None]:
    """While so many are done, says how many are, of how many and how long the others take, as far as that is known."""
    def count(seconds: float) -> str:
        number = done()
        left = f", {seconds / number * (every - number):.0f} s left" if every and number else ""
        return f", {number}{f' of {every}' if every else ''}{left}"

    with telling(what, count):
        yield


@contextlib.contextmanager
def telling(what: str, how_far: Callable[[float], str]) -> Iterator[None]:
    """While this is done, says so and how far it is, which hangs on the seconds that have passed."""
    if not is_told():
        yield
        return
    ended = threading.Event()
    teller = threading.Thread(target=tell, args=(what, how_far, ended), daemon=True)
    teller.start()
    try:
        yield
    finally:
        ended.set()
        teller.join()
        clear()


def tell(what: str, how_far: Callable[[float], str], ended: threading.Event) -> None:
    began, wait = time.monotonic(), FIRST
    while not ended.wait(wait):
        seconds, wait = time.monotonic() - began, EACH
        sys.stderr.write(f"{CLEAR}tf: {printable(what)}{how_far(seconds)} ({seconds:.0f} s)")
        sys.stderr.flush()
        shown.set()


def clear() -> None:
    """Takes away what is shown, so that something else can be told in its place."""
    if shown.is_set():
        shown.clear()
        sys.stderr.write(CLEAR)
        sys.stderr.flush()


leaving.mine.clear = clear
