"""What one of several calls in this process says: it is kept aside by the call's own thread until its turn to be shown."""
import contextlib
import threading
from typing import Iterator


class Said:
    """What a call has written to standard output, and what it has told."""

    def __init__(self):
        self.written: list[bytes] = []
        self.told: list[str] = []

    def lines_written(self) -> list[str]:
        return b"".join(self.written).decode("utf-8", "replace").splitlines()

    def lines_told(self) -> list[str]:
        return [line for it in self.told for line in it.split("\n")]


here = threading.local()


def now() -> Said | None:
    """Where the call of this thread says what it says; nothing where that goes to the streams."""
    return getattr(here, "said", None)


def turn() -> contextlib.AbstractContextManager:
    """What a run of the program waits for, where its call has no turn of its own."""
    return getattr(here, "turns", None) or contextlib.nullcontext()


@contextlib.contextmanager
def kept(turns: threading.Semaphore | None = None) -> Iterator[Said]:
    """Keeps what this thread says aside. Its runs of the program wait for their turns, where there are any."""
    here.said, here.turns = Said(), turns
    try:
        yield here.said
    finally:
        here.said = here.turns = None
