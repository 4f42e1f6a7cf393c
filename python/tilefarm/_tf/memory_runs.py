"""Short runs of the program, one after the other or side by side: what goes in and comes out is in memory, and in no file."""
import os
import time
from typing import Iterable

from . import leaving
from .running import Ended, program
from .text import Refused

# pairs of files in memory that no run has now: the memory of one is used by the next, which takes less time than to ask the system for other
spare: list[tuple[int, int]] = []
# a file of more bytes gives its memory back
MOST_KEPT = 1 << 24


class Run:
    """A run of the program with these words, on the bytes that these parts are together. It does not go on when this is closed."""

    def __init__(self, words: list[str], parts: Iterable[bytes]):
        self.words, self.child, self.began = words, None, 0.0
        try:
            self.files: tuple[int, int] | None = spare.pop() if spare else (os.memfd_create("tf"), os.memfd_create("tf"))
            end = 0
            for part in parts:
                end = put_at(self.files[0], part, end)
            os.ftruncate(self.files[0], end)
        except OSError as error:
            raise Refused(f"the input does not go into memory: {error.strerror}", 4) from error

    def begin(self) -> None:
        """Starts it, where it has not been started."""
        if self.child is not None:
            return
        for handle in self.files:
            os.lseek(handle, 0, os.SEEK_SET)
        self.began = time.perf_counter()
        try:
            self.child = leaving.Child([program(), *self.words], *self.files)
        except OSError as error:
            raise Refused(f"{program()} does not start: {error.strerror}", 4) from error

    def is_running(self) -> bool:
        """Whether it has been started and goes on."""
        return self.child is not None and not self.child.has_ended()

    def wait(self) -> int:
        """Waits for its end, and answers its status."""
        self.begin()
        status = self.child.wait()
        return status if status >= 0 else 128 - status

    def ended(self) -> Ended:
        """How it ended, and what it wrote: what stands up to the place where it would write next. It is closed then."""
        status, stdout = self.wait(), self.files[1]
        seconds = time.perf_counter() - self.began
        written = os.pread(stdout, os.lseek(stdout, 0, os.SEEK_CUR), 0)
        self.close()
        return Ended(status, written, seconds)

    def close(self) -> None:
        """Ends it, and lets go of what it holds."""
        if self.child is not None:
            self.child.kill()
            self.child.wait()
        if self.files is not None:
            for handle in self.files:
                if os.fstat(handle).st_size > MOST_KEPT:
                    os.ftruncate(handle, 0)
            spare.append(self.files)
            self.files = None


def wait_for_one(runs: list[Run]) -> None:
    """Waits until one of these runs has ended, which go on; until the first has, where the system cannot tell of several."""
    import select

    poll, handles = select.poll(), []
    try:
        for it in runs:
            handles.append(os.pidfd_open(it.child.pid))
            poll.register(handles[-1], select.POLLIN)
        poll.poll()
    except (OSError, AttributeError):
        runs[0].child.wait()
    finally:
        for it in handles:
            os.close(it)


def put_at(handle: int, data: bytes, at: int) -> int:
    """Puts bytes into a file from a place on, and answers where they end. The place from which the file is read stays where it is."""
    rest = memoryview(data)
    while rest:
        count = os.pwrite(handle, rest, at)
        at, rest = at + count, rest[count:]
    return at


def run(words: list[str], parts: Iterable[bytes]) -> Ended:
    """Runs the program with these words on the bytes that these parts are together."""
    return Run(words, parts).ended()
