"""Files as a person sees them: lines and columns, and the line with a mark below it."""
import os
import stat
import sys
from typing import BinaryIO, NamedTuple

WIDEST = 100
# a device that gives so many bytes is taken for one that gives them without end
MOST_OF_DEVICE = 1 << 20
# how many bytes are read at a time of a file that has more than it says
AT_LEAST = 1 << 16
# what came by pipes, by their names, and by standard input, which is -: it comes once
piped: dict[str, bytes] = {}


class Refused(Exception):
    """tf itself cannot go on: what it says to the user, and the status that it ends with."""

    def __init__(self, message: str, status: int = 2):
        super().__init__(message)
        self.status = status


class TooLarge(Refused):
    """A picture has sides that no run takes: `eval` goes by parts then."""


class Failed(Exception):
    """A run ended with a fault that has been shown."""

    def __init__(self, status: int):
        super().__init__()
        self.status = status


def content(path: str) -> bytes:
    """The bytes of a file. What comes by a pipe is kept, since it can be read once."""
    if path in piped:
        return piped[path]
    try:
        handle = os.open(path, os.O_RDONLY | os.O_CLOEXEC)
        there = os.fstat(handle)
        if stat.S_ISREG(there.st_mode):
            return of_file(handle, there.st_size)
        with open(handle, "rb") as file:
            piped[path] = of_device(path, file) if stat.S_ISCHR(there.st_mode) and not file.isatty() else file.read()
            return piped[path]
    except OSError as error:
        raise Refused(f"{path}: {error.strerror}") from error


def of_file(handle: int, size: int) -> bytes:
    """All bytes of an open file that probably has so many, by few calls of the system. It is closed then."""
    try:
        found = [os.read(handle, size + 1)]
        while found[-1] and (len(found) > 1 or len(found[0]) != size):
            found.append(os.read(handle, max(size, AT_LEAST)))
        return b"".join(found)
    finally:
        os.close(handle)


def of_device(path: str, file: BinaryIO) -> bytes:
    """What a device gives, unless it never ends."""
    found = file.read(MOST_OF_DEVICE)
    if len(found) == MOST_OF_DEVICE:
        raise Refused(f"{path}: this is a device that gives bytes without end")
    return found


def standard_input() -> bytes:
    """The bytes of standard input."""
    try:
        if "-" not in piped:
            piped["-"] = sys.stdin.buffer.read()
        return piped["-"]
    except OSError as error:
        raise Refused(f"standard input: {error.strerror}") from error


def beginning(path: str, count: int) -> bytes:
    """As many of the first bytes of a file."""
    try:
        with open(path, "rb") as file:
            return file.read(count)
    except OSError as error:
        raise Refused(f"{path}: {error.strerror}") from error


class Text(NamedTuple):
    """A text of a file. `first` is where it begins in that file, for the texts that are parts of one."""

    name: str
    data: bytes
    first: int = 0
    whole: bytes | None = None

    def place(self, offset: int, length: int = 1) -> "Place":
        """The place of so many bytes of this text."""
        return Place(self, min(offset, len(self.data)), max(length, 1))


class Place(NamedTuple):
    """Where something stands: lines and columns count from 1, and columns count characters."""

    text: Text
    offset: int
    length: int = 1

    def bytes_of_file(self) -> tuple[bytes, int]:
        """The bytes of the whole file, and the offset there."""
        whole = self.text.data if self.text.whole is None else self.text.whole
        return whole, self.text.first + self.offset

    def line_start(self) -> int:
        """Where the line begins. The end of a text that ends in LF belongs to its last line."""
        whole, at = self.bytes_of_file()
        if self.offset == len(self.text.data) and at > 0 and whole[at - 1 : at] == b"\n":
            at -= 1
        return whole.rfind(b"\n", 0, at) + 1

    def line(self) -> str:
        """The line of the place, without its end."""
        whole, _ = self.bytes_of_file()
        start = self.line_start()
        end = whole.find(b"\n", start)
        return shown(whole[start : len(whole) if end < 0 else end].rstrip(b"\r"))

    def column(self) -> int:
        """The column, from 1."""
        whole, at = self.bytes_of_file()
        start = self.line_start()
        end = whole.find(b"\n", start)
        return len(shown(whole[start : min(at, len(whole) if end < 0 else end)])) + 1

    def spot(self) -> str:
        """`file:line:column`."""
        whole, _ = self.bytes_of_file()
        number = whole.count(b"\n", 0, self.line_start()) + 1
        return f"{self.text.name}:{number}:{self.column()}"

    def drawing(self) -> list[str]:
        """The spot, the line, and a caret below the place."""
        line, column = self.line(), self.column() - 1
        start = max(0, column - WIDEST // 2) if len(line) > WIDEST else 0
        part = line[start : start + WIDEST]
        length = max(1, min(self.length, len(part) - (column - start)))
        return [self.spot(), f"    {part}", f"    {' ' * (column - start)}{'^' * length}"]


def shown(data: bytes) -> str:
    """Bytes as characters, one each where they are ASCII: a TAB as a blank, what cannot be printed as `?`."""
    text = data.decode("utf-8", "replace")
    return "".join(it if it.isprintable() else " " if it == "\t" else "?" for it in text)


def escaped(text: str) -> str:
    """A text of others for the terminal: what cannot be printed as an escape."""
    return "".join(it if it.isprintable() else it.encode("unicode_escape").decode() for it in text)
