"""The standard streams, also where they are closed, full or of another encoding; and texts that go to them."""
import contextlib
import io
import os
import sys
from typing import TextIO

# how each stream is opened where it is closed: what is read from it or written to it fails as it would, but what is told is dropped
CLOSED = {0: os.O_WRONLY, 1: os.O_RDONLY, 2: os.O_WRONLY}


def prepare() -> None:
    """Opens streams that are closed, so that no file of ours gets the number of one, and lets any text be written."""
    for number, how in CLOSED.items():
        try:
            os.fstat(number)
        except OSError:
            os.open(os.devnull, how)
    sys.stdin = sys.stdin or open(0, "r", closefd=False)
    sys.stdout = buffered(sys.stdout or open(1, "w", closefd=False))
    sys.stderr = sys.stderr or open(2, "w", closefd=False)
    for stream in (sys.stdout, sys.stderr):
        stream.reconfigure(errors="backslashreplace")


def buffered(stream: TextIO) -> TextIO:
    """The stream, by a buffer. Without one, as by PYTHONUNBUFFERED, Python may write a part of what it is given, and tells only how much."""
    if not isinstance(stream, io.TextIOWrapper) or not isinstance(stream.buffer, io.RawIOBase):
        return stream
    encoding, raw = stream.encoding, stream.buffer
    stream.detach()
    return io.TextIOWrapper(io.BufferedWriter(raw), encoding, line_buffering=True)


def fault_of_output() -> str:
    """Why not all that was written to standard output has gone out, or nothing. Nobody is told what standard error does not take."""
    with contextlib.suppress(OSError):
        flush(sys.stderr)
    try:
        flush(sys.stdout)
    except OSError as error:
        return error.strerror or str(error)
    return ""


def flush(stream) -> None:
    """Lets all go out that a stream holds. What it does not take is dropped, so that Python's own end does not try again."""
    if stream is None:
        return
    try:
        stream.flush()
    except OSError:
        drop(stream)
        raise


def drop(stream) -> None:
    """Lets all that a stream holds go nowhere."""
    os.dup2(os.open(os.devnull, os.O_WRONLY), stream.fileno())


def printable(text: str) -> str:
    """A text as a terminal may get it: what is no character is shown as an escape. An end of a line is one, but in words of the command
    line."""
    for word in (part for it in sys.argv if "\n" in it for part in (it, *it.split("="))):
        text = text.replace(word, word.replace("\n", "\\n"))
    if text.isprintable():
        return text
    return "".join(it if it.isprintable() or it == "\n" else escaped(it) for it in text)


def escaped(character: str) -> str:
    return character.encode("unicode_escape", "surrogatepass").decode("ascii")
