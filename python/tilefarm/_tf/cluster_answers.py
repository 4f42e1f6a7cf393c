"""What workers answer, read as data. Dask would make objects of it, and a pickle can run anything: here it stays bytes, of one form.

`close` is called before Dask is asked for anything. Then Dask hands out what came as it came, and where it unpickles a message of its own,
as the type of a result, the pickle finds no name, so that it can call nothing.
"""
import functools
import re
import sys
import zlib
from typing import NamedTuple

FORM = re.compile(rb"tilefarm-answer (none|[0-9a-f]{64}) (late|0|-?[1-9][0-9]{0,2}) (0|[1-9][0-9]{0,11})\n")
LONGEST_HEAD = 128
# what a run that fails may write: a line
MOST_OF_FAULT = 65_536


class Unfit(Exception):
    """An answer is not of the form: what it is, in words that go on from `it gave`."""


class Answer(NamedTuple):
    """The digest of the program that ran, or none; its status, or none where it was ended; and what it wrote."""

    digest: str
    status: int | None
    written: bytes


@functools.cache
def close() -> None:
    """From here on this process makes nothing of what comes by Dask."""
    from distributed import protocol

    usual = protocol.loads

    def as_it_came(frames, *_, **__):
        return without_errors(usual(frames, deserialize=False))

    protocol.loads = as_it_came
    sys.addaudithook(refuse_names)


def without_errors(message: object) -> object:
    """A message of Dask, in which errors of others are no objects: Dask wants them as errors or as texts."""
    for it in message if isinstance(message, (list, tuple)) else [message]:
        if isinstance(it, dict) and "exception" in it:
            it.update(exception="an error elsewhere", traceback=None)
    return message


def refuse_names(event: str, given: tuple) -> None:
    """Ends each unpickling that looks up a name, wherever it is done."""
    if event == "pickle.find_class":
        raise ValueError(f"a pickle asks for {given[0]}.{given[1]}")


def bytes_of(found: object) -> bytes:
    """The bytes of an answer, where plain bytes were sent. Of anything else nothing is looked at."""
    from distributed import protocol

    try:
        header, frames = found.header, found.frames
        if header.get("serializer") == "dask" and "is-collection" not in header:
            return b"".join(protocol.decompress(header, frames) if "compression" in header else frames)
    except Exception:  # (whatever fails here, a worker has made fail)
        pass
    raise Unfit("something that is no bytes")


def read(given: bytes, most: int, is_packed: bool) -> Answer:
    """An answer, in which a run that went well wrote at most so many bytes."""
    head = FORM.match(given[:LONGEST_HEAD])
    if not head:
        raise Unfit("bytes that are no answer of a task")
    digest, status, length = (it.decode() for it in head.groups())
    if int(length) != len(given) - head.end():
        raise Unfit(f"an answer that is {'cut off' if int(length) > len(given) - head.end() else 'longer than it says'}")
    most = max(most, MOST_OF_FAULT)
    is_packed = is_packed and int(length) > 0
    written = unpacked(given[head.end() :], most) if is_packed else given[head.end() :]
    if len(written) > most:
        raise Unfit("more bytes than the task has")
    return Answer("" if digest == "none" else digest, None if status == "late" else int(status), written)


def unpacked(data: bytes, most: int) -> bytes:
    """Compressed bytes as they were, of which one more than `most` is made at most."""
    unpacking = zlib.decompressobj()
    try:
        found = unpacking.decompress(data, most + 1)
    except zlib.error as error:
        raise Unfit("what cannot be unpacked") from error
    if len(found) <= most and (not unpacking.eof or unpacking.unused_data):
        raise Unfit("what cannot be unpacked")
    return found
