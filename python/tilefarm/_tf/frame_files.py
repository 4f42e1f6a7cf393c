"""The frames of a film: those of a folder, those that a numbered name stands for, or a stream of PGM and PPM pictures; and where results go."""
import itertools
import os
import re
import sys
from typing import BinaryIO, Iterator, NamedTuple

from .many import named
from .netpbm import HEAD, header_of
from .output import PICTURES, ending
from .text import Refused
from .words import NAME

NUMBERED = re.compile(r"%(0?\d*)d")
# the numbers with which a numbered name may begin
FIRST_NUMBERS = range(5)
READ = (*PICTURES, ".pbm", ".bmp")


class Frame(NamedTuple):
    """A frame: how it is called, its number, and its bytes where it has no file."""

    name: str
    number: int
    data: bytes | None = None


def frames_of(source: str) -> Iterator[Frame]:
    """The frames in their order, each when it is asked for."""
    if source == "-":
        return streamed(sys.stdin.buffer)
    if os.path.isdir(source):
        return in_folder(source)
    if NUMBERED.search(source):
        return numbered(source)
    raise Refused(f"{source}: frames are a folder, a numbered name as frame-%05d.pgm, or - for a stream of PGM and PPM pictures", 1)


def count_of(source: str) -> int | None:
    """How many frames there are, where that is known before they are read."""
    return None if source == "-" else sum(1 for _ in frames_of(source))


def files_of(source: str) -> frozenset[tuple[int, int]]:
    """The files of all frames that have some, each by what the system knows it by, under whatever name."""
    found = frozenset() if source == "-" else frozenset(identity(it.name) for it in frames_of(source))
    return found - {None}


def identity(path: str) -> tuple[int, int] | None:
    """The device of a file and its number there; nothing where there is no file."""
    try:
        it = os.stat(path)
    except OSError:
        return None
    return it.st_dev, it.st_ino


def in_folder(folder: str) -> Iterator[Frame]:
    """The pictures of a folder, in the order of their names; numbers in names count as numbers."""
    names = sorted((it for it in os.listdir(folder) if ending(it) in READ), key=order)
    if not names:
        raise Refused(f"{folder}: there is no picture in this folder")
    yield from (Frame(os.path.join(folder, it), at) for at, it in enumerate(names, 1))


def order(name: str) -> list[tuple[int, str]]:
    return [(int(it), "") if it.isdecimal() else (0, it) for it in re.split(r"(\d+)", name)]


def numbered(source: str) -> Iterator[Frame]:
    """The files from the first number on that has one, up to the first that has none."""
    first = next((it for it in FIRST_NUMBERS if os.path.exists(with_number(source, it))), None)
    if first is None:
        raise Refused(f"{source}: there is no {with_number(source, 0)} and no {with_number(source, 1)}: frames begin with a number from 0 to 4")
    for number in itertools.count(first):
        path = with_number(source, number)
        if not os.path.exists(path):
            return
        yield Frame(path, number)


def with_number(name: str, number: int) -> str:
    """A numbered name for one frame."""
    return NUMBERED.sub(lambda it: f"{number:{it[1]}d}", name, count=1)


def streamed(file: BinaryIO) -> Iterator[Frame]:
    """The raw pictures of a stream, as ffmpeg's image2pipe and tools of netpbm write them."""
    data = b""
    for number in itertools.count(1):
        while (head := header_of(data)) is None and len(data) < HEAD and (more := file.read1(HEAD)):
            data += more
        if not data and number > 1:
            return
        if not data:
            raise Refused("the stream has no picture")
        if head is None or not head.is_raw:
            raise Refused(f"frame {number} of the stream: no raw PGM or PPM begins here")
        missing = head.end + head.length() - len(data)
        rest = file.read(missing) if missing > 0 else b""
        if len(rest) < missing:
            raise Refused(f"frame {number} of the stream: the stream ends within it")
        data += rest
        yield Frame(f"frame {number} of the stream", number, data[: head.end + head.length()])
        data = data[head.end + head.length() :]


class Targets:
    """Where results go: a stream on standard output, a numbered name, a name with {name}, or a folder, in which a result has its frame's name."""

    def __init__(self, source: str, target: str | None):
        self.target = target
        is_numbered = target is not None and bool(NUMBERED.search(target))
        self.is_folder = target is not None and not is_numbered and NAME not in target
        if target is not None and not is_numbered and (source == "-" or (self.is_folder and ending(target) in PICTURES)):
            raise Refused(f"{target}: frames have as many results: number them, as out-%05d.png, or name a folder where the frames have names", 1)

    def path(self, frame: Frame) -> str | None:
        """The file of a frame's result; none where it goes to standard output."""
        if self.target is None:
            return None
        if self.is_folder:
            return os.path.join(self.target, os.path.basename(frame.name))
        return with_number(named(frame.name, self.target), frame.number)
