"""Fact files as gzip packs them, read and written a block at a time."""
import zlib
from typing import Iterable, Iterator

from .text import Refused

# how many bytes are read at a time, how a packed file begins, and the ending of its name
BLOCK, BEGINS, ENDING = 1 << 20, b"\x1f\x8b", ".gz"
# the form of gzip, and how hard it is tried: more than the least takes far longer and saves a tenth, since most of a fact is zeros
FORM, LEVEL = 31, 1


def unpacked(blocks: Iterator[bytes], path: str) -> Iterator[bytes]:
    """Bytes as they come, unless they begin as what gzip packs: then what was packed."""
    first = next(blocks, b"")
    while len(first) < len(BEGINS) and (more := next(blocks, b"")):
        first += more
    if not first.startswith(BEGINS):
        yield first
        yield from blocks
        return
    given, packer = first, zlib.decompressobj(FORM)
    while given:
        try:
            yield packer.decompress(given, BLOCK)
        except zlib.error as error:
            raise Refused(f"{path}: what gzip packed cannot be unpacked ({error})") from error
        given = (packer.unused_data if packer.eof else packer.unconsumed_tail) or next(blocks, b"")
        if packer.eof and given:
            packer = zlib.decompressobj(FORM)
    if not packer.eof:
        raise Refused(f"{path}: what gzip packed is cut off")


class Packed:
    """What gzip unpacks to bytes that come in blocks. It has no time and no name, so that equal facts are equal files."""

    def __init__(self, blocks: Iterable[bytes]):
        self.blocks = blocks

    def __iter__(self) -> Iterator[bytes]:
        packer = zlib.compressobj(LEVEL, wbits=FORM)
        for it in self.blocks:
            if data := packer.compress(it):
                yield data
        yield packer.flush()
