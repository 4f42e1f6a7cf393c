"""PNG pictures, read and written with zlib alone (the format is ISO/IEC 15948)."""
import os
import struct
import zlib
from typing import BinaryIO, Iterable, Iterator, NamedTuple

from . import lanes, unfiltering
from .netpbm import MOST_SIDE, Picture
from .text import Refused, TooLarge

SIGNATURE = b"\x89PNG\r\n\x1a\n"
GREY, COLOURS, PALETTE, GREY_ALPHA, COLOURS_ALPHA = 0, 2, 3, 4, 6
CHANNELS = {GREY: 1, COLOURS: 3, PALETTE: 1, GREY_ALPHA: 2, COLOURS_ALPHA: 4}
DEPTHS = {GREY: (1, 2, 4, 8, 16), COLOURS: (8, 16), PALETTE: (1, 2, 4, 8), GREY_ALPHA: (8, 16), COLOURS_ALPHA: (8, 16)}
# a picture of more bytes is written soon rather than short
LARGE = 1 << 20
# the last part of a stream of zlib, which holds nothing
END = b"\x03\x00"
# the seven passes of an interlaced picture: first row and column, and the steps
PASSES = ((0, 0, 8, 8), (0, 4, 8, 8), (4, 0, 8, 4), (0, 2, 4, 4), (2, 0, 4, 2), (0, 1, 2, 2), (1, 0, 2, 1))


class Head(NamedTuple):
    cols: int
    rows: int
    depth: int
    kind: int
    packing: int
    filters: int
    interlaced: int

    @property
    def channels(self) -> int:
        return CHANNELS[self.kind]

    def stride(self, cols: int) -> int:
        """The bytes of a row of so many points."""
        return (cols * self.channels * self.depth + 7) // 8

    def passes(self) -> list[tuple[int, int, int, int]]:
        """First row, first column and steps of each part that the data has."""
        every = PASSES if self.interlaced else ((0, 0, 1, 1),)
        return [it for it in every if it[0] < self.rows and it[1] < self.cols]


def read(data: bytes, name: str) -> tuple[Picture, list[str]]:
    """The picture, grey or in colours, and what is said of it to the user."""
    if not data.startswith(SIGNATURE):
        raise Refused(f"{name}: no PNG picture")
    parts = list(chunks(data, name))
    head = head_of(parts, name)
    passes = unpacked(parts, head, name)
    samples = placed(passes, head) if head.interlaced or head.depth < 8 else next(passes)
    return finished(samples, head, dict(parts), name)


def chunks(data: bytes, name: str) -> Iterator[tuple[bytes, bytes]]:
    """The name and the data of each chunk, up to the last."""
    at = len(SIGNATURE)
    while at + 12 <= len(data):
        length, kind = struct.unpack_from(">I4s", data, at)
        body = data[at + 8 : at + 8 + length]
        if data[at + 8 + length : at + 12 + length] != struct.pack(">I", zlib.crc32(kind + body)):
            raise Refused(f"{name}: the PNG is damaged in its part {kind.decode('latin-1')} (byte {at})")
        yield kind, body
        if kind == b"IEND":
            return
        at += 12 + length
    raise Refused(f"{name}: the PNG is cut off (byte {len(data)})")


def head_of(parts: list[tuple[bytes, bytes]], name: str) -> Head:
    """The header, whose sides and kind can be read here."""
    if not parts or parts[0][0] != b"IHDR" or len(parts[0][1]) != 13:
        raise Refused(f"{name}: the PNG has no header")
    head = Head(*struct.unpack(">IIBBBBB", parts[0][1]))
    if head.depth not in DEPTHS.get(head.kind, ()) or head.packing or head.filters or head.interlaced > 1:
        raise Refused(f"{name}: a PNG of kind {head.kind} with {head.depth} bits, which does not exist")
    if not (0 < head.cols <= MOST_SIDE and 0 < head.rows <= MOST_SIDE):
        raise TooLarge(f"{name}: {head.cols} by {head.rows} points; a side has 1 to {MOST_SIDE}: make it smaller first")
    return head


def unpacked(parts: list[tuple[bytes, bytes]], head: Head, name: str) -> Iterator[bytes]:
    """The rows of each pass, with their filters undone."""
    sizes = [(len(range(r, head.rows, dr)), head.stride(len(range(c, head.cols, dc)))) for r, c, dr, dc in head.passes()]
    length = sum(rows * (stride + 1) for rows, stride in sizes)
    try:
        data = zlib.decompressobj().decompress(b"".join(body for kind, body in parts if kind == b"IDAT"), length)
    except zlib.error as error:
        raise Refused(f"{name}: the PNG's data is damaged ({error})") from error
    if len(data) < length:
        raise Refused(f"{name}: the PNG has fewer rows than it says")
    at, step = 0, max(1, head.channels * head.depth // 8)
    for rows, stride in sizes:
        end = at + rows * (stride + 1)
        refuse_filters(data[at : end : stride + 1], name)
        yield pass_of(data[at:end], stride, step)
        at = end


def refuse_filters(kinds: bytes, name: str) -> None:
    """Refuses rows of filters that do not exist."""
    if max(kinds) > unfiltering.PAETH:
        raise Refused(f"{name}: the PNG has a row of filter {max(kinds)}, which does not exist")


def pass_of(data: bytes, stride: int, step: int) -> bytes:
    """The rows of a pass, with their filters undone."""
    found, prior, size = [], bytes(stride), unfiltering.BLOCK * (stride + 1)
    for at in range(0, len(data), size):
        found.append(unfiltering.undone(data[at : at + size], stride, step, prior))
        prior = found[-1][-stride:]
    return b"".join(found)


def placed(passes: Iterator[bytes], head: Head) -> bytes:
    """The samples of all passes where they belong."""
    samples = bytearray(head.rows * head.cols * head.channels * (2 if head.depth == 16 else 1))
    for part, rows in zip(head.passes(), passes):
        place(samples, head, part, rows)
    return bytes(samples)


def place(samples: bytearray, head: Head, part: tuple[int, int, int, int], rows: bytes) -> None:
    """Puts the rows of a pass where they belong."""
    first_row, first_col, row_step, col_step = part
    width = head.channels * (2 if head.depth == 16 else 1)
    cols = len(range(first_col, head.cols, col_step))
    stride = head.stride(cols)
    for number, at in enumerate(range(first_row, head.rows, row_step)):
        row = whole_bytes(rows[number * stride : (number + 1) * stride], head, cols)
        start, end = at * head.cols * width, (at + 1) * head.cols * width
        for byte in range(width):
            samples[start + first_col * width + byte : end : col_step * width] = row[byte::width]


def whole_bytes(row: bytes, head: Head, cols: int) -> bytes:
    """A row with a byte for each sample that has fewer than eight bits."""
    if head.depth >= 8:
        return row
    count, mask = 8 // head.depth, (1 << head.depth) - 1
    shifts = [8 - head.depth * (at + 1) for at in range(count)]
    return bytes([it >> shift & mask for it in row for shift in shifts][:cols])


def finished(samples: bytes, head: Head, parts: dict[bytes, bytes], name: str) -> tuple[Picture, list[str]]:
    """The picture of unpacked samples, without alpha and palette."""
    said = []
    if head.kind in (GREY_ALPHA, COLOURS_ALPHA):
        samples, said = without_alpha(samples, head), [f"{name}: its transparency (alpha) is left out"]
    elif b"tRNS" in parts:
        said = [f"{name}: its transparency is left out"]
    if head.kind == PALETTE:
        return of_palette(samples, head, parts.get(b"PLTE", b""), name), said
    count, most = 1 if head.kind in (GREY, GREY_ALPHA) else 3, 65535 if head.depth == 16 else 255
    if head.depth < 8:
        samples = samples.translate(bytes(it * 255 // ((1 << head.depth) - 1) & 255 for it in range(256)))
    return Picture(head.cols, head.rows, count, most, samples), said


def without_alpha(samples: bytes, head: Head) -> bytes:
    width = 2 if head.depth == 16 else 1
    keep, every = (head.channels - 1) * width, head.channels * width
    found = bytearray(len(samples) // every * keep)
    for at in range(keep):
        found[at::keep] = samples[at::every]
    return bytes(found)


def of_palette(samples: bytes, head: Head, palette: bytes, name: str) -> Picture:
    if max(samples, default=0) * 3 + 3 > len(palette):
        raise Refused(f"{name}: the PNG has points whose colour is not in its palette")
    found = bytearray(3 * len(samples))
    for part in range(3):
        found[part::3] = samples.translate(palette[part::3].ljust(256, b"\0")[:256])
    return Picture(head.cols, head.rows, 3, 255, bytes(found))


def write(picture: Picture, is_soon: bool = False) -> tuple[bytes, list[str]]:
    """The picture as PNG, of 8 bits where its greatest sample is below 256 and of 16 otherwise, and what is said of it. A large one, and one
    that is wanted soon, is not as short as it gets."""
    most, said = depth_of(picture.most)
    raster, stride = picture.scaled(most).raster, picture.cols * picture.parts * (1 if most == 255 else 2)
    body = smallest(raster, stride) if len(raster) < LARGE and not is_soon else soon(raster, stride)
    return SIGNATURE + b"".join(map(chunk, (b"IHDR", b"IDAT", b"IEND"), (header(picture), body, b""))), said


def depth_of(most: int) -> tuple[int, list[str]]:
    """The greatest sample of a PNG for a picture's, and what is said where that is another."""
    found = 255 if most < 256 else 65535
    return found, [] if found == most else [f"samples from 0 to {most} are scaled to 0 to {found}, which PNG has"]


def header(picture: Picture) -> bytes:
    kind = GREY if picture.parts == 1 else COLOURS
    return struct.pack(">IIBBBBB", picture.cols, picture.rows, 8 if picture.most < 256 else 16, kind, 0, 0, 0)


def write_bands(first: Picture, bands: Iterable[bytes], file: BinaryIO) -> None:
    """Writes a picture that comes in bands of whole rows, of which one at a time is held. `first` has its sides, and no samples."""
    stride, packer = first.cols * first.parts * (1 if first.most < 256 else 2), zlib.compressobj(1)
    file.write(SIGNATURE + chunk(b"IHDR", header(first)))
    for band in bands:
        if data := packer.compress(plain_rows(band, stride)):
            file.write(chunk(b"IDAT", data))
    file.write(chunk(b"IDAT", packer.flush()) + chunk(b"IEND", b""))


def smallest(raster: bytes, stride: int) -> bytes:
    """The rows as short as they get."""
    return min((zlib.compress(rows, 9) for rows in (plain_rows(raster, stride), upper_rows(raster, stride))), key=len)


def soon(raster: bytes, stride: int) -> bytes:
    """The rows of a large picture, with what makes a strip of its middle shorter. Strips are compressed side by side, each for itself."""
    middle = len(raster) // stride // 2 * stride
    strip = raster[middle : middle + 32 * stride]
    rows = min((plain_rows, upper_rows), key=lambda it: len(zlib.compress(it(strip, stride), 1)))(raster, stride)
    strips = [rows[at : at + LARGE] for at in range(0, len(rows), LARGE)]
    return b"".join((b"\x78\x01", *all_deflated(strips), END, struct.pack(">I", zlib.adler32(rows))))


def all_deflated(strips: list[bytes]) -> list[bytes]:
    """The strips compressed; one alone takes no thread."""
    if len(strips) == 1:
        return [deflated(strips[0])]
    from concurrent.futures import ThreadPoolExecutor

    with ThreadPoolExecutor(os.cpu_count()) as pool:
        return [*pool.map(deflated, strips)]


def deflated(strip: bytes) -> bytes:
    """A part of a stream of zlib that takes nothing from what stands before it, and ends with a whole byte."""
    made = zlib.compressobj(1, zlib.DEFLATED, -zlib.MAX_WBITS)
    return made.compress(strip) + made.flush(zlib.Z_FULL_FLUSH)


def plain_rows(raster: bytes, stride: int) -> bytes:
    return b"".join(b"\0" + raster[at : at + stride] for at in range(0, len(raster), stride))


def upper_rows(raster: bytes, stride: int) -> bytes:
    """Each row as its difference from the row above."""
    rows = [raster[at : at + stride] for at in range(0, len(raster), stride)]
    numbers = [0, *(int.from_bytes(it, "little") for it in rows)]
    return b"".join(b"\2" + lanes.less(it, above, stride).to_bytes(stride, "little") for above, it in zip(numbers, numbers[1:]))


def chunk(name: bytes, data: bytes) -> bytes:
    return struct.pack(">I", len(data)) + name + data + struct.pack(">I", zlib.crc32(name + data))
