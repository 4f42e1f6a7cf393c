"""The picture of a job in parts, as a raw file: the user's own where it is one, else one that is made of it, band by band."""
import os
import re
import shutil
import sys
from typing import BinaryIO, Callable, Iterator

from .. import converters, netpbm
from ..joining import Wanted, is_foreign, picture_section
from ..netpbm import HEAD, HEADER, Header, bytes_of, header_of
from ..demands import Area, Ends
from ..text import Refused, TooLarge, beginning, piped
from .reading import Picture, opened
from .whole import Fault

# about so many bytes are held at a time
BAND = 1 << 22
# as many bytes as the longest sample of a plain picture may have here, with its leading zeros
LONGEST = 64


def source(path: str, wanted: Wanted, said: list[str], room: str) -> Picture | None:
    """The picture that a job reads, or nothing where the bytes begin with none. What has to be made stands in the folder `room`."""
    name, path = path, in_place(path, f"{room}/input")
    start = beginning(path, HEAD)
    head = header_of(start)
    if head:
        refuse_head(start, head)
        wanted.refuse_page(path)
        found = opened(path) if head.is_raw else opened(unspelled(path, head, f"{room}/plain"))
        refuse_length(found)
        refuse_samples(found)
    elif is_foreign(start):
        found = unpacked(path, wanted, said, f"{room}/picture")
    else:
        return None
    found.name = name
    return with_planes(found, wanted, is_foreign(start), f"{room}/planes")


def in_place(path: str, room: str) -> str:
    """A file that can be read at any place: what is given, or a copy of what comes from a pipe or from standard input."""
    if path != "-" and os.path.isfile(path):
        return path
    try:
        if path in piped:
            return written(piped[path], room)
        with sys.stdin.buffer if path == "-" else open(path, "rb") as stream, open(room, "wb") as file:
            shutil.copyfileobj(stream, file, BAND)
    except OSError as error:
        raise Refused(f"{path}: {error.strerror}") from error
    return room


# raw and plain pictures


def refuse_head(start: bytes, head: Header) -> None:
    """Refuses sides and a greatest sample that are none."""
    at = HEADER.match(start)
    if not (head.cols and head.rows):
        raise Fault(f"picture: 4 BadSize at {at.start(3 if head.cols else 2)}")
    if not 1 <= head.most <= 65535:
        raise Fault(f"picture: 5 BadMax at {at.start(4)}")


def refuse_length(picture: Picture) -> None:
    """Refuses a raster that ends early, and bytes behind one."""
    length, wanted = os.fstat(picture.file.fileno()).st_size, picture.first + picture.rows * picture.cols * picture.width
    if length != wanted:
        raise Fault(f"picture: 7 RasterCut at {length}" if length < wanted else f"picture: 9 TrailingBytes at {wanted}")


def refuse_samples(picture: Picture) -> None:
    """Refuses the first sample above the greatest."""
    if picture.most in (255, 65535):
        return
    at = picture.first
    for band in bands(picture):
        samples = netpbm.Picture(1, 1, 1, picture.most, band).samples()
        if max(samples) > picture.most:
            number = next(number for number, it in enumerate(samples) if it > picture.most)
            raise Fault(f"picture: 8 SampleTooBig at {at + number * samples.itemsize}")
        at += len(band)


def bands(picture: Picture) -> Iterator[bytes]:
    """The samples, so many whole rows at a time."""
    rows = max(BAND // (picture.cols * picture.width), 1)
    for first in range(0, picture.rows, rows):
        ends = Ends(first, min(first + rows, picture.rows) - 1)
        yield picture.band(Area(ends, Ends(0, picture.cols - 1)))


def unspelled(path: str, head: Header, made: str) -> str:
    """A plain picture as a raw one."""
    with open(path, "rb") as file, open(made, "wb") as raw:
        file.seek(head.end)
        raw.write(b"P%d\n%d %d\n%d\n" % (5 if head.parts == 1 else 6, head.cols, head.rows, head.most))
        count = sum(raw.write(bytes_of(it, head.most)) for it in numbers(file, path, head.most))
    if count < head.length():
        raise Fault(f"picture: 7 RasterCut at {os.path.getsize(path)}")
    if count > head.length():
        width = 1 if head.most < 256 else 2
        raise Refused(f"{path}: the plain picture has {count // width} samples, and by its head {head.length() // width}")
    return made


def numbers(file: BinaryIO, path: str, most: int) -> Iterator[list[int]]:
    """The samples of a plain raster, some at a time."""
    rest = b""
    while data := file.read(BAND):
        *words, rest = re.split(rb"[ \t\r\n]+", rest + data)
        yield samples(words, path, most)
        if len(rest) > LONGEST:
            raise Refused(f"{path}: the plain picture has a word of more than {LONGEST} bytes")
    yield samples([rest], path, most)


def samples(words: list[bytes], path: str, most: int) -> list[int]:
    words = [it for it in words if it]
    wrong = next((it for it in words if not it.isdigit() or len(it) > LONGEST or int(it) > most), None)
    if wrong is not None:
        raise Refused(f"{path}: the plain picture has samples from 0 to {most}, and {wrong[:20].decode('ascii', 'replace')} is none")
    return [*map(int, words)]


# other formats, and other planes


def unpacked(path: str, wanted: Wanted, said: list[str], room: str) -> Picture:
    """A picture of another format: by vips, which streams, or small ones by tf itself."""
    try:
        if not converters.is_there() or os.path.getsize(path) < HEAD:
            data = picture_section(path, Wanted(page=wanted.page), said).data
            return opened(written(data, room))
    except TooLarge as error:
        if not converters.is_there():
            raise Refused(f"{error}; or install {converters.PACKAGE}, by which tf eval reads it for parts") from error
    os.makedirs(room)
    file = converters.Vips(path, room, said, seconds=None)
    converters.place(b"", path, room)
    return opened(converters.unpacked(file, wanted.page, None))


def written(data: bytes, path: str) -> str:
    with open(path, "wb") as file:
        file.write(data)
    return path


def with_planes(picture: Picture, wanted: Wanted, is_converted: bool, made: str) -> Picture:
    """The picture with the planes that are asked for, or that the program wants where that loses nothing."""
    wants_one, wants_three = wanted.declared == 1 and is_converted, wanted.declared == 3 and is_converted
    if picture.planes == 3 and (wanted.is_grey or (wants_one and all(band.is_grey_valued() for band in of_points(picture)))):
        return changed(picture, 1, netpbm.Picture.grey, made)
    if picture.planes == 1 and (wanted.is_colours or wants_three):
        return changed(picture, 3, netpbm.Picture.colours, made)
    return picture


def of_points(picture: Picture) -> Iterator[netpbm.Picture]:
    """The bands, each as a picture of one column."""
    return (netpbm.Picture(1, len(it) // picture.width, picture.planes, picture.most, it) for it in bands(picture))


def changed(picture: Picture, planes: int, change: Callable[[netpbm.Picture], netpbm.Picture], made: str) -> Picture:
    """The picture with each band changed."""
    with open(made, "wb") as file:
        file.write(b"P%d\n%d %d\n%d\n" % (5 if planes == 1 else 6, picture.cols, picture.rows, picture.most))
        for band in of_points(picture):
            file.write(change(band).raster)
    found = opened(made)
    found.name = picture.name
    return found
