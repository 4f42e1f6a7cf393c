"""Pictures of other formats, read and written by the program vips of libvips, and by nothing else.

What it gives is what stands in the file: as many planes, and samples of as many bits. Nothing is lost without a word, and what would lose
more than a word can say is refused: several pages, samples that are no whole numbers, a file that is cut off.
"""
import os
import re
from typing import NamedTuple

from . import leaving, metadata
from .joining import has_vips
from .netpbm import MOST_SIDE, Picture, picture_of
from .text import Refused, TooLarge
from .writing import Writing

PACKAGE = "libvips-tools (the programs vips and vipsheader, of libvips 8.12 or later)"
SECONDS = 120
MOST = {"uchar": 255, "ushort": 65535}
GREYS, COLOURS = ("b-w", "grey16"), ("srgb", "rgb16", "rgb")
ONLY_BYTES = (".jpg", ".jpeg", ".gif", ".bmp", ".webp")
# warnings that come where a part of a picture could not be read: vips may yet end with status 0 then
NOT_WHOLE = "(?i)error in tile|premature|truncat|unexpected end"
# as many bytes of a JPEG have its sides, unless it says very much before them
JPEG_BYTES = 1 << 20
NO_ORIENTATION = ("1", "0", "")
# vips tries one loader after the other, and ImageMagick at last. This leaves it those that are hardened, which read JPEG, PNG, TIFF, GIF, WebP and
# HEIF; so what only begins like one of these reaches no other (from libvips 8.13 on). Other formats are read by the one loader that is theirs.
HARDENED = {"VIPS_BLOCK_UNTRUSTED": "1"}
# vips looks for its modules, which read and write further formats, below a folder of this name. To load them takes as long as all else of its start.
WITHOUT_MODULES = {"VIPSHOME": "/nonexistent"}
# how a JPEG begins
JPEG_START = b"\xff\xd8\xff"
# how files begin that vips reads without modules (JPEG, PNG, TIFF, GIF and WebP), and the endings of those that it writes without
BUILT_IN, BUILT_IN_ENDINGS = (JPEG_START, b"\x89PNG\r\n\x1a\n", b"II*\0", b"MM\0*", b"GIF8", b"RIFF"), (".jpg", ".jpeg", ".tif", ".tiff", ".webp")
LOADERS = ((b"BM", "magickload"), (b"P7", "magickload"), (b"\0\0\0\x0cjP", "jp2kload"), (b"\xff\x4f\xff\x51", "jp2kload"), (b"\xff\x0a", "jxlload"),
           (b"\0\0\0\x0cJXL", "jxlload"), (b"v/1\x01", "openexrload"), (b"#?", "radload"))


class Head(NamedTuple):
    """What vips tells of a file."""

    cols: int
    rows: int
    bands: int
    form: str
    meaning: str
    pages: int
    orientation: str


class Vips:
    """One file, in a folder of its own: vips takes brackets and other marks in a name for words to itself."""

    def __init__(self, name: str, room: str, said: list[str] | None = None, seconds: int | None = SECONDS):
        self.name, self.room, self.said, self.seconds = name, room, [] if said is None else said, seconds

    def run(self, *words: str, **environment: str) -> str:
        """What a program of libvips writes; its warnings are passed on, and where it fails, why is told."""
        import subprocess

        env = {**os.environ, **environment}
        try:
            ran = leaving.run([*words], timeout=self.seconds, cwd=self.room, env=env, stdin=subprocess.DEVNULL, stdout=subprocess.PIPE,
                              stderr=subprocess.PIPE)
        except FileNotFoundError as error:
            raise Refused(f"{self.name}: tf reads and writes PNG, PGM, PPM and PBM itself, and other formats by vips, which is not here: "
                          f"install {PACKAGE}") from error
        except (OSError, subprocess.TimeoutExpired) as error:
            raise Refused(f"{self.name}: {error}") from error
        told = [it for it in map(message, ran.stderr.decode("utf-8", "replace").splitlines()) if it]
        if ran.returncode or any(re.search(NOT_WHOLE, it) for it in told):
            raise Refused(f"{self.name}: {words[0]} cannot do this: {'; '.join(dict.fromkeys(told)) or f'status {ran.returncode}'}")
        self.said += [f"{self.name}: vips warns: {it}" for it in dict.fromkeys(told)]
        return ran.stdout.decode("utf-8", "replace")

    def head(self, name: str = "given", **environment: str) -> Head:
        """What stands in a file's head."""
        found = dict(re.findall(r"^([a-z-]+): (.*)$", self.run("vipsheader", "-a", name, **environment), re.M))
        try:
            sides = int(found["width"]), int(found["height"]), int(found["bands"])
            return Head(*sides, found["format"], found["interpretation"], int(found.get("n-pages", 1)), found.get("orientation", ""))
        except (KeyError, ValueError) as error:
            raise Refused(f"{self.name}: vipsheader tells no {error} of it; {PACKAGE} is wanted") from error


def head_of_jpeg(path: str) -> Head | None:
    """What vipsheader tells of an ordinary JPEG, read here: that takes less time than to start it."""
    with open(path, "rb") as file:
        return head_in_jpeg(file.read(JPEG_BYTES))


def head_in_jpeg(data: bytes) -> Head | None:
    """The same of a file's bytes, or of the first of them."""
    sides = metadata.sides_of_jpeg(data)
    if sides is None or sides.planes not in (1, 3) or sides.depth != 8:
        return None
    return Head(sides.cols, sides.rows, sides.planes, "uchar", "b-w" if sides.planes == 1 else "srgb", 1, sides.orientation)


def message(line: str) -> str:
    """What a line of vips says, without its clock and its number."""
    return re.sub(r"^(\(.*?\): )?([\w-]+-WARNING \*\*: )?([\d:.]+: )?", "", line.strip())


def is_there() -> bool:
    return has_vips()


def place(given: bytes, path: str, room: str) -> None:
    """Puts the file where vips finds it, under a name that says nothing."""
    if os.path.isfile(path):
        os.symlink(os.path.abspath(path), f"{room}/given")
        return
    with open(f"{room}/given", "wb") as file:
        file.write(given)


def read(given: bytes, path: str, room: str, page: int | None = None) -> tuple[Picture, list[str]]:
    """The picture of a file, and what is said of it; `room` is an empty folder."""
    file = Vips(path, room)
    place(given, path, room)
    with open(unpacked(file, page, MOST_SIDE), "rb") as written:
        found = picture_of(written.read())
    if not found:
        raise Refused(f"{path}: vips made no picture of it that tf reads")
    return found[0], file.said


def unpacked(file: Vips, page: int | None, most_side: int | None) -> str:
    """The file of a raw picture that is made of the given one, which was put in its place."""
    start = start_of(file)
    loader = next((loader for sign, loader in LOADERS if start.startswith(sign)), "")
    made, allowed = ("loaded.v", {}) if loader else ("given", HARDENED | (WITHOUT_MODULES if start.startswith(BUILT_IN) else {}))
    if loader:
        file.run("vips", loader, "given", made, "--fail-on", "error")
    head = head_of_jpeg(f"{file.room}/given") or file.head(made, **allowed)
    refuse(head, file.name, page, most_side)
    if loader and page not in (None, 1):
        file.run("vips", loader, "given", made, "--fail-on", "error", "--page", str(page - 1))
    elif not loader:
        words = "fail-on=error" if page is None or head.pages == 1 else f"fail-on=error,page={page - 1}"
        made = f"given[{words}]"
    for number, step in enumerate(steps(head, file)):
        file.run("vips", step[0], made, f"made{number}.v", *step[1:], **allowed)
        made, allowed = f"made{number}.v", WITHOUT_MODULES
    raw = "raw.pgm" if head.meaning in GREYS else "raw.ppm"
    file.run("vips", "copy", made, raw, **allowed)
    refuse_cut(file, start)
    return f"{file.room}/{raw}"


def refuse_cut(file: Vips, start: bytes) -> None:
    """Refuses a JPEG that is cut off where vips took it: whether it sees that is a matter of time, as its threads run."""
    if not start.startswith(JPEG_START):
        return
    with open(f"{file.room}/given", "rb") as given:
        if metadata.is_cut_jpeg(given.read()):
            raise Refused(f"{file.name}: vips cannot do this: premature end of the JPEG")


def start_of(file: Vips) -> bytes:
    """The bytes that the given file begins with, by which its loader is known."""
    with open(f"{file.room}/given", "rb") as given:
        return given.read(16)


def steps(head: Head, file: Vips) -> list[tuple[str, ...]]:
    """What makes whole planes of the file that stand upright: each with the words of vips behind its files."""
    found, bands, count = [], head.bands, 1 if head.meaning in GREYS else 3
    if head.orientation not in NO_ORIENTATION:
        found.append(("autorot",))
    if head.meaning == "cmyk":
        file.said.append(f"{file.name}: its inks (CMYK) are made red, green and blue")
        found.append(("colourspace", "srgb"))
        bands -= 1
    if bands > count:
        file.said.append(f"{file.name}: its transparency (alpha) is left out")
        found.append(("extract_band", "0", "--n", str(count)))
    return found


def refuse(head: Head, path: str, page: int | None, most_side: int | None) -> None:
    """Refuses what is no picture of whole numbers, or not one picture, or too large where sides have a limit."""
    if head.form not in MOST:
        kind = "floating point" if "float" in head.form or head.form.endswith(("double", "complex")) else head.form
        raise Refused(f"{path}: its samples are {kind} ({head.form}); tf takes whole numbers of 8 or 16 bits: scale them first")
    if head.meaning not in (*GREYS, *COLOURS, "cmyk") or head.bands > 5:
        raise Refused(f"{path}: its {head.bands} channels are {head.meaning}; tf takes grey, colours and CMYK")
    if head.pages > 1 and page is None:
        raise Refused(f"{path}: it has {head.pages} pages or frames; name one: --page 1 to --page {head.pages}", 1)
    if page is not None and not 1 <= page <= head.pages:
        raise Refused(f"{path}: it has no page {page}, but {head.pages}", 1)
    if most_side and max(head.cols, head.rows) > most_side:
        raise TooLarge(f"{path}: {head.cols} by {head.rows} points; a side has 1 to {MOST_SIDE}: make it smaller first, as by\n"
                      f"    vips thumbnail {path} smaller.png {MOST_SIDE} --height {MOST_SIDE}")


def write(picture: Picture, path: str, room: str, how: Writing = Writing()) -> tuple[bytes, list[str]]:
    """The picture as a file of the format that the path's ending names, and what is said of it."""
    file = Vips(path, room)
    most = most_of(picture.most, file)
    with open(f"{room}/picture.ppm", "wb") as made:
        scaled = picture.scaled(most)
        made.writelines((scaled.head(), scaled.raster))
    with open(packed("picture.ppm", file, how), "rb") as written:
        return written.read(), file.said


def most_of(most: int, file: Vips) -> int:
    """The greatest sample of a format for a picture's; what is to be said of that is said."""
    ending = os.path.splitext(file.name)[1].lower()
    found = 255 if most < 256 or ending in ONLY_BYTES else 65535
    if found != most:
        file.said.append(f"{file.name}: samples from 0 to {most} are scaled to 0 to {found}, which {ending} has")
    if ending == ".gif":
        file.said.append(f"{file.name}: a GIF has at most 256 colours; name another format where that loses some")
    return found


def packed(raw: str, file: Vips, how: Writing = Writing()) -> str:
    """The file of the format that the name's ending says, made of a raw picture in the file's folder."""
    is_built_in = os.path.splitext(file.name)[1].lower() in BUILT_IN_ENDINGS
    file.run(*words_of_writing(raw, file.name, file.room, how), **WITHOUT_MODULES if is_built_in else {})
    return written_in(file.room, file.name)


def words_of_writing(raw: str, path: str, room: str, how: Writing) -> list[str]:
    """The words by which vips writes a raw picture in a folder as a file of the format that a name's ending says."""
    with open(f"{room}/profile", "wb") as profile:
        profile.write(how.metadata.profile)
    written = os.path.basename(written_in(room, path))
    return ["vips", "copy", raw, f"{written}{how.words(os.path.splitext(written)[1], 'profile')}"]


def written_in(room: str, path: str) -> str:
    """The file in a folder that becomes the one of this name."""
    return f"{room}/written{os.path.splitext(path)[1].lower()}"
