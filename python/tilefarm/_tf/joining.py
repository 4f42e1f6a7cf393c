"""From the user's files to the input of `tilefarm`: the program, a line `%%`, and the picture; or what else a command takes."""
from typing import Iterable, Mapping, NamedTuple, NoReturn

from . import leaving
from .netpbm import MOST_SIDE, Header, Picture, bits, header_of, picture_of
from .parser import known_program
from .program import Item
from .running import on_path
from .settings import given_values, supplied, with_greatest
from .tables import Line, lines_of, ordered
from .text import Refused, Text, content, standard_input
from .usage import FACTS, Command

SEPARATOR = b"%%\n"
PNG = b"\x89PNG\r\n\x1a\n"
# a PNG of fewer bytes is read here sooner than vips starts
SMALL = 1 << 16


class Wanted(NamedTuple):
    """What is asked of a picture: how many planes it is to have, if that is said; which page; and how many planes the program names."""

    is_grey: bool = False
    is_colours: bool = False
    page: int | None = None
    declared: int = 0

    def planes(self, picture: Picture) -> Picture:
        """The picture with the planes that are asked for. What loses nothing is done unasked where the program wants it: one plane of three
        equal ones, and three equal planes of one."""
        if self.is_grey or (self.declared == 1 and picture.is_grey_valued()):
            return picture.grey()
        return picture.colours() if self.is_colours or self.declared == 3 else picture

    def refuse_whole(self, path: str) -> None:
        if self.is_grey or self.is_colours or self.page is not None:
            raise Refused(f"{path}: the picture of a whole input is taken as it stands; give program and picture as two files", 1)

    def refuse_page(self, path: str) -> None:
        if self.page not in (None, 1):
            raise Refused(f"{path}: it has no page {self.page}, but 1", 1)


class Section:
    """A part of the input: the user's text, what stands for it in the input, and whether these are the same. Where several
    files stand one behind the other, `more` has the texts behind the first."""

    def __init__(self, text: Text, data: bytes, is_own: bool = True, more: Iterable[Text] = ()):
        self.text, self.data, self.is_own, self.more = text, data, is_own, [*more]

    def texts(self) -> list[Text]:
        return [self.text, *self.more]


class Input:
    """The sections of an input by name, the lines of tables before its picture, its bytes, and values that `tf` supplies."""

    def __init__(self, sections: dict[str, Section], data: bytes, tables: Iterable[Line] = (), supplied: Mapping[str, int] | None = None):
        self.sections, self.data, self.tables, self.supplied = sections, data, [*tables], {**(supplied or {})}

    def last(self) -> bytes:
        """The last section: the lines of tables, and the picture."""
        return table_bytes(self.tables) + self.sections["picture"].data

    def section(self, name: str) -> Section | None:
        return self.sections.get(name)

    def header(self) -> Header | None:
        """The picture's header, if there is a picture that has one."""
        picture = self.section("picture")
        return header_of(picture.data) if picture else None


def joined(command: Command, files: list[str], wanted: Wanted, said: list[str], tables: list[str], words: Iterable[str] = ()) -> Input:
    """The input of a command, from its files and those of tables. What is to be said to the user is added to `said`. A plan needs no
    picture, only its sides, which the values among the words may give."""
    if command.name == "plan" and len(files) == 1 and files[0] != "-" and known_program(content(files[0])):
        return planned(files[0], given_values(words), tables)
    if len(files) == 1 and len(command.files) > 1:
        wanted.refuse_whole(files[0])
        if tables:
            refuse_tables()
        return whole_input(command, files[0])
    takes_more = FACTS in command.files and len(files) > len(command.files)
    if len(files) != len(command.files) and not takes_more:
        kinds = " ".join(f"{it.upper()}{'...' if it == FACTS else ''}" for it in command.files)
        raise Refused(f"tf {command.name} takes {kinds}, and got {len(files)} files", 1)
    refuse_exchanged(command, files)
    is_parted, given = len(command.sections) > 1, {}
    for kind, path in zip(command.files, files):
        given[kind] = picture_section(path, wanted, said) if kind == "picture" else section(kind, path, is_parted)
        if kind == "program":
            wanted = wanted._replace(declared=planes_of(given[kind].data))
    for path in files[len(command.files) :]:
        append(given[FACTS], section(FACTS, path, is_parted))
    sections = {kind: given[kind] for kind in command.sections}
    lines, values = handed_in(given.get("program"), tables), fitted(sections, given_values(words))
    parts = [table_bytes(lines) * (kind == "picture") + it.data for kind, it in sections.items()]
    return Input(sections, SEPARATOR.join(parts), lines, values)


def fitted(sections: dict[str, Section], values: dict[str, int]) -> dict[str, int]:
    """Gives the program's output the greatest sample where its comment asks for that, and answers the values that `tf` supplies."""
    known = known_program(sections["program"].data) if {"program", "picture"} <= set(sections) else None
    if known is None:
        return {}
    head, program = header_of(sections["picture"].data), sections["program"]
    program.data = with_greatest(program.data, known, values, head)
    return supplied(known, values, head)


def handed_in(program: Section | None, tables: list[str]) -> list[Line]:
    """The lines of the tables' files, in the order in which the program declares them; as they come, where it is no program."""
    if program is None:
        return []
    given = read_lines(tables)
    known = known_program(program.data)
    return ordered(known, given) if known else given


def read_lines(tables: list[str]) -> list[Line]:
    """The lines of the tables' files, as they come."""
    return [line for path in tables for line in lines_of(path, read_file(path))]


def refuse_tables() -> NoReturn:
    """Refuses tables beside a whole input."""
    raise Refused("--table goes with a program and a picture in files of their own: a whole input has its tables before the picture", 1)


def table_bytes(lines: list[Line]) -> bytes:
    return b"".join(it.data + b"\n" for it in lines)


def planned(path: str, values: dict[str, int], tables: list[str]) -> Input:
    """A program with an empty picture of the sides that it asks for."""
    program = section("program", path, True)
    found = known_program(program.data)
    item = next((it for it in found.items if it.kind == "image"), None) if found else None
    sides = [it.value(values) if item and all(name in values for _, name in it.terms if name) else 0 for it in item.extents] if item else [1, 1]
    if 0 in sides:
        raise Refused(f"without a picture plan wants the values of its sides: tf plan {path} {wants(item)}", 1)
    if not all(0 < it <= MOST_SIDE for it in sides):
        raise Refused(f"a picture of {sides[0]} by {sides[1]} points is none: a side has 1 to {MOST_SIDE}", 1)
    parts = 3 if item and len(item.names) == 3 else 1
    raster = bytes(sides[0] * sides[1] * parts)
    picture = Picture(sides[1], sides[0], parts, 255, raster).raw()
    sections = {"program": program, "picture": Section(Text("no picture", picture), picture, is_own=False)}
    lines, more = handed_in(program, tables), fitted(sections, values)
    return Input(sections, SEPARATOR.join((program.data, table_bytes(lines) + picture)), lines, more)


def wants(item: Item) -> str:
    """The words that give a picture's sides."""
    return " ".join(dict.fromkeys(f"{name}=100" for it in item.extents for _, name in it.terms if name))


def refuse_exchanged(command: Command, files: list[str]) -> None:
    """Refuses a picture in the place of the program."""
    if command.files[:1] == ("program",) and files[0] != "-" and is_picture(content(files[0])):
        raise Refused(f"{files[0]} is a picture, and the program is wanted here: exchange the two, as tf {command.name} {files[1]} {files[0]}", 1)


def is_picture(data: bytes) -> bool:
    return is_foreign(data) or header_of(data) is not None


def planes_of(text: bytes) -> int:
    """How many planes a program's picture has, or none where that is not to be known."""
    found = known_program(text)
    return next((len(it.names) for it in found.items if it.kind == "image"), 0) if found else 0


def section(kind: str, path: str, is_parted: bool) -> Section:
    data = ended(unpacked_facts(path) if kind == FACTS else read_file(path))
    if is_parted:
        refuse_separator(path, data, "the program's text" if kind == "program" else "this text")
    return Section(Text(path, data), data)


def append(first: Section, other: Section) -> None:
    """Lets a file stand behind those that are there."""
    first.data += other.data
    first.more.append(other.text)


def read_file(path: str) -> bytes:
    """The bytes of a file, and of standard input where it is named -."""
    return standard_input() if path == "-" else content(path)


def unpacked_facts(path: str) -> bytes:
    """The text of a fact file, which gzip may have packed."""
    data = read_file(path)
    if not data.startswith(b"\x1f\x8b"):
        return data
    from .packing import unpacked

    return b"".join(unpacked(iter([data]), path))


def ended(data: bytes) -> bytes:
    """A text with an LF at its end, so that the separator stands on a line of its own."""
    return data if not data or data.endswith(b"\n") else data + b"\n"


def refuse_separator(path: str, data: bytes, what: str) -> None:
    at = (b"\n" + data).find(b"\n" + SEPARATOR)
    if at >= 0:
        drawing = "\n".join(Text(path, data).place(at, 2).drawing())
        raise Refused(f"a line that is exactly %% ends {what}\n{drawing}\n"
                      "Take the line out, or give this file alone if the picture stands behind it.")


def picture_section(path: str, wanted: Wanted, said: list[str]) -> Section:
    """A picture as PGM or PPM: as it is where it is one and nothing else is asked for, else converted."""
    data = read_file(path)
    if not is_foreign(data):
        return own_picture(path, data, wanted)
    picture, words = converted(path, data, wanted.page)
    said += words
    return Section(Text(path, data), wanted.planes(picture).raw(), is_own=False)


def own_picture(path: str, data: bytes, wanted: Wanted) -> Section:
    """A PGM or PPM picture as it stands, or with other planes where that is asked."""
    wanted.refuse_page(path)
    found = picture_of(data) if wanted.is_grey or wanted.is_colours else None
    made = wanted.planes(found[0]) if found else None
    if not made or made is found[0]:
        return Section(Text(path, data), data)
    return Section(Text(path, data), made.raw(), is_own=False)


def converted(path: str, data: bytes, page: int | None) -> tuple[Picture, list[str]]:
    """A picture of another format, and what is said of it. Small ones of PNG, and all where vips is not there, are read here."""
    if data[:2] in (b"P1", b"P4"):
        return bits(data, path), []
    if data[:2] in (b"PF", b"Pf"):
        raise Refused(f"{path}: its samples are floating point (PFM); tf takes whole numbers of 8 or 16 bits: scale them first")
    is_png = data.startswith(PNG)
    if is_png and page not in (None, 1):
        raise Refused(f"{path}: it has no page {page}, but 1", 1)
    if is_png and (len(data) < SMALL or not has_vips()):
        from . import png

        return png.read(data, path)
    from . import converters

    with leaving.room() as room:
        return converters.read(data, path, room, page)


def has_vips() -> bool:
    return on_path("vips") is not None


def is_foreign(data: bytes) -> bool:
    """Whether the bytes look like a picture of another format: PNG, JPEG, TIFF, GIF, BMP, WebP, HEIF, JPEG 2000, JPEG XL, OpenEXR, Radiance
    or other Netpbm."""
    starts = (PNG, b"\xff\xd8\xff", b"II*\0", b"MM\0*", b"II+\0", b"MM\0+", b"GIF8", b"BM", b"RIFF", b"P1", b"P4", b"P7", b"PF", b"Pf",
              b"\0\0\0\x0cjP", b"\xff\x4f\xff\x51", b"\xff\x0a", b"\0\0\0\x0cJXL", b"v/1\x01", b"#?")
    return data.startswith(starts) or data[4:8] == b"ftyp"


def whole_input(command: Command, path: str) -> Input:
    """A file that is a whole input already, with its sections where the separators part it."""
    data, sections, at = read_file(path), {}, 0
    for number, kind in enumerate(command.sections):
        found = (b"\n" + data[at:]).find(b"\n" + SEPARATOR) if number + 1 < len(command.sections) else -1
        end = len(data) if found < 0 else at + found
        sections[kind] = Section(Text(path, data[at:end], at, data), data[at:end])
        if found < 0:
            break
        at = end + len(SEPARATOR)
    return Input(sections, data, tables_before(sections))


def tables_before(sections: dict[str, Section]) -> list[Line]:
    """The lines of tables at the head of the last section, as many as the program declares. The picture begins behind them."""
    program = known_program(sections["program"].data) if "picture" in sections else None
    found = []
    for item in program.tables() if program else []:
        picture = sections["picture"]
        line, end, rest = picture.data.partition(b"\n")
        if not end:
            break
        text = picture.text
        found.append(Line(item.names[0].text, line, Text(text.name, line, text.first, text.whole)))
        sections["picture"] = Section(Text(text.name, rest, text.first + len(line) + 1, text.whole), rest)
    return found
