r"""The conformance cases of tests/cases: a text tests/cases/FOLDER.cases for each command or pass, and in it a block (blocks.py)
for each case.

    === NAME
    $ tilefarm eval --rows 2 R=8
    its input, line by line
    => status 0
    its output, line by line

The words of the command are spelled as for a shell. In the input and the output a backslash begins what stands for other bytes:

    \xNN         the byte of these two digits of base 16
    \\ \t \r \n  a backslash, a tab, a carriage return, a line feed
    \{N TEXT}    N times the text, in which } is \x7d
    \            at the end of a line: nothing, and no line feed

Each other line ends with a line feed. A line that would begin with `=== `, `$ ` or `=> ` has its first letter as \xNN.
"""
import os
import re
import shlex
from typing import Callable, Iterator, NamedTuple

from blocks import BadText, Block, blocks_of, put

TOP = os.path.dirname(os.path.dirname(os.path.realpath(__file__)))
FOLDER = f"{TOP}/tests/cases"
END = ".cases"
COMMAND, STATUS = "$ tilefarm", "=> status "
MARKS = re.compile(r"^(?==== |\$ |=> )", re.M)
# What stands for other bytes, and what a run repeats.
LETTER = r"\\(?:x[0-9a-f]{2}|[\\trn])"
ESCAPE = re.compile(rf"({LETTER})|\\(\n)|\\\{{(\d+) ((?:[^\\}}\n]|{LETTER})*)\}}|\\")
LETTERS = {"\\\\": b"\\", "\\t": b"\t", "\\r": b"\r", "\\n": b"\n"}
SPELLED = {value[0]: key for key, value in LETTERS.items()}
# How long a line may be that is written, and from how many bytes on a repeated text is written as one.
WIDTH, LONG_RUN = 150, 200
RUN = re.compile(rb"(.{1,64}?)\1{15,}", re.S)
# Where the samples of a raw picture begin, which are numbers and no letters.
RASTER = re.compile(rb"(?:\A|\n%%\n)P[56]\s+\d+\s+\d+\s+\d+\s")
PIECE = re.compile(rf"\\\{{\d+ (?:[^\\}}\n]|{LETTER})*\}}|{LETTER}|[^\\]")


class Stored(NamedTuple):
    """A case: FOLDER/NAME, the words behind the program's name, its input, its exit status and its output."""

    name: str
    words: list[str]
    stdin: bytes
    status: int
    stdout: bytes


def path_of(folder: str) -> str:
    return f"{FOLDER}/{folder}{END}"


def stored() -> Iterator[Stored]:
    """All cases, in the order of their texts."""
    for file in sorted(it for it in os.listdir(FOLDER) if it.endswith(END)):
        folder = file.removesuffix(END)
        yield from (case_in(folder, it) for it in blocks_of(path_of(folder)))


def block_of(name: str) -> Block | None:
    """The block of the case FOLDER/NAME, if there is one."""
    folder, _, own = name.partition("/")
    return next((it for it in blocks_of(path_of(folder)) if it.name == own), None)


def case_in(folder: str, block: Block) -> Stored:
    """The case of a block."""
    marked = [at for at, line in enumerate(block.lines) if MARKS.match(line)]
    lines = [block.lines[at] for at in marked]
    place = f"{os.path.relpath(block.path, TOP)}:{block.line}: {block.name}"
    if len(marked) != 2 or marked[0] or not f"{lines[0]} ".startswith(f"{COMMAND} ") or not re.fullmatch(rf"{STATUS}\d+", lines[1]):
        raise BadText(f"{place}: a case has a line `{COMMAND} ..`, its input, a line `{STATUS}N` and its output")
    try:
        words = shlex.split(lines[0].removeprefix(COMMAND))
    except ValueError as fault:
        raise BadText(f"{place}: its command: {fault}") from fault
    given, told = block.lines[1 : marked[1]], block.lines[marked[1] + 1 :]
    return Stored(f"{folder}/{block.name}", words, bytes_of(given, place), int(lines[1].removeprefix(STATUS)), bytes_of(told, place))


# bytes of lines


def bytes_of(lines: tuple[str, ...], place: str) -> bytes:
    """The bytes that lines stand for."""
    text, found, at = "".join(f"{it}\n" for it in lines), [], 0
    for escape in ESCAPE.finditer(text):
        found += [text[at : escape.start()].encode(), escaped(escape, place)]
        at = escape.end()
    return b"".join([*found, text[at:].encode()])


def escaped(escape: re.Match[str], place: str) -> bytes:
    """The bytes that an escape stands for."""
    letter, end, count, repeated = escape.groups()
    if letter:
        return LETTERS.get(letter) or bytes([int(letter[2:], 16)])
    if end:
        return b""
    if count:
        return int(count) * bytes_of((repeated,), place)[:-1]
    raise BadText(f"{place}: {escape.string[escape.start() :][:12]!r} is no escape")


# lines of bytes


def written(case: Stored) -> str:
    """The lines of a case's block, below its first."""
    words = "".join(f" {shlex.quote(it)}" for it in case.words)
    return f"{COMMAND}{words}\n{lines_of(case.stdin)}{STATUS}{case.status}\n{lines_of(case.stdout)}"


def keep(case: Stored) -> None:
    """Writes a case into its text."""
    folder, _, own = case.name.partition("/")
    put(path_of(folder), own, written(case))


def lines_of(data: bytes) -> str:
    """The lines that stand for these bytes, each with its end."""
    if not data:
        return ""
    raster = next((it.end() for it in RASTER.finditer(data)), len(data))
    whole = with_runs(data[:raster], spelled) + with_runs(data[raster:], spelled_raw)
    # (what has no line feed at its end has none here either)
    whole = whole.removesuffix("\n") if whole.endswith("\n") else f"{whole}\\"
    return "".join(f"{unmarked(it)}\n" for line in re.sub(r" (?=\n|\Z)", r"\\x20", whole).split("\n") for it in parts(line))


def with_runs(data: bytes, spell: Callable[[bytes], str]) -> str:
    """Bytes as they are written, with what is repeated for long written once."""
    found, at = [], 0
    for start, end, size in runs(data):
        again = spell(data[start : start + size]).replace("}", r"\x7d").replace("\n", r"\n")
        found += [spell(data[at:start]), f"\\{{{(end - start) // size} {again}}}"]
        at = end
    return "".join([*found, spell(data[at:])])


def runs(data: bytes) -> Iterator[tuple[int, int, int]]:
    """Where one text is repeated for long: where it begins and ends, and its length. One of lines begins with a line."""
    for found in RUN.finditer(data):
        size = len(found[1])
        start = found.start() + (found[1].find(b"\n") + 1) % size
        count = (found.end() - start) // size
        if count * size >= LONG_RUN:
            yield start, start + count * size, size


def spelled(data: bytes) -> str:
    """Bytes as they are written in lines."""
    return "".join("\n" if it == 10 else SPELLED.get(it) or (chr(it) if 32 <= it < 127 else f"\\x{it:02x}") for it in data)


def spelled_raw(data: bytes) -> str:
    """Samples as they are written: each by its number."""
    return "".join(f"\\x{it:02x}" for it in data)


def parts(line: str) -> Iterator[str]:
    """A line, broken where it is long: behind a blank, where one is near."""
    while len(line) > WIDTH:
        ends = [it.end() for it in PIECE.finditer(line, 0, 4 * WIDTH)]
        most = max([ends[0], *(it for it in ends if it < WIDTH)])
        blank = line.rfind(" ", WIDTH // 2, most) + 1
        most = blank if blank in ends else most
        if most == len(line):
            break
        yield f"{line[:most]}\\"
        line = line[most:]
    yield line


def unmarked(line: str) -> str:
    """A line that is no mark: where it would begin as one, its first letter is written by its number."""
    return f"\\x{ord(line[0]):02x}{line[1:]}" if MARKS.match(line) else line
