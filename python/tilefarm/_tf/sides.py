"""Which jobs of `eval` are larger than a run takes, told from a few bytes of the picture and from the program."""
import os

from .netpbm import HEAD, MOST_SIDE, Header, header_of
from .parser import known_program
from .program import Program
from .settings import given_values, settings
from .text import beginning, content
from .words import Asked

PNG = b"\x89PNG\r\n\x1a\n"


def is_in_parts(asked: Asked) -> bool:
    """Whether `eval` goes by parts: where that is asked for, and where a side of the picture or of the result is too large for a run."""
    if "--parts" in asked.own or "--resume" in asked.own:
        return True
    if asked.name != "eval" or len(asked.files) != 2 or not all(map(os.path.isfile, asked.files)):
        return False
    head = head_of(asked.files[1])
    return head is not None and (max(head.rows, head.cols) > MOST_SIDE or max(result_sides(asked, head)) > MOST_SIDE)


def head_of(path: str) -> Header | None:
    """The sides of a PGM, PPM or PNG picture."""
    data = beginning(path, HEAD)
    if data.startswith(PNG):
        cols, rows = (int.from_bytes(data[at : at + 4], "big") for at in (16, 20))
        return Header(True, 1, cols, rows, 255, 0)
    return header_of(data)


def result_sides(asked: Asked, head: Header) -> tuple[int, int]:
    """The sides of the result's picture, or none where they are not to be known."""
    program = known_program(content(asked.files[0]))
    return sides_of_output(program, settings(program, given_values(asked.words), head)) if program else (0, 0)


def sides_of_output(program: Program, values: dict[str, int]) -> tuple[int, int]:
    output = program.output()
    found = program.declaring(output.names[0].text) if output and output.most else None
    if not found or len(found[0].intervals) != 2:
        return 0, 0
    try:
        rows, cols = (it.high.value(values) - it.low.value(values) + 1 for it in found[0].intervals)
    except KeyError:
        return 0, 0
    return rows, cols
