"""Faults of the words, of the input as a whole, and of the picture."""
import re

from .blame import Blame, Situation
from .joining import is_picture
from .near import meant
from .netpbm import header_of
from .settings import LEAST, MOST
from .tables import FORM, fault_of
from .text import Place
from .usage import COMMANDS, OPTIONS, OWN_OPTIONS
from .whole_numbers import whole_number

RANGES = {"--rows": (1, 1024), "--cols": (1, 1024), "--percent": (0, 10000), "--nodes": (1, 16), "--turns": (0, 65536),
          "--capacity": (1, 1024)}
FEWER = {("run", "--nodes"): (1, 8)}
PICTURE_CURES = {
    "OtherFormat": "This is no picture that tf knows: PGM and PPM begin with P2, P3, P5 or P6, and PNG, JPEG and TIFF are converted.",
    "HeaderCut": "The file ends inside its header: kind, width, height, greatest sample, and one white byte.",
    "BadNumber": "Here a number in decimal digits, white space or (in the header) a comment may stand, and nothing else.",
    "BadSize": "Width and height are 1 to 4096 in one run; tf eval PROGRAM PICTURE takes larger pictures, in parts. Else make the picture smaller, for example by "
               "magick IN -resize 4096x4096 OUT.",
    "BadMax": "The greatest sample is 1 to 65535.",
    "CommentBehindDigit": "No comment stands directly behind the greatest sample: put it before that number.",
    "RasterCut": "The file ends before its last sample: it was cut off, or its width or height is wrong.",
    "SampleTooBig": "This sample is above the greatest sample of the header: raise that number, or lower the sample.",
    "TrailingBytes": "The picture is complete before this byte: take the rest out, or mend width and height.",
}


def usage(found: re.Match[str], at: Situation) -> Blame:
    word, cure = refused_word(at.words)
    return Blame([at.word(word)] if word else [], cure)


def refused_word(words: list[str]) -> tuple[str, str]:
    """The first word that the program refuses, and what would be right."""
    if not words or words[0] not in COMMANDS:
        return (words[0] if words else ""), f"The first word is a command: {', '.join(COMMANDS)}."
    if not COMMANDS[words[0]].takes_words:
        return "".join(words[1:2]), f"{words[0]} takes no options and no values: it has its fact files alone."
    rest, seen = list(words[1:]), set()
    while rest:
        word = rest.pop(0)
        name, is_joined, joined = word.partition("=")
        if name.startswith("--"):
            fault = option_fault(words[0], name, joined if is_joined else None, rest, seen)
            if fault:
                return word, fault
        elif not is_joined:
            return word, "A word that is no option gives a parameter its value, as R=8."
        elif not is_value(joined):
            return word, "A value is an optional - and digits, from -2147483648 to 2147483647."
    return "", "See tf --help for what a command takes."


def option_fault(command: str, name: str, value: str | None, rest: list[str], seen: set[str]) -> str:
    """What is wrong with an option of a command, if something is. Its value is taken from the words behind it."""
    known = {it.name: it.value for it in OPTIONS if not it.only or command in it.only}
    other = next((it.only for it in OPTIONS if it.name == name and name not in known), ())
    if other:
        return f"{name} is an option of {' and '.join(other)} alone."
    if name not in known:
        there = f"there are {', '.join(known)}, and those that tf --help lists"
        return f"There is no option {name}: {there}.{meant(name, [*known, *(it.name for it in OWN_OPTIONS)])}"
    if name in seen:
        return f"{name} is given twice: take one out."
    seen.add(name)
    if not known[name]:
        return f"{name} takes no value." if value is not None else ""
    value = rest.pop(0) if value is None and rest else value
    least, most = FEWER.get((command, name), RANGES.get(name, (0, 4294967295)))
    return "" if value is not None and whole_number(value, least, most) is not None else f"{name} takes a number from {least} to {most}, in digits alone."


def is_value(text: str) -> bool:
    return whole_number(text, LEAST, MOST) is not None


def no_separator(found: re.Match[str], at: Situation) -> Blame:
    name = at.text().name
    command = at.words[0] if at.words else "eval"
    cure = f"The input has no line that is exactly %%: name the picture behind the program, as tf {command} {name} photo.png."
    if at.words[:1] == ["audit"]:
        cure = f"The input has no two lines that are exactly %%: name picture and facts, as tf audit {name} photo.png some.facts."
    if at.words[:1] == ["world"]:
        cure = f"The input has no two lines that are exactly %%: name picture and script, as tf world {name} photo.png some.script."
    if is_picture(at.text().data):
        cure = f"This is a picture: name the program before it, as tf {command} program.pipe {name}."
    return Blame([at.text().place(len(at.text().data))], cure)


def input_too_long(found: re.Match[str], at: Situation) -> Blame:
    return Blame([], "An input has at most 536,870,912 bytes: take a smaller picture, or a raw one in place of a plain one.")


def input_failed(found: re.Match[str], at: Situation) -> Blame:
    return Blame([], "Standard input could not be read to its end: is it a file that can be read?")


def memory(found: re.Match[str], at: Situation) -> Blame:
    if at.words[:1] == ["merge"]:
        return Blame([], "Memory ran out: end other programs, or merge fewer files: what stands in the union is held at once.")
    if at.words[:1] == ["world"]:
        return Blame([], "Memory ran out: end other programs, or take fewer nodes and events: all that was ever sent is held.")
    if at.words[:1] == ["run"]:
        return Blame([], "Memory ran out: end other programs, or take fewer nodes: each holds its facts, and the history of its calls.")
    return Blame([], "Memory ran out: end other programs, or take a smaller picture; without --stored less is held at once.")


def farm_spawn_failed(found: re.Match[str], at: Situation) -> Blame:
    return Blame([], "The system started no further thread: end other programs, or take fewer nodes, each of which has two threads.")


def farm_close(found: re.Match[str], at: Situation) -> Blame:
    return Blame([], "A node did not hold what its receipts promise: this is a fault of tilefarm itself; eval computes the same result.")


def picture(found: re.Match[str], at: Situation) -> Blame:
    section = at.input.section("picture")
    cure = PICTURE_CURES.get(found["fault"], "")
    if section is None:
        return Blame([], cure)
    if not section.is_own:
        return Blame([section.text.name], f"{cure} (This picture was converted; the offset counts in the PGM or PPM that was made.)")
    return Blame([sample_place(section.text.place(int(found["at"])))], cure)


def bad_table(found: re.Match[str], at: Situation) -> Blame:
    """The line of a table, at the first byte that leaves its form."""
    number, lines, declared = int(found["line"]), at.input.tables, at.program.tables()
    if number > len(lines):
        name = declared[number - 1].names[0].text if number <= len(declared) else "that the program declares"
        cure = f"The line of the table {name} is not there: each table that is declared has a line, ended by a line end, before the picture."
        return Blame([], cure)
    line = lines[number - 1]
    fault = fault_of(line.data)
    return Blame([line.place(fault.at if fault else 0)], f"{fault.why[0].upper()}{fault.why[1:]}." if fault else f"{FORM[0].upper()}{FORM[1:]}.")


def sample_place(place: Place) -> Place | str:
    """The place in a header or a plain raster; of a raw raster the byte and its point, as lines mean nothing there."""
    data = place.text.data
    head = header_of(data)
    if head and head.is_raw and place.offset >= head.end:
        width = head.parts * (1 if head.most < 256 else 2)
        point = (place.offset - head.end) // width
        is_inside = point < head.rows * head.cols
        where = f"row {point // head.cols}, column {point % head.cols}, both from 0" if is_inside else "behind the last point"
        return f"{place.text.name}: byte {place.offset} of the picture ({where})"
    return place
