"""Faults of scripts of events."""
import re

from .blame import Blame, Situation
from .text import Place
from .whole_numbers import whole_number

NODE, MESSAGE, KEY, JOB = "a node", "a message", "a tile", "a job"
# what stands behind the word of an event; behind the nodes of `send` there are tiles, as many as one likes
FORMS = {"make": (NODE, KEY), "send": (NODE, NODE), "deliver": (NODE, MESSAGE), "merge": (NODE, NODE), "keep": (NODE,), "restart": (NODE,),
         "retire": (NODE, JOB)}
SHOWN = {"make": "make 0 0:1:0:0", "send": "send 0 1 0:1:0:0", "deliver": "deliver 0 0", "merge": "merge 0 1", "keep": "keep 0",
         "restart": "restart 0", "retire": "retire 0 0"}
MOST_NODE, MOST_STAGE, MOST_NUMBER, MOST_EVENTS = 255, 65_535, 2**32 - 1, 65_536
CURES = {
    NODE: "A node is a number from 0 to 255, in digits alone.",
    MESSAGE: "A message is a number from 0 to 4294967295, in digits alone: the first that a script sends is 0.",
    JOB: "A job is a number, in digits alone: there is one, the program over the picture, and its number is 0.",
    KEY: "A tile is JOB:STAGE:ROW:COL, four numbers: the job is 0, tf check tells the numbers of stages, and no stage is above 65535.",
}
BLANKS = "Words are parted by one blank each, and no blank, no TAB and no CR stands at the ends of a line."


def bad_line(found: re.Match[str], at: Situation) -> Blame:
    place, line = line_of(at, int(found["line"]))
    start, length, cure = wrong_part(line)
    return Blame([place.text.place(place.offset + start, length)], cure)


def wrong_part(line: bytes) -> tuple[int, int, str]:
    """The first part of a line that is wrong: where it begins, its length, and what would be right."""
    blank = re.search(rb"^[ \t\r]|[ \t\r]$|[ \t\r][ \t\r]|[\t\r]", line)
    if blank:
        return blank.start(), blank.end() - blank.start(), BLANKS
    words = [(it.start(), it[0]) for it in re.finditer(rb"[^ ]+", line)]
    verb = words[0][1].decode("latin-1")
    if verb not in FORMS:
        return 0, len(words[0][1]), f"An event is one of {', '.join(FORMS)}; a comment begins with # at the line's first place."
    wanted = [*FORMS[verb], *([KEY] * (len(words) - 3) if verb == "send" else [])]
    for kind, (start, word) in zip(wanted, words[1:]):
        if not is_right(kind, word):
            return start, len(word), CURES[kind]
    if len(words) <= len(wanted):
        return len(line), 1, f"Here {wanted[len(words) - 1]} is missing: {SHOWN[verb]}."
    start, word = words[len(wanted) + 1]
    return start, len(word), f"This is one word too many: {SHOWN[verb]}."


def is_right(kind: str, word: bytes) -> bool:
    """Whether a word is a node, a message, a job or a tile."""
    most = {NODE: (MOST_NODE,), MESSAGE: (MOST_NUMBER,), JOB: (MOST_NUMBER,), KEY: (MOST_NUMBER, MOST_STAGE, MOST_NUMBER, MOST_NUMBER)}[kind]
    parts = word.split(b":") if kind == KEY else [word]
    return len(parts) == len(most) and all(is_number(*it) for it in zip(parts, most))


def is_number(word: bytes, most: int) -> bool:
    return whole_number(word, 0, most) is not None


def no_such_job(found: re.Match[str], at: Situation) -> Blame:
    place, line = line_of(at, int(found["line"]))
    job = re.search(rb"(?<= )[0-9]+$" if line.startswith(b"retire ") else rb"(?<= )0*[1-9][0-9]*(?=:)", line)
    start, length = (job.start(), job.end() - job.start()) if job else (0, 1)
    return Blame([place.text.place(place.offset + start, length)], "There is one job, the program over the picture, and its number is 0.")


def too_many_events(found: re.Match[str], at: Situation) -> Blame:
    section, count, offset = at.text("script"), 0, 0
    for line in section.data.split(b"\n"):
        count += bool(line) and not line.startswith(b"#")
        if count > MOST_EVENTS:
            break
        offset += len(line) + 1
    return Blame([section.place(offset)], "A script has at most 65,536 events, and this is one more: take out what need not be there.")


def line_of(at: Situation, number: int) -> tuple[Place, bytes]:
    """Where a line of the script begins, and the line."""
    text = at.text("script")
    lines = text.data.split(b"\n")
    start = sum(len(it) + 1 for it in lines[: number - 1])
    return text.place(start), lines[number - 1] if number <= len(lines) else b""
