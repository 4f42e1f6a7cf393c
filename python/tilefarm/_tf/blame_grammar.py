"""Faults of a program's text: `program: ..`."""
import re

from .blame import Blame, Situation, listed
from .around import Around
from .blame_forms import FUNCTION
from .blame_guess import guess
from .parser import TermParser
from .tokens import Token, Unreadable, tokens

BEGINS = {
    "!": "There is no !=: write the other cases first, and what is left under else.",
    "<": "There is no <: write x <= 3 in place of x < 4.", ">": "There is no >: write x >= 4 in place of x > 3.",
    "=": "One = is no token: write == to compare.", "_": "A name begins with a letter.",
    ".": "One dot is no token: numbers are whole, so 1.5 * a is 3 * a / 2, and an interval is [a .. b].",
    "?": "No token begins with ?: a choice between two values is select(a >= b, c, d).",
    "&": "There is no &: tests are joined by and, and the lower four bits of a are a % 16.",
    "|": "There is no |: write a case for each of the two, with the same expression, or a select in a select.",
    "^": "There is no ^: a power is a product, as a * a.",
}
RECIPROCALS = {"/": ". A table of reciprocals divides by data (docs/GUIDE.md shows it)."}
ONE_ITEM = {
    "image": "A program has one image item: join the two, or take one out.",
    "output": "A program has one output item: take one out, and write the pictures of other stages by --stage NAME or --stages DIR.",
}
WORD = re.compile(rb"[A-Za-z0-9_]+")


MARKED = {
    b"\xef\xbb\xbf": "The file begins with a byte-order mark: save it as UTF-8 without one, or as ASCII.",
    b"\xff\xfe": "The file is UTF-16: save it as ASCII, as by iconv -f UTF-16 -t ASCII.",
    b"\xfe\xff": "The file is UTF-16: save it as ASCII, as by iconv -f UTF-16 -t ASCII.",
}


def not_ascii(found: re.Match[str], at: Situation) -> Blame:
    offset = int(found["at"])
    cure = next((says for mark, says in MARKED.items() if not offset and at.text().data.startswith(mark)), None)
    return Blame([at.text().place(offset)], cure or "A program is ASCII, in its comments too: write this character otherwise.")


def bad_token(found: re.Match[str], at: Situation) -> Blame:
    text, offset = at.text(), int(found["at"])
    word = WORD.match(text.data, offset)
    length = len(word[0]) if word else 1
    first = text.data[offset : offset + 1].decode("latin-1")
    if first == "=" and defines(tokens_before(text.data, offset), offset):
        cure = FUNCTION
    elif first.isalpha():
        cure = f"A name has at most 32 bytes, and this one has {length}: shorten it."
    elif first.isdigit():
        cure = "Directly behind a number stands no letter and no _: part them, or begin the name with a letter."
    else:
        cure = BEGINS.get(first, "No token begins with this character: take it out.")
    return Blame([text.place(offset, length)], cure)


def defines(given: list[Token], offset: int) -> bool:
    """Whether an = stands where a function would be defined by it."""
    before = [it for it in given if it.offset < offset]
    return open_marks(before) == 0 and before[-1:] != [] and before[-1].text == ")"


def unexpected(found: re.Match[str], at: Situation) -> Blame:
    text, offset = at.text(), int(found["at"])
    given = tokens_before(text.data, offset)
    here = next((it for it in given if it.offset == offset), Token("end", "", offset))
    before = [it for it in given if it.offset < offset]
    place = text.place(offset, len(here.text))
    if here.kind == "end":
        return Blame([place], ends_early(before))
    wanted = wanted_at(given, offset)
    meant = guess(Around(text.data, here, before, [it for it in given if it.offset > offset], wanted))
    return Blame([text.place(meant.start, meant.length)], meant.cure) if meant else Blame([place], not_here(here, before, wanted))


def tokens_before(data: bytes, offset: int) -> list[Token]:
    """The tokens up to the one at the offset, where what stands behind that may be no tokens."""
    try:
        return tokens(data)
    except Unreadable as fault:
        return [it for it in tokens(data[: fault.token.offset]) if it.offset <= max(offset, 0)]


def ends_early(before: list[Token]) -> str:
    """What is missing where the text ends."""
    is_whole = not before or (before[-1].text in (";", "}") and open_marks(before) == 0)
    if is_whole and not any(it.text == "image" for it in before):
        return "The program has no image item, which every program has: write, for example, image I(R, C);"
    if open_marks(before) == 0 and before[-1].text not in (";", "}"):
        return f"The last item has no ; at its end: write one behind {before[-1].text}."
    return "The text ends inside an item: close its ( [ {, and end it with a ; (a func ends with its })."


def open_marks(before: list[Token]) -> int:
    return sum((it.text in "([{") - (it.text in ")]}") for it in before if it.kind == "mark")


def wanted_at(given: list[Token], offset: int) -> tuple[str, ...]:
    """What could stand at an offset, as far as the grammar's descent tells it."""
    try:
        TermParser([*given, Token("end", "", given[-1].end if given else 0)]).program()
    except Unreadable as fault:
        return fault.wanted if fault.token.offset == offset else ()
    return ()


def not_here(here: Token, before: list[Token], wanted: tuple[str, ...]) -> str:
    """Why a token cannot stand where it is."""
    last = before[-1].text if before else ""
    if last in ("/", "%", "<<", ">>") and here.kind != "number":
        return f"Behind {last} stands a number of the text, and no expression: only a number divides or shifts{RECIPROCALS.get(last, '.')}"
    if here.text in ("image", "output") and any(it.text == here.text for it in before) and last in (";", "}"):
        return ONE_ITEM[here.text]
    if here.kind == "word" and wanted == ("a name",):
        return f"{here.text} is a word of the language, and names nothing: choose another name."
    if here.text == "case" and last == ";":
        return "else is the last case: put this case before it."
    if here.text == "else" and last == ";":
        return "A function has one else: take one of the two out."
    if here.text == "/" and len(before) > 1 and before[-1].kind == "number" and before[-2].text in ("+", "-"):
        return "Where an index adds and divides, the sum stands in parentheses: (x+1)/2."
    if wanted == ("/",):
        return "Parentheses in an index stand before a divisor alone: write x+1, or (x+1)/2."
    if here.text == "or":
        return "There is no or: write a case for each of the two, with the same expression."
    if wanted:
        ways = " or an operator" if wanted == (";",) else ""
        return f"{here.text} cannot stand here: {listed(list(wanted), 'or')}{ways} is wanted."
    return f"{here.text} cannot stand here: compare what stands before it with the grammar in docs/FORMATS.md."


def number_too_big(found: re.Match[str], at: Situation) -> Blame:
    text, offset = at.text(), int(found["at"])
    word = WORD.match(text.data, offset)
    return Blame([text.place(offset, len(word[0]) if word else 1)], "Numbers go up to 2147483647: write a smaller one.")


def too_deep(found: re.Match[str], at: Situation) -> Blame:
    cure = "An expression nests at most 64 deep: give a part of it a function of its own."
    return Blame([at.text().place(int(found["at"]))], cure)


def too_long(found: re.Match[str], at: Situation) -> Blame:
    cure = f"A program has at most 65,536 bytes, and this one has {len(at.text().data)}: shorten its comments or part it."
    return Blame([at.text().place(int(found["at"]))], cure)


def too_many(found: re.Match[str], at: Situation) -> Blame:
    text, offset = at.text(), int(found["at"])
    before = [it for it in tokens_before(text.data, offset) if it.offset < offset]
    here = WORD.match(text.data, offset)
    if here and here[0] == b"case":
        what = "A function has at most 16 cases: read a second function in its else, with the other cases."
    elif before and before[-1].text == "param":
        what = "A program has at most 64 parameters: write numbers in place of some."
    elif before and before[-1].text == "table":
        what = "A program has at most 16 tables: join some, with an offset in the index."
    elif before and (before[-1].text in ("func", "accum", "image") or declares_plane(before)):
        what = "A program has at most 64 stages, planes among them: join some, or part the program."
    else:
        what = "All expressions have at most 4,096 numbers, names, operations and reads: part the program."
    return Blame([text.place(offset, len(here[0]) if here else 1)], what)


def declares_plane(before: list[Token]) -> bool:
    """Whether what comes next is another plane of an image item."""
    words = [it for it in before if it.text not in (",",) and it.kind != "name"]
    return bool(words) and words[-1].text == "image" and before[-1].text == ","
