"""Finds the functions of a crate's sources: their names as a check prints them, and where their bodies stand."""
import json
import os
import re
import subprocess
from typing import NamedTuple, Optional

from .toolchain import rtlib


class Function(NamedTuple):
    path: str  # its name without the crate's; a method's begins with its type, wherever the impl stands
    file: str  # the source, by its path in the crate
    start: int  # the bytes of its head, of its body's brace, and behind its end
    body: int
    end: int
    lines: range  # from the line of its head to that of its end
    cycle: str  # the cycle of calls that it is in, or nothing
    is_public: bool  # whether it is `pub`, or a trait's
    item: int = 0  # the byte of its first attribute, or of its head's first word, and that of its name
    named: int = 0
    stands_apart: bool = True  # whether another may stand behind its last line: it is no trait's, and not in a function's body

    def names(self, printed: str) -> bool:
        """Whether a name that a check printed is the function's, or that of a closure in it."""
        parts, mine = printed.split("::"), self.path.split("::")
        if parts[-len(mine) :] == mine:
            return True
        # (a closure in piece::word_len is named CRATE::piece::fn::word_len::take_while)
        bare = [it for it in parts if it != "fn"]
        return "fn" in parts and any(bare[at : at + len(mine)] == mine for at in range(1, len(bare) - len(mine)))


class Token(NamedTuple):
    start: int
    end: int
    text: str


class Head(NamedTuple):
    kind: str  # fn, impl, trait or mod
    name: str
    start: int
    nesting: int  # how many round and square brackets are open around it
    cycle: str
    is_public: bool = False  # of an impl: whether it is of a trait
    item: int = 0
    named: int = 0
    body: int = 0


def functions_of(folder: str) -> list[Function]:
    """The functions with a body in the crate's sources."""
    found = []
    for at, folders, files in os.walk(f"{folder}/src"):
        folders.sort()
        for name in sorted(files):
            if name.endswith(".rt"):
                found += functions_in(folder, os.path.relpath(f"{at}/{name}", folder))
    return found


def functions_in(folder: str, file: str) -> list[Function]:
    with open(f"{folder}/{file}", "rb") as source:
        raw = source.read()
    module = [it for it in file[len("src/") : -len(".rt")].split("/") if it not in ("lib", "main", "mod")]
    line = lambda at: raw.count(b"\n", 0, at) + 1
    found = []
    for head, end, outer in blocks(code_of(f"{folder}/{file}")):
        if head.kind == "fn":
            types = [it for it in outer if it.kind in ("impl", "trait")]
            modules = [it.name for it in outer if it.kind == "mod"]
            path = "::".join([*([it.name for it in types[-1:]] or [*module, *modules]), head.name])
            lines = range(line(head.start), line(end) + 1)
            of_trait = any(it.is_public for it in types[-1:])
            ends_line = not raw[end:].partition(b"\n")[0].strip()
            apart = not of_trait and ends_line and all(it.kind != "fn" for it in outer)
            is_public = head.is_public or of_trait
            found.append(Function(path, file, head.start, head.body, end, lines, head.cycle, is_public, head.item, head.named, apart))
    return found


def code_of(path: str) -> list[Token]:
    """The tokens of a source that are code: no clause, no text of the prover's, no comment. None where it cannot be read."""
    ran = subprocess.run([rtlib.RATTLE, "fmt", "--tokens", path], capture_output=True, encoding="utf-8", errors="replace")
    rows = re.finditer(r"(?m)^\d+ (\d+) (\d+) Code (.*)$", ran.stdout)
    return [Token(int(it[1]), int(it[2]), json.loads(it[3])) for it in rows]


def blocks(tokens: list[Token]):
    """Yields the head of each item with a body, the byte behind its end, and the heads around it."""
    opened: list[Optional[Head]] = []
    head, cycle, nesting = None, "", 0
    for at, token in enumerate(tokens):
        word = token.text
        if word == "cycle" and tokens[at - 1].text == "[":
            cycle = tokens[at + 2].text
        elif word in ("fn", "impl", "trait", "mod") and not head:
            head = head_at(tokens, at, nesting, cycle)
            cycle = "" if head and word == "fn" else cycle
        elif word in ("(", "["):
            nesting += 1
        elif word in (")", "]"):
            nesting -= 1
        elif word == ";" and head and head.nesting == nesting:
            head = None
        elif word == "{":
            is_body = head is not None and head.nesting == nesting
            opened.append(head._replace(body=token.start) if is_body else None)
            head = None if is_body else head
        elif word == "}" and opened:
            closed = opened.pop()
            if closed:
                yield closed, token.end, [it for it in opened if it]


def head_at(tokens: list[Token], at: int, nesting: int, cycle: str) -> Optional[Head]:
    kind, after = tokens[at].text, tokens[at + 1].text if at + 1 < len(tokens) else ""
    if kind == "impl":
        name, of = names_of_impl(tokens[at + 1 :])
        return Head(kind, name + of, tokens[at].start, nesting, cycle, bool(of))
    # (a type `fn(u8)` has no name)
    if not re.match(r"\w", after):
        return None
    item, is_public = item_at(tokens, at)
    return Head(kind, after, tokens[at].start, nesting, cycle, kind == "trait" or is_public, item, tokens[at + 1].start)


def item_at(tokens: list[Token], at: int) -> tuple[int, bool]:
    """Where the item begins that has the word at this place in its head: with its attributes; and whether it is `pub`."""
    while at and tokens[at - 1].text in ("const", "unsafe", "final", "ghost"):
        at -= 1
    is_public = at > 0 and tokens[at - 1].text == "pub"
    scoped = opening(tokens, at - 1) if at and tokens[at - 1].text == ")" else 0
    at = scoped - 1 if scoped and tokens[scoped - 1].text == "pub" else at - is_public
    while at and tokens[at - 1].text == "]" and tokens[opening(tokens, at - 1) - 1].text == "#":
        at = opening(tokens, at - 1) - 1
    return tokens[at].start, is_public


def opening(tokens: list[Token], at: int) -> int:
    """The place of the bracket that the one at this place closes."""
    depth = 0
    for place in range(at, -1, -1):
        depth += (tokens[place].text in (")", "]")) - (tokens[place].text in ("(", "["))
        if not depth:
            return place
    return 0


def names_of_impl(tokens: list[Token]) -> tuple[str, str]:
    """`Name` of `impl<..> Name<..>`, and `Name` and `Display` of `impl fmt::Display for Name`: a check prints `NameDisplay`."""
    depth, name, of, before = 0, "", "", ""
    for token in tokens:
        if token.text in ("{", "where"):
            break
        depth += (token.text == "<") - (token.text == ">" and before != "-")
        if depth == 0 and token.text == "for":
            name, of = "", name
        elif depth == 0 and re.fullmatch(r"\w+", token.text) and token.text not in ("mut", "dyn", "const", "unsafe"):
            name = token.text
        before = token.text
    return name, of
