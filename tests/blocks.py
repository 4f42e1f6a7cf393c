"""Texts of named blocks: tests/cases/*.cases and tests/mutants/*.edits.

A line `=== NAME` begins a block, which goes on to the next such line. Blocks stand in the order of their names, and no two have one name. What
stands before the first is a comment.
"""
import os
import re
from typing import NamedTuple

MARK = "=== "
HEAD = re.compile(r"=== ([A-Za-z0-9_-][A-Za-z0-9_.-]*)")


class BadText(Exception):
    """A text that cannot be read, with its place."""


class Block(NamedTuple):
    """A block: its name, the path of its text, the number of its first line, and the lines below that."""

    name: str
    path: str
    line: int
    lines: tuple[str, ...]

    def text(self) -> str:
        """What stands below its first line."""
        return "".join(f"{it}\n" for it in self.lines)


def content(path: str) -> str:
    """A file's text, each byte of it: no line end is changed."""
    with open(path, encoding="utf-8", newline="") as file:
        return file.read()


def blocks_in(text: str, path: str) -> list[Block]:
    """The blocks of a text."""
    lines = text.split("\n")
    if lines.pop():
        raise BadText(f"{path}: its last line has no end")
    heads = [at for at, line in enumerate(lines) if line.startswith(MARK)]
    found = [block_at(lines, at, end, path) for at, end in zip(heads, [*heads[1:], len(lines)])]
    for one, next_one in zip(found, found[1:]):
        if one.name >= next_one.name:
            raise BadText(f"{path}:{next_one.line}: {next_one.name} stands behind {one.name}: names are in order, and each stands once")
    return found


def block_at(lines: list[str], at: int, end: int, path: str) -> Block:
    """The block whose first line has this place."""
    head = HEAD.fullmatch(lines[at])
    if not head:
        raise BadText(f"{path}:{at + 1}: a name is of letters, digits, _, - and .")
    return Block(head[1], path, at + 1, tuple(lines[at + 1 : end]))


def blocks_of(path: str) -> list[Block]:
    """The blocks of a file; none where there is no file."""
    return blocks_in(content(path), path) if os.path.exists(path) else []


def with_block(text: str, path: str, name: str, body: str) -> str:
    """The text with this block in its place, instead of the one of that name, if it has one."""
    lines, every = text.split("\n")[:-1], blocks_in(text, path)
    begins = next((it.line - 1 for it in every if it.name >= name), len(lines))
    ends = next((it.line - 1 for it in every if it.name > name), len(lines))
    kept = [f"{it}\n" for it in lines]
    return "".join([*kept[:begins], f"{MARK}{name}\n", body, *kept[ends:]])


def put(path: str, name: str, body: str) -> None:
    """Writes a block into a file, which is made where there is none."""
    text = content(path) if os.path.exists(path) else ""
    text = with_block(text, path, name, body)
    blocks_in(text, path)
    with open(path, "w", encoding="utf-8", newline="") as file:
        file.write(text)
