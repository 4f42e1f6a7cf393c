"""From the words of `tf play` and `tf report` to what the page begins with."""
import os
from dataclasses import replace
from typing import NamedTuple

from .call import wanted
from .joining import (SEPARATOR, Section, Wanted, is_picture, picture_section, planes_of, read_file, read_lines, refuse_tables,
                      tables_before)
from .parser import known_program
from .play_examples import EXAMPLES
from .play_files import Files
from .play_jobs import MOST_DIGITS, USUAL, Job
from .play_runs import Runs
from .play_session import Session
from .settings import given_values
from .tables import Line, ordered
from .text import Refused, Text
from .whole_numbers import whole_number
from .words import Asked


class Given(NamedTuple):
    """A program's file (none where it is an example, or stands before a picture), its text, a picture, and tables that stand before it."""

    name: str
    text: bytes
    picture: Section
    tables: list[Line] = []


def session_of(it: Asked, runs: Runs | None = None) -> Session:
    """The page's program, picture, tables and options. What the words do not name is taken from an example."""
    said: list[str] = []
    given = given_files(it, wanted(it.own), said)
    known = {given.name: given.text} if given.name else {}
    files = Files(os.getcwd(), known, tuple(map(os.path.abspath, (*it.files, *it.tables))))
    return Session(given.name, given.picture, said, job_of(it.words, given.text), files, runs, tables_of(it, given))


def tables_of(it: Asked, given: Given) -> list[Line]:
    """The lines of the tables' files. A program that is named has just these; an example may be changed to one that has."""
    if it.tables and given.tables:
        refuse_tables()
    lines = read_lines(it.tables)
    known = known_program(given.text) if given.name else None
    return given.tables or (ordered(known, lines) if known else lines)


def given_files(it: Asked, asked_for: Wanted, said: list[str]) -> Given:
    """The files that are named, and what stands for those that are not."""
    if len(it.files) > 2:
        raise Refused(f"a page takes a program and a picture, and got {len(it.files)} files", 1)
    if len(it.files) == 2:
        return two_files(*it.files, asked_for, said)
    if not it.files:
        return Given("", EXAMPLES[0].text().encode(), picture_section(EXAMPLES[0].picture_path(), asked_for, said))
    return one_file(it.files[0], asked_for, said)


def two_files(first: str, second: str, asked_for: Wanted, said: list[str]) -> Given:
    """A program and a picture, in any order."""
    text = read_file(first)
    if first != "-" and is_picture(text) and not is_picture(read_file(second)):
        return two_files(second, first, asked_for, said)
    return Given(first, text, picture_section(second, asked_for._replace(declared=planes_of(text)), said))


def one_file(path: str, asked_for: Wanted, said: list[str]) -> Given:
    """A picture alone, a whole input, or a program alone."""
    data = read_file(path)
    if is_picture(data):
        return Given("", EXAMPLES[0].text().encode(), picture_section(path, asked_for, said))
    at = (b"\n" + data).find(b"\n" + SEPARATOR)
    if at >= 0:
        asked_for.refuse_whole(path)
        return whole(path, data, at)
    is_coloured = planes_of(data) == 3
    fitting = next((it for it in EXAMPLES if is_coloured and it.picture.endswith("scene.png")), EXAMPLES[0])
    return Given(path, data, picture_section(fitting.picture_path(), asked_for, said))


def whole(path: str, data: bytes, at: int) -> Given:
    """A whole input, whose program ends at the separator there."""
    text, start = data[:at], at + len(SEPARATOR)
    sections = {"program": Section(Text(path, text), text), "picture": Section(Text(path, data[start:], start, data), data[start:])}
    tables = tables_before(sections)
    return Given("", text, sections["picture"], tables)


def job_of(words: list[str], text: bytes) -> Job:
    """The job that options and values of a command line ask for."""
    job, rest = Job(text, given_values([it for it in words if "=" in it and not it.startswith("--")])), list(words)
    while rest:
        name, is_joined, value = rest.pop(0).partition("=")
        if name == "--stored":
            job = replace(job, is_stored=True)
        elif name.removeprefix("--") in USUAL and name.startswith("--"):
            job = replace(job, **{name.removeprefix("--"): number(name, value if is_joined else rest.pop(0) if rest else "")})
        elif name.startswith("--"):
            raise Refused(f"a page takes no {name}", 1)
    return job


def number(name: str, word: str) -> int:
    value = whole_number(word, 0, MOST_DIGITS)
    if value is None:
        raise Refused(f"{name} takes a number", 1)
    return value
