"""Scans the crates: their public functions with the names of their clauses, their definitions and their mutants.

It relies on the form that `rt fmt` gives a source: an item's head, its clauses and its closing brace have one indentation.
"""
import functools
import os
import re
import sys
from typing import Iterator, NamedTuple

TOP = os.path.dirname(os.path.dirname(os.path.dirname(os.path.realpath(__file__))))
sys.path.append(f"{TOP}/tests")

from blocks import blocks_of

FUNCTION = re.compile(r"^( *)(pub(?:\([^)]*\))? )?(?:const |unsafe |final )*fn (\w+)", re.M)
TYPE = re.compile(r"^(?:pub )?(?:unsafe )?(impl|trait)\b(.*(?:\n    for .*)?)$", re.M)
CLAUSE = re.compile(r"\bensures\s*(\w*)\s*\{")
EXPORT = re.compile(r"^pub use ([^;]*);", re.M | re.S)
MODULE = re.compile(r"^pub mod (\w+);", re.M)
DEFINITION = re.compile(r"^(?:(?:abbrev|unfoldable|pub|record|data) )+(?!mod |use )([^\s:({]+)", re.M)
PAIR = re.compile(r"^(file|old|only): ?(.*)$", re.M)


class Function(NamedTuple):
    """A function of a crate: its name, with its type's where it is a method; where it begins; the names of its clauses, in their order."""

    crate: str
    name: str
    path: str
    line: int
    last: int
    clauses: tuple[str, ...]
    is_public: bool
    is_law: bool


class Definition(NamedTuple):
    """A definition of a crate: its name, and where it begins."""

    crate: str
    name: str
    path: str
    line: int


class Mutant(NamedTuple):
    """A mutant: its name, and the functions whose bodies it changes."""

    name: str
    functions: frozenset[str]


@functools.lru_cache(maxsize=None)
def text_of(path: str) -> str:
    with open(f"{TOP}/{path}", encoding="utf-8") as file:
        return file.read()


def files_below(folder: str, ending: str) -> list[str]:
    """The files below a folder that end so, by their paths from the top."""
    found = (os.path.relpath(f"{at}/{name}", TOP) for at, _, names in os.walk(f"{TOP}/{folder}") for name in names)
    return sorted(it for it in found if it.endswith(ending))


def line_at(text: str, at: int) -> int:
    return text.count("\n", 0, at) + 1


# functions


def type_of(head: str) -> str:
    """The type of `impl<..> Trait for Type<..>`, or of `trait Name<..>: ..`."""
    said = re.sub(r"^<[^>]*>", "", head.strip()).partition(" where ")[0]
    said = said.partition(" for ")[2] or said
    found = re.match(r"(?:[\w:]*::)?(\w+)", said.strip())
    return found[1] if found else ""


def ends_of(text: str, indent: str, start: int) -> tuple[int, int, bool]:
    """Where a function's head ends and where its body does, and whether the body is empty."""
    ending = re.compile(rf"^{indent}(\{{\}}|\{{$)|(;$)|( \{{$)|( \{{\}}$)", re.M)
    for found in ending.finditer(text, start):
        line = text[text.rfind("\n", 0, found.start() + 1) + 1 : found.end()]
        if found[0].startswith(f"{indent}{{}}"):
            return found.start(), found.end(), True
        if found[2] or found[4]:
            return found.end(), found.end(), False
        if found[1] or (found[3] and line.startswith(f"{indent}") and "ensures" not in line):
            close = re.compile(rf"^{indent}\}}", re.M).search(text, found.end())
            return found.start(), close.end() if close else len(text), False
    return len(text), len(text), False


def functions_in(crate: str, path: str) -> Iterator[Function]:
    """The functions of a source, nested ones left out."""
    text = text_of(path)
    types = [(it.start(), type_of(it[2]), it[1] == "trait" or " for " in it[2]) for it in TYPE.finditer(text)]
    behind = 0
    for found in FUNCTION.finditer(text):
        if found.start() < behind:
            continue
        around = [it for it in types if it[0] < found.start()][-1:] if found[1] else []
        head, behind, is_law = ends_of(text, found[1], found.end())
        name = "::".join([*(it[1] for it in around), found[3]])
        is_public = found[2] == "pub " or any(it[2] for it in around)
        clauses = tuple(CLAUSE.findall(text[found.end() : head]))
        start = found.start()
        yield Function(crate, name, path, line_at(text, start), line_at(text, behind), clauses, is_public, is_law and bool(clauses))


def exported(crate: str) -> tuple[set[str], set[str]]:
    """What the root of a crate lets out: names, and files whose public items are all let out."""
    names, files, rest = set(), set(), [f"crates/{crate}/src/lib.rt"]
    while rest:
        path = rest.pop()
        if not os.path.exists(f"{TOP}/{path}"):
            continue
        files.add(path)
        text, folder = text_of(path), os.path.splitext(path)[0].removesuffix("/lib").removesuffix("/mod")
        names |= {it for use in EXPORT.findall(text) for it in re.findall(r"\w+", use)}
        rest += [f"{folder}/{it}{ending}" for it in MODULE.findall(text) for ending in (".rt", "/mod.rt")]
    return names, files


@functools.lru_cache(maxsize=None)
def functions_of(crate: str) -> tuple[Function, ...]:
    """The functions of a crate, each public one only where other crates can name it."""
    names, files = exported(crate)
    found = [it for path in files_below(f"crates/{crate}/src", ".rt") for it in functions_in(crate, path)]
    seen = lambda it: it.is_public and (it.path in files or it.name.split("::")[0] in names)
    return tuple(it._replace(is_public=seen(it)) for it in found)


# definitions and mutants


@functools.lru_cache(maxsize=None)
def definitions_of(crate: str) -> tuple[Definition, ...]:
    """The definitions of a crate, in the order of its files."""
    found = []
    for path in files_below(f"crates/{crate}/specs", ".antt"):
        text = text_of(path)
        found += [Definition(crate, it[1], path, line_at(text, it.start())) for it in DEFINITION.finditer(text)]
    return tuple(found)


@functools.lru_cache(maxsize=None)
def mutants_of(crate: str) -> tuple[Mutant, ...]:
    """The mutants of a crate."""
    edits = [(it.name, it.text()) for it in blocks_of(f"{TOP}/tests/mutants/{crate}.edits")]
    edits += [(os.path.basename(it).removesuffix(".edit"), text_of(it)) for it in files_below(f"crates/{crate}/must-fail", ".edit")]
    return tuple(mutant_in(crate, name, text) for name, text in edits)


def mutant_in(crate: str, name: str, text: str) -> Mutant:
    """A mutant, with the functions around the texts that it changes, or the one that it names."""
    functions, file, only = set(), "", ""
    for word, said in PAIR.findall(text):
        if word == "file":
            file = f"crates/{crate}/{said.strip()}"
        elif word == "only":
            only = said.strip()
        else:
            functions |= {it.name for it in functions_of(crate) if it.path == file and holds(it, said)}
    if only:
        functions = {it.name for it in functions_of(crate) if f"::{only}".endswith(f"::{it.name}") or f"::{it.name}".endswith(f"::{only}")}
    return Mutant(name, frozenset(functions))


def holds(function: Function, said: str) -> bool:
    """Whether a text stands in a function's lines. (It stands in its file once.)"""
    at = text_of(function.path).find(said)
    return at >= 0 and function.line <= line_at(text_of(function.path), at) <= function.last
