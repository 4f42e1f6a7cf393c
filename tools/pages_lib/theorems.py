"""The rows of docs/theorems.toml beside the sources: what of them is not found, what no row has, and the pages that they make."""
import os
import re
import tomllib
from typing import Iterator, NamedTuple

from . import crates, sources
from .sources import Definition, Function

ROWS = "docs/theorems.toml"
INDEX, FOLDER = "docs/THEOREMS.md", "docs/theorems"
HEAD = """# Theorems

What is promised, one line a promise, by the [layers](ARCHITECTURE.md#the-crates) of the crates. A layer's own page has the definitions and the
contracts of each promise. A promise is in the highest layer that has a contract of it. [PROOFS.md](PROOFS.md) says what the promises come to together.

These pages are made by `tools/make_theorems` from the rows of `docs/theorems.toml` and a scan of `crates/`: change these, and not the pages. How to read a line
of them:

- A definition's name leads to the line that it begins on.
- A contract is a function, with the names of its clauses where the promise rests on some of them only. A law is a function without a body, whose
  clauses are the law. `Type::*` (N) is each of the N public functions of the type. After `Type::name`, further names are of the same type, up to the
  next type or crate.
- A mutant is in `tests/mutants`, and a contract of the promise or below it refuses it ([how](GATE.md)). A law has no body, so none of its own.
- A test is in `tests/native`, for what no contract refuses.
- A function's own proof is in `crates/NAME/proofs`, in a folder named for its file and for itself. Where there is none, the check finds the proof by itself.
"""
LAYER_HEAD = """# Theorems: {name}

{says} [THEOREMS.md](../THEOREMS.md) says how to read a line.

"""


class Contract(NamedTuple):
    """What a row names of one function: its crate, its name, and the clauses that it names."""

    crate: str
    function: str
    clauses: tuple[str, ...]


class Row(NamedTuple):
    promise: str
    definitions: tuple[str, ...]
    contracts: tuple[Contract, ...]
    mutants: tuple[str, ...]
    tests: tuple[str, ...]


class Table(NamedTuple):
    """All rows, and the crates of which only chosen contracts have one."""

    rows: tuple[Row, ...]
    inner: frozenset[str]


def table_in(text: str) -> Table:
    """The table that a text has."""
    found = tomllib.loads(text)
    return Table(tuple(map(row_in, found["row"])), frozenset(found["inner"]))


def row_in(said: dict) -> Row:
    contracts = (contract_in(crate, it) for crate, listed in said["contracts"].items() for it in listed)
    return Row(said["promise"], tuple(said["definitions"]), tuple(contracts), tuple(said.get("mutants", ())), tuple(said.get("tests", ())))


def contract_in(crate: str, said: str) -> Contract:
    function, _, clauses = said.partition(": ")
    return Contract(crate, function, tuple(clauses.split()))


def read() -> Table:
    return table_in(sources.text_of(ROWS))


# what the rows name, in the sources


def functions_of(contract: Contract) -> list[Function]:
    """The functions that a contract names: one, or each public one of a type that no row names by itself."""
    found = [it for it in sources.functions_of(contract.crate) if it.is_public and it.clauses]
    if contract.function.endswith("::*"):
        return [it for it in found if it.name.startswith(contract.function[:-1])]
    return [it for it in found if it.name == contract.function]


def definitions_of(said: str) -> list[Definition]:
    """The definitions that a row's text names."""
    place, _, name = said.partition(": ")
    crate, _, file = place.partition("/")
    found = [it for it in sources.definitions_of(crate) if it.name == name]
    return [it for it in found if it.path == f"crates/{crate}/specs/{file}.antt"] if file else found


def mutants_of(row: Row) -> list[str]:
    """The mutants of the functions of a row, and those that it names, each with its crate."""
    names = {(it.crate, it.name) for contract in row.contracts for it in functions_of(contract)}
    crates = dict.fromkeys(it.crate for it in row.contracts)
    found = [f"{crate}/{it.name}" for crate in crates for it in sources.mutants_of(crate) if any((crate, name) in names for name in it.functions)]
    return [*row.mutants, *(it for it in found if it not in row.mutants)]


# what is wrong


def faults_of(table: Table) -> list[str]:
    """What a row names that is not found, and what is found that no row names."""
    return [*(f"{row.promise}: {it}" for row in table.rows for it in faults_of_row(row)), *unnamed(table)]


def faults_of_row(row: Row) -> Iterator[str]:
    for said in row.definitions:
        if len(definitions_of(said)) != 1:
            yield f"{said}: {len(definitions_of(said))} definitions have this name"
    for contract in row.contracts:
        found = functions_of(contract)
        if not found:
            yield f"{contract.crate}: no public function with a clause has the name {contract.function}"
        elif not contract.function.endswith("::*"):
            known = [clause for it in found for clause in it.clauses]
            yield from (f"{contract.crate}: {contract.function} has no clause {it}" for it in contract.clauses if it not in known)
    for mutant in row.mutants:
        crate, _, name = mutant.partition("/")
        if name not in (it.name for it in sources.mutants_of(crate)):
            yield f"no mutant has the name {mutant}"
    for test in row.tests:
        if f"fn {test.partition('::')[2]}(" not in text_of_tests():
            yield f"no test has the name {test}"


def text_of_tests() -> str:
    return "\n".join(sources.text_of(it) for it in sources.files_below("tests/native/src", ".rattle"))


def unnamed(table: Table) -> Iterator[str]:
    """Each law and each clause of a public function that no row has."""
    named = {(it.crate, it.function, clause) for row in table.rows for it in row.contracts for clause in (*it.clauses, "")}
    types = {(it.crate, it.function[:-1]) for row in table.rows for it in row.contracts if it.function.endswith("::*")}
    for crate in sorted(set(os.listdir(f"{sources.TOP}/crates")) - table.inner):
        for it in sources.functions_of(crate):
            if not it.is_public or any((crate, f"{it.name.rpartition('::')[0]}::") == known for known in types):
                continue
            lacking = [clause for clause in it.clauses if (crate, it.name, clause) not in named]
            if lacking:
                yield f"{crate}: no row has {'the law ' * it.is_law}{it.name}: {' '.join(clause or '(without a name)' for clause in lacking)}"


# the pages


def pages(table: Table) -> dict[str, str]:
    """The pages that the rows make: the index, and one for each layer that has a row."""
    known = crates.read()
    layers = [(it, [row for row in table.rows if layer_of(row, known) is it]) for it in reversed(known)]
    layers = [(layer, rows) for layer, rows in layers if rows]
    return {INDEX: index(layers), **{f"{FOLDER}/{file_of(layer.name)}": layer_page(layer, rows) for layer, rows in layers}}


def layer_of(row: Row, layers: list[crates.Layer]) -> crates.Layer:
    """The highest layer that has a contract of the row."""
    named = {it.crate for it in row.contracts}
    return [layer for layer in layers if any(it.name in named for it in layer.crates)][-1]


def file_of(layer: str) -> str:
    return f"{re.sub(r'[^a-z]+', '-', layer.lower())}.md"


def index(layers: list[tuple[crates.Layer, list[Row]]]) -> str:
    lines = [HEAD]
    for layer, rows in layers:
        lines += [f"## {layer.name}", "", f"[Definitions and contracts]({os.path.basename(FOLDER)}/{file_of(layer.name)})", "", *(f"- {it.promise}" for it in rows), ""]
    return "\n".join(lines)


def layer_page(layer: crates.Layer, rows: list[Row]) -> str:
    """The page of a layer: a line for each promise, and then the links of all definitions, each once."""
    found = {label_of(said): it for row in rows for said in row.definitions for it in definitions_of(said)}
    links = (f"[`{label}`]: ../../{it.path}#L{it.line}" for label, it in sorted(found.items()))
    return "".join((LAYER_HEAD.format(name=layer.name, says=layer.says), *(f"- {line_of(it)}\n" for it in rows), "\n", *(f"{it}\n" for it in links)))


def line_of(row: Row) -> str:
    defined = ", ".join(f"[`{label_of(it)}`]" for it in row.definitions)
    return f"**{row.promise}.** By {defined}. Contracts: {promised(row)}.{refused(row)}"


def label_of(said: str) -> str:
    """How a page names a definition: with its crate, and with its file where the row has that."""
    return re.sub(r": |/", "::", said)


def promised(row: Row) -> str:
    named = dict.fromkeys(it.crate for it in row.contracts)
    return "; ".join(f"`{crate}`: {', '.join(shown([it for it in row.contracts if it.crate == crate]))}" for crate in named)


def shown(contracts: list[Contract]) -> Iterator[str]:
    """The contracts of one crate on a page: a type of which the row has all functions, or its functions, of which the first has the type's name."""
    kinds = dict.fromkeys(it.function.rpartition("::")[0] for it in contracts)
    for kind in kinds:
        named = [it for it in contracts if it.function.rpartition("::")[0] == kind]
        every = functions_of(Contract(named[0].crate, f"{kind}::*", ())) if kind else []
        whole = {it.function for it in named if not clauses_of(it)}
        if kind and (f"{kind}::*" in whole or whole >= {it.name for it in every}):
            yield f"`{kind}::*` ({len(every)})"
        else:
            yield f"`{named[0].function}`{clauses_of(named[0])}"
            yield from (f"`{it.function.rpartition('::')[2]}`{clauses_of(it)}" for it in named[1:])


def clauses_of(contract: Contract) -> str:
    """The clauses that a row names of a function, if it names some of them only."""
    every = {clause for it in functions_of(contract) for clause in it.clauses}
    return f" ({', '.join(contract.clauses)})" if contract.clauses and set(contract.clauses) != every else ""


def refused(row: Row) -> str:
    count = len(mutants_of(row))
    mutants = f" {count} mutant{'s' * (count != 1)}." if count else ""
    return mutants + "".join(f" Test `{it}`." for it in row.tests)


def strays(made: dict[str, str]) -> Iterator[str]:
    """Pages of layers that no row makes any more."""
    for name in sorted(os.listdir(f"{sources.TOP}/{FOLDER}")) if os.path.isdir(f"{sources.TOP}/{FOLDER}") else ():
        if f"{FOLDER}/{name}" not in made:
            yield f"{FOLDER}/{name}: no layer with a row has this page: remove it"
