"""The layers of crates.txt and the headings of the crates: the picture of all crates, and the page that has each."""
import re
import textwrap
from typing import NamedTuple

from . import sources, words

LIST = "crates.txt"
LAYER = re.compile(r"# layer: ([^.]*)\. (.*)")
# How many letters a row of the picture has for crates.
ROOM = 88
HEADING = re.compile(r"^//! ?(.*)$", re.M)
HEAD = """# Crates

All crates, by layer. This page is made by `tools/make_crates` from the headings of `crates.txt` and from the first lines (`//!`) of each crate: change
these, and not the page. A crate uses crates of lower layers, and in its own layer those to its left in the picture, which are below it in the
table. The table leaves out what a crate uses through another one. [ARCHITECTURE.md](ARCHITECTURE.md) goes through them from bytes to bytes, and
[THEOREMS.md](THEOREMS.md) has what each of them promises.

Each crate has words that no other crate has, so that a name leads to its crate. A function bears a word of its crate in its own name or in its type's. Where words of several
crates occur, the longest one counts: `parse_table_span` is of `tables`, by its word `table span`, and not of `domains`, by `span`. [STYLE.md](STYLE.md#names) has the rule.
"""


class Crate(NamedTuple):
    """A crate: its name, the crates on its line, what its first lines say, and its words."""

    name: str
    uses: tuple[str, ...]
    says: str
    words: tuple[str, ...]


class Layer(NamedTuple):
    name: str
    says: str
    crates: tuple[Crate, ...]


def layers_in(text: str, says) -> list[Layer]:
    """The layers of a list, bottom to top; `says` gives what a crate's first lines say."""
    layers: list[Layer] = []
    lines = text.splitlines()
    names = {it.split(":")[0].split()[0] for it in lines if ":" in it and not it.startswith("#")}
    for line in lines:
        if found := LAYER.fullmatch(line):
            layers.append(Layer(found[1], found[2], ()))
        elif ":" in line and not line.startswith("#"):
            head, _, listed = line.partition(":")
            name = head.split()[0]
            said, listed_words = words.parted(says(name))
            crate = Crate(name, tuple(it for it in listed.split() if it in names), said, tuple(listed_words))
            before = layers[-1:] or [Layer("", "", ())]
            layers[-1:] = [before[0]._replace(crates=(*before[0].crates, crate))]
    return layers


def heading_of(crate: str) -> str:
    """What the first lines of a crate say."""
    for name in ("lib", "main"):
        path = f"crates/{crate}/src/{name}.rt"
        if path in sources.files_below(f"crates/{crate}/src", ".rt"):
            said = "\n".join(HEADING.findall(sources.text_of(path)))
            return " ".join(said.split())
    return ""


def read() -> list[Layer]:
    return layers_in(sources.text_of(LIST), heading_of)


def below(crates: dict[str, Crate], name: str) -> set[str]:
    """The crates that a crate uses, itself or by others."""
    reached, rest = set(), [name]
    while rest:
        for it in crates[rest.pop()].uses:
            if it not in reached:
                reached.add(it)
                rest.append(it)
    return reached


def least(crates: dict[str, Crate], name: str) -> list[str]:
    """What a crate uses, without what those crates use anyway."""
    uses = crates[name].uses
    return [it for it in uses if not any(it in below(crates, other) for other in uses)]


# what is wrong


def faults_of(layers: list[Layer]) -> list[str]:
    """A crate outside of the layers, one without a heading, one that uses a crate above it, and a function without a word of its crate."""
    found, known = [], set()
    for layer in layers:
        for it in layer.crates:
            known.add(it.name)
            if not layer.name:
                found.append(f"{LIST}: {it.name} is in no layer")
            if not it.says:
                found.append(f"{it.name}: its first lines say nothing (//!)")
            found += [f"{LIST}: {it.name} is below {use}, which it uses" for use in it.uses if use not in known]
    return [*found, *words.faults_of({it.name: it.words for layer in layers for it in layer.crates})]


# the picture and the page


def picture(layers: list[Layer]) -> str:
    """The picture of all crates: a box for each layer, the highest first, with its crates beside it, in their order."""
    wide = max(len(it.name) for it in layers)
    rule = f"+{'-' * (wide + 2)}+"
    lines = ["```text", rule]
    for layer in reversed(layers):
        rows = textwrap.wrap("  ".join(it.name for it in layer.crates), ROOM, break_on_hyphens=False)
        lines += [f"| {name:{wide}} | {row}" for name, row in zip([layer.name, *[""] * len(rows)], rows)] + [rule]
    return "\n".join([*lines, "```", ""])


def page(layers: list[Layer]) -> str:
    """The page of all crates."""
    crates = {it.name: it for layer in layers for it in layer.crates}
    lines = [HEAD, picture(layers)]
    for layer in reversed(layers):
        lines += [f"## {layer.name}", "", layer.says, "", "| Crate | What it is | Its words | It uses |", "|---|---|---|---|"]
        lines += [row(crates, it) for it in reversed(layer.crates)] + [""]
    return "\n".join(lines[:-1]) + "\n"


def row(crates: dict[str, Crate], crate: Crate) -> str:
    uses = ", ".join(f"`{it}`" for it in least(crates, crate.name)) or "no other crate"
    return f"| [`{crate.name}`](../crates/{crate.name}) | {crate.says} | {', '.join(crate.words)} | {uses} |"
