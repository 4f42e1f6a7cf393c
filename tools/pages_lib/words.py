"""The words of the crates, and the crate that the name of a function leads to."""
import functools
import re
from typing import Iterator

from . import sources

# The last paragraph of a crate's first lines.
WORDS = re.compile(r"^(.*?)\s*\bWords: ([^.]*)\.$", re.S)
TEST = re.compile(r"#\[test\]\s*\Z")


def parted(said: str) -> tuple[str, list[str]]:
    """What a crate's first lines say, and its words."""
    found = WORDS.match(said)
    return (found[1], [it.strip() for it in found[2].split(",")]) if found else (said, [])


@functools.cache
def parts_of(name: str) -> list[str]:
    """The parts of a name, each in the singular: those of `TileRows::find_box` are `tile`, `row`, `find` and `box`."""
    small = re.sub(r"(?<=[a-z0-9])(?=[A-Z])", "_", name.replace("::", "_")).lower()
    return [singular(it) for it in re.split(r"[_ ]+", small) if it]


def singular(word: str) -> str:
    return word[:-2] if re.search(r"(ss|x|ch|sh)es$", word) else word.removesuffix("s") if not word.endswith("ss") else word


def occurs(word: list[str], name: list[str]) -> bool:
    return any(name[at : at + len(word)] == word for at in range(len(name) - len(word) + 1))


def leads_to(name: str, words: dict[str, str]) -> set[str]:
    """The crates of the longest words that occur in a function's name or in its type's."""
    names = [parts_of(it) for it in name.split("::")]
    found = [(len(parts_of(word)), crate) for word, crate in words.items() if any(occurs(parts_of(word), it) for it in names)]
    return {crate for length, crate in found if length == max(found)[0]}


def faults_of(crates: dict[str, list[str]]) -> Iterator[str]:
    """A crate without words, a word of two crates, and a function whose name leads to other crates than its own."""
    words: dict[str, str] = {}
    for crate, listed in crates.items():
        if not listed:
            yield f"{crate}: its first lines list no words (//! Words: ..)"
        for word in listed:
            if word in words:
                yield f"{word}: a word of {words[word]} and of {crate}"
            words[word] = crate
    for crate in crates:
        for it in sources.functions_of(crate):
            found = leads_to(it.name, words)
            if crate not in found and not is_test(it):
                yield f"{it.path}:{it.line}: {it.name} has no word of {crate}, but of {', '.join(sorted(found)) or 'none'}"


def is_test(function: sources.Function) -> bool:
    lines = sources.text_of(function.path).splitlines(keepends=True)
    return bool(TEST.search("".join(lines[: function.line - 1])))
