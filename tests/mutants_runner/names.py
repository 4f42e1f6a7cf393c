"""Public names of crates, by which the new text of a mutant is read without a prover."""
import glob
import re

from .mutant import Mutant, text_of

DECLARED = re.compile(r"\bpub (?:const |unsafe )*(?:fn|struct|enum|trait|type|const|static|mod) (\w+)")
EXPORTED = re.compile(r"\bpub use ([^;]*);")
NAMED = re.compile(r"(?<![\w:])(\w+)::(\w+)")


def public_names(folder: str) -> set[str]:
    """The names that a crate's text declares as public, in whatever module, and those that it exports."""
    texts = [text_of(path) for path in glob.glob(f"{folder}/src/**/*.rt", recursive=True)]
    declared = {name for text in texts for name in DECLARED.findall(text)}
    return declared.union(*(re.findall(r"\w+", names) for text in texts for names in EXPORTED.findall(text)))


def unknown_names(mutant: Mutant, known: dict[str, set[str]]) -> list[str]:
    """The paths `CRATE::NAME` in a mutant's new texts of which the crate is known and has no such public name."""
    paths = [path for _, _, new in mutant.pairs for path in NAMED.findall(new)]
    return [f"{crate}::{name}" for crate, name in paths if name not in known.get(crate, {name})]
