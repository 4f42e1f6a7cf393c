"""Crates that crates.txt does not list: the tests without proofs, and the program that times the libraries.

The toolchain refuses `.rt` files outside of crates/, so their sources are *.rattle files of other folders. Such a crate is checked or compiled
in a repository of its own, outside of this one: a copy of the crates, with this one as one more.
"""
import hashlib
import os
import re
import shutil
import subprocess
import tempfile
from typing import Iterator, NamedTuple

from mutants_runner.toolchain import rt

TOP = os.path.dirname(os.path.dirname(os.path.abspath(__file__)))
LIST = f"{TOP}/crates.txt"


def content(path: str) -> bytes:
    with open(path, "rb") as file:
        return file.read()


def files_below(folder: str) -> Iterator[str]:
    for here, folders, names in os.walk(folder):
        folders[:] = sorted(it for it in folders if it != "out")
        yield from (f"{here}/{name}" for name in sorted(names))


def link_or_copy(path: str, to: str) -> None:
    """Gives a file a second name, or a copy on another file system."""
    try:
        os.link(path, to)
    except OSError:
        shutil.copy2(path, to)


class ExtraCrate(NamedTuple):
    """A crate's name, and its folders of sources, with the module that each is in. An empty name is the crate's root."""

    name: str
    folders: dict[str, str]

    def sources(self) -> dict[str, str]:
        """The place of each source in the crate, by its path here. What is a module of another crate comes without its `main`."""
        found = {}
        for folder, module in self.folders.items():
            for path in (it for it in files_below(folder) if it.endswith(".rattle")):
                inside = os.path.relpath(path, folder).removesuffix(".rattle")
                if not module or inside != "main":
                    found[path] = f"src/{os.path.join(module, inside)}.rt"
        return found

    def libraries(self) -> list[str]:
        """The libraries that the sources name: those of the repository, and those of the toolchain."""
        lines = [it.split("#")[0] for it in content(LIST).decode().splitlines()]
        known = {word for line in lines for word in re.findall(r"[a-z]\w*(?=[\s:]|$)", line)}
        texts = [content(it).decode() for it in self.sources()]
        used = {word for it in texts for word in re.findall(r"(?<![\w:])([a-z]\w*)::", it)}
        # (the toolchain's have common names, so only a `use` tells one from a module)
        of_kit = {word for it in texts for word in re.findall(r"^ *(?:pub )?use ([a-z]\w*)::", it, re.M)} - {"core", "std"}
        return sorted(known & used | {it for it in of_kit if os.path.isdir(f"{rt.KIT}/rlibs/{it}.rlib")})

    def copy_sources(self, crate: str) -> None:
        """Copies the sources into the folder of a crate."""
        for path, place in self.sources().items():
            os.makedirs(os.path.dirname(f"{crate}/{place}"), exist_ok=True)
            shutil.copy(path, f"{crate}/{place}")

    def lay_out(self) -> int:
        """Lays the sources out as `rt fmt` does, and gives its status."""
        with tempfile.TemporaryDirectory(prefix=f"{self.name}-") as crate:
            self.copy_sources(crate)
            status = subprocess.run(["rt", "fmt"], cwd=crate).returncode
            for path, place in self.sources().items():
                shutil.copyfile(f"{crate}/{place}", path)
        return status

    def make_repository(self, folder: str) -> None:
        """Makes a copy of the crates, with this one as one more."""
        shutil.copytree(f"{TOP}/crates", f"{folder}/crates", ignore=shutil.ignore_patterns("out"))
        shutil.copy(f"{TOP}/HANDLES", folder)
        with open(f"{folder}/crates.txt", "w", encoding="utf-8") as made:
            made.write(f"{content(LIST).decode().rstrip()}\n{self.name}: {' '.join(self.libraries())}\n")
        self.copy_sources(f"{folder}/crates/{self.name}")

    def sum_of_all(self, *scripts: str, endings: tuple[str, ...] = (".rt",)) -> str:
        """The sum of all that the crate's program is made of: these scripts, the sources, the crates' files of these endings, the toolchain."""
        made_of = hashlib.sha256(content(f"{rt.KIT}/KIT-ID"))
        crates = (it for it in files_below(f"{TOP}/crates") if it.endswith(endings))
        for path in [__file__, *scripts, LIST, f"{TOP}/HANDLES", *self.sources(), *crates]:
            read = content(path)
            made_of.update(f"{os.path.relpath(path, TOP)} {len(read)}\n".encode() + read)
        return made_of.hexdigest()


def link_proofs(folder: str) -> None:
    """Gives a copy of the crates the proved libraries that checks left in these. The toolchain takes those whose texts are the same."""
    for name in os.listdir(f"{TOP}/crates"):
        kept = f"{TOP}/crates/{name}/out/rlib"
        if os.path.isdir(kept):
            shutil.copytree(kept, f"{folder}/crates/{name}/out/rlib", copy_function=link_or_copy)


TIMED = ExtraCrate("timed", {f"{TOP}/bench/timed": ""})
NATIVE = ExtraCrate("native_tests", {f"{TOP}/tests/native/src": "", f"{TOP}/bench/timed": "timed"})
