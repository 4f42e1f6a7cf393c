"""Builds the wheel by the standard library alone, as PEP 517 says: `pip install` then needs neither a network nor setuptools.

The wheel has the package, what tools/tf is made of, and the program: the one that the variable TILEFARM names,
else what `make build` or `make quick` left. Without one the package finds a program where it runs.
"""
from __future__ import annotations

import base64
import hashlib
import os
import sys
import sysconfig
import tomllib
import zipfile
from typing import Any, Iterator

HERE = os.path.dirname(os.path.realpath(__file__))
TOP = os.path.dirname(HERE)
PACKAGE = "tilefarm"
BUILT = f"{TOP}/crates/tilefarm/out/tilefarm"
QUICK = f"{TOP}/out/quick/tilefarm"
WIDE = ".x86-64-v3"
# the mode of a file that may be run, and of one that may not, as archives hold them
PROGRAM, PLAIN = 0o100755 << 16, 0o100644 << 16

Settings = dict[str, Any] | None


def build_wheel(wheel_directory: str, config_settings: Settings = None, metadata_directory: str | None = None) -> str:
    """Writes the wheel into a folder, and answers its name."""
    programs = [*programs_here()]
    tag = f"py3-none-{platform()}" if programs else "py3-none-any"
    with Wheel(wheel_directory, tag) as wheel:
        for path in files_of_package():
            wheel.add_file(os.path.relpath(path, HERE), path)
        for path in examples():
            wheel.add_file(f"{PACKAGE}/_tf/examples/{path}", f"{TOP}/{path}")
        for name, path in programs:
            wheel.add_file(f"{PACKAGE}/bin/{name}", path, PROGRAM)
    return wheel.name


def build_editable(wheel_directory: str, config_settings: Settings = None, metadata_directory: str | None = None) -> str:
    """Writes a wheel that leads to this folder, for `pip install --editable`."""
    with Wheel(wheel_directory, "py3-none-any") as wheel:
        wheel.add(f"{PACKAGE}.pth", f"{HERE}\n".encode())
    return wheel.name


def build_sdist(sdist_directory: str, config_settings: Settings = None) -> str:
    """There is no archive of sources but the repository."""
    raise NotImplementedError("tilefarm is built in a checkout: the wheel takes the program from there")


def platform() -> str:
    return sysconfig.get_platform().replace("-", "_").replace(".", "_")


def files_of_package() -> Iterator[str]:
    """The files of the package."""
    for folder, folders, files in os.walk(f"{HERE}/{PACKAGE}"):
        folders[:] = sorted(it for it in folders if it not in ("__pycache__", "bin"))
        yield from (f"{folder}/{it}" for it in sorted(files))


def examples() -> list[str]:
    """The programs and pictures that the page of `tf play` offers, by their paths from the top of the repository."""
    sys.path.insert(0, f"{HERE}/{PACKAGE}")
    from _tf.play_examples import EXAMPLES

    return sorted({path for it in EXAMPLES for path in it.paths()})


def programs_here() -> Iterator[tuple[str, str]]:
    """The program, with its name in the wheel, and the one for processors with AVX2 where the same build left it."""
    named = os.environ.get("TILEFARM")
    path = next(filter(os.path.isfile, [named] if named else [BUILT, QUICK]), None)
    if path is None:
        sys.stderr.write("tilefarm: the wheel has no program; TILEFARM names one where the package runs\n")
        return
    yield "tilefarm", path
    wide = f"{path}{WIDE}"
    if os.path.isfile(wide) and os.path.getmtime(wide) >= os.path.getmtime(path):
        yield f"tilefarm{WIDE}", wide


class Wheel:
    """A wheel that is being written: an archive with what is in it, and what describes that."""

    def __init__(self, folder: str, tag: str):
        with open(f"{HERE}/pyproject.toml", "rb") as file:
            self.project = tomllib.load(file)["project"]
        self.tag, stem = tag, f"{PACKAGE}-{self.project['version']}"
        self.name, self.info = f"{stem}-{tag}.whl", f"{stem}.dist-info"
        self.records: list[str] = []
        self.archive = zipfile.ZipFile(f"{folder}/{self.name}", "w", zipfile.ZIP_DEFLATED)

    def __enter__(self) -> "Wheel":
        return self

    def __exit__(self, *error: object) -> None:
        """Writes what describes the wheel, and ends it."""
        self.add(f"{self.info}/METADATA", self.metadata().encode())
        self.add(f"{self.info}/WHEEL", f"Wheel-Version: 1.0\nGenerator: tilefarm\nRoot-Is-Purelib: false\nTag: {self.tag}\n".encode())
        self.add(f"{self.info}/entry_points.txt", self.entry_points().encode())
        record = f"{self.info}/RECORD"
        self.add(record, "".join([*self.records, f"{record},,\n"]).encode())
        self.archive.close()

    def add_file(self, name: str, path: str, mode: int = PLAIN) -> None:
        with open(path, "rb") as file:
            self.add(name, file.read(), mode)

    def add(self, name: str, data: bytes, mode: int = PLAIN) -> None:
        """Adds a file of the wheel. The time is always the same, so that equal sources give equal wheels."""
        entry = zipfile.ZipInfo(name, (1980, 1, 1, 0, 0, 0))
        entry.external_attr, entry.compress_type = mode, zipfile.ZIP_DEFLATED
        self.archive.writestr(entry, data)
        digest = base64.urlsafe_b64encode(hashlib.sha256(data).digest()).rstrip(b"=").decode()
        self.records.append(f"{name},sha256={digest},{len(data)}\n")

    def metadata(self) -> str:
        it = self.project
        needs = "".join(f"Requires-Dist: {name}\n" for name in it["dependencies"])
        return (f"Metadata-Version: 2.1\nName: {it['name']}\nVersion: {it['version']}\nSummary: {it['description']}\n"
                f"Requires-Python: {it['requires-python']}\n{needs}")

    def entry_points(self) -> str:
        lines = "".join(f"{name} = {place}\n" for name, place in self.project["scripts"].items())
        return f"[console_scripts]\n{lines}"
