"""Runs of the program: a process for each job, whose input and output are files in memory."""
from __future__ import annotations

import contextlib
import functools
import itertools
import os
import shutil
import subprocess
import tempfile
import time
import warnings
from typing import IO, Iterator, NamedTuple, Sequence

from ._tf import running
from .errors import NoProgram, Refused

HERE = os.path.dirname(os.path.realpath(__file__))
# what the wheel brings: the program, and the same for processors with AVX2
BROUGHT = f"{HERE}/bin/tilefarm"
BROUGHT_WIDE = f"{BROUGHT}.x86-64-v3"
TURNS = itertools.count()


class Ended(NamedTuple):
    """How a run ended: its status, what it wrote, and the seconds of the process."""

    status: int
    written: bytearray
    seconds: float


def program_path() -> str:
    """The program: the one that the variable TILEFARM names, else what the package brings, else what a checkout has built, else one on
    the path. Raises NoProgram where there is none."""
    named = os.environ.get("TILEFARM")
    if named and not running.is_program(named):
        raise NoProgram(f"TILEFARM names {named}, which is no program")
    return named or found_program()


@functools.cache
def found_program() -> str:
    brought = running.fastest_built(BROUGHT, BROUGHT_WIDE)
    built = running.fastest_built()
    found = next(filter(running.is_program, [brought, built, shutil.which("tilefarm"), running.QUICK]), None)
    if found is None:
        raise NoProgram("there is no program tilefarm: `make quick` in a checkout makes one, and the variable TILEFARM can name another")
    if found == running.QUICK:
        warnings.warn(f"{found} answers, of which nothing is proved: `make build` makes the proved program", stacklevel=2)
    return found


def run(words: Sequence[str], sections: Sequence[bytes | memoryview], threads: int | None = None) -> Ended:
    """Runs the program with these words on these bytes, one after the other. It starts at most `threads` threads."""
    with in_memory() as stdin, in_memory() as stdout:
        for section in sections:
            stdin.write(section)
        stdin.seek(0)
        with few_processors(threads):
            began = time.perf_counter()
            process = started([program_path(), *words], stdin, stdout)
        try:
            status = process.wait()
        except BaseException:
            process.kill()
            process.wait()
            raise
        seconds = time.perf_counter() - began
        written = bytearray(os.fstat(stdout.fileno()).st_size)
        stdout.seek(0)
        stdout.readinto(written)  # type: ignore[attr-defined]
    return Ended(status if status >= 0 else 128 - status, written, seconds)


def started(words: list[str], stdin: IO[bytes], stdout: IO[bytes]) -> subprocess.Popen[bytes]:
    try:
        return subprocess.Popen(words, stdin=stdin, stdout=stdout)
    except OSError as error:
        raise NoProgram(f"{words[0]} does not start: {error.strerror}") from error


def in_memory() -> IO[bytes]:
    """A file without a name: in memory alone, where the system has such files."""
    if hasattr(os, "memfd_create"):
        return open(os.memfd_create("tilefarm"), "w+b", buffering=0)
    return tempfile.TemporaryFile(buffering=0)


@contextlib.contextmanager
def few_processors(threads: int | None) -> Iterator[None]:
    """Gives a process that begins here so many processors, since it starts a thread for each at most. Those of one process after
    the other are others, so that processes side by side share none needlessly."""
    if threads is None:
        yield
        return
    if threads < 1:
        raise Refused(f"threads is a number from 1, and not {threads}")
    usual = os.sched_getaffinity(0)
    every = sorted(usual)
    first = next(TURNS) * threads
    os.sched_setaffinity(0, {every[(first + it) % len(every)] for it in range(min(threads, len(every)))})
    try:
        yield
    finally:
        os.sched_setaffinity(0, usual)
