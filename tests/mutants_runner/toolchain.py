"""The toolchain's own script, loaded as a module: its words for a check, its reading of edits, and its lanes for tasks.

So what a check reads and how the prover is started is defined in one place, and a new toolchain brings its own. What not every toolchain has
is here: the checksums of texts, where a check keeps its work, and walks that visit each library once.
"""
import contextlib
import functools
import hashlib
import importlib.machinery
import os
import shutil
import sys
import threading
import types

NAME = "rt_of_the_toolchain"


def load() -> types.ModuleType:
    found = shutil.which("rt")
    if not found:
        sys.exit("rt is wanted, the command of the toolchain")
    made = types.ModuleType(NAME)
    made.__file__ = os.path.realpath(found)
    importlib.machinery.SourceFileLoader(NAME, made.__file__).exec_module(made)
    return made


rt = load()
rtlib = rt.rtlib


def remember_walks() -> None:
    """Has the toolchain find the libraries below a crate once, and not once for each of the 300,000 ways that lead down from the program."""
    below, stamp, running = rtlib.Crate.below, rtlib.Crate.stamp, threading.local()

    @functools.wraps(below)
    def below_once(crate):
        if "found_below" not in crate.__dict__:
            crate.found_below = (*below(crate),)
        return [*crate.found_below]

    @functools.wraps(stamp)
    def stamp_once(crate):
        # (a text may change between two calls, so a sum is known within one of them alone)
        if hasattr(running, "known"):
            if crate.folder not in running.known:
                running.known[crate.folder] = stamp(crate)
            return running.known[crate.folder]
        running.known = {}
        try:
            return stamp(crate)
        finally:
            del running.known

    rtlib.Crate.below, rtlib.Crate.stamp = below_once, stamp_once


remember_walks()


def sum_of_toolchain() -> str:
    """A checksum of what the toolchain says that it is, and of its scripts."""
    found = hashlib.sha256()
    kit = [it for it in os.listdir(rtlib.KIT) if it.startswith(("KIT-ID", "WHAT"))]
    for path in (*sorted(kit), "bin/rt", "bin/rtlib.py"):
        with contextlib.suppress(FileNotFoundError), open(f"{rtlib.KIT}/{path}", "rb") as file:
            found.update(hashlib.sha256(file.read()).digest())
    return found.hexdigest()


def texts(crate) -> list[str]:
    """The paths of the crate's sources, definitions and proofs, and of all that lies beside them."""
    walked = (os.walk(f"{crate.folder}/{part}") for part in rtlib.PARTS)
    return sorted(f"{folder}/{name}" for each in walked for folder, _, names in each for name in names)


def own_sum(crate) -> str:
    """A checksum of the crate's sources, definitions and proofs, and of its line of crates.txt."""
    found = hashlib.sha256(repr(crate.said).encode())
    for path in texts(crate):
        with open(path, "rb") as file:
            found.update(repr((os.path.relpath(path, crate.folder), file.read())).encode())
    return found.hexdigest()


def kept_work(crate) -> str:
    """The folder of the work that `rt check` keeps of the crate."""
    return rt.work_for(crate) if hasattr(rt, "work_for") else f"{crate.folder}/{rtlib.KEPT[1]}"


def keep_apart() -> None:
    """Switches off what a toolchain shares of kept work, where it shares any."""
    if hasattr(rt, "share_work"):
        rt.share_work(False)
