"""The program of the tests that are compiled without proofs, and of the calls whose allocations fail: one build for both.

The program is kept in out/native, beside the sum of all that it was made of, and built anew where that differs. The program that times
the libraries is a module of it, so that a text of it that no longer compiles fails the build.
"""
import fcntl
import os
import shutil
import sys
import tempfile

HERE = os.path.dirname(os.path.abspath(__file__))
sys.path.insert(0, os.path.dirname(HERE))

import unproved
from extra_crate import NATIVE, TOP, content

KEPT = f"{TOP}/out/native"


def program() -> str:
    """The program, built if what is kept is not of these files."""
    os.makedirs(os.path.dirname(KEPT), exist_ok=True)
    with open(f"{KEPT}.lock", "w", encoding="utf-8") as turn:
        # (the tests and the calls whose allocations fail may begin side by side, and share one build)
        fcntl.flock(turn, fcntl.LOCK_EX)
        return kept_or_built()


def kept_or_built() -> str:
    """The program that is kept, or one that is built now."""
    made, told, wanted = f"{KEPT}/{NATIVE.name}", f"{KEPT}/sum", NATIVE.sum_of_all(__file__, unproved.__file__)
    if os.path.isfile(made) and os.path.isfile(told) and content(told).decode() == wanted:
        return made
    shutil.rmtree(KEPT, ignore_errors=True)
    os.makedirs(KEPT)
    with tempfile.TemporaryDirectory(prefix="native-") as folder:
        try:
            NATIVE.make_repository(folder)
            unproved.build_tests(folder, NATIVE.name, made)
        except unproved.NotBuilt as why:
            sys.exit(f"the tests are not built: {why}\n0 passed, 1 failed")
    with open(told, "w", encoding="utf-8") as file:
        file.write(wanted)
    return made
