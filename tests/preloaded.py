"""Small C libraries that are preloaded into a program, so that a call of the system's library does what a test wants of it."""
import os
import shutil
import subprocess
import sys

HERE = os.path.dirname(os.path.abspath(__file__))


def compiler() -> str:
    """The C compiler that is there; without one nothing is tried."""
    found = next((it for it in ("cc", "gcc", "clang") if shutil.which(it)), None)
    return found or sys.exit("no C compiler is on the path: cc, gcc or clang makes what is preloaded")


def library(folder: str, source: str) -> str:
    """The library of a C file, which is named as it stands beside this one or by its path, made in a folder."""
    made = f"{folder}/{os.path.splitext(os.path.basename(source))[0]}.so"
    subprocess.run([compiler(), "-shared", "-fPIC", "-O2", "-o", made, os.path.join(HERE, source)], check=True)
    return made
