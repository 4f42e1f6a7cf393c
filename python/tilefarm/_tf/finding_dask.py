"""Which Python has Dask. tf goes on there before anything is read, since a picture from standard input can be read once."""
import importlib.util
import os
import subprocess
import sys

from .running import command_words
from .text import Refused

DEBIAN = "/usr/bin/python3"


def go_on_with_dask() -> None:
    """Starts this call anew by a Python that has Dask, unless this one has it. (`tools/tf` itself starts without any packages; one that is
    installed for another Python is started by its folder.)"""
    if importlib.util.find_spec("distributed"):
        return
    found = next(filter(has_dask, [sys.executable, DEBIAN]), None)
    if found is None:
        raise Refused("--engine dask wants Dask's distributed scheduler, which this Python does not have (Debian's python3-distributed); "
                      "--engine list wants no package", 1)
    os.execv(found, [found, *command_words(), *sys.argv[1:]])


def has_dask(python: str) -> bool:
    """Whether a Python has the package, and can run tf. (-P: a file of that name in the folder at hand is none.)"""
    find = "import importlib.util, sys; sys.exit(sys.version_info < (3, 11) or not importlib.util.find_spec('distributed'))"
    try:
        return subprocess.run([python, "-P", "-c", find], stdin=subprocess.DEVNULL, stderr=subprocess.DEVNULL).returncode == 0
    except OSError:
        return False
