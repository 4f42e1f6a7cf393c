"""Folders for what a call makes beside its result. One that a killed call has left is named at the next call with a result beside it."""
import contextlib
import fcntl
import os
import shlex
from typing import Iterator

from . import leaving
from .output import tell
from .text import Refused

# the file of a folder that its call holds locked: the system takes the lock away when the call ends, however that ends
MARK = "tf-at-work"
USUAL = ".tf-"


@contextlib.contextmanager
def room(folder: str | None, prefix: str = USUAL) -> Iterator[str]:
    """A new folder in another one, or where the system has such folders. It is gone after this."""
    tell_left(folder or leaving.usual_folder())
    with leaving.room(prefix, folder) as made, open(f"{made}/{MARK}.new", "wb") as mark:
        # (a file system may have no locks: then no folder there has the mark, and none is taken for one that was left)
        with contextlib.suppress(OSError):
            fcntl.flock(mark, fcntl.LOCK_EX)
            os.rename(mark.name, f"{made}/{MARK}")
        yield made


@contextlib.contextmanager
def room_for(target: str | None) -> Iterator[str]:
    """A folder for what is made, where that can take the target's name; what fails there is told."""
    try:
        with room(folder_of(target)) as made:
            yield made
    except OSError as error:
        raise Refused(f"{error.filename or target or 'the result'}: {error.strerror}", 4) from error


def folder_of(target: str | None) -> str | None:
    """The folder of the target, so that what is made there can take its name; another one where the target is written to as it stands."""
    folder = os.path.dirname(os.path.realpath(target)) if target else ""
    is_replaced = target and (os.path.isfile(target) or not os.path.exists(target))
    return folder if is_replaced and os.access(folder, os.W_OK) else None


def tell_left(folder: str) -> None:
    """Names the folders that killed calls of this user have left in a folder."""
    for path in left_in(folder):
        tell(f"{path} is left by a tf that was killed, and holds {size_of(path) / 1e6:.1f} MB: rm -r {shlex.quote(path)} removes it")


def left_in(folder: str) -> list[str]:
    with contextlib.suppress(OSError), os.scandir(folder) as found:
        names = sorted(it.name for it in found if it.name.startswith(".") and it.is_dir(follow_symlinks=False))
        return [path for path in (os.path.join(folder, it) for it in names) if is_left(path)]
    return []


def is_left(path: str) -> bool:
    """Whether a folder has the mark of a call of this user, and nobody holds that."""
    try:
        if os.stat(path).st_uid != os.geteuid():
            return False
        with open(f"{path}/{MARK}", "rb") as mark:
            fcntl.flock(mark, fcntl.LOCK_SH | fcntl.LOCK_NB)
        return True
    except OSError:
        return False


def size_of(path: str) -> int:
    """The bytes of all files in a folder."""
    found = 0
    for folder, _, files in os.walk(path):
        for it in files:
            with contextlib.suppress(OSError):
                found += os.lstat(f"{folder}/{it}").st_size
    return found
