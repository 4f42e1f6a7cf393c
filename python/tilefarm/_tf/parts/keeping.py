"""Finished parts in a folder, so that a run that was ended goes on: the result of each by the digest of all that it hangs on."""
import contextlib
import hashlib
import os
import re
from typing import Callable

from .. import leaving
from ..output import umask
from ..running import program
from ..text import Refused, content

# (what begins with a dot is left by a call that was killed)
NAME = re.compile(r"[0-9a-f]{64}\.part|\.[0-9a-f]{64}\.\w+")


class Kept:
    """The parts of one folder. A file has the digests of its part and of its result in its first line, so that one that was cut is none."""

    def __init__(self, folder: str):
        self.folder = folder
        self.program = hashlib.sha256(content(program())).hexdigest()
        try:
            os.makedirs(folder, exist_ok=True)
            other = next((it for it in os.listdir(folder) if not NAME.fullmatch(it)), None)
        except OSError as error:
            raise Refused(f"--resume {folder}: {error.strerror}", 4) from error
        if other is not None:
            raise Refused(f"--resume {folder}: {other} there is no part that --resume has kept; name a folder for the parts alone", 1)

    def key(self, words: list[str], data: Callable[[], bytes]) -> str:
        """The digest of the program, of its words and of its input."""
        return hashlib.sha256(f"{self.program}\n{words}\n".encode() + data()).hexdigest()

    def result(self, key: str) -> bytes | None:
        """What was kept, where it is there and whole."""
        try:
            with open(self.path(key), "rb") as file:
                first, found = file.readline(200), file.read()
        except OSError:
            return None
        return found if first == head(key, found) else None

    def put(self, key: str, result: bytes) -> None:
        """Keeps a result. It takes its name when all of it is there."""
        try:
            with leaving.new_file(f".{key}.", self.folder) as (handle, made):
                with os.fdopen(handle, "wb") as file:
                    file.write(head(key, result) + result)
                os.chmod(made, 0o666 & ~umask())
                os.replace(made, self.path(key))
        except OSError as error:
            raise Refused(f"--resume {self.folder}: {error.strerror}", 4) from error

    def drop(self, key: str) -> None:
        with contextlib.suppress(FileNotFoundError):
            os.unlink(self.path(key))

    def path(self, key: str) -> str:
        return f"{self.folder}/{key}.part"


class NotKept(Kept):
    """Where nothing is kept."""

    def __init__(self):
        pass

    def key(self, words: list[str], data: Callable[[], bytes]) -> str:
        return ""

    def result(self, key: str) -> bytes | None:
        return None

    def put(self, key: str, result: bytes) -> None:
        pass

    def drop(self, key: str) -> None:
        pass


def head(key: str, result: bytes) -> bytes:
    return f"tilefarm part {key} {hashlib.sha256(result).hexdigest()}\n".encode()
