"""The folder that --stages writes: pictures, and a page of them that says what was made. What is there otherwise is never replaced."""
import hashlib
import os
import re
from typing import Callable, NamedTuple

from . import leaving, rooms
from .output import put_file
from .targets import refuse_own
from .text import Refused
from .words import Asked

PAGE = "index.html"
# a page's last line has the digest of all before it, and each of its figures that of its picture
SEAL = re.compile(rb"<!-- made by tf eval --stages, sha256 ([0-9a-f]{64}) -->\n")
FIGURE = re.compile(rb'<figure data-sha256="([0-9a-f]{64})"><a href="([A-Za-z][A-Za-z0-9_]*\.png)">')


class Folder(NamedTuple):
    """A folder, and the call that writes it."""

    path: str
    asked: Asked

    def judge(self, names: list[str]) -> None:
        """Refuses to lose what is there: files that are read, and all that an earlier --stages has not left like this."""
        if os.path.exists(self.path) and not os.path.isdir(self.path):
            raise Refused(f"{self.path}: this is a file; --stages wants a folder", 4)
        made = made_in(self.path)
        for name in names:
            path = f"{self.path}/{name}"
            refuse_own(self.asked, path, "--stages")
            if os.path.lexists(path) and (name not in made or digest_of(path) != made[name]):
                raise Refused(f"{path}: it is there, and not as --stages made it: name another folder, or take it away", 1)

    def fill(self, names: list[str], make: Callable[[str], None]) -> None:
        """Has all files made in a room of the folder's own, and gives them their names once all are there."""
        try:
            os.makedirs(self.path, exist_ok=True)
            with rooms.room(self.path) as room:
                make(room)
                with leaving.held():
                    for name in names:
                        put_file(f"{self.path}/{name}", f"{room}/{name}")
        except OSError as error:
            raise Refused(f"{error.filename or self.path}: {error.strerror}", 4) from error


def made_in(folder: str) -> dict[str, str]:
    """The files that a page says were made here, each with its digest: none where there is no page, or where it was changed."""
    try:
        with open(f"{folder}/{PAGE}", "rb") as file:
            page = file.read()
    except OSError:
        return {}
    *_, last = page.rpartition(b"<!--")
    seal, text = SEAL.fullmatch(b"<!--" + last), page[: len(page) - len(last) - 4]
    if not seal or digest(text) != seal[1].decode():
        return {}
    return {PAGE: digest(page), **{it[2].decode(): it[1].decode() for it in FIGURE.finditer(text)}}


def digest(data: bytes) -> str:
    return hashlib.sha256(data).hexdigest()


def digest_of(path: str) -> str:
    """The digest of a file; none of a link, of what is no file, or cannot be read."""
    if os.path.islink(path) or not os.path.isfile(path):
        return ""
    try:
        with open(path, "rb") as file:
            return digest(file.read())
    except OSError:
        return ""


def sealed(page: str) -> bytes:
    """A page with its last line."""
    data = page.encode()
    return data + f"<!-- made by tf eval --stages, sha256 {digest(data)} -->\n".encode()
