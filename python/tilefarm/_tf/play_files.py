"""Files that a page writes: the program that was given, and new files by plain names in the folder in which the page was begun."""
import os
from typing import Callable

from .joining import ended
from .netpbm import picture_of
from .output import encoded, ending, put
from .play_jobs import BadRequest, Job, job_of, text, truth
from .targets import is_same

PICTURES = (".png", ".pgm", ".ppm")
LONGEST = 200


class Files:
    """The folder, what the given files held when they were last read or written here, and all files that were read."""

    def __init__(self, folder: str, known: dict[str, bytes], read: tuple[str, ...] = ()):
        self.folder, self.known, self.read = folder, known, read

    def path_of(self, name: str) -> str:
        """Where a name leads: to a file that was given, or to one in the folder."""
        is_plain = name and not name.startswith(".") and all(it.isprintable() and it not in "/\\" for it in name)
        path = os.path.join(self.folder, name)
        if name in self.known:
            return path
        if not is_plain or len(name.encode()) > LONGEST:
            raise BadRequest("a file has a plain name here, and stands in the folder in which tf play was begun", 403)
        if os.path.lexists(path) and (os.path.islink(path) or not os.path.isfile(path)):
            raise BadRequest(f"{name} is there, and is no plain file", 403)
        if any(is_same(it, path) for it in self.read):
            raise BadRequest(f"{name} is read by this page, and is not replaced: name another file", 403)
        return path

    def may_write(self, name: str, path: str) -> bool:
        """Whether nothing is lost: there is no such file, or it is as we know it."""
        if not os.path.lexists(path):
            return True
        try:
            with open(path, "rb") as file:
                return name in self.known and file.read() == self.known[name]
        except OSError:
            return False

    def save(self, asked: dict, result: Callable[[Job], bytes]) -> dict:
        """Writes the program or the result. A file that would be lost is replaced only where the request says so."""
        name = text(asked, "file")
        path = self.path_of(name)
        if not self.may_write(name, path) and not truth(asked, "replace"):
            return {"exists": name}
        if truth(asked, "result"):
            put(path, picture_data(name, result(job_of(asked))))
            return {"saved": name}
        data = ended(text(asked, "text").encode("utf-8", "surrogatepass"))
        put(path, data)
        self.known[name] = data
        return {"saved": name}


def picture_data(name: str, written: bytes) -> bytes:
    """A result as the file whose ending the name has: a picture, or the lines of accumulators."""
    found = picture_of(written) if written.startswith((b"P5\n", b"P6\n")) else None
    if ending(name) == ".txt":
        return found[1] if found else written
    if ending(name) not in PICTURES:
        raise BadRequest("a result is saved as .png, .pgm or .ppm, and accumulators as .txt")
    if found is None:
        raise BadRequest("this program has no picture for a result: save its accumulators, as a .txt file")
    return encoded(found[0], name)
