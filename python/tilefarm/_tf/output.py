"""Where results go: files that take their names once all went well, standard output, and what is told on standard error."""
import contextlib
import errno
import os
import stat
import sys
import threading
from typing import Iterable

from . import aside, leaving, progress
from .netpbm import Picture
from .streams import drop, printable
from .text import Refused

CONVERTED = (".png", ".jpg", ".jpeg", ".tif", ".tiff", ".gif", ".webp")
PICTURES = (".pgm", ".ppm", ".pnm", *CONVERTED)
# how many bytes of a file are copied at a time
AT_A_TIME = 1 << 20
ASKING = threading.Lock()


def tell(message: str) -> None:
    """Tells the user something of tf's own."""
    show(f"tf: {message}")


def show(lines: str) -> None:
    """Writes lines to standard error. Where that takes nothing, nobody is told."""
    if said := aside.now():
        said.told.append(lines)
        return
    with contextlib.suppress(OSError):
        progress.clear()
        print(printable(lines), file=sys.stderr, flush=True)


def ending(path: str) -> str:
    return os.path.splitext(path)[1].lower()


def encoded(picture: Picture, path: str, how: "Writing | None" = None) -> bytes:
    """The picture as a file of the format that the path's ending names. PNG is written here, and others by vips."""
    with progress.doing(f"converting to {path}"):
        data, said = converted(picture, path, how)
    for message in said:
        tell(message)
    return data


def converted(picture: Picture, path: str, how: "Writing | None" = None) -> tuple[bytes, list[str]]:
    """The same, and what is to be said of it."""
    if ending(path) not in CONVERTED:
        return picture.raw(), []
    from .writing import Writing

    fitted, said = (how or Writing()).fitting(picture)
    if ending(path) == ".png":
        from . import png

        data, more = png.write(picture)
    else:
        from . import converters

        with leaving.room() as room:
            data, more = converters.write(picture, path, room, fitted)
    return fitted.finished(data), [*(f"{path}: {it}" for it in said), *more]


def give(data: bytes) -> None:
    """Writes bytes to standard output."""
    give_all([data])


def give_all(blocks: Iterable[bytes]) -> None:
    """Writes bytes that come in blocks to standard output."""
    if said := aside.now():
        said.written.extend(blocks)
        return
    try:
        for it in blocks:
            sys.stdout.buffer.write(it)
        sys.stdout.buffer.flush()
    except OSError as error:
        drop(sys.stdout)
        sys.stdout = None
        raise Refused(f"standard output: {error.strerror}", 4) from error


def say(line: str) -> None:
    """Writes a line to standard output."""
    give(f"{printable(line)}\n".encode("utf-8", "backslashreplace"))


def put(path: str, data: bytes) -> None:
    """Writes a file. What is not there, and a regular file, takes its name once all of it is there; a link is followed. A device, a pipe
    or a socket is written to, and so is standard output by whatever name."""
    put_all(path, [data])


def put_all(path: str, blocks: Iterable[bytes]) -> None:
    """The same with bytes that come in blocks, each time that they are asked for."""
    try:
        there = stat_of(path)
        if there and is_standard_output(there):
            give_all(blocks)
        elif there and stat.S_ISSOCK(there.st_mode):
            send(path, blocks)
        elif there is None or can_be_replaced(path, there):
            replace(followed(path), blocks, there)
        else:
            write_into(path, blocks)
    except OSError as error:
        raise Refused(f"{path}: {error.strerror}", 4) from error


def stat_of(path: str) -> os.stat_result | None:
    """What stands behind a name, if anything does."""
    try:
        return os.stat(path)
    except FileNotFoundError:
        return None


def is_standard_output(there: os.stat_result) -> bool:
    try:
        return os.path.samestat(there, os.fstat(1))
    except OSError:
        return False


def can_be_replaced(path: str, there: os.stat_result) -> bool:
    """Whether a new file can stand in the place of this one, with its owner. Without leave to write it, neither is tried."""
    if not os.access(path, os.W_OK):
        raise PermissionError(errno.EACCES, os.strerror(errno.EACCES))
    is_own = os.geteuid() in (0, there.st_uid)
    return stat.S_ISREG(there.st_mode) and is_own and os.access(os.path.dirname(followed(path)) or ".", os.W_OK)


def followed(path: str) -> str:
    """Where a link leads; what is none, and what is not there, is itself."""
    return os.path.realpath(path) if os.path.islink(path) else path


def replace(path: str, blocks: Iterable[bytes], there: os.stat_result | None) -> None:
    """Writes a file beside its place, and then gives it its name."""
    folder, name = os.path.split(path)
    with leaving.new_file(f".{name[:100]}.", folder) as (handle, made):
        with os.fdopen(handle, "wb") as file:
            file.writelines(blocks)
        if not settle(made, path, there):
            write_into(path, blocks)


def settle(made: str, path: str, there: os.stat_result | None) -> bool:
    """Gives a file its name, with the mode, the owner and the attributes of the one that stood there; or nothing is done, where it may not
    have that owner or group. A bit that lets others run as the owner is dropped, and other names of the old file are told."""
    if there and not has_owner(made, there):
        return False
    os.chmod(made, stat.S_IMODE(there.st_mode) & ~(stat.S_ISUID | stat.S_ISGID) if there else 0o666 & ~umask())
    if there:
        keep_attributes(path, made)
    os.replace(made, path)
    if there and there.st_nlink > 1:
        tell(f"{path}: it had {there.st_nlink} names (hard links); under the others the old file stays")
    return True


def has_owner(made: str, there: os.stat_result) -> bool:
    """Whether a new file has the owner and the group of another, which it is given where that is allowed."""
    if (there.st_uid, there.st_gid) == (os.geteuid(), os.getegid()):
        return True
    try:
        os.chown(made, there.st_uid, there.st_gid)
        return True
    except PermissionError:
        return False


def keep_attributes(path: str, made: str) -> None:
    """Copies a file's extended attributes, those of users and access lists, where the system has any."""
    names: list[str] = []
    with contextlib.suppress(OSError, AttributeError):
        names = [it for it in os.listxattr(path) if it.startswith(("user.", "system.posix_acl_"))]
    for name in names:
        try:
            os.setxattr(made, name, os.getxattr(path, name))
        except OSError as error:
            tell(f"{path}: its attribute {name} is not kept: {error.strerror}")


def put_file(path: str | None, made: str) -> None:
    """Puts a file that was made beside its place there, as `put` does with bytes, or writes it to standard output."""
    from shutil import copyfileobj

    try:
        there = stat_of(path) if path else None
        is_replaced = path and (there is None or (not is_standard_output(there) and can_be_replaced(path, there)))
        if is_replaced and settle(made, followed(path), there):
            return
        to_output = path is None or is_standard_output(there)
        with open(made, "rb") as source, open(1 if to_output else os.open(path, os.O_WRONLY | os.O_TRUNC), "wb", closefd=not to_output) as file:
            copyfileobj(source, file, AT_A_TIME)
    except OSError as error:
        raise Refused(f"{path or 'standard output'}: {error.strerror}", 4) from error


def write_into(path: str, blocks: Iterable[bytes]) -> None:
    """Writes to what stands there."""
    with open(os.open(path, os.O_WRONLY | os.O_TRUNC), "wb") as file:
        file.writelines(blocks)


def send(path: str, blocks: Iterable[bytes]) -> None:
    """Sends bytes to whoever listens at a socket."""
    import socket

    with socket.socket(socket.AF_UNIX, socket.SOCK_STREAM) as there:
        there.connect(path)
        for it in blocks:
            there.sendall(it)


def umask() -> int:
    """The bits that new files do not have. It can be asked for by a change alone, which no other thread may see."""
    with ASKING:
        now = os.umask(0)
        os.umask(now)
    return now
