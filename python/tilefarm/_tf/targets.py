"""What a call may write, judged before anything is run: a name with an ending that the command writes, in a folder that is there, and no
file that is read. All that makes files asks here: -o of a command, of each picture and of a report, --stages, and a page that saves."""
import functools
import os
import stat

from .output import PICTURES, ending, followed
from .running import BUILT, QUICK, WIDE, on_path
from .text import Refused
from .words import Asked

# what each command writes, by the endings of files; a file without an ending may be any of it
LINES = (".txt",)
DRAWN = {"plan": (*LINES, ".svg"), "graph": (".svg", ".dot"), "hist": (".svg", ".csv"), "eval": (*PICTURES, *LINES), "run": (*PICTURES, *LINES),
         "answer": (*PICTURES, *LINES), "join": (*PICTURES, *LINES), "report": (".html", ".htm")}
# the endings of drawings of worlds; lines go into a file of any other ending
DRAWN_WORLDS = (".svg", ".html")
# what a folder of --engine list has beside the parts, which have endings of their own
OF_LISTS = ("plan.json", "commands", "make-part")
# what gzip packs, as facts may be
PACKED, WRITES_PACKED = ".gz", ("facts", "merge")
# endings of what no command that writes lines does, so that lines are not taken for it
OF_OTHERS = frozenset((*PICTURES, ".svg", ".dot", ".pdf", ".ps", ".eps", ".csv", ".tsv", ".json", ".html", ".xml", ".zip", ".gz", ".pipe"))


# a file as the system knows it, under whatever name: its device and its number there
Identity = tuple[int, int]


def judge(asked: Asked, makes_folder: bool = False, read: dict[Identity, str] | None = None) -> None:
    """Refuses a file that cannot be written, or is not to be. A folder that lacks may be one that is made later. What the call reads is found out
    where nobody knows it."""
    target = asked.target
    if target is None:
        return
    if not target:
        raise Refused("-o names no file", 1)
    refuse_own(asked, target, read=read)
    refuse_ending(asked.name, target)
    if not makes_folder and not os.path.isdir(os.path.dirname(followed(target)) or "."):
        raise Refused(f"{target}: there is no folder {os.path.relpath(os.path.dirname(os.path.realpath(target)))}", 4)
    if os.path.isdir(target):
        raise Refused(f"{target}: this is a folder; name a file in it", 4)


def judge_stages(asked: Asked, makes_folder: bool = False, read: dict[Identity, str] | None = None) -> None:
    """Refuses the files of stages that cannot be written, or are not to be: each is a picture, and another file than the result."""
    if not asked.stages:
        return
    if asked.name != "eval" or "--stage" in asked.own or "--stages" in asked.own:
        raise Refused("--stage NAME=FILE goes with eval and its own result: name a file for each stage, and no other option of stages", 1)
    taken = {os.path.realpath(asked.target)} if asked.target else set()
    for stage, file in asked.stages.items():
        judge(asked.with_target(file), makes_folder, read)
        if ending(file) not in PICTURES:
            raise Refused(f"{file}: a stage is a picture; name one, as {stage}.png", 1)
        if os.path.realpath(file) in taken:
            raise Refused(f"{file}: two results would go into this file; name another one", 1)
        taken.add(os.path.realpath(file))


def refuse_own(asked: Asked, target: str, by: str = "-o", read: dict[Identity, str] | None = None) -> None:
    """Refuses to write what is read."""
    there = identity(target)
    if there is None:
        return
    kind = (identities(asked) if read is None else read).get(there)
    if kind is not None:
        raise Refused(f"{target}: the {kind} is read from this file, which {by} would replace; name another one", 1)
    if there in map(identity, programs()):
        raise Refused(f"{target}: this is the program tilefarm itself; name another file", 1)


def programs() -> list[str]:
    """The files that may be the program tilefarm."""
    return [it for it in (os.environ.get("TILEFARM"), BUILT, WIDE, QUICK, installed(os.environ.get("PATH"))) if it]


@functools.cache
def installed(_: str | None) -> str | None:
    """The program tilefarm in the folders of PATH, which are looked through once."""
    return on_path("tilefarm")


def identities(asked: Asked) -> dict[Identity, str]:
    """The regular files that a call reads, each with what it is to it first of all."""
    found: dict[Identity | None, str] = {}
    for path, kind in read_by(asked).items():
        found.setdefault(identity(path), kind)
    found.pop(None, None)
    return found


def read_by(asked: Asked) -> dict[str, str]:
    """The files that a call reads, each with what it is to it."""
    if asked.name == "table":
        return dict.fromkeys(asked.files[2:], "numbers' file")
    if asked.name == "join":
        return {f"{folder}/{name}": "list of parts" for folder in asked.files for name in OF_LISTS}
    named = asked.command().files
    kinds = [*named, *named[-1:] * len(asked.files)]
    schedulers = {path: "scheduler's address" for name, path in asked.own.items() if name == "--scheduler-file"}
    return {**schedulers, **dict.fromkeys(asked.tables, "table"), **dict(zip(asked.files, kinds))}


def is_same(path: str, other: str) -> bool:
    """Whether two paths lead to one regular file."""
    first = identity(path)
    return first is not None and first == identity(other)


def identity(path: str) -> Identity | None:
    """A regular file, which - is too where it is standard input; nothing where there is none. A terminal or a pipe can be both read and written."""
    try:
        it = os.fstat(0) if path == "-" else os.stat(path)
    except OSError:
        return None
    return (it.st_dev, it.st_ino) if stat.S_ISREG(it.st_mode) else None


def refuse_ending(name: str, target: str) -> None:
    """Refuses an ending of what the command does not write."""
    found, known = ending(target), DRAWN.get(name)
    if (name == "world" and found in DRAWN_WORLDS) or (name in WRITES_PACKED and found == PACKED):
        return
    if not found or found in (known or ()) or (known is None and found not in OF_OTHERS):
        return
    does = f"{', '.join(known[:-1])} and {known[-1]}" if known and len(known) > 1 else known[0] if known else "lines of text, as .txt"
    does += f", or drawings, {' and '.join(DRAWN_WORLDS)}" if name == "world" else ""
    raise Refused(f"{target}: {name or '--join'} writes no {found}; it writes {does}", 1)
