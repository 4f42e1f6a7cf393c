"""Lists of commands for engines that run lines: a folder with the inputs of all parts, a script that makes the result of one, and the lines."""
import hashlib
import json
import os
import shlex
from typing import Iterable, Iterator, NamedTuple

from . import rooms
from .machines import Task
from .running import program
from .text import Refused, content

PLAN, COMMANDS, SCRIPT = "plan.json", "commands", "make-part"
SHOWN = 8
# A result takes its name when all of it is there, and is framed by its part and its plan; {} are the plan's and the program's digests.
TEXT = """#!/bin/sh
# usage: make-part PART COMMAND [WORD]...: runs tilefarm on the part's input, once; TILEFARM names the program, or it is on the path
set -eu
plan={plan}
program={program}
cd -- "$(dirname -- "$0")"
part=$1; shift
test ! -e "$part.out" || exit 0
tilefarm=${{TILEFARM:-$(command -v tilefarm || echo tilefarm)}}
if test "$(sha256sum < "$tilefarm")" != "$program  -"; then
  echo "make-part: part $part: $tilefarm is not the program that the list was made for" >&2
  exit 4
fi
new=$part.$(uname -n).$$
trap 'rm -f -- "$new"' EXIT
echo "part $part of $plan" > "$new"
status=0
"$tilefarm" "$@" < "$part.in" >> "$new" || status=$?
if test "$status" != 0; then
  echo "make-part: part $part: $(tail -n 1 "$new")" >&2
  exit "$status"
fi
echo "end of part $part of $plan" >> "$new"
mv -- "$new" "$part.out"
"""


class Listed(NamedTuple):
    """What a folder holds: the parts' names, what was planned, and the plan's digest."""

    folder: str
    names: list[str]
    planned: dict
    digest: str

    def path(self, name: str) -> str:
        return f"{self.folder}/{name}.out"

    def head(self, name: str) -> bytes:
        return f"part {name} of {self.digest}\n".encode()

    def end(self, name: str) -> bytes:
        return f"end of part {name} of {self.digest}\n".encode()

    def result(self, name: str) -> bytes:
        """What the program wrote of a part."""
        return content(self.path(name)).removeprefix(self.head(name)).removesuffix(self.end(name))

    def fault(self, name: str) -> str:
        """Why the result of a part does not serve, or nothing."""
        try:
            with open(self.path(name), "rb") as file:
                first = file.readline(len(self.head(name)) + 1)
                file.seek(max(os.path.getsize(self.path(name)) - len(self.end(name)), 0))
                last = file.read()
        except FileNotFoundError:
            return "missing"
        if first != self.head(name):
            return "cut" if self.head(name).startswith(first) else "of another plan"
        return "" if last == self.end(name) else "cut"

    def refuse_faults(self) -> None:
        """Refuses results that are missing, cut or of another plan, by name."""
        found: dict[str, list[str]] = {}
        for name in self.names:
            found.setdefault(self.fault(name), []).append(name)
        said = [f"{why}: {', '.join(names[:SHOWN])}{' ..' * (len(names) > SHOWN)}" for why, names in found.items() if why]
        if said:
            count = sum(len(names) for why, names in found.items() if why)
            raise Refused(f"{self.folder}: {count} of {len(self.names)} parts do not serve ({'; '.join(said)}); take away what is cut or of another "
                          f"plan, and run the lines of {self.folder}/{COMMANDS} again: what is made is not made again")


def named(number: int) -> str:
    """A part's name, by its number from 0."""
    return f"{number:05d}"


def refuse_folder(folder: str) -> None:
    """Refuses a name that stands for something already, but for an empty folder, one in a folder that is not there, and one that would not
    stay in the line of a command."""
    if not os.path.realpath(folder).isprintable():
        raise Refused(f"{folder}: each command is one line, which has this name: name a folder without ends of lines and other marks", 1)
    if os.path.exists(folder) and not (os.path.isdir(folder) and not os.listdir(folder)):
        raise Refused(f"{folder}: it is there and no empty folder; name another one, or run the lines of its file {COMMANDS}", 1)
    above = os.path.dirname(os.path.realpath(folder))
    if not os.path.isdir(above):
        raise Refused(f"{folder}: there is no folder {os.path.relpath(above)}", 4)


def write(folder: str, tasks: Iterable[Task], planned: dict) -> int:
    """Writes the folder, and answers how many parts it has. It takes its name when all of it is there."""
    place = os.path.realpath(folder)
    try:
        with rooms.room(os.path.dirname(place), f".{os.path.basename(place)[:100]}.") as room:
            made = f"{room}/made"
            os.mkdir(made)
            count = fill(made, place, tasks, planned)
            os.chmod(made, 0o755)
            os.rename(made, place)
    except OSError as error:
        raise Refused(f"{folder}: {error.strerror}", 4) from error
    return count


def fill(room: str, place: str, tasks: Iterable[Task], planned: dict) -> int:
    """Writes the inputs and the lines, and then the script and the plan, whose digest stands for all of them."""
    digest, names = hashlib.sha256(json.dumps(planned, sort_keys=True).encode()), []
    own = hashlib.sha256(content(program())).hexdigest()
    digest.update(own.encode())
    with open(f"{room}/{COMMANDS}", "w", encoding="utf-8") as lines:
        for number, task in enumerate(tasks):
            names.append(named(number))
            data = task.data()
            with open(f"{room}/{names[-1]}.in", "wb") as file:
                file.write(data)
            line = shlex.join(["sh", f"{place}/{SCRIPT}", names[-1], *task.words])
            digest.update(f"{shlex.join(task.words)}\n{hashlib.sha256(data).hexdigest()}\n".encode())
            lines.write(f"{line}\n")
    with open(f"{room}/{SCRIPT}", "w", encoding="utf-8") as file:
        file.write(TEXT.format(plan=digest.hexdigest(), program=own))
    with open(f"{room}/{PLAN}", "w", encoding="utf-8") as file:
        json.dump({"plan": digest.hexdigest(), "parts": len(names), "planned": planned}, file, indent=1)
    return len(names)


def read(folder: str) -> Listed:
    """What a folder holds."""
    try:
        found = json.loads(content(f"{folder}/{PLAN}"))
        return Listed(folder, [*map(named, range(found["parts"]))], found["planned"], found["plan"])
    except (ValueError, KeyError, TypeError) as error:
        raise Refused(f"{folder}/{PLAN} is not what --engine list writes") from error


def results(listed: Listed) -> Iterator[bytes]:
    """What the program wrote of each part, in their order."""
    return (listed.result(it) for it in listed.names)
