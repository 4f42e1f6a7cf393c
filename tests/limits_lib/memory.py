"""Commands with little memory: at each of many limits the answer is the usual one, or `memory` with its status, and nothing else. A long
line that is no table's is told with room for a few times its bytes.

The system limits either the whole address space, or what can be written in it. It begins no program below some limit; the least at which
it begins one is looked for first. Where the address space is limited, the system ends a process by a signal when its stack cannot grow,
perhaps after a part of what it writes: no program can answer that, so this one signal passes there, and there alone. A farm may tell
that a thread could not be started.
"""
import resource
import signal
import subprocess
from collections import Counter
from random import Random
from typing import NamedTuple

from reference.facts import Fact, file_of

MEMORY, NO_THREAD = (5, b"memory\n"), (4, b"farm: 1 SpawnFailed\n")
KINDS = {"address space": resource.RLIMIT_AS, "data": resource.RLIMIT_DATA}
SECONDS, LIMITS, PAGE, MOST = 60, 48, 4096, 1 << 32
# (a raw picture takes little more than its bytes, so what only reads one is given a large one)
SIDE, LARGE = 192, 1024
TEXT = b"""param R;param C;image I(R,C);
func a(x in[1..R-2],y in[1..C-2]){else:stencil(I,9,[[1,1,1],[1,1,1],[1,1,1]]);}
func b(x in[2..R-3],y in[2..C-3]){else:a(x-1,y)-a(x+1,y);}
accum h[0..255]over(x in[0..R-1],y in[0..C-1])sum 1 at I(x,y);
output b max 255;"""


class Command(NamedTuple):
    words: tuple[str, ...]
    stdin: bytes


def commands() -> list[Command]:
    random = Random(1)
    picture, large = (b"P5 %d %d 255\n" % (side, side) + random.randbytes(side**2) for side in (SIDE, LARGE))
    script = "".join(f"make 0 0:1:{row}:{col}\n" for row in range(12) for col in range(12))
    script += "".join(f"deliver 0 {it}\n" for it in range(144)) + "keep 0\nmerge 1 0\nrestart 1\nretire 1 0\ndeliver 1 144\n"
    facts = [Fact(random.randbytes(32), random.randbytes(32), 1, 0, 0, 0, tuple(range(256))) for _ in range(200)]
    text = b"\n".join(it.hex().encode() for it in [*(file_of([it]) for it in facts), file_of([], (it.ids() for it in facts[::2]))])
    sides, job = ("--rows", "16", "--cols", "16"), b"\n%%\n".join([TEXT, large])
    return [
        *(Command((it, *sides), job) for it in ("eval", "check", "plan")),
        Command(("run", "--turns", "20", *sides), job),
        Command(("merge",), text),
        Command(("audit", *sides), b"\n%%\n".join([TEXT, text, picture])),
        Command(("world", "--stored", *sides), b"\n%%\n".join([TEXT, script.encode(), picture])),
    ]


# How many bytes a line has where that of a table is wanted, and how often its input has room: a list of its words takes sixteen bytes for each.
LONG, TIMES = 1 << 24, 8
TABLE = b"image I(1,1);table t[0..0];func f(x in[0..0],y in[0..0]){else:t[I(x,y)];}output f max 255;"
BAD_LINE = (2, b"tables: line 1\n")


def long_lines() -> dict[str, Command]:
    """Inputs with a long line that is no table's, by what the line repeats."""
    lines = {"blanks": b" " * LONG, "entries": b"t 0..0:" + b" 7" * (LONG // 2), "colons": b"t " + b":" * LONG, "dots": b"t 0" + b"." * LONG + b"0: 7"}
    return {name: Command(("eval",), b"\n".join([TABLE, b"%%", line, b"P5 1 1 255\n\0"])) for name, line in lines.items()}


class Limited:
    """A program whose memory of one kind is limited."""

    def __init__(self, program: str, kind: str):
        self.program, self.kind = program, kind

    def run(self, command: Command, room: int) -> tuple[int, bytes]:
        def begin() -> None:
            resource.setrlimit(resource.RLIMIT_CORE, (0, 0))
            resource.setrlimit(KINDS[self.kind], (room, room))

        how = {"stdout": subprocess.PIPE, "stderr": subprocess.DEVNULL, "preexec_fn": begin if room else None}
        ran = subprocess.run([self.program, *command.words], input=command.stdin, timeout=SECONDS, **how)
        return ran.returncode, ran.stdout

    def least(self, command: Command, wanted: tuple[int, bytes], below: int = PAGE) -> int:
        """The least room at which a command answers so, to a page, where that is so from some room on."""
        most = MOST
        while most - below > PAGE:
            room = (below + most) // 2 // PAGE * PAGE
            below, most = (below, room) if self.run(command, room) == wanted else (room, most)
        return most

    def faults(self, command: Command) -> tuple[list[str], str]:
        """What is answered that must not be, and how often memory was."""
        usual, refused = self.run(command, 0), Command(("help",), b"")
        # (a few pages more, since where the system puts a stack differs from run to run)
        begins = self.least(refused, self.run(refused, 0)) + 16 * PAGE
        ends = self.least(command, usual, begins)
        names = {usual: "usual", MEMORY: "memory"} | ({NO_THREAD: "no thread"} if command.words[0] == "run" else {})
        # (what is enough differs from run to run, and is more where threads get their stacks, so the last two rooms are far beyond it)
        rooms = [begins + (ends - begins) * it**2 // LIMITS**2 // PAGE * PAGE for it in range(LIMITS + 2)] + [8 * ends, 64 * ends]
        answers = [self.run(command, room) for room in rooms]
        named = [names.get(it, "no more stack" if self.is_of_stack(it, usual) else "wrong") for it in answers]
        wrong = [f"{room} bytes: status {it[0]}, {it[1][:60]!r}" for room, it, name in zip(rooms, answers, named) if name == "wrong"]
        wrong += [f"the answer never was {it}" for it in names.values() if it not in named]
        return wrong, f"{begins} to {rooms[-1]} bytes: " + ", ".join(f"{it} {count}" for it, count in Counter(named).items())

    def is_of_stack(self, answer: tuple[int, bytes], usual: tuple[int, bytes]) -> bool:
        """Whether it is that of a process whose stack could not grow."""
        return self.kind == "address space" and answer[0] == -signal.SIGSEGV and usual[1].startswith(answer[1])


class Spacious(Limited):
    """A program that has room for a few times its input."""

    def faults(self, command: Command) -> tuple[list[str], str]:
        answer = self.run(command, TIMES * len(command.stdin))
        return [f"status {answer[0]}, {answer[1][:60]!r}"] if answer != BAD_LINE else [], f"{len(command.stdin)} bytes of input"


def series(program: str) -> list[tuple[str, Limited, Command]]:
    """Each command and kind of limit, with what tells its faults."""
    little = [(f"{' '.join(it.words)} with little {kind}", Limited(program, kind), it) for kind in KINDS for it in commands()]
    long = [(f"a long line of {name} where a table's is wanted", Spacious(program, "data"), it) for name, it in long_lines().items()]
    return little + long
