"""Jobs with what must be answered to them, by the reference readers and evaluator (tests/reference)."""
import struct
from typing import NamedTuple

from reference.facts import file_of
from reference.tables import handed_in
from reference.texts import identities, settings, tokens_of
from reference.values import Meaning
from reference.worlds import words_of

EMPTY = file_of([]).hex()


class Check(NamedTuple):
    """A run of the program, and what it must answer: the exit status and all that it writes."""

    name: str
    words: tuple[str, ...]
    stdin: bytes
    answer: tuple[int, bytes]


class Job(NamedTuple):
    """A program, a picture with the lines of tables before it, and words for the command line."""

    text: str
    picture: bytes
    words: tuple[str, ...] = ()

    def joined(self, *middle: bytes) -> bytes:
        return b"\n%%\n".join([self.text.encode("latin-1"), *middle, self.picture])

    def checks(self, name: str, refusal: tuple[int, bytes] | None = None) -> list[Check]:
        """Runs of `eval`, `check` and `world` on it: one refusal for all of them, or what each must write."""
        evaluated, checked = (refusal, refusal) if refusal else Oracle(self).answers()
        world = refusal or (0, f"done 0 refused 0\nnode 0 {EMPTY}\nnode 1 {EMPTY}\n".encode())
        told = [("eval", self.joined(), evaluated), ("check", self.joined(), checked), ("world", self.joined(b""), world)]
        return [Check(f"{name}: {command}", (command, *self.words), stdin, answer) for command, stdin, answer in told]


class Oracle:
    """What the commands must answer to an accepted job, by the reference evaluator."""

    def __init__(self, job: Job):
        self.tokens, asked = tokens_of(job.text.encode()), words_of(list(job.words))
        self.picture = handed_in(job.picture, self.tokens)
        self.sides, self.known = asked.sides, settings(self.tokens, asked.given, self.picture)
        self.meaning = Meaning(self.tokens, self.known, self.picture)

    def answers(self) -> tuple[tuple[int, bytes], tuple[int, bytes]]:
        return (0, self.result()), (0, self.checked())

    def result(self) -> bytes:
        """The output's picture, and the totals."""
        lines = [
            f"{name} {it.bins[0]}..{it.bins[1]}: {' '.join(map(str, it.numbers(it.domain)))}\n"
            for name, it in self.meaning.names.items()
            if it.kind == "accum"
        ]
        return (self.shown() if self.meaning.outputs else b"") + "".join(lines).encode()

    def shown(self) -> bytes:
        outputs = [self.meaning.names[it] for it in self.meaning.outputs]
        at = self.tokens.index("max", self.tokens.index("output"))
        most, (rows, cols) = int(self.tokens[at + 1]), outputs[0].domain
        points = zip(*([min(max(it.value(point), 0), most) for point in it.domain.points()] for it in outputs))
        samples = [sample for point in points for sample in point]
        head = f"P{6 if len(outputs) == 3 else 5}\n{cols[1] - cols[0] + 1} {rows[1] - rows[0] + 1}\n{most}\n".encode()
        return head + struct.pack(f">{len(samples)}{'B' if most < 256 else 'H'}", *samples)

    def checked(self) -> bytes:
        program, given = identities(self.tokens, self.known, self.picture, self.sides)
        lines = [f"program {program.hex()}\ninput {given.hex()}\n"]
        for number, (name, it) in enumerate(self.meaning.names.items()):
            ends = " ".join(f"{least}..{most}" for least, most in it.domain)
            lines.append(f"stage {number} {it.kind} {name} {ends} tiles {self.tiles(it)}\n")
        return "".join(lines).encode()

    def tiles(self, stage) -> int:
        rows, cols = (-(-(most - least + 1) // side) for (least, most), side in zip(stage.domain, self.sides))
        return 0 if stage.kind == "plane" else rows * cols


def line(text: str, status: int = 3) -> tuple[int, bytes]:
    """A refusal: its status and its line."""
    return status, f"{text}\n".encode()
