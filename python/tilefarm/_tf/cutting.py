"""How much of a result is cut: what is above the greatest sample of the output comes out as that."""
from collections import Counter
from typing import TYPE_CHECKING, BinaryIO, NamedTuple

from .joining import Input
from .netpbm import HEAD, Header, header_of
from .program import Program
from .settings import given_values, settings
from .text import Refused

if TYPE_CHECKING:
    from .stage_pictures import Stages

# a greater share of cut samples is told
MOST_SHARE = 0.01
# what a line about it has, by which many runs count theirs
SIGN = " of its samples are cut at "
AT_A_TIME = 1 << 20
# how many bytes are looked at a time where most pieces have none of the greatest samples
PIECE = 1 << 12


def head_if_cut(written: bytes) -> Header | None:
    """The head of a result, where more of its samples than are told may be cut."""
    head = header_of(written) if written.startswith((b"P5\n", b"P6\n")) else None
    return head if head and has_many_greatest(written, head) else None


def has_many_greatest(written: bytes, head: Header) -> bool:
    """Whether the share of a result's samples that are the greatest, of which no more can be cut, is more than is told. Of samples of two bytes it may
    be less than what is counted here."""
    sample = head.most.to_bytes(1 if head.most < 256 else 2, "big")
    least = MOST_SHARE * head.length() / len(sample)
    return count_of(sample, written, head.end, head.end + head.length(), least) > least


def count_of(sample: bytes, data: bytes | bytearray, start: int, end: int, least: float) -> int:
    """How often a sample stands there. Pieces without any are passed over, and what stands behind more than the least is not looked at."""
    found = 0
    for at in range(start, end, PIECE):
        first = data.find(sample, at, min(at + PIECE, end))
        if first >= 0:
            found += data.count(sample, first, min(at + PIECE, end))
            if found > least:
                break
    return found


def share_cut(head: Header, given: Input, program: Program, words: list[str]) -> float:
    """The share of cut samples of a result, which the program counts over the same input; 0 where it has no place for the counts.
    Where the ranges of its values show that none is cut, nothing is counted."""
    if not can_be_above(given, program, words):
        return 0.0
    from .stage_pictures import Stages

    stages = Stages(given, program, words)
    counting = counting_of(stages)
    try:
        return counting.share(stages.totals(counting.items), head.rows * head.cols * head.parts)
    except Refused:
        return 0.0


def can_be_above(given: Input, program: Program, words: list[str]) -> bool:
    """Whether the ranges of a program's values leave room above the greatest sample of its output."""
    from . import ranges

    head = given.header()
    values = settings(program, given_values(words), head)
    return head is None or ranges.can_be_above(given.sections["program"].data, values, head, given.tables)


class Counting(NamedTuple):
    """The accumulators that count the cut samples of a program's output, and how often the output has the function of each."""

    items: list[str]
    times: list[int]

    def text(self) -> bytes:
        return "\n".join(["", *self.items, ""]).encode()

    def share(self, counts: list[int], samples: int) -> float:
        """The share of so many samples that these counts are."""
        return sum(times * count for times, count in zip(self.times, counts)) / samples


def counting_of(stages: "Stages") -> Counting:
    output = stages.program.output()
    names = Counter(it.text for it in output.names)
    items = [stages.total(f"cut{at}", name, f"sum select({stages.read(name)} >= {output.most.value + 1}, 1, 0)") for at, name in enumerate(names)]
    return Counting(items, [*names.values()])


def can_be_cut(result: BinaryIO) -> bool:
    """Whether more samples of a result's file than are told may be cut. It is read in pieces."""
    head = header_of(result.read(HEAD))
    sample = head.most.to_bytes(1 if head.most < 256 else 2, "big")
    result.seek(head.end)
    found = sum(piece.count(sample) for piece in iter(lambda: result.read(AT_A_TIME), b""))
    return found * len(sample) / head.length() > MOST_SHARE


def warning(share: float, given: Input, program: Program) -> str:
    """What is said of a result of which so much is cut, and the cure."""
    return f"{100 * share:.0f} %{where(given, program)}"


def where(given: Input, program: Program) -> str:
    """Where a result is cut, and the cure."""
    number, head = program.output().most, given.header()
    spot, picture = given.sections["program"].text.place(number.span.start).spot(), given.sections["picture"].text.name
    if head.most > number.value:
        cure = f"{picture} has samples up to {head.most}, and `max {number.value}; # greatest sample` lets the result have them too"
    else:
        cure = "scale the values, or write a greater number behind max"
    return f"{SIGN}{number.value} ({spot}): {cure}"
