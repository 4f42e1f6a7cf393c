"""`tf run --trace`: what can be told of a farm from outside. Who made which tile, and which parcels were lost, it records and does not write."""
from typing import NamedTuple

from . import making
from .answering import Answer, true_facts
from .fact_making import line_of_tiles
from .facts import records_of
from .joining import SEPARATOR
from .parser import known_program
from .running import Ended, run
from .stages import STAGE
from .text import Refused

# what the options of farms are unless given, and how many workers a node has
USUAL = {"--nodes": 2, "--turns": 1000, "--lose": 0, "--repeat": 0, "--restart": 0}
WORKERS, MOST = 2, 2**32 - 1


class Farm(NamedTuple):
    """The options of a farm."""

    nodes: int
    turns: int
    lose: int
    repeat: int
    restart: int

    @classmethod
    def of(cls, words: list[str]) -> "Farm":
        return cls(*(making.number_of(name, words, usual, 0, MOST) for name, usual in USUAL.items()))

    def faults(self) -> str:
        """What goes wrong on purpose, in words."""
        said = ((self.lose, "of {} parcels that a worker sends one is lost"), (self.repeat, "of {} that it receives one is taken twice"),
                (self.restart, "its node restarts in turns that are multiples of {}"))
        return "; ".join(words.format(number) for number, words in said if number) or "no parcel is lost but for a full mailbox"


def lines_of(call: "Call", ran: Ended) -> list[str]:
    """The lines of a run that ended well."""
    farm, words = Farm.of(call.asked.words), without_farm(call.asked.words)
    program = call.input.sections["program"].data
    check, plan = (done(run([it, *words], call.input.data)).written.decode("ascii") for it in ("check", "plan"))
    alone = done(run(["eval", *words], call.input.data))
    if known_program(program) is None:
        raise Refused("tf does not read this program as tilefarm does")
    if ran.written != alone.written:
        raise Refused("run does not write what eval writes: this is a fault of tilefarm, which its proof excludes", 4)
    tiles = work_of(check, plan)
    count, most = sum(tiles.values()), farm.turns * WORKERS
    return [
        f"{farm.nodes} nodes with {WORKERS} workers each, {farm.turns} turns a worker: {ran.seconds:.3f} s by the clock; eval {alone.seconds:.3f} s",
        f"{count} tiles to make: {', '.join(f'{name} {number}' for name, number in tiles.items())}",
        f"a worker makes at most one tile a turn, so a node could make {min(count, most)} of them, and the calling thread makes what is left",
        f"each tile that a node makes is sent to {farm.nodes - 1} others; {farm.faults()}",
        audited(call, (check, plan), farm.nodes, words, ran),
        "what only the farm knows, it records and does not write: which node made which tile, what was made twice, which parcels were lost or came twice",
    ]


def done(ended: Ended) -> Ended:
    """A run that ended well, as the farm's own did."""
    if ended.status:
        raise Refused(f"tilefarm does not answer for a job that it has run: {ended.written.decode('utf-8', 'replace').strip()}", ended.status)
    return ended


def work_of(check: str, plan: str) -> dict[str, int]:
    """How many tiles each stored function and each accumulator has."""
    stored = {it.split()[1] for it in plan.splitlines() if it.startswith("stored ")}
    return {it[3]: int(it[8]) for it in filter(None, map(STAGE.fullmatch, check.splitlines())) if it[3] in stored}


def audited(call: "Call", told: tuple[str, str], nodes: int, words: list[str], ran: Ended) -> str:
    """Makes the facts of the result in as many shares as there are nodes, merges and audits them, and compares the answer with what the farm wrote."""
    maker, sections = making.Maker(call.input, known_program(call.input.sections["program"].data), words), call.input.sections
    check, tiles = told[0], maker.tiles_of(told[0])
    shares = b"".join(line_of_tiles(maker, *told, tiles[it::nodes], words) for it in range(nodes))
    merged = done(run(["merge"], shares)).written
    verdicts = done(run(["audit", *words], SEPARATOR.join((sections["program"].data, merged, call.input.last())))).written.decode("ascii")
    answer = Answer(maker, check)
    answer.take(true_facts(records_of(merged.strip()), verdicts))
    is_same = answer.written() == ran.written
    if not is_same:
        raise Refused("run does not write what the audited facts answer: this is a fault of tilefarm, which its proof excludes", 4)
    return f"{verdicts.count('True ')} tiles of the result, made in {nodes} shares, merged and audited: all are true, and their answer is what run wrote"


def without_farm(words: list[str]) -> list[str]:
    """The words that `eval` takes of those that `run` takes."""
    found, rest = [], list(words)
    while rest:
        word = rest.pop(0)
        name, is_joined, _ = word.partition("=")
        if name not in (*USUAL, "--capacity"):
            found.append(word)
        elif not is_joined:
            rest = rest[1:]
    return found
