"""The reference model of worlds: a reader of scripts, and what `world` must print.

Nodes make facts, send them to each other, lose them, start again, and retire the job. The model follows docs/FORMATS.md and docs/WORLDS.md,
and no code of the program. A node makes a fact of facts that it holds, so each fact of a world is the true one of its tile. So the state of
a node is a set of tiles, and the facts are those of the reference evaluator.
"""
import re
from typing import NamedTuple

from .facts import Fact, file_of
from .netpbm import Fault
from .pictures import Picture
from .schedules import Schedule
from .tables import BadLine, handed_in
from .texts import identities, settings, tokens_of
from .values import Area, Meaning, Point

SEPARATOR = b"%%\n"
MOST_EVENTS, MOST_NODE, MOST_STAGE, MOST_NUMBER = 65_536, 255, 65_535, 2**32 - 1
USUAL_NODES = 2
# the stage, the row and the column of a tile
Tile = tuple[int, int, int]


class Refusal(Exception):
    """An input that is refused: the exit status, and the line."""

    def __init__(self, status: int, line: str):
        super().__init__(line)
        self.status, self.line = status, line

    def answer(self) -> tuple[int, bytes]:
        return self.status, f"{self.line}\n".encode()


# ---- scripts


class Event(NamedTuple):
    """An event: its word, the numbers behind it, and the tiles behind these."""

    verb: str
    numbers: tuple[int, ...]
    tiles: tuple[Tile, ...] = ()


class BadLine(Exception):
    """A line that tells no event."""


class NoSuchJob(Exception):
    """A line that names a job that is not there."""


def number(word: str, most: int) -> int:
    digits = word.lstrip("0")
    if not re.fullmatch("[0-9]+", word) or len(digits) > len(str(most)) or int(digits or 0) > most:
        raise BadLine
    return int(digits or 0)


def node(word: str) -> int:
    return number(word, MOST_NODE)


def message(word: str) -> int:
    return number(word, MOST_NUMBER)


def key(word: str) -> tuple[int, Tile]:
    """The number of a job, and a tile of it."""
    parts = word.split(":")
    if len(parts) != 4:
        raise BadLine
    job, stage, row, col = (number(it, most) for it, most in zip(parts, (MOST_NUMBER, MOST_STAGE, MOST_NUMBER, MOST_NUMBER)))
    return job, (stage, row, col)


# what stands behind a word; behind those of `send` there are keys, as many as one likes
FORMS = {"make": (node,), "send": (node, node), "deliver": (node, message), "merge": (node, node), "keep": (node,), "restart": (node,),
         "retire": (node, message)}
KEYS = {"make": range(1, 2), "send": range(MOST_NUMBER)}


def event(line: str, jobs: int) -> Event:
    """The event of a line, where there are so many jobs."""
    verb, *words = line.split(" ")
    form = FORMS.get(verb, ())
    if not form or len(words) - len(form) not in KEYS.get(verb, range(1)):
        raise BadLine
    numbers = tuple(read(word) for read, word in zip(form, words))
    keys = [key(word) for word in words[len(form) :]]
    if any(job >= jobs for job in [*(job for job, _ in keys), *(numbers[1:] if verb == "retire" else [])]):
        raise NoSuchJob
    return Event(verb, numbers, tuple(tile for _, tile in keys))


def script(text: bytes, jobs: int = 1) -> list[Event]:
    """The events of a text."""
    found: list[Event] = []
    for at, line in enumerate(text.decode("latin-1").split("\n"), 1):
        if line and not line.startswith("#"):
            if len(found) == MOST_EVENTS:
                raise Refusal(2, "script: 3 TooManyEvents")
            try:
                found.append(event(line, jobs))
            except BadLine:
                raise Refusal(2, f"script: 1 BadLine at {at}") from None
            except NoSuchJob:
                raise Refusal(2, f"script: 2 NoSuchJob at {at}") from None
    return found


# ---- worlds


class Refused(Exception):
    """An event that is refused, by its first fault. It changes nothing."""


class Job:
    """A program over a picture in tiles, and its schedule."""

    def __init__(self, ids: tuple[bytes, bytes], meaning: Meaning, schedule: Schedule):
        self.ids, self.meaning, self.schedule = ids, meaning, schedule
        self.names = list(meaning.names)
        self.numbers = {name: at for at, name in enumerate(self.names)}
        self.facts: dict[Tile, Fact] = {}

    def fact(self, tile: Tile) -> Fact:
        """The true fact of a tile."""
        if tile not in self.facts:
            stage = self.meaning.stages[tile[0]]
            numbers = stage.numbers(stage.domain.tile(*tile[1:], self.schedule.sides))
            self.facts[tile] = Fact(*self.ids, *tile, int(stage.kind == "accum"), numbers)
        return self.facts[tile]

    def area(self, tile: Tile) -> Area:
        """Where a tile lies."""
        stage = self.meaning.stages[tile[0]] if tile[0] < len(self.names) else None
        area = stage.domain.tile(*tile[1:], self.schedule.sides) if stage and stage.kind != "plane" else None
        if not area:
            raise Refused("NoSuchTile")
        return area

    def needs(self, tile: Tile) -> set[Tile]:
        """The tiles of stored functions that a tile is made from."""
        area = self.area(tile)
        needs = self.schedule.needs(self.names[tile[0]], area)
        if needs is None:
            raise Refused("ScratchTooBig")
        return {(self.numbers[name], *at) for name, at in needs}


class State(NamedTuple):
    """What a node holds, or a message says: facts of tiles, or that the job is retired. A retired job has no facts."""

    tiles: frozenset[Tile] = frozenset()
    is_retired: bool = False

    def joined(self, other: "State") -> "State":
        is_retired = self.is_retired or other.is_retired
        return State(frozenset() if is_retired else self.tiles | other.tiles, is_retired)


class World:
    """Nodes, what each of them holds and keeps, and all messages that were ever sent."""

    def __init__(self, job: Job, nodes: int):
        self.job = job
        self.held = [State()] * nodes
        self.kept = [State()] * nodes
        self.messages: list[tuple[int, State]] = []

    def step(self, it: Event) -> None:
        """What an event does, unless it is refused."""
        nodes = it.numbers[:1] if it.verb in ("deliver", "retire") else it.numbers
        if any(node >= len(self.held) for node in nodes):
            raise Refused("NoSuchNode")
        getattr(self, it.verb)(*it.numbers, *([it.tiles] if it.verb in KEYS else []))

    def make(self, node: int, tiles: tuple[Tile, ...]) -> None:
        self.job.area(tiles[0])
        if self.held[node].is_retired:
            raise Refused("Retired")
        if not self.job.needs(tiles[0]) <= self.held[node].tiles:
            raise Refused("NeedMissing")
        self.messages.append((node, State(frozenset(tiles))))

    def retire(self, node: int, _: int) -> None:
        self.messages.append((node, State(is_retired=True)))

    def send(self, node: int, to: int, tiles: tuple[Tile, ...]) -> None:
        if not self.held[node].tiles.issuperset(tiles):
            raise Refused("NotHeld")
        self.messages.append((to, State(frozenset(tiles), self.held[node].is_retired)))

    def deliver(self, node: int, message: int) -> None:
        if message >= len(self.messages):
            raise Refused("NoSuchMessage")
        to, state = self.messages[message]
        if to != node:
            raise Refused("WrongAddress")
        self.held[node] = self.held[node].joined(state)

    def merge(self, node: int, other: int) -> None:
        self.held[node] = self.held[node].joined(self.held[other])

    def keep(self, node: int) -> None:
        self.kept[node] = self.held[node]

    def restart(self, node: int) -> None:
        self.held[node] = self.kept[node]

    def run(self, events: list[Event]) -> list[str]:
        """Goes through all events. Why some were refused, one reason for each."""
        reasons = []
        for it in events:
            try:
                self.step(it)
            except Refused as refused:
                reasons.append(str(refused))
        return reasons

    def file(self, node: int) -> bytes:
        """The fact file of what a node holds."""
        held = self.held[node]
        return file_of(sorted(map(self.job.fact, held.tiles)), [self.job.ids] if held.is_retired else [])

    def told(self, done: int, refused: int) -> bytes:
        lines = [f"done {done} refused {refused}", *(f"node {it} {self.file(it).hex()}" for it in range(len(self.held)))]
        return "".join(f"{it}\n" for it in lines).encode()


def after(job: Job, nodes: int, text: bytes) -> tuple[int, bytes]:
    """The exit status of `world` on a script of a job, and what it writes."""
    try:
        events, made = script(text), World(job, nodes)
        return 0, made.told(len(events), len(made.run(events)))
    except Refusal as refusal:
        return refusal.answer()


# ---- inputs and words


class Words(NamedTuple):
    """What the words of a command line ask for."""

    given: dict[str, int]
    sides: Point = (64, 64)
    percent: int = 40
    is_stored: bool = False
    nodes: int = USUAL_NODES


def words_of(words: list[str]) -> Words:
    """What good words ask for."""
    rest, given, options = list(words), {}, {}
    while rest:
        name, is_joined, value = rest.pop(0).partition("=")
        if name == "--stored":
            options[name] = 1
        elif name.startswith("--"):
            options[name] = int(value if is_joined else rest.pop(0))
        else:
            given[name] = int(value)
    sides = options.get("--rows", 64), options.get("--cols", 64)
    return Words(given, sides, options.get("--percent", 40), "--stored" in options, options.get("--nodes", USUAL_NODES))


def sections(data: bytes, count: int) -> list[bytes]:
    """The parts of an input, parted by the first lines that are exactly `%%`."""
    found, rest = [], data
    while len(found) < count - 1:
        front, separator, rest = (b"\n" + rest).partition(b"\n" + SEPARATOR)
        if not separator:
            raise Refusal(2, "input: no separator")
        found.append((front + b"\n")[1:])
    return [*found, rest]


def picture_of(section: bytes, tokens: list[str]) -> Picture:
    """The picture of the last section, with the tables before it."""
    try:
        return handed_in(section, tokens)
    except BadLine as bad:
        raise Refusal(2, f"tables: line {bad.line}") from None
    except Fault as fault:
        raise Refusal(2, f"picture: {fault.number} {fault.name} at {fault.at}") from None


def world(data: bytes, words: list[str]) -> tuple[int, bytes]:
    """The exit status of `world` on an input, and what it writes. The words are good ones, and so is the program over the picture."""
    try:
        text, told, given = sections(data, 3)
        tokens = tokens_of(text)
        picture = picture_of(given, tokens)
    except Refusal as refusal:
        return refusal.answer()
    asked = words_of(words)
    known = settings(tokens, asked.given, picture)
    meaning = Meaning(tokens, known, picture)
    schedule = Schedule(meaning, asked.sides, asked.percent, asked.is_stored)
    return after(Job(identities(tokens, known, picture, asked.sides), meaning, schedule), asked.nodes, told)
