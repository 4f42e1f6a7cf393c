"""The steps of a world: each event of a script with what it does, or why it is refused, and what the nodes hold after it."""
from typing import NamedTuple

from .schedules import Schedules
from .world_states import Event, State, Tile, Worlds

# with more events only each so many-th state is run
MOST_EACH, EACH = 400, 100


class Message(NamedTuple):
    """A message: the event that sent it, the node that it is for, its tiles, and whether it retires the job. That is unknown where the
    sender's state was not run."""

    event: int
    to: int
    tiles: tuple[Tile, ...]
    is_retirement: bool | None


class Step(NamedTuple):
    """An event; why it is refused, if it is; the message that it sends, if it sends one; and what each node holds after it, where that was run."""

    event: Event
    reason: str
    message: int | None
    states: tuple[State, ...] | None

    @property
    def is_refused(self) -> bool:
        return bool(self.reason)


class Job:
    """The stages of a job by their numbers, and what their tiles need."""

    def __init__(self, schedules: Schedules, inlined: frozenset[str]):
        self.schedules, self.inlined = schedules, inlined
        self.stages = schedules.stages

    def named(self, tile: Tile) -> str:
        return f"{self.stages[tile[0]]}:{tile[1]}:{tile[2]}" if tile[0] < len(self.stages) else ":".join(map(str, tile))

    def tiles(self, stage: int) -> list[Tile]:
        """All tiles of a stage."""
        return [(stage, *at) for at in self.schedules.domains[self.stages[stage]].tiles(self.schedules.sides)]

    def lack(self, tile: Tile) -> str:
        """Why there is no such tile, or nothing."""
        if tile[0] >= len(self.stages):
            return f"there is no stage {tile[0]}"
        name = self.stages[tile[0]]
        if self.schedules.kinds[name] == "plane":
            return f"{name} is a plane, which has no tiles"
        return "" if self.schedules.area_of(*tile).count() else f"{name} has no tile {tile[1]}:{tile[2]}"

    def needs(self, tile: Tile) -> list[Tile]:
        """The tiles that a tile is made from."""
        target = self.stages[tile[0]]
        boxes = self.schedules.boxes(target, self.schedules.area_of(*tile), self.inlined)
        found = (it.split() for it in self.schedules.needs(boxes, target, self.inlined))
        return [(self.stages.index(name), int(row), int(col)) for name, row, col in found]


class Steps:
    """Goes through the events of a script, and notes the messages that are sent."""

    def __init__(self, job: Job, worlds: Worlds):
        self.job, self.worlds = job, worlds
        self.messages: list[Message] = []

    def found(self) -> list[Step]:
        """All steps. The program says which are refused, and what each leaves."""
        count = len(self.worlds.events)
        each = 1 if count <= MOST_EACH else EACH
        stops = [*range(0, count, each), count]
        self.worlds.run_all(stops)
        refused = {it for first, last in zip(stops, stops[1:]) for it in self.worlds.refusals(first, last)}
        return [self.step(at, it, at in refused) for at, it in enumerate(self.worlds.events)]

    def step(self, at: int, event: Event, is_refused: bool) -> Step:
        known = self.worlds.known.get(at + 1)
        states = known.states if known else None
        if is_refused:
            before = self.worlds.known[max(it for it in self.worlds.known if it <= at)].states
            return Step(event, self.reason(event, before), None, states)
        return Step(event, "", self.sent(at, event, states), states)

    def sent(self, at: int, event: Event, states: tuple[State, ...] | None) -> int | None:
        """The number of the message that an event sends, if it sends one."""
        if event.verb not in ("make", "send", "retire"):
            return None
        is_retirement: bool | None = event.verb == "retire"
        if event.verb == "send":
            is_retirement = states[event.numbers[0]].is_retired if states else None
        self.messages.append(Message(at, event.numbers[event.verb == "send"], event.tiles, is_retirement))
        return len(self.messages) - 1

    def reason(self, event: Event, before: tuple[State, ...]) -> str:
        """Why an event is refused, by the table of docs/WORLDS.md. A refused event changes nothing, so `before` may be of any refused event before."""
        strange = next((it for it in event.nodes() if it >= len(before)), None)
        if strange is not None:
            return f"there is no node {strange}"
        if event.verb == "deliver":
            return self.undelivered(*event.numbers)
        if event.verb == "make":
            return self.unmade(event.numbers[0], event.tiles[0], before[event.numbers[0]])
        return self.unheld(event.numbers[0], event.tiles, before[event.numbers[0]])

    def undelivered(self, node: int, number: int) -> str:
        if number >= len(self.messages):
            return f"there is no message {number} so far"
        return f"message {number} is for node {self.messages[number].to}, and not for node {node}"

    def unmade(self, node: int, tile: Tile, state: State) -> str:
        if lack := self.job.lack(tile):
            return lack
        if state.is_retired:
            return f"node {node} knows that the job is retired"
        missing = [it for it in self.job.needs(tile) if it not in state.tiles]
        if missing:
            return f"node {node} lacks {self.job.named(missing[0])}, which {self.job.named(tile)} needs{more(missing)}"
        return "the functions inlined in it have more points than scratch memory may"

    def unheld(self, node: int, tiles: tuple[Tile, ...], state: State) -> str:
        missing = [it for it in tiles if it not in state.tiles]
        return f"node {node} does not hold {self.job.named(missing[0])}{more(missing)}"


def more(missing: list[Tile]) -> str:
    """How many more are missing than the one that is named."""
    return f" (and {len(missing) - 1} more)" if len(missing) > 1 else ""
