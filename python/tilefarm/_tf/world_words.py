"""A world in words: a line for each event, with what each node holds after it."""
from .world_states import State, Tile
from .world_steps import Job, Message, Step

SHOWN = 12
DONE = {"keep": "keeps what it holds", "restart": "restarts with what it kept"}
RETIREMENTS = {True: ["the job is retired"], False: [], None: ["what is retired"]}


def lines_of(job: Job, steps: list[Step], messages: list[Message]) -> list[str]:
    """The lines of all steps, by the lines of the script."""
    width = len(str(steps[-1].event.line)) if steps else 1
    return [f"{it.event.line:{width}}  {said(job, it, messages)}{after(job, it.states)}" for it in steps]


def said(job: Job, step: Step, messages: list[Message]) -> str:
    """What an event does, or that it is refused and why."""
    if step.is_refused:
        return f"refused: {step.event.text}: {step.reason}"
    return done(job, step, messages)


def done(job: Job, step: Step, messages: list[Message]) -> str:
    """What an event does."""
    verb, numbers = step.event.verb, step.event.numbers
    node = f"node {numbers[0]}"
    if verb == "deliver":
        return f"{node} takes message {numbers[1]} ({content(job, messages[numbers[1]])})"
    if verb == "make":
        return f"{node} makes {job.named(step.event.tiles[0])}, message {step.message} to itself"
    if verb == "send":
        return f"{node} sends node {numbers[1]} message {step.message} ({content(job, messages[step.message])})"
    if verb == "retire":
        return f"{node} retires the job, message {step.message} to itself"
    if verb == "merge":
        return f"{node} takes all of node {numbers[1]}"
    return f"{node} {DONE[verb]}"


def content(job: Job, message: Message) -> str:
    """What a message says."""
    said = [*map(job.named, message.tiles[:SHOWN]), *[f".. {len(message.tiles)} tiles"] * (len(message.tiles) > SHOWN)]
    return ", ".join([*said, *RETIREMENTS[message.is_retirement]]) or "nothing"


def after(job: Job, states: tuple[State, ...] | None) -> str:
    """What each node holds, where that was run."""
    return "".join(f" | {node}: {held(job, state)}" for node, state in enumerate(states or ()))


def held(job: Job, state: State) -> str:
    """The tiles that a node holds, stage by stage."""
    if state.is_retired:
        return "retired"
    stages = sorted({it[0] for it in state.tiles})
    return ", ".join(of_stage(job, stage, sorted(it for it in state.tiles if it[0] == stage)) for stage in stages) or "nothing"


def of_stage(job: Job, stage: int, tiles: list[Tile]) -> str:
    """The tiles of one stage, by row and column."""
    count = len(job.tiles(stage))
    if len(tiles) == count and count > 1:
        return f"{job.stages[stage]} whole"
    shown = [f"{row}:{col}" for _, row, col in tiles[:SHOWN]] + [f".. {len(tiles)} of {count}"] * (len(tiles) > SHOWN)
    return " ".join([job.stages[stage], *shown])
