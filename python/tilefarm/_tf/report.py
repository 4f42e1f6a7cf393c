"""tf report: the page of `tf play` as one file, with all that it shows stored in it."""
import base64
import zlib
from dataclasses import replace

from .output import give, put, show
from .play_given import session_of
from .play_jobs import Job
from .play_runs import Runs
from .play_session import Session, steps
from .play_work import Refusal
from .stored_page import page_of
from .text import Refused
from .words import asked

# the status of an input that cannot be read
UNREADABLE = 2
SECONDS, MOST_POINTS, MOST_STEP = 600.0, 4_000_000, 16


def report(words: list[str]) -> int:
    """Writes the page of a program over a picture; a fault is shown as `tf eval` shows it."""
    it = asked(words)
    if not it.files:
        raise Refused("tf report takes PROGRAM PICTURE", 1)
    session = session_of(it, Runs(SECONDS))
    told, result = run_of(session)
    if "fault" in told:
        show("\n".join(drawn(told["fault"])))
        return told["fault"]["status"]
    page = page_of("index.html", "main.js", stored(session, told, result)).encode()
    if it.target is None:
        give(page)
    else:
        put(it.target, page)
    return 0


def run_of(session: Session) -> tuple[dict, bytes]:
    """What the page shows first. An input that cannot be made is told as a fault."""
    try:
        return session.run(session.job)
    except Refusal as refusal:
        return {"fault": {**refusal.shown, "status": UNREADABLE}}, b""


def drawn(fault: dict) -> list[str]:
    """A fault as lines: what the program says, the places, and the cure."""
    places = [line for it in fault["places"] for line in it["drawing"]]
    return [it for it in (fault["line"], *places, *fault["elsewhere"], fault["cure"]) if it]


# what is stored


def stored(session: Session, told: dict, result: bytes) -> dict:
    """All that the page asks for."""
    start = {**session.start(), "examples": []}
    values = {it["name"]: stage_of(session, it["name"], step) for it, step in stepped(told["stages"])}
    return {"start": start, "run": told, "input": packed(session.input(told["picture"]["key"])), "result": packed(result),
            "values": values, "plans": plans(session)}


def stepped(stages: list[dict]) -> list[tuple[dict, int]]:
    """The stages that have values, and each how many-th row and column of them is stored, so that the file stays small enough."""
    own = [it for it in stages if it["kind"] != "accum"]
    step = 1
    while sum(points_of(it, step) for it in own) > MOST_POINTS and step < MOST_STEP:
        step += 1
    return [(it, step) for it in own]


def points_of(stage: dict, step: int) -> int:
    rows, cols = ((high - low) // step + 1 for low, high in (stage["rows"], stage["cols"]))
    return rows * cols


def stage_of(session: Session, name: str, step: int) -> dict:
    told, data = session.stage(session.job, name, step=step)
    return {"told": told, "data": packed(data)}


def plans(session: Session) -> dict[str, dict]:
    """Of each setting of the sliders what it changes: which stages are inlined, where, and tiles and costs."""
    job, stops = session.job, steps(session.job)
    settings = [(side, percent) for side in stops["sides"] for percent in (*stops["percents"], "stored")]
    return {f"{side} {percent}": plan_of(session, by_schedule(job, side, percent)) for side, percent in settings}


def by_schedule(job: Job, side: int, percent: int | str) -> Job:
    if percent == "stored":
        return replace(job, rows=side, cols=side, is_stored=True)
    return replace(job, rows=side, cols=side, percent=percent, is_stored=False)


def plan_of(session: Session, job: Job) -> dict:
    """What a schedule says of each stage; the fault where the program refuses it, as with too many tiles."""
    try:
        stages = session.plan(job)["stages"]
    except Refusal as refusal:
        return {"fault": {key: refusal.shown[key] for key in ("line", "cure")}}
    return {it["name"]: {key: it[key] for key in ("inlined", "home", "tiles", "cost")} for it in stages if it["kind"] != "plane"}


def packed(data: bytes) -> str:
    return base64.b64encode(zlib.compress(data, 9)).decode()
