"""The nodes of a page: a script that is made by a few numbers or written by the user, and the world that it leads to."""
from typing import NamedTuple

from .blame import Situation
from .joining import SEPARATOR, Input, Section, ended, refuse_separator
from .play_faults import fault
from .play_jobs import BadRequest, number, text
from .play_work import Refusal, Work, unplaced
from .text import Refused, Text
from .world_drawing import WorldDrawing
from .world_sharing import Faults, Sharing
from .world_steps import Job
from .world_trace import job_of, trace_of
from .world_view import view_of

# how many points the picture has that nodes share, and at most where the program does not fit a copy of it
MOST_WORLD_POINTS, MOST_WHOLE_POINTS = 1 << 14, 1 << 18
MOST_NODES, MOST_PERIOD, MOST_SCRIPT = 16, 1 << 16, 1 << 16


class Wanted(NamedTuple):
    """How many nodes there are, what goes wrong, and the user's own script, if there is one."""

    nodes: int
    faults: Faults
    script: str | None


def wanted_of(asked: dict) -> Wanted:
    """What a request wants of nodes."""
    nodes = number(asked, "nodes", 2)
    faults = Faults(*(number(asked, it, 0) for it in Faults._fields))
    script = text(asked, "script") if asked.get("script") is not None else None
    if not 1 <= nodes <= MOST_NODES or not all(0 <= it <= MOST_PERIOD for it in faults):
        raise BadRequest("there are 1 to 16 nodes, and a fault is of each so many-th message or turn")
    return Wanted(nodes, faults, script)


def world_of(work: Work, wanted: Wanted) -> dict:
    """The script, and each step of the world that it leads to. What the program refuses is a fault of the script or of the job."""
    head = work.shown.head()
    if head and head.rows * head.cols > MOST_WHOLE_POINTS:
        raise Refused("this program fits no small copy of the picture, and the whole is too large for nodes to be shown: open a smaller one", 1)
    job = job_of(work.text, work.lines("check"), work.lines("plan"), work.values, (work.job.rows, work.job.cols))
    script = script_of(job, wanted)
    if len(script) > MOST_SCRIPT:
        raise Refused(f"a script that is shown has at most {MOST_SCRIPT} bytes", 1)
    trace = trace_of(job, script, lambda part: written(work, wanted.nodes, part))
    world = view_of(trace, WorldDrawing(trace).svg(is_alone=False))
    return {"script": script.decode("utf-8", "replace"), "factor": work.shown.factor, "world": world}


def script_of(job: Job, wanted: Wanted) -> bytes:
    """The user's own script, or one that is made for the job."""
    if wanted.script is not None:
        script = ended(wanted.script.encode("utf-8", "surrogatepass"))
        refuse_separator("the script", script, "this text")
        return script
    return Sharing(job, wanted.nodes, wanted.faults).written().encode()


def written(work: Work, nodes: int, script: bytes) -> bytes:
    """What `world` writes of a script; a fault is a refusal."""
    given = work.input(work.text)
    sections = {"program": given.sections["program"], "script": Section(Text("script", script), script), "picture": given.sections["picture"]}
    data = SEPARATOR.join((work.text, script, given.last()))
    words = [*work.job.schedule(), "--nodes", str(nodes), *work.words()]
    found = work.turn.run(["world", *words], data)
    if not found.status:
        return found.written
    line = found.written.decode("utf-8", "replace").rstrip("\n")
    if not line:
        raise Refusal(unplaced(f"the program ended with status {found.status} and said nothing"))
    situation = Situation(["world", *words], Input(sections, data, given.tables), command_line=["tf", "world", *words])
    raise Refusal(fault(line, situation))
