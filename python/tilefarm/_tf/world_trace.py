"""`tf world --trace`: what a script does event by event, in words, as a drawing or as a page."""
from typing import Callable, NamedTuple

from .joining import SEPARATOR
from .making import side_of
from .parser import known_program
from .running import run
from .schedules import Schedules
from .settings import given_values, settings
from .text import Failed, Refused
from .world_states import Worlds, events_of
from .world_steps import Job, Message, Step, Steps
from .world_words import lines_of


class Trace(NamedTuple):
    """A world that was gone through: its job, its steps, the messages that were sent, and the runs behind these."""

    job: Job
    steps: list[Step]
    messages: list[Message]
    worlds: Worlds

    def lines(self) -> str:
        return "".join(f"{it}\n" for it in lines_of(self.job, self.steps, self.messages))


def traced(call: "Call") -> Trace:
    """The trace of a call of `world`, which is run as a whole first: a fault ends tf."""
    whole = call.run()
    if whole.status:
        raise Failed(call.explain(whole))
    sections, words = call.input.sections, call.asked.words
    if known_program(sections["program"].data) is None:
        raise Refused("tf does not read this program as tilefarm does")

    def written(script: bytes) -> bytes:
        """What `world` writes of another script."""
        ended = run(["world", *words], SEPARATOR.join((sections["program"].data, script, call.input.last())))
        if ended.status:
            raise Refused(f"tilefarm does not tell the world of a part of the script: {ended.written.decode('utf-8', 'replace').strip()}", ended.status)
        return ended.written

    return trace_of(job_of_call(call), sections["script"].data, written)


def trace_of(job: Job, script: bytes, written: Callable[[bytes], bytes]) -> Trace:
    """The trace of a script, by what `world` writes of its parts."""
    worlds = Worlds(events_of(script), written)
    steps = Steps(job, worlds)
    return Trace(job, steps.found(), steps.messages, worlds)


def job_of_call(call: "Call") -> Job:
    """The job of a call of `world`."""
    sections, words = call.input.sections, without_nodes(call.asked.words)
    program = sections["program"].data
    data = SEPARATOR.join((program, call.input.last()))
    check, plan = (run([it, *words], data).written.decode("ascii", "replace") for it in ("check", "plan"))
    values = settings(known_program(program), given_values(words), call.input.header())
    return job_of(program, check, plan, values, (side_of("--rows", words), side_of("--cols", words)))


def job_of(program: bytes, check: str, plan: str, values: dict[str, int], sides: tuple[int, int]) -> Job:
    """The stages of a job, and what is inlined in them, as `check` and `plan` tell them."""
    inlined = frozenset(it.split()[1] for it in plan.splitlines() if it.startswith("inlined "))
    return Job(Schedules(program, check, values, sides), inlined)


def without_nodes(words: list[str]) -> list[str]:
    """The words that `check` takes of those that `world` takes."""
    found, rest = [], list(words)
    while rest:
        word = rest.pop(0)
        if word == "--nodes":
            rest = rest[1:]
        elif not word.startswith("--nodes="):
            found.append(word)
    return found
