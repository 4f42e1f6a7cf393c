"""What a page plays with: a program, a picture, and the runs that the page asks for."""
import os
import threading

from .joining import Section
from .netpbm import picture_of
from .play_examples import EXAMPLES
from .play_files import Files
from .play_jobs import BadRequest, Job
from .play_pictures import PlayPicture, opened, raw_of
from .play_runs import Runs
from .play_values import MOST_POINTS, halves, showing, spread, step_for
from .play_view import output_view, stages_view, totals
from .play_work import Work
from .play_world import MOST_WORLD_POINTS, Wanted, world_of
from .running import Ended
from .stages import domains_of
from .tables import Line
from .text import content

# the status of a program that is refused
REFUSED = 3
# what the sliders of a schedule stop at
SIDES, PERCENTS = (8, 16, 32, 64, 128, 256, 512, 1024), (0, 10, 20, 40, 60, 80, 100, 150, 200, 400, 1000, 10000)


class Session:
    """One page's program and picture. Requests come from several threads; runs are one at a time."""

    def __init__(self, name: str, picture: Section, said: list[str], job: Job, files: Files, runs: Runs | None = None,
                 tables: list[Line] | None = None):
        self.name, self.job, self.files, self.runs, self.tables = name, job, files, runs or Runs(), tables or []
        self.picture, self.guard = PlayPicture(1, picture, said), threading.Lock()

    def start(self) -> dict:
        """What the page begins with, and the picture before anything runs."""
        job = self.job
        return {"text": job.text.decode("utf-8", "replace"), "name": self.name, "values": job.given, "rows": job.rows, "cols": job.cols,
                "percent": job.percent, "stored": job.is_stored, "examples": [it.name for it in EXAMPLES],
                "picture": self.shown(), "seconds": self.runs.seconds, **steps(job)}

    def work(self, job: Job, points: int = MOST_POINTS) -> Work:
        """A job in a turn of its own, which ends the one before, over a picture of so many points at most."""
        return Work(self.name or "program.pipe", job, self.picture, self.runs.turn(), self.tables, points)

    # runs

    def run(self, job: Job) -> tuple[dict, bytes]:
        """The result of a job with all that the page shows of it. What a reduced copy does not allow is judged over the whole."""
        work = self.work(job)
        done = work.run("eval")
        if done.status == REFUSED and work.shown.factor > 1:
            work = Work(work.name, job.over_whole(), work.picture, work.turn, work.handed_in)
            done = work.run("eval")
        if done.status:
            return {**work.about(), "seconds": done.seconds, "fault": {**work.fault("eval", done), "status": done.status}}, b""
        return result(work, done)

    def plan(self, job: Job) -> dict:
        """The stages by another schedule."""
        return {"stages": stages_by_schedule(self.work(job))}

    def stage(self, job: Job, name: str, side: int = 0, step: int = 1) -> tuple[dict, bytes]:
        """The values of a stage: at each point whose row and column are multiples of a step, by which no side has many more than `side`
        points where that is not 0."""
        work = self.work(job)
        domain = domains_of(work.lines("check")).get(name)
        if work.program is None or domain is None or work.program.kinds().get(name) == "accum":
            raise BadRequest(f"{name} is no plane and no function of this program", 404)
        shown = spread(domain, step_for(domain, side) if side > 0 else step)
        found = picture_of(work.written("eval", showing(work.text, work.program, name, shown)))
        rows, cols = shown.sides()
        told = {"name": name, "step": shown.step, "top": shown.area.rows.least, "left": shown.area.cols.least, "rows": rows, "cols": cols}
        return told, halves(found[0]) if found else b""

    def world(self, job: Job, wanted: Wanted) -> dict:
        """Nodes that share the tiles of a job over a small copy of the picture, event by event, and the script by which they do so."""
        work = self.work(job, MOST_WORLD_POINTS)
        if work.run("check").status == REFUSED and work.shown.factor > 1:
            work = self.work(job.over_whole())
        return world_of(work, wanted)

    # programs and pictures

    def shown(self) -> dict:
        """The picture as it is shown before a program has run over it."""
        key, _ = self.picture.form(None, False, self.runs.turn())
        return self.picture.about(key)

    def open(self, name: str, data: bytes) -> dict:
        """Another picture in the place of the one that was there."""
        with self.guard:
            self.picture = opened(self.picture.number + 1, name, data)
        return {"picture": self.shown()}

    def input(self, key: str) -> bytes:
        """A form of the picture, as the page draws it."""
        shown = self.picture.forms.get(key)
        if shown is None:
            raise BadRequest("this picture is no longer there", 404)
        return raw_of(shown)

    def example(self, name: str) -> dict:
        """An example's program, and its picture and its tables in the place of those that were there."""
        found = next((it for it in EXAMPLES if it.name == name), None)
        if found is None:
            raise BadRequest(f"there is no example {name}", 404)
        told = self.open(os.path.basename(found.picture), content(found.picture_path()))
        self.tables = found.lines()
        return {"text": found.text(), "values": found.values, "name": f"{name}.pipe", **told}

    def save(self, asked: dict) -> dict:
        """Writes the program, or the result over the whole picture, under a name."""
        return self.files.save(asked, lambda job: self.work(job.over_whole()).written("eval"))


def steps(job: Job) -> dict[str, list[int]]:
    """What the sliders of a schedule stop at: the usual numbers, and those that were asked for."""
    return {"sides": sorted({*SIDES, job.rows, job.cols}), "percents": sorted({*PERCENTS, job.percent})}


def result(work: Work, done: Ended) -> tuple[dict, bytes]:
    """What the page shows of a job that ran well: in words, and the picture."""
    found = picture_of(done.written) if done.written.startswith((b"P5\n", b"P6\n")) else None
    picture, lines = (found[0].raw(), found[1]) if found else (b"", done.written)
    told = {"seconds": done.seconds, "totals": totals(lines), "stages": stages_by_schedule(work),
            "output": output_view(work.program) if work.program else None}
    return {**work.about(), **told}, picture


def stages_by_schedule(work: Work) -> list[dict]:
    check, plan = work.lines("check"), work.lines("plan")
    return stages_view(work.program, work.text, work.values, check, plan) if work.program else []
