"""A job of a page over its picture: what is run, and what is told of it."""

from .blame import Situation
from .joining import SEPARATOR, Input, Section, ended, refuse_separator
from .parser import known_program
from .play_faults import fault
from .play_jobs import Job, parameters, words_of
from .play_pictures import PlayPicture
from .play_runs import Turn
from .play_values import MOST_POINTS
from .running import QUICK, Ended, program
from .settings import with_greatest
from .tables import Line, ordered
from .text import Refused, Text


class Refusal(Exception):
    """The program refuses a job: the fault as the page shows it."""

    def __init__(self, shown: dict):
        super().__init__()
        self.shown = shown


class Work:
    """A job over a form of the picture: its input, its parameters, and the turn in which it runs."""

    def __init__(self, name: str, job: Job, picture: PlayPicture, turn: Turn, handed_in: list[Line], points: int = MOST_POINTS):
        self.name, self.job, self.picture, self.turn, self.handed_in = name, job, picture, turn, handed_in
        self.text = ended(job.text)
        self.program = known_program(self.text)
        self.key, self.shown = picture.form(self.program, job.is_whole, turn, points, job.halvings)
        if self.program:
            self.text = with_greatest(self.text, self.program, job.given, self.shown.head())
            self.program = known_program(self.text)
        self.parameters = parameters(self.program, self.text, job.given, self.shown.head()) if self.program else []
        self.values = {it["name"]: it["value"] for it in self.parameters}

    def words(self) -> list[str]:
        return words_of(self.parameters) if self.program else [f"{name}={value}" for name, value in self.job.given.items()]

    def input(self, program: bytes) -> Input:
        """A program over the picture, with those tables that the job's own program declares: what is made of it has the same."""
        own, lines = Section(Text(self.name, program), program), self.tables()
        found = Input({"program": own, "picture": self.shown.section}, b"", lines)
        found.data = SEPARATOR.join((program, found.last()))
        return found

    def tables(self) -> list[Line]:
        """The lines of the tables that are declared; all of them where it is no program. One that lacks is a refusal."""
        if self.program is None:
            return self.handed_in
        try:
            return ordered(self.program, [it for it in self.handed_in if it.name not in self.undeclared()])
        except Refused as refusal:
            raise Refusal(unplaced(str(refusal))) from None

    def undeclared(self) -> list[str]:
        """The tables that are handed in to a program that declares none of the name."""
        declared = {it.names[0].text for it in self.program.tables()} if self.program else {it.name for it in self.handed_in}
        return [it.name for it in self.handed_in if it.name not in declared]

    def run(self, command: str, program: bytes | None = None) -> Ended:
        """Runs a command on this job, or on another program over its picture and with its values."""
        self.refuse_separator()
        return self.turn.run([command, *self.job.schedule(), *self.words()], self.input(program or self.text).data)

    def refuse_separator(self) -> None:
        try:
            refuse_separator(self.name, self.text, "the program's text")
        except Refused as refusal:
            raise Refusal(unplaced(str(refusal))) from None

    def written(self, command: str, program: bytes | None = None) -> bytes:
        """What a command writes; a fault is a refusal."""
        found = self.run(command, program)
        if found.status:
            raise Refusal(self.fault(command, found))
        return found.written

    def lines(self, command: str) -> str:
        return self.written(command).decode("ascii", "replace")

    def fault(self, command: str, found: Ended) -> dict:
        """Why a run failed, with its place and its cure."""
        line = found.written.decode("utf-8", "replace").rstrip("\n")
        words = [command, *self.job.schedule(), *self.words()]
        if not line:
            return unplaced(f"the program ended with status {found.status} and said nothing")
        return fault(line, Situation(words, self.input(self.text), command_line=["tf", *words]))

    # what is told of it

    def about(self) -> dict:
        """What is told of any job: its parameters, the picture that it runs over, and notes."""
        return {"parameters": self.parameters if self.program else None, "picture": self.picture.about(self.key), "notes": self.notes()}

    def notes(self) -> list[str]:
        """What a user should know of this job, beside faults."""
        found, head = list(self.picture.said), self.shown.head()
        unknown = [it for it in self.job.given if self.program and it not in self.values]
        found += [f"{it} is no parameter of this program, and its value is left out." for it in unknown]
        found += [f"{it} is no table of this program, and its line is left out." for it in self.undeclared()]
        output = self.program.output() if self.program else None
        if output and output.most and head and head.most > output.most.value:
            found.append(f"The picture has samples up to {head.most}, and the output cuts the result at {output.most.value}.")
        if program() == QUICK:
            found.append("The program that answers is not proved: make build makes the proved one.")
        return found


def unplaced(line: str) -> dict:
    """A fault that has no place in the program's text."""
    first, _, rest = line.partition("\n")
    return {"line": first, "cure": "", "places": [], "elsewhere": [rest] if rest else []}
