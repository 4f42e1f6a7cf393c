"""The picture of a page: as it was given, as one grey plane, and as a reduced copy."""
from dataclasses import dataclass, field

from .joining import SEPARATOR, Section, converted, is_foreign
from .netpbm import Header, header_of, picture_of
from .play_runs import Turn
from .play_values import MOST_FACTOR, MOST_POINTS, colours_program, factor_for, grey_program, smaller_program
from .program import Program
from .text import Text


@dataclass
class Shown:
    """A form of the picture that a job runs over: its bytes, by how much its sides are divided, and which planes were made of it, if any:
    `grey` or `colours`."""

    section: Section
    factor: int = 1
    made: str = ""

    def head(self) -> Header | None:
        return header_of(self.section.data)


@dataclass
class PlayPicture:
    """A picture with the forms that were made of it. Each has a key, by which the page asks for it."""

    number: int
    given: Section
    said: list[str] = field(default_factory=list)
    forms: dict[str, Shown] = field(default_factory=dict)

    def form(self, program: Program | None, is_whole: bool, turn: Turn, points: int = MOST_POINTS, halvings: int = 0) -> tuple[str, Shown]:
        """The form for a program: with as many planes as it names, and reduced where it has more points than that, or where half of its
        sides is asked for."""
        head = header_of(self.given.data)
        if head is None:
            return self.kept(Shown(self.given))
        shown = self.planes(head, planes_of(program), turn)
        factor = 1 if is_whole else halved(head, factor_for(head, points), halvings)
        return self.kept(shown if factor == 1 else self.smaller(shown, factor, turn))

    def about(self, key: str) -> dict:
        """What is told of a form."""
        shown, whole = self.forms[key], header_of(self.given.data)
        head = shown.head()
        sides = {"rows": head.rows, "cols": head.cols, "most": head.most, "planes": head.parts} if head else {}
        return {"key": key, "name": self.given.text.name, "factor": shown.factor, "made": shown.made,
                "whole": [whole.rows, whole.cols] if whole else None, **sides}

    def key(self, shown: Shown) -> str:
        return f"{self.number}-{shown.made or 'own'}-{shown.factor}"

    def kept(self, shown: Shown) -> tuple[str, Shown]:
        return self.key(shown), self.forms.setdefault(self.key(shown), shown)

    def planes(self, head: Header, count: int, turn: Turn) -> Shown:
        """The whole picture with so many planes, as --grey and --colours make them."""
        program, made = {(3, 1): (grey_program, "grey"), (1, 3): (colours_program, "colours")}.get((head.parts, count), (None, ""))
        wanted = Shown(self.given, 1, made)
        return self.forms.get(self.key(wanted)) or (self.ran(wanted, program(head), turn) if program else wanted)

    def smaller(self, shown: Shown, factor: int, turn: Turn) -> Shown:
        wanted = Shown(shown.section, factor, shown.made)
        head = shown.head()
        known = self.forms.get(self.key(wanted))
        return known or (self.ran(wanted, smaller_program(head, factor), turn) if head else shown)

    def ran(self, wanted: Shown, program: bytes, turn: Turn) -> Shown:
        """A form that the program itself makes. A picture that it refuses stays as it is: the user's own program tells the fault."""
        ended = turn.run(["eval"], program + SEPARATOR + wanted.section.data)
        if ended.status:
            return Shown(self.given)
        text = Text(self.given.text.name, ended.written)
        form = Shown(Section(text, ended.written, is_own=False), wanted.factor, wanted.made)
        self.forms[self.key(form)] = form
        return form


def halved(head: Header, factor: int, halvings: int) -> int:
    """The factor for half of the sides, so many times, as far as a point is left and a program can take the mean."""
    for _ in range(halvings):
        if 2 * factor <= min(head.rows, head.cols, MOST_FACTOR):
            factor *= 2
    return factor


def planes_of(program: Program | None) -> int:
    """How many planes a program names."""
    return sum(len(it.names) for it in program.items if it.kind == "image") if program else 0


def opened(number: int, name: str, data: bytes) -> PlayPicture:
    """A picture that a page sends, of any format that `tf` reads; what is none, the program judges."""
    if not is_foreign(data):
        return PlayPicture(number, Section(Text(name, data), data))
    picture, said = converted(name, data, None)
    return PlayPicture(number, Section(Text(name, data), picture.raw(), is_own=False), said)


def raw_of(shown: Shown) -> bytes:
    """The form as a raw picture, which the page draws; nothing where it is none."""
    found = picture_of(shown.section.data)
    return found[0].raw() if found else b""
