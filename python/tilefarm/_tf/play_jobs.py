"""What a page asks for: a program's text, values of parameters, and a schedule. All of it is checked before anything runs."""
import re
from dataclasses import dataclass, field, replace

from .netpbm import Header
from .program import Program
from .settings import own_settings, settings

NAME = re.compile(r"[A-Za-z][A-Za-z0-9_]{0,31}")
HINT = re.compile(r"[ \t]*#[ \t]*(-?\d{1,9}) in (-?\d{1,9})[ \t]*\.\.[ \t]*(-?\d{1,9})")
MOST_VALUES, MOST_DIGITS, MOST_HALVINGS = 64, 10**12, 4
USUAL = {"rows": 64, "cols": 64, "percent": 40}


class BadRequest(Exception):
    """A request that no page of ours sends: the status of the answer, and why."""

    def __init__(self, why: str, status: int = 400):
        super().__init__(why)
        self.why, self.status = why, status


@dataclass(frozen=True)
class Job:
    """A program with the values that were given and the schedule that was asked for, over the whole picture, its reduced copy, or one of
    half of the sides of that, so many times."""

    text: bytes
    given: dict[str, int] = field(default_factory=dict)
    rows: int = 64
    cols: int = 64
    percent: int = 40
    is_stored: bool = False
    is_whole: bool = False
    halvings: int = 0

    def schedule(self) -> list[str]:
        """The options of the schedule, as words."""
        sides = ["--rows", str(self.rows), "--cols", str(self.cols), "--percent", str(self.percent)]
        return [*sides, *(["--stored"] if self.is_stored else [])]

    def over_whole(self) -> "Job":
        """The same over the whole picture."""
        return replace(self, is_whole=True, halvings=0)


def job_of(asked: dict) -> Job:
    """The job that a request asks for."""
    numbers = {name: number(asked, name, usual) for name, usual in USUAL.items()}
    return Job(text(asked, "text").encode("utf-8", "surrogatepass"), values(asked), **numbers,
               is_stored=truth(asked, "stored"), is_whole=truth(asked, "whole"), halvings=halvings(asked))


def text(asked: dict, name: str) -> str:
    it = asked.get(name)
    if not isinstance(it, str):
        raise BadRequest(f"{name} is a text")
    return it


def truth(asked: dict, name: str) -> bool:
    it = asked.get(name, False)
    if not isinstance(it, bool):
        raise BadRequest(f"{name} is true or false")
    return it


def halvings(asked: dict) -> int:
    """How often the sides of the picture are halved."""
    it = number(asked, "halvings", 0)
    if not 0 <= it <= MOST_HALVINGS:
        raise BadRequest(f"halvings are 0 to {MOST_HALVINGS}")
    return it


def number(asked: dict, name: str, usual: int | None = None) -> int:
    it = asked.get(name, usual)
    if not isinstance(it, int) or isinstance(it, bool) or abs(it) > MOST_DIGITS:
        raise BadRequest(f"{name} is a whole number")
    return it


def values(asked: dict) -> dict[str, int]:
    """The values of parameters that a request gives."""
    found = asked.get("values", {})
    if not isinstance(found, dict) or len(found) > MOST_VALUES or not all(map(NAME.fullmatch, found)):
        raise BadRequest("values are numbers by names of parameters")
    return {name: number(found, name) for name in found}


# parameters


def parameters(program: Program, text: bytes, given: dict[str, int], head: Header | None) -> list[dict]:
    """The parameters with their values and where these come from: `given`, `picture` (the program takes it itself), `side` (`tf` takes it
    from the picture, as of a side 2*N), `hint` (a comment behind it), or `usual`. Hint and value give the range of a slider."""
    by_picture, by_side = own_settings(program, {}, head), settings(program, given, head)
    return [parameter(item.names[0].text, text[item.span.end :], given, by_picture, by_side)
            for item in program.items if item.kind == "param"]


def parameter(name: str, behind: bytes, given: dict[str, int], by_picture: dict[str, int], by_side: dict[str, int]) -> dict:
    hint = HINT.match(behind[:200].decode("latin-1"))
    usual, least, most = map(int, hint.groups()) if hint else (1, 0, 255)
    ways = (("given", given), ("picture", by_picture), ("side", by_side), ("hint" if hint else "usual", {name: usual}))
    source, value = next((way, known[name]) for way, known in ways if name in known)
    return {"name": name, "value": value, "from": source, "least": min(least, value), "most": max(most, value)}


def words_of(found: list[dict]) -> list[str]:
    """The values as words of a command line. What the program takes from the picture is not said."""
    return [f"{it['name']}={it['value']}" for it in found if it["from"] != "picture"]
