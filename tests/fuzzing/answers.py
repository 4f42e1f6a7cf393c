"""Calls of the program, and the forms that its answers may have."""
import re
import resource
import subprocess
from dataclasses import dataclass

SECONDS, KILOBYTES = 20, 1 << 20
NAME = r"[A-Za-z][A-Za-z0-9_]{0,31}"
READ = rf"{NAME} case \d+ read \d+ (?:rows|columns) least -?\d+ greatest -?\d+"
TEXT = "1 NotAscii|2 BadToken|3 Unexpected|4 NumberTooBig|5 TooDeep|6 TooLong|7 TooMany"
PICTURE = (
    "1 OtherFormat|2 HeaderCut|3 BadNumber|4 BadSize|5 BadMax|6 CommentBehindDigit|7 RasterCut|8 SampleTooBig|9 TrailingBytes"
)
FACTS = "1 BadMagic|2 Cut|3 NotRising|4 BadKind|5 TooLong|6 TrailingBytes|8 RetiredFact|9 NothingRetired"
# the status of an audit that found a False, with all verdicts
FOUND_FALSE = 6
# the lines of refusals, by exit status
REFUSALS = {
    1: ["usage: tilefarm COMMAND .*", rf"parameter: (?:1 NoSuchParam|2 SetTwice) .*"],
    2: ["input: no separator", "input: too long", rf"picture: (?:{PICTURE}) at \d+",
        r"tables: line \d+",
        rf"facts: line \d+ (?:bad hex|(?:{FACTS}) at \d+)", r"script: (?:(?:1 BadLine|2 NoSuchJob) at \d+|3 TooManyEvents)"],
    3: [
        rf"program: (?:{TEXT}) at \d+",
        r"check: (?:1 Unknown|2 Twice|3 Kind|4 BadKernel|5 BadLiteral) item \d+",
        "check: 6 NoResult",
        rf"check: 7 Cycle(?: {NAME})+",
        rf"bounds: (?:1 ParamUnset|2 EmptyDomain|3 DomainTooWide) {NAME}",
        rf"bounds: 4 OutOfBounds {READ}",
        rf"bounds: (?:6 EmptyTable|7 TableTooWide) {NAME}",
        "bind: (?:2 Planes|3 ExtentMismatch|4 OutputShapes)",
        rf"bind: (?:5 TooManyTiles|7 TableMismatch) {NAME}",
    ],
}
SPAN = r"-?\d+\.\.-?\d+"
STAGE = rf"stage \d+ (?:plane|func|accum) {NAME} {SPAN} {SPAN} tiles \d+\n"
CHECKED = rf"program [0-9a-f]{{64}}\ninput [0-9a-f]{{64}}\n(?:{STAGE})+"
PLANNED = rf"(?:inlined {NAME}\n|stored {NAME} cost \d+\n)+"


class Broken(Exception):
    """Something that must hold does not."""


@dataclass(frozen=True)
class Answer:
    status: int
    bytes: bytes

    @property
    def is_refusal(self) -> bool:
        return self.status not in (0, FOUND_FALSE)

    def shown(self) -> str:
        return f"status {self.status}, {self.bytes[:120]!r}"


def demand(holds: object, what: str) -> None:
    if not holds:
        raise Broken(what)


def is_refusal_line(answer: Answer) -> bool:
    text = answer.bytes.decode("latin-1")
    return any(re.fullmatch(form + "\n", text, re.S) for form in REFUSALS.get(answer.status, []))


class Program:
    """The program that is judged. Each answer is judged by its form, its time and its memory."""

    def __init__(self, path: str):
        self.path, self.calls, self.stdin, self.words = path, 0, b"", ()

    def call(self, stdin: bytes, *words: str) -> Answer:
        self.calls, self.stdin, self.words = self.calls + 1, stdin, words
        with subprocess.Popen([self.path, *words], stdin=subprocess.PIPE, stdout=subprocess.PIPE, stderr=subprocess.PIPE) as process:
            try:
                out, err = process.communicate(stdin, timeout=SECONDS)
            except subprocess.TimeoutExpired:
                process.kill()
                raise Broken(f"{' '.join(words)}: no answer in {SECONDS} seconds") from None
        answer = Answer(process.returncode, out)
        demand(not err, f"{' '.join(words)}: wrote {err[:80]!r} to standard error")
        usual = (0, 1, 2, 3, FOUND_FALSE) if words[0] == "audit" else (0, 1, 2, 3)
        demand(answer.status in usual, f"{' '.join(words)}: {answer.shown()}")
        demand(not answer.is_refusal or is_refusal_line(answer), f"{' '.join(words)}: no line of this refusal: {answer.shown()}")
        return answer


def peak() -> int:
    """The greatest resident set of the calls so far, in kilobytes."""
    return resource.getrusage(resource.RUSAGE_CHILDREN).ru_maxrss
