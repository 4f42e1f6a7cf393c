"""What must hold of the program's answers to random jobs, told without any second implementation."""
import re
from dataclasses import dataclass
from random import Random

from reference.pictures import Picture
from reference.values import Meaning

from .answers import CHECKED, PLANNED, Answer, Program, demand
from .audits import audited, merged_at_random
from .pictures import long_picture, random_picture
from .pictures import spelled as picture_spelled
from .programs import Writer, spelled, spelled_otherwise
from .scripts import another_script, worlded

SEPARATOR = b"%%\n"
# the shares of cases over a picture with a long side, and of those that are templates of what users write most
LONG, TEMPLATED = 0.02, 0.4
FARMS = {"--nodes": (1, 2, 3, 8), "--turns": (0, 1, 3, 20), "--capacity": (1, 2, 8, 1024), "--lose": (0, 1, 2, 7), "--repeat": (0, 1, 3),
         "--restart": (0, 1, 4, 5)}


@dataclass(frozen=True)
class Case:
    text: bytes
    picture: bytes
    words: tuple[str, ...]

    @property
    def stdin(self) -> bytes:
        return self.text + SEPARATOR + self.picture


def some_options(random: Random) -> list[str]:
    options = ["--rows", str(random.choice([1, 2, 3, 5, 64, 1024])), "--cols", str(random.choice([1, 2, 4, 7, 64, 1024]))]
    return options + random.choice([["--stored"], ["--percent", str(random.choice([0, 40, 300, 10000]))], []])


def some_farm(random: Random) -> list[str]:
    """The options of a farm; it goes through few turns, so that it ends soon."""
    kept = [name for name in FARMS if name == "--turns" or random.random() < 0.6]
    return [word for name in kept for word in (name, str(random.choice(FARMS[name])))]


def judged(program: Program, random: Random) -> str:
    """Makes a case and demands all that must hold of it. Says how it ended."""
    kind = random.random()
    if kind < LONG:
        return judged_long(program, random)
    taken = random_picture(random)
    written = Writer(random, taken, kind < TEMPLATED).program()
    taken = taken.with_tables(written.tables)
    words = tuple(written.values if random.random() < 0.9 else [it for it in written.values if it[0] == "p"])
    case = Case(spelled(written.tokens), taken.lines() + picture_spelled(taken, random), words)
    answer = of_one_case(program, case, taken, random)
    another_spelling(program, case, written.tokens, taken, random)
    for _ in range(3):
        mutated(program, case, random)
    merged_at_random(program, random)
    if answer.is_refusal:
        told = program.call(SEPARATOR.join([case.text, another_script(random), case.picture]), "world", *case.words)
        demand(told == answer, f"world differs from eval: {told.shown()}, {answer.shown()}")
    else:
        known = {name: int(value) for name, value in (it.split("=") for it in written.values)}
        meaning = Meaning(written.tokens, known, taken)
        if kind < TEMPLATED:
            valued(answer, meaning, written.tokens)
        audited(program, *(case.text, case.picture, case.words), meaning, random)
        worlded(program, *(case.text, case.picture, case.words), meaning, random)
    farmed(program, case, answer, random)
    return "refused" if answer.is_refusal else "evaluated"


def judged_long(program: Program, random: Random) -> str:
    """Makes a case over a picture with a side as long as it can be, and demands its values."""
    taken = long_picture(random)
    written = Writer(random, taken, is_templated=True).program()
    taken = taken.with_tables(written.tables)
    case = Case(spelled(written.tokens), taken.lines() + taken.raw(), tuple(written.values))
    _, answer = agreeing(program, case)
    if answer.is_refusal:
        return "refused"
    known = {name: int(value) for name, value in (it.split("=") for it in written.values)}
    valued(answer, Meaning(written.tokens, known, taken), written.tokens)
    options = ["--rows", "64", "--cols", "1024", *random.choice([["--stored"], []])]
    demand(program.call(case.stdin, "run", *options, *case.words) == answer, f"run {' '.join(options)} of a long picture differs from eval")
    return "evaluated, long"


def valued(answer: Answer, meaning: Meaning, tokens: list[str]) -> None:
    """A result has the values of the reference evaluator."""
    at = tokens.index("output")
    most = int(tokens[tokens.index("max", at) + 1])
    planes = [meaning.names[it] for it in meaning.outputs]
    sides = [greatest - least + 1 for least, greatest in planes[0].domain]
    width, kind = 1 if most < 256 else 2, 5 if len(planes) == 1 else 6
    points = zip(*(it.numbers(it.domain) for it in planes))
    found = f"P{kind}\n{sides[1]} {sides[0]}\n{most}\n".encode()
    found += b"".join(min(max(it, 0), most).to_bytes(width, "big") for point in points for it in point)
    for name, stage in meaning.names.items():
        if stage.kind == "accum":
            found += f"{name} {stage.bins[0]}..{stage.bins[1]}: {' '.join(map(str, stage.numbers(stage.domain)))}\n".encode()
    demand(answer.bytes == found, f"eval writes other values than the reference evaluator: {answer.shown()}")


def of_one_case(program: Program, case: Case, taken: Picture, random: Random) -> Answer:
    checked, evaluated = agreeing(program, case)
    if not checked.is_refusal:
        demand(has_form_of_result(checked, evaluated), f"no form of a result: {evaluated.shown()}")
        for _ in range(3):
            options = some_options(random)
            again = program.call(case.stdin, "eval", *options, *case.words)
            demand(again == evaluated, f"eval {' '.join(options)} gives another result: {again.shown()}")
        if taken.planes == 1 or taken.planes == 3:
            other = Case(case.text, taken.lines() + taken.raw(), case.words)
            demand(program.call(other.stdin, "eval", *case.words) == evaluated, "another spelling of the picture gives another result")
    return evaluated


def farmed(program: Program, case: Case, evaluated: Answer, random: Random) -> None:
    """A farm of any size and with any faults writes the same result, and refuses in the same words."""
    options = some_farm(random) + ([] if evaluated.is_refusal else some_options(random))
    answer = program.call(case.stdin, "run", *options, *case.words)
    demand(answer == evaluated, f"run {' '.join(options)} differs from eval: {answer.shown()}, {evaluated.shown()}")


def agreeing(program: Program, case: Case) -> tuple[Answer, Answer]:
    """The answers of check and eval, which refuse the same inputs in the same words, and so does plan."""
    checked, planned, evaluated = (program.call(case.stdin, it, *case.words) for it in ("check", "plan", "eval"))
    if checked.is_refusal:
        demand(planned == checked, f"plan differs from check: {planned.shown()}, {checked.shown()}")
        demand(evaluated == checked, f"eval differs from check: {evaluated.shown()}, {checked.shown()}")
        within_input(case, checked)
    else:
        demand(re.fullmatch(CHECKED, checked.bytes.decode()), f"no form of check: {checked.shown()}")
        demand(re.fullmatch(PLANNED, planned.bytes.decode()), f"no form of plan: {planned.shown()}")
        demand(not evaluated.is_refusal, f"eval refuses what check accepts: {evaluated.shown()}")
    return checked, evaluated


def within_input(case: Case, refused: Answer) -> None:
    """An offset lies in its part, or at its end."""
    found = re.match(rb"(program|picture): .* at (\d+)\n", refused.bytes)
    if found:
        part = case.text if found[1] == b"program" else case.stdin.split(b"\n" + SEPARATOR, 1)[-1]
        demand(int(found[2]) <= len(part), f"an offset past the end of its part: {refused.shown()}")


def has_form_of_result(checked: Answer, evaluated: Answer) -> bool:
    """A raw picture, where there is one, is as long as its head says; the lines are those of the accumulators."""
    rest = evaluated.bytes
    head = re.match(rb"P([56])\n(\d+) (\d+)\n(\d+)\n", rest)
    if head:
        width = (3 if head[1] == b"6" else 1) * (1 if int(head[4]) < 256 else 2)
        length = int(head[2]) * int(head[3]) * width
        if len(rest) < head.end() + length:
            return False
        rest = rest[head.end() + length :]
    names = re.findall(rb"^stage \d+ accum (\w+) ", checked.bytes, re.M)
    lines = rest.split(b"\n")
    return len(lines) == len(names) + 1 and not lines[-1] and all(is_total(*it) for it in zip(names, lines))


def is_total(name: bytes, line: bytes) -> bool:
    found = re.fullmatch(rb"(\w+) (-?\d+)\.\.(-?\d+):((?: -?\d+)+)", line)
    return bool(found) and found[1] == name and len(found[4].split()) == int(found[3]) - int(found[2]) + 1


def another_spelling(program: Program, case: Case, tokens: list[str], taken: Picture, random: Random) -> None:
    """Gaps, comments and leading zeros change neither the identity nor the result."""
    other = Case(spelled_otherwise(tokens, random), case.picture, case.words)
    for command in ("check", "eval"):
        first, second = (program.call(it.stdin, command, *it.words) for it in (case, other))
        if not re.match(rb"program: ", first.bytes):
            demand(first == second, f"{command} of another spelling of the text: {second.shown()} in place of {first.shown()}")


def mutated(program: Program, case: Case, random: Random) -> None:
    """A text or a picture with a few bytes changed, cut, repeated or moved is refused by all commands in the same words, or by none."""
    parts = [case.text, case.picture]
    which = random.random() < 0.4
    part = bytearray(parts[which])
    for _ in range(random.choice([1, 1, 1, 2, 5])):
        at, to = sorted(random.choices(range(len(part) + 1), k=2))
        choice = random.randrange(5)
        if choice == 0 and part:
            part[at % len(part)] = random.randrange(256)
        elif choice == 1:
            part[at : at + random.randint(1, 4)] = b""
        elif choice == 2:
            part[at:at] = random.choice([b" ", b"#", b"(", b")", b"9", b"0", b";", b"max", b"\n", b"%%\n", b"\xff", b"-"])
        elif choice == 3:
            del part[to:]
        else:
            part[at:at] = part[at : min(to, at + 40)]
    parts[which] = bytes(part)
    agreeing(program, Case(*parts, case.words))
