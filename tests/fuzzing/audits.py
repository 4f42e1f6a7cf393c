"""What `merge` and `audit` must answer to random facts, which are true, false, of no shape or of another job, in random files, some of which
retire jobs."""
import re
from random import Random
from typing import Iterable

from reference.facts import Content, Fact, Ids, content_of, joined, merged, mixed
from reference.values import Meaning, Point
from reference.words import wrapped

from .answers import Answer, Program, demand

SEPARATOR = b"%%\n"
LAST = 2**32 - 1


class Judge:
    """Knows what is true of the tiles of a job."""

    def __init__(self, meaning: Meaning, sides: Point, checked: Answer):
        self.meaning, self.sides = meaning, sides
        program, given = re.findall(rb"^(?:program|input) ([0-9a-f]{64})$", checked.bytes, re.M)
        self.identities = bytes.fromhex(program.decode()), bytes.fromhex(given.decode())

    def truth(self, stage: int, row: int, col: int) -> Fact | None:
        """The true fact of a tile, if there is such a tile."""
        found = self.meaning.stages[stage] if stage < len(self.meaning.stages) else None
        tile = found.domain.tile(row, col, self.sides) if found and found.kind != "plane" else None
        return tile and Fact(*self.identities, stage, row, col, int(found.kind == "accum"), found.numbers(tile))

    def verdict(self, fact: Fact) -> str:
        if fact.ids() != self.identities:
            return "Foreign"
        true = self.truth(*fact[2:5])
        if not true or fact.kind != true.kind or len(fact.numbers) != len(true.numbers):
            return "Misshapen"
        return "True" if fact == true else "False"

    def answer(self, content: Content) -> Answer:
        """What `audit` must answer to this."""
        verdicts = [self.verdict(it) for it in content.facts]
        lines = [f"{verdict} {it.stage} {it.row} {it.col}\n" for verdict, it in zip(verdicts, content.facts)]
        lines += [f"Retired {program.hex()} {given.hex()}\n" for program, given in content.retired]
        return Answer(6 if "False" in verdicts else 0, "".join(lines).encode())

    def some_facts(self, random: Random) -> list[Fact]:
        """True facts of a few tiles, and what random changes make of some of them, in order."""
        numbers = [it for it, stage in enumerate(self.meaning.stages) if stage.kind != "plane"]
        found = []
        for _ in range(random.randint(0, 5)):
            stage = random.choice(numbers)
            true = self.truth(stage, *random.choice(self.meaning.stages[stage].domain.tiles(self.sides)))
            found += [true] * (random.random() < 0.8) + [changed(true, random) for _ in range(random.choice([0, 0, 1, 2]))]
        return sorted(set(found))

    def some_jobs(self, facts: list[Fact], random: Random) -> set[Ids]:
        """Jobs to retire, most often none: this one, those of facts, and others."""
        known = [self.identities, *(it.ids() for it in facts), some_ids([random.randbytes(32)], random)]
        return set(random.choices(known, k=random.choice([0, 0, 0, 1, 2])))


def changed(fact: Fact, random: Random) -> Fact:
    """A fact with something of it changed."""
    choice, some = random.randrange(9), list(fact.numbers)
    if choice <= 2:
        some[random.randrange(len(some))] += random.choice([1, -1]) if max(map(abs, some)) < 2**31 - 1 else 0
    elif choice == 3:
        some.pop()
    elif choice == 4:
        some.append(0)
    elif choice == 5:
        return fact._replace(kind=1 - fact.kind, numbers=tuple(map(wrapped, some)))
    elif choice == 6:
        return fact._replace(**{random.choice(["row", "col"]): random.choice([0, 1, 2, LAST])})
    elif choice == 7:
        return fact._replace(stage=random.choice([0, 1, 2, 3, 64, 65535]))
    else:
        name = random.choice(["program", "input"])
        return fact._replace(**{name: bytes([getattr(fact, name)[0] ^ 1]) + getattr(fact, name)[1:]})
    return fact._replace(numbers=tuple(some))


def audited(program: Program, text: bytes, picture: bytes, words: tuple[str, ...], meaning: Meaning, random: Random) -> None:
    """Facts of a job are judged as they are, in whatever files they stand."""
    sides = random.choice([1, 2, 3, 5, 64]), random.choice([1, 2, 4, 7, 64])
    words = ("--rows", str(sides[0]), "--cols", str(sides[1]), *words)
    judge = Judge(meaning, sides, program.call(text + SEPARATOR + picture, "check", *words))
    facts = judge.some_facts(random)
    files = text_of(split(facts, random, judge.some_jobs(facts, random)), random)
    files += b"" if files.endswith(b"\n") else b"\n"
    merging(program, files)
    wanted, more = judge.answer(content_of(files)), random.choice([(), ("--stored",), ("--percent", "300")])
    answer = program.call(text + SEPARATOR + files + SEPARATOR + picture, "audit", *words, *more)
    demand(answer == wanted, f"audit: {answer.shown()} in place of {wanted.shown()}")
    bad = mutated(files, random)
    if b"%%" not in bad:
        status, line = merged(bad)
        wanted = Answer(status, line) if status else judge.answer(content_of(bad))
        answer = program.call(text + SEPARATOR + bad + b"\n" + SEPARATOR + picture, "audit", *words)
        demand(answer == wanted, f"audit of mutated files: {answer.shown()} in place of {wanted.shown()}")


def merging(program: Program, text: bytes) -> None:
    """Files are merged into one that holds what they hold together, or refused by the first fault."""
    answer, wanted = program.call(text, "merge"), Answer(*merged(text))
    demand(answer == wanted, f"merge: {answer.shown()} in place of {wanted.shown()}")


def merged_at_random(program: Program, random: Random) -> None:
    """Facts of no job in random files, some of which retire their jobs, and mutations of these."""
    ids = [bytes(32), bytes(31) + b"\1", random.randbytes(32)]
    facts = [some_fact(ids, random) for _ in range(random.randint(0, 6))]
    retired = {some_ids(ids, random) for _ in range(random.choice([0, 0, 1, 1, 2, 3, 9]))}
    text = text_of(split(sorted(set(facts)), random, retired), random)
    merging(program, text)
    merging(program, mutated(text, random))


def some_fact(ids: list[bytes], random: Random) -> Fact:
    kind = random.randrange(2)
    most = 2 ** (63 if kind else 31)
    numbers = tuple(random.choice([0, 1, -1, most - 1, -most, random.randrange(-most, most)]) for _ in range(random.choice([0, 1, 2, 3])))
    place = [random.choice([0, 0, 1, LAST]) for _ in range(2)]
    return Fact(*some_ids(ids, random), random.choice([0, 1, 65535]), *place, kind, numbers)


def some_ids(ids: list[bytes], random: Random) -> Ids:
    return random.choice(ids), random.choice(ids)


def split(facts: list[Fact], random: Random, retired: Iterable[Ids] = ()) -> list[Content]:
    """The facts in files: in each a random part of them, in some of these all that the others have, and each fact in one at least. Each job
    that is retired is so in one at least too, which has no fact of it: so some facts may be in none."""
    files = [[it for it in facts if random.random() < 0.5] for _ in range(random.randint(0, 3))]
    last = [it for it in facts if random.random() < 0.3 or not any(it in file for file in files)]
    files.append(last)
    random.shuffle(files)
    jobs: list[set[Ids]] = [set() for _ in files]
    for ids in retired:
        for at in random.choices(range(len(files)), k=2):
            jobs[at].add(ids)
    return [joined([Content(sorted(ids), it)]) for ids, it in zip(jobs, files)]


def text_of(files: list[Content], random: Random) -> bytes:
    """A text of these files in random letters and with empty lines."""
    lines = []
    for content in files:
        digits = content.file().hex()
        lines += [""] * random.choice([0, 0, 0, 1, 2]) + [random.choice([str, str.upper, mixed])(digits)]
    return "\n".join(lines).encode() + random.choice([b"", b"\n", b"\n", b"\n\n"])


def mutated(text: bytes, random: Random) -> bytes:
    """The text with a byte or two changed, cut, repeated or put in."""
    part = bytearray(text)
    for _ in range(random.choice([1, 1, 2])):
        at, to = sorted(random.choices(range(len(part) + 1), k=2))
        choice = random.randrange(5)
        if choice == 0 and part:
            part[at % len(part)] = random.choice(b"0123456789abcdefABCDEF")
        elif choice == 1 and part:
            part[at % len(part)] = random.choice([0, 10, 13, 32, 37, 47, 58, 64, 71, 96, 103, 255])
        elif choice == 2:
            del part[at : at + random.choice([1, 2, 8])]
        elif choice == 3:
            del part[to:]
        else:
            part[at:at] = part[at : min(to, at + 158)]
    return bytes(part)
