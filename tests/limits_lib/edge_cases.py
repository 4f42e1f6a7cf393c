"""Edge cases beside the limits: words, scripts, fact files, scratch memory, farms that lose all, and each prefix of a text."""
from reference.facts import Fact, file_of, merged
from reference.texts import TOKEN, canonical, tokens_of

from .jobs import EMPTY, Check, Job, Oracle, line
from .limits import COPY, ONE, at_point

PICTURE, COPIED = b"P2\n2 2\n255\n1 2\n3 4\n", (0, b"P5\n2 2\n255\n\1\2\3\4")
USAGE = line("usage: tilefarm COMMAND [OPTIONS] [NAME=VALUE]...", 1)


def worlds(nodes: int, done: int = 0, refused: int = 0) -> tuple[int, bytes]:
    """The answer of `world` where no node holds anything."""
    return 0, f"done {done} refused {refused}\n{''.join(f'node {it} {EMPTY}{chr(10)}' for it in range(nodes))}".encode()


# ---- words

# which commands have an option, values that it may have, and values that are past them
OPTIONS = {
    "--rows": (("eval", "run", "world"), ("1", "1024", "0001024"), ("0", "1025", "-1", "", "1.")),
    "--cols": (("eval", "run", "world"), ("1", "1024", "0001024"), ("0", "1025", "-1", "", "1.")),
    "--percent": (("eval", "run", "world"), ("0", "10000"), ("10001", "-1", "4294967296")),
    "--nodes": (("run",), ("1", "8"), ("0", "9", "256")),
    "--turns": (("run",), ("0", "65536"), ("65537", "-1")),
    "--capacity": (("run",), ("1", "1024"), ("0", "1025")),
    "--lose": (("run",), ("0", "1", "4294967295"), ("4294967296", "-1")),
    "--repeat": (("run",), ("0", "1", "4294967295"), ("4294967296", "-1")),
    "--restart": (("run",), ("0", "1", "4294967295"), ("4294967296", "-1")),
}


def words() -> list[Check]:
    job, found = Job(COPY, PICTURE), []
    for option, (commands, good, past) in OPTIONS.items():
        for command in commands:
            stdin, told = (job.joined(b""), worlds(2)) if command == "world" else (job.joined(), COPIED)
            more = ("--turns", "9") if command == "run" and option != "--turns" else ()
            answers = [*((it, told) for it in good), *((it, USAGE) for it in past)]
            found += [Check(f"{command} {option} {it!r}", (command, option, it, *more), stdin, answer) for it, answer in answers]
    for nodes in (1, 16):
        found.append(Check(f"world --nodes {nodes}", ("world", "--nodes", str(nodes)), job.joined(b""), worlds(nodes)))
    for nodes in (0, 17):
        found.append(Check(f"world --nodes {nodes}", ("world", "--nodes", str(nodes)), job.joined(b""), USAGE))
    given = Job("param N;" + at_point("N>>16"), ONE)
    for value in ("2147483647", "-2147483648", "00002147483647", "-0"):
        found.append(Check(f"N={value}", ("eval", f"N={value}"), given.joined(), (0, Oracle(given._replace(words=(f"N={value}",))).result())))
    for value in ("2147483648", "-2147483649", "", "-", "+1", "1 "):
        found.append(Check(f"N={value}", ("eval", f"N={value}"), given.joined(), USAGE))
    return found


# ---- scripts


def scripts() -> list[Check]:
    most, job = 65_536, Job(COPY, PICTURE)
    told = [
        (b"keep 0\n" * most, worlds(2, most)),
        (b"keep 0\n" * most + b"\n# none\n", worlds(2, most)),
        (b"keep 0\n" * (most + 1), line("script: 3 TooManyEvents", 2)),
        (b"keep 0\n" * most + b"#\nno event\n", line("script: 3 TooManyEvents", 2)),
        (b"no event\n" + b"keep 0\n" * (most + 1), line("script: 1 BadLine at 1", 2)),
        (b"retire 0 0\n" * most, worlds(2, most)),
    ]
    bad, refused, no_job = line("script: 1 BadLine at 1", 2), worlds(2, 1, 1), line("script: 2 NoSuchJob at 1", 2)
    greatest = {255: (b"keep %d", b"restart %d", b"merge 0 %d", b"merge %d 0", b"deliver %d 0", b"retire %d 0"), 65535: (b"make 0 0:%d:0:0",),
                2**32 - 1: (b"make 0 0:1:%d:0", b"make 0 0:1:0:%d", b"deliver 0 %d")}
    for at, forms in greatest.items():
        told += [(form % it, answer) for form in forms for it, answer in ((at, refused), (at + 1, bad))]
    for form in (b"make 0 %d:1:0:0", b"retire 0 %d", b"retire 255 %d"):
        told += [(form % it, answer) for it, answer in ((1, no_job), (2**32 - 1, no_job), (2**32, bad))]
    return [Check(f"a script of {len(text)} bytes, {text[:20]!r}", ("world",), job.joined(text), answer) for text, answer in told]


# ---- facts


def facts() -> list[Check]:
    """Facts with as many numbers as there may be, and one more; kinds; and retired jobs."""
    found, foreign = [], Fact(b"p" * 32, b"i" * 32, 65535, 2**32 - 1, 2**32 - 1, 0, ())
    for kind, most in ((0, 1_048_576), (1, 4_096)):
        at = file_of([foreign._replace(kind=kind, numbers=(-1,) * most)])
        past = file_of([foreign._replace(kind=kind, numbers=(-1,) * (most + 1))])
        found.append((f"{most} numbers", at, (0, at.hex().encode() + b"\n")))
        found.append((f"{most + 1} numbers", past, line("facts: line 1 5 TooLong at 83", 2)))
    one = file_of([foreign])
    past = one[:82] + b"\2" + one[83:]
    found += [("kind 2", past, line("facts: line 1 4 BadKind at 82", 2)), ("no facts", file_of([]), (0, EMPTY.encode() + b"\n"))]
    found += retired(foreign)
    return [Check(f"merge of a file, {name}", ("merge",), data.hex().encode(), answer) for name, data, answer in found]


def retired(fact: Fact) -> list[tuple[str, bytes, tuple[int, bytes]]]:
    """Files that retire jobs: one, none, the same one twice, and that of a fact which the file has; and such files that are cut."""
    def fault(name: str, at: int) -> tuple[int, bytes]:
        return line(f"facts: line 1 {name} at {at}", 2)

    before, own, behind = (fact.program, b"h" * 32), fact.ids(), (fact.program, b"j" * 32)
    one, whole = file_of([], [own]), file_of([fact], [before, behind])
    found = [("one retired job", one, (0, one.hex().encode() + b"\n")), ("jobs beside that of a fact", whole, (0, whole.hex().encode() + b"\n"))]
    found += [(f"{end} bytes of one that retires a job", one[:end], fault("2 Cut", end)) for end in (3, 4, 7, 8, 71, 72, 75)]
    return found + [
        ("no retired job", b"PTF2" + bytes(8), fault("9 NothingRetired", 4)),
        ("no retired job, cut in their count", b"PTF2" + bytes(3), fault("2 Cut", 7)),
        ("another version", b"PTF3" + bytes(4), fault("1 BadMagic", 3)),
        ("a job twice", one[:7] + b"\2" + one[8:72] + one[8:], fault("3 NotRising", 72)),
        ("jobs that fall", file_of([], [before, own])[:8] + b"".join(own + before) + bytes(4), fault("3 NotRising", 72)),
        ("the job of a fact", file_of([fact], [own]), fault("8 RetiredFact", 76)),
        ("the job of a fact that falls", file_of([fact._replace(input=b"j" * 32), fact], [own]), fault("3 NotRising", 155)),
        ("the job of a fact, and a byte behind", file_of([fact], [own]) + b"\0", fault("8 RetiredFact", 76)),
        ("the job of a fact that is cut", file_of([fact], [own])[:-1], fault("2 Cut", 154)),
        ("a byte behind", one + b"\0", fault("6 TrailingBytes", 76)),
    ]


def verdicts() -> list[Check]:
    """A fact that is true, one that is false, one of no shape and one of another job, in one file and in four."""
    job, found = Job(COPY, PICTURE), []
    ids = [bytes.fromhex(it.split()[1].decode()) for it in Oracle(job).checked().splitlines()[:2]]
    true = Fact(*ids, 1, 0, 0, 0, (1, 2, 3, 4))
    false = true._replace(numbers=(1, 2, 3, 5))
    for shapeless in (true._replace(numbers=(1, 2, 3)), true._replace(row=1), true._replace(stage=0), true._replace(kind=1)):
        for foreign in (true._replace(program=b"\xff" * 32), true._replace(input=bytes(32))):
            names = {true: "True", false: "False", shapeless: "Misshapen", foreign: "Foreign"}
            rising = sorted(names)
            told = 6, "".join(f"{names[it]} {it.stage} {it.row} {it.col}\n" for it in rising).encode()
            whole = file_of(rising).hex().encode()
            parts = b"\n".join(file_of([it]).hex().encode() for it in reversed(rising))
            for text in (whole, parts):
                name = f"{' '.join(names[it] for it in rising)} in {text.count(bytes([10])) + 1} files"
                found.append(Check(f"audit of {name}", ("audit",), job.joined(text), told))
                found.append(Check(f"merge of {name}", ("merge",), text, (0, whole + b"\n")))
                assert merged(text) == (0, whole + b"\n")
            found += retirements(job, names, rising)
    return found


def retirements(job: Job, names: dict[Fact, str], rising: list[Fact]) -> list[Check]:
    """Facts of two jobs, one of which is retired, in a file behind theirs and in one before: its facts are not judged."""
    found, whole = [], file_of(rising).hex().encode()
    for ids in sorted({it.ids() for it in rising}):
        left = [it for it in rising if it.ids() != ids]
        told = "".join(f"{names[it]} {it.stage} {it.row} {it.col}\n" for it in left) + f"Retired {ids[0].hex()} {ids[1].hex()}\n"
        answer = 6 if "False" in map(names.get, left) else 0, told.encode()
        last = file_of([], [ids]).hex().encode()
        for text in (whole + b"\n" + last, last + b"\n" + whole):
            found.append(Check(f"audit where {' '.join(map(names.get, left))} are left", ("audit",), job.joined(text), answer))
            found.append(Check("merge of facts and a retired job", ("merge",), text, (0, file_of(left, [ids]).hex().encode() + b"\n")))
    return found


# ---- scratch memory

SCRATCH = ("image I(1,1); func a(x in [0..8192], y in [0..8192]) { else : 1; } "
           "func b(x in [0..1023], y in [0..1023]) { else : a(8*x, 8*y) + a(8*x+%d, 8*y+%d); } output b max 255;")


def scratch() -> list[Check]:
    """A function that is read in as many points as a tile has room for, and in one row and column more: it is not inlined then."""
    found, evaluated = [], (0, b"P5\n1024 1024\n255\n" + b"\2" * 1024**2)
    for reach, planned in ((7, b"inlined a\nstored b cost 68157440\n"), (8, b"stored a cost 67125249\nstored b cost 1048576\n")):
        stdin = Job(SCRATCH % (reach, reach), ONE).joined()
        for command, answer in (("plan", (0, planned)), ("eval", evaluated)):
            found.append(Check(f"{command} of reads {reach} further", (command, "--rows", "1024", "--cols", "1024"), stdin, answer))
    return found


# ---- farms

HALVED = Job("image I(4,4); func f(x in [0..1], y in [0..1]) { else : I(2*x, 2*y); } "
             "func g(x in [0..3], y in [0..3]) { else : f(x/2, y/2); } output g max 255;", b"P5 4 4 255\n" + bytes(range(16)))
WRITTEN = 0, b"P5\n4 4\n255\n" + bytes([0, 0, 2, 2] * 2 + [8, 8, 10, 10] * 2)


def farms() -> list[Check]:
    """Farms of three nodes that have room for one parcel, and lose, repeat and restart, each alone and together."""
    faults = [("--lose", "1"), ("--repeat", "1")]
    restarts = [("--restart", str(it)) for it in range(1, 21)]
    some = [(), faults[0], faults[1], faults[0] + faults[1]]
    tried = [*some, *(it + restart for it in some for restart in restarts)]
    usual = ("run", "--rows", "1", "--cols", "1", "--nodes", "3", "--capacity", "1", "--turns", "50")
    return [Check(" ".join(("run", *it)), usual + it, HALVED.joined(), WRITTEN) for it in tried]


# ---- prefixes

TEXT = ("image I(02, 2) ; # c\noutput f max 255; func f(x in [0 .. 1], y in [0 .. 1]) { else : (I(1*x, y) + (1)) * 2 ; }")


def cut(length: int) -> tuple[int, bytes]:
    """The refusal of so long a prefix, with LF behind it."""
    spans = [it.span(1) for it in TOKEN.finditer(TEXT) if it[1] and it.start(1) < length]
    begun, end = spans[-1] if spans else (0, 0)
    token = TEXT[begun:end]
    if end > length and token == "..":
        return line(f"program: 2 BadToken at {begun}")
    if end > length and token.isalpha():
        return line(f"program: 3 Unexpected at {begun}")
    ended = TEXT[:end].count(";") if token == ";" else 0
    return {1: line("check: 6 NoResult"), 2: line("check: 1 Unknown item 1")}.get(ended, line(f"program: 3 Unexpected at {length + 1}"))


def prefixes() -> list[Check]:
    """Each prefix of a text. Those that are programs are refused for what they lack, and so are their canonical texts."""
    found, whole = [], Job(TEXT, PICTURE)
    for length in range(len(TEXT)):
        answer = cut(length)
        texts = [TEXT[:length]] + ([canonical(tokens_of(TEXT[:length].encode())).decode()] if answer[1].startswith(b"check") else [])
        found += [Check(f"a text cut at {length}", ("check",), Job(it, PICTURE).joined(), answer) for it in texts]
    told = Oracle(whole).answers()[1]
    for text in (TEXT, canonical(tokens_of(TEXT.encode())).decode()):
        found.append(Check("the text whole", ("check",), Job(text, PICTURE).joined(), told))
    return found


def checks() -> dict[str, list[Check]]:
    every = (words, scripts, facts, verdicts, scratch, farms, prefixes)
    return {it.__name__: it() for it in every}
