"""Each limit of texts, pictures, domains and tiles: a job at its value, and one that is one past it, with the refusal."""
from typing import Iterator, NamedTuple

from reference.words import CALLS

from .jobs import Check, Job, line

ONE = b"P2\n1 1\n255\n7\n"
COPY = "param R;param C;image I(R,C);func f(x in[0..R-1],y in[0..C-1]){else:I(x,y);}output f max 255;"
COPIES = "param R;param C;image a,b,c(R,C);output u,v,w max 255;" + "".join(
    f"func {name}(x in[0..R-1],y in[0..C-1]){{else:{plane}(x,y);}}" for name, plane in ("ua", "vb", "wc")
)


class Limit(NamedTuple):
    name: str
    at: Job
    past: Job
    refusal: tuple[int, bytes]

    def checks(self) -> list[Check]:
        return self.at.checks(f"{self.name}, at it") + self.past.checks(f"{self.name}, past it", self.refusal)


def pictures() -> Iterator[Limit]:
    for magic, text in (("P2", COPY), ("P3", COPIES), ("P5", COPY), ("P6", COPIES)):
        sample = b"\7" if magic in ("P5", "P6") else b"7 "
        for at, past in ((4096, 4097), (1, 0)):
            raster = at * (3 if text is COPIES else 1) * sample
            for side, offset, form in (("width", 3, f"{magic} %d 1 255\n"), ("height", 5, f"{magic} 1 %d 255\n")):
                jobs = [Job(text, (form % it).encode() + raster) for it in (at, past)]
                yield Limit(f"{magic}, {side} {at}", *jobs, line(f"picture: 4 BadSize at {offset}", 2))
    for at, past, raster in ((65535, 65536, b"\1\2"), (1, 0, b"\1")):
        yield Limit(f"max {at}", *(Job(COPY, b"P5 1 1 %d\n" % it + raster) for it in (at, past)), line("picture: 5 BadMax at 7", 2))
    samples = ((b"P5 1 1 9\n", b"\t", b"\n"), (b"P5 1 1 256\n", b"\1\0", b"\1\1"), (b"P2 1 1 9 ", b"9", b"10"))
    for head, at, past in samples:
        yield Limit(f"sample {head!r}", Job(COPY, head + at), Job(COPY, head + past), line(f"picture: 8 SampleTooBig at {len(head)}", 2))


# ---- texts


def at_point(expression: str, most: int = 65535) -> str:
    return f"image I(1,1);func f(x in[0..0],y in[0..0]){{else:{expression};}}output f max {most};"


def in_text(name: str, at: str, past: str, fault: str, token: str, words: tuple[str, ...] = ()) -> Limit:
    """A limit of which the fault is at the last place of a token."""
    return Limit(name, Job(at, ONE, words), Job(past, ONE, words), line(f"program: {fault} at {past.rindex(token)}"))


def levels() -> Iterator[Limit]:
    """Each token that opens a level, as often as there may be levels."""
    calls = {f"{word}(": ",1" * (call.operands - 1) + ")" for word, call in CALLS.items()}
    kinds = {"-": "", "(": ")", **calls, "select(": ">=0,1,2)"}
    for opening, closing in kinds.items():
        at, past = (at_point(opening * it + "1" + closing * it) for it in (64, 65))
        yield in_text(f"64 levels of {opening}", at, past, "5 TooDeep", f"{opening}1")
    at, past = ("table t[0..1];" + at_point("t[" * it + "1" + "]" * it) for it in (64, 65))
    refusal = line(f"program: 5 TooDeep at {past.rindex('[1')}")
    yield Limit("64 levels of [", *(Job(it, b"t 0..1: 7 1\n" + ONE) for it in (at, past)), refusal)
    at, past = (at_point("-(" * 32 + it + "1" + ")" * 32) for it in ("", "-"))
    yield in_text("64 levels of two kinds", at, past, "5 TooDeep", "-1")


def function(name: str, body: str = "else:1;") -> str:
    return f"func {name}(x in[0..0],y in[0..0]){{{body}}}"


def accumulator(name: str) -> str:
    return f"accum {name}[0..1]over(x in[0..0],y in[0..0])sum 1 at 0;"


def counts() -> Iterator[Limit]:
    for planes, made, count in (("I", function, 63), ("a,b,c", function, 61), ("I", accumulator, 63)):
        texts = [f"image {planes}(1,1);" + "".join(made(f"s{it}") for it in range(each)) for each in (count, count + 1)]
        picture = ONE if planes == "I" else b"P3\n1 1\n255\n1 2 3\n"
        output = "output s0 max 9;" if made is function else ""
        jobs = [Job(it + output, picture) for it in texts]
        yield Limit(f"64 stages, {planes} {made.__name__}", *jobs, line(f"program: 7 TooMany at {texts[1].rindex(f's{count}')}"))
    at, past = ("".join(f"param p{it};" for it in range(each)) + at_point("p63+1") for each in (64, 65))
    yield in_text("64 parameters", at, past, "7 TooMany", "p64", tuple(f"p{it}={it}" for it in range(64)))
    for rest in ("", "else:9;"):
        at, past = ("image I(1,1);" + function("f", "case x>=1:2;" * it + rest) + "output f max 9;" for it in (16, 17))
        yield in_text(f"16 cases {rest}", at, past, "7 TooMany", "case")
    at, past = at_point("-1" + "+1" * 2047), at_point("1" + "+1" * 2048)
    yield in_text("4,096 nodes", at, past, "7 TooMany", "1;}")
    # (the deepest of all trees: each node is the operand of the next)
    for operator in ("/1", "%9", "<<0", ">>0"):
        at, past = at_point("7" + operator * 4095), at_point("7" + operator * 4096)
        yield in_text(f"4,096 nodes of {operator}", at, past, "7 TooMany", operator)
    at, past = ("image I(1,1);" + function("n" * it) + f"output {'n' * it} max 9;" for it in (32, 33))
    yield Limit("32 bytes of a name", Job(at, ONE), Job(past, ONE), line(f"program: 2 BadToken at {past.index('n' * 33)}"))
    yield in_text("the greatest number", at_point("2147483647"), at_point("2147483648"), "4 NumberTooBig", "2147483648")
    at, past = (at_point("1").ljust(it) for it in (65535, 65536))
    yield Limit("65,536 bytes of text", Job(at, ONE), Job(past, ONE), line("program: 6 TooLong at 65536"))


# ---- literals


def kernels() -> Iterator[Limit]:
    picture = b"P2\n17 17\n255\n" + b" ".join(b"%d" % (it * 7 % 251) for it in range(289)) + b"\n"

    def job(rows: int, cols: int) -> Job:
        kernel = ",".join(f"[{','.join(str(a * b % 5 + 1) for b in range(cols))}]" for a in range(rows))
        return Job(f"image I(17,17);func f(x in[8..8],y in[8..8]){{else:stencil(I,9,[{kernel}]);}}output f max 65535;", picture)

    sides = {(15, 15): ((17, 17), (16, 15), (15, 16)), (15, 1): ((17, 1),), (1, 15): ((1, 17),), (1, 1): ((2, 1), (1, 2))}
    for at, past in ((at, past) for at, each in sides.items() for past in each):
        yield Limit(f"a kernel of {at[0]} by {at[1]}, or {past[0]} by {past[1]}", job(*at), job(*past), line("check: 4 BadKernel item 1"))


def literals() -> Iterator[Limit]:
    """Numbers that may stand in an index, behind an operator, in a test, and behind an output."""
    far = "func g(x in[-4096..4096],y in[0..0]){else:5;}func h(x in[0..0],y in[-4096..4096]){else:6;}"
    pairs = [(f"I({a},y)", f"I({b},y)") for a, b in (("16*x", "17*x"), ("1*x", "0*x"), ("x/16", "x/17"), ("x/1", "x/0"))]
    pairs += [(f"I(x,{a})", f"I(x,{b})") for a, b in (("16*y", "17*y"), ("1*y", "0*y"), ("y/16", "y/17"), ("y/1", "y/0"))]
    pairs += [(f"g(x{sign}4096,y)", f"g(x{sign}4097,y)") for sign in "+-"] + [(f"h(x,y{sign}4096)", f"h(x,y{sign}4097)") for sign in "+-"]
    pairs += [("1<<31", "1<<32"), ("-1>>31", "-1>>32"), ("7/1", "7/0"), ("7%1", "7%0"), ("stencil(I,1,[[3]])", "stencil(I,0,[[3]])")]
    for at, past in pairs:
        yield Limit(at, Job(at_point(at) + far, ONE), Job(at_point(past) + far, ONE), line("check: 5 BadLiteral item 1"))
    for at, past in (("x%1==0", "x%0==0"), ("x%5==4", "x%5==5"), ("x%2147483647==2147483646", "x%2147483647==2147483647")):
        jobs = [Job("image I(1,1);" + function("f", f"case {it}:3;else:4;") + "output f max 9;", ONE) for it in (at, past)]
        yield Limit(at, *jobs, line("check: 5 BadLiteral item 1"))
    for at, past in ((65535, 65536), (1, 0)):
        jobs = [Job(at_point("99999", it), ONE) for it in (at, past)]
        yield Limit(f"output max {at}", *jobs, line("check: 5 BadLiteral item 2"))


# ---- domains


def over(rows: str, cols: str) -> Job:
    return Job(f"image I(1,1);func f(x in[{rows}],y in[{cols}]){{else:x-y;}}output f max 255;", ONE)


def gathered(bins: str, rows: str = "0..0", cols: str = "0..0") -> Job:
    return Job(f"image I(1,1);accum f[{bins}]over(x in[{rows}],y in[{cols}])sum 3 at x-y;", ONE)


def domains() -> Iterator[Limit]:
    ends = (("16384..16384", "16384..16385"), ("-16384..-16384", "-16385..-16384"))
    too_wide, empty = line("bounds: 3 DomainTooWide f"), line("bounds: 2 EmptyDomain f")
    for refusal, pairs in ((too_wide, ends), (empty, (("1..1", "1..0"),))):
        for at, past in pairs:
            yield Limit(f"rows {at}", over(at, "0..0"), over(past, "0..0"), refusal)
            yield Limit(f"columns {at}", over("0..0", at), over("0..0", past), refusal)
            yield Limit(f"bins {at}", gathered(at), gathered(past), refusal)
            yield Limit(f"rows gathered over {at}", gathered("0..1", at), gathered("0..1", past), refusal)
            yield Limit(f"columns gathered over {at}", gathered("0..1", "0..0", at), gathered("0..1", "0..0", past), refusal)
    for at, past in (("0..4095", "0..4096"), ("-16384..-12289", "-16384..-12288")):
        yield Limit(f"4,096 bins {at}", gathered(at), gathered(past), too_wide)
    for extents, head in (("N,1", b"P5 1 %d 255\n"), ("1,N", b"P5 %d 1 255\n")):
        for at, past, name in ((4096, 4097, "3 DomainTooWide"), (1, 0, "2 EmptyDomain")):
            text = at_point("I(x,y)").replace("image I(1,1)", f"param N;image I({extents})")
            jobs = [Job(text, head % at + bytes(at), (f"N={it}",)) for it in (at, past)]
            yield Limit(f"a picture of {extents}, N={at}", *jobs, line(f"bounds: {name} I"))


def looked_up(table: str, line: str, index: str = "I(x,y)") -> Job:
    """A program with one table, and the line that is handed in for it."""
    text = f"image I(1,1);table {table};func f(x in[0..0],y in[0..0]){{else:t[{index}];}}output f max 255;"
    return Job(text, line.encode() + b"\n" + ONE)


def tables() -> Iterator[Limit]:
    """How many tables there are, where their ends lie, how many entries they have, and of how many bits these are."""
    for low, high, past, name in ((0, 4095, (0, 4096), "7 TableTooWide"), (16384, 16384, (16384, 16385), "7 TableTooWide"),
                                  (-16384, -16384, (-16385, -16384), "7 TableTooWide"), (1, 1, (1, 0), "6 EmptyTable")):
        entries = " ".join(str(it % 251) for it in range(low, high + 1))
        at = looked_up(f"t[{low}..{high}]", f"t {low}..{high}: {entries}", "I(x,y)*600")
        yield Limit(f"a table of {low}..{high}", at, looked_up(f"t[{past[0]}..{past[1]}]", f"t {low}..{high}: {entries}"), line(f"bounds: {name} t"))
    bad = line("tables: line 1", 2)
    for at, past in ((2**63 - 1, 2**63), (-(2**63), -(2**63) - 1)):
        yield Limit(f"an entry {at}", *(looked_up("t[0..0]", f"t 0..0: {it}", "0") for it in (at, past)), bad)
    ends = (("t[16384..16384]", "t 16384..16384: 5", "t 16385..16385: 5"), ("t[-16384..-16384]", "t -16384..-16384: 5", "t -16385..-16385: 5"))
    for table, at, past in ends:
        yield Limit(f"a line {at}", looked_up(table, at), looked_up(table, past), bad)
    wide = looked_up("t[0..4095]", "t 0..4096: " + " ".join("1" * 4097))
    yield Limit("a line of 4,096 entries", looked_up("t[0..4095]", "t 0..4095: " + " ".join("1" * 4096)), wide, bad)
    texts = ["".join(f"table t{it}[0..0];" for it in range(count)) + at_point("t15[0]") for count in (16, 17)]
    given = b"".join(b"t%d 0..0: %d\n" % (it, it) for it in range(17))
    jobs = [Job(text, given[: given.index(b"t16")] + ONE) for text in texts]
    yield Limit("16 tables", *jobs, line(f"program: 7 TooMany at {texts[1].index('t16')}"))
    names = ["n" * it for it in (32, 33)]
    jobs = [Job(at_point(f"{names[0]}[0]") + f"table {names[0]}[0..0];", f"{it} 0..0: 7\n".encode() + ONE) for it in names]
    yield Limit("32 bytes of a table's name", *jobs, bad)


def reads() -> Iterator[Limit]:
    """Reads at the first and the last row and column of what they read."""
    picture = b"P2\n4 4\n255\n" + b" ".join(b"%d" % it for it in range(16)) + b"\n"

    def job(expression: str, rows: str, cols: str) -> Job:
        return Job(f"image I(4,4);func f(x in[{rows}],y in[{cols}]){{else:{expression};}}output f max 255;", picture)

    cross, rest = "stencil(I,1,[[0,1,0],[1,2,1],[0,1,0]])", "1..2"
    indices = (("v+1", "0..2", "0..3", 1, 4), ("v-1", "1..3", "0..3", -1, 2), ("2*v", "0..1", "0..2", 0, 4), ("v/2", "0..7", "0..8", 0, 4),
               ("(v-1)/2", "1..7", "0..7", -1, 3), (cross, "1..2", "0..2", -1, 3))
    for index, at, past, least, greatest in indices:
        for axis, form in (("rows", f"I({index.replace('v', 'x')},y)"), ("columns", f"I(x,{index.replace('v', 'y')})")):
            expression = cross if index == cross else form
            jobs = [job(expression, it, rest) if axis == "rows" else job(expression, rest, it) for it in (at, past)]
            told = f"bounds: 4 OutOfBounds f case 0 read 0 {axis} least {least} greatest {greatest}"
            yield Limit(f"{axis} {at} read at {index}", *jobs, line(told))


def bindings() -> Iterator[Limit]:
    shapes = line("bind: 4 OutputShapes")
    yield Limit("4,096 rows of an output", over("1..4096", "0..0"), over("0..4096", "0..0"), shapes)
    yield Limit("4,096 columns of an output", over("0..0", "1..4096"), over("0..0", "0..4096"), shapes)
    for made in (over, lambda rows, cols: gathered("-1..1", rows, cols)):
        for rows, cols in (("0..256", "0..255"), ("0..255", "0..256")):
            jobs = [made(*it)._replace(words=("--rows", "1", "--cols", "1")) for it in (("0..255", "0..255"), (rows, cols))]
            yield Limit(f"65,536 tiles, past it {rows} {cols}", *jobs, line("bind: 5 TooManyTiles f"))


def checks() -> list[Check]:
    every = (pictures, levels, counts, kernels, literals, domains, tables, reads, bindings)
    return [check for limits in every for limit in limits() for check in limit.checks()]
