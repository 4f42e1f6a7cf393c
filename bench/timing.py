"""Runs tilefarm and the C programs on the same pictures as whole processes, in turn, and compares what they write."""
import argparse
import functools
import glob
import math
import os
import random
import resource
import statistics
import subprocess
import sys
import tempfile
import time
from typing import NamedTuple

TOP = os.path.dirname(os.path.dirname(os.path.abspath(__file__)))
PROGRAM = f"{TOP}/crates/tilefarm/out/tilefarm"
# Where files are in memory, if the system has a place for that.
MEMORY = "/dev/shm" if os.path.isdir("/dev/shm") else tempfile.gettempdir()


class Pipeline(NamedTuple):
    """The kind of picture that a program takes, and the lines of its tables. Its parameters, if the picture does not give them, are a part
    of the picture's sides. A side whose parameter the picture gives has no name."""

    kind: str = "grey"
    part: int = 1
    names: tuple = ()
    tables: bytes = b""


class Suite(NamedTuple):
    """Pipelines by name, where their texts are, and the same pipelines in C, if there are any."""

    pipelines: dict
    texts: str
    sources: str = ""

    def text(self, name):
        return content(f"{TOP}/{self.texts.format(name)}")

    def names(self):
        """The pipelines that are timed where none is named."""
        return [it for it in self.pipelines if it not in OTHERS]


# The curve of the program in C.
CURVE = f"tone 0..255: {' '.join(str(v * v // 250 - 3) for v in range(256))}\n".encode()
FIFTEEN = Suite({
    "copy": Pipeline(), "grey": Pipeline("colour"), "blur": Pipeline(), "unsharp": Pipeline("colour"), "sobel": Pipeline(),
    "harris": Pipeline(), "median": Pipeline(), "conv15": Pipeline(), "bilateral": Pipeline(),
    "pyramid": Pipeline("grey", 16, ("H", "W")), "blend": Pipeline("colour", 8, ("H", "W")),
    "interpolate": Pipeline("sparse", 16, ("H", "W")), "camera": Pipeline("raw"), "histogram": Pipeline(), "minmax": Pipeline(),
}, "bench/pipelines/{0}.pipe", "bench/c/*.c")
# Those that are timed where they are named.
OTHERS = {"tone": Pipeline(tables=CURVE)}
FIFTEEN.pipelines.update(OTHERS)
EXAMPLES = Suite({
    "copy": Pipeline(), "blur": Pipeline(), "half": Pipeline("grey", 2, ("R", "C")), "sobel": Pipeline(), "unsharp": Pipeline(),
    "harris": Pipeline(), "histogram": Pipeline(),
}, "examples/{0}/{0}.pipe", "bench/pipelines.c")
# 65,536 divided by the number of points that are within a threshold.
RECIPROCALS = f"recip 1..25: {' '.join(str(round(65536 / v)) for v in range(1, 26))}\n".encode()
# Those that nobody tuned the program for.
UNTUNED = Suite({
    "bayer": Pipeline(), "box7": Pipeline(), "canny": Pipeline(), "census": Pipeline(), "closing": Pipeline(), "dct4": Pipeline("grey", 4),
    "dct4q": Pipeline("grey", 4, ("", "Q")), "diffuse6": Pipeline(), "dog": Pipeline(), "down3": Pipeline("grey", 3, ("H", "W")),
    "down4": Pipeline("colour", 4, ("H", "W")), "emboss": Pipeline("colour"), "gauss5": Pipeline(), "local15": Pipeline(), "log5": Pipeline(),
    "morphgrad": Pipeline(), "scharr": Pipeline(), "sigma5": Pipeline(), "sigma5t": Pipeline(tables=RECIPROCALS), "tone3": Pipeline("colour"),
    "unsharp5": Pipeline(), "variance5": Pipeline(), "wbccm": Pipeline("colour"),
}, "bench/untuned/{0}.pipe")


def content(path):
    with open(path, "rb") as file:
        return file.read()


def picture(kind, rows, cols):
    """A random raw picture: 'grey' and 'colour' have bytes, 'raw' has ten bits, and in 'sparse' blue is 0 but at each 16th point of the
    lower half."""
    area, chance = rows * cols, random.Random(1)
    if kind == "grey":
        return f"P5\n{cols} {rows}\n255\n".encode() + chance.randbytes(area)
    if kind == "raw":
        words = bytearray(chance.randbytes(2 * area))
        words[0::2] = words[0::2].translate(bytes(high & 3 for high in range(256)))
        return f"P5\n{cols} {rows}\n1023\n".encode() + words
    colours = bytearray(chance.randbytes(3 * area))
    if kind == "sparse":
        blue, places = bytearray(area), range(area // 2, area, 16)
        blue[places.start::16] = chance.randbytes(len(places))
        colours[2::3] = blue
    return f"P6\n{cols} {rows}\n255\n".encode() + colours


class Command:
    """A program with its words, the file that it reads and the file that it writes."""

    def __init__(self, words, source, result):
        self.words, self.source, self.result = words, source, result

    def run(self, before=()):
        with open(self.source, "rb") as stdin, open(self.result, "wb") as stdout:
            status = subprocess.run([*before, *self.words], stdin=stdin, stdout=stdout).returncode
        if status != 0:
            sys.exit(f"{' '.join(self.words)}: status {status}")

    def milliseconds(self):
        """The time of one run: start, input, work, output. To free an old result takes time too, so that is done before."""
        if os.path.exists(self.result):
            os.remove(self.result)
        start = time.perf_counter()
        self.run()
        return (time.perf_counter() - start) * 1000

    def megabytes(self):
        """The greatest resident set of one run, as GNU time tells."""
        note = f"{self.result}.memory"
        self.run(("/usr/bin/time", "-f", "%M", "-o", note))
        return int(content(note).split()[-1]) * 1024 / 1e6


class OnProcessor(Command):
    """A command that is timed by what it takes of the processor."""

    def milliseconds(self):
        before = resource.getrusage(resource.RUSAGE_CHILDREN)
        self.run()
        after = resource.getrusage(resource.RUSAGE_CHILDREN)
        return 1000 * (after.ru_utime + after.ru_stime - before.ru_utime - before.ru_stime)


def compiled(made, known, *flags):
    """The C programs of a suite as one program, by flags beside those that the command line names."""
    if not known.suite.sources:
        sys.exit("of these pipelines there is no C")
    sources = sorted(glob.glob(f"{TOP}/{known.suite.sources}"))
    kept = ["-DNUMBERS"] * known.numbers
    subprocess.run(["gcc", "-O3", f"-march={known.march}", *kept, *flags, "-o", made, *sources], check=True)
    return made


class Bench:
    """A folder with random pictures of so many rows and columns."""

    def __init__(self, room, known, rows, cols):
        self.room, self.known, self.suite, self.program, self.rows, self.cols = room, known, known.suite, known.program, rows, cols
        self.held = None

    @functools.cached_property
    def native(self):
        """The C program, which is built where it is first wanted, unless another one is named."""
        return self.known.c or compiled(f"{self.room}/pipelines", self.known)

    def sides(self, name):
        """The rows and columns of a pipeline's picture, of which its parameters are a whole part."""
        part = self.suite.pipelines[name].part
        return self.rows // part * part, self.cols // part * part

    def picture(self, name):
        kind, (rows, cols) = self.suite.pipelines[name].kind, self.sides(name)
        path = f"{self.room}/{kind}.{rows}.{cols}"
        if not os.path.exists(path):
            with open(path, "wb") as file:
                file.write(picture(kind, rows, cols))
        return path

    def c(self, name):
        return Command([self.native, name], self.picture(name), f"{self.room}/c.result")

    def parameters(self, name):
        """The values of parameters that the picture does not give."""
        pipeline = self.suite.pipelines[name]
        return [f"{word}={side // pipeline.part}" for word, side in zip(pipeline.names, self.sides(name)) if word]

    def tilefarm(self, name, options):
        source = f"{self.room}/tilefarm.input"
        if self.held != name:
            with open(source, "wb") as file:
                file.write(self.suite.text(name) + b"%%\n" + self.suite.pipelines[name].tables + content(self.picture(name)))
            self.held = name
        return Command([self.program, "eval", *options, *self.parameters(name)], source, f"{self.room}/tilefarm.result")


def times(commands, rounds, seconds=math.inf):
    """The milliseconds of each command in each round, all run in turn; each must write what the first writes. One that has taken so many
    seconds in two rounds or more is left out of the others."""
    found, wanted = [[] for _ in commands], None
    for _ in range(rounds):
        for command, own in zip(commands, found):
            if len(own) > 1 and sum(own) > 1000 * seconds:
                continue
            own.append(command.milliseconds())
            written = content(command.result)
            wanted = wanted or written
            if written != wanted:
                sys.exit(f"{' '.join(command.words)} writes another result than {' '.join(commands[0].words)}")
    return found


def medians(commands, rounds):
    return [statistics.median(each) for each in times(commands, rounds)]


def rows_and_cols(word):
    """The sides of a picture, as 1024 or as 37x53."""
    rows, _, cols = word.partition("x")
    return int(rows), int(cols or rows)


def arguments(usage):
    """The arguments that all scripts of the bench take."""
    words = argparse.ArgumentParser(usage=usage, allow_abbrev=False, add_help=False)
    words.add_argument("--rounds", type=int, default=7)
    words.add_argument("--side", type=rows_and_cols, nargs="+", default=[(1024, 1024)])
    words.add_argument("--examples", dest="suite", action="store_const", const=EXAMPLES)
    words.add_argument("--untuned", dest="suite", action="store_const", const=UNTUNED)
    words.set_defaults(suite=FIFTEEN)
    words.add_argument("--only", nargs="+", choices=sorted({*FIFTEEN.pipelines, *EXAMPLES.pipelines, *UNTUNED.pipelines}))
    words.add_argument("--program", type=os.path.abspath, default=PROGRAM)
    words.add_argument("--march", default="native")
    words.add_argument("--numbers", action="store_true")
    words.add_argument("--c", type=os.path.abspath)
    return words


def parsed(words):
    """What the command line says, and its other words, which go to tilefarm."""
    known, options = words.parse_known_args()
    known.only = known.only or known.suite.names()
    if unknown := {*known.only}.difference(known.suite.pipelines):
        sys.exit(f"no pipeline of these has the name {', '.join(sorted(unknown))}")
    if not os.path.exists(known.program):
        sys.exit(f"{known.program} is not there: 'make build' builds it")
    return known, options


def benches(known):
    """A bench for each size of picture, in memory where the system has a place for files there, behind words for the size."""
    for rows, cols in known.side:
        with tempfile.TemporaryDirectory(dir=MEMORY) as room:
            yield f"{rows} by {cols}", Bench(room, known, rows, cols)
