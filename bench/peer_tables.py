"""The tables of bench/peers, of what it measured, and their places in docs/PERFORMANCE.md and README.md."""
import os
import re
import statistics
import subprocess
import sys

from timing import PROGRAM, TOP, content

PAGE, FIRST_PAGE = f"{TOP}/docs/PERFORMANCE.md", f"{TOP}/README.md"
MARKS = "<!-- bench/peers --write: from here -->", "<!-- to here -->"
OTHERS, OURS = ("C", "Halide", "vips", "ImageMagick"), ("AVX2", "portable")
# The pipelines of the first page.
FEW = ("blur", "unsharp", "sobel", "harris", "camera")


def output_of(*words):
    return subprocess.run(words, cwd=TOP, stdout=subprocess.PIPE, text=True, check=True).stdout.strip()


def about(known, tools, programs, lacking):
    """What the times are of: the machine, the text of the program, and the versions of the tools."""
    processor = re.search(r"^model name\s*: (.*)$", content("/proc/cpuinfo").decode(), re.M)
    usual = {PROGRAM, f"{PROGRAM}.x86-64-v3"}
    return {
        "processor": processor[1] if processor else "a processor without a name",
        "processors": os.cpu_count(),
        "text": output_of("git", "log", "-1", "--format=%h", "--", "crates"),
        "unusual": {label: os.path.relpath(path, TOP) for label, path in programs.items() if path not in usual},
        "versions": [f"gcc {output_of('gcc', '-dumpfullversion')}", *(f"{it.name} {it.version}" for it in tools)],
        "march": f"-march={known.march}" + " with pictures in numbers" * known.numbers,
        "rounds": known.rounds,
        "lacking": lacking,
    }


def preface(about):
    """The sentences before the tables."""
    lines = [
        f"Measured on {about['processors']} processors ({about['processor']}) with the text of commit {about['text']}.",
        f"Least times of {about['rounds']} rounds in milliseconds; {', '.join(about['versions'])}; C by `-O3 {about['march']}`.",
        "In each row all tools wrote the same bytes. Halide is the better of its schedules, and an empty cell is a pipeline that a tool does not do.",
    ]
    lines += [f"The program of the column {label} is `{path}`." for label, path in about["unusual"].items()]
    lines += [f"Left out: {line}." for line in about["lacking"]]
    return "\n".join(lines)


def table(heads, rows):
    lines = [heads, ["---"] * len(heads), *rows]
    return "\n".join(f"| {' | '.join(line)} |" for line in lines)


def number(value):
    """A number with about three digits, or none where there is none."""
    if value is None:
        return ""
    return f"{value:.0f}" if value >= 100 else f"{value:.1f}"


def mean(runs, kind, ours, other):
    """The geometric mean of the ratios of a program of ours to another tool, over the pipelines that both do; and their number."""
    both = [it[kind] for it in runs if ours in it[kind] and other in it[kind]]
    if not both:
        return "", 0
    return f"{statistics.geometric_mean(it[ours] / it[other] for it in both):.2f}", len(both)


def sizes(runs):
    """The sizes of pictures, each with the runs on it, by the number of threads."""
    found = {}
    for run in runs:
        found.setdefault((run["rows"], run["cols"]), {}).setdefault(run["threads"], []).append(run)
    return found


def name_of(rows, cols):
    return str(rows) if rows == cols else f"{rows}x{cols}"


def named(threads):
    return "1 thread" if threads == 1 else f"{threads} threads"


def present(runs, labels):
    """The labels of those that did a pipeline."""
    return [label for label in labels if any(label in run["milliseconds"] for run in runs)]


def summary(runs):
    """How many times as long and as much memory our programs take as each other tool, in the mean."""
    ours = present(runs, OURS)
    groups = {f"{name_of(*size)}, {named(threads)}": part for size, by in sizes(runs).items() for threads, part in by.items()}
    first, largest = list(groups.values())[0], [run for run in runs if run["megabytes"] and run["threads"] == min(r["threads"] for r in runs)]
    rows = []
    for other in present(runs, OTHERS):
        cells = [" / ".join(mean(part, "milliseconds", it, other)[0] for it in ours) for part in groups.values()]
        memory = " / ".join(mean(largest, "megabytes", it, other)[0] for it in ours)
        rows.append([other, str(mean(first, "milliseconds", ours[0], other)[1]), *cells, memory])
    return table([f"{' / '.join(ours)} beside", "Pipelines", *groups, "Memory"], rows)


def times(by_threads):
    """The milliseconds of all tools on pictures of one size."""
    runs = [run for part in by_threads.values() for run in part]
    labels = present(runs, (*OTHERS, *reversed(OURS)))
    heads = ["Pipeline", *(f"{label}, {threads}" for threads in by_threads for label in labels)]
    rows = {}
    for part in by_threads.values():
        for run in part:
            rows.setdefault(run["pipeline"], [run["pipeline"]]).extend(number(run["milliseconds"].get(label)) for label in labels)
    return table(heads, rows.values())


def memory(runs):
    """The most memory that each tool held, on one thread and on the largest pictures."""
    least = min(run["threads"] for run in runs)
    of = [run for run in runs if run["megabytes"] and run["threads"] == least]
    labels = present(of, (*OTHERS, *reversed(OURS)))
    return table(["Pipeline", *labels], [[run["pipeline"], *(number(run["megabytes"].get(label)) for label in labels)] for run in of])


def tables(found):
    """All tables, each with what it is."""
    runs = found["runs"]
    parts = [preface(found["about"]), "How many times as long the program takes as each tool, and how many times as much memory: geometric means\n"
             "over the pipelines that both do.", summary(runs)]
    for size, by_threads in sizes(runs).items():
        parts += [f"Milliseconds at {size[0]} by {size[1]} samples, by tool and number of threads:", times(by_threads)]
    side = max((run["rows"], run["cols"]) for run in runs)
    start = ", ".join(f"{label} {least:.1f} ms" for label, least in found["start"].items())
    parts += [f"Megabytes at {side[0]} by {side[1]} samples, on {named(min(run['threads'] for run in runs))}:", memory(runs),
              f"Start to end on 64 by 64 samples (copy): {start}."]
    return "\n\n".join(parts)


def short(found):
    """The table of the first page: few pipelines, on the largest pictures and the fewest threads."""
    least = min((-run["rows"] * run["cols"], run["threads"]) for run in found["runs"])
    runs = [run for run in found["runs"] if (-run["rows"] * run["cols"], run["threads"]) == least]
    ours, rows = present(runs, OURS)[0], []
    for label in (ours, *present(runs, OTHERS)):
        by_pipeline = {run["pipeline"]: run["milliseconds"].get(label) for run in runs}
        ratio, count = mean(runs, "milliseconds", label, ours)
        name, beside = ("`tilefarm`", "1") if label == ours else (label, f"{float(ratio):.3g} (of {count})")
        rows.append([name, *(number(by_pipeline.get(it)) for it in FEW), beside])
    return table(["", *FEW, "Mean ratio"], rows)


def write(path, tables):
    """Puts the tables between the marks of the page."""
    page = content(path).decode()
    if any(page.count(mark) != 1 for mark in MARKS):
        sys.exit(f"{path} has not each of these lines once: {MARKS}")
    before, rest = page.split(MARKS[0])
    with open(path, "w") as file:
        file.write(f"{before}{MARKS[0]}\n\n{tables}\n\n{MARKS[1]}{rest.split(MARKS[1])[1]}")
