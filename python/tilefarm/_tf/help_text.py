"""What `tf --help` prints: one screen of all commands, or one command with its options."""
import re

from .usage import COMMANDS, DRAWING, FACT_STATUSES, OPTIONS, OWN_OPTIONS, STATUSES, TF_STATUSES, Option

# each command with what it does in a few words
BRIEF = {
    "eval": "the result: a picture, and a line for each accumulator",
    "frames": "the results of all frames of a film: a folder, numbered files or a stream",
    "check": "whether program and picture are right; stages and identities; --ranges: least and greatest values",
    "plan": "what is inlined, and what each stage costs",
    "play": "a page on this machine that shows a program at work while it is written",
    "report": "that page as one file",
    "graph": "a drawing of the stages",
    "hist": "a drawing of an accumulator",
    "table": "the line of a table: a gamma curve, points, a CSV file, running sums",
    "tune": "which sides of tiles are best here",
    "run": "what eval writes, by a farm of nodes",
    "world": "what nodes hold after a script of events",
    "facts": "facts of a job's tiles",
    "merge": "what fact files hold together",
    "audit": "which facts are true",
    "answer": "the result, put together out of facts",
    "join": "the result, put together out of parts",
}
CALLS = {
    "audit": "tf audit PROGRAM PICTURE FACTS... [-o FILE]", "merge": "tf merge FACTS... [-o FILE]",
    "world": "tf world PROGRAM PICTURE SCRIPT [-o FILE]", "answer": "tf answer PROGRAM PICTURE FACTS... -o FILE",
    "play": "tf play [PROGRAM] [PICTURE]", "report": "tf report PROGRAM PICTURE -o FILE.html",
    "frames": "tf frames PROGRAM FRAMES -o RESULTS", "table": "tf table KIND NAME WORDS... [-o FILE]", "join": "tf join FOLDER -o FILE",
}
USUAL = "tf {} PROGRAM [PICTURE] [-o FILE]"
# what takes neither options of tilefarm nor values of parameters
PLAIN = ("merge", "table", "join")
OF = re.compile(r"(?:^|; )of ([^:]*):")
SHORT = """usage: tf COMMAND PROGRAM [PICTURE] [-o FILE] [OPTIONS] [NAME=VALUE]...

Runs tilefarm on a program and a picture, shows faults in your own files, and draws what it is told. PICTURE is
PNG, PGM, PPM or PBM, and by vips (libvips-tools) JPEG, TIFF and others.

{commands}

tf COMMAND --help    what a command takes                 tf help all    all of that, and each exit status
"""
PROGRAM = """The program is $TILEFARM, or crates/tilefarm/out/tilefarm of this repository (the one for AVX2 beside it, where
the processor has that), or tilefarm on the path, or what `make quick` made, which is not proved: that is told,
unless TILEFARM_QUIET is set.
"""


def help_text(words: list[str]) -> str:
    """The help on the command that is named, on all, or on what commands there are."""
    if words == ["help", "all"]:
        return "\n".join([*(command_help(it) for it in BRIEF), statuses(), PROGRAM])
    named = next((it for it in words if it in BRIEF), None)
    if named:
        return command_help(named)
    return SHORT.format(commands="\n".join(f"  {name:8} {says}" for name, says in BRIEF.items()))


def command_help(name: str) -> str:
    """How a command is called, what it writes, and its options."""
    says = (COMMANDS[name].writes if name in COMMANDS else DRAWING[name]).replace("`", "")
    more = "" if name in PLAIN else " [OPTIONS] [NAME=VALUE]..."
    options = [*(it for it in OPTIONS if is_of(it, name)), *(it for it in OWN_OPTIONS if is_own_of(it, name))]
    listed = [row(f"{it.name} {it.value}", it.says.replace("`", "")) for it in options]
    return "\n".join([f"usage: {CALLS.get(name, USUAL.format(name))}{more}", "", row("", says, margin=0), "", *listed, ""])


def is_of(option: Option, name: str) -> bool:
    """Whether a command takes an option of tilefarm."""
    return name not in PLAIN and (not option.only or name in option.only)


def is_own_of(option: Option, name: str) -> bool:
    """Whether a command takes an option of tf, whose text begins with the commands, or the option, that it is for."""
    clauses = " ".join(OF.findall(option.says))
    words = set(re.findall(r"[\w-]+", clauses))
    named, carriers = words & set(BRIEF), [it for it in OWN_OPTIONS if it.name.startswith("--") and it.name in words]
    if carriers:
        return any(is_own_of(it, name) for it in carriers)
    return name in named if named else True


def statuses() -> str:
    when = {it.number: it.when.replace("`", "") for it in (*FACT_STATUSES, *STATUSES, *TF_STATUSES)}
    return "\n".join(["Exit status:", *(row(str(it), when[it]) for it in sorted(when)), ""])


def row(left: str, right: str, width: int = 100, margin: int = 14) -> str:
    """A line of a list, broken at blanks."""
    lines, line = [], f"  {left.strip():{margin}}"
    for word in right.split():
        if len(line) + 1 + len(word) > width:
            lines.append(line)
            line = " " * (margin + 2)
        line += f" {word}"
    return "\n".join([*lines, line])
