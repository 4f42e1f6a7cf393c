"""tf: runs tilefarm on the user's own files. What a call needs is loaded where that is known: most of a short call's time goes there."""
import sys

from .streams import fault_of_output, prepare
from .text import Failed, Refused, TooLarge

# the status where what was written did not go out
OUTPUT_FAILED = 4
# the endings of results that may be made straight on
STRAIGHT = (".jpg", ".jpeg", ".tif", ".tiff", ".webp")


def perform(words: list[str]) -> int:
    """Does what the words ask for, and answers the exit status."""
    if not words or words[0] == "help" or {"--help", "-h"} & set(words):
        from .help_text import BRIEF, help_text
        from .output import give

        if words[:1] == ["help"] and not {*words[1:]} <= {*BRIEF, "all"}:
            raise Refused(no_command(words[1], [*BRIEF]), 1)
        give(help_text(words).encode())
        return 0 if words else 1
    if "--version" in words:
        from .output import say

        say(version())
        return 0
    return answer(words)


def answer(words: list[str]) -> int:
    """Does what a command asks for."""
    from . import progress
    from .sides import is_in_parts
    from .targets import judge, judge_stages
    from .words import OF_DASK, asked, misread

    first = asked(words)
    progress.is_quiet = "--quiet" in first.own
    if said := misread(first):
        raise Refused(said, 1)
    if first.is_many():
        from .many import eval_many

        return eval_many(first)
    if first.name == "frames":
        from .frames import frames

        return frames(first)
    if "--engine" in first.own or first.name == "join" or any(it in first.own for it in OF_DASK):
        return by_engine(first, words)
    judge(first)
    judge_stages(first)
    if is_in_parts(first):
        return in_parts(words)
    if "--join" not in first.own and first.name in BEFORE:
        return BEFORE[first.name](first, words)
    return call(first, words)


def call(first: "Asked", words: list[str]) -> int:
    """Runs the program, or joins what it would run on."""
    from .call import Call
    from .usage import COMMANDS, DRAWING

    if "--join" in first.own:
        return Call(words).join()
    if first.name in OF_FACT_FILES:
        from . import fact_calls

        return getattr(fact_calls, first.name)(first, words)
    if first.name in DRAWING:
        return getattr(Call(words), first.name)()
    if first.name in COMMANDS:
        return 0 if is_straight(first, words) else run(first.name, words)
    raise Refused(no_command(first.name, [*COMMANDS, *DRAWING]), 1)


def is_straight(first: "Asked", words: list[str]) -> bool:
    """Whether a picture went straight from one file to the other. Most files' names show that they do not."""
    if first.name != "eval" or first.target is None or not first.target.lower().endswith(STRAIGHT):
        return False
    from .straight import is_done

    return is_done(first, words)


def run(name: str, words: list[str]) -> int:
    """Runs a command of the program. A picture that turns out to be too large for one run goes by parts."""
    from .call import Call

    try:
        return Call(words).perform()
    except TooLarge:
        if name != "eval":
            raise
    return in_parts(words)


def in_parts(words: list[str]) -> int:
    """Runs eval on parts of the picture."""
    from .parts.performing import eval_parts

    return eval_parts(words)


def by_engine(first: "Asked", words: list[str]) -> int:
    """Hands parts or facts to an engine, or puts together what one has made."""
    from .engines import eval_by, join, refuse_words

    if first.name == "join":
        return join(first)
    refuse_words(first)
    return eval_by(words, first)


def no_command(name: str, every: list[str]) -> str:
    from .near import meant

    what = f"there is no command {name}" if name else "the first word is a command, and it is empty"
    return f"{what}: there are {', '.join(every)}, and tf --join.{meant(name, every)}"


def version() -> str:
    """The commit of this text, where git knows it, and the program that answers."""
    from .running import program

    return f"tilefarm, commit {commit() or 'unknown'}; the program is {program()}"


def commit() -> str:
    """The commit that was installed, or that git knows."""
    import os
    import subprocess

    from .running import TOP

    if not os.path.exists(f"{TOP}/.git") and not os.path.exists(f"{TOP}/commit"):
        return ""
    if os.path.exists(f"{TOP}/commit"):
        with open(f"{TOP}/commit", encoding="ascii") as file:
            return file.read().strip()
    try:
        return subprocess.run(["git", "log", "-1", "--format=%h of %cs"], cwd=TOP, capture_output=True, text=True).stdout.strip()
    except OSError:
        return ""


def play(_: "Asked", words: list[str]) -> int:
    """Opens the page."""
    from .play import play as opened

    return opened(words)


def report(_: "Asked", words: list[str]) -> int:
    """Writes the page as a file."""
    from .report import report as written

    return written(words)


def table(first: "Asked", _: list[str]) -> int:
    """Writes the line of a table, to the file that is named or to standard output."""
    from . import table_making
    from .output import give, put

    line = table_making.made(first.files, first.own.get("--to")).encode()
    if first.target is None:
        give(line)
    else:
        put(first.target, line)
    return 0


# the commands that take fact files of any size
OF_FACT_FILES = ("merge", "answer")
# the commands that begin without a run of the program
BEFORE = {"play": play, "report": report, "table": table}


def main() -> int:
    """Does what the command line asks for, and answers the exit status."""
    prepare()
    status = status_of(sys.argv[1:])
    fault = fault_of_output()
    return said(f"standard output: {fault}", OUTPUT_FAILED) if fault else status


def status_of(words: list[str]) -> int:
    """Does what the words ask for, tells why that failed, and answers the status."""
    try:
        return perform(words)
    except Refused as refusal:
        return said(str(refusal), refusal.status)
    except Failed as failure:
        return failure.status
    except Exception as error:
        from .mistakes import told

        return said(*told(error))


def said(message: str, status: int) -> int:
    """Tells why tf does not go on, if anybody listens, and answers the status."""
    from .output import tell

    tell(message)
    return status
