"""Engines that exist: tasks by the workers of a Dask scheduler, or as lists of commands for other engines."""
from .call import Call
from .output import tell
from .targets import judge
from .text import Refused
from .whole_numbers import whole_number
from .words import OF_DASK, Asked

ENGINES = ("dask", "list")
USUAL_SHARE = 10
# what goes with a run, or with parts, and not with facts
OF_ONE_RUN = ("--parts", "--resume", "--stage", "--stages", "--time", "--memory")


def refuse_words(asked: Asked) -> None:
    """Refuses words that do not belong together."""
    if asked.stages:
        raise Refused("--stage NAME=FILE goes with one run here, and not with --engine", 1)
    alone = next((it for it in OF_DASK if it in asked.own), None)
    if asked.own.get("--engine") != "dask" and alone:
        raise Refused(f"{alone} goes with --engine dask", 1)


def eval_by(words: list[str], asked: Asked) -> int:
    """Runs eval by the engine that is asked for."""
    engine = asked.own["--engine"]
    if engine not in ENGINES:
        raise Refused(f"there is no engine {engine}: there are {' and '.join(ENGINES)}", 1)
    if asked.name != "eval":
        raise Refused(f"--engine is an option of eval, and not of {asked.name or '--join'}", 1)
    if engine == "list":
        return listed(words, asked)
    judge(asked)
    given = [it for it in ("--scheduler", "--scheduler-file") if it in asked.own]
    if len(given) != 1:
        raise Refused("--engine dask wants the address of a scheduler: --scheduler tcp://HOST:8786, or the file that it wrote: --scheduler-file FILE", 1)
    return by_facts(words, asked, share_of(asked, USUAL_SHARE)) if "--facts" in asked.own else by_parts(words, asked)


def share_of(asked: Asked, usual: int) -> int:
    """How many facts or parts of a hundred are judged here."""
    share = whole_number(asked.own.get("--audit", str(usual)), 0, 100)
    if share is None:
        raise Refused("--audit takes how many of a hundred are judged here, 0 to 100: --audit 25", 1)
    return share


def by_facts(words: list[str], asked: Asked, share: int) -> int:
    """Puts the picture together out of facts that the workers make."""
    from .finding_dask import go_on_with_dask
    from .machines import machines_for
    from .making import Maker
    from .parser import known_program
    from .progress import doing
    from .sharing import Sharing

    other = next((it for it in OF_ONE_RUN if it in asked.own), None)
    if other:
        raise Refused(f"{other} does not go with --facts", 1)
    go_on_with_dask()
    call = Call(words)
    check, plan = call.text_of("check"), call.text_of("plan")
    program = known_program(call.input.sections["program"].data)
    if program is None:
        raise Refused("tf does not read this program as tilefarm does")
    shared = Sharing(Maker(call.input, program, call.asked.words), check, plan, call.asked.words, share)
    with machines_for(call.asked) as machines:
        with doing("tiles by workers", shared.done):
            written = shared.written(machines)
    call.judge_cut(written)
    call.deliver(written)
    if "--quiet" not in call.asked.own:
        tell(shared.summary())
    return 0


def by_parts(words: list[str], asked: Asked) -> int:
    """Puts the picture together out of parts that the workers run."""
    from .part_tasks import by_dask

    return by_dask(words, asked, share_of(asked, 0))


def listed(words: list[str], asked: Asked) -> int:
    """Writes the parts and their commands into a folder."""
    from .part_tasks import by_list

    if "--resume" in asked.own:
        raise Refused("--engine list has no --resume: its lines go on by themselves, since a part that is made is not made again", 1)
    if asked.target is None:
        raise Refused("--engine list wants a folder for the parts and their commands: -o FOLDER", 1)
    return by_list(words, asked)


def join(asked: Asked) -> int:
    """Puts the results of a list together."""
    from .part_tasks import join_list

    judge(asked)
    if len(asked.files) != 1:
        raise Refused(f"tf join takes the folder that --engine list made, and got {len(asked.files)} names", 1)
    return join_list(asked)
