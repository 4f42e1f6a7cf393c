"""Lists mutants that show the same: those of one function that one clause refuses."""
import re

from .crate_run import CrateRun
from .mutant import Mutant

# What a refusal says of the goal that was not proved, as `returns-clause-answer`: of a place in the source, in a proof file, or in a verdict.
GOAL = (re.compile(r"it is not proved .*\(`([^`]+)`\)"), re.compile(r"error: `([^`]+)`:"), re.compile(r"did not prove `([^`]+)`"))


def goal_of(why: str) -> str:
    """The goal that a refusal names, or nothing where it names none."""
    return next((found[1] for found in (it.search(why) for it in GOAL) if found), "")


def groups(run: CrateRun) -> dict[tuple[str, str], list[Mutant]]:
    """The kept refusals of a crate's mutants, by function and by goal, where more than one is of both."""
    found: dict[tuple[str, str], list[Mutant]] = {}
    for mutant in run.mutants:
        kept = run.outcomes.get(mutant)
        goal = goal_of(kept.why) if kept and kept.is_kept else ""
        if goal and len(mutant.functions) == 1:
            found.setdefault((mutant.functions[0].path, goal), []).append(mutant)
    return {it: mutants for it, mutants in found.items() if len(mutants) > 1}


def told_same(runs: list[CrateRun]) -> list[str]:
    """A line for each group, and one that counts them."""
    lines, kept, beside = [], 0, 0
    for run in runs:
        kept += sum(it.is_kept for it in run.outcomes.values())
        for (function, goal), mutants in groups(run).items():
            beside += len(mutants) - 1
            lines.append(f"{run.crate.name}: {function}: `{goal}`: {', '.join(it.label.partition('/')[2] for it in mutants)}")
    return [*lines, f"{len(lines)} clauses refuse more than one mutant of a function, {beside} mutants beside the first, of {kept} kept verdicts"]
