"""What a page is told of a job that ran: its stages, how they are scheduled, and what its accumulators hold."""
import re

from .demands import Area, demands_of
from .play_demands import parts_of
from .program import Program
from .stages import Stage, domains_of, homes, layers, stages_of

TOTAL = re.compile(r"(\S+) (-?\d+)\.\.(-?\d+):((?: -?\d+)+)")


def stages_view(program: Program, text: bytes, values: dict[str, int], check: str, plan: str) -> list[dict]:
    """The stages in the order of their numbers: what `check` and `plan` tell, who reads whom, and what a tile demands."""
    stages, domains = stages_of(program, check, plan), domains_of(check)
    home, depth = homes(stages), layers(list(stages), {it.name: it.reads for it in stages.values()})
    demands = demands_of(text)
    parts = {it: parts_of(demands, it, values) for it in stages}
    return [stage_view(it, domains[it.name], parts[it.name]) | {"home": home[it.name], "layer": depth[it.name]} for it in stages.values()]


def stage_view(stage: Stage, domain: Area, parts: list[dict]) -> dict:
    return {"name": stage.name, "kind": stage.kind, "rows": [*domain.rows], "cols": [*domain.cols],
            "tiles": stage.tiles, "cost": stage.cost, "inlined": stage.is_inlined, "reads": stage.reads, "parts": parts}


def output_view(program: Program) -> dict | None:
    """The functions of the output, and its greatest sample."""
    output = program.output()
    if output is None or output.most is None:
        return None
    return {"names": [it.text for it in output.names], "most": output.most.value}


def totals(lines: bytes) -> list[dict]:
    """What the accumulators hold. Numbers of 64 bits go as texts, since a page has none."""
    found = filter(None, map(TOTAL.fullmatch, lines.decode("ascii", "replace").splitlines()))
    return [{"name": it[1], "low": int(it[2]), "bins": it[4].split()} for it in found]
