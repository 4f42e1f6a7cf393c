"""What each stage demands of those that it reads, in the numbers by which a page finds the boxes of a tile (docs/SCHEDULES.md)."""
from .demands import Area, Demands, Part, Read, Way, domain_of


def parts_of(demands: Demands, name: str, settings: dict[str, int]) -> list[dict]:
    """The cases of a stage, each with its box and what it reads there. A case whose box is empty demands nothing."""
    item = dict(demands.program.stages())[name]
    boxes = [(part, part.box(domain_of(item, settings), settings)) for part in demands.parts[name]]
    return [part_view(part, box) for part, box in boxes if box.count()]


def part_view(part: Part, box: Area) -> dict:
    return {"area": ends_of(box), "reads": [read_view(it) for it in part.reads]}


def ends_of(area: Area) -> list[int]:
    """Top, bottom, left and right."""
    return [*area.rows, *area.cols]


def read_view(read: Read) -> dict:
    """The stage, and how the indices of a row and of a column go: factor, addend, divisor, and how far to each side."""
    return {"of": read.name, "rows": way_view(read.rows), "cols": way_view(read.cols)}


def way_view(way: Way) -> list[int]:
    return [way.factor, way.more, way.divisor, way.reach]
