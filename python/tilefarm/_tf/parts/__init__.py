"""Jobs in parts: a picture of any size is cut, each part has a program of its own for `tilefarm eval`, and the results are joined.

- `plan(program_text, params, height, width, planes, side, tables)` cuts; its `Plan` has `parts`, which can be pickled.
- `opened(path)` opens a raw PGM or PPM picture, and `read_part(picture, part)` is a part's input; `part.words` go to the command line.
- `Joiner(plan, out)` takes results by `put(part, result_bytes)`, in any order, and `close()` gives the lines of the accumulators.

Samples and totals are those of one run over the whole, as far as tests tell; none of it is proved. What cannot be cut so is refused.
Each name is loaded when it is asked for: the ranges of a program's values want one of these modules alone.
"""
import importlib
from typing import TYPE_CHECKING

if TYPE_CHECKING:
    from .joiner import Joiner
    from .planning import Output, Part, Plan, plan
    from .reading import Picture, opened, read_part
    from .whole import Fault, Total

PLACES = {"Joiner": "joiner", "Output": "planning", "Part": "planning", "Plan": "planning", "plan": "planning", "Picture": "reading", "opened": "reading",
          "read_part": "reading", "Fault": "whole", "Total": "whole"}

__all__ = ["Fault", "Joiner", "Output", "Part", "Picture", "Plan", "Total", "opened", "plan", "read_part"]


def __getattr__(name: str):
    if name not in PLACES:
        raise AttributeError(f"module {__name__!r} has no attribute {name!r}")
    return getattr(importlib.import_module(f"{__name__}.{PLACES[name]}"), name)
