"""tilefarm for Python: exact integer image pipelines over arrays of numpy and of Dask.

`run(program, array)` gives the result of a program of the language for an array. A program is a text, or is built: `image`, `vars`, `func` and `output`
make one of Python's expressions. docs/PYTHON.md shows how.
"""
from .building.built import Built, output, totals
from .building.operators import (Reciprocals, clamp, clamp_to_edge, constant, doubled, halved, maximum, minimum, mirror, reciprocals, separable, stencil, sum,
                                 symmetric, where, wrap)
from .building.stages import accumulate, cases, colours, func, histogram, image, param, sides, table, vars
from .errors import BuildError, Fault, NoProgram, Place, Refused, TilefarmError
from .parts import map_parts
from .program import Check, Cost, Domain, Program, run
from .results import Result, Totals

__all__ = ["BuildError", "Built", "Check", "Cost", "Domain", "Fault", "NoProgram", "Place", "Program", "Reciprocals", "Refused", "Result", "TilefarmError",
           "Totals", "accumulate", "cases", "clamp", "clamp_to_edge", "colours", "constant", "doubled", "func", "halved", "histogram", "image",
           "map_parts", "maximum", "minimum", "mirror", "output", "param", "reciprocals", "run", "separable", "sides", "stencil", "sum", "symmetric",
           "table", "totals", "vars", "where", "wrap"]
