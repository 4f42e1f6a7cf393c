"""The fault lines of `tilefarm`, each with what tells its place and its cure. A new fault is a line of the table."""
import re
from typing import Callable

from . import blame_facts as of_facts
from . import blame_grammar as of_text
from . import blame_input as of_input
from . import blame_names as of_names
from . import blame_script as of_script
from . import blame_values as of_values
from .blame import Blame, Situation

GIVEN = r" (?P<name>.*)"
OFFSET, ITEM, NAME = r" at (?P<at>\d+)", r" item (?P<item>\d+)", r" (?P<name>\S+)"
READ = NAME + r" case (?P<case>\d+) read (?P<read>\d+) (?P<axis>rows|columns) least (?P<least>-?\d+) greatest (?P<greatest>-?\d+)"
TABLE: dict[str, Callable[[re.Match[str], Situation], Blame]] = {
    r"usage: .*": of_input.usage,
    r"input: no separator": of_input.no_separator,
    r"input: too long": of_input.input_too_long,
    r"input failed": of_input.input_failed,
    r"memory": of_input.memory,
    r"farm: 1 SpawnFailed": of_input.farm_spawn_failed,
    r"farm: 3 Close": of_input.farm_close,
    r"tables: line (?P<line>\d+)": of_input.bad_table,
    r"picture: \d+ (?P<fault>\w+)" + OFFSET: of_input.picture,
    r"facts: line (?P<line>\d+) bad hex": of_facts.bad_hex,
    r"facts: line (?P<line>\d+) \d+ (?P<fault>\w+)" + OFFSET: of_facts.bad_file,
    r"script: 1 BadLine at (?P<line>\d+)": of_script.bad_line,
    r"script: 2 NoSuchJob at (?P<line>\d+)": of_script.no_such_job,
    r"script: 3 TooManyEvents": of_script.too_many_events,
    r"parameter: 1 NoSuchParam" + GIVEN: of_values.no_such_param,
    r"parameter: 2 SetTwice" + GIVEN: of_values.set_twice,
    r"program: 1 NotAscii" + OFFSET: of_text.not_ascii,
    r"program: 2 BadToken" + OFFSET: of_text.bad_token,
    r"program: 3 Unexpected" + OFFSET: of_text.unexpected,
    r"program: 4 NumberTooBig" + OFFSET: of_text.number_too_big,
    r"program: 5 TooDeep" + OFFSET: of_text.too_deep,
    r"program: 6 TooLong" + OFFSET: of_text.too_long,
    r"program: 7 TooMany" + OFFSET: of_text.too_many,
    r"check: 1 Unknown" + ITEM: of_names.unknown,
    r"check: 2 Twice" + ITEM: of_names.twice,
    r"check: 3 Kind" + ITEM: of_names.kind,
    r"check: 4 BadKernel" + ITEM: of_names.bad_kernel,
    r"check: 5 BadLiteral" + ITEM: of_names.bad_literal,
    r"check: 6 NoResult": of_names.no_result,
    r"check: 7 Cycle(?P<names>( \S+)+)": of_names.cycle,
    r"bounds: 1 ParamUnset" + NAME: of_values.unset,
    r"bounds: 2 EmptyDomain" + NAME: of_values.empty_domain,
    r"bounds: 3 DomainTooWide" + NAME: of_values.domain_too_wide,
    r"bounds: 4 OutOfBounds" + READ: of_values.out_of_bounds,
    r"bounds: 6 EmptyTable" + NAME: of_values.empty_table,
    r"bounds: 7 TableTooWide" + NAME: of_values.table_too_wide,
    r"bind: 2 Planes": of_values.planes,
    r"bind: 3 ExtentMismatch": of_values.extent_mismatch,
    r"bind: 4 OutputShapes": of_values.output_shapes,
    r"bind: 5 TooManyTiles" + NAME: of_values.too_many_tiles,
    r"bind: 7 TableMismatch" + NAME: of_values.table_mismatch,
}


def explained(line: str, situation: Situation) -> list[str]:
    """The fault line, the places that it blames with their lines, and one sentence of cure."""
    for pattern, blame in TABLE.items():
        found = re.fullmatch(pattern, line, re.S)
        if found:
            return [line, *blame(found, situation).lines()]
    return [line]
