"""Random expressions: what the program gives for a built text, what the reference evaluator says of the text, and what numpy says of the expression."""
import os
import re
import unittest

import numpy as np
from numpy.testing import assert_array_equal

from reference.pictures import Picture
from reference.tables import Table
from reference.texts import tokens_of
from reference.values import Meaning
from tilefarm import BuildError, Fault

from .randomly import TOTALS, Maker, Stage, wrapped

CASES, FIRST = int(os.environ.get("CASES", 500)), int(os.environ.get("SEED", 1))
# each so many text is read by the reference evaluator, which goes point by point
EACH = 5
# what may be refused: a domain without a point, and what is past a limit
REASONS = re.compile(r"\.py:\d+: .*(has no point|no picture|index|nodes|levels|at most|within)")


def values_of(stage: Stage) -> np.ndarray:
    """The values of a stage on its own domain, by numpy."""
    x, y = np.meshgrid(*(np.arange(least, most + 1) for least, most in stage.own), indexing="ij")
    return wrapped(stage.value(x, y))


def values_of_text(maker: Maker, program, text: str, stage: Stage) -> np.ndarray:
    """The same, by the reference evaluator over the text."""
    tables = tuple(Table(name, maker.first_index, tuple(map(int, it))) for name, it in program.tables.items())
    picture = Picture(*maker.sides, maker.planes, 65535, [int(it) for it in maker.picture.ravel()], tables)
    meaning = Meaning(tokens_of(text.encode()), {"R": maker.sides[0], "C": maker.sides[1]}, picture)
    found = meaning.names[meaning.outputs[0]]
    (top, bottom), (left, right) = stage.own
    return np.array([[found.value((row, col)) for col in range(left, right + 1)] for row in range(top, bottom + 1)])


class RandomExpressions(unittest.TestCase):
    def test_text_and_result_and_numpy_agree(self):
        refused, borders = 0, set()
        for seed in range(FIRST, FIRST + CASES):
            with self.subTest(f"SEED={seed} CASES=1 tests/test_python --only numpy_agree"):
                maker = Maker(seed)
                try:
                    program, stage = maker.program()
                except BuildError as error:
                    self.assertRegex(str(error), REASONS)
                    refused += 1
                    continue
                wanted = values_of(stage)
                text = program.text_for(maker.sides)
                if seed % EACH == 0:
                    assert_array_equal(values_of_text(maker, program, text, stage), wanted)
                result = program.run(maker.picture)
                assert_array_equal(result.image, np.clip(wanted, 0, program.most))
                for name, (join, start) in TOTALS.items():
                    bins = [join.reduce(wanted[wanted % 7 == it], initial=start) for it in range(1, 7)]
                    assert_array_equal(result.totals[name].values, bins)
                borders |= set(re.findall(r"func \w+?_(mirror|symmetric|edge|wrap|constant)", text))
        print(f"{CASES} random programs, {refused} refused with a reason")
        self.assertLess(refused, CASES / 4 + 1)
        if CASES >= 100:
            self.assertEqual(borders, {"mirror", "symmetric", "edge", "wrap", "constant"})


class RandomRefusals(unittest.TestCase):
    def test_what_the_program_would_refuse_is_refused_by_the_builder(self):
        """No text of the builder's is refused by the program: sides that are smaller than those that a program was built for as well."""
        for seed in range(FIRST, FIRST + min(CASES, 60)):
            maker = Maker(seed)
            try:
                program, _ = maker.program()
                program.run(maker.picture[:1, :1])
            except BuildError as error:
                self.assertRegex(str(error), REASONS)
            except Fault as fault:
                self.fail(f"SEED={seed}: {fault}")
