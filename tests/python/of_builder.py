"""The builder: its texts, its domains, its borders, and what it refuses, at each limit and with the caller's own line."""
import re
import sys
import unittest

import numpy as np
from numpy.testing import assert_array_equal

from .shared import picture
import tilefarm as tf
from tilefarm import BuildError, Fault, Program

I = tf.image("I")  # noqa: E741
x, y = tf.vars("x y")
here = I[x, y]


def output(value, **more):
    return tf.output(tf.func("f", value, **more))


class Texts(unittest.TestCase):
    def test_a_text_is_for_pictures_of_any_sides(self):
        p = tf.mirror(I)
        soft = tf.func("soft", (p[x - 1, y] + 2 * p[x, y] + p[x + 1, y]) / 4)
        program = tf.output(tf.func("f", tf.cases((x >= 2, soft[x - 1, y]), (y < tf.sides()[1] - 3, 7), otherwise=soft[x, y + 1])))
        self.assertIn("image I(R, C);", program.text)
        for shape in ((9, 8), (30, 5), (200, 301)):
            given = picture(*shape)
            assert_array_equal(Program(program.text).run(given).image, program.run(given).image)

    def test_a_text_for_one_size_says_so(self):
        program = tf.output(tf.func("f", tf.wrap(I)[x - 1, y]), shape=(5, 6))
        self.assertIn("image I(5, 6);", program.text)
        self.assertIn("pictures of 5 by 6 alone", program.explain())
        self.assertIn("image I(7, 8);", program.text_for((7, 8)))

    def test_few_parentheses(self):
        value = (here + 1 << 3) - (here - 2) * -3 + (here + (here - 1)) - (here - (here + 1)) + here * here * (here / 3) + -(here % 4) - -here
        spelled = output(value).text.split("else : ")[1].split(";")[0]
        self.assertEqual(" ".join(spelled.split()),
                         "(I(x, y) + 1) << 3 - (I(x, y) - 2) * -3 + I(x, y) + I(x, y) - 1 - (I(x, y) - (I(x, y) + 1)) + I(x, y) * I(x, y) * "
                         "(I(x, y) / 3) + -(I(x, y) % 4) - -I(x, y)")

    def test_names_of_the_caller_come_first(self):
        R, made = tf.image("R"), tf.image("R")
        program = tf.output(tf.func("R_mirror", tf.mirror(R)[x - 1, y]))
        self.assertIn("image R(R_2, C);", program.text)
        self.assertIn("func R_mirror_2(", program.text)
        assert_array_equal(program.run(picture(5, 5)).image, np.roll(picture(5, 5), 1, 0)[[2, 1, 2, 3, 4]])
        self.assertIsNot(R, made)

    def test_planes_that_are_not_read_keep_their_names(self):
        _, G, _ = tf.colours("R G B")
        program = output(G[x, y])
        self.assertIn("param R_2; param C;\nimage R, G, B(R_2, C);", program.text)
        assert_array_equal(program.run(picture(4, 5, 3)).image, picture(4, 5, 3)[..., 1])

    def test_an_output_that_is_read_beyond_its_domain(self):
        p = tf.mirror(I)
        f = tf.func("f", p[x, y])
        g = tf.func("g", f[x - 1, y] + f[x + 1, y])
        program = tf.output(f, g, f)
        given = picture(4, 5)
        self.assertIn("func f_output(", program.text)
        assert_array_equal(program.run(given).image[..., 0], given)

    def test_explain(self):
        told = tf.output(tf.func("f", I[x - 1, y] + I[x + 2, y]), shape=(10, 20)).explain()
        self.assertRegex(told, r"I: plane, rows 0\.\.9, columns 0\.\.19: the picture \(of_builder\.py:\d+\)")
        self.assertRegex(told, r"f: func, rows 1\.\.7, columns 0\.\.19: the largest domain on which its reads are inside \(of_builder\.py:\d+\)")
        self.assertRegex(told, r"stages 2 of 64, nodes 3 of 4096, bytes \d+ of 65536")

    def test_the_greatest_sample_is_a_whole_number(self):
        program = tf.output(tf.func("f", here), max=np.uint8(200))
        self.assertTrue(program.text.endswith("output f max 200;\n"))
        for wrong in (200.0, "200", None):
            with self.assertRaisesRegex(BuildError, r"of_builder\.py:\d+: .* is no whole number"):
                tf.output(tf.func("f", here), max=wrong)

    def test_the_line_is_the_callers_where_numpy_is_between(self):
        with self.assertRaisesRegex(BuildError, rf"of_builder\.py:{sys._getframe().f_lineno + 1}: a condition"):
            np.clip(here, 0, 9)

    def test_numbers_of_numpy(self):
        given = picture(3, 3)
        assert_array_equal(output(here * np.int8(2) + np.uint64(1)).run(given).image, np.minimum(given * 2.0 + 1, 255))


class Domains(unittest.TestCase):
    def shape(self, program, *shape: int) -> tuple[int, ...]:
        return program.run(picture(*shape)).image.shape

    def test_the_largest_on_which_reads_are_inside(self):
        self.assertEqual(self.shape(output(I[x - 1, y + 3] + I[x + 2, y]), 10, 12), (7, 9))
        self.assertEqual(self.shape(output(I[2 * x + 1, (y + 1) // 3]), 10, 12), (5, 36))
        self.assertEqual(self.shape(output(tf.stencil(I, np.ones((3, 5), int))), 10, 12), (8, 8))

    def test_what_goes_on_beyond_the_border_is_as_large_as_before(self):
        self.assertEqual(self.shape(output(tf.mirror(I)[x - 4, y + 3]), 10, 12), (10, 12))
        self.assertEqual(self.shape(output(tf.mirror(I)[2 * x + 1, y]), 11, 12), (6, 12))

    def test_a_domain_that_is_given(self):
        rows, cols = tf.sides()
        program = output(I[x, y + 1], domain=((2, rows - 1), (0, cols - 2)))
        given = picture(6, 7)
        assert_array_equal(program.run(given).image, given[2:, 1:])
        other = tf.func("g", tf.mirror(I)[x - 1, y], domain=I)
        self.assertEqual(self.shape(tf.output(other), 4, 5), (4, 5))

    def test_accumulators(self):
        given = picture(9, 14)
        bright = tf.accumulate("bright", y, bins=(0, 13), value=here, operator="max")
        inner = tf.accumulate("inner", 0, bins=(0, 0), value=here, domain=((1, tf.sides()[0] - 2), (0, 3)))
        totals = tf.totals(tf.histogram("h", here), bright, inner).run(given).totals
        assert_array_equal(totals["h"].values, np.bincount(given.ravel(), minlength=256))
        assert_array_equal(totals["bright"].values, given.max(axis=0))
        self.assertEqual(totals["inner"][0], given[1:-1, :4].sum())

    def test_parameters(self):
        program = output(tf.where(here >= tf.param("T"), 255, 0))
        given = picture(5, 5)
        assert_array_equal(program.run(given, params={"T": 99}).image, np.where(given >= 99, 255, 0))
        with self.assertRaisesRegex(Fault, "ParamUnset T"):
            program.run(given)

    def test_a_fault_says_where_a_stage_was_built(self):
        program = tf.output(*(tf.func(name, I[x, (at + 1) * y]) for at, name in enumerate("abc")))
        with self.assertRaisesRegex(Fault, "OutputShapes"):
            program.run(picture(5, 5))
        tall = tf.output(tf.func("tall", I[x // 16, y], domain=((0, 16 * tf.sides()[0] - 1), (0, 0))))
        with self.assertRaisesRegex(Fault, r"tall[\s\S]*It was built at of_builder.py:\d+"):
            tall.check((1100, 4))


class Borders(unittest.TestCase):
    def test_each_kind_far_beyond_a_small_picture(self):
        kinds = {"mirror": "reflect", "symmetric": "symmetric", "clamp_to_edge": "edge"}
        given = picture(3, 4)
        for kind, mode in kinds.items():
            program = output(getattr(tf, kind)(I)[x - 17, y + 11], domain=((0, 30), (-30, 9)))
            padded = np.pad(given, ((17, 30), (30, 30)), mode)
            assert_array_equal(program.run(given).image, padded[:31, 11:51], kind)
        assert_array_equal(output(tf.wrap(I)[x - 17, y + 11]).run(given).image, np.roll(given, (17, -11), (0, 1)))
        assert_array_equal(output(tf.constant(I, 9)[x - 1, y]).run(given).image, np.pad(given, ((1, 0), (0, 0)), constant_values=9)[:-1])

    def test_a_border_of_a_function(self):
        inner = tf.func("inner", I[x - 1, y] + I[x + 1, y])
        given = picture(6, 5) // 2
        wanted = np.pad(given[:-2] + given[2:], ((1, 0), (0, 0)), "edge")[:-1]
        assert_array_equal(output(tf.clamp_to_edge(inner)[x - 1, y]).run(given).image, wanted)

    def test_a_border_that_nothing_needs_is_no_function(self):
        self.assertNotIn("I_mirror", output(tf.mirror(I)[x, y]).text)


class Quotients(unittest.TestCase):
    def test_reciprocals(self):
        per = tf.reciprocals("per", most=255, bits=20)
        a = picture(40, 40)
        program = output(per.quotient(here, tf.maximum(tf.mirror(I)[x - 1, y], 1)))
        divisor = np.maximum(np.pad(a, ((1, 0), (0, 0)), "reflect")[:-1], 1)
        self.assertEqual(per.most_error(255), 0)
        assert_array_equal(program.run(a).image, a // divisor)
        self.assertEqual(per.most_value, (2**31 - 1) // 2**20)

    def test_the_error_of_few_bits_is_told(self):
        per = tf.reciprocals("per", most=9, bits=8)
        worst = max((value * -(-256 // d) >> 8) - value // d for value in range(2001) for d in range(1, 10))
        self.assertEqual(per.most_error(2000), worst)
        self.assertGreater(worst, 0)


class Refusals(unittest.TestCase):
    def refused(self, make, why: str) -> None:
        """What is refused is refused with the line of the caller, which is in this file."""
        with self.subTest(why), self.assertRaisesRegex(BuildError, why) as caught:
            make()
        self.assertRegex(str(caught.exception), rf"^{re.escape(__file__)}:\d+: ")

    def test_what_is_no_expression(self):
        for make, why in (
                (lambda: here * 0.5, "0.5 is no whole number"), (lambda: here / here, "tf.reciprocals"), (lambda: 3 / here, "tf.reciprocals"),
                (lambda: here % 0, "from 1 to"), (lambda: here >> 32, "from 0 to 31"), (lambda: here + 2**31, "fit 32 bits"),
                (lambda: 1 if here > 3 else 2, "joined? by & and"), (lambda: bool(here), "tf.where"), (lambda: here + (here > 1), "condition is no number"),
                (lambda: 0 < here < 9, "join conditions by &"), (lambda: (here > 1) & 1, "is no condition"), (lambda: tf.maximum(), "no value")):
            self.refused(make, why.replace("joined?", "join conditions"))

    def test_what_is_no_read(self):
        for make, why in (
                (lambda: I[x], "two indices"), (lambda: I[y, x], "transposed"), (lambda: I[here, y], "does not depend on data"),
                (lambda: I[x * y, y], "no \\(factor"), (lambda: I[x + 4097, y], "addend"), (lambda: I[17 * x, y], "factor"),
                (lambda: I[x // 17, y], "divisor"), (lambda: I[-x, y], "factor"), (lambda: I[3, y], "no \\(factor"), (lambda: [*I], "two indices")):
            self.refused(make, why)

    def test_what_is_no_stage(self):
        for make, why in (
                (lambda: tf.func("case", here), "word of the language"), (lambda: tf.func("_f", here), "no name"),
                (lambda: tf.func("f" * 33, here), "at most 32"),
                (lambda: tf.vars("x"), "two variables"), (lambda: tf.colours("r g"), "three planes"), (lambda: tf.table("t", [0.5]), "whole numbers"),
                (lambda: tf.table("t", range(4097)), "4,096"), (lambda: tf.table("t", [1], 16385), "within"), (lambda: tf.table("t", [2**31]), "32 bits"),
                (lambda: tf.stencil(I, [[1, 2]]), "odd sides"), (lambda: tf.stencil(I, np.ones((17, 1), int)), "odd sides up to 15"),
                (lambda: tf.stencil(I, [1], 0), "divided"), (lambda: tf.func("f", here, domain=3), "a domain is"),
                (lambda: tf.func("f", here, domain=((0, here), (0, 1))), "sum of numbers"),
                (lambda: tf.func("f", tf.cases((here > 1, 2))), "conditions on data"), (lambda: tf.func("f", tf.cases((x > y, 2))), "tests a variable"),
                (lambda: tf.accumulate("h", here, bins=(0, 4096)), "4,096"), (lambda: tf.accumulate("h", here, bins=(0, 1), operator="mean"), "the min"),
                (lambda: tf.reciprocals("p", 5000), "4096"), (lambda: tf.func("f", here + tf.vars("row col")[0]), "both variables")):
            self.refused(make, why)

    def test_what_is_no_program(self):
        other = tf.image("J")
        f, g = tf.func("f", here), tf.func("f", here + 1)
        for make, why in (
                (lambda: tf.output(), "one function, or three"), (lambda: tf.output(here), "tf.func"), (lambda: tf.output(f, max=0), "1 to 65535"),
                (lambda: tf.output(f, totals=[f]), "accumulators"), (lambda: tf.totals(), "no accumulator"),
                (lambda: tf.output(tf.func("h", f[x, y] + g[x, y])), "declared twice: first at of_builder.py"),
                (lambda: output(here + other[x, y]), "another picture"), (lambda: output(x + y), "reads no picture"),
                (lambda: output(I[x - 1, y], domain=((0, 3), (0, 3))), "reads rows -1..2 of I, which has rows 0"),
                (lambda: output(I[x - 600, y] + I[x + 600, y]), "f has no point"),
                (lambda: tf.totals(tf.histogram("h", I[x - 600, y] + I[x + 600, y])), "h has no point"), (lambda: tf.output(tf.func("x", here)), "a variable of a function too"),
                (lambda: output(tf.mirror(I)[16 * x + 4096, y], domain=((0, 16000), (0, 0))), "domains are within")):
            self.refused(make, why)

    def test_a_line_is_that_of_what_is_wrong(self):
        wrong, line = I[x + 1, y], sys._getframe().f_lineno
        with self.assertRaisesRegex(BuildError, f":{line}: last reads rows 1"):
            tf.output(tf.func("last", wrong, domain=I))

    def test_the_line_of_a_read_is_not_that_of_its_variables(self):
        row, col = tf.vars("row col")
        for make, why in ((lambda: I[y, x], "transposed"), (lambda: I[here, y], "does not depend"),
                          (lambda: tf.func("f", here + I[row, col]), "both variables")):
            with self.assertRaisesRegex(BuildError, f"of_builder.py:{make.__code__.co_firstlineno}: .*{why}"):
                make()


class Limits(unittest.TestCase):
    """What is at a limit is accepted by the program itself, and what is one past it is refused by the builder."""

    def accepted(self, program) -> None:
        program.check((20, 20))

    def refused(self, make, why: str) -> None:
        with self.assertRaisesRegex(BuildError, f"of_builder.py:\\d+: .*{why}"):
            make()

    def test_stages(self):
        def chain(count: int):
            last = I
            for at in range(count):
                last = tf.func(f"f{at}", last[x, y])
            return tf.output(last)

        self.accepted(chain(63))
        self.refused(lambda: chain(64), "f63 is stage 65")

    def test_cases(self):
        def of(count: int):
            return output(tf.cases(*((x == at, at) for at in range(count)), otherwise=here))

        self.accepted(of(16))
        self.refused(lambda: of(17), "at most 16")

    def test_nodes(self):
        def of(count: int):
            return output(tf.sum([here] * ((count + 1) // 2)) if count % 2 else -tf.sum([here] * (count // 2)))

        self.accepted(of(4095))
        self.accepted(of(4096))
        self.refused(lambda: of(4097), "nodes")
        halves = [tf.func(f"f{at}", tf.sum([here] * 1025)) for at in range(2)]
        self.refused(lambda: tf.output(tf.func("g", halves[0][x, y] + halves[1][x, y])), "more than 4,096 nodes")

    def test_levels(self):
        def of(count: int):
            value = here
            for _ in range(count):
                value = abs(value)
            return output(value)

        self.accepted(of(64))
        self.refused(lambda: of(65), "64 levels")

    def test_expressions_that_nest_deeply(self):
        total = here
        for _ in range(1500):
            total = total + here
        self.refused(lambda: output(total), "one within the other")

    def test_tables(self):
        def of(count: int):
            return output(tf.sum(tf.table(f"t{at}", [at, 1])[here] for at in range(count)))

        self.accepted(of(16))
        self.refused(lambda: of(17), "at most 16")

    def test_parameters(self):
        def of(count: int):
            return output(here + tf.sum(tf.param(f"p{at}") for at in range(count)))

        of(62).check((4, 4), params={f"p{at}": at for at in range(62)})
        self.refused(lambda: of(63), "at most 62 parameters")

    def test_indices(self):
        output(tf.constant(I)[16 * x + 4096, (y - 4096) // 16]).check((20, 20))

    def test_names(self):
        self.accepted(output(tf.func("f" * 32, here)[x, y]))
