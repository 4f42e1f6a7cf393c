"""Tests of tables: files with their lines are joined in the program's order, faults are shown in those files, and tf table makes them."""
from .shared import InRoom

PROGRAM = b"""image I(1, 3);
table t[0 .. 3];
table u[-1 .. 1];
func f(x in [0 .. 0], y in [0 .. 2]) { else : t[I(x, y)] + u[y - 1]; }
output f max 255;
"""
ONE, OTHER = b"t 0..3: 10 20 30 40\n", b"u -1..1: 1 2 3\n"


class Tables(InRoom):
    def setUp(self):
        super().setUp()
        self.write("p.pipe", PROGRAM)
        self.write("p.pgm", b"P2\n3 1\n9\n0 2 9\n")
        self.write("t.table", ONE)
        self.write("u.table", OTHER)
        self.write("both.table", OTHER + b"\n" + ONE)

    def refused(self, words: str) -> str:
        status, written, told = self.tf(words)
        self.assertEqual((status != 0, written), (True, b""))
        return told

    def test_lines_are_joined_in_the_order_of_the_program(self):
        for words in ("--table t.table --table u.table", "--table u.table --table t.table", "--table both.table"):
            self.assertEqual(self.tf(f"eval p.pipe p.pgm --print {words}"), (0, b"11 32 43\n", ""))
        joined = PROGRAM + b"%%\n" + ONE + OTHER + b"P2\n3 1\n9\n0 2 9\n"
        self.assertEqual(self.tf("--join p.pipe p.pgm --table both.table"), (0, joined, ""))

    def test_a_missing_a_further_and_a_repeated_table_are_refused(self):
        told = self.refused("eval p.pipe p.pgm --print --table t.table")
        self.assertIn("the numbers of the table u are handed in: give a file with its line, as --table u.table", told)
        self.write("more.table", b"w 0..0: 1\n")
        told = self.refused("eval p.pipe p.pgm --print --table both.table --table more.table")
        self.assertIn("the program declares no table w: it declares t, u\nmore.table:1:1\n", told)
        told = self.refused("eval p.pipe p.pgm --print --table both.table --table t.table")
        self.assertIn("the table t is handed in twice: take one out\nboth.table:3:1\n", told)

    def test_a_fault_is_shown_in_its_file(self):
        self.write("bad.table", b"\nu -1..1: 1 2 3\nt 0..3: 10 20 30 4x\n")
        self.assertIn("tables: line 1\nbad.table:3:19\n    t 0..3: 10 20 30 4x\n                      ^\n",
                      self.refused("eval p.pipe p.pgm --print --table bad.table"))

    def test_tables_of_a_whole_input(self):
        self.write("all.in", PROGRAM + b"%%\n" + ONE + OTHER + b"P2\n3 1\n9\n0 2 x\n")
        self.assertIn("picture: 3 BadNumber at 13\nall.in:12:5\n", self.refused("eval all.in --print"))
        self.write("all.in", PROGRAM + b"%%\n" + ONE + b"u -1..1: 1 2\nP2\n3 1\n9\n0 2 9\n")
        self.assertIn("tables: line 2\nall.in:8:13\n", self.refused("eval all.in --print"))
        self.assertIn("--table goes with a program and a picture in files of their own", self.refused("eval all.in --print --table t.table"))

    def test_plans_stages_facts_and_many_pictures_take_tables(self):
        self.assertEqual(self.tf("plan p.pipe --table both.table"), (0, b"stored f cost 3\n", ""))
        status, facts, _ = self.tf("facts p.pipe p.pgm --table both.table")
        self.write("f.facts", facts)
        self.assertEqual((status, self.tf("audit p.pipe p.pgm f.facts --table both.table")[:2]), (0, (0, b"True 1 0 0\n")))
        self.write("q.pgm", b"P2\n3 1\n9\n1 1 1\n")
        self.assertEqual(self.tf("eval p.pipe p.pgm q.pgm -o {name}.out.pgm --table both.table"), (0, b"", ""))
        self.assertEqual(self.content("q.out.pgm"), b"P5\n3 1\n255\n" + bytes([21, 22, 23]))

    def test_a_table_is_not_replaced_by_the_result(self):
        self.assertIn("the table is read from this file", self.refused("eval p.pipe p.pgm --table t.table --table u.table -o t.table"))


class MadeTables(InRoom):
    def made(self, words: str) -> str:
        status, line, told = self.tf(f"table {words}")
        self.assertEqual((status, told), (0, ""))
        return line.decode()

    def test_points_are_joined_by_straight_lines(self):
        self.assertEqual(self.made("points t 0,0 2,10 5,4"), "t 0..5: 0 5 10 8 6 4\n")
        self.assertEqual(self.made("points t -1,7"), "t -1..-1: 7\n")

    def test_gamma(self):
        # (the square roots of 0, 1/4, 1/2, 3/4 and 1, times 100)
        self.assertEqual(self.made("gamma t 0..4 2 --to 100"), "t 0..4: 0 50 71 87 100\n")
        self.assertEqual(self.made("gamma t 0..4 1"), "t 0..4: 0 1 2 3 4\n")

    def test_running_sums(self):
        self.write("h.txt", b"g 0..1: 5 5\nh 0..3: 1 2 3 4\n")
        self.assertEqual(self.made("sums c h.txt h"), "c 0..3: 1 3 6 10\n")
        self.assertEqual(self.made("sums c h.txt h --to 100"), "c 0..3: 10 30 60 100\n")

    def test_numbers_of_a_csv_file(self):
        self.write("a.csv", b"index,value\n-1,5\n0,7\n1,-9\n")
        self.assertEqual(self.made("csv t a.csv"), "t -1..1: 5 7 -9\n")
        self.write("a.csv", b"5\n7\n")
        self.assertEqual(self.made("csv t a.csv"), "t 0..1: 5 7\n")

    def test_what_makes_no_table_is_refused(self):
        self.write("a.csv", b"0,5\n2,7\n")
        for words, told in (("points t 1,1 1,2", "the first numbers of the points rise"), ("gamma max 0..3 1", "max is no name"),
                            ("gamma t 0..5000 1", "at most 4,096 entries"), ("gamma t 0..3 0", "a gamma is a number above 0"),
                            ("csv t a.csv", "behind the index 0 stands not 1"), ("sums t a.csv", "no totals line"),
                            ("spline t 1", "tf table takes a kind, a name and what that kind takes")):
            with self.subTest(words):
                status, written, said = self.tf(f"table {words}")
                self.assertEqual((status > 0, written), (True, b""))
                self.assertIn(told, said)
