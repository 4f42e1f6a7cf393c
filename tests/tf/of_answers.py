"""Tests of answers that are put together out of facts: the bytes of `eval`, or the first tile that cannot be taken."""
import os

from .shared import PROGRAM, TOP, InRoom, content

from _tf import facts

EXAMPLES = f"{TOP}/examples/facts"
MANY = b"""param R; param C;
image r, g, b(R, C);
func p(x in [-1 .. R-2], y in [2 .. C+1]) { else : r(x+1, y-2) * 300 - 90; }
func q(x in [-1 .. R-2], y in [2 .. C+1]) { else : g(x+1, y-2) - b(x+1, y-2); }
accum s [-1 .. 3] over (x in [0 .. R-1], y in [0 .. C-1]) sum r(x, y) << 24 at g(x, y) / 64;
accum least [0 .. 1] over (x in [0 .. R-1], y in [0 .. C-1]) min b(x, y) at x % 2;
accum most [0 .. 1] over (x in [0 .. R-1], y in [0 .. C-1]) max b(x, y) - 200 at y / 9;
output p, q, p max 1000;
"""
# writes which command it is asked for, and runs the program; a world that inlines refuses an event
COUNTING = f"""#!/bin/sh
echo "$*" >> runs
case "$*" in
  *--stored*) ;;
  world*--percent\\ 7*) printf 'done 5 refused 1\\nnode 0 5054463100000000\\nnode 1 5054463100000000\\n'; exit;;
esac
exec {PROGRAM} "$@"
"""


class Answers(InRoom):
    def setUp(self):
        super().setUp()
        for name, file in (("p.pipe", "facts.pipe"), ("p.pgm", "ramp.pgm"), ("one.facts", "one.facts"), ("two.facts", "two.facts"),
                           ("doubtful.facts", "doubtful.facts")):
            self.write(name, content(f"{EXAMPLES}/{file}"))
        self.sides = "--rows 2 --cols 2"
        self.wanted = self.tf("eval p.pipe p.pgm")

    def answer(self, line: str) -> tuple[int, bytes, str]:
        return self.tf(f"answer p.pipe p.pgm {line} {self.sides}")

    def test_the_bytes_of_eval(self):
        for line in ("one.facts two.facts", "two.facts one.facts one.facts", "one.facts two.facts --trust"):
            with self.subTest(line):
                self.assertEqual(self.answer(line), self.wanted)
        status, totals, told = self.answer("one.facts two.facts -o out.pgm")
        self.assertEqual((status, self.content("out.pgm") + totals, told), self.wanted)

    def test_colours_totals_and_domains_that_begin_elsewhere(self):
        self.write("m.pipe", MANY)
        points = " ".join(str((7 * at) % 256) for at in range(3 * 5 * 7))
        self.write("m.ppm", f"P3 7 5 255 {points}\n".encode())
        wanted = self.tf("eval m.pipe m.ppm")
        self.assertEqual((wanted[0], wanted[1][:12]), (0, b"P6\n7 5\n1000\n"))
        for sides in ("--rows 2 --cols 3", "--rows 5 --cols 1", ""):
            self.assertEqual(self.tf(f"facts m.pipe m.ppm {sides} -o m.facts")[0], 0)
            self.assertEqual(self.tf(f"answer m.pipe m.ppm m.facts {sides}")[:2], wanted[:2])
            self.assertEqual(self.tf(f"answer m.pipe m.ppm m.facts --trust {sides}")[:2], wanted[:2])

    def test_a_tile_that_is_missing(self):
        for trust in ("", " --trust"):
            status, written, told = self.answer(f"one.facts{trust}")
            self.assertEqual((status, written), (2, b""))
            self.assertIn("tile dark 0 1 (rows 0 to 1, columns 2 to 3) is missing; 4 of 8 tiles lack", told)
        status, _, told = self.tf("answer p.pipe p.pgm one.facts two.facts --rows 1 --cols 2")
        self.assertIn("is missing; 16 of 16 tiles lack", told)

    def test_false_facts_are_left_out(self):
        self.assertEqual(self.answer("one.facts two.facts doubtful.facts"), self.wanted)
        status, written, told = self.answer("one.facts two.facts doubtful.facts --trust")
        self.assertEqual((status, written), (2, b""))
        self.assertIn("is disputed; ", told)

    def test_a_tile_of_another_shape(self):
        given = list(facts.facts_of(self.content("one.facts").strip()))
        short = [given[0]._replace(numbers=given[0].numbers[:-1])]
        self.write("short.facts", facts.line_of([*short, *given[1:]]))
        for trust in ("", " --trust"):
            self.assertIn("tile dark 0 0 (rows 0 to 1, columns 0 to 1) is m", self.answer(f"short.facts two.facts{trust}")[2])
        self.assertIn("is misshapen; 1 of 8 tiles lack", self.answer("short.facts two.facts --trust")[2])

    def test_a_retired_job(self):
        check = self.tf(f"check p.pipe p.pgm {self.sides}")[1].decode()
        retired = b"50544632" + b"00000001" + "".join(it.split()[1] for it in check.splitlines()[:2]).encode() + b"00000000"
        self.write("gone.facts", b"\n" + retired + b"\n")
        where = "tf: the job of p.pipe and p.pgm is retired, by gone.facts:2: its"
        for trust in ("", " --trust"):
            ended, written, told = self.answer(f"one.facts gone.facts two.facts{trust}")
            self.assertEqual((ended, written, told.startswith(where)), (2, b"", True))
        ended, verdicts, told = self.tf(f"audit p.pipe p.pgm doubtful.facts gone.facts {self.sides}")
        self.assertEqual((ended, verdicts.split()[-3]), (0, b"Retired"))
        self.assertEqual(told, f"{where} facts are left out\nmissing 8 of 8\n")
        self.assertEqual(self.tf("facts --list gone.facts")[1], b"gone.facts:2: %s %s retired\n" % (retired[16:24], retired[80:88]))

    def test_another_job_that_is_retired(self):
        self.write("other.facts", b"50544632" + b"00000001" + b"12" * 64 + b"00000000\n")
        for trust in ("", " --trust"):
            self.assertEqual(self.answer(f"one.facts other.facts two.facts{trust}"), self.wanted)

    def test_the_parts_of_files(self):
        one, ids = self.content("one.facts").strip(), b"12" * 64
        whole = bytes.fromhex((b"50544632" + b"00000001" + ids + one[8:]).decode())
        first, last = 8 + 64 + 4, len(whole) - 1
        for at, part in ((0, ""), (4, ""), (8, "retired job 1 of 1"), (first - 5, "retired job 1 of 1"), (first - 4, ""), (first, "fact 1 of 4"),
                         (first + 94, "fact 1 of 4"), (first + 95, "fact 2 of 4"), (last, "fact 4 of 4"), (last + 1, "")):
            with self.subTest(at=at):
                self.assertEqual(facts.part_at(whole, at), part)
        for length in range(len(whole)):
            named = facts.part_at(whole[:length], length)
            self.assertEqual(bool(named), length >= first or 8 <= length < first - 4, length)

    def test_faults_are_shown_in_their_own_file(self):
        self.write("bad.facts", b"\n50544631x\n")
        for trust in ("", " --trust"):
            status, written, told = self.answer(f"one.facts bad.facts{trust}")
            self.assertEqual((status, written, told.splitlines()[1]), (2, b"", "bad.facts:2:9"))

    def test_audits_tell_how_many_tiles_are_missing(self):
        for files, status, missing in (("one.facts", 0, 4), ("one.facts two.facts", 0, 0), ("doubtful.facts", 6, 6)):
            with self.subTest(files):
                ended, _, told = self.tf(f"audit p.pipe p.pgm {files} {self.sides}")
                self.assertEqual((ended, told), (status, f"missing {missing} of 8\n"))

    def counted(self, line: str) -> tuple[bytes, list[str]]:
        """The facts that a line makes, and what the program was asked for."""
        self.write("counting", COUNTING.encode())
        os.chmod(f"{self.room}/counting", 0o755)
        status, written, told = self.tf(f"facts {line}", TILEFARM=f"{self.room}/counting")
        self.assertEqual((status, told), (0, ""))
        runs = self.content("runs").decode().splitlines()
        os.unlink(f"{self.room}/runs")
        return written, [it.split()[0] for it in runs]

    def is_true(self, line: str, written: bytes, tiles: int) -> None:
        """Whether these are the facts of so many tiles, all of them true by `audit`."""
        self.write("made.facts", written)
        status, verdicts, told = self.tf(f"audit {line.replace('.pgm', '.pgm made.facts')}")
        self.assertEqual((status, told, [it.split()[0] for it in verdicts.decode().splitlines()]), (0, f"missing 0 of {tiles}\n", ["True"] * tiles))

    def test_all_facts_come_of_one_run(self):
        self.write("big.pgm", b"P5 320 256 255 " + bytes(at * at % 251 for at in range(320 * 256)))
        for words in ("", "--stored", "--percent 7"):
            line = f"p.pipe big.pgm --rows 32 --cols 16 {words}"
            written, runs = self.counted(line)
            self.assertEqual(runs, ["check", "plan", "world"] + ["world"] * (words == "--percent 7"))
            self.is_true(line, written, 320)

    def test_facts_of_more_tiles_than_a_script_makes_are_merged(self):
        samples = bytes(at * at % 251 for at in range(182 * 182))
        self.write("big.pgm", b"P5 182 182 255 " + samples)
        written, runs = self.counted("p.pipe big.pgm --rows 1 --cols 1 --of dark")
        self.assertEqual(runs, ["check", "plan", "world", "world", "merge"])
        self.assertEqual([it.numbers for it in facts.facts_of(written.strip())], [(it // 2,) for it in samples])
