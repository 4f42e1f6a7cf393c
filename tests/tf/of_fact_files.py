"""Tests of fact files that are many, large or packed: merges by rounds, what tf holds of them, and gzip."""
import contextlib
import gzip
import io
import os
import random
import re
import subprocess
import sys
import unittest
from unittest import mock

from reference.facts import Content, Fact, content_of, file_of, merged, mixed

from .shared import COPY, PROGRAM, TOP, InRoom

from _tf import fact_calls, fact_rounds
from _tf.fact_spools import spool_of
from _tf.text import Failed

JOBS = [(bytes([it]) * 32, bytes([9 - it]) * 32) for it in range(4)]
# the side of a picture, and of its tiles
SIDE, TILE = 2048, 256
# runs tf, and tells how much memory its process has held at most
COUNTED = """import sys
from _tf import main
status = main.main()
print(next(int(it.split()[1]) for it in open('/proc/self/status') if it.startswith('VmHWM')), file=sys.stderr)
sys.exit(status)
"""


def some_fact(chance: random.Random) -> Fact:
    kind, job = chance.randrange(2), chance.choice(JOBS)
    numbers = tuple(chance.randrange(-3, 4) for _ in range(chance.randrange(1, 40)))
    return Fact(*job, chance.randrange(2), chance.randrange(3), chance.randrange(3), kind, numbers)


def some_line(chance: random.Random, pool: list[Fact]) -> str:
    """A line of a fact file, or an empty one."""
    if chance.random() < 0.1:
        return ""
    retired = chance.sample(JOBS[2:], chance.choice((0, 0, 0, 1, 2)))
    facts = sorted({it for it in chance.sample(pool, chance.randrange(len(pool))) if it.ids() not in retired})
    digits = file_of(facts, retired).hex()
    return mixed(digits) if chance.random() < 0.3 else digits


def some_texts(chance: random.Random) -> list[bytes]:
    """Texts of fact files, of which the last line of some has no end."""
    pool = [some_fact(chance) for _ in range(60)]
    texts = ("\n".join(some_line(chance, pool) for _ in range(chance.randrange(1, 5))) for _ in range(chance.randrange(1, 4)))
    return [it.encode() + b"\n" * chance.randrange(2) for it in texts]


def files_of(texts: list[bytes]) -> fact_calls.FactFiles:
    return fact_calls.FactFiles([spool_of(f"{number}.facts", iter([text])) for number, text in enumerate(texts)], {}, ["tf"])


@mock.patch.dict(os.environ, {"TILEFARM": PROGRAM})
class Rounds(unittest.TestCase):
    """Merges by rounds of few digits, beside what docs/FORMATS.md says of the lines."""

    def test_rounds_write_what_one_merge_is_to_write(self):
        chance, rounds = random.Random(8), []
        merge = fact_rounds.Rounds.merge
        for number in range(8):
            texts = some_texts(chance)
            wanted = merged(b"\n".join(it.removesuffix(b"\n") for it in texts))
            for digits in (1, 4000):
                with self.subTest(number=number, digits=digits), mock.patch.object(fact_rounds.Rounds, "merge", lambda it: rounds.append(merge(it))):
                    files = files_of(texts)
                    self.assertEqual((0, b"".join(fact_rounds.merged(files.spools, files.run, digits))), wanted)
        self.assertGreater(len(rounds), 100)

    def test_the_first_fault_is_told_whatever_round_finds_one(self):
        chance = random.Random(9)
        for number in range(12):
            texts = some_texts(chance)
            at = chance.randrange(len(texts))
            spot = chance.randrange(len(texts[at]) + 1)
            texts[at] = texts[at][:spot] + chance.choice((b"x", b" ", b"0", b"00", b"ff", b"")) + texts[at][spot + chance.randrange(3) :]
            status, wanted = merged(b"".join(it if it.endswith(b"\n") or not it else it + b"\n" for it in texts))
            files = files_of(texts)
            with self.subTest(number), mock.patch.object(fact_rounds.merged, "__defaults__", (1,)), contextlib.redirect_stderr(io.StringIO()) as told:
                if status:
                    self.assertRaises(Failed, files.union)
                    self.assertEqual(told.getvalue().splitlines()[0].encode() + b"\n", wanted)
                else:
                    self.assertEqual(b"".join(files.union()), wanted)

    def test_shares_are_fact_files_of_all_facts(self):
        facts = sorted({some_fact(random.Random(it)) for it in range(50)})
        content = Content([JOBS[3]], [it for it in facts if it.ids() != JOBS[3]])
        union = files_of([content.file().hex().encode()]).union()
        for most in (1, 1000, 10**6):
            shares = [(count, b"".join(blocks)) for count, blocks in union.shares(most)]
            found = [content_of(line) for _, line in shares]
            self.assertEqual([it.retired for it in found], [content.retired] + [[]] * (len(found) - 1))
            self.assertEqual([fact for it in found for fact in it.facts], content.facts)
            self.assertEqual([count for count, _ in shares], [len(it.facts) for it in found])
            self.assertTrue(all(len(line) <= most + 1 for count, line in shares if count > 1))


class LargeFacts(InRoom):
    """Facts of a picture of four million points, whose program copies it."""

    def setUp(self):
        super().setUp()
        self.raster = random.Random(5).randbytes(SIDE) * SIDE
        self.write("big.pgm", b"P5\n%d %d\n255\n" % (SIDE, SIDE) + self.raster)
        self.sides = f"--rows {TILE} --cols {TILE}"
        check = self.tf(f"check p.pipe big.pgm {self.sides}")[1].decode().splitlines()
        ids = [bytes.fromhex(it.split()[1]) for it in check[:2]]
        facts = [self.fact(ids, row, col) for row in range(SIDE // TILE) for col in range(SIDE // TILE)]
        self.write("odd.facts", self.file(facts[::2]))
        self.write("even.facts", self.file(facts[1::2]))
        self.write("all.facts", self.file(facts))
        self.write("none.facts", self.file([]))

    def fact(self, ids: list[bytes], row: int, col: int) -> bytes:
        """The bytes of the fact of a tile."""
        numbers = bytearray(4 * TILE * TILE)
        starts = range(row * TILE * SIDE + col * TILE, (row + 1) * TILE * SIDE, SIDE)
        numbers[3::4] = b"".join(self.raster[it : it + TILE] for it in starts)
        return Fact(*ids, 1, row, col, 0, ()).record()[:-4] + (TILE * TILE).to_bytes(4, "big") + numbers

    def file(self, facts: list[bytes]) -> bytes:
        return (b"PTF1" + len(facts).to_bytes(4, "big") + b"".join(facts)).hex().encode() + b"\n"

    def counted(self, line: str) -> tuple[int, str]:
        """How many bytes tf holds at most, and what it tells."""
        env = {**os.environ, "TILEFARM": PROGRAM, "PYTHONPATH": f"{TOP}/python/tilefarm"}
        ran = subprocess.run([sys.executable, "-S", "-c", COUNTED, *line.split()], cwd=self.room, env=env, capture_output=True, text=True)
        *told, most = ran.stderr.splitlines()
        self.assertEqual((ran.returncode, ran.stdout), (0, ""), told)
        return 1024 * int(most), "\n".join(told)

    def test_merges_go_in_rounds_and_hold_little(self):
        least, _ = self.counted("merge none.facts -o out.facts")
        most, told = self.counted("merge odd.facts even.facts -o out.facts --memory")
        self.assertEqual(self.content("out.facts"), self.content("all.facts"))
        self.assertLess(most - least, 2 * len(self.raster))
        self.assertLess(1e6 * float(re.fullmatch(r"tf: (\d+\.\d) MB held at most", told)[1]), 2.5 * fact_rounds.ROUND)
        most, _ = self.counted("merge odd.facts even.facts -o out.facts.gz")
        self.assertEqual(gzip.decompress(self.content("out.facts.gz")), self.content("all.facts"))
        self.assertLess(most - least, 2 * len(self.raster))

    def test_answers_hold_the_picture_and_the_result(self):
        least, _ = self.counted("merge none.facts -o out.facts")
        for more in ("", " --trust"):
            most, told = self.counted(f"answer p.pipe big.pgm odd.facts even.facts {self.sides} -o out.pgm{more}")
            self.assertEqual((self.content("out.pgm"), told), (self.content("big.pgm"), ""))
            self.assertLess(most - least, 2 * len(self.raster) + (4 << 20))


class PackedFacts(InRoom):
    def setUp(self):
        super().setUp()
        self.sides = "--rows 2 --cols 2"
        for part in (1, 2):
            self.assertEqual(self.tf(f"facts p.pipe p.pgm {self.sides} --part {part}/2 -o {part}.facts"), (0, b"", ""))
            self.assertEqual(self.tf(f"facts p.pipe p.pgm {self.sides} --part {part}/2 -o {part}.facts.gz"), (0, b"", ""))
        self.union = self.tf("merge 1.facts 2.facts")[1]

    def test_what_gzip_packed_is_taken_for_what_it_was(self):
        for part in (1, 2):
            self.assertEqual(gzip.decompress(self.content(f"{part}.facts.gz")), self.content(f"{part}.facts"))
        self.write("both.gz", self.content("1.facts.gz") + self.content("2.facts.gz"))
        self.write("odd-name", gzip.compress(self.content("2.facts")))
        verdicts = b"".join(b"True 1 %d %d\n" % (it // 2, it % 2) for it in range(4))
        for line, stdin in (("1.facts.gz 2.facts.gz", b""), ("1.facts odd-name", b""), ("both.gz", b""), ("2.facts.gz -", self.content("1.facts.gz"))):
            with self.subTest(line):
                self.assertEqual(self.tf(f"merge {line}", stdin), (0, self.union, ""))
                self.assertEqual(self.tf(f"answer p.pipe p.pgm {line} {self.sides}", stdin)[:2], (0, self.tf("eval p.pipe p.pgm")[1]))
                self.assertEqual(self.tf(f"audit p.pipe p.pgm {line} {self.sides}", stdin)[1:], (verdicts, "missing 0 of 4\n"))
        self.assertEqual(self.tf("facts --list 1.facts.gz")[1].replace(b".gz", b""), self.tf("facts --list 1.facts")[1])

    def test_equal_facts_are_equal_packed_files(self):
        self.assertEqual(self.tf("merge 2.facts.gz 1.facts -o one.gz"), (0, b"", ""))
        self.assertEqual(self.tf("merge 1.facts.gz 2.facts -o other.gz"), (0, b"", ""))
        self.assertEqual(self.content("one.gz"), self.content("other.gz"))
        self.assertEqual(gzip.decompress(self.content("one.gz")), self.union)

    def test_what_cannot_be_unpacked_is_refused(self):
        packed = self.content("1.facts.gz")
        self.write("cut.gz", packed[:-9])
        self.write("bad.gz", packed[:20] + bytes([packed[20] ^ 255]) + packed[21:])
        for name, said in (("cut.gz", "tf: cut.gz: what gzip packed is cut off\n"), ("bad.gz", "tf: bad.gz: what gzip packed ")):
            self.refused(f"merge 2.facts {name}", 2, said)
            self.refused(f"answer p.pipe p.pgm 2.facts {name} {self.sides}", 2, said)
            self.refused(f"audit p.pipe p.pgm 2.facts {name} {self.sides}", 2, said)

    def test_what_is_no_facts_is_not_packed(self):
        for line in ("check p.pipe p.pgm", f"audit p.pipe p.pgm 1.facts {self.sides}", "eval p.pipe p.pgm"):
            self.refused(f"{line} -o out.gz", 1, "writes no .gz")
