"""Tests of one program over many pictures, and of tables and drawings of accumulators."""
import os
import pty
import subprocess
import sys
from unittest import mock

from .shared import COPY, GREY, PROGRAM, TOP, InRoom, most_at_a_time, until_begun

from _tf import blame_input, hist, many, png
from _tf.netpbm import Picture
from _tf.text import Refused
from _tf.words import asked

COUNTS = COPY + "accum h [0 .. 3] over (x in [0 .. R-1], y in [0 .. C-1]) sum 1 at I(x, y) / 5;\n"
RAW = b"P5\n4 4\n255\n" + bytes(range(1, 17))
# runs tf, and tells which files it opens
OPENED = """import os, sys
sys.path.insert(0, sys.argv.pop(1))
from _tf.main import main
opened = []
sys.addaudithook(lambda event, given: event == "open" and isinstance(given[0], str) and opened.append(given[0]))
status = main()
print(*map(os.path.abspath, opened), sep="\\n")
sys.exit(status)"""


class ManyPictures(InRoom):
    def setUp(self):
        super().setUp()
        os.makedirs(f"{self.room}/out")
        for number in range(3):
            self.write(f"in{number}.pgm", b"P5 1 1 255 %c" % number)

    def test_each_has_its_result(self):
        for jobs in ("", "--jobs 3"):
            self.assertEqual(self.tf(f"eval p.pipe in0.pgm in1.pgm in2.pgm p.pgm -o out/{{name}}.pgm {jobs}"), (0, b"", ""))
            self.assertEqual(sorted(os.listdir(f"{self.room}/out")), ["in0.pgm", "in1.pgm", "in2.pgm", "p.pgm"])
            for number in range(3):
                self.assertEqual(self.content(f"out/in{number}.pgm"), b"P5\n1 1\n255\n%c" % number)
        self.assertEqual(self.content("out/p.pgm"), RAW)
        self.assertEqual(self.tf("eval p.pipe in1.pgm -o {name}.raw.pgm"), (0, b"", ""))
        self.assertEqual(self.content("in1.raw.pgm")[-1:], b"\1")

    def test_as_many_programs_run_at_a_time_as_jobs_says(self):
        """Of pictures that are read and written beside each other, and of others."""
        for number in range(9):
            self.write(f"b{number}.pgm", b"P5 3 1 255 %c%c%c" % (number, number, number))
            self.write(f"b{number}.png", png.write(Picture(3, 1, 1, 255, bytes([number]) * 3))[0])
        for form in ("pgm", "png"):
            names = " ".join(f"b{number}.{form}" for number in range(9))
            for words, jobs in (("", 1), ("--jobs 3", 3)):
                env = self.noting(until_begun(jobs))
                self.assertEqual(self.tf(f"eval p.pipe {names} -o out/{{name}}.{form} {words}", **env), (0, b"", ""))
                self.assertEqual(most_at_a_time(self.noted()), jobs)
        self.assertEqual([self.content(f"out/b{number}.pgm")[-1] for number in range(9)], [*range(9)])

    def test_results_are_told_in_order_where_the_first_is_slow(self):
        self.write("p.pipe", COUNTS.encode())
        for number in range(6):
            self.write(f"b{number}.pgm", b"P5 3 1 255 %c%c%c" % (3 * number, 3 * number, 3 * number))
        env = self.noting('[ "$first" != 0 ] || until grep -q "ends 6" noted; do sleep 0.01; done')
        wanted = [f"b{at}.pgm: h 0..3: {' '.join('3' if bin == min(3 * at // 5, 3) else '0' for bin in range(4))}" for at in range(6)]
        status, written, told = self.tf(f"eval p.pipe {' '.join(f'b{at}.pgm' for at in range(6))} -o out/{{name}}.pgm --jobs 3", **env)
        self.assertEqual((status, written.decode().splitlines(), told), (0, wanted, ""))

    def test_twice_as_many_pictures_take_twice_as_many_looks_at_files(self):
        counts = []
        for every in (20, 40):
            pictures = [f"{self.room}/b{number}.pgm" for number in range(every)]
            for it in pictures:
                self.write(os.path.basename(it), b"P5 1 1 255 a")
                self.write(f"out/{os.path.basename(it)}", b"older")
            with mock.patch.object(os, "stat", side_effect=os.stat) as looks:
                many.each(asked(["eval", f"{self.room}/p.pipe", *pictures, "-o", f"{self.room}/out/{{name}}.pgm"]))
            counts.append(looks.call_count)
        self.assertLess(counts[1], 2.5 * counts[0], counts)

    def test_small_pictures_take_no_file_beside_their_results(self):
        for name in ("in0.pgm", "in1.pgm", "p.pgm"):
            self.write(f"{name.removesuffix('.pgm')}.ppm", self.content(name))
        line = "eval p.pipe in0.ppm in1.ppm p.ppm -o out/{name}.pgm --jobs 2"
        os.mkdir(f"{self.room}/tmp")
        env = {**os.environ, "TILEFARM": PROGRAM, "TMPDIR": f"{self.room}/tmp"}
        ran = subprocess.run([sys.executable, "-S", "-c", OPENED, f"{TOP}/python/tilefarm", *line.split()], cwd=self.room, env=env, capture_output=True, text=True,
                             check=True)
        opened = {it.partition("/.")[0] for it in ran.stdout.splitlines() if it.startswith(self.room)}
        self.assertEqual(opened, {f"{self.room}/{it}" for it in ("p.pipe", "in0.ppm", "in1.ppm", "p.ppm", "out")})

    def test_what_failed_is_told_and_the_others_are_done(self):
        self.write("bad.pgm", b"P5 1 1 255 ")
        status, written, told = self.tf("eval p.pipe in0.pgm bad.pgm none.pgm in2.pgm -o out/{name}.pgm --jobs 2")
        self.assertEqual((status, written, sorted(os.listdir(f"{self.room}/out"))), (2, b"", ["in0.pgm", "in2.pgm"]))
        self.assertEqual(told.splitlines(), ["tf: bad.pgm: the picture is cut off", "tf: none.pgm: No such file or directory", "tf: 2 of 4 failed"])

    def test_why_one_failed_is_a_line_for_people(self):
        self.write("fake.jpg", b"hello")
        self.assertEqual(self.tf("eval p.pipe fake.jpg in0.pgm -o out/{name}.pgm")[2], "tf: fake.jpg: no picture that is known\ntf: 1 of 2 failed\n")
        for fault in blame_input.PICTURE_CURES:
            self.assertIn(fault, many.FAULTS)
        self.write("p.pipe", COPY.replace("I(x, y)", "J(x, y)").encode())
        told = self.tf("eval p.pipe in0.pgm in1.pgm -o out/{name}.pgm")[2].splitlines()
        self.assertEqual([it.partition(": p.pipe:3:51: ")[0] for it in told[:2]], ["tf: in0.pgm", "tf: in1.pgm"])
        self.assertIn("J", told[0].partition(": p.pipe:3:51: ")[2])

    def test_what_is_done_is_left_out(self):
        line = "eval p.pipe in0.pgm in1.pgm in2.pgm -o out/{name}.pgm --skip-done"
        self.assertEqual(self.tf(line), (0, b"", ""))
        for number in range(3):
            os.utime(f"{self.room}/out/in{number}.pgm", (2e9, 2e9))
        os.utime(f"{self.room}/in1.pgm", (3e9, 3e9))
        self.write("out/in0.pgm", b"kept")
        os.utime(f"{self.room}/out/in0.pgm", (2e9, 2e9))
        self.assertEqual(self.tf(line), (0, b"", "tf: 2 of 3 were done before\n"))
        self.assertEqual((self.content("out/in0.pgm"), self.content("out/in1.pgm")[-1:]), (b"kept", b"\1"))
        os.utime(f"{self.room}/p.pipe", (4e9, 4e9))
        self.assertEqual(self.tf(line), (0, b"", ""))

    def test_folders_are_made_and_endings_are_taken(self):
        self.write("x.ppm", b"P5 1 1 255 x")
        self.assertEqual(self.tf("eval p.pipe in0.pgm x.ppm -o new/deep/{name}-{ending}.{ending}"), (0, b"", ""))
        self.assertEqual(sorted(os.listdir(f"{self.room}/new/deep")), ["in0-pgm.pgm", "x-ppm.ppm"])
        self.refused("eval p.pipe in0.pgm in1.pgm -o none/{name}.csv", 1, "eval writes no .csv")
        self.refused("eval p.pipe in0.pgm in1.pgm -o p.pipe/{name}.pgm", 4, "p.pipe")

    def test_a_terminal_is_told_how_many_are_done(self):
        ours, theirs = pty.openpty()
        self.write("slow", b"#!/bin/sh\ncat > /dev/null\nsleep 2\nprintf 'P5\\n1 1\\n255\\na'\n")
        os.chmod(f"{self.room}/slow", 0o755)
        words = [f"{TOP}/tools/tf", "eval", "p.pipe", "in0.pgm", "in1.pgm", "in2.pgm", "-o", "out/{name}.pgm"]
        with subprocess.Popen(words, cwd=self.room, env={**os.environ, "TILEFARM": f"{self.room}/slow"}, stdout=theirs, stderr=theirs):
            os.close(theirs)
            told = b""
            try:
                while part := os.read(ours, 4096):
                    told += part
            except OSError:
                pass
        os.close(ours)
        self.assertRegex(told.decode(), r"tf: eval, 1 of 3, \d+ s left \(\d+ s\)")

    def test_all_are_done_by_one_process(self):
        self.write("noting", b"#!/bin/sh\necho $PPID >> parents\nexec \"$WHICH\" \"$@\"\n")
        os.chmod(f"{self.room}/noting", 0o755)
        env = {"TILEFARM": f"{self.room}/noting", "WHICH": PROGRAM}
        for jobs in (1, 3):
            self.assertEqual(self.tf(f"eval p.pipe in0.pgm in1.pgm in2.pgm p.pgm -o out/{{name}}.pgm --jobs {jobs}", **env), (0, b"", ""))
            self.assertEqual(self.content("out/p.pgm"), RAW)
            parents = self.content("parents").split()
            self.assertEqual((len(parents), len({*parents})), (4, 1))
            os.remove(f"{self.room}/parents")

    def test_what_can_be_read_once_is_read_for_all(self):
        self.assertEqual(self.tf("eval - in1.pgm p.pgm -o out/{name}.pgm --jobs 2", COPY.encode()), (0, b"", ""))
        self.assertEqual((self.content("out/in1.pgm")[-1:], self.content("out/p.pgm")), (b"\1", RAW))
        self.assertEqual(self.tf("eval p.pipe - in1.pgm -o out/x{name}.pgm", GREY.encode()), (0, b"", ""))
        self.assertEqual(self.content("out/x-.pgm"), RAW)

    def test_several_results_of_one_run(self):
        self.write("p.pipe", (COPY + "func g(x in [0 .. R-1], y in [0 .. 0]) { else : 2 * I(x, y) - 5; }\n").encode())
        self.assertEqual(self.tf("eval p.pipe p.pgm -o f.pgm --stage g=g.pgm --stage I=I.png"), (0, b"", ""))
        self.assertEqual((self.content("f.pgm"), self.content("g.pgm")), (RAW, b"P5\n1 4\n255\n" + bytes([0, 5, 13, 21])))
        self.assertEqual(png.read(self.content("I.png"), "")[0].raster, bytes(range(1, 17)))
        self.assertEqual(self.tf("eval p.pipe p.pgm in1.pgm -o out/{name}.pgm --stage g=out/{name}-g.pgm"), (0, b"", ""))
        self.assertEqual((self.content("out/p-g.pgm"), self.content("out/in1-g.pgm")), (self.content("g.pgm"), b"P5\n1 1\n255\n\0"))
        for words, said in (("-o f.pgm --stage g=f.pgm", "two results"), ("-o f.pgm --stage g=g.txt", "a stage is a picture"), ("-o f.pgm --stage g", "has values"),
                            ("-o f.pgm --stage g=p.pgm", "the picture is read"), ("-o f.pgm --stage g=a.pgm --stage g=b.pgm", "two files"),
                            ("-o f.pgm --stage h=h.pgm", "no stage h"), ("-o f.pgm --stage g=none/g.pgm", "no folder"),
                            ("-o f.pgm --parts 2 --stage g=g2.pgm", "one run over a whole picture"), ("in1.pgm -o {name}.o.pgm --stage g=g.pgm", "{name}")):
            with self.subTest(words):
                self.assertIn(said, self.tf(f"eval p.pipe p.pgm {words}")[2])
        self.refused("run p.pipe p.pgm -o o.pgm --stage g=q.pgm", 1, "goes with eval")

    def test_totals_stand_behind_their_pictures(self):
        self.write("p.pipe", COUNTS.encode())
        self.assertEqual(self.tf("eval p.pipe in0.pgm p.pgm -o out/{name}.pgm --jobs 2"),
                         (0, b"in0.pgm: h 0..3: 1 0 0 0\np.pgm: h 0..3: 4 5 5 2\n", ""))

    def test_names_that_do_not_serve(self):
        self.write("out/in0.pgm", b"P5 1 1 255 a")
        for line, said in (("in0.pgm in1.pgm -o out/x.pgm", "-o 'out/{name}.png'"), ("in0.pgm in1.pgm", "-o 'out/{name}.png'"),
                           ("in0.pgm out/in0.pgm -o o{name}.pgm", "in0.pgm and out/in0.pgm would both become oin0.pgm"),
                           ("in0.pgm in1.pgm -o {name}.pgm", "in0.pgm: the picture is read from this file"),
                           ("out/in0.pgm in0.pgm -o {name}.pgm", "in0.pgm: the picture is read from this file"),
                           ("in0.pgm in1.pgm -o {name}.csv", "eval writes no .csv"),
                           ("in0.pgm in1.pgm -o out/{name}.pgm --jobs x", "--jobs takes a number")):
            with self.subTest(line):
                self.refused(f"eval p.pipe {line}", 1, said)


class Histograms(InRoom):
    def test_tables(self):
        self.write("p.pipe", COUNTS.encode())
        self.assertEqual(self.tf("hist p.pipe p.pgm -o h.csv"), (0, b"", ""))
        self.assertEqual(self.content("h.csv"), b"bin,h\n0,4\n1,5\n2,5\n3,2\n")
        self.assertEqual(hist.csv("h -1..1: -5 9223372036854775807 10\n"), b"bin,h\n-1,-5\n0,\n1,10\n")

    def test_ticks_are_round(self):
        self.assertEqual(hist.ticks(0, 4), [0, 1, 2, 3, 4])
        self.assertEqual(hist.ticks(0, 255), [0, 100, 200])
        self.assertEqual(hist.ticks(-70, 130), [-50, 0, 50, 100])
        self.assertEqual(hist.ticks(0, 0), [0])
        drawing = hist.svg("h 0..255:" + " 7" * 256 + "\n")
        for words in (b">0<", b">100<", b">200<", b">6<"):
            self.assertIn(words, drawing)

    def test_logarithms(self):
        self.assertIn(b"(logarithmic)", hist.svg("h 0..2: 0 9 99999\n", is_log=True))
        heights = [hist.Scale(0, 999, True).part(it) for it in (0, 9, 99, 999)]
        for found, wanted in zip(heights, (0, 1 / 3, 2 / 3, 1)):
            self.assertAlmostEqual(found, wanted)
        self.assertEqual(hist.Scale(0, 99999, True).ticks(), [0, 1, 10, 100, 1000, 10000])
        with self.assertRaisesRegex(Refused, "below 0"):
            hist.svg("h 0..1: -1 1\n", is_log=True)
