"""Tests of tf frames: each result is that of tf eval, in the order of the frames; streams, folders and numbered names; what ends it; its time."""
import os
import re
import resource
import shutil
import subprocess
import sys
import threading
import time
import unittest
from typing import Callable

from .shared import COPY, PROGRAM, TOP, InRoom, most_at_a_time, until_begun

from _tf import frame_files, frames, png
from _tf.netpbm import Picture

COLOURED = COPY.replace("image I(R, C)", "image I, J, K(R, C)")
SOBEL = f"{TOP}/examples/sobel/sobel.pipe"


def pgm(*samples: int, most: int = 255) -> bytes:
    """A picture of one row."""
    return Picture(len(samples), 1, 1, most, b"".join(it.to_bytes(1 if most < 256 else 2, "big") for it in samples)).raw()


class Frames(InRoom):
    def setUp(self):
        super().setUp()
        self.frames = [pgm(*range(at, at + 3)) for at in range(12)]
        os.mkdir(f"{self.room}/in")
        for number, frame in enumerate(self.frames, 3):
            self.write(f"in/f{number}.pgm", frame)
        self.write("p.pipe", COPY.replace("I(x, y);", "200 - I(x, y);").encode())
        self.results = [pgm(*(200 - it for it in range(at, at + 3))) for at in range(12)]

    def contents(self, folder: str, names: list[str]) -> list[bytes]:
        self.assertEqual(sorted(os.listdir(f"{self.room}/{folder}")), sorted(names))
        return [self.content(f"{folder}/{it}") for it in names]

    def test_a_stream_is_a_stream(self):
        for words in ("", "--jobs 3", "-o -"):
            self.assertEqual(self.tf(f"frames p.pipe - {words}", b"".join(self.frames)), (0, b"".join(self.results), ""))

    def test_numbered_names(self):
        self.assertEqual(self.tf("frames p.pipe in/f%d.pgm -o out/g%03d.pgm --jobs 2"), (0, b"", ""))
        self.assertEqual(self.contents("out", [f"g{at:03d}.pgm" for at in range(3, 15)]), self.results)
        self.assertEqual(self.tf("frames p.pipe - -o of-stream/g%d.pgm", b"".join(self.frames)), (0, b"", ""))
        self.assertEqual(self.contents("of-stream", [f"g{at}.pgm" for at in range(1, 13)]), self.results)
        os.remove(f"{self.room}/in/f6.pgm")
        self.assertEqual(self.tf("frames p.pipe in/f%d.pgm"), (0, b"".join(self.results[:3]), ""))

    def test_folders_in_the_order_of_their_numbers(self):
        self.assertEqual(self.tf("frames p.pipe in"), (0, b"".join(self.results), ""))
        self.assertEqual(self.tf("frames p.pipe in -o out"), (0, b"", ""))
        self.assertEqual(self.contents("out", [f"f{at}.pgm" for at in range(3, 15)]), self.results)
        self.assertEqual(self.tf("frames p.pipe in -o named/{name}-r.pgm"), (0, b"", ""))
        self.assertEqual(self.contents("named", [f"f{at}-r.pgm" for at in range(3, 15)]), self.results)

    def test_png_both_ways(self):
        self.assertEqual(self.tf("frames p.pipe in -o png/{name}.png"), (0, b"", ""))
        made = self.contents("png", [f"f{at}.png" for at in range(3, 15)])
        self.assertEqual([png.read(it, "")[0].raw() for it in made], self.results)
        self.assertEqual(self.tf("frames p.pipe png"), (0, b"".join(self.frames), ""))

    def test_frames_of_other_sides_planes_and_samples(self):
        self.write("ask.pipe", COPY.replace("image", "param M; # greatest sample\nimage").replace("I(x, y);", "M - I(x, y);")
                   .replace("max 255;", "max 255; # greatest sample").encode())
        given = pgm(1, 2) + pgm(5, 600, 999, most=999) + pgm(7)
        self.assertEqual(self.tf("frames ask.pipe -", given), (0, pgm(254, 253) + pgm(994, 399, 0, most=999) + pgm(248), ""))
        self.write("colours.pipe", COLOURED.encode())
        colours = Picture(1, 1, 3, 255, b"abc").raw()
        self.assertEqual(self.tf("frames colours.pipe -", 2 * colours), (0, 2 * pgm(ord("a")), ""))
        self.assertEqual(self.tf("frames p.pipe - --grey", colours), (0, pgm(200 - 98), ""))

    def test_totals_stand_beside_files(self):
        self.write("p.pipe", (COPY + "accum h [0 .. 1] over (x in [0 .. R-1], y in [0 .. C-1]) sum 1 at I(x, y) / 2;\n").encode())
        status, written, _ = self.tf("frames p.pipe in/f%d.pgm -o out-%d.pgm")
        self.assertEqual((status, written.splitlines()[:3]), (0, [b"in/f3.pgm: h 0..1: 2 1", b"in/f4.pgm: h 0..1: 1 2", b"in/f5.pgm: h 0..1: 0 2"]))
        self.refused("frames p.pipe in", 1, "no place for the lines of accumulators")

    def test_the_first_that_fails_ends_it(self):
        for wrong, said in ((b"P5 3 1 255 ab", "the stream ends within it"), (b"P2 1 1 255 7", "no raw PGM or PPM begins here"), (b"GIF89a", "no raw PGM")):
            status, written, told = self.tf("frames p.pipe -", b"".join(self.frames[:5]) + wrong)
            self.assertEqual((status, written), (2, b"".join(self.results[:5])))
            self.assertIn(f"frame 6 of the stream: {said}" if "within" in said else said, told)
            self.assertIn("5 frames were done before", told)
        self.write("in/f6.pgm", b"P5 3 1 9 abc")
        status, _, told = self.tf("frames p.pipe in -o out --jobs 4")
        self.assertEqual((status, sorted(os.listdir(f"{self.room}/out"))), (2, ["f3.pgm", "f4.pgm", "f5.pgm"]))
        self.assertIn("in/f6.pgm: picture: 8 SampleTooBig", told)

    def test_what_is_refused(self):
        for words, said in (("in/f3.pgm -o out", "frames are a folder, a numbered name"), ("in -o in", "the picture is read from this file"),
                            ("in -o x.pgm", "as many results"), ("- -o out", "as many results"), ("none-%d.pgm -o out", "there is no none-0.pgm"),
                            ("in in -o out", "PROGRAM and FRAMES"), ("in -o out --print", "frames takes no --print"), ("- -o o%d.csv", "no picture"),
                            ("in -o {name}.csv", "eval writes no .csv"), ("in -o out --jobs 0", "--jobs takes a number"), ("-", "the stream has no picture")):
            with self.subTest(words):
                status, written, told = self.tf(f"frames p.pipe {words}")
                self.assertEqual((status in (1, 2), written), (True, b""))
                self.assertIn(said, told)
        self.write("in/f3.png", png.write(Picture(1, 1, 1, 255, b"a"))[0])
        status, _, told = self.tf("frames p.pipe in -o out/{name}.pgm")
        self.assertEqual(status, 1)
        self.assertIn("as another frame has", told)

    def test_no_frame_is_replaced_by_the_result_of_another(self):
        os.symlink("in/f5.pgm", f"{self.room}/g3.pgm")
        os.link(f"{self.room}/in/f6.pgm", f"{self.room}/h3.pgm")
        # (the frames of a folder are numbered from 1: the result of the third one would be the first one's file)
        for line, path, done in (("frames p.pipe in/f%d.pgm -o g%d.pgm", "g3.pgm", 0), ("frames p.pipe in/f%d.pgm -o h%d.pgm --jobs 3", "h3.pgm", 0),
                                 ("frames p.pipe in -o in/f%d.pgm", "in/f3.pgm", 2)):
            status, _, told = self.tf(line)
            said = f"tf: {path}: another frame is read from this file, which -o would replace; name another one\n"
            self.assertEqual((status, told), (1, f"{said}tf: {done} frames were done before this one failed\n"))
            self.assertEqual([self.content(f"in/f{number}.pgm") for number in range(3, 15)], self.frames)

    def test_cut_results_are_counted(self):
        self.write("p.pipe", COPY.encode())
        given = pgm(1, 2, most=300) + pgm(299, 300, most=300) + pgm(298, 2, most=300)
        status, written, told = self.tf("frames p.pipe -", given)
        self.assertEqual((status, written), (0, pgm(1, 2) + pgm(255, 255) + pgm(255, 2)))
        self.assertEqual((told.count("samples are cut at"), told.splitlines()[-1]), (1, "tf: 2 of 3 results are cut"))
        self.assertEqual(self.tf("frames p.pipe - --strict", given)[:2], (3, pgm(1, 2)))

    def test_no_more_frames_are_taken_than_wait(self):
        side, every, written = 1000, 40, []
        frame = Picture(side, side, 1, 255, bytes(side * side)).raw()
        command = [f"{TOP}/tools/tf", "frames", "p.pipe", "-"]
        with subprocess.Popen(command, cwd=self.room, env={**os.environ, "TILEFARM": PROGRAM}, stdin=subprocess.PIPE, stdout=subprocess.PIPE) as ran:
            def feed():
                for _ in range(every):
                    ran.stdin.write(frame)
                    written.append(None)
                ran.stdin.close()

            feeding = threading.Thread(target=feed)
            feeding.start()
            time.sleep(4)
            # those that wait, one that is put out, one that was asked for, and what the pipes hold
            self.assertLessEqual(len(written), frames.AHEAD + 3)
            self.assertEqual(len(ran.stdout.read()), every * len(frame))
            feeding.join()

    def test_results_are_in_order_where_the_first_frame_is_slow(self):
        env = self.noting('[ "$first" != 0 ] || until grep -q "ends 2" noted; do sleep 0.01; done')
        self.assertEqual(self.tf("frames p.pipe - --jobs 3", b"".join(self.frames), **env), (0, b"".join(self.results), ""))
        noted = self.noted()
        self.assertLess(noted.index(("ends", 2)), noted.index(("ends", 0)))
        self.assertEqual(self.tf("frames p.pipe in -o out --jobs 3", **env), (0, b"", ""))
        self.assertEqual(self.contents("out", [f"f{at}.pgm" for at in range(3, 15)]), self.results)

    def test_further_frames_are_begun_while_the_first_is_slow(self):
        """As many as wait: two for each job."""
        env = self.noting('[ "$first" != 0 ] || until grep -q "ends 3" noted; do sleep 0.01; done')
        self.assertEqual(self.tf("frames p.pipe - --jobs 2", b"".join(self.frames), **env), (0, b"".join(self.results), ""))
        noted = self.noted()
        self.assertLess(noted.index(("ends", 3)), noted.index(("ends", 0)))
        self.assertEqual(most_at_a_time(noted), 2)

    def test_as_many_frames_are_done_at_a_time_as_jobs_says(self):
        for words, jobs in (("", 1), ("--jobs 3", 3)):
            env = self.noting(until_begun(jobs))
            self.assertEqual(self.tf(f"frames p.pipe - {words}", b"".join(self.frames), **env), (0, b"".join(self.results), ""))
            self.assertEqual(most_at_a_time(self.noted()), jobs)

    def test_nothing_of_a_frame_is_left_for_the_next(self):
        """Long results are followed by short ones, by none, and by the line of a fault."""
        self.stub('case $(tail -c 1) in l) printf "P5\\n9 1\\n255\\nabcdefghi";; s) printf "P5\\n1 1\\n255\\nz";; n) ;; f) echo memory; exit 5;; esac')
        long, short, none, fault = (Picture(1, 1, 1, 255, it).raw() for it in (b"l", b"s", b"n", b"f"))
        made_long, made_short = Picture(9, 1, 1, 255, b"abcdefghi").raw(), Picture(1, 1, 1, 255, b"z").raw()
        for words in ("", "--jobs 2"):
            status, written, told = self.tf(f"frames p.pipe - {words}", 3 * long + 3 * short + none + long + short + fault + long, TILEFARM=f"{self.room}/stub")
            self.assertEqual((status, written), (5, 3 * made_long + 3 * made_short + made_long + made_short))
            self.assertTrue(told.startswith("tf: frame 10 of the stream: memory\n"), told)
            self.assertIn("9 frames were done before", told)

    def test_a_program_that_is_ended_ends_the_others(self):
        self.stub(f'cat > given.$$\ncase $(tail -c 1 given.$$) in {chr(7)}) kill -9 $$;; esac\n{PROGRAM} "$@" < given.$$\nrm given.$$')
        for words in ("", "--jobs 4"):
            status, _, told = self.tf(f"frames p.pipe in -o out {words}", TILEFARM=f"{self.room}/stub")
            self.assertEqual((status, told.splitlines()[-1]), (128 + 9, "tf: 5 frames were done before this one failed"))
            self.assertEqual(self.contents("out", [f"f{at}.pgm" for at in range(3, 8)]), self.results[:5])

    def test_a_stream_that_nobody_reads_ends_the_programs(self):
        env = self.noting()
        os.mkdir(f"{self.room}/film")
        for at in range(40):
            self.write(f"film/{at}.pgm", Picture(400, 300, 1, 255, bytes([at]) * 120000).raw())
        ran = subprocess.run(["bash", "-c", f"{{ {TOP}/tools/tf frames p.pipe film --jobs 3; echo $? > status; }} | head -c 200000 > taken"], cwd=self.room,
                             env={**os.environ, **env}, capture_output=True, text=True)
        self.assertEqual((self.content("status"), "Broken pipe" in ran.stderr, "Traceback" in ran.stderr), (b"4\n", True, False), ran.stderr)
        self.assertLess(len(self.noted()), 40)

    def test_a_frame_takes_one_run_and_few_calls_whatever_its_size(self):
        """What is counted no busy machine changes: programs that are started, and calls of Python. Eight more frames are compared."""
        for side in (16, 640):
            few, many = (self.counted(side, count) for count in (8, 16))
            self.assertEqual((few[0], many[0]), (8, 16))
            self.assertLess(many[1] - few[1], 8 * 1500, f"frames of {side} columns")

    def counted(self, side: int, count: int) -> tuple[int, int]:
        """How many programs `tf frames` starts for so many frames, and how many calls of Python are made."""
        self.write("film", Picture(side, side, 1, 255, bytes(at * at % 251 for at in range(side * side))).raw() * count)
        words = [sys.executable, "-S", "-c", COUNTED, f"{TOP}/python/tilefarm", "frames", SOBEL, "-", "-o", "out/%d.pgm"]
        with open(f"{self.room}/film", "rb") as film:
            ran = subprocess.run(words, cwd=self.room, env={**os.environ, "TILEFARM": PROGRAM}, stdin=film, stdout=subprocess.PIPE, check=True)
        self.assertEqual(len(os.listdir(f"{self.room}/out")), count)
        shutil.rmtree(f"{self.room}/out")
        return tuple(map(int, ran.stdout.split()))

    def test_the_time_of_a_frame_is_told(self):
        """Processor time, the least of three tries. A machine that is busy may take several times as much, so the bound is ten times what was measured."""
        count, frame = 30, Picture(640, 480, 1, 255, bytes(at * at % 251 for at in range(640 * 480))).raw()
        for at in range(count):
            self.write(f"film{at}.pgm", frame)
        with open(SOBEL, "rb") as file:
            self.write("joined", file.read() + b"%%\n" + frame)

        def alone() -> None:
            for _ in range(count):
                with open(f"{self.room}/joined", "rb") as given:
                    subprocess.run([PROGRAM, "eval"], stdin=given, stdout=subprocess.DEVNULL, check=True)

        def by_tf(source: str, target: str) -> Callable[[], None]:
            return lambda: self.assertEqual(self.tf(f"frames {SOBEL} {source} -o {target}"), (0, b"", ""))

        os.mkdir(f"{self.room}/one")
        self.write("one/f.pgm", frame)
        own, start = spent(alone), spent(by_tf("one", "out"))
        pgms, pngs = spent(by_tf("film%d.pgm", "out/%d.pgm")), spent(by_tf("film%d.pgm", "out/%d.png"))
        print(f"(a frame of 640 by 480 takes {1000 * own / count:.1f} ms of the program, {1000 * (pgms - start) / count:.1f} of tf frames and "
              f"{1000 * (pngs - start) / count:.1f} as PNG; its start {1000 * start:.0f})", end=" ")
        self.assertLess(pngs - start, 0.2 * count)


# counts programs that are started and calls of Python
COUNTED = """
import sys, threading
sys.path.insert(0, sys.argv.pop(1))
from _tf.main import main
started, called = [0], [0]

def audit(event, given):
    started[0] += event in ("subprocess.Popen", "os.posix_spawn", "os.fork")

def count(frame, event, given):
    called[0] += event in ("call", "c_call")

sys.addaudithook(audit)
threading.setprofile(count)
sys.setprofile(count)
status = main()
sys.setprofile(None)
print(started[0], called[0])
sys.exit(status)
"""


def spent(work: Callable[[], None], tries: int = 3) -> float:
    """The least processor time of ended processes that a work takes."""
    found = []
    for _ in range(tries):
        before = resource.getrusage(resource.RUSAGE_CHILDREN)
        work()
        after = resource.getrusage(resource.RUSAGE_CHILDREN)
        found.append(after.ru_utime + after.ru_stime - before.ru_utime - before.ru_stime)
    return min(found)


@unittest.skipUnless(shutil.which("ffmpeg"), "ffmpeg lacks: the lines of docs/FRAMES.md are not run")
class FramesWithFfmpeg(InRoom):
    def test_the_lines_of_the_page(self):
        """Each group of lines of the page makes a film of the same frames as tf eval makes of them one by one."""
        with open(f"{TOP}/docs/FRAMES.md", encoding="utf-8") as file:
            groups = [it[1] for it in re.finditer(r"```sh\n(.*?)```", file.read(), re.S) if "ffmpeg" in it[1]]
        self.assertEqual(len(groups), 4)
        os.mkdir(f"{self.room}/bin")
        os.symlink(f"{TOP}/tools/tf", f"{self.room}/bin/tf")
        shutil.copy(SOBEL, f"{self.room}/sobel.pipe")
        shutil.copy(f"{TOP}/examples/own/sharpen_colours.pipe", f"{self.room}/sharpen.pipe")
        env = {**os.environ, "TILEFARM": PROGRAM, "PATH": f"{self.room}/bin:{os.environ['PATH']}"}
        for group in groups:
            ran = subprocess.run(["bash", "-e", "-o", "pipefail", "-c", group], cwd=self.room, env=env, capture_output=True)
            self.assertEqual((ran.returncode, ran.stderr), (0, b""), group)
        for film, program, form in (("edges.mkv", "sobel.pipe", "pgm"), ("edges2.mkv", "sobel.pipe", "pgm"), ("sharp.mkv", "sharpen.pipe", "ppm")):
            given, made = (self.decoded(it, form) for it in ("film.mkv", film))
            self.assertEqual((len(given), len(made)), (12, 12))
            for number in (0, 11):
                self.write("frame", given[number])
                self.assertEqual(self.tf(f"eval {program} frame")[1], made[number], film)

    def decoded(self, film: str, form: str) -> list[bytes]:
        """The frames of a film as PGM or PPM."""
        words = ["ffmpeg", "-v", "error", "-i", film, "-f", "image2pipe", "-c:v", form, "-"]
        with subprocess.Popen(words, cwd=self.room, stdin=subprocess.DEVNULL, stdout=subprocess.PIPE) as ran:
            return [it.data for it in frame_files.streamed(ran.stdout)]
