"""Streams that are closed or full, files and programs that cannot be read, and folders without a byte left."""
import ast
import os
import re
import resource
import shlex
import shutil
import subprocess
import sys
import tempfile
import unittest

from .calls import STATUSES, TOP, call
from .rooms import FILES, InRoom

NOBODY = 65534
RAW = b"P5\n4 4\n255\n" + bytes(range(1, 17))
LINE = b"h 0..16: 0" + b" 1" * 16 + b"\n"
EVAL = "eval p.pipe p.pgm"
# what a program may answer that is no tilefarm
RUBBISH = ("", "P5\\n1 1\\n255\\n", "P5\\n4 4\\n255\\nx", "stage", "stage 1 func f 0..3 0..3 tiles 1", "program \\ninput ", "program zz\\ninput zz\\n",
           "\\377\\376", "True 1", "stored f cost", "h 0..0: 1", "h 3..0:", "5054463100000001", "bounds: 4 OutOfBounds f case 9 read 9 rows least 0 greatest 0",
           "check: 1 Unknown item 99", "picture: 7 RasterCut at 999999999999", "tables: line 9", "usage: x", "script: 1 BadLine at 99")


def be_nobody() -> None:
    os.setgroups([])
    os.setgid(NOBODY)
    os.setuid(NOBODY)


class Unreadable(InRoom):
    """Files that may not be read, and numbers that are none."""

    def told(self, line: str, status: int, said: str, **how) -> None:
        ended = call(shlex.split(line), self.room, **how)
        self.assertEqual((ended.status, ended.fault()), (status, ""), ended.told)
        self.assertIn(said, ended.told)

    def test_files_without_leave_to_read_them(self):
        if os.getuid():
            how = {}
        else:
            os.chmod(self.room, 0o755)
            how = {"first": be_nobody}
        for name in ("p.pgm", "p.pipe"):
            os.chmod(f"{self.room}/{name}", 0)
            for line in (EVAL, "check p.pipe p.pgm", "graph p.pipe p.pgm", f"{EVAL} --parts 2", "report p.pipe p.pgm -o /dev/null"):
                self.told(line, 2, f"{name}: Permission denied", **how)
            os.chmod(f"{self.room}/{name}", 0o644)

    def test_values_that_are_no_numbers(self):
        for value in ("--5", "\u00b2", "\u0663", "9" * 5000):
            self.told(f"{EVAL} R={value}", 1, f"R={value[:60]}")
        for line, said in (("tune p.pipe p.pgm --rounds \u00b2", "--rounds takes a number"), (f"{EVAL} --page {'9' * 5000}", "--page takes a number"),
                           (f"facts p.pipe p.pgm --part 1/{'9' * 5000}", "--part takes K/N"), (f"{EVAL} --parts \u00b2", "--parts takes the side"),
                           (f"table gamma t 0..3 2 --to {'9' * 5000}", "--to takes the greatest entry"), (f"table points t 0,{'9' * 5000}", "a point is X,Y"),
                           (f"plan p.pipe p.pgm --tile f:0:{'9' * 5000}", "--tile takes STAGE:ROW:COL"),
                           ("table csv t noise", "this is no CSV file")):
            self.told(line, 2 if "csv" in line else 1, said)

    def test_files_with_numbers_of_five_thousand_digits(self):
        self.told("eval p.pipe huge.pgm", 2, "picture: ")
        self.told("eval huge.pipe p.pgm", 3, "program: 4 NumberTooBig at 8")
        self.write("t.txt", b"t 0..0: " + b"9" * 5000 + b"\n")
        self.write("p.pipe", b"table t[0 .. 0];\n" + FILES["p.pipe"])
        self.told(f"{EVAL} --table t.txt", 2, "tables: line 1")
        self.write("s.script", b"make " + b"9" * 5000 + b" 0:1:0:0\n")
        self.write("p.pipe", FILES["p.pipe"])
        self.told("world p.pipe p.pgm s.script", 2, "script: 1 BadLine at 1")

    def test_a_device_without_an_end(self):
        for line in ("eval p.pipe /dev/zero", "eval /dev/full p.pgm", "merge /dev/zero", "table csv t /dev/zero"):
            self.told(line, 2, "a device that gives bytes without end")
        self.told("eval p.pipe /dev/null", 2, "picture: ")


class Streams(InRoom):
    """Each call by a shell, which closes a stream or lets it lead to a full device."""

    def shell(self, line: str, **more: str) -> tuple[int, bytes, str]:
        command = re.sub(r"^(\{ )?tf ", lambda it: f"{it[1] or ''}{shlex.quote(sys.executable)} -S {shlex.quote(TOP)}/tools/tf ", line)
        ran = subprocess.run(["sh", "-c", command], cwd=self.room, env={**os.environ, **more}, stdin=subprocess.DEVNULL, capture_output=True)
        return ran.returncode, ran.stdout, ran.stderr.decode()

    def test_standard_output_that_is_closed(self):
        for line in (EVAL, "--help", "check p.pipe p.pgm", "graph p.pipe p.pgm", "tune p.pipe p.pgm --rounds 1", "--version", "table gamma t 0..3 2"):
            self.assertEqual(self.shell(f"tf {line} >&-"), (4, b"", "tf: standard output: Bad file descriptor\n"), line)
        self.assertEqual(self.shell("tf check p.pipe p.pgm -o said >&-"), (0, b"", ""))
        self.assertEqual(self.changed(), [])

    def test_standard_output_that_is_full(self):
        for line in (EVAL, "--help", "check p.pipe p.pgm", "tune p.pipe p.pgm --rounds 1"):
            self.assertEqual(self.shell(f"tf {line} > /dev/full"), (4, b"", "tf: standard output: No space left on device\n"), line)

    def test_pythons_own_end_tells_nothing_of_standard_output(self):
        """From Python 3.13 on, and before that where it is told to, it tells what it cannot write at its end."""
        for line in (EVAL, "--help", "check p.pipe p.pgm"):
            for output, said in ((">&-", "Bad file descriptor"), ("> /dev/full", "No space left on device")):
                told = self.shell(f"tf {line} {output}", PYTHONDEVMODE="1", PYTHONWARNINGS="ignore")
                self.assertEqual(told, (4, b"", f"tf: standard output: {said}\n"), line)

    def test_standard_output_without_a_buffer(self):
        """What does not go out in one piece is written or told, also where Python itself holds nothing back."""
        program = f"import sys; sys.path.insert(0, {TOP + '/python/tilefarm'!r}); from _tf import output, streams; streams.prepare(); output.give(b'x' * 100)"
        with open(f"{self.room}/made", "wb") as made:
            words = [sys.executable, "-u", "-S", "-c", program]
            ran = subprocess.run(words, stdout=made, stderr=subprocess.PIPE, preexec_fn=lambda: resource.setrlimit(resource.RLIMIT_FSIZE, (64, 64)))
        self.assertEqual(len(self.content("made")), 64)
        self.assertIn(b"standard output: File too large", ran.stderr)
        self.assertEqual(self.shell(f"tf {EVAL}", PYTHONUNBUFFERED="1"), (0, RAW + LINE, ""))

    def test_standard_error_that_takes_nothing(self):
        for error in ("2>&-", "2>/dev/full"):
            self.assertEqual(self.shell(f"tf {EVAL} {error}"), (0, RAW + LINE, ""))
            self.assertEqual(self.shell(f"tf eval p.pipe no {error}"), (2, b"", ""))
            self.assertEqual(self.shell(f"tf eval bad.pipe p.pgm {error}"), (3, b"", ""))

    def test_standard_input_that_is_closed(self):
        self.assertEqual(self.shell("tf eval p.pipe - <&-"), (2, b"", "tf: standard input: Bad file descriptor\n"))
        self.assertEqual(self.shell(f"tf {EVAL} <&- -o made.pgm"), (0, LINE, ""))
        self.assertEqual(self.content("made.pgm"), RAW)

    def test_all_streams_closed(self):
        self.assertEqual(self.shell(f"tf {EVAL} -o made.pgm <&- >&- 2>&-")[0], 4)
        self.assertEqual(self.shell("tf check p.pipe p.pgm -o said <&- >&- 2>&-")[0], 0)
        self.assertTrue(self.content("said").startswith(b"program "))

    def test_a_reader_that_goes_away(self):
        status = self.shell(f"{{ tf {EVAL}; echo $? > status; }} | true")[0]
        self.assertEqual(status, 0)
        self.assertIn(self.content("status"), (b"0\n", b"4\n"))

    def test_a_folder_for_own_files_without_a_byte_left(self):
        def be_limited() -> None:
            resource.setrlimit(resource.RLIMIT_FSIZE, (64, 64))

        for line in (EVAL, f"{EVAL} --parts 2", f"{EVAL} --memory", "report p.pipe p.pgm", "graph p.pipe p.pgm"):
            ended = call(line.split(), self.room, first=be_limited)
            self.assertEqual((ended.status, ended.fault(), "File too large" in ended.told), (4, "", True), ended)
        if not shutil.which("unshare") or subprocess.run(["unshare", "-rm", "true"], capture_output=True).returncode:
            self.skipTest("a full file system wants a mount namespace (unshare -rm), which is refused here")
        os.mkdir(f"{self.room}/full")
        self.write("p.pgm", b"P5\n128 128\n16\n" + b"\1" * 128 * 128)
        for line in (EVAL, f"{EVAL} --memory", f"{EVAL} -o full/made.pgm", f"{EVAL} --stages full/made", f"{EVAL} --parts 99 -o full/x.pgm", "report p.pipe p.pgm"):
            command = f"mount -t tmpfs -o size=8k none full && head -c 4096 /dev/zero > full/all; {sys.executable} -S {TOP}/tools/tf {line}"
            status, _, told = self.shell(f"unshare -rm sh -c {shlex.quote(command)}", TMPDIR=f"{self.room}/full")
            self.assertEqual((status, "No space left on device" in told, "Traceback" in told), (4, True, False), told)

    def test_no_folder_for_own_files(self):
        ended = call(EVAL.split(), self.room, first=lambda: setattr(tempfile, "tempdir", f"{self.room}/no"))
        self.assertEqual((ended.status, ended.fault()), (4, ""))

    def test_names_go_to_the_terminal_without_escapes(self):
        for name in ("\x1b[2Jx", "a\rb", "\x9b31m", "\u202etxt", "a\nb"):
            self.write(name, b"noise")
            for line in (["eval", name, "p.pgm"], ["eval", "p.pipe", name], ["check", "p.pipe", f"no{name}"], [name], ["eval", "p.pipe", "p.pgm", f"--{name}=1"]):
                ended = call(line, self.room)
                self.assertEqual(ended.fault(), "")
                self.assertTrue(all(it.isprintable() or it == "\n" for it in ended.told), ended.told)
                self.assertNotIn(name, ended.told)


class OddProgram(InRoom):
    """TILEFARM names a program that answers rubbish, with each status."""

    def test_rubbish(self):
        for number, answer in enumerate(RUBBISH):
            path = f"{self.room}/stub"
            self.write("stub", f"#!/bin/sh\ncat > /dev/null\nprintf '{answer}'\nexit {number % 7 if number % 3 else 0}\n".encode())
            os.chmod(path, 0o755)
            for line in (EVAL, "check p.pipe p.pgm", "graph p.pipe p.pgm", "hist p.pipe p.pgm", "facts p.pipe p.pgm", "facts --list one.facts",
                         "audit p.pipe p.pgm one.facts", "answer p.pipe p.pgm one.facts", "plan p.pipe p.pgm --tile f:0:0", "plan p.pipe p.pgm --inline f",
                         f"{EVAL} --stage f --scale", f"{EVAL} --stages made", f"{EVAL} --parts 2", "tune p.pipe p.pgm --rounds 1", f"{EVAL} --print"):
                ended = call(line.split(), self.room, TILEFARM=path)
                with self.subTest(f"{line}: {answer}"):
                    self.assertNotIn("Traceback", ended.told)
                    self.assertIn(ended.status, (*STATUSES, 7))
                    self.assertTrue(ended.status != 7 or "TILEFARM names a program that is no tilefarm" in ended.told)

    def test_programs_that_are_none(self):
        for name in ("p.pgm", "no", ".", "noise"):
            os.chmod(f"{self.room}/noise", 0o755)
            ended = call(EVAL.split(), self.room, TILEFARM=f"{self.room}/{name}")
            self.assertEqual(ended.fault(), "")
            self.assertIn(ended.status, (2, 4))


class OldPython(unittest.TestCase):
    def test_an_older_python_is_told(self):
        with open(f"{TOP}/tools/tf", encoding="utf-8") as file:
            ast.parse(file.read(), feature_version=(3, 7))
        for version in ((3, 8, 10, "final", 0), (3, 9, 2, "final", 0)):
            code = f"import runpy, sys; sys.version_info = {version}; runpy.run_path({f'{TOP}/tools/tf'!r}, run_name='__main__')"
            ran = subprocess.run([sys.executable, "-S", "-c", code], capture_output=True, text=True)
            self.assertEqual((ran.returncode, ran.stdout), (2, ""))
            self.assertRegex(ran.stderr, rf"^tf: it needs Python 3\.11, and \S+ is 3\.{version[1]}\n$")
