"""Tests of what `make install` leaves, where the repository that it came from is gone."""
import os
import shutil
import subprocess
import sys
import tempfile
import unittest

from .shared import COPY, GREY, PROGRAM, TOP, content, write

FOLDERS = ("tools", "docs", "examples", "python")


class Prefix(unittest.TestCase):
    """A folder that things are installed into, from a copy of the repository that is removed behind each install."""

    @classmethod
    def setUpClass(cls):
        made = tempfile.TemporaryDirectory(prefix="test-install-")
        cls.addClassCleanup(made.cleanup)
        cls.room, cls.prefix = made.name, f"{made.name}/usr"
        write(f"{cls.room}/p.pipe", COPY.encode())
        write(f"{cls.room}/p.pgm", GREY.encode())

    @classmethod
    def install(cls, program: str, prefix: str = "") -> subprocess.CompletedProcess:
        """What `make install` says, with a program at this place of the repository."""
        clone = f"{cls.room}/clone"
        for folder in FOLDERS:
            shutil.copytree(f"{TOP}/{folder}", f"{clone}/{folder}", ignore=shutil.ignore_patterns("__pycache__"))
        shutil.copy2(f"{TOP}/Makefile", clone)
        if program != "nothing":
            os.makedirs(os.path.dirname(f"{clone}/{program}"))
            shutil.copy2(PROGRAM, f"{clone}/{program}")
        target = prefix or cls.prefix
        words = ["make", "-s", "install", f"PREFIX={target}"] if shutil.which("make") else ["tools/install", target]
        ran = subprocess.run(words, cwd=clone, capture_output=True, text=True)
        shutil.rmtree(clone)
        return ran

    def run_installed(self, *words: str, **more: str) -> subprocess.CompletedProcess:
        env = {name: it for name, it in os.environ.items() if name != "TILEFARM"}
        path = os.pathsep.join([f"{self.prefix}/bin", os.path.dirname(sys.executable), "/usr/bin", "/bin"])
        return subprocess.run(words, cwd=self.room, env={**env, "PATH": path, **more}, capture_output=True)


class Installed(Prefix):
    """What is installed of the built program."""

    @classmethod
    def setUpClass(cls):
        super().setUpClass()
        cls.refusal, cls.said = cls.install("nothing"), cls.install("crates/tilefarm/out/tilefarm")

    def test_nothing_is_installed_without_a_program(self):
        self.assertIn("install: there is no program yet: `make quick` makes one without proofs", self.refusal.stderr)
        self.assertNotEqual(self.refusal.returncode, 0)

    def test_it_says_where(self):
        self.assertEqual((self.said.stdout, self.said.stderr), (f"install: {self.prefix}/bin has tf and tilefarm\n", ""))

    def test_tf_and_the_program_answer(self):
        ran = self.run_installed("tf", "eval", "p.pipe", "p.pgm")
        self.assertEqual((ran.returncode, ran.stdout, ran.stderr), (0, b"P5\n4 4\n255\n" + bytes(range(1, 17)), b""))
        with open(f"{TOP}/tests/examples/sobel/input", "rb") as file:
            ran = subprocess.run([f"{self.prefix}/bin/tilefarm", "eval"], stdin=file, capture_output=True)
        self.assertEqual(ran.stdout, content(f"{TOP}/tests/examples/sobel/result.pgm"))

    def test_a_report_with_its_page(self):
        ran = self.run_installed("tf", "report", "p.pipe", "p.pgm", "-o", "report.html")
        self.assertEqual((ran.returncode, ran.stderr), (0, b""))
        self.assertIn(b"<html", content(f"{self.room}/report.html"))

    def test_the_pages_examples_are_there(self):
        script = "from _tf.play_examples import EXAMPLES\nfor it in EXAMPLES: it.text(), it.lines(), open(it.picture_path(), 'rb').read()"
        ran = self.run_installed(sys.executable, "-c", script, PYTHONPATH=f"{self.prefix}/lib/tilefarm/python/tilefarm")
        self.assertEqual((ran.returncode, ran.stderr), (0, b""))

    def test_man_pages_and_completions(self):
        for path in ("man/man1/tf.1", "man/man1/tilefarm.1", "bash-completion/completions/tf", "zsh/site-functions/_tf",
                     "fish/vendor_completions.d/tf.fish"):
            self.assertGreater(os.path.getsize(f"{self.prefix}/share/{path}"), 100)

    def test_modules_are_compiled(self):
        """Python tells where the code of each module comes from. Who calls tf may not write beside it."""
        ran = self.run_installed(sys.executable, "-S", "-B", "-v", f"{self.prefix}/bin/tf", "eval", "p.pipe", "p.pgm")
        told = [it.removeprefix("# code object from ").strip("'") for it in ran.stderr.decode().splitlines() if it.startswith("# code object from ")]
        own = [it for it in told if it.startswith(self.prefix)]
        self.assertEqual((ran.returncode, [it for it in own if it.endswith(".py")]), (0, []))
        self.assertGreater(len(own), 20)

    def test_it_may_be_moved(self):
        moved = f"{self.room}/moved"
        shutil.copytree(self.prefix, moved, symlinks=True)
        ran = self.run_installed(f"{moved}/bin/tf", "--version")
        self.assertIn(f"the program is {moved}/lib/tilefarm/crates/tilefarm/out/tilefarm".encode(), ran.stdout)


class InstalledUnproved(Prefix):
    """What is installed of a program without proofs, which tf says in a short line."""

    @classmethod
    def setUpClass(cls):
        super().setUpClass()
        cls.said = cls.install("out/quick/tilefarm")

    def test_it_says_where(self):
        self.assertEqual(self.said.stdout, f"install: {self.prefix}/bin has tf and tilefarm, which is not proved\n")

    def test_tf_says_so_unless_it_is_told_to_be_quiet(self):
        ran = self.run_installed("tf", "check", "p.pipe", "p.pgm")
        self.assertRegex(ran.stderr.decode(), r"^tf: \S+out/quick/tilefarm is not proved \(`make build` makes the proved program\)\n$")
        quiet = self.run_installed("tf", "check", "p.pipe", "p.pgm", TILEFARM_QUIET="1")
        self.assertEqual((quiet.returncode, quiet.stderr, quiet.stdout), (0, b"", ran.stdout))

    def test_nothing_of_others_is_replaced(self):
        for path in ("bin/tf", "lib/tilefarm/notes"):
            with self.subTest(path):
                prefix = f"{self.room}/{os.path.basename(path)}"
                os.makedirs(os.path.dirname(f"{prefix}/{path}"))
                write(f"{prefix}/{path}", b"of others")
                self.assertIn("is none of tilefarm's: move it away", self.install("out/quick/tilefarm", prefix).stderr)
                self.assertEqual(content(f"{prefix}/{path}"), b"of others")
