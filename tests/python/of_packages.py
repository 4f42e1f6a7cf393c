"""The package as others have it: installed into a new environment without a network, and judged by mypy and flake8."""
import os
import subprocess
import sys
import tempfile
import unittest
import zipfile
import importlib.util

from .shared import PACKAGE, TOP, version

# other versions have other rules
MYPY = "mypy 1.0"
# a new user's five lines
NEGATIVE = "param R; param C; image I(R, C); func f(x in [0 .. R-1], y in [0 .. C-1]) { else : 255 - I(x, y); } output f max 255;"
FIVE = f"""import numpy as np, tilefarm
picture = np.arange(12, dtype=np.uint8).reshape(3, 4)
result = tilefarm.run("{NEGATIVE}", picture)
assert (result.image == 255 - picture).all() and result.image.dtype == np.uint8
print(tilefarm.__file__)
"""


# the programs and pictures that the page of the package offers
EXAMPLES = """from tilefarm._tf.play_examples import EXAMPLES
for it in EXAMPLES: it.text(), it.lines(), open(it.picture_path(), "rb").read()
"""


def done(words: list[str], **more) -> str:
    """What a command writes; one that fails fails the test."""
    ran = subprocess.run(words, stdout=subprocess.PIPE, stderr=subprocess.STDOUT, text=True, **more)
    assert ran.returncode == 0, ran.stdout
    return ran.stdout


@unittest.skipUnless(importlib.util.find_spec("ensurepip"), "this Python makes no environments (Debian's python3-venv)")
class Installed(unittest.TestCase):
    def test_five_lines_in_a_new_environment(self):
        with tempfile.TemporaryDirectory(prefix="test-python-") as room:
            done([sys.executable, "-m", "venv", "--system-site-packages", f"{room}/env"])
            done([f"{room}/env/bin/pip", "install", "--no-index", "--disable-pip-version-check", PACKAGE], env={**os.environ, "PIP_FIND_LINKS": ""})
            env = {it: os.environ[it] for it in os.environ if it not in ("TILEFARM", "PYTHONPATH")}
            where = done([f"{room}/env/bin/python", "-c", FIVE], cwd=room, env=env)
            self.assertTrue(where.startswith(f"{room}/env/"), where)
            self.judge_command(room, {**env, "PATH": f"{room}/env/bin:{os.environ['PATH']}"})

    def judge_command(self, room: str, env: dict[str, str]) -> None:
        """Judges the command of the package: what program it runs, many pictures, and the page's examples."""
        self.assertRegex(done(["tf", "--version"], cwd=room, env=env), f"^tilefarm, commit unknown; the program is {room}/env/")
        write(f"{room}/p.pipe", NEGATIVE.encode())
        for number in range(3):
            write(f"{room}/in{number}.pgm", b"P5 2 1 255 %c%c" % (number, 255))
        self.assertEqual(done(["tf", "eval", "p.pipe", "in0.pgm", "in1.pgm", "in2.pgm", "-o", "out/{name}.pgm", "--jobs", "2"], cwd=room, env=env), "")
        for number in range(3):
            with open(f"{room}/out/in{number}.pgm", "rb") as file:
                self.assertEqual(file.read(), b"P5\n2 1\n255\n%c\0" % (255 - number))
        self.assertEqual(done([f"{room}/env/bin/python", "-c", EXAMPLES], cwd=room, env=env), "")

    def test_a_wheel_has_what_tf_is_made_of(self):
        with tempfile.TemporaryDirectory(prefix="test-python-") as room:
            code = f"import wheel_backend; print(wheel_backend.build_wheel({room!r}))"
            name = done([sys.executable, "-B", "-c", code], cwd=PACKAGE).strip()
            with zipfile.ZipFile(f"{room}/{name}") as wheel:
                names = set(wheel.namelist())
                self.assertIsNone(wheel.testzip())
                for path in ("netpbm.py", "parts/planning.py"):
                    with open(f"{TOP}/python/tilefarm/_tf/{path}", "rb") as file:
                        self.assertEqual(wheel.read(f"tilefarm/_tf/{path}"), file.read())
            self.assertLessEqual({"tilefarm/py.typed", "tilefarm/bin/tilefarm", "tilefarm-0.1.0.dist-info/RECORD"}, names)
            self.assertEqual([it for it in names if "__pycache__" in it], [])


def write(path: str, data: bytes) -> None:
    with open(path, "wb") as file:
        file.write(data)


class Judged(unittest.TestCase):
    @unittest.skipUnless(version("mypy").startswith(MYPY), f"this Python has no {MYPY}, by whose rules the types are judged (Debian 12's python3-mypy)")
    def test_types(self):
        with tempfile.TemporaryDirectory(prefix="test-python-") as room:
            done([sys.executable, "-m", "mypy", "--cache-dir", room], cwd=PACKAGE)

    @unittest.skipUnless(version("flake8"), "this Python has no flake8 (Debian's python3-flake8)")
    def test_style(self):
        done([sys.executable, "-m", "flake8", "."], cwd=PACKAGE)
