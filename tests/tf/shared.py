"""What the tests of tf share: the program, files, and a run of tf."""
import os
import shutil
import subprocess
import sys
import tempfile
import unittest

TOP = os.path.dirname(os.path.dirname(os.path.dirname(os.path.realpath(__file__))))
sys.path.insert(0, f"{TOP}/python/tilefarm")
PROGRAM = os.path.abspath(sys.argv[1] if len(sys.argv) > 1 else f"{TOP}/crates/tilefarm/out/tilefarm")
GREY = "P2\n4 4\n255\n" + "".join(f"{4 * row + 1} {4 * row + 2} {4 * row + 3} {4 * row + 4}\n" for row in range(4))
COPY = "param R; param C;\nimage I(R, C);\nfunc f(x in [0 .. R-1], y in [0 .. C-1]) { else : I(x, y); }\noutput f max 255;\n"
TOOLS = ("djpeg", "cjpeg")
wants_vips = unittest.skipUnless(shutil.which("vips") and shutil.which("vipsheader"), "vips lacks: install libvips-tools (libvips 8.12 or later)")


def has_jpeg_tools() -> bool:
    """Whether djpeg and cjpeg of libjpeg-turbo are installed."""
    if not all(map(shutil.which, TOOLS)):
        return False
    return b"libjpeg-turbo" in subprocess.run(["cjpeg", "-version"], stdin=subprocess.DEVNULL, capture_output=True).stderr


wants_jpeg_tools = unittest.skipUnless(has_jpeg_tools(), "djpeg and cjpeg of libjpeg-turbo lack: install libjpeg-turbo-progs")


def write(path: str, data: bytes) -> None:
    with open(path, "wb") as file:
        file.write(data)


def content(path: str) -> bytes:
    with open(path, "rb") as file:
        return file.read()


def tf(words: list[str], room: str, stdin: bytes = b"", **more: str) -> tuple[int, bytes, str]:
    """Runs tf in a folder: its status, and what it wrote and told."""
    env = {**os.environ, "TILEFARM": PROGRAM, **more}
    ran = subprocess.run([f"{TOP}/tools/tf", *words], cwd=room, env=env, input=stdin, capture_output=True)
    return ran.returncode, ran.stdout, ran.stderr.decode()


class InRoom(unittest.TestCase):
    """Tests with a folder that has a program, which copies, and a picture of four by four samples."""

    def setUp(self):
        made = tempfile.TemporaryDirectory(prefix="test-tf-")
        self.addCleanup(made.cleanup)
        self.room = made.name
        self.write("p.pipe", COPY.encode())
        self.write("p.pgm", GREY.encode())

    def write(self, name: str, data: bytes) -> None:
        write(f"{self.room}/{name}", data)

    def content(self, name: str) -> bytes:
        return content(f"{self.room}/{name}")

    def tf(self, line: str, stdin: bytes = b"", **more: str) -> tuple[int, bytes, str]:
        return tf(line.split(), self.room, stdin, **more)

    def refused(self, line: str, status: int, said: str) -> None:
        """Refused with this status and these words, and nothing is changed or left behind."""
        names = sorted(os.listdir(self.room))
        ended, written, told = self.tf(line)
        self.assertEqual((ended, written), (status, b""), told)
        self.assertIn(said, told)
        self.assertEqual(sorted(os.listdir(self.room)), names)

    def stub(self, script: str) -> None:
        """A program in the place of tilefarm."""
        self.write("stub", f"#!/bin/sh\n{script}\n".encode())
        os.chmod(f"{self.room}/stub", 0o755)

    def noting(self, more: str = "") -> dict[str, str]:
        """A program that notes when it begins with a frame and when it has ended, by the frame's first sample, and then is the program. Before
        that it does more."""
        self.write("noting", f"""#!/bin/sh
cat > {self.room}/given.$$
first=$(tail -c 3 {self.room}/given.$$ | od -An -tu1 | cut -c2-4 | tr -d ' ')
echo begins $first >> {self.room}/noted
{more}
{PROGRAM} "$@" < {self.room}/given.$$
status=$?
echo ends $first >> {self.room}/noted
rm {self.room}/given.$$
exit $status
""".encode())
        os.chmod(f"{self.room}/noting", 0o755)
        self.write("noted", b"")
        return {"TILEFARM": f"{self.room}/noting"}

    def noted(self) -> list[tuple[str, int]]:
        found = [line.split() for line in self.content("noted").decode().splitlines()]
        self.write("noted", b"")
        return [(what, int(first)) for what, first in found]


def until_begun(count: int) -> str:
    """Waits until so many programs have begun, for some seconds at most."""
    return f"tries=0; until [ $(grep -c begins noted) -ge {count} ] || [ $tries = 500 ]; do sleep 0.01; tries=$((tries + 1)); done"


def most_at_a_time(noted: list[tuple[str, int]]) -> int:
    """How many programs ran at a time, at most. All of them have ended."""
    now = [0]
    for what, _ in noted:
        now.append(now[-1] + (1 if what == "begins" else -1))
    return max(now) if now[-1] == 0 else -1
