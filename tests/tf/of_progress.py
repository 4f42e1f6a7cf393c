"""Tests of what is shown on a terminal while tf is at work."""
import os
import pty
import subprocess

from .shared import PROGRAM, TOP, InRoom

# A program that writes half of its result, waits, and writes the rest.
SLOW = "#!/bin/sh\ncat > /dev/null\nprintf 'P5\\n4 4\\n255\\n12345678'\nsleep 1.6\nprintf '12345678'\n"


class Progress(InRoom):
    def setUp(self):
        super().setUp()
        self.write("slow", SLOW.encode())
        os.chmod(f"{self.room}/slow", 0o755)

    def shown(self, *words: str) -> str:
        """What a terminal is shown of a slow run."""
        told = self.terminal(f"{self.room}/slow", "eval", "p.pipe", "p.pgm", "-o", "o.pgm", *words)
        self.assertEqual(self.content("o.pgm")[-16:], b"1234567812345678")
        return told

    def terminal(self, program: str, *words: str) -> str:
        """What a terminal is shown."""
        ours, theirs = pty.openpty()
        env, command = {**os.environ, "TILEFARM": program}, [f"{TOP}/tools/tf", *words]
        with subprocess.Popen(command, cwd=self.room, env=env, stdin=subprocess.DEVNULL, stdout=theirs, stderr=theirs) as ran:
            os.close(theirs)
            data = b""
            try:
                while part := os.read(ours, 4096):
                    data += part
            except OSError:
                pass
        os.close(ours)
        self.assertEqual(ran.returncode, 0)
        return data.decode()

    def test_a_person_is_told_what_obeys_a_schedule(self):
        says = "eval streams rows, whatever the schedule; run, facts and worlds obey it"
        for words in (["plan", "p.pipe", "p.pgm"], ["graph", "p.pipe", "p.pgm", "-o", "g.svg"]):
            self.assertIn(says, self.terminal(PROGRAM, *words))
            self.assertNotIn(says, self.terminal(PROGRAM, *words, "--quiet"))
            self.assertNotIn(says, self.tf(" ".join(words))[2])

    def test_a_terminal_is_told_and_cleared(self):
        told = self.shown()
        self.assertTrue(told.startswith("\r\x1b[Ktf: tilefarm eval, "), told)
        # 19 of 27 bytes, the head of 11 among them
        self.assertRegex(told, r"tf: tilefarm eval, 70 % \(\d+ s\)")
        self.assertTrue(told.endswith("\r\x1b[K"), told)

    def test_parts_are_counted(self):
        told = self.shown("--parts", "4")
        self.assertRegex(told, r"tf: eval of 1 part, 0 % \(\d+ s\)")
        self.assertTrue(told.endswith("\r\x1b[K"), told)

    def test_nothing_elsewhere(self):
        self.assertEqual(self.shown("--quiet"), "")
        self.assertEqual(self.shown("--quiet", "--parts", "4"), "")
        self.assertEqual(self.tf("eval p.pipe p.pgm -o o.pgm", TILEFARM=f"{self.room}/slow"), (0, b"", ""))
