"""Tests of what tf says to words and files that were mistaken for others."""
import os
import re

from _tf.running import FEATURES, fastest_built

from .shared import COPY, PROGRAM, InRoom, tf


def flags(features: set[str]) -> bytes:
    """How the system tells a processor's features."""
    return f"flags\t\t: fpu {' '.join(sorted(features))}\n".encode()


class Words(InRoom):
    def test_program_and_picture_exchanged(self):
        self.refused("eval p.pgm p.pipe", 1, "p.pgm is a picture, and the program is wanted here: exchange the two, as tf eval p.pipe p.pgm")
        self.refused("check p.pgm", 2, "This is a picture: name the program before it, as tf check program.pipe p.pgm.")

    def test_commands(self):
        self.refused("evla p.pipe p.pgm", 1, "Did you mean eval?")
        status, _, told = self.tf("--version")
        self.assertEqual((status, told), (0, ""))
        for words in (["", "p.pipe", "p.pgm"], [""]):
            status, written, told = tf(words, self.room)
            self.assertEqual((status, written), (1, b""))
            self.assertIn("the first word is a command, and it is empty", told)

    def test_version(self):
        _, written, _ = self.tf("--version")
        self.assertRegex(written.decode(), rf"^tilefarm, commit (unknown|[0-9a-f]+ of [0-9-]+); the program is {re.escape(PROGRAM)}\n$")

    def test_the_program_for_avx2(self):
        """It runs where the processor has all features, and where it is not older than the program for all processors."""
        plain, wide, processors = (f"{self.room}/{name}" for name in ("tilefarm", "tilefarm.x86-64-v3", "cpuinfo"))
        self.write("cpuinfo", flags(FEATURES))
        for path in (plain, wide):
            self.assertEqual(fastest_built(plain, wide, processors), plain)
            self.write(os.path.basename(path), b"#!/bin/sh\n")
            os.chmod(path, 0o755)
        self.assertEqual(fastest_built(plain, wide, processors), wide)
        self.assertEqual(fastest_built(plain, wide, f"{self.room}/none"), plain)
        self.write("cpuinfo", flags(FEATURES - {"avx2"}))
        self.assertEqual(fastest_built(plain, wide, processors), plain)
        self.write("cpuinfo", flags(FEATURES))
        os.utime(wide, (1, 1))
        self.assertEqual(fastest_built(plain, wide, processors), plain)

    def test_blanks_round_an_equal_sign(self):
        for words in ("R = 4", "R= 4", "R =4"):
            self.refused(f"eval p.pipe p.pgm {words}", 1, "without blanks: R=5, and not R = 5")

    def test_options_of_other_tools(self):
        self.refused("eval p.pipe p.pgm --output out.pgm", 1, "there is no option --output: tf --help lists them. Did you mean -o?")
        self.refused("eval --rows p.pipe p.pgm", 1, "--rows takes a number from 1 to 1024")

    def test_texts_that_are_no_ascii_from_their_first_byte(self):
        for data, said in ((b"\xef\xbb\xbf" + COPY.encode(), "byte-order mark: save it as UTF-8 without one"),
                           (COPY.encode("utf-16"), "UTF-16: save it as ASCII"), (b"\xfe\xff" + COPY.encode("utf-16-be"), "UTF-16")):
            self.write("p.pipe", data)
            self.refused("eval p.pipe p.pgm", 3, said)
