#!/usr/bin/env python3
"""Tests of tests/prove, with the toolchain itself, in repositories of two small crates. The last line is 'N passed, M failed'."""
import os
import shutil
import subprocess
import sys
import tempfile
import unittest

sys.dont_write_bytecode = True
TESTS = os.path.dirname(os.path.realpath(__file__))
sys.path.insert(0, TESTS)

import counted_tests
from mutants_runner.toolchain import rt

LOW = """//! One number more.
#![tactic(auto)]

ghost use Rattle.std.specs.Prelude.{◌≡◌};

/// The number itself.
pub fn same(a: u8) -> u8
    ensures { result ≡ a }
{
    a
}
"""
TOP = """//! The number 3.
#![tactic(auto)]

ghost use Rattle.std.specs.Prelude.{◌≡◌};

/// The number 3.
pub fn three() -> u8
    ensures { result ≡ 3 }
{
    low::same(3)
}
"""
LOW_FILE, TOP_FILE = "crates/low/src/lib.rt", "crates/top/src/lib.rt"
FILES = {
    "crates.txt": "low:\ntop: low\n",
    "HANDLES": "Handles allowed: none.\n",
    LOW_FILE: LOW,
    TOP_FILE: TOP,
}
MUTANT = {"crates/low/must-fail/another_number.edit": "file: src/lib.rt\nold:     a\nnew:     3\n"}


with open(rt.__file__, encoding="utf-8") as script:
    KEEPS_PROOFS = "--anew" in script.read()


@unittest.skipIf(KEEPS_PROOFS, "this toolchain's rt ci keeps proofs itself")
class Prove(unittest.TestCase):
    @classmethod
    def setUpClass(cls):
        cls.made = tempfile.TemporaryDirectory(prefix="test-prove-")
        cls.addClassCleanup(cls.made.cleanup)
        cls.kept = f"{cls.made.name}/kept"
        status, lines = cls.prove("first", MUTANT)
        assert status == 0 and not any(it.endswith("kept") for it in lines), lines

    @classmethod
    def prove(cls, name: str, texts: dict[str, str], *words: str) -> tuple[int, list[str]]:
        """Runs it in a repository of its own, over what all runs keep."""
        top = f"{cls.made.name}/{name}"
        for path, text in {**FILES, **texts}.items():
            os.makedirs(os.path.dirname(f"{top}/{path}"), exist_ok=True)
            with open(f"{top}/{path}", "w", encoding="utf-8") as file:
                file.write(text)
        os.makedirs(f"{top}/.git")
        shutil.copytree(f"{TESTS}/mutants_runner", f"{top}/tests/mutants_runner")
        shutil.copy2(f"{TESTS}/prove", f"{top}/tests/prove")
        how = {"env": {**os.environ, "XDG_CACHE_HOME": cls.kept}, "capture_output": True, "text": True}
        ran = subprocess.run([f"{top}/tests/prove", *words], cwd=top, **how)
        return ran.returncode, ran.stdout.splitlines()

    def kept_of(self, lines: list[str]) -> list[str]:
        return sorted(it.split()[1] for it in lines if it.startswith("prove: "))

    def test_what_is_proved_is_kept_in_another_folder_too(self):
        status, lines = self.prove("again", MUTANT)
        self.assertEqual((status, self.kept_of(lines), lines[-1]), (0, ["low", "top"], "3 passed, 0 failed"))
        self.assertTrue(any(it.startswith("rt: must-fail low/") and it.endswith("(kept)") for it in lines))

    def test_a_changed_crate_is_proved_over_the_kept_library(self):
        status, lines = self.prove("above", {TOP_FILE: TOP.replace("3", "4").replace("three", "four")})
        self.assertEqual((status, self.kept_of(lines)), (0, ["low"]))

    def test_what_stands_on_a_changed_library_is_proved_anew(self):
        status, lines = self.prove("below", {LOW_FILE: LOW.replace("result ≡ a", "a ≡ result")})
        self.assertEqual((status, self.kept_of(lines)), (0, []))

    def test_all_is_proved_anew_where_that_is_asked_for(self):
        status, lines = self.prove("anew", {}, "--anew")
        self.assertEqual((status, self.kept_of(lines)), (0, []))

    def test_a_refused_body_is_never_kept(self):
        for name in ("wrong", "wrong still"):
            status, lines = self.prove(name, {TOP_FILE: TOP.replace("same(3)", "same(4)")})
            self.assertEqual((status, self.kept_of(lines)), (1, ["low"]))
            self.assertIn("rt: top NOT PROVED", lines)

    def test_a_kept_library_that_was_changed_is_not_taken(self):
        folder = f"{self.made.name}/kept_before"
        shutil.copytree(self.kept, folder)
        try:
            for place in os.listdir(f"{self.kept}/tilefarm/proofs"):
                if place.startswith("low-proof-"):
                    with open(f"{self.kept}/tilefarm/proofs/{place}/files/rlib/low.rlib/format", "ab") as file:
                        file.write(b"\n")
            status, lines = self.prove("damaged", {})
            self.assertEqual((status, "low" in self.kept_of(lines)), (0, False))
        finally:
            shutil.rmtree(self.kept)
            os.rename(folder, self.kept)

    def test_another_word_is_refused(self):
        self.assertNotEqual(self.prove("word", {}, "--all")[0], 0)


if __name__ == "__main__":
    sys.exit(counted_tests.main())
