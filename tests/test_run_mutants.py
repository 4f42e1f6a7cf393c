#!/usr/bin/env python3
"""Tests of tests/run_mutants, on a crate of their own. The last line is 'N passed, M failed'."""
import contextlib
import importlib.machinery
import io
import os
import sys
import tempfile
import threading
import time
import types
import unittest

sys.dont_write_bytecode = True
TESTS = os.path.dirname(os.path.realpath(__file__))
sys.path.insert(0, TESTS)

import blocks
import counted_tests
from mutants_runner import crate_run
from mutants_runner.checking import EACH, MOST, READING, Budget, Clock, Watched, run
from mutants_runner.copies import Source, copies_of, copy_proofs, refused_copies
from mutants_runner.crate_run import CrateRun, next_round
from mutants_runner.functions import functions_of
from mutants_runner.kept_verdicts import KeptVerdicts
from mutants_runner.mutant import Mutant
from mutants_runner.toolchain import rtlib
from mutants_runner.verdicts import BAD_EDIT, NOT_CLEAR, NOT_REFUSED, REFUSED, Outcome
from mutants_runner.verdicts import Said, is_whole, judged_by_functions, judged_whole, not_read

SOURCE = """\
//! Numbers that are a little greater.
#![tactic(auto)]

ghost use Rattle.std.specs.Prelude.{◌≡◌, ◌+◌, ◌<◌};

const FOUR: u32 = 4;

/// One more.
pub fn next(a: u32) -> u32
    requires { a < 1000 }
    ensures { result ≡ a + 1 }
{
    a + 1
}

/// Two more.
pub fn second(a: u32) -> u32
    requires { a < 900 }
    ensures { result ≡ a + 2 }
{
    next(next(a))
}

/// Three more.
pub fn third(a: u32) -> u32
    requires { a < 900 }
    ensures { result ≡ a + 3 }
{
    a + 3
}

/// Four more.
pub fn fourth(a: u32) -> u32
    requires { a < 900 }
    ensures { result ≡ a + 4 }
{
    a + FOUR
}
"""
# Each mutant: its old text, its new text, and what is to be told of it.
MUTANTS = {
    "next_adds_three": ("    a + 1", "    a + 3", REFUSED),
    "harmless_in_a_caller": ("next(next(a))", "next(a + 1)", NOT_REFUSED),
    "third_adds_four": ("    a + 3", "    a + 4", REFUSED),
    "third_the_other_way": ("    a + 3", "    3 + a", NOT_REFUSED),
    "constant_is_five": ("const FOUR: u32 = 4;", "const FOUR: u32 = 5;", REFUSED),
    "text_is_not_there": ("a + 77", "a + 78", BAD_EDIT),
    "cannot_be_read": ("a + FOUR", "a + + FOUR", BAD_EDIT),
}


def command() -> types.ModuleType:
    made = types.ModuleType("run_mutants")
    made.__file__ = f"{TESTS}/run_mutants"
    importlib.machinery.SourceFileLoader("run_mutants", made.__file__).exec_module(made)
    return made


def write(path: str, text: str) -> None:
    os.makedirs(os.path.dirname(path), exist_ok=True)
    with open(path, "w", encoding="utf-8") as file:
        file.write(text)


def mutant_text(old: str, new: str, more: str = "") -> str:
    return f"{more}file: src/lib.rt\nold: {old}\nnew: {new}\n"


def keep(top: str, crate: str, name: str, text: str) -> Mutant:
    """A mutant that stands in its crate's text."""
    os.makedirs(f"{top}/tests/mutants", exist_ok=True)
    blocks.put(f"{top}/tests/mutants/{crate}.edits", name, text)
    return Mutant(f"{crate}/{name}", f"{top}/crates/{crate}", text)


class Crate(unittest.TestCase):
    """A folder with one crate, `small`."""

    def setUp(self):
        made = tempfile.TemporaryDirectory(prefix="test-mutants-")
        self.addCleanup(made.cleanup)
        self.top = made.name
        # (verdicts that a test keeps are its own)
        os.environ["XDG_CACHE_HOME"] = f"{self.top}/cache"
        self.verdicts = f"{self.top}/cache/tilefarm/verdicts"
        write(f"{self.top}/crates.txt", "small:\n")
        write(f"{self.top}/crates/small/src/lib.rt", SOURCE)

    def mutant(self, name: str, old: str, new: str, more: str = "") -> Mutant:
        return keep(self.top, "small", name, mutant_text(old, new, more))

    def placed(self, name: str, old: str, new: str, more: str = "") -> Mutant:
        mutant = self.mutant(name, old, new, more)
        mutant.place(functions_of(mutant.folder))
        return mutant

    def told(self, *words: str) -> tuple[int, list[str]]:
        out = io.StringIO()
        with contextlib.redirect_stdout(out):
            status = command().main([*words], self.top)
        return status, out.getvalue().splitlines()


class Judged(Crate):
    def test_mutants_of_a_crate_are_judged_each_for_itself(self):
        for name, (old, new, _) in MUTANTS.items():
            self.mutant(name, old, new)
        status, lines = self.told()
        self.assertEqual(status, 1)
        self.assertEqual(lines[-1], "3 passed, 4 failed")
        for name, (_, _, word) in MUTANTS.items():
            with self.subTest(name):
                self.assertTrue(any(it.startswith(f"mutants: small/{name}: {word}") for it in lines), lines)

    def test_mutants_that_do_not_apply_are_named_without_the_prover(self):
        for name in ("third_adds_four", "text_is_not_there"):
            self.mutant(name, *MUTANTS[name][:2])
        status, lines = self.told("--read")
        self.assertEqual(status, 1)
        self.assertEqual(lines[-1], "1 mutants apply, 1 do not")
        self.assertIn("mutants: small/text_is_not_there: BAD EDIT: an 'old:' text is in src/lib.rt 0 times, and not once", lines)

    def test_names_that_a_crate_lacks_are_told_without_the_prover(self):
        self.mutant("calls_the_third", "next(next(a))", "small::third(next(a))")
        self.mutant("calls_the_fifth", "next(next(a))", "small::fifth(next(a))")
        status, lines = self.told("--read")
        self.assertEqual((status, lines[-1]), (1, "1 mutants apply, 1 do not"))
        self.assertIn("mutants: small/calls_the_fifth: BAD EDIT: there is no small::fifth", lines)

    def test_what_the_clock_leaves_is_skipped_and_fails_nothing(self):
        for name in ("next_adds_three", "third_adds_four"):
            self.mutant(name, *MUTANTS[name][:2])
        for words in (["--until", "0"], ["--until", str(time.time() - 1), "--order", "any"]):
            status, lines = self.told(*words)
            self.assertEqual(status, 0)
            self.assertEqual(lines[-1], "0 passed, 0 failed, 2 skipped")
            self.assertIn("mutants: small/third_adds_four: SKIPPED", lines)

    def test_a_check_that_runs_when_the_clock_ends_is_ended(self):
        self.mutant("third_adds_four", *MUTANTS["third_adds_four"][:2])
        status, lines = self.told("--until", str(time.time() + 0.3))
        self.assertEqual((status, lines[-1]), (0, "0 passed, 0 failed, 1 skipped"))

    def test_unknown_names_are_told(self):
        self.mutant("third_adds_four", *MUTANTS["third_adds_four"][:2])
        os.mkdir(f"{self.top}/tests/mutants/small")
        status, lines = self.told("nowhere", "small/third_adds_four", "small/third_adds_five", "nowhere/either", "small/")
        self.assertEqual((status, lines), (1, [
            "mutants: no crate or mutant has these names: nowhere, nowhere/either, small/third_adds_five, tests/mutants/small", "0 passed, 4 failed",
        ]))

    def test_mutants_are_chosen_by_their_names(self):
        for name in ("third_adds_four", "text_is_not_there", "next_adds_three"):
            self.mutant(name, *MUTANTS[name][:2])
        self.assertEqual(self.told("--read", "small/third_adds_four", "small/next_adds_three"), (0, ["2 mutants apply, 0 do not"]))
        self.assertEqual(self.told("--read", "small")[1][-1], "2 mutants apply, 1 do not")
        self.assertEqual(self.told("--read", "small/text_is_not_there")[1][-1], "0 mutants apply, 1 do not")


BOXES = """\
//! Boxes that count.
#![tactic(auto)]

mod inner;

ghost use Rattle.std.specs.Prelude.{◌≡◌, ◌+◌, ◌<◌};

use crate::inner::more;

/// Twice one more.
pub fn twice(a: u32) -> u32
    requires { a < 1000 }
    ensures { result ≡ a + 2 }
{
    more(more(a))
}
"""
COUNTER = """\
//! A counter of things.

ghost use Rattle.std.specs.Prelude.{◌≡◌, ◌+◌, ◌<◌};

/// It counts.
#[derive(Drop)]
pub struct Counter<T: Drop> {
    thing: T,
    count: u32,
}

impl<T: Drop> Counter<T> {
    /// How many there are.
    pub fn count(&self) -> u32
        ensures { result ≡ self.now.count }
    {
        self.count
    }

    /// Counts another one.
    #[inline]
    pub(crate) fn add(&mut self)
        requires { self.old.count < 1000 }
        ensures { self.new.count ≡ self.old.count + 1 }
    {
        self.count = self.count + 1;
    }
}

/// One more.
pub fn more(a: u32) -> u32
    requires { a < 2000 }
    ensures { result ≡ a + 1 }
{
    a + 1
}
"""
# A proof that names the call of another function.
CITES = """\
use Rattle.std.proofs.Common.{arith}
use Rattle.boxes.proofs.twice.Goals as goal

pub returns : goal.returns
returns c = let first = c.more.ensures in omega arith
"""
# The mutants of each function but the first are judged by copies of it.
OF_BOXES = {
    "add_adds_two": ("inner", "self.count = self.count + 1;", "self.count = self.count + 2;", REFUSED),
    "add_does_nothing": ("inner", "self.count = self.count + 1;", "self.count = self.count;", REFUSED),
    "more_adds_nothing": ("inner", "    a + 1", "    a", REFUSED),
    "more_adds_two": ("inner", "    a + 1", "    a + 2", REFUSED),
    "more_cannot_be_read": ("inner", "    a + 1", "    a + + 1", BAD_EDIT),
    "twice_adds_three": ("lib", "more(more(a))", "more(more(a)) + 1", REFUSED),
    "twice_adds_four": ("lib", "more(more(a))", "more(more(a)) + 2", REFUSED),
    "twice_is_the_same": ("lib", "more(more(a))", "more(more(a)) + 0", NOT_REFUSED),
    "twice_without_the_call": ("lib", "more(more(a))", "a + 2", NOT_CLEAR),
}


class Copied(unittest.TestCase):
    """Mutants of one function in one check, on a crate with a type that takes parameters, and with a proof."""

    def setUp(self):
        made = tempfile.TemporaryDirectory(prefix="test-mutants-")
        self.addCleanup(made.cleanup)
        self.top, self.folder = made.name, f"{made.name}/crates/boxes"
        os.environ["XDG_CACHE_HOME"] = f"{self.top}/cache"
        write(f"{self.top}/crates.txt", "boxes:\n")
        for path, text in {"src/lib.rt": BOXES, "src/inner.rt": COUNTER, "proofs/twice/Answers.antt": CITES}.items():
            write(f"{self.folder}/{path}", text)
        self.mutants: dict[str, Mutant] = {}
        for name, (file, old, new, _) in OF_BOXES.items():
            self.mutants[name] = keep(self.top, "boxes", name, f"file: src/{file}.rt\nold: {old}\nnew: {new}\n")

    def placed(self, *names: str) -> list[Mutant]:
        mutants = [self.mutants[it] for it in names]
        for mutant in mutants:
            mutant.place(functions_of(self.folder))
        return mutants

    def test_each_mutant_is_judged_as_in_its_place(self):
        out = io.StringIO()
        with contextlib.redirect_stdout(out):
            command().main([], self.top)
        lines = out.getvalue().splitlines()
        self.assertEqual(lines[-1], "6 passed, 3 failed")
        for name, (_, _, _, word) in OF_BOXES.items():
            with self.subTest(name):
                told = [it for it in lines if it.startswith(f"mutants: boxes/{name}: {word}")]
                self.assertTrue(told, lines)
                self.assertNotRegex("".join(told), r"_m\d")

    def test_a_copy_has_its_name_and_its_mutant_alone(self):
        mutants = self.placed("add_adds_two", "more_adds_two")
        method, free = copies_of(mutants, "_m", self.folder)
        raw = COUNTER.encode()
        self.assertEqual((method.path(), free.path()), ("Counter::add_m0", "inner::more_m1"))
        self.assertTrue(method.text(raw).startswith("    #[inline]\n    pub(crate) fn add_m0(&mut self)\n        requires"))
        self.assertTrue(method.text(raw).endswith("self.count = self.count + 2;\n    }"))
        source = Source(COUNTER, raw, [method, free])
        self.assertEqual(source.text.count("fn add"), 2)
        for copy, at in source.placed.items():
            lines = source.text.split("\n")[at.lines.start - 1 : at.lines.stop - 1]
            self.assertEqual("\n".join(lines), copy.text(raw))
            for line, row in zip(lines, source.rows[at.lines.start : at.lines.stop]):
                was = COUNTER.split("\n")[row - 1]
                self.assertTrue(line in (was, was.replace("+ 1", "+ 2")) or "_m" in line, (line, was))

    def test_a_function_with_proof_files_is_copied_as_it_stands_too(self):
        copies = copies_of(self.placed("twice_adds_four", "more_adds_two"), "_m", self.folder)
        self.assertEqual([(it.name, bool(it.mutant)) for it in copies], [("twice_m0", False), ("twice_m1", True), ("more_m2", True)])
        copy_proofs(self.folder, "proofs/twice", "twice_m1")
        with open(f"{self.folder}/proofs/twice_m1/Answers.antt", encoding="utf-8") as text:
            self.assertEqual(text.read(), CITES.replace("proofs.twice.", "proofs.twice_m1."))

    def test_a_refusal_counts_only_where_the_copy_as_it_stands_is_whole(self):
        mutants = self.placed("twice_adds_four")
        placed = Source(BOXES, BOXES.encode(), copies_of(mutants, "_m", self.folder)).placed
        own = "./proofs/twice_m1/Answers.antt:5:1: error: `returns`: no proof"
        calls = "no proof: it calls `boxes::inner::more`, which is not proved"
        for verdict, found in {"proved": mutants, calls: mutants, "not proved": []}.items():
            told = f"{own}\nfn boxes::twice_m0: {verdict}\nfn boxes::twice_m1: not proved\nonly=2 proved=0"
            self.assertEqual([*refused_copies(placed, Said(told, 1))], found)


class Kept(Crate):
    def setUp(self):
        super().setUp()
        write(f"{self.top}/crates.txt", "small:\nabove: small\n")
        write(f"{self.top}/crates/above/src/lib.rt", SOURCE)
        write(f"{self.top}/crates/small/out/rlib/small.rlib/format", "")
        self.third = self.mutant("third_adds_four", *MUTANTS["third_adds_four"][:2])

    def kept(self, is_used: bool = True) -> KeptVerdicts:
        above = next(it for it in rtlib.crates_below(self.top) if it.name == "above")
        return KeptVerdicts(above, self.verdicts, is_used)

    def test_what_was_refused_is_known_until_a_text_changes(self):
        other = self.mutant("harmless", "    a + 3", "    3 + a")
        self.kept().keep({self.third: Outcome(REFUSED, "its reason"), other: Outcome(NOT_REFUSED, "it is proved")})
        self.assertEqual(self.kept().of(self.third), Outcome(REFUSED, "its reason", True))
        self.assertIsNone(self.kept().of(other))
        self.assertIsNone(self.kept(False).of(self.third))
        for path in ("small/src/lib.rt", "above/src/lib.rt"):
            write(f"{self.top}/crates/{path}", SOURCE + "\n")
            self.assertIsNone(self.kept().of(self.third))
            write(f"{self.top}/crates/{path}", SOURCE)
            self.assertIsNotNone(self.kept().of(self.third))
        self.assertIsNone(self.kept().of(self.mutant("third_adds_four", "    a + 3", "    a + 5")))

    def test_a_crate_changed_where_its_own_text_did(self):
        self.assertFalse(self.kept().is_of_another_text())
        self.kept().keep({self.third: Outcome(REFUSED, "its reason")})
        self.assertFalse(self.kept().is_of_another_text())
        write(f"{self.top}/crates/small/src/lib.rt", SOURCE + "\n")
        self.assertFalse(self.kept().is_of_another_text())
        write(f"{self.top}/crates/above/src/lib.rt", SOURCE + "\n")
        self.assertTrue(self.kept().is_of_another_text())
        write(f"{self.top}/crates/above/src/lib.rt", SOURCE)
        self.assertFalse(self.kept().is_of_another_text())

    def test_mutants_that_one_clause_refuses_are_listed(self):
        other, another = self.mutant("third_adds_five", "    a + 3", "    a + 5"), self.mutant("next_adds_three", "    a + 1", "    a + 3")
        line = "note: src/lib.rt:25:1: it is not proved that what the function ensures holds when it returns (`returns-clause-sum`)"
        proof = "./proofs/third/Answers.antt:6:5: error: `returns-clause-sum`: as printed, the two types differ"
        self.kept().keep({self.third: Outcome(REFUSED, line), other: Outcome(REFUSED, proof), another: Outcome(REFUSED, line)})
        os.rename(f"{self.top}/tests/mutants/small.edits", f"{self.top}/tests/mutants/above.edits")
        status, lines = self.told("--same")
        self.assertEqual((status, lines), (0, [
            "mutants: above: third: `returns-clause-sum`: third_adds_five, third_adds_four",
            "mutants: 1 clauses refuse more than one mutant of a function, 1 mutants beside the first, of 3 kept verdicts",
        ]))

    def test_a_file_that_cannot_be_read_counts_for_nothing(self):
        self.kept().keep({self.third: Outcome(REFUSED, "its reason")})
        for text in ("", "[]", '{"a": 1}'):
            write(self.kept().path(), text)
            self.assertIsNone(self.kept().of(self.third))

    def test_nothing_is_kept_over_libraries_of_older_texts(self):
        write(f"{self.top}/crates/small/src/lib.rt", SOURCE + "\n")
        self.kept().keep({self.third: Outcome(REFUSED, "its reason")})
        self.assertIsNone(self.kept().of(self.third))

    def test_a_run_takes_what_an_earlier_one_kept(self):
        write(f"{self.top}/crates.txt", "small:\n")
        first, again, anew = self.told(), self.told(), self.told("--anew", "--until", "0")
        self.assertIn("mutants: 1 judged anew, 0 kept from earlier runs", first[1])
        self.assertIn("mutants: 0 judged anew, 1 kept from earlier runs", again[1])
        self.assertRegex("\n".join(again[1]), r"small: 1 of 1 refused, 0 checks, 0.0 s of processor, 0.0 s by the clock, 1 kept")
        self.assertEqual((again[1][-1], anew[1][-1]), ("1 passed, 0 failed", "0 passed, 0 failed, 1 skipped"))


class Placed(Crate):
    def test_a_mutant_is_judged_by_the_function_around_it(self):
        mutant = self.placed("one", "    a + 3", "    a + 4")
        self.assertEqual([it.path for it in mutant.functions], ["third"])
        self.assertTrue(mutant.shares)

    def test_a_pair_may_change_what_one_above_it_made(self):
        text = "file: src/lib.rt\nold: next(next(a))\nnew: next(swap(a))\nold: swap(a)\nnew: third(a)\n"
        mutant = Mutant("small/two", f"{self.top}/crates/small", text)
        mutant.place(functions_of(mutant.folder))
        self.assertEqual([it.path for it in mutant.functions], ["second"])

    def test_constants_and_clauses_are_checked_whole(self):
        for old in ("const FOUR: u32 = 4;", "ensures { result ≡ a + 3 }"):
            with self.subTest(old):
                mutant = self.placed("whole", old, "")
                self.assertEqual(mutant.functions, [])
                self.assertFalse(mutant.shares)

    def test_only_names_the_function_that_must_be_refused(self):
        mutant = self.placed("only", "const FOUR: u32 = 4;", "const FOUR: u32 = 5;", "only: fourth\n")
        self.assertEqual([it.path for it in mutant.functions], ["fourth"])
        self.assertFalse(mutant.shares)
        self.assertIn("has the name fifth", self.placed("none", "    a + 3", "    a", "only: fifth\n").fault)

    def test_mutants_of_one_function_go_into_different_rounds(self):
        first = self.placed("first", "    a + 3", "    a + 4")
        second = self.placed("second", "    a + 3", "    3 + a")
        other = self.placed("other", "    a + 1", "    a")
        constant = self.placed("constant", "FOUR: u32 = 4", "FOUR: u32 = 5", "only: fourth\n")
        self.assertEqual(next_round([first, second, constant, other]), [first, other])
        self.assertEqual(next_round([constant, other]), [constant])

    def test_methods_and_cycles_are_found(self):
        write(
            f"{self.top}/crates/small/src/inner.rt",
            "impl<T: Drop> fmt::Display for Name<T> {\n    #[cycle(turns)]\n    fn fmt(&self, f: fn(u8) -> [u8; 4]) -> u8\n"
            "        ensures { result ≡ 1 }\n    {\n        1\n    }\n}\n\nfn free() {}\n",
        )
        found = {it.path: it for it in functions_of(f"{self.top}/crates/small") if it.file == "src/inner.rt"}
        self.assertEqual([*found], ["NameDisplay::fmt", "inner::free"])
        self.assertEqual(found["NameDisplay::fmt"].cycle, "turns")
        self.assertTrue(found["NameDisplay::fmt"].names("small::inner::NameDisplay::fmt"))
        self.assertTrue(found["inner::free"].names("small::inner::fn::free::all+FnMut::call_mut"))
        self.assertFalse(found["inner::free"].names("small::inner::freed"))


class Ordered(Crate):
    def run_of(self, *mutants: Mutant) -> CrateRun:
        crate = rtlib.crates_below(self.top)[0]
        run = CrateRun(crate, [*mutants], None, Clock(), lambda *_: None, KeptVerdicts(crate, self.verdicts, False))
        run.place()
        return run

    def test_the_first_pass_has_one_mutant_of_each_public_function(self):
        names = ("third_adds_four", "third_the_other_way", "constant_is_five", "next_adds_three")
        mutants = [self.mutant(name, *MUTANTS[name][:2]) for name in names]
        run = self.run_of(*mutants)
        self.assertEqual(run.first_of_each_function(), [mutants[0], mutants[3]])
        self.assertEqual(run.first_pass(), mutants)
        more = [self.mutant(f"adds_{it}", "    a + 3", f"    a + {it}") for it in range(4, 10)]
        self.assertEqual(self.run_of(*mutants, *more).first_pass(), [mutants[0], mutants[3]])

    def test_private_functions_come_later(self):
        write(f"{self.top}/crates/small/src/lib.rt", SOURCE.replace("pub fn third", "fn third").replace("pub fn next", "pub const fn next"))
        mutants = [self.mutant(name, *MUTANTS[name][:2]) for name in ("third_adds_four", "next_adds_three")]
        self.assertEqual(self.run_of(*mutants).first_of_each_function(), [mutants[1]])

    def test_the_text_alone_draws_the_order(self):
        names = ["a/b", "a/c", "b/a"]
        drawn = [sorted(names, key=lambda it: command().drawn(text, it)) for text in ("one", "one", "another", "a third")]
        self.assertEqual(drawn[0], drawn[1])
        self.assertTrue(any(it != drawn[0] for it in drawn[2:]))

    def test_words_that_lack_are_told(self):
        for words in (["--until"], ["--until", "soon"], ["--budget"], ["--budget", "much"], ["--order"], ["--left"], ["--nothing"]):
            self.assertIsNone(command().asked(words))

    def test_crates_that_changed_come_before_all_others(self):
        changes = {"a": False, "b": True, "c": False, "d": True, "e": False}
        runs = [types.SimpleNamespace(crate=types.SimpleNamespace(name=name), verdicts=types.SimpleNamespace(is_of_another_text=lambda it=it: it))
                for name, it in changes.items()]
        self.assertEqual({it.crate.name for it in command().in_order(runs, "any")[:2]}, {"b", "d"})
        for text in ("one", "another"):
            work = command().weights(runs, text)
            # (the first pass of a crate counts with what waits for it)
            behind = {(name, what): it + (work[name, command().REST] if what == command().FIRST else 0) for (name, what), it in work.items()}
            of = lambda changed, what: [it for (name, its), it in behind.items() if changes[name] == changed and its == what]
            groups = [of(True, command().FIRST), of(True, command().REST), of(False, command().FIRST), of(False, command().REST)]
            for before, after in zip(groups, groups[1:]):
                self.assertGreater(min(before), max(after))


class Budgeted(Crate):
    """A budget of processor time, with a judge that says at once what it is said to take."""

    def setUp(self):
        super().setUp()
        self.asked: list[list[str]] = []
        self.addCleanup(setattr, crate_run, "run", crate_run.run)

    def judging(self, reading: float, each: float) -> None:
        """Has each check refuse all that it is asked for, and take so many seconds of processor, and more for each function."""

        def run(words: list[str], folder: str, clock: Clock, check: object = None) -> Said:
            names = [it for before, it in zip(words, words[1:]) if before == "--only"]
            self.asked.append(names)
            used = reading + each * len(names)
            clock.budget.note(check, used)
            if clock.is_over():
                return Said("", -9, used)
            verdicts = [f"fn small::{it}: no proof: `search` did not prove `returns`" for it in names]
            return Said("\n".join([*verdicts, f"only={len(names)} proved=0"]), 1, used)

        crate_run.run = run

    def mutants(self, count: int) -> None:
        for at in range(count):
            self.mutant(f"third_adds_{at + 10}", "    a + 3", f"    a + {at + 10}")

    def test_a_check_holds_what_there_is_room_for(self):
        budget = Budget(100)
        self.assertEqual(budget.begin("a", 50), int((100 - READING) / EACH))
        budget.end("a", READING + 18, 9)
        # (2 seconds each, as the first check says)
        self.assertEqual(budget.begin("b", 15), 15)
        budget.drop("b")
        self.assertEqual(budget.begin("b", 50), MOST)
        self.assertFalse(budget.has_ended())
        budget.note("b", 100 - READING - 18)
        self.assertTrue(budget.has_ended())

    def test_without_a_budget_there_is_room_for_all(self):
        budget = Budget()
        self.assertEqual(budget.begin("a", 5000), 5000)
        budget.note("a", 1e9)
        self.assertFalse(budget.has_ended())

    def test_where_there_is_no_room_it_waits_for_those_that_run(self):
        budget, found = Budget(READING + 2 * EACH), []
        self.assertEqual(budget.begin("a", 2), 2)
        waiting = threading.Thread(target=lambda: found.append(budget.begin("b", 5)))
        waiting.start()
        waiting.join(0.1)
        self.assertEqual(found, [])
        budget.end("a", READING + 2, 2)
        waiting.join(10)
        self.assertEqual(found, [5])
        budget.end("b", READING + 2 * EACH, 5)
        self.assertEqual(budget.begin("c", 1), 0)

    def test_what_the_budget_leaves_is_counted_and_named_in_a_file(self):
        self.mutants(12)
        self.judging(READING, 10)
        left = f"{self.top}/out/left"
        status, lines = self.told("--budget", "1.5", "--order", "any", "--left", left)
        judged = sum(map(len, self.asked))
        self.assertLessEqual(READING * len(self.asked) + 10 * judged, 90)
        self.assertGreater(judged, 5)
        self.assertEqual((status, lines[-1]), (0, f"{judged} passed, 0 failed, {12 - judged} skipped"))
        self.assertFalse(any("SKIPPED" in it and "third_adds" in it for it in lines))
        with open(left, encoding="utf-8") as file:
            names = file.read().split()
        self.assertEqual((len(names), names), (12 - judged, sorted(names)))
        self.assertTrue(all(it.startswith("small/third_adds_") for it in names))
        # (and what was judged is kept, so that the next run does others)
        again = self.told("--budget", "0", "--order", "any", "--left", left)
        self.assertEqual(again[1][-1], f"{judged} passed, 0 failed, {12 - judged} skipped")

    def test_runs_in_one_order_have_one_budget(self):
        self.mutants(12)
        self.judging(READING, 10)
        first = self.told("--budget", "1.5", "--order", "any")[1][-1]
        asked = len(self.asked)
        again = self.told("--budget", "1.5", "--order", "any")[1]
        self.assertEqual((again[-1], len(self.asked)), (first, asked))
        self.assertTrue(any(it.startswith("mutants: earlier runs in this order took 1.") for it in again))
        for words in (["--order", "another"], ["--order", "any", "--anew"]):
            self.told("--budget", "1.5", *words)
            self.assertGreater(len(self.asked), asked)
            asked = len(self.asked)

    def test_a_check_that_takes_more_than_there_is_is_ended(self):
        self.mutants(3)
        self.judging(READING, 100)
        status, lines = self.told("--budget", "1")
        self.assertEqual((status, lines[-1], len(self.asked)), (0, "0 passed, 0 failed, 3 skipped", 1))

    def test_without_a_budget_all_are_judged(self):
        self.mutants(12)
        self.judging(READING, 1000)
        left = f"{self.top}/out/left"
        status, lines = self.told("--left", left)
        self.assertEqual((status, lines[-1]), (0, "12 passed, 0 failed"))
        self.assertEqual(os.path.getsize(left), 0)


class SlowBudget(Budget):
    """A budget that has ended, and that takes as long to note a check as this runs."""

    def note(self, check, used):
        os.waitid(os.P_ALL, 0, os.WEXITED | os.WNOWAIT)

    def has_ended(self):
        return True


class Watching(unittest.TestCase):
    def test_a_check_that_ends_as_its_budget_does_keeps_its_status(self):
        for status in (0, 3):
            said = run(["sh", "-c", f"sleep 0.1; exit {status}"], TESTS, Clock(budget=SlowBudget()))
            self.assertEqual(said.status, status)

    def test_each_function_is_told_as_soon_as_its_line_is_whole(self):
        with tempfile.TemporaryFile() as out:
            watched = Watched(os.getpid(), out.fileno())
            parts = {b"so far\nchecked small::next, 1 of 3\nchecked sm": ["small::next"], b"all::second, 2 of 3\n": ["small::second"]}
            for text, names in parts.items():
                out.write(text)
                out.flush()
                before = {*watched.took}
                watched.look()
                self.assertEqual([*watched.took.keys() - before], names)
        self.assertTrue(all(it >= 0 for it in watched.took.values()))


class Read(Crate):
    """What counts of what a check says."""

    def setUp(self):
        super().setUp()
        self.second = self.placed("second", "next(next(a))", "next(a)")

    def said(self, verdict: str, *lines: str) -> Said:
        return Said("\n".join([*lines, f"fn small::second: {verdict}", "only=1 proved=0"]), 1)

    def word(self, said: Said) -> str:
        outcome = judged_by_functions(self.second.functions, said)
        return outcome.word if outcome else NOT_CLEAR

    def test_errors_of_its_own_count(self):
        own = "./proofs/second/Answers.antt:6:5: error: `returns`: `search`: no proof of `a`"
        line = "note: src/lib.rt:17:1: it is not proved that what the function ensures holds when it returns (`returns`)"
        verdict = "no proof: `search` did not prove `returns`"
        for said in (self.said("not proved", own), self.said("not proved", line), self.said(verdict)):
            self.assertEqual(self.word(said), REFUSED)

    def test_what_is_proved_is_not_refused_whether_or_not_it_may_wait(self):
        for verdict in ("proved", "proved, may wait"):
            said = self.said(verdict)
            self.assertEqual(self.word(said), NOT_REFUSED)
            self.assertTrue(is_whole(self.second.functions[0], said))
        self.assertEqual(self.word(self.said("proved, but for a callee")), NOT_CLEAR)

    def test_a_refused_callee_never_counts(self):
        self.assertEqual(self.word(self.said("no proof: it calls `small::next`, which is not proved")), NOT_CLEAR)

    def test_a_proof_that_names_what_went_away_never_counts(self):
        away = "./proofs/second/Answers.antt:6:5: error: `returns`: record `After` has no field `next-2`"
        follows = "./proofs/second/Answers.antt:8:5: error: 1 declaration that depends on `returns` was not checked"
        self.assertEqual(self.word(self.said("not proved", away, follows)), NOT_CLEAR)
        whole = Said("\n".join([away, follows, "fn small::second: not proved", "logic=not-proved functions=4"]), 1)
        self.assertEqual(judged_whole(self.second, whole).word, NOT_CLEAR)

    def test_errors_elsewhere_never_count(self):
        for place in ("./proofs/Shared.antt:6:5", "./proofs/third/Answers.antt:1:1", "src/lib.rt:12:5"):
            self.assertEqual(self.word(self.said("not proved", f"{place}: error: `x`: no proof")), NOT_CLEAR)

    def test_what_stops_a_round_is_found(self):
        third = self.placed("third", "    a + 3", "    a + 4")
        unread = "src/lib.rt:21:10: error[unexpected-token]: expected expression"
        misnamed = "rattle: error: several functions are named `second`: help: write one of `small::a::second`"
        for line in (unread, misnamed):
            self.assertEqual(not_read(self.second.functions + third.functions, {"src/lib.rt"}, Said(line, 2)), self.second.functions)

    def test_what_the_prover_cannot_tell_is_not_clear(self):
        self.assertEqual(self.word(self.said("could not tell")), NOT_CLEAR)
        whole = Said("fn small::second: could not tell\nrattle: no verdict", 3)
        self.assertEqual(judged_whole(self.second, whole).word, NOT_CLEAR)


if __name__ == "__main__":
    sys.exit(counted_tests.main())
