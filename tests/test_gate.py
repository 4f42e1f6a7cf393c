#!/usr/bin/env python3
"""Tests of tests/gate, in a repository of their own with stubs for all that it runs. The last line is 'N passed, M failed'."""
import contextlib
import importlib.machinery
import io
import os
import shutil
import subprocess
import sys
import tempfile
import threading
import time
import types
import unittest

sys.dont_write_bytecode = True
TESTS = os.path.dirname(os.path.realpath(__file__))
sys.path.insert(0, TESTS)

import commits
import counted_tests
import gate_run
import gate_table

PROVES = """#!/bin/sh
# ci [--anew]
echo "rt ci: $*"
[ -e crates/small/out ] && echo "rt: older work" && exit 1
mkdir -p crates/small/out
sleep 1.2
echo "rt: small proved"
mkdir -p crates/tilefarm/out
echo program > crates/tilefarm/out/tilefarm
echo "3 passed, 0 failed"
"""
REFUSES = "#!/bin/sh\n# ci [--anew]\necho 'the reason'\necho 'rt: small NOT PROVED'\necho '1 passed, 1 failed'\nexit 1\n"
SLEEPS = "#!/bin/sh\n# ci [--anew]\necho begun\nsleep 60\necho '9 passed, 0 failed'\n"
JUDGES = """echo "words: $*"
echo "mutants: small: 1 of 1 refused, 2 checks, 61.0 s of processor, 30.4 s by the clock, 1 kept"
echo "3 passed, 0 failed"
"""
JUDGES_SOME = JUDGES.replace('echo "3 passed', 'echo "mutants: small/other: SKIPPED"\necho "2 passed').replace("0 failed", "0 failed, 1 skipped")
STUBS = {
    **{it.command[0]: "echo '1 passed, 0 failed'" for it in (gate_table.FORMAT, *gate_table.CHECKS)},
    "tests/prove": "exit 1",
    "tests/run_mutants": JUDGES,
    "tests/test_run_mutants.py": "echo '5 passed, 0 failed'",
    "tests/run_cases": "cat \"$1\"\necho '6 passed, 1 failed'\nexit 1",
    "examples/expected": "exit 0",
    "examples/show": "echo 'a difference'\nexit 3",
}
# Of the stubs, 5, 6 and 1 passed in three steps, two steps have a failure, and each of the others has one that passed.
PASSED = 5 + 6 + len(gate_table.CHECKS) - 3 + 1
WORDS = ("-c", "user.name=n", "-c", "user.email=e", "commit", "-qam", "other stubs")


def write(path: str, text: str) -> None:
    os.makedirs(os.path.dirname(path), exist_ok=True)
    with open(path, "w", encoding="utf-8") as file:
        file.write(text)
    os.chmod(path, 0o755)


class Left(unittest.TestCase):
    """What a step started and left behind is ended, and the step is counted by its own last line."""

    def setUp(self):
        self.addCleanup(setattr, gate_run, "GRACE", gate_run.GRACE)
        gate_run.GRACE = 0.3

    def test_a_step_that_ends_at_once_is_watched_without_a_fault(self):
        faults = []
        self.addCleanup(setattr, threading, "excepthook", threading.excepthook)
        threading.excepthook = faults.append
        with contextlib.redirect_stdout(io.StringIO()):
            for _ in range(50):
                self.assertEqual(gate_run.run("stub", "/", ["true"], gate_run.Clock(None)).passed, 1)
        time.sleep(0.5)
        self.assertEqual(faults, [])

    def test_what_a_step_leaves_behind_is_ended(self):
        for left in ("sleep 300", "python3 -c 'import signal, time; signal.signal(15, signal.SIG_IGN); time.sleep(300)'"):
            with self.subTest(left), contextlib.redirect_stdout(io.StringIO()):
                began = time.monotonic()
                step = gate_run.run("stub", "/", ["sh", "-c", f"{left} & echo '2 passed, 0 failed'"], gate_run.Clock(None))
                self.assertEqual((step.passed, step.failed), (2, 0))
                self.assertLess(time.monotonic() - began, 30)


class Gate(unittest.TestCase):
    def setUp(self):
        made = tempfile.TemporaryDirectory(prefix="test-gate-")
        self.addCleanup(made.cleanup)
        self.top, self.tools = f"{made.name}/top", f"{made.name}/tools"
        for name, text in STUBS.items():
            write(f"{self.top}/{name}", f"#!/bin/sh\n{text}\n")
        for name in ("gate", "gate_steps.py", "gate_run.py", "gate_table.py"):
            shutil.copy2(f"{TESTS}/{name}", f"{self.top}/tests/{name}")
        for name in ("small", "tilefarm"):
            write(f"{self.top}/crates/{name}/src/lib.rt", "")
        write(f"{self.top}/.gitignore", "out/\n")
        self.git("init", "-q")
        self.git("add", "-A")
        self.git(*WORDS)

    def git(self, *words: str) -> None:
        subprocess.run(["git", *words], cwd=self.top, check=True)

    def gate(self, rt: str, *words: str) -> tuple[int, list[str]]:
        write(f"{self.tools}/rt", rt)
        how = {"env": {**os.environ, "PATH": f"{self.tools}:{os.environ['PATH']}"}, "capture_output": True, "text": True}
        ran = subprocess.run([f"{self.top}/tests/gate", *words], **how)
        return ran.returncode, ran.stdout.splitlines()

    def replace(self, stub: str, text: str) -> None:
        write(f"{self.top}/{stub}", f"#!/bin/sh\n{text}\n")
        self.git(*WORDS)

    def test_each_step_counts_and_none_hides_another(self):
        write(f"{self.top}/crates/small/out/older", "")
        write(f"{self.top}/crates/small/src/lib.rt", "changed")
        status, lines = self.gate(PROVES)
        self.assertEqual(status, 1)
        # 3 of the proofs, 3 mutants
        self.assertEqual(lines[-1], f"{PASSED + 6} passed, 2 failed")
        self.assertIn("gate: HEAD is judged, and not these changes, which are not committed:", lines)
        self.assertIn(" M crates/small/src/lib.rt", lines)
        self.assertIn("small 0:01 1 of 1 2 1:01 0:30", [" ".join(it.split()) for it in lines])
        with open(f"{self.top}/crates/tilefarm/out/tilefarm", encoding="utf-8") as program:
            self.assertEqual(program.read(), "program\n")

    def test_lines_of_a_step_stand_together(self):
        _, lines = self.gate(PROVES)
        head = lines.index("== gate: page of the examples: examples/show --check crates/tilefarm/out/tilefarm")
        self.assertEqual(lines[head + 1], "a difference")
        self.assertTrue(lines[head + 2].startswith("gate: page of the examples: 0 passed, 1 failed"))

    def test_the_last_lines_are_told_of_what_failed_without_a_word(self):
        _, lines = self.gate(PROVES)
        head = lines.index("== gate: page of the examples: what failed")
        self.assertEqual(lines[head + 1], "a difference")

    def test_mutants_come_last_in_an_order_of_the_commit(self):
        _, lines = self.gate(PROVES)
        head = subprocess.run(["git", "rev-parse", "HEAD"], cwd=self.top, capture_output=True, text=True).stdout.strip()
        words = f"words: --as-built --order {head} --left {os.path.realpath(self.top)}/out/mutants_not_judged"
        self.assertIn(f"{words} --budget 30", lines)
        begun = [it for it in lines if it.startswith("== gate: ") and "/" in it]
        self.assertTrue(begun[-1].startswith("== gate: mutants: "))

    def test_the_budget_of_mutants_is_handed_on(self):
        for words, budget in {("--mutants", "7.5"): ["--budget", "7.5"], ("--mutants", "0"): ["--budget", "0"], ("--all-mutants",): []}.items():
            with self.subTest(words):
                _, lines = self.gate(PROVES, *words)
                told = next(it for it in lines if it.startswith("words: ")).split()
                self.assertEqual(told[told.index("--budget") :] if "--budget" in told else [], budget)

    def test_a_budget_and_none_are_not_asked_for_together(self):
        self.assertEqual(self.gate(PROVES, "--mutants", "5", "--all-mutants")[0], 2)

    def test_all_is_done_anew_where_that_is_asked_for(self):
        _, lines = self.gate(PROVES, "--anew")
        self.assertIn("rt ci: ci --anew", lines)
        self.assertEqual([" --anew" in it for it in lines if it.startswith("words: ")], [True])

    def test_proofs_are_kept_for_a_toolchain_that_keeps_none(self):
        self.replace("tests/prove", PROVES.removeprefix("#!/bin/sh\n").replace("echo", "echo 'prove: small kept'; echo", 1))
        _, lines = self.gate("#!/bin/sh\nexit 1\n", "--anew")
        self.assertIn("rt ci: --anew", lines)
        self.assertIn("gate: 0 of 1 proofs of crates and of tests were made anew, 1 by earlier runs here", lines)

    def test_without_the_proofs_nothing_stands_on_them(self):
        status, lines = self.gate(REFUSES)
        self.assertEqual(status, 1)
        without = [it for it in gate_table.CHECKS if it.needs == gate_table.TEXT]
        # 5 of the runner's tests, 1 of each other step, of the format and of the proofs
        self.assertEqual(lines[-1], f"{5 + len(without) - 1 + 2} passed, 1 failed")
        told = lines.index("== gate: proofs: what failed")
        self.assertEqual(lines[told + 1 : told + 3], ["the reason", "rt: small NOT PROVED"])
        self.assertTrue(any(it.startswith("gate: not tried, since a proof failed: conformance cases, ") for it in lines))
        self.assertFalse(os.path.exists(f"{self.top}/crates/tilefarm/out"))

    def test_mutants_that_the_clock_leaves_are_counted_and_fail_nothing(self):
        self.replace("tests/run_mutants", JUDGES_SOME)
        self.replace("tests/run_cases", "echo '7 passed, 0 failed'")
        self.replace("examples/show", "exit 0")
        status, lines = self.gate(PROVES, "--minutes", "10")
        self.assertEqual((status, lines[-1]), (0, f"{PASSED + 7} passed, 0 failed, 1 skipped"))
        self.assertIn("mutants: small/other: SKIPPED", lines)
        self.assertTrue(any(it.startswith("words: ") and " --until " in it for it in lines))

    def test_proofs_that_the_clock_ends_have_failed(self):
        status, lines = self.gate(SLEEPS, "--minutes", "0.05")
        self.assertEqual(status, 1)
        self.assertIn("proofs: ended by the gate's clock: FAILED", lines)
        self.assertIn("pages: not run, since the gate's clock has ended: FAILED", lines)
        self.assertNotIn("9 passed, 0 failed", lines)

    def test_a_test_that_the_clock_leaves_no_time_for_has_failed(self):
        self.replace("tests/limits", "sleep 60")
        status, lines = self.gate(PROVES, "--minutes", "0.25")
        self.assertEqual(status, 1)
        self.assertIn("limits, each at its value and one past: ended by the gate's clock: FAILED", lines)
        self.assertIn("random jobs: not run, since the gate's clock has ended: FAILED", lines)

    def test_a_missing_tool_is_named_at_once(self):
        for missing in ("rt", "git", "python3"):
            with self.subTest(missing):
                shutil.rmtree(self.tools, ignore_errors=True)
                for name in {"rt", "git", "python3", "sh", "dirname"} - {missing}:
                    write(f"{self.tools}/{name}", "")
                    os.remove(f"{self.tools}/{name}")
                    os.symlink(shutil.which(name) or "/bin/true", f"{self.tools}/{name}")
                ran = subprocess.run([f"{self.top}/tests/gate"], env={"PATH": self.tools}, capture_output=True, text=True)
                self.assertEqual(ran.returncode, 2)
                self.assertIn(f"{missing} is wanted", ran.stderr)
                self.assertEqual(ran.stdout, "0 passed, 1 failed\n")


LOG = """\
> == gate: crate by crate, in minutes and seconds (proofs run side by side)
> crate  proof  its tests  mutants refused  checks  processor  clock
> low    0:59
> next   1:30   0:20
> above  5:00              7 of 7                2       1:01       0:30
> top    11:21
> == gate: step by step
> gate: proofs: 74 passed, 1 failed (120:40 of processor, 39:47 by the clock)
"""


class Chosen(unittest.TestCase):
    """Tests that are chosen by a part of their names."""

    def test_a_name_that_no_test_has_fails(self):
        ran = subprocess.run([f"{os.path.dirname(os.path.realpath(__file__))}/test_pages", "--only", "nosuch", "--only", "test"], capture_output=True, text=True)
        self.assertEqual((ran.returncode, ran.stdout), (1, "no test has 'nosuch' in its name\n0 passed, 1 failed\n"))


class Commits(unittest.TestCase):
    """Which commits of a history of their own are named."""

    def setUp(self):
        made = tempfile.TemporaryDirectory(prefix="test-commits-")
        self.addCleanup(made.cleanup)
        self.top = made.name
        self.git("init", "-q", "-b", "main")
        self.before = self.commit("old: needs no body")

    def git(self, *words: str) -> str:
        words = ("git", "-C", self.top, "-c", "user.name=n", "-c", "user.email=e", *words)
        return subprocess.run(words, check=True, capture_output=True, text=True).stdout.strip()

    def commit(self, message: str) -> str:
        self.git("commit", "-q", "--allow-empty", "-m", message)
        return self.git("rev-parse", "HEAD")

    def test_a_commit_without_a_body_is_named(self):
        self.commit("one: has a body\n\nThis holds now.")
        bare = self.commit("two: has none")
        self.assertEqual(commits.without_body(self.top, self.before), [f"{bare[:10]} two: has none"])

    def test_a_merge_needs_none(self):
        self.git("checkout", "-q", "-b", "side")
        self.commit("side: has a body\n\nThis holds now.")
        self.git("checkout", "-q", "main")
        self.git("merge", "-q", "--no-ff", "-m", "merge of a side", "side")
        self.assertEqual(commits.without_body(self.top, self.before), [])
        self.assertEqual(len(commits.since(self.top, self.before)), 1)

    def test_a_history_that_does_not_go_back_so_far_is_told(self):
        self.assertTrue(commits.is_known(self.top, self.before))
        self.assertFalse(commits.is_known(self.top, "0" * 40))
        self.assertEqual(commits.without_body(self.top, "0" * 40), [])


class Page(unittest.TestCase):
    def setUp(self):
        self.page = types.ModuleType("gate_page")
        self.page.__file__ = f"{TESTS}/gate_page"
        importlib.machinery.SourceFileLoader("gate_page", self.page.__file__).exec_module(self.page)

    def test_the_crates_times_are_those_of_a_log(self):
        for log in (LOG, LOG.replace("> ", "")):
            lines = self.page.times(log)
            self.assertTrue(lines[0].startswith("All proofs and their tests took 120:40 of processor, 39:47 by the clock."))
            self.assertEqual([it for it in lines if "`" in it], [
                "| `top` | 11:21 | `above` | 5:00 | `next` | 1:30 | | |",
                "Every other crate took less than 1:30. Over five minutes: `top`.",
            ])

    def test_a_log_without_the_table_is_refused(self):
        kept = "gate: 1 of 74 proofs of crates and of tests were made anew, 73 by earlier runs here\n"
        for log in ("", LOG.replace("gate: proofs: ", "gate: others: "), LOG.split("> low")[0], LOG + kept):
            with self.assertRaises(SystemExit):
                self.page.times(log)

    def test_lines_stand_between_the_marks(self):
        self.assertEqual(self.page.between(("<b>\n", "<e>\n"), ["new"], "one\n<b>\nold\n<e>\ntwo\n"), "one\n<b>\nnew\n<e>\ntwo\n")


if __name__ == "__main__":
    sys.exit(counted_tests.main())
