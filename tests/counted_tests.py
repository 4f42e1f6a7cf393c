"""Runs a module's tests, with the last line that the gate counts. The words `--only NAME` choose tests by a part of their names."""
import re
import sys
import unittest


def chosen() -> list[str]:
    """The names behind `--only`, which are taken out of the words, so that the module finds its own."""
    found = []
    while "--only" in sys.argv[:-1]:
        at = sys.argv.index("--only")
        found.append(sys.argv[at + 1])
        del sys.argv[at : at + 2]
    return found


ONLY = chosen()


def suite_of(names: list[str]) -> unittest.TestSuite:
    """The tests of the program with one of these in their names, or all of them."""
    loader = unittest.TestLoader()
    loader.testNamePatterns = [f"*{it}*" for it in names] or None
    return loader.loadTestsFromModule(sys.modules["__main__"])


def main() -> int:
    """Runs the tests of the program, and prints 'N passed, M failed'."""
    lost = [it for it in ONLY if not suite_of([it]).countTestCases()]
    if lost:
        print(f"no test has {' or '.join(map(repr, lost))} in its name\n0 passed, {len(lost)} failed")
        return 1
    suite = suite_of(ONLY)
    result = unittest.TextTestRunner(verbosity=2, stream=sys.stdout).run(suite)
    # (a part of a test has the test's name, and its own behind that)
    failed = len({re.split(r" [\[(]", case.id())[0] for case, _ in [*result.failures, *result.errors]})
    empty = not result.testsRun
    print(f"{max(0, result.testsRun - failed)} passed, {failed + empty} failed")
    return 1 if failed or empty else 0
