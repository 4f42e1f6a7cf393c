"""The examples of docs/PYTHON.md: each block of Python is run, in the order of the page, and what it prints is compared with the block behind it."""
import ast
import contextlib
import importlib.util
import io
import re
import unittest

from .shared import TOP

PAGE = f"{TOP}/docs/PYTHON.md"
NOTEBOOK = f"{TOP}/examples/python/notebook.py"
BLOCK = re.compile(r"^```python\n(.*?)^```\n(?:\n```text\n(.*?)^```$)?", re.M | re.S)


class PageExamples(unittest.TestCase):
    def test_each_example_of_the_page(self):
        with open(PAGE, encoding="utf-8") as file:
            text = file.read()
        names: dict[str, object] = {"__name__": "__main__"}
        blocks = [*BLOCK.finditer(text)]
        self.assertEqual(len(blocks), text.count("```python"))
        for block in blocks:
            if "dask" in block[1] and not importlib.util.find_spec("dask"):
                print("an example is left out: this Python has no Dask (Debian's python3-dask)")
                continue
            said = io.StringIO()
            with contextlib.redirect_stdout(said):
                exec(compile(block[1], "your.py", "exec", dont_inherit=True), names)
            with self.subTest(block[1]):
                self.assertEqual(said.getvalue(), block[2] or "")

    def test_the_notebook(self):
        """Each cell is run, and what its last line is would be shown."""
        with open(NOTEBOOK, encoding="utf-8") as file:
            cells = [it for it in file.read().split("# %%") if it.startswith("\n")]
        names: dict[str, object] = {"__name__": "__main__"}
        shown = []
        for cell in cells:
            tree = ast.parse(cell)
            last = ast.Expression(tree.body.pop().value) if isinstance(tree.body[-1], ast.Expr) else None
            with contextlib.redirect_stdout(io.StringIO()):
                exec(compile(tree, NOTEBOOK, "exec"), names)
                shown.append(eval(compile(last, NOTEBOOK, "eval"), names) if last else None)
        html = [it._repr_html_() for it in shown if hasattr(it, "_repr_html_")]
        self.assertEqual(["<svg" in it for it in html], [True, False, False])
        self.assertEqual(["<img" in it for it in html], [False, True, True])
        self.assertEqual(int(shown[-1][0]), (names["result"].image == 0).sum())
