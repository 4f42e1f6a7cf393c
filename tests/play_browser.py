"""Tests of the page of `tf play` in a headless Chromium, as a user goes through it."""
import os
import re
import shutil
import struct
import sys
import tempfile
import time
import unittest
from pathlib import Path
from typing import Callable

from playing import COPY, SLOW, SMALL, TOP, Played, content, tf, write
from _tf.play_examples import EXAMPLES

# where Debian keeps its packages of Python, which another Python does not look for
sys.path.append("/usr/lib/python3/dist-packages")
try:
    from selenium import webdriver
    from selenium.webdriver.chrome.service import Service
    from selenium.webdriver.common.action_chains import ActionChains
    from selenium.webdriver.common.by import By
    from selenium.webdriver.common.keys import Keys
    from selenium.webdriver.support.ui import Select
except ImportError:
    webdriver = None

TOOLS = {"chromium": shutil.which("chromium"), "chromium-driver": shutil.which("chromedriver"), "python3-selenium": webdriver}
LACKING = [name for name, it in TOOLS.items() if not it]
EDGES, GREY = f"{TOP}/python/tilefarm/_tf/page/edges.pipe", f"{TOP}/docs/gallery/grey.png"
PATIENCE = 30
# the slow program over a picture of any sides
ANY_SLOW = SLOW.replace("image I(2, 3);", "param R; param C; image I(R, C);")


class Packages(unittest.TestCase):
    def test_the_packages_of_the_browser_are_there(self):
        if LACKING:
            self.skipTest(f"no page is opened in a browser, since these Debian packages lack: {' '.join(LACKING)}")


def browser():
    """A headless Chromium of its own."""
    options = webdriver.ChromeOptions()
    options.binary_location = TOOLS["chromium"]
    for it in ("--headless=new", "--disable-gpu", "--window-size=1600,1000", "--hide-scrollbars",
               *(["--no-sandbox"] if os.geteuid() == 0 else [])):
        options.add_argument(it)
    options.set_capability("goog:loggingPrefs", {"browser": "ALL"})
    return webdriver.Chrome(service=Service(TOOLS["chromium-driver"]), options=options)


class Browser(unittest.TestCase):
    """One browser, and for each test a server of its own."""

    @classmethod
    def setUpClass(cls):
        cls.driver = browser()

    @classmethod
    def tearDownClass(cls):
        cls.driver.quit()

    def tearDown(self):
        # (what it says of how fast the tests read pictures, and of pages that they leave, is no complaint)
        log = [it["message"] for it in self.driver.get_log("browser") if not re.search(r"^rendering|beforeunload", it["message"])]
        self.assertEqual(log, [], "the browser complains")

    # what a user does and sees

    def play(self, *given, **more) -> Played:
        """A page over a program and a picture, when it has run them."""
        played = self.enterContext(Played(*given, **more))
        self.driver.get(played.server.address())
        self.until(lambda: self.status() and self.is_quiet(), "the first run")
        return played

    def edges(self) -> Played:
        """The page over its first example."""
        return self.play(content(EDGES).decode(), tf("eval", f"{TOP}/examples/copy/copy.pipe", GREY))

    def one(self, selector: str):
        return self.driver.find_element(By.CSS_SELECTOR, selector)

    def every(self, selector: str) -> list:
        return self.driver.find_elements(By.CSS_SELECTOR, selector)

    def status(self) -> str:
        return self.one("#status").text

    def until(self, holds: Callable[[], object], what: str = "") -> object:
        """Waits until something holds."""
        last = time.monotonic() + PATIENCE
        while time.monotonic() < last:
            found = holds()
            if found:
                return found
            time.sleep(0.05)
        self.fail(f"{what or 'what is waited for'} does not come; the page says {self.status()!r}")

    def is_quiet(self) -> bool:
        """Whether nothing runs, also for the pictures of the stages."""
        return not self.every("[aria-busy=true]")

    def until_ran(self) -> None:
        self.until(lambda: self.status().startswith("ran in") and self.is_quiet(), "a run")

    def forget(self) -> None:
        """Takes away what the page says, so that what it says next is new."""
        self.driver.execute_script("document.querySelector('#status').textContent = ''")

    def write(self, text: str) -> None:
        """Puts a whole text into the editor."""
        self.forget()
        self.driver.execute_script("const t = document.querySelector('textarea'); t.value = arguments[0]; "
                                   "t.dispatchEvent(new Event('input', {bubbles: true}));", text)

    def samples(self, selector: str) -> list[list[int]]:
        """The red bytes of a canvas, row by row."""
        return self.driver.execute_script(
            "const c = document.querySelector(arguments[0]); const d = c.getContext('2d').getImageData(0, 0, c.width, c.height).data;"
            "return Array.from({length: c.height}, (_, r) => Array.from({length: c.width}, (_, k) => d[4 * (r * c.width + k)]));", selector)

    def point_at(self, selector: str, row: int, col: int, rows: int, cols: int) -> None:
        """Moves the pointer over the point of a canvas."""
        self.driver.execute_script(
            "const [s, down, across] = arguments; const c = document.querySelector(s); c.scrollIntoView({block: 'center'});"
            "const b = c.getBoundingClientRect(); c.dispatchEvent(new PointerEvent('pointermove',"
            "{clientX: b.left + across * b.width, clientY: b.top + down * b.height, bubbles: true}));",
            selector, (row + 0.5) / rows, (col + 0.5) / cols)

    def slide(self, selector: str, value: int) -> None:
        self.driver.execute_script("const s = document.querySelector(arguments[0]); s.value = arguments[1]; "
                                   "s.dispatchEvent(new Event('input', {bubbles: true}));", selector, value)

    def printed(self, played: Played, *words: str, program: str = "") -> list[list[int]]:
        """The samples that tf prints."""
        lines = tf("eval", program or f"{played.folder}/p.pipe", f"{played.folder}/p.pgm", "--print", *words).decode().splitlines()
        return [[int(it) for it in line.split()] for line in lines if ":" not in line]

    # tests

    def test_a_program_is_typed_letter_by_letter(self):
        played = self.play("", SMALL)
        text = self.one("textarea")
        for letter in "param R; param C;\nimage I(R, C);\nfunc f(x in [0 .. R-1], y in [0 .. C-1]) { else : 2 * I(x, y":
            text.send_keys(letter)
        fault = self.until(lambda: self.one(".fault").is_displayed() and self.one(".fault"), "the fault")
        self.assertIn("program: 3 Unexpected at", fault.text)
        self.assertIn("close its ( [ {", fault.text)
        for letter in "); }\noutput g max 255;\n":
            text.send_keys(letter)
        self.until(lambda: "check: 1 Unknown item 4" in self.one(".fault").text, "the fault of a name")
        self.assertEqual([it.text for it in self.every(".paint .marked")], ["g"])
        self.assertIn("declared", self.one(".fault").text)
        text.send_keys(Keys.CONTROL, Keys.END)
        text.send_keys(*[Keys.BACKSPACE] * len("g max 255;\n"))
        self.forget()
        text.send_keys("f max 255;")
        self.until_ran()
        self.assertFalse(self.one(".fault").is_displayed())
        self.assertEqual(self.samples("#result canvas"), [[2, 4, 6], [80, 100, 120]])
        self.assertEqual(content(f"{played.folder}/p.pipe"), b"", "nothing is saved unless that is asked")

    def test_the_result_comes_no_sooner_than_half_a_second_after_the_last_key(self):
        self.play(COPY, SMALL)
        self.one("textarea").send_keys(Keys.CONTROL, Keys.END)
        began = time.monotonic()
        self.one("textarea").send_keys("#")
        self.forget()
        self.until_ran()
        self.assertGreater(time.monotonic() - began, 0.45)

    def test_a_fault_stands_under_its_place(self):
        self.play(COPY, SMALL)
        self.write(COPY.replace("I(x, y)", "I(x+1, y)"))
        note = self.until(lambda: self.one(".fault").is_displayed() and self.one(".fault"), "the fault")
        marked = self.one(".paint .marked")
        self.assertEqual("".join(it.text for it in self.every(".paint .marked")), "x+1")
        self.assertIn("bounds: 4 OutOfBounds f case 0 read 0 rows least 1 greatest 2", note.text)
        self.assertLess(abs(note.rect["y"] - (marked.rect["y"] + marked.rect["height"])), 12)
        self.one(".fault button").click()
        self.assertFalse(note.is_displayed())
        self.assertIn("bounds: 4 OutOfBounds", self.one(".fault-words").text)
        self.one(".place").click()
        selected = self.driver.execute_script("const t = document.activeElement; return t.value.slice(t.selectionStart, t.selectionEnd);")
        self.assertEqual(selected, "x+1")

    def test_a_result_stays_while_a_fault_is_there(self):
        self.edges()
        before = self.samples("#result canvas")
        self.write(content(EDGES).decode() + "image")
        self.until(lambda: self.one(".fault").is_displayed(), "the fault")
        self.assertEqual(self.samples("#result canvas"), before)
        self.assertIn("stale", self.one("#result").get_attribute("class"))
        self.assertEqual(len(self.every("#parameters input[type=range]")), 2)
        self.write(content(EDGES).decode())
        self.until_ran()
        self.assertNotIn("stale", self.one("#result").get_attribute("class"))

    def test_black_and_white_are_chosen(self):
        text = "image I(2, 3);\nfunc f(x in [0 .. 19], y in [0 .. 19]) { else : 20 * x + y - 100; }\noutput f max 255;\n"
        self.play(text, SMALL)
        self.one("[data-stage=f]").click()
        self.until(lambda: self.one("#stage h3").text == "f", "the stage")
        values = [value - 100 for value in range(400)]
        for choice, low, high in (("least to greatest", -100, 299), ("the middle 98 percent", -96, 295), ("0 to 255", 0, 255)):
            Select(self.one("#stage select")).select_by_visible_text(choice)
            shown = [it for row in self.samples("#stage canvas") for it in row]
            wanted = [min(max((it - low) * 255 / (high - low), 0), 255) for it in values]
            self.assertLessEqual(max(abs(a - b) for a, b in zip(shown, wanted)), 0.51)

    def test_a_slider_changes_the_result(self):
        played = self.edges()
        self.assertEqual(self.samples("#result canvas"), self.printed(played, "threshold=40", "strength=2"))
        self.slide("input[type=range][aria-label^=threshold]", 90)
        self.until(lambda: self.samples("#result canvas") == self.printed(played, "threshold=90", "strength=2"), "the other result")
        self.assertEqual(self.one("input[type=number][aria-label=threshold]").get_attribute("value"), "90")

    def test_a_stage_is_opened_and_its_values_are_read(self):
        played = self.edges()
        self.one("[data-stage=change]").click()
        self.until(lambda: self.one("#stage h3").text == "change", "the stage")
        stage = content(EDGES).decode().replace("output edges max 255", "output change max 65535")
        wanted = self.printed(played, "threshold=40", "strength=2", program=write(f"{played.folder}/stage.pipe", stage.encode()))
        for row, col in ((2, 2), (100, 77), (189, 253), (55, 200)):
            self.point_at("#stage canvas", row - 2, col - 2, 188, 252)
            self.assertEqual(self.one("#stage .readout").text, f"change({row}, {col}) = {wanted[row - 2][col - 2]}")
        near = [[it.text for it in row.find_elements(By.TAG_NAME, "td")] for row in self.every("#stage .near tr")]
        self.assertEqual(near, [[str(wanted[r - 2][c - 2]) if c <= 253 else "·" for c in range(198, 203)] for r in range(53, 58)])
        least, greatest = min(map(min, wanted)), max(map(max, wanted))
        self.assertIn(f"rows 2 to 189, columns 2 to 253; values {least} to {greatest}", self.one("#stage .says").text)

    def test_values_of_all_signs_and_sizes_are_read(self):
        text = ("image I(2, 3);\nfunc f(x in [0 .. 1], y in [0 .. 2]) { case y == 0 : -2147483647 - 1; case y == 1 : 2147483647; else : -x; }\n"
                "output f max 255;\n")
        self.play(text, SMALL)
        self.one("[data-stage=f]").click()
        self.until(lambda: self.one("#stage h3").text == "f", "the stage")
        for row, col, value in ((0, 0, -2147483648), (0, 1, 2147483647), (1, 2, -1), (0, 2, 0)):
            self.point_at("#stage canvas", row, col, 2, 3)
            self.assertEqual(self.one("#stage .readout").text, f"f({row}, {col}) = {value}")

    def test_the_point_goes_by_keys_and_shows_in_all_pictures(self):
        self.play(COPY.replace("I(x, y)", "5 * I(x, y)"), SMALL)
        self.point_at("#input canvas", 0, 0, 2, 3)
        self.assertEqual(self.one("#result .readout").text, "result(0, 0) = 5")
        self.one("#input canvas").send_keys(Keys.ARROW_DOWN, Keys.ARROW_RIGHT)
        self.assertEqual((self.one("#input .readout").text, self.one("#result .readout").text), ("picture(1, 1) = 50", "result(1, 1) = 250"))
        self.one("#input canvas").send_keys(Keys.ARROW_DOWN)
        self.assertEqual(self.one("#input .readout").text, "picture(1, 1) = 50")

    def test_the_schedule_is_that_of_plan(self):
        played = self.edges()
        stops = played.server.session.start()
        options = {"rows": 16, "cols": 32, "percent": 0}
        for name, stop in (("rows", "sides"), ("cols", "sides"), ("percent", "percents")):
            self.slide(f"[data-option={name}]", stops[stop].index(options[name]))
        words = [word for name, value in options.items() for word in (f"--{name}", str(value))]
        files = (f"{played.folder}/p.pipe", f"{played.folder}/p.pgm", "threshold=40", "strength=2")
        wanted = tf("plan", *files, *words).decode().splitlines()
        self.until(lambda: self.scheduled() == wanted, "the other schedule")
        self.one("#schedule input[type=checkbox]").click()
        stored = tf("plan", *files, *words, "--stored").decode().splitlines()
        self.until(lambda: self.scheduled() == stored, "the schedule that stores all")

    def scheduled(self) -> list[str]:
        """The table of the schedule, in the words of plan."""
        rows = self.driver.execute_script("return Array.from(document.querySelectorAll('#schedule tbody tr'), "
                                          "(row) => Array.from(row.children, (it) => it.textContent));")
        return [f"stored {name} cost {cost.replace(',', '')}" if how == "stored" else f"inlined {name}" for name, how, _, cost in rows]

    def test_a_schedule_that_is_refused_says_why(self):
        self.play("image I(2, 3);\nfunc f(x in [0 .. 4000], y in [0 .. 4000]) { else : x; }\noutput f max 255;\n", SMALL)
        self.slide("[data-option=rows]", 0)
        self.slide("[data-option=cols]", 0)
        self.until(lambda: "bind: 5 TooManyTiles f" in self.one("#schedule .sum").text, "the fault")

    def test_boxes_add_up_to_the_costs_of_plan(self):
        """The points of the boxes of all tiles are what `plan` tells, of each program and by several schedules."""
        costs = """const [stages, rows, cols, done] = arguments;
            import(`${location.href}boxes.js`).then(({costOf}) => done(stages.filter((it) => it.kind !== 'plane' && !it.inlined)
                .map((it) => [it.name, costOf(stages, it, rows, cols), it.cost])));"""
        self.edges()
        played = self.enterContext(Played())
        for example in EXAMPLES:
            told = played.post("example", example=example.name)[0]
            for rows, cols, percent in ((64, 64, 40), (16, 32, 1000), (7, 5, 400)):
                asked_for = {"text": told["text"], "values": told["values"], "rows": rows, "cols": cols, "percent": percent}
                stages = played.post("plan", **asked_for)[0]["stages"]
                for name, summed, cost in self.driver.execute_async_script(costs, stages, rows, cols):
                    with self.subTest(f"{example.name} {name} {rows} {cols} {percent}"):
                        self.assertEqual(summed, cost)

    def test_the_graph_of_many_stages_is_seen_at_once(self):
        chain = [f"func s{at}(x in [0 .. R-1], y in [0 .. C-1]) {{ else : (s{at - 1}(x, y) + 3 * I(x, y)) / 4; }}" for at in range(1, 17)]
        text = "\n".join(["param R; param C;\nimage I(R, C);\nfunc s0(x in [0 .. R-1], y in [0 .. C-1]) { else : I(x, y); }", *chain,
                          "output s16 max 255;\n"])
        self.play(text, SMALL)
        self.assertEqual(len(self.every(".node")), 18)
        self.assertLess(self.one(".graph").size["height"], 600)
        self.assertLessEqual(self.driver.execute_script("return document.documentElement.scrollWidth"), 1600)
        self.assertEqual(len(self.every(".reads path")), 1 + 2 * 16)

    def test_the_tiles_of_the_stage_with_most_inlined_functions_are_shown(self):
        stage = "func {}(x in [1 .. R-2], y in [1 .. C-2]) {{ else : {}; }}"
        functions = [("a", "I(x, y) + 1"), ("b", "I(x, y) + 2"), ("c", "a(x, y) + b(x, y) + I(x-1, y)"), ("d", "I(x, y) * 2")]
        text = "param R; param C;\nimage I(R, C);\n" + "\n".join(stage.format(*it) for it in functions)
        total = "accum h [0 .. 9] over (x in [1 .. R-2], y in [1 .. C-2]) sum d(x, y) at c(x, y) / 99;"
        self.play(f"{text}\n{total}\noutput c max 255;\n", b"P5\n6 6\n255\n" + bytes(range(36)))
        rows = {it.text.split()[0]: it.text for it in self.every("#schedule tbody tr")}
        homes = [it.split()[-1] for it in rows.values() if "inlined in" in it]
        self.assertEqual(self.one("#target").get_attribute("value"), max(homes, key=homes.count))

    def test_it_is_said_what_obeys_the_schedule(self):
        self.play(COPY, SMALL)
        self.assertIn("eval streams rows, whatever the schedule", self.one("#schedule-says").text)

    def test_a_tile_shows_what_it_needs(self):
        text = ("image I(6, 6);\nfunc a(x in [1 .. 4], y in [1 .. 4]) { else : stencil(I, 1, [[1,1,1],[1,1,1],[1,1,1]]); }\n"
                "func b(x in [2 .. 3], y in [2 .. 3]) { else : stencil(a, 1, [[1,1,1],[1,1,1],[1,1,1]]); }\noutput b max 65535;\n")
        self.play(text, b"P5\n6 6\n255\n" + bytes(range(36)), words=("--rows", "2", "--cols", "2"))
        self.point_at("#schedule .aim canvas", 1, 1, 2, 2)
        self.assertIn("tile of b: rows 2 to 3, columns 2 to 3; 20 points are computed for it", self.one(".aim .says").text)
        needs = [it.text for it in self.every(".needs figcaption")]
        self.assertEqual(needs, ["I: rows 0 to 5, columns 0 to 5, 36 points, of the picture",
                                 "a: rows 1 to 4, columns 1 to 4, 16 points, computed for this tile"])

    def test_accumulators_are_plots(self):
        played = self.edges()
        line = tf("eval", f"{played.folder}/p.pipe", f"{played.folder}/p.pgm", "threshold=40", "strength=2").rsplit(b"changes 0..255: ")[1]
        bins = line.decode().split()
        chart = self.one("#totals svg")
        chart.send_keys(Keys.ARROW_RIGHT)
        self.assertEqual(self.one("#totals .readout").text, f"bin 1: {bins[1]}")
        chart.send_keys(Keys.ARROW_RIGHT)
        self.assertEqual(self.one("#totals .readout").text, f"bin 2: {int(bins[2]):,}")

    def test_program_and_result_are_saved(self):
        played = self.play(COPY, SMALL)
        self.write(COPY.replace("I(x, y)", "3 * I(x, y)"))
        self.until_ran()
        self.one("textarea").send_keys(Keys.CONTROL, "s")
        self.until(lambda: self.one("#save").is_displayed(), "the dialog")
        self.assertEqual(self.one("#save-name").get_attribute("value"), "p.pipe")
        self.one("#save-go").click()
        self.until(lambda: self.status() == "saved p.pipe", "the saved program")
        self.assertEqual(content(f"{played.folder}/p.pipe").decode(), COPY.replace("I(x, y)", "3 * I(x, y)"))
        self.one("#save-result").click()
        self.save_as("r.pgm")
        self.until(lambda: self.status() == "saved r.pgm", "the saved result")
        self.assertEqual(content(f"{played.folder}/r.pgm"), b"P5\n3 2\n255\n" + bytes([3, 6, 9, 120, 150, 180]))

    def save_as(self, name: str) -> None:
        self.one("#save-name").clear()
        self.one("#save-name").send_keys(name)
        self.one("#save-go").click()

    def test_a_file_that_is_there_is_replaced_only_when_that_is_said(self):
        played = self.play(COPY, SMALL)
        path = write(f"{played.folder}/other.pipe", b"mine")
        self.one("#save-program").click()
        self.save_as("other.pipe")
        self.until(lambda: "already" in self.one("#save-says").text, "the question")
        self.assertEqual(content(path), b"mine")
        self.one("#save-go").click()
        self.until(lambda: self.status() == "saved other.pipe", "the saved program")
        self.assertEqual(content(path).decode(), COPY)
        self.one("#save-program").click()
        self.save_as("../other.pipe")
        self.until(lambda: "plain name" in self.one("#save-says").text, "the refusal")
        self.one("#save-cancel").click()
        self.driver.get_log("browser")  # (it notes the refused request)

    def test_a_program_that_takes_long_is_ended_and_the_page_goes_on(self):
        self.play(COPY, SMALL, seconds=2.0)
        self.write(SLOW)
        self.until(lambda: self.status().startswith("ended") and self.is_quiet(), "the end of the run")
        self.write(COPY)
        self.until_ran()
        self.write(SLOW)
        self.until(lambda: self.status().startswith("running"), "the slow run")
        self.write(COPY.replace("I(x, y)", "4 * I(x, y)"))
        self.until_ran()
        self.assertEqual(self.samples("#result canvas"), [[4, 8, 12], [160, 200, 240]])

    def test_it_runs_again_and_at_half_of_the_size(self):
        self.play(COPY, tf("eval", f"{TOP}/examples/copy/copy.pipe", GREY), seconds=2.0)
        self.assertFalse(self.one("#half-size").is_displayed())
        self.forget()
        self.one("#run-again").click()
        self.until_ran()
        self.write(ANY_SLOW)
        self.until(lambda: self.status().startswith("ended") and self.one("#half-size").is_displayed(), "the offer")
        self.one("#half-size").click()
        self.write(COPY)
        self.until(lambda: self.status().endswith("over a copy reduced by 2") and self.is_quiet(), "the run over the half")
        self.assertEqual(self.one("#input figcaption").text, "p.pgm: 96 × 128, reduced from 192 × 256")
        self.one("#compute-whole").click()
        self.until(lambda: self.one("#input figcaption").text == "p.pgm: 192 × 256", "the whole")

    def test_a_picture_is_shown_while_the_program_runs(self):
        self.play(COPY, SMALL)
        self.write(ANY_SLOW)
        self.until(lambda: self.status().startswith("running"), "the slow run")
        self.one("#open-picture").send_keys(GREY)
        self.until(lambda: self.one("#input figcaption").text == "grey.png: 192 × 256", "the picture")
        self.assertTrue(self.status().startswith("running"), self.status())

    def test_an_example_is_opened(self):
        self.play(COPY, SMALL)
        Select(self.one("#examples")).select_by_visible_text("brown")
        self.until(lambda: "scene.png" in self.one("#input figcaption").text, "the example's picture")
        self.until_ran()
        self.assertEqual(self.one("textarea").get_attribute("value"), content(f"{TOP}/examples/brown/brown.pipe").decode())

    def test_pictures_are_opened(self):
        played = self.play(COPY, SMALL)
        self.one("#open-picture").send_keys(GREY)
        self.until(lambda: self.one("#input figcaption").text == "grey.png: 192 × 256", "the picture")
        self.until_ran()
        write(f"{played.folder}/p.pgm", tf("eval", f"{TOP}/examples/copy/copy.pipe", GREY))
        self.assertEqual(self.samples("#result canvas"), self.printed(played))
        rows = struct.pack("<6B2x", 30, 20, 10, 60, 50, 40) + struct.pack("<6B2x", 90, 80, 70, 120, 110, 100)
        head = b"BM" + struct.pack("<IHHI", 54 + len(rows), 0, 0, 54) + struct.pack("<IiiHHIIiiII", 40, 2, 2, 1, 24, 0, len(rows), 0, 0, 0, 0)
        self.one("#open-picture").send_keys(write(f"{played.folder}/colours.bmp", head + rows))
        self.until(lambda: "colours.bmp: 2 × 2, made grey" in self.one("#input figcaption").text, "the picture that the browser decodes")
        self.until_ran()
        # 299, 587 and 114 parts of red, green and blue in a thousand, and the lowest row first in the file
        colours = [[(70, 80, 90), (100, 110, 120)], [(10, 20, 30), (40, 50, 60)]]
        self.assertEqual(self.samples("#result canvas"), [[(299 * r + 587 * g + 114 * b + 500) // 1000 for r, g, b in row] for row in colours])

    def test_large_pictures_are_computed_whole_on_request(self):
        rows, cols = 1203, 1700
        self.play(COPY, b"P5\n%d %d\n255\n" % (cols, rows) + bytes(rows * cols))
        self.assertIn("601 × 850, reduced from 1203 × 1700", self.one("#input figcaption").text)
        self.one("#compute-whole").click()
        self.until(lambda: "p.pgm: 1203 × 1700" == self.one("#input figcaption").text, "the whole picture")
        self.assertFalse(self.one("#compute-whole").is_displayed())

    def share(self, *words: str) -> Played:
        """Nodes that share the tiles of a copy of ten by twelve points, in tiles of five by six."""
        played = self.play(COPY, b"P5\n12 10\n255\n" + bytes(range(120)), words=("--rows", "5", "--cols", "6", *words))
        self.one("#share").click()
        self.until(lambda: "events" in self.nodes_say() and self.is_quiet(), "the world")
        return played

    def nodes_say(self) -> str:
        return self.one("#nodes .says").text

    def script(self) -> str:
        return self.one("#script").get_attribute("value")

    def holds(self, played: Played, nodes: int) -> None:
        """At its end the panel shows what `world` writes of its script."""
        path = write(f"{played.folder}/p.script", self.script().encode())
        lines = tf("world", f"{played.folder}/p.pipe", f"{played.folder}/p.pgm", path, "--rows", "5", "--cols", "6", "--nodes", str(nodes), "--trace")
        self.slide("#nodes .world-slider", 999)
        states = lines.decode().splitlines()[-1].split(" | ")[1:]
        labels = [it.get_attribute("aria-label") for it in self.every("#nodes canvas")]
        counts = [4 if "whole" in it else len(it.split()) - 2 for it in states]
        self.assertEqual((len(states), labels), (nodes, [f"f: {it} of 4 tiles" for it in counts]))
        whole = [at for at, it in enumerate(counts) if it == 4]
        for node in whole:
            samples = self.samples(f"#nodes [data-node='{node}'] canvas")
            self.assertEqual(samples, [[12 * row + col for col in range(12)] for row in range(10)])

    def test_nodes_share_the_tiles(self):
        played = self.share()
        self.holds(played, 2)
        before = self.script()
        self.slide("[data-nodes=nodes]", 3)
        self.slide("[data-nodes=lose]", 2)
        self.until(lambda: self.script() != before and self.is_quiet() and len(self.every("#nodes .world-node")) == 3, "another world")
        self.holds(played, 3)
        self.assertEqual(len(self.every("#nodes .lost")), 4)
        self.slide("[data-nodes=repeat]", 1)
        self.until(lambda: self.is_quiet() and self.every("#nodes .repeated"), "messages that are repeated")

    def test_a_script_is_changed_and_saved(self):
        played = self.share()
        self.driver.execute_script("document.querySelector('.world-script').open = true")
        box = self.one("#script")
        box.clear()
        box.send_keys("make 0 0:1:0:0\ndeliver 0 0\ndeliver 1 0\n")
        self.until(lambda: self.nodes_say() == "3 events, of which 1 are refused", "the changed script")
        self.holds(played, 2)
        self.assertIn("refused: deliver 1 0: message 0 is for node 0, and not for node 1", self.one("#nodes .world-said").text)
        box.send_keys("keep\n")
        self.until(lambda: "script: 1 BadLine at 4" in self.one(".world-fault").text, "the fault")
        self.assertIn("Here a node is missing: keep 0.", self.one(".world-fault").text)
        box.send_keys(Keys.CONTROL, Keys.END)
        box.send_keys(Keys.BACKSPACE, " 1\n")
        self.until(lambda: self.nodes_say() == "4 events, of which 1 are refused", "the cured script")
        self.assertFalse(self.one(".world-fault").is_displayed())
        self.one("#save-script").click()
        self.assertEqual(self.one("#save-name").get_attribute("value"), "p.script")
        self.one("#save-name").clear()
        self.one("#save-name").send_keys("own.script", Keys.ENTER)
        self.until(lambda: os.path.exists(f"{played.folder}/own.script"), "the file")
        self.assertEqual(content(f"{played.folder}/own.script"), b"make 0 0:1:0:0\ndeliver 0 0\ndeliver 1 0\nkeep 1\n")

    def test_everything_has_a_name(self):
        self.edges()
        self.one("[data-stage=change]").click()
        self.until(lambda: self.one("#stage h3").text == "change", "the stage")
        found = [it for it in self.every("button, input, select, textarea, canvas[tabindex], svg[tabindex]") if it.is_displayed()]
        self.assertGreater(len(found), 25)
        self.assertEqual([it.get_attribute("outerHTML") for it in found if not it.accessible_name.strip()], [])

    def test_all_is_reached_by_keys(self):
        self.edges()
        reached = set()
        for _ in range(60):
            ActionChains(self.driver).send_keys(Keys.TAB).perform()
            here = self.driver.switch_to.active_element
            reached.add(here.get_attribute("id") or here.get_attribute("data-stage") or here.tag_name)
        wanted = {"examples", "open-picture", "save-program", "save-result", "theme", "textarea", "canvas", "change", "target"}
        self.assertLessEqual(wanted, reached)

    def test_dark_and_light(self):
        self.play(COPY, SMALL)

        def ground() -> int:
            return int(re.findall(r"\d+", self.one("body").value_of_css_property("background-color"))[0])

        for scheme, is_dark in (("dark", True), ("light", False)):
            self.driver.execute_cdp_cmd("Emulation.setEmulatedMedia", {"features": [{"name": "prefers-color-scheme", "value": scheme}]})
            self.assertEqual(ground() < 100, is_dark)
            for theme, is_chosen_dark in (("dark", True), ("light", False)):
                Select(self.one("#theme")).select_by_value(theme)
                self.assertEqual(ground() < 100, is_chosen_dark)
            Select(self.one("#theme")).select_by_value("auto")
            self.assertEqual(ground() < 100, is_dark)

    def test_small_screens_have_all_of_it(self):
        self.edges()
        try:
            for width in (400, 320, 1600):
                screen = {"width": width, "height": 800, "deviceScaleFactor": 1, "mobile": False}
                self.driver.execute_cdp_cmd("Emulation.setDeviceMetricsOverride", screen)
                wide = self.driver.execute_script("return document.documentElement.scrollWidth")
                self.assertLessEqual(wide, width)
        finally:
            self.driver.execute_cdp_cmd("Emulation.clearDeviceMetricsOverride", {})

    def test_a_report_shows_the_same_without_a_server(self):
        room = self.enterContext(tempfile.TemporaryDirectory(prefix="test-play-"))
        path = f"{room}/report.html"
        tf("report", EDGES, GREY, "-o", path, "threshold=70")
        self.driver.get(Path(path).as_uri())
        self.until_ran()
        picture = write(f"{room}/p.pgm", tf("eval", f"{TOP}/examples/copy/copy.pipe", GREY))
        lines = tf("eval", EDGES, picture, "threshold=70", "strength=2", "--print").decode().splitlines()
        self.assertEqual(self.samples("#result canvas"), [[int(it) for it in line.split()] for line in lines if ":" not in line])
        self.one("[data-stage=across]").click()
        self.until(lambda: self.one("#stage h3").text == "across", "the stage")
        self.assertTrue(self.one("textarea").get_attribute("readonly"))
        self.assertFalse(self.one("#examples").is_displayed())
        self.slide("[data-option=rows]", 1)
        self.slide("[data-option=percent]", 0)
        wanted = tf("plan", EDGES, GREY, "threshold=70", "strength=2", "--rows", "16", "--cols", "16", "--percent", "0").decode().splitlines()
        self.until(lambda: self.scheduled() == wanted, "the other schedule")
