"""Tests of the page of a world in a headless Chromium. What each step must show is what `world` writes of the script's first events."""
import os
import re
import subprocess
import tempfile
import unittest
from pathlib import Path

from play_browser import ActionChains, By, Keys, Select, browser
from playing import TOP, content, tf, write
from reference.facts import Fact, content_of

SOFT, BUMP = content(f"{TOP}/examples/worlds/soft.pipe"), content(f"{TOP}/examples/worlds/bump.pgm")
WORDS = ("--rows", "2", "--cols", "4", "--stored")
# of each stage where it begins, its sides, and the numbers that are black and white: `soft` is the output, and `wide` is from 0 to 150
STAGES = {1: ("wide", (0, 1), (6, 4), 0, 150), 2: ("soft", (1, 1), (4, 4), 0, 255)}
# message 3 is repeated, 4 is late and 8 is lost; node 0 restarts, and node 1 retires the job
SCRIPT = b"""make 0 0:1:0:0
make 0 0:1:1:0
make 1 0:1:2:0
deliver 1 2
send 0 1 0:1:1:0
deliver 0 0
# node 0 holds nothing to send
send 0 1 0:1:0:0
deliver 1 3
deliver 0 1
keep 0
deliver 1 3
send 0 1 0:1:0:0 0:1:1:0
send 0 1 0:1:1:0
deliver 1 5
deliver 1 4
make 0 0:2:0:0
deliver 0 6
restart 0
merge 1 0
retire 1 0
deliver 1 7
send 1 0
"""


def worlds(folder: str) -> list[list[dict[int, list[Fact]]]]:
    """Of the first 0, 1, 2 and so on events the facts that each node holds, by their stages: from `world` itself."""
    lines, found = [it for it in SCRIPT.splitlines(keepends=True) if not it.startswith(b"#")], []
    for count in range(len(lines) + 1):
        data = b"%%\n".join([SOFT, b"".join(lines[:count]), BUMP])
        written = subprocess.run([os.environ["TILEFARM"], "world", *WORDS], input=data, capture_output=True, check=True).stdout
        facts = [content_of(it.split()[2] + b"\n").facts for it in written.splitlines()[1:]]
        found.append([{stage: [it for it in held if it.stage == stage] for stage in STAGES} for held in facts])
    return found


def drawn(stage: int, facts: list[Fact]) -> list[list[int]]:
    """What a canvas must have: of each point its shade, or -1 where no fact has it."""
    _, _, (rows, cols), least, most = STAGES[stage]
    found = [[-1] * cols for _ in range(rows)]
    for it in facts:
        for at, value in enumerate(it.numbers):
            found[2 * it.row + at // 4][4 * it.col + at % 4] = (value - least) * 255 // (most - least)
    return found


class Talk(unittest.TestCase):
    @classmethod
    def setUpClass(cls):
        cls.driver = browser()
        cls.room = tempfile.TemporaryDirectory(prefix="test-play-")
        folder = cls.room.name
        paths = [write(f"{folder}/{name}", data) for name, data in (("p.pipe", SOFT), ("p.pgm", BUMP), ("p.script", SCRIPT))]
        tf("world", *paths, *WORDS, "-o", f"{folder}/talk.html")
        cls.worlds = worlds(folder)

    @classmethod
    def tearDownClass(cls):
        cls.driver.quit()
        cls.room.cleanup()

    def setUp(self):
        self.driver.get(Path(f"{self.room.name}/talk.html").as_uri())

    def tearDown(self):
        # (what it says of how fast the tests read pictures is no complaint)
        log = [it["message"] for it in self.driver.get_log("browser") if not it["message"].startswith("rendering")]
        self.assertEqual(log, [], "the browser complains")

    def one(self, selector: str):
        return self.driver.find_element(By.CSS_SELECTOR, selector)

    def press(self, key: str) -> None:
        ActionChains(self.driver).send_keys(key).perform()

    def shades(self, node: int, stage: str) -> list[list[int]]:
        """The shades of a canvas, row by row, and -1 where nothing is drawn."""
        return self.driver.execute_script(
            "const c = document.querySelector(`[data-node='${arguments[0]}'] canvas[data-stage='${arguments[1]}']`);"
            "const d = c.getContext('2d').getImageData(0, 0, c.width, c.height).data;"
            "return Array.from({length: c.height}, (_, r) => Array.from({length: c.width}, (_, k) => {"
            "const at = 4 * (r * c.width + k); return d[at + 3] ? d[at] : -1; }));", node, stage)

    def shows(self, step: int) -> None:
        """The page shows the world of so many events."""
        self.assertTrue(self.one(".world-said").text.startswith(f"{step} of {len(self.worlds) - 1}"), self.one(".world-said").text)
        for node, held in enumerate(self.worlds[step]):
            for stage, (name, *_) in STAGES.items():
                self.assertEqual(self.shades(node, name), drawn(stage, held[stage]), f"step {step}, node {node}, {name}")

    def test_each_step_shows_the_state_that_world_writes(self):
        self.shows(0)
        for step in range(1, len(self.worlds)):
            self.press(Keys.ARROW_RIGHT)
            self.shows(step)

    def test_keys_and_buttons_and_the_slider_lead_to_steps(self):
        last = len(self.worlds) - 1
        for key, step in ((Keys.END, last), (Keys.ARROW_RIGHT, last), (Keys.ARROW_LEFT, last - 1), (Keys.HOME, 0), (Keys.ARROW_LEFT, 0)):
            self.press(key)
            self.shows(step)
        self.one("[aria-label='One step on']").click()
        self.shows(1)
        self.one("[aria-label='One step back']").click()
        self.shows(0)
        self.driver.execute_script("const s = document.querySelector('.world-slider'); s.value = 9; s.dispatchEvent(new Event('input'));")
        self.shows(9)
        self.driver.execute_script("document.querySelector('[data-step=\"4\"]').dispatchEvent(new MouseEvent('click'));")
        self.shows(4)

    def test_what_is_said_of_a_step(self):
        self.press(Keys.END)
        self.assertIn("line 23: node 1 sends node 0 message 8 (the job is retired)", self.one(".world-said").text)
        self.assertEqual([it.text for it in self.driver.find_elements(By.CSS_SELECTOR, ".world-node .says")],
                         ["holds 2 tiles", "knows that the job is retired"])
        self.driver.execute_script("document.querySelector('[data-step=\"11\"]').dispatchEvent(new MouseEvent('click'));")
        self.assertIn("node 1 takes message 3 (wide:0:0)", self.one(".world-said").text)
        shown = self.driver.find_elements(By.CSS_SELECTOR, ".step.shown")
        self.assertEqual([it.get_attribute("data-step") for it in shown], ["11"])
        self.assertEqual(len(self.driver.find_elements(By.CSS_SELECTOR, ".step.later")), len(self.worlds) - 12)

    def test_light_and_dark(self):
        def ground() -> int:
            return int(re.findall(r"\d+", self.one("body").value_of_css_property("background-color"))[0])

        def ink() -> int:
            return int(re.findall(r"\d+", self.one(".world text.word").value_of_css_property("fill"))[0])

        for scheme, is_dark in (("dark", True), ("light", False)):
            self.driver.execute_cdp_cmd("Emulation.setEmulatedMedia", {"features": [{"name": "prefers-color-scheme", "value": scheme}]})
            self.assertEqual((ground() < 100, ink() > 150), (is_dark, is_dark))
        Select(self.one("#theme")).select_by_value("dark")
        self.assertEqual((ground() < 100, ink() > 150), (True, True))
        Select(self.one("#theme")).select_by_value("auto")

    def test_a_small_screen_shows_all_of_it(self):
        try:
            for width in (400, 320):
                screen = {"width": width, "height": 800, "deviceScaleFactor": 1, "mobile": False}
                self.driver.execute_cdp_cmd("Emulation.setDeviceMetricsOverride", screen)
                self.assertLessEqual(self.driver.execute_script("return document.documentElement.scrollWidth"), width)
                heights = self.driver.execute_script("return Array.from(document.querySelectorAll('.world text'), (it) => it.getBoundingClientRect().height)")
                self.assertGreaterEqual(min(heights), 10)
                if width == 400:
                    self.assertLessEqual(self.driver.execute_script("const d = document.querySelector('.world-drawing'); return d.scrollWidth - d.clientWidth"), 0)
        finally:
            self.driver.execute_cdp_cmd("Emulation.clearDeviceMetricsOverride", {})

    def test_everything_has_a_name(self):
        found = [it for it in self.driver.find_elements(By.CSS_SELECTOR, "button, input, select, canvas, [tabindex]") if it.is_displayed()]
        self.assertEqual([it.get_attribute("outerHTML") for it in found if not it.accessible_name.strip()], [])
