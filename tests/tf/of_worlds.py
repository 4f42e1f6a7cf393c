"""Tests of what tf tells of worlds, event by event. What must be told comes from the reference model of worlds, and from `world` itself."""
import base64
import json
import os
import re
import subprocess
import xml.etree.ElementTree as xml
from random import Random
from typing import NamedTuple

from fuzzing.scripts import Writer, spelled, text_of
from reference.facts import content_of
from reference.schedules import Schedule
from reference.texts import identities, settings, tokens_of
from reference.values import Meaning
from reference.worlds import SEPARATOR, Job, Refused, State, World, picture_of, script, words_of

from .shared import COPY, PROGRAM, TOP, InRoom, content

SOFT = content(f"{TOP}/examples/worlds/soft.pipe")
BUMP = content(f"{TOP}/examples/worlds/bump.pgm")
WORDS = "--rows 2 --cols 4 --stored"
# how tf tells each reason of the reference model
REASONS = {"NoSuchNode": "there is no node", "NoSuchMessage": "there is no message", "WrongAddress": "is for node", "Retired": "knows that the job is retired",
           "NeedMissing": "lacks", "NotHeld": "does not hold", "NoSuchTile": "there is no stage|has no tiles|has no tile",
           "ScratchTooBig": "than scratch memory may"}
LINE = re.compile(r" *(\d+)  (refused: .*?: .*?|.*?)((?: \| \d+: [^|]*)*)")


class Line(NamedTuple):
    """A line of a trace: the line of the script, why it is refused or nothing, and the states of all nodes, if they are told."""

    number: int
    reason: str
    states: list[str]


def line_of(text: str) -> Line:
    found = LINE.fullmatch(text)
    said = found[2] if found[2].startswith("refused: ") else ""
    return Line(int(found[1]), said, re.findall(r" \| \d+: ([^|]*?)(?= \||$)", found[3]))


def job_of(text: bytes, given: bytes, words: list[str]) -> Job:
    """The job of good words, by the reference model."""
    tokens = tokens_of(text)
    picture, asked = picture_of(given, tokens), words_of(words)
    known = settings(tokens, asked.given, picture)
    meaning = Meaning(tokens, known, picture)
    return Job(identities(tokens, known, picture, asked.sides), meaning, Schedule(meaning, asked.sides, asked.percent, asked.is_stored))


def told(job: Job, state: State) -> str:
    """A state as a trace tells it, where it has few tiles."""
    if state.is_retired:
        return "retired"
    found = []
    for stage, name in enumerate(job.names):
        tiles = sorted(it for it in state.tiles if it[0] == stage)
        every = [] if job.meaning.stages[stage].kind == "plane" else list(job.meaning.stages[stage].domain.tiles(job.schedule.sides))
        is_whole = len(every) > 1 and len(tiles) == len(every)
        found += [f"{name} whole" if is_whole else f"{name} {' '.join(f'{row}:{col}' for _, row, col in tiles)}"] * bool(tiles)
    return ", ".join(found) or "nothing"


class TracedWorlds(InRoom):
    def setUp(self):
        super().setUp()
        self.write("p.pipe", SOFT)
        self.write("p.pgm", BUMP)

    def traced(self, text: bytes, words: str) -> list[Line]:
        self.write("p.script", text)
        status, written, said = self.tf(f"world p.pipe p.pgm p.script {words} --trace")
        self.assertEqual((status, said), (0, ""))
        return [line_of(it) for it in written.decode().splitlines()]

    def agree(self, text: bytes, words: str) -> None:
        """A trace tells what the reference model does, event by event."""
        job, asked = job_of(SOFT, BUMP, words.split()), words_of(words.split())
        world, events = World(job, asked.nodes), script(text)
        lines = self.traced(text, words)
        self.assertEqual(len(lines), len(events))
        for at, (event, line) in enumerate(zip(events, lines), 1):
            reason = ""
            try:
                world.step(event)
            except Refused as refused:
                reason = str(refused)
            self.assertEqual(bool(reason), bool(line.reason), f"event {at}: {event} {line}")
            self.assertRegex(line.reason, REASONS.get(reason, "^$"))
            if len(events) <= 400 or at % 100 == 0 or at == len(events):
                self.assertEqual(line.states, [told(job, it) for it in world.held], f"event {at}: {event}")

    def test_each_event_is_told_as_the_model_has_it(self):
        for seed, (words, count) in enumerate(((WORDS, 60), (f"{WORDS} --nodes 3", 90), ("--rows 2 --cols 2 --percent 0 --nodes=1", 30),
                                               ("--rows 3 --cols 64 --nodes 4", 60), (f"{WORDS} --nodes 16", 40))):
            with self.subTest(words):
                random = Random(seed)
                writer = Writer(job_of(SOFT, BUMP, words.split()), words_of(words.split()).nodes, random)
                self.agree(text_of(spelled(writer.events(count), random)), words)

    def test_a_retirement(self):
        text = b"make 0 0:1:0:0\ndeliver 0 0\nkeep 0\nretire 1 0\ndeliver 1 1\nsend 1 0\ndeliver 0 2\nmake 0 0:1:0:0\nrestart 0\n"
        self.agree(text, WORDS)
        self.write("p.script", text)
        lines = self.tf(f"world p.pipe p.pgm p.script {WORDS} --trace")[1].decode().splitlines()
        self.assertEqual(lines[3:], [
            "4  node 1 retires the job, message 1 to itself | 0: wide 0:0 | 1: nothing",
            "5  node 1 takes message 1 (the job is retired) | 0: wide 0:0 | 1: retired",
            "6  node 1 sends node 0 message 2 (the job is retired) | 0: wide 0:0 | 1: retired",
            "7  node 0 takes message 2 (the job is retired) | 0: retired | 1: retired",
            "8  refused: make 0 0:1:0:0: node 0 knows that the job is retired | 0: retired | 1: retired",
            "9  node 0 restarts with what it kept | 0: wide 0:0 | 1: retired"])

    def test_a_long_script_has_states_at_each_hundredth_event(self):
        random = Random(7)
        writer = Writer(job_of(SOFT, BUMP, WORDS.split()), 2, random)
        self.agree(text_of(spelled(writer.events(450), random)), WORDS)

    def test_each_state_is_the_one_that_world_writes(self):
        for name in ("shared", "lost", "restart"):
            text = content(f"{TOP}/examples/worlds/{name}/{name}.script")
            job, lines = job_of(SOFT, BUMP, WORDS.split()), self.traced(text, WORDS)
            every = text.splitlines(keepends=True)
            for line in lines:
                data = SEPARATOR.join([SOFT, b"".join(every[: line.number]), BUMP])
                written = subprocess.run([PROGRAM, "world", *WORDS.split()], input=data, capture_output=True, check=True).stdout
                states = [content_of(it.split()[2] + b"\n") for it in written.splitlines()[1:]]
                held = [State(frozenset((it.stage, it.row, it.col) for it in has.facts), bool(has.retired)) for has in states]
                self.assertEqual(line.states, [told(job, it) for it in held], f"{name}:{line.number}")

    def test_many_tiles_are_counted(self):
        text = b"".join(b"make 0 0:1:%d:%d\ndeliver 0 %d\n" % (row, col, 4 * row + col) for row in range(5) for col in range(4))
        states = [it.states[0] for it in self.traced(text, "--rows 1 --cols 1 --stored")]
        self.assertEqual(states[23], "wide 0:0 0:1 0:2 0:3 1:0 1:1 1:2 1:3 2:0 2:1 2:2 2:3")
        self.assertEqual(states[25], "wide 0:0 0:1 0:2 0:3 1:0 1:1 1:2 1:3 2:0 2:1 2:2 2:3 .. 13 of 24")

    def test_what_cannot_be_traced(self):
        self.write("p.script", b"keep 0\nkeep\n")
        status, written, said = self.tf("world p.pipe p.pgm p.script --trace")
        self.assertEqual((status, written, said.splitlines()[0]), (2, b"", "script: 1 BadLine at 2"))
        self.refused("eval p.pipe p.pgm --trace", 1, "--trace is an option of world and run")

    def test_numbers_may_begin_with_many_zeros(self):
        zeros = b"0" * 5000
        lines = self.traced(b"make " + zeros + b" 0:1:" + zeros + b":0\ndeliver 0 " + zeros + b"\n", WORDS)
        self.assertEqual(lines, [Line(1, "", ["nothing", "nothing"]), Line(2, "", ["wide 0:0", "nothing"])])

    def test_no_event_is_no_line(self):
        self.assertEqual(self.traced(b"# nothing happens\n", WORDS), [])


# message 3 is repeated, 4 is late and 8 is lost; node 0 keeps and restarts, node 1 takes all of it and retires the job; two events are refused
DRAWN = b"""make 0 0:1:0:0
make 0 0:1:1:0
make 1 0:1:2:0
deliver 1 2
send 0 1 0:1:1:0
deliver 0 0
send 0 1 0:1:0:0
deliver 1 3
deliver 0 1
keep 0
deliver 1 3
send 0 1 0:1:0:0 0:1:1:0
send 0 1 0:1:1:0
deliver 1 5
deliver 1 4
make 0 0:2:0:0
deliver 0 6
restart 0
merge 1 0
retire 1 0
deliver 1 7
send 1 0
keep 2
"""
SVG = "{http://www.w3.org/2000/svg}"


class DrawnWorlds(InRoom):
    """What a drawing of a world has, by the events that it draws."""

    def setUp(self):
        super().setUp()
        self.write("p.pipe", SOFT)
        self.write("p.pgm", BUMP)
        self.write("p.script", DRAWN)

    def drawn(self) -> dict[int, xml.Element]:
        """The groups of all steps."""
        self.assertEqual(self.tf(f"world p.pipe p.pgm p.script {WORDS} -o p.svg"), (0, b"", ""))
        self.svg = xml.fromstring(self.content("p.svg"))
        return {int(it.get("data-step")): it for it in self.svg.iter(f"{SVG}g") if it.get("class") == "step"}

    def marks(self, group: xml.Element) -> list[str]:
        return [it.get("class") for it in group.iter() if it.get("class") not in (None, "step", "now", "number", "word", "empty")]

    def test_each_event_has_its_marks(self):
        steps = self.drawn()
        wanted = {1: ["dot"], 4: ["message"], 5: ["refused"], 8: ["message"], 10: ["kept"], 11: ["message repeated"] * 2, 13: ["dot"],
                  14: ["message"], 15: ["message late"], 18: ["again"], 19: ["merge"], 20: ["again"], 21: ["message"],
                  22: ["dot", "lost", "lost-mark"], 23: ["refused"]}
        self.assertEqual({it: self.marks(steps[it]) for it in wanted}, wanted)
        self.assertEqual(list(steps), list(range(1, 24)))

    def test_a_title_says_what_an_event_does(self):
        steps = self.drawn()
        self.assertEqual(steps[11].find(f"{SVG}title").text, "node 1 takes message 3 (wide:0:0)")
        self.assertEqual(steps[23].find(f"{SVG}title").text, "refused: keep 2: there is no node 2")

    def test_the_line_of_a_node_is_cut_where_it_restarts(self):
        self.drawn()
        lives = [it.get("d").count("M") for it in self.svg.iter(f"{SVG}path") if it.get("class") == "life"]
        self.assertEqual(lives, [2, 1])

    def test_long_words_end_inside_the_drawing(self):
        """(A letter of DejaVu Sans takes 0.6 of the font's size, in the mean of English words.)"""
        self.write("p.pipe", SOFT.replace(b"soft", b"softened_twice"))
        self.write("p.script", DRAWN.replace(b"make 0 0:2:0:0", b"merge 1 0\nmake 1 0:2:0:0"))
        self.drawn()
        words = [it for it in self.svg.iter(f"{SVG}text") if it.get("class") == "word"]
        ends = [float(it.get("x")) + 0.6 * float(it.get("font-size")) * len(it.text) for it in words]
        self.assertIn("makes softened_…", [it.text for it in words])
        self.assertLessEqual(max(ends), float(self.svg.get("width")))

    def test_a_node_shows_the_tiles_that_it_holds(self):
        # after its restart node 0 holds the two tiles of `wide` that it kept, each of two rows and four columns
        clips = [it.find(f"{SVG}path").get("d") for it in self.drawn()[18].iter(f"{SVG}clipPath")]
        self.assertEqual(clips, ["M0,0h4v2h-4zM0,2h4v2h-4z", ""])

    def test_a_page_is_one_file_that_loads_nothing(self):
        status, written, said = self.tf(f"world p.pipe p.pgm p.script {WORDS} -o p.html --trace")
        self.assertEqual((status, written.count(b"\n"), said), (0, 23, ""))
        page = self.content("p.html").decode()
        self.assertIn("default-src 'none'", page)
        self.assertNotRegex(page, r"(src|href)=[\"'](?!#|data:)")

    def test_what_cannot_be_drawn(self):
        self.write("p.script", b"keep 0\n" * 401)
        self.refused("world p.pipe p.pgm p.script -o p.svg", 1, "a drawing has at most 400 events, and this script has 401")
        self.refused("world p.pipe p.pgm p.script -o p.png", 1, "world writes no .png; it writes lines of text, as .txt, or drawings, .svg and .html")

    def test_long_stages_are_drawn_by_every_second_point(self):
        self.write("p.pgm", b"P5\n300 20\n255\n" + bytes(row * 12 + col % 7 for row in range(20) for col in range(300)))
        self.write("p.pipe", COPY.encode())
        self.write("p.script", b"make 0 0:1:0:1\ndeliver 0 0\n")
        self.assertEqual(self.tf("world p.pipe p.pgm p.script --rows 7 --cols 33 -o p.html"), (0, b"", ""))
        stage = json.loads(re.search(r'id="stored">(.*?)</script>', self.content("p.html").decode())[1])["stages"][0]
        self.assertEqual((stage["rows"], stage["cols"], stage["tiles"][1]), (10, 150, [0, 17, 4, 16]))
        shades = base64.b64decode(stage["shades"])
        wanted = {(row, col): 24 * row + 2 * col % 7 for row in range(4) for col in range(17, 33)}
        self.assertEqual(shades, bytes(wanted.get((row, col), 0) for row in range(10) for col in range(150)))


class TracedFarms(InRoom):
    """What `tf run --trace` tells of a farm from outside."""

    def setUp(self):
        super().setUp()
        self.write("p.pipe", SOFT)
        self.write("p.pgm", BUMP)

    def told(self, words: str) -> list[str]:
        """The lines, after the picture is judged to be the one that plain sums give."""
        status, written, said = self.tf(f"run p.pipe p.pgm {words} --print --trace")
        self.assertEqual((status, written), (0, b" 50  80  80  50\n" + b" 80 130 130  80\n" * 2 + b" 50  80  80  50\n"), said)
        return [it.removeprefix("tf: ") for it in said.splitlines()]

    def test_what_a_farm_could_do_and_that_its_facts_are_true(self):
        first, *lines = self.told("--rows 2 --cols 2 --stored --nodes 3 --turns=1 --lose 2 --restart=5")
        self.assertRegex(first, r"3 nodes with 2 workers each, 1 turns a worker: \d+\.\d{3} s by the clock; eval \d+\.\d{3} s")
        self.assertEqual(lines, [
            "10 tiles to make: wide 6, soft 4",
            "a worker makes at most one tile a turn, so a node could make 2 of them, and the calling thread makes what is left",
            "each tile that a node makes is sent to 2 others; of 2 parcels that a worker sends one is lost; its node restarts in turns that are multiples of 5",
            "4 tiles of the result, made in 3 shares, merged and audited: all are true, and their answer is what run wrote",
            "what only the farm knows, it records and does not write: which node made which tile, what was made twice, which parcels were lost or came twice"])

    def test_usual_options(self):
        lines = self.told("")
        self.assertIn("2 nodes with 2 workers each, 1000 turns a worker", lines[0])
        self.assertEqual(lines[1:4], ["1 tiles to make: soft 1",
                                      "a worker makes at most one tile a turn, so a node could make 1 of them, and the calling thread makes what is left",
                                      "each tile that a node makes is sent to 1 others; no parcel is lost but for a full mailbox"])

    def test_a_farm_that_writes_something_else_is_told(self):
        self.write("lying", f"#!/bin/sh\n{PROGRAM} \"$@\" | if [ $1 = run ]; then tr 2 3; else cat; fi\n".encode())
        os.chmod(f"{self.room}/lying", 0o755)
        status, written, said = self.tf("run p.pipe p.pgm --trace --print", TILEFARM=f"{self.room}/lying")
        self.assertEqual((status, written, said), (4, b"", "tf: run does not write what eval writes: this is a fault of tilefarm, which its proof excludes\n"))
