"""Random scripts over the tiles of a job, and what `world` must answer to them."""
from random import Random

from reference.schedules import Schedule
from reference.texts import identities
from reference.values import Meaning
from reference.worlds import MOST_NODE, MOST_NUMBER, MOST_STAGE, SEPARATOR, Event, Job, Refused, Tile, World, after

from .answers import Answer, Program, demand

VERBS = ["make"] * 6 + ["deliver"] * 6 + ["send"] * 3 + ["merge", "keep", "restart"]
# words that are no numbers, or no numbers of what they should be
WRONG = ["", "-1", "+1", "1.", "x", "0x1", "1 ", " 1", "\t", "1\r", "\xb2", str(MOST_NODE + 1), str(MOST_NUMBER + 1), "9" * 30]
BAD_LINES = ["make", "make 0", "send 0", "send", "deliver 0", "merge 0", "keep", "restart", "make 0 0:1:0", "make 0 0:1:0:0:0", "keep 0 0",
             " # no comment", " ", "Make 0 0:1:0:0", "forget 0", "send 0 1 :::", "make 0 0:1:0:0 0:1:0:1", "%% ", "\0", "keep\t0",
             "make 0 1:0:0:0", "make 0 01:1:0:0", "send 0 1 0:1:0:0 7:1:0:0", "send 0 1 9:1:0:0", "send 0 1 1:1:0:0 x",
             "retire", "retire 0", "retire 0 0 0", "retire 0 0:1:0:0", "retire 0 1", "retire 256 1", f"retire 0 {MOST_NUMBER}",
             f"retire 0 {MOST_NUMBER + 1}", f"make 0 0:{MOST_STAGE + 1}:0:0", f"send 0 1 0:1:{MOST_NUMBER + 1}:0", f"deliver 0 {MOST_NUMBER + 1}"]


class Writer:
    """Writes events, and lets a world go through them, so that it knows what may be asked for."""

    def __init__(self, job: Job, nodes: int, random: Random):
        self.world, self.random, self.nodes = World(job, nodes), random, nodes
        # (a node that has retired the job makes nothing, so that few scripts retire it often)
        self.retiring = random.choice([0, 0, 0.01, 0.05])
        domains = [(it, stage.domain) for it, stage in enumerate(job.meaning.stages) if stage.kind != "plane"]
        self.tiles: list[Tile] = [(it, *at) for it, domain in domains for at in domain.tiles(job.schedule.sides)]

    def node(self) -> int:
        """One that is there, most often."""
        return self.random.choice([self.nodes, MOST_NODE]) if self.random.random() < 0.02 else self.random.randrange(self.nodes)

    def tile(self) -> Tile:
        """One that is there, most often."""
        tile = self.random.choice(self.tiles)
        if self.random.random() < 0.05:
            far = self.random.choice([1, 2, 9, MOST_NUMBER])
            return self.random.choice([(0, *tile[1:]), (tile[0], far, tile[2]), (tile[0], tile[1], far), (MOST_STAGE, *tile[1:])])
        return tile

    def within_reach(self, node: int) -> Tile:
        """A tile, or one that it needs and the node lacks, or one that this one needs, and so on."""
        tile = self.tile()
        while self.random.random() < 0.9:
            try:
                lacked = sorted(self.world.job.needs(tile) - self.held(node))
            except Refused:
                return tile
            if not lacked:
                return tile
            tile = self.random.choice(lacked)
        return tile

    def held(self, node: int) -> set[Tile]:
        return set(self.world.held[node].tiles) if node < self.nodes else set()

    def verb(self) -> str:
        return "retire" if self.random.random() < self.retiring else self.random.choice(VERBS)

    def event(self) -> Event:
        verb = self.verb()
        numbers, tiles = getattr(self, verb)() if hasattr(self, verb) else ((self.node(),), ())
        return Event(verb, numbers, tiles)

    def make(self) -> tuple[tuple[int, ...], tuple[Tile, ...]]:
        node = self.node()
        return (node,), (self.within_reach(node),)

    def send(self) -> tuple[tuple[int, ...], tuple[Tile, ...]]:
        """Some tiles that the node has, the same more than once at times, and seldom one that it may lack."""
        node, count = self.node(), self.random.choice([0, 1, 1, 2, 3, 9])
        held = sorted(self.held(node))
        tiles = self.random.choices(held, k=count) if held else []
        return (node, self.node()), (*tiles, *([self.tile()] if self.random.random() < 0.1 else []))

    def deliver(self) -> tuple[tuple[int, ...], tuple[Tile, ...]]:
        """Any message that was sent, again at times; those that are never chosen are lost."""
        known = self.world.messages
        if not known or self.random.random() < 0.05:
            return (self.node(), self.random.choice([len(known), MOST_NUMBER])), ()
        number = self.random.choice([self.random.randrange(len(known)), max(0, len(known) - self.random.randint(1, 4))])
        return (known[number][0] if self.random.random() < 0.95 else self.node(), number), ()

    def merge(self) -> tuple[tuple[int, ...], tuple[Tile, ...]]:
        return (self.node(), self.node()), ()

    def retire(self) -> tuple[tuple[int, ...], tuple[Tile, ...]]:
        return (self.node(), 0), ()

    def events(self, count: int) -> list[Event]:
        found = []
        for _ in range(count):
            found.append(self.event())
            self.world.run(found[-1:])
        return found


def spelled(events: list[Event], random: Random) -> list[str]:
    """The lines of events, with other lines between them that are passed over."""
    lines = []
    for it in events:
        lines += random.choice([[]] * 12 + [[""], ["# make 0"], ["#"]])
        words = [it.verb, *(digits(each, random) for each in it.numbers)]
        lines.append(" ".join([*words, *(":".join(digits(each, random) for each in (0, *tile)) for tile in it.tiles)]))
    return lines


def digits(number: int, random: Random) -> str:
    return random.choice(["", "", "", "", "", "0", "000"]) + str(number)


def mutated(lines: list[str], random: Random) -> list[str]:
    """The lines with a bad one among them, or with a line changed, which is bad then most often."""
    at, choice = random.randrange(len(lines) + 1), random.randrange(5)
    if choice <= 1 or not lines:
        return [*lines[:at], random.choice(BAD_LINES), *lines[at:]]
    at %= len(lines)
    words = lines[at].split(" ")
    which = random.randrange(len(words))
    if choice == 2:
        words[which] = random.choice(WRONG)
    elif choice == 3:
        words[which:which] = random.choice([[""], words[which:], ["0"], ["0:1:0:0"]])
    else:
        words[which] = ":".join(random.choice(["1", it, it, *WRONG]) for it in words[which].split(":"))
    return [*lines[:at], " ".join(words), *lines[at + 1 :]]


def text_of(lines: list[str]) -> bytes:
    return "".join(f"{it}\n" for it in lines).encode("latin-1")


def another_script(random: Random) -> bytes:
    """A script of any job, or what is none."""
    return text_of(random.choice([[], ["keep 0"], ["make 0 0:1:0:0", "deliver 0 0"], ["retire 0 0"], ["keep"], ["%%%", "make 0 1:1:0:0"]]))


def worlded(program: Program, text: bytes, picture: bytes, words: tuple[str, ...], meaning: Meaning, random: Random) -> None:
    """A job has the identities and the schedule that are told apart, and the nodes of a world hold after a script what they must."""
    sides = random.choice([1, 2, 3, 5, 64]), random.choice([1, 2, 4, 7, 64])
    percent, is_stored = random.choice([(40, False), (0, False), (300, False), (10000, False), (40, True)])
    options = ["--rows", str(sides[0]), "--cols", str(sides[1])]
    options += ["--stored"] if is_stored else ["--percent", str(percent)] if percent != 40 else []
    job = Job(identities(meaning.tokens[:-1], meaning.known, meaning.picture, sides), meaning, Schedule(meaning, sides, percent, is_stored))
    checked, planned = (program.call(text + SEPARATOR + picture, it, *options, *words) for it in ("check", "plan"))
    demand(planned == Answer(0, job.schedule.plan()), f"plan: {planned.shown()} in place of {job.schedule.plan()!r}")
    known = b"program %s\ninput %s\n" % tuple(it.hex().encode() for it in job.ids)
    demand(checked.bytes.startswith(known), f"check: {checked.shown()} in place of {known!r}")
    nodes = random.choice([1, 2, 2, 2, 3, 16])
    options += ["--nodes", str(nodes)] if nodes != 2 or random.random() < 0.3 else []
    lines = spelled(Writer(job, nodes, random).events(random.choice([0, 3, 20, 60, 200])), random)
    for told in (text_of(lines), text_of(mutated(lines, random))):
        if b"\n%%\n" not in b"\n" + told:
            wanted = Answer(*after(job, nodes, told))
            answer = program.call(SEPARATOR.join([text, told, picture]), "world", *options, *words)
            demand(answer == wanted, f"world: {answer.shown()} in place of {wanted.shown()}")
