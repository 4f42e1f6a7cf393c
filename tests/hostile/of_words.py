"""Each command with each of a hundred words that mean it ill, and random command lines."""
import os
import random
import shutil
import sys

from .calls import call
from .rooms import FILES, InRoom

from _tf.usage import COMMANDS, DRAWING, OPTIONS, OWN_OPTIONS

MANY, SUPERSCRIPT, ARABIC = "9" * 5000, "\u00b2", "\u0663"
NUMBERS = ("", "0", "-0", "-1", "--5", "+5", "5.0", "1e9", SUPERSCRIPT, ARABIC, "\u2460", MANY, f"-{MANY}", "0" * 5000 + "3", "2147483648", "-2147483649",
           "18446744073709551616", " 5", "5 ", "0x10", "1_000", "nan", "inf", "5\n")
VALUES = tuple(f"R={it}" for it in NUMBERS) + ("=", "=5", "R", "R==5", "R=5=6", "\u00b2=5", f"{'N' * 5000}=1", "R=\udcff", "\x1b[31m=1")
PATHS = (".", "..", "/", "./p.pgm/", "no/such", "n" * 300, "n/" * 3000, "\udcff\udcfe", "a\nb", "\x1b[2J", "\u202e", "-", "--", "/dev/null", "/dev/full", "/dev/tty",
         "/proc/self/mem", "~", "*", "$(id)", "`id`", "p.pipe:1", "[page=1]", "p.pgm[0]", "{name}", "{name}.png", *FILES)
ODD = ("-", "--", "---", "-h=", "-x", "-o", "-o=", "-o=.", "-o=p.pgm/x", "-o=/dev/full", "-o=/", "--=", "--no-such", "--no-such=1", "--quiet=1", "--engine=", "--engine=no",
       "--engine=list", "--stages=", "--stages=p.pgm", "--stages=/dev/null", "--stage=no", "--join", "--list", "--memory", "--tile=", "--tile=f", "--inline=,",
       "--of=", "--of=no", "--log", "--grey", "--colours", "--scale", "--trust", "--facts", "--stored=1", "--print", "--time")
HUNDRED = tuple(dict.fromkeys((*VALUES, *PATHS, *ODD)))
EVERY = (*COMMANDS, *DRAWING)
# these run the program a hundred times where all goes well: of what they take fewer words are tried
SLOW = ("report", "tune")
SEED, LINES = 83, 2000


def files_of(command: str) -> list[str]:
    """What a command takes before the word."""
    kinds = {"program": "p.pipe", "picture": "p.pgm", "facts": "one.facts", "script": "s.script"}
    if command == "table":
        return ["csv", "t", "h.csv"]
    if command == "join":
        return ["parts"]
    return [kinds[it] for it in (COMMANDS[command].files if command in COMMANDS else ("program", "picture"))]


def options() -> list[str]:
    """An option with each hostile number, for each option that takes a value."""
    names = [it.name for it in (*OPTIONS, *OWN_OPTIONS) if it.value and it.name != "--scheduler"]
    return [f"{name}={number}" for name in names for number in NUMBERS]


class HostileWords(InRoom):
    def tried(self, words: list[str]) -> None:
        """A call ends with words and a status, and loses nothing."""
        ended = call(words, self.room)
        with self.subTest(words=[it[:40] for it in words]):
            self.assertEqual(ended.fault(), "")
            self.assertEqual(self.changed(), [])
        self.clear()

    def clear(self) -> None:
        """Takes away what a call has made."""
        for name in self.added():
            path = f"{self.room}/{name}"
            shutil.rmtree(path) if os.path.isdir(path) else os.remove(path)

    def test_there_are_a_hundred(self):
        self.assertGreaterEqual(len(HUNDRED), 100)

    def test_each_command_with_each_word(self):
        for command in EVERY:
            for number, word in enumerate(HUNDRED):
                behind = len(files_of(command)) - number % 2
                self.tried([command, *files_of(command)[:behind], word])

    def test_each_option_with_each_number(self):
        for option in options():
            self.tried(["eval", "p.pipe", "p.pgm", option])
        for command in ("plan", "facts", "tune", "table", "hist", "answer", "run", "play"):
            for option in options()[::17]:
                self.tried([command, *files_of(command), option])

    def test_random_command_lines(self):
        seed = int(os.environ.get("SEED", SEED))
        print(f"(seed {seed})", file=sys.stderr)
        chance = random.Random(seed)
        for _ in range(LINES):
            self.tried(line(chance))


def line(chance: random.Random) -> list[str]:
    """A random command line, mostly of words that belong together."""
    command = chance.choice([it for it in EVERY if it not in SLOW] * 3 + [*SLOW, "", "evl", "help"])
    words = [command, *(files_of(command) if command in EVERY else ["p.pipe", "p.pgm"])]
    for _ in range(chance.randrange(5)):
        change(words, chance)
    return words


def change(words: list[str], chance: random.Random) -> None:
    """Adds, takes out, repeats or replaces a word."""
    at = chance.randrange(len(words) + 1)
    kind = chance.randrange(8)
    if kind == 0 and words:
        del words[min(at, len(words) - 1)]
    elif kind == 1 and words:
        words.insert(at, chance.choice(words))
    elif kind == 2 and words:
        words[min(at, len(words) - 1)] = chance.choice(HUNDRED)
    elif kind == 3:
        words.insert(at, chance.choice(HUNDRED))
    elif kind == 4:
        words.insert(at, chance.choice([*FILES]))
    else:
        option = chance.choice([it for it in (*OPTIONS, *OWN_OPTIONS) if it.name != "--scheduler"])
        value = chance.choice((*NUMBERS, *FILES, "f", "h", "out.png", "out", "1", "2", "3/4", "f:0:0", "list", "{name}.pgm"))
        words[at:at] = [option.name, value] if option.value else [option.name]
