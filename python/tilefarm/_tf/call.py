"""One call of tf: the program is run on the input that the words name, and what it writes is put where it belongs.

What one command alone needs is loaded where that is done, since loading takes most of the time of a small picture.
"""
import sys
from typing import Iterable

from . import leaving
from .joining import SEPARATOR, Input, Wanted, joined
from .netpbm import Header, Picture, picture_of
from .output import CONVERTED, PICTURES, encoded, ending, give, give_all, put, put_all, say, show, tell
from .parser import known_program
from .program import Program
from .progress import doing
from .running import QUICK, Ended, program, run
from .settings import given_values, settings
from .sides import sides_of_output
from .streams import printable
from .targets import DRAWN_WORLDS, LINES, PACKED
from .text import Failed, Refused
from .usage import OBEYED, ONE
from .whole_numbers import whole_number
from .words import asked

# the status of a result that --strict refuses
CUT = 3
# the status of an audit that found a False, with its verdicts as usual, and that of a program whose output failed
FOUND_FALSE, OUTPUT_FAILED = 6, 4
# the commands that write the result of a job
RESULTS = ("eval", "run")
# the greatest number of a page, a part or rounds
MOST_COUNT = 10**9


class Call:
    """One call of tf: what was asked, and its input."""

    def __init__(self, words: list[str]):
        self.all_words, self.asked = words, asked(words)
        said: list[str] = []
        with doing(f"reading {' '.join(self.asked.files)}"):
            self.input: Input = self.read(said)
        self.asked.words += [f"{name}={value}" for name, value in self.input.supplied.items()]
        for message in said:
            tell(message)

    def read(self, said: list[str]) -> Input:
        """What the program is given, from the files that the words name."""
        it = self.asked
        return joined(it.command(), it.files, wanted(it.own), said, it.tables, it.words)

    def run(self, name: str | None = None) -> Ended:
        """Runs a command of the program, and tells its time and its memory where that was asked."""
        name = name or self.asked.name
        length = self.length() if name in RESULTS else 0
        ended = run([name, *self.asked.words], self.input.data, "--memory" in self.asked.own, length)
        tell_costs(self.asked.own, ended)
        return ended

    def length(self) -> int:
        """How many bytes the result's picture has, or none where that is not to be known."""
        program = known_program(self.input.sections["program"].data) if "program" in self.input.sections else None
        return length_of(program, settings(program, given_values(self.asked.words), self.input.header())) if program else 0

    def explain(self, ended: Ended, name: str | None = None) -> int:
        """Shows why a run failed, and passes its status on."""
        from .blame import Situation
        from .faults import explained

        words = [name or self.asked.name, *self.asked.words]
        situation = Situation(words, self.input, command_line=["tf", *self.all_words])
        line = ended.written.decode("utf-8", "replace").rstrip("\n")
        shown = explained(line, situation) if line else [without_a_line(ended.status)]
        show("\n".join(shown))
        return ended.status

    def text_of(self, name: str, well: tuple[int, ...] = (0,)) -> str:
        """What a command writes, as text; a fault ends tf."""
        ended = self.run(name)
        if ended.status not in well:
            raise Failed(self.explain(ended, name))
        return ended.written.decode("ascii", "replace")

    # commands

    def perform(self) -> int:
        """Runs a command of the program, and puts what it writes where it belongs."""
        if {"--stage", "--stages"} & set(self.asked.own):
            return self.stages()
        if {"--tile", "--inline"} & set(self.asked.own):
            return self.schedule()
        is_drawn = self.asked.name == "world" and self.asked.target is not None and ending(self.asked.target) in DRAWN_WORLDS
        if is_drawn or ("--trace" in self.asked.own and self.asked.name != "run"):
            return self.trace(is_drawn)
        if "--ranges" in self.asked.own:
            return self.ranges()
        ended = self.run()
        if ended.status not in (0, FOUND_FALSE):
            return self.explain(ended)
        if self.asked.name == "plan":
            self.say_what_obeys()
        if self.asked.name in RESULTS:
            self.judge_cut(ended.written)
        pictures = self.stage_files() if self.asked.stages else {}
        lines = self.farm_lines(ended) if "--trace" in self.asked.own else []
        self.deliver(ended.written)
        for file, picture in pictures.items():
            put(file, encoded(picture, file, self.how(file)))
        for line in lines:
            tell(line)
        if self.asked.name == "audit" and known_program(self.input.sections["program"].data):
            self.tell_missing(ended.written.decode("ascii"))
        return ended.status

    def say_what_obeys(self) -> None:
        """Says to a person that the schedule is not that of `eval`."""
        if sys.stderr.isatty() and "--quiet" not in self.asked.own:
            tell(OBEYED)

    def trace(self, is_drawn: bool) -> int:
        """Tells a world event by event: in lines, or as a drawing or a page of it."""
        from .world_trace import traced

        if self.asked.name != "world":
            raise Refused("--trace is an option of world and run", 1)
        found = traced(self)
        if not is_drawn:
            return self.give_drawing(found.lines().encode())
        from .world_page import drawing_of, page_of

        put(self.asked.target, (drawing_of if ending(self.asked.target) == ".svg" else page_of)(found))
        if "--trace" in self.asked.own:
            give(found.lines().encode())
        return 0

    def farm_lines(self, ended: Ended) -> list[str]:
        """What can be told of a farm that ended well."""
        from .farm_trace import lines_of

        return lines_of(self, ended)

    def ranges(self) -> int:
        """Tells the least and the greatest value of each stage, and warns of those that can wrap."""
        from .ranges import ranges_of

        if self.asked.name != "check":
            raise Refused("--ranges is an option of check", 1)
        self.text_of("check")
        found, text = ranges_of(self.input, given_values(self.asked.words)), self.input.sections["program"].text
        for it in found.first_wraps():
            drawing = "\n".join(text.place(it.span.start, it.span.length).drawing())
            tell(f"warning: {it.stage} can wrap: without wrapping this is {it.exact.least} to {it.exact.most}\n{drawing}")
        return self.give_drawing("".join(f"{line}\n" for line in found.lines()).encode())

    def stages(self) -> int:
        """Writes a stage as a picture, or all of them into a folder."""
        from .stage_folder import Folder
        from .stage_pictures import Stages

        name, folder = self.asked.own.get("--stage"), self.asked.own.get("--stages")
        if self.asked.name != "eval" or (name is not None and folder is not None):
            raise Refused("--stage NAME and --stages DIR are options of eval, one at a time", 1)
        self.text_of("check")
        program = known_program(self.input.sections["program"].data)
        if program is None:
            raise Refused("tf does not read this program as tilefarm does")
        found = Stages(self.input, program, self.asked.words)
        if folder is not None:
            found.all(Folder(folder, self.asked), self.input.sections["program"].text.name)
            return 0
        if "--print" in self.asked.own and "--scale" not in self.asked.own:
            return self.give_drawing(found.numbers(name).encode())
        values = found.values(name)
        tell(f"{name} has values {values.words()}")
        picture = found.scaled(name, values) if "--scale" in self.asked.own else found.cut(name)
        self.deliver(picture.raw())
        return 0

    def stage_files(self) -> dict[str, Picture]:
        """The pictures of the stages that are to go into files of their own."""
        from .stage_pictures import Stages

        program = known_program(self.input.sections["program"].data)
        if program is None:
            raise Refused("tf does not read this program as tilefarm does")
        found, is_scaled = Stages(self.input, program, self.asked.words), "--scale" in self.asked.own
        return {file: found.scaled(it, found.values(it)) if is_scaled else found.cut(it) for it, file in self.asked.stages.items()}

    def schedule(self) -> int:
        """Tells the plan of a tile, or what a schedule of the user's own costs."""
        from .making import side_of
        from .schedules import Schedules

        own, words = self.asked.own, self.asked.words
        if self.asked.name != "plan":
            raise Refused("--tile and --inline are options of plan", 1)
        check, plan, program = self.text_of("check"), self.text_of("plan"), self.input.sections["program"].data
        values = settings(known_program(program), given_values(words), self.input.header())
        found = Schedules(program, check, values, (side_of("--rows", words), side_of("--cols", words)))
        usual = frozenset(line.split()[1] for line in plan.splitlines() if line.startswith("inlined "))
        inlined = found.judge([it for it in own["--inline"].split(",") if it]) if "--inline" in own else usual
        if "--tile" not in own:
            return self.give_drawing("".join(f"{line}\n" for line in found.lines(inlined)).encode())
        is_drawn = self.asked.target is not None and ending(self.asked.target) == ".svg"
        return self.give_drawing(found.drawn(own["--tile"], inlined) if is_drawn else found.told(own["--tile"], inlined).encode())

    def judge_cut(self, written: bytes) -> None:
        """Says so where much of the result is cut at the greatest sample of the output; `--strict` refuses it."""
        from . import cutting

        if head := cutting.head_if_cut(written):
            self.judge_counted(head)

    def judge_counted(self, head: Header) -> None:
        """The same of a result with this head, which has many of the greatest samples."""
        from . import cutting

        program = known_program(self.input.sections["program"].data)
        share = cutting.share_cut(head, self.input, program, self.asked.words) if program else 0.0
        if share > cutting.MOST_SHARE:
            self.say_cut(cutting.warning(share, self.input, program))

    def say_cut(self, said: str) -> None:
        """Says how much of the result is cut; `--strict` refuses it."""
        if "--strict" in self.asked.own:
            raise Refused(said, CUT)
        tell(f"warning: {said}")

    def deliver(self, written: bytes) -> None:
        """The picture goes to the file that is named, and lines behind it to standard output."""
        found = picture_in(written)
        if found:
            self.deliver_picture(*found)
        else:
            self.deliver_lines([written])

    def deliver_picture(self, picture: Picture, rest: bytes) -> None:
        """The same of a picture, and of what stands behind it."""
        target = self.asked.target
        if "--print" in self.asked.own:
            self.give_drawing(picture.numbers().encode() + rest)
        elif target is None:
            if sys.stdout.isatty():
                raise Refused("a picture would go to the terminal: name a file for it, as -o result.png", 1)
            give_all((picture.head(), picture.raster, rest))
        elif ending(target) in LINES:
            raise Refused(f"{target}: {self.asked.name} writes a picture here; name one, as result.png, or ask for --print", 1)
        else:
            how = self.how(target)
            put_all(target, (picture.head(), picture.raster) if how is None else [encoded(picture, target, how)])
            give(rest)

    def deliver_lines(self, blocks: Iterable[bytes]) -> None:
        """Lines go to the file that is named, packed where its name ends as what gzip packs, or to standard output."""
        target = self.asked.target
        if target is None:
            give_all(blocks)
        elif ending(target) in PICTURES:
            raise Refused(f"{target}: {self.asked.name} writes no picture here, but lines; name no -o, or a text file", 1)
        else:
            put_all(target, packed_for(target, blocks))

    def how(self, target: str) -> "Writing | None":
        """How a result is written into a file: with what the picture's own file says, and by tf's own options."""
        if ending(target) not in CONVERTED and "--quality" not in self.asked.own:
            return None
        from .writing import writing

        return writing(self.given_bytes(), self.asked.own, target, ending(target))

    def given_bytes(self) -> bytes:
        """The bytes of the picture's own file."""
        return self.input.sections["picture"].text.data

    def give_drawing(self, drawing: bytes) -> int:
        if self.asked.target is None:
            give(drawing)
        else:
            put_all(self.asked.target, packed_for(self.asked.target, [drawing]))
        return 0

    def graph(self) -> int:
        from . import graph
        from .stages import stages_of

        check, plan = self.text_of("check"), self.text_of("plan")
        self.say_what_obeys()
        program = known_program(self.input.sections["program"].data)
        stages = stages_of(program, check, plan) if program else {}
        is_dot = self.asked.target is not None and ending(self.asked.target) == ".dot"
        return self.give_drawing(graph.dot(stages) if is_dot else graph.svg(stages))

    def hist(self) -> int:
        from . import hist

        ended = self.run("eval")
        if ended.status:
            return self.explain(ended, "eval")
        found = picture_in(ended.written)
        lines = (found[1] if found else ended.written).decode("ascii", "replace")
        name, is_log = self.asked.own.get("--of"), "--log" in self.asked.own
        is_table = self.asked.target is not None and ending(self.asked.target) == ".csv"
        return self.give_drawing(hist.csv(lines, name) if is_table else hist.svg(lines, name, is_log))

    def facts(self) -> int:
        from . import facts
        from .fact_making import line_of_tiles
        from .making import Maker

        if "--list" in self.asked.own:
            self.text_of("merge")
            return self.give_drawing(printable(facts.listing(self.input.sections["facts"].texts())).encode())
        check, program = self.text_of("check"), known_program(self.input.sections["program"].data)
        if program is None:
            raise Refused("tf does not read this program as tilefarm does")
        maker, (first, count) = Maker(self.input, program, self.asked.words), part_of(self.asked.own)
        tiles = maker.tiles_of(check, self.asked.own.get("--of"))[first - 1 :: count]
        return self.give_drawing(line_of_tiles(maker, check, self.text_of("plan"), tiles, self.asked.words))

    def job(self) -> tuple["Maker", str]:
        """The maker of the job's facts, and what `check` tells of the job, where the input has facts too."""
        from .making import Maker

        sections = {it: self.input.sections[it] for it in ONE}
        alone = Input(sections, SEPARATOR.join((sections["program"].data, self.input.last())), self.input.tables)
        program, ended = known_program(alone.sections["program"].data), run(["check", *self.asked.words], alone.data)
        if program is None or ended.status:
            raise Refused("tf does not read this program as tilefarm does")
        return Maker(alone, program, self.asked.words), ended.written.decode("ascii")

    def retiring(self, ids: tuple[bytes, bytes]) -> str | None:
        """That the job is retired, and by which line, if it is."""
        from . import facts

        place = facts.retiring(self.input.sections["facts"].texts(), ids)
        job = " and ".join(self.input.sections[it].text.name for it in ONE)
        return f"the job of {job} is retired, by {place}" if place else None

    def tell_missing(self, verdicts: str) -> None:
        """Whether the job is retired, and how many tiles of the result have no true fact."""
        from .answering import ids_of

        maker, check = self.job()
        where = self.retiring(ids_of(check))
        if where:
            tell(f"{where}: its facts are left out")
        true = {tuple(map(int, line.split()[1:])) for line in verdicts.splitlines() if line.startswith("True ")}
        tiles = [it.label() for it in maker.tiles_of(check)]
        show(f"missing {sum(it not in true for it in tiles)} of {len(tiles)}")

    def tune(self) -> int:
        from .tune import tune

        ended = self.run("check")
        if ended.status:
            return self.explain(ended, "check")
        rounds = whole_number(self.asked.own.get("--rounds", "3"), 1, MOST_COUNT)
        if rounds is None:
            raise Refused("--rounds takes a number from 1", 1)
        for line in tune(self.asked.words, self.input.data, rounds, say):
            say(line)
        return 0

    def join(self) -> int:
        return self.give_drawing(self.input.data)


def tell_costs(own: dict[str, str], ended: Ended) -> None:
    """Tells the time and the memory of a run where that was asked."""
    if "--time" in own:
        tell(f"{ended.seconds:.3f} s from its start to its end")
    if "--memory" in own:
        floor = " (or less: so much has the measurement itself)" if ended.is_floor else ""
        tell(f"{ended.memory / 1000:.1f} MB held at most{floor}")


def packed_for(target: str, blocks: Iterable[bytes]) -> Iterable[bytes]:
    """Bytes as they go into a file: packed where its name ends as what gzip packs."""
    if ending(target) != PACKED:
        return blocks
    from .packing import Packed

    return Packed(blocks)


def picture_in(written: bytes) -> tuple[Picture, bytes] | None:
    """The picture that a result begins with, and the lines behind it."""
    return picture_of(written) if written.startswith((b"P5\n", b"P6\n")) else None


def without_a_line(status: int) -> str:
    """What is said of a run that told no fault."""
    if program() == QUICK and status > 128:
        return (f"the program, which is not proved, stopped (status {status}): an index out of bounds, an overflow or the like, of which a "
                "proof shows that there is none; this is a fault of tilefarm, and `make build` would refuse it")
    if status == OUTPUT_FAILED:
        return f"the program could not write its result into a file of {leaving.usual_folder()}, which may be full (TMPDIR names another folder)"
    return f"the program ended with status {status} and said nothing"


def length_of(program: Program, values: dict[str, int]) -> int:
    """How many bytes the picture of a program's output has."""
    rows, cols = sides_of_output(program, values)
    if not rows * cols:
        return 0
    output = program.output()
    return len(f"P5\n{cols} {rows}\n{output.most.value}\n") + rows * cols * len(output.names) * (1 if output.most.value < 256 else 2)


def wanted(own: dict[str, str]) -> Wanted:
    """What is asked of the picture."""
    page = whole_number(own.get("--page", ""), 1, MOST_COUNT)
    if "--page" in own and page is None:
        raise Refused("--page takes a number from 1", 1)
    if "--grey" in own and "--colours" in own:
        raise Refused("--grey and --colours are two things; name one", 1)
    return Wanted("--grey" in own, "--colours" in own, page)


def part_of(own: dict[str, str]) -> tuple[int, int]:
    """Which of how many parts is asked for: the first of one unless said."""
    first, count = (whole_number(it, 1, MOST_COUNT) for it in own.get("--part", "1/1").partition("/")[::2])
    if first is None or count is None or first > count:
        raise Refused("--part takes K/N, two numbers with K from 1 to N: --part 1/2", 1)
    return first, count
