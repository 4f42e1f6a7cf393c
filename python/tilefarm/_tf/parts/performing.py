"""`tf eval` by parts: the picture is cut, the program is run on each part, and the results are joined."""
import os
import subprocess
import sys
import time
from concurrent.futures import ThreadPoolExecutor

from .. import converters, cutting, leaving, png
from ..blame import Situation
from ..call import Call, wanted
from ..cutting import Counting, counting_of
from ..faults import explained
from ..joining import SEPARATOR, Input, Section, fitted, handed_in, planes_of, section, table_bytes
from ..many import jobs_of
from ..netpbm import Picture as Samples
from ..netpbm import header_of
from ..output import CONVERTED, PICTURES, ending, give, put_file, show, tell
from ..parser import known_program
from ..progress import doing
from ..rooms import room_for
from ..running import program
from ..settings import given_values, settings
from ..stage_pictures import Stages
from ..text import Refused, Text
from ..whole_numbers import whole_number
from ..words import Asked, asked
from ..writing import JPEG, WEBP, Writing
from . import sources
from .joiner import Joiner
from .keeping import Kept, NotKept
from .planning import Part, Plan, plan
from .reading import Picture, opened, read_part
from .whole import Fault

# as many bytes of a picture's file as are read for what it says beside its samples
FIRST_BYTES = 1 << 24
# the side of a part unless one is given
SIDE, MOST_SIDE = 2048, 4096
# where parts come from that an earlier run has made
KEPT = "kept"
# what goes with one run over a whole picture
OF_ONE_RUN = ("--stage", "--stages", "--print", "--memory")


class InParts(Call):
    """One call of tf that goes by parts."""

    def __init__(self, words: list[str], given: Asked, room: str):
        self.all_words, self.asked, self.room = words, given, room
        text = section("program", given.files[0], True)
        picture = Section(Text(given.files[1], b""), b"", is_own=False)
        self.input = Input({"program": text, "picture": picture}, b"", handed_in(text, given.tables))
        self.side, self.is_counting = side_of(given.own.get("--parts")), False
        self.kept = Kept(given.own["--resume"]) if "--resume" in given.own else NotKept()

    def perform(self) -> int:
        """Cuts, runs and joins, and puts the result where it belongs."""
        try:
            with doing(f"reading {' '.join(self.asked.files)}"):
                picture = self.picture()
            return self.whole() if picture is None else self.in_parts(picture)
        except Fault as fault:
            return self.explain_line(fault.line, 2 if fault.line.startswith("picture") else 3)

    def whole(self) -> int:
        """Lets the program say what is wrong with a picture that is none."""
        given = f"{self.room}/input" if self.asked.files[1] == "-" else self.asked.files[1]
        return Call(["eval", self.asked.files[0], given, *self.asked.words]).perform()

    def picture(self) -> Picture | None:
        said: list[str] = []
        declared = planes_of(self.input.sections["program"].data)
        found = sources.source(self.asked.files[1], wanted(self.asked.own)._replace(declared=declared), said, self.room)
        for message in said:
            tell(message)
        if found:
            head = found.head()
            self.input.sections["picture"] = Section(Text(found.name, head), head, is_own=False)
            values = fitted(self.input.sections, given_values(self.asked.words))
            self.asked.words += [f"{name}={value}" for name, value in values.items()]
        return found

    def in_parts(self, picture: Picture) -> int:
        status = self.refuse_text(picture)
        if status:
            return status
        began, found = time.perf_counter(), self.plan(picture)
        self.refuse_target(found)
        made = f"{self.room}/result"
        with open(made, "wb") as out:
            joiner = Joiner(found, out)
            status = self.run_parts(found, picture, joiner)
            totals = b"" if status else joiner.close()
        status = status or self.judge_cut_of(found, picture, made)
        if status:
            return status
        if "--time" in self.asked.own:
            tell(f"{time.perf_counter() - began:.3f} s for {len(found.parts)} parts")
        if found.output:
            self.deliver_file(found, made)
            give(totals)
        else:
            self.deliver(totals)
        return 0

    def refuse_target(self, found: Plan) -> None:
        """Refuses to write a picture to the terminal, and lines into a picture's file."""
        if found.output and self.asked.target is None and sys.stdout.isatty():
            raise Refused("a picture would go to the terminal: name a file for it, as -o result.png", 1)
        if not found.output and self.asked.target and ending(self.asked.target) in PICTURES:
            raise Refused(f"{self.asked.target}: eval writes no picture here, but lines; name no -o, or a text file", 1)

    def refuse_text(self, picture: Picture) -> int:
        """Lets the program judge its text, the words and the tables, over a picture of one point: what hangs on sides is judged later."""
        ran = self.checked(picture, self.input.sections["program"].data)
        line = ran.stdout.decode("utf-8", "replace").rstrip("\n")
        return self.explain_line(line, ran.returncode) if is_of_text(ran) else 0

    def checked(self, picture: Picture, text: bytes) -> subprocess.CompletedProcess:
        """What the program tells of a text over a picture of one point."""
        point = Samples(1, 1, picture.planes, picture.most, bytes(picture.width)).raw()
        with doing("tilefarm check"):
            return evaluated("check", *self.asked.words, data=text + SEPARATOR + table_bytes(self.input.tables) + point)

    # samples that are cut

    def counting(self) -> tuple[Stages, Counting] | None:
        """What counts the cut samples; nothing where the program has no picture or is not known."""
        program = known_program(self.input.sections["program"].data)
        if program is None or program.output() is None:
            return None
        stages = Stages(self.input, program, self.asked.words)
        return stages, counting_of(stages)

    def judge_cut_of(self, found: Plan, picture: Picture, made: str) -> int:
        """Says so where much of the result is cut: where that can be, the program counts the samples, by parts. A status other than 0 is
        that of a part which failed."""
        if not found.output or not can_be_cut(made) or not (known := self.counting()):
            return 0
        (stages, counting), self.is_counting = known, True
        text = stages.maker.plain + counting.text()
        if is_of_text(self.checked(picture, text)):
            return 0
        plan = self.plan(picture, text)
        joiner = Joiner(plan, None)
        status = self.run_parts(plan, picture, joiner)
        share = 0.0 if status else counting.share(numbers_in(joiner.close()), samples_of(found))
        if share > cutting.MOST_SHARE:
            self.say_cut(cutting.warning(share, self.input, stages.program))
        return status

    def plan(self, picture: Picture, text: bytes | None = None) -> Plan:
        """The plan of the program, or of another text that is made of it."""
        text = self.input.sections["program"].data if text is None else text
        values = settings(known_program(text), given_values(self.asked.words), header_of(picture.head()))
        return plan(text, values, picture.rows, picture.cols, picture.planes, self.side, table_bytes(self.input.tables))

    def explain_line(self, line: str, status: int) -> int:
        """Shows a fault of the whole in the user's own files."""
        situation = Situation(["eval", *self.asked.words], self.input, command_line=["tf", *self.all_words])
        show("\n".join(explained(line, situation)) if line else f"the program ended with status {status} and said nothing")
        return status

    # runs

    def run_parts(self, found: Plan, picture: Picture, joiner: Joiner) -> int:
        """Runs all parts, as many at a time as are asked for. What fails first in their order is told, and ends the others."""
        done: list[int] = []

        def run(part: Part) -> subprocess.CompletedProcess:
            words, data = ["eval", *self.options(), *part.words], read_part(picture, part)
            key = self.kept.key(words, lambda: data)
            known = self.kept.result(key)
            ran = evaluated(*words, data=data) if known is None else subprocess.CompletedProcess(words, 0, known)
            if not ran.returncode:
                joiner.put(part, ran.stdout, "" if known is None else KEPT)
                if known is None:
                    self.kept.put(key, ran.stdout)
                done.append(part.number)
                ran.stdout = b""
            return ran

        with ThreadPoolExecutor(jobs_of(self.asked)) as pool, doing(told(found), lambda: len(done) / len(found.parts)):
            waiting = [pool.submit(run, it) for it in found.parts]
            try:
                ended = ((part, it.result()) for part, it in zip(found.parts, waiting))
                failed = next(((part, ran) for part, ran in ended if ran.returncode), None)
            finally:
                pool.shutdown(wait=True, cancel_futures=True)
        self.tell_kept(joiner)
        return self.explain_part(found, *failed) if failed else 0

    def options(self) -> list[str]:
        """The words for the program that each part takes, too."""
        return [it for it in self.asked.words if it.startswith("--") or "=" not in it]

    def tell_kept(self, joiner: Joiner) -> None:
        """Says how many parts an earlier run has made."""
        count = [*joiner.sources.values()].count(KEPT)
        if count and not self.is_counting:
            tell(f"{count} of {len(joiner.plan.parts)} parts are those of {self.asked.own['--resume']}")

    def explain_part(self, found: Plan, part: Part, ran: subprocess.CompletedProcess) -> int:
        """Why a part failed. What its text does not have of itself is told of the whole."""
        line = ran.stdout.decode("utf-8", "replace").rstrip("\n")
        if line.startswith(("program: ", "check: ", "bounds: ")):
            raise Refused(f"this picture cannot be cut into parts: part {part.number} of {len(found.parts)} has a program of its own, in which a "
                          f"variable x of the whole is x and a number, and that is past what a program may be: {line}", 3)
        return self.explain_line(line, ran.returncode if ran.returncode > 0 else 128 - ran.returncode)

    # the result

    def deliver_file(self, found: Plan, made: str) -> None:
        """The picture goes to the file that is named, or to standard output."""
        target = self.asked.target
        if target and ending(target) in CONVERTED:
            with doing(f"converting to {target}"):
                made, said = self.converted(found, made, target)
            for message in said:
                tell(message)
        put_file(target, made)

    def converted(self, found: Plan, made: str, target: str) -> tuple[str, list[str]]:
        """The result in the format of the target's ending: by vips, or, as PNG, here where vips is not there."""
        picture = opened(made)
        if ending(target) == ".png" and not converters.is_there():
            most, said = png.depth_of(found.output.most)
            with open(f"{self.room}/png", "wb") as file:
                png.write_bands(Samples(picture.cols, picture.rows, picture.planes, most, b""), scaled(picture, most), file)
            return f"{self.room}/png", said
        os.makedirs(f"{self.room}/converted")
        vips = converters.Vips(target, f"{self.room}/converted", seconds=None)
        most = converters.most_of(picture.most, vips)
        with open(f"{vips.room}/picture.ppm", "wb") as file:
            file.write(picture.head(most))
            file.writelines(scaled(picture, most))
        how, said = (self.how(target) or Writing()).fitting(Samples(picture.cols, picture.rows, picture.planes, most, b""))
        written = converters.packed("picture.ppm", vips, how)
        if ending(target) in (*JPEG, *WEBP):
            with open(written, "rb") as file:
                data = how.finished(file.read())
            with open(written, "wb") as file:
                file.write(data)
        return written, [*(f"{target}: {it}" for it in said), *vips.said]

    def given_bytes(self) -> bytes:
        """The first bytes of the picture's own file, which have what it says beside its samples; of a TIFF that may be further behind."""
        if not os.path.isfile(self.asked.files[1]):
            return b""
        with open(self.asked.files[1], "rb") as file:
            return file.read(FIRST_BYTES)


def evaluated(*words: str, data: bytes) -> subprocess.CompletedProcess:
    """One run of the program."""
    try:
        return leaving.run([program(), *words], data, stdout=subprocess.PIPE)
    except OSError as error:
        raise Refused(f"{program()} does not run: {error.strerror}", 4) from error


def can_be_cut(made: str) -> bool:
    with open(made, "rb") as file:
        return cutting.can_be_cut(file)


def is_of_text(ran: subprocess.CompletedProcess) -> bool:
    """Whether a program's text was refused, and not for sides of the picture."""
    return bool(ran.returncode) and not ran.stdout.startswith((b"bounds: ", b"bind: "))


def numbers_in(totals: bytes) -> list[int]:
    """The numbers of accumulators of one bin, from their lines."""
    return [int(line.split()[-1]) for line in totals.splitlines()]


def samples_of(found: Plan) -> int:
    """How many samples a plan's picture has."""
    return found.output.rows * found.output.cols * found.output.planes


def told(found: Plan) -> str:
    """What a plan's runs are called while they are at work."""
    return f"eval of {len(found.parts)} {'part' if len(found.parts) == 1 else 'parts'}"


def scaled(picture: Picture, most: int):
    """The samples in bands, with another greatest sample."""
    return (it.scaled(most).raster for it in sources.of_points(picture))


def side_of(given: str | None) -> int:
    """The side of a part."""
    side = SIDE if given is None else whole_number(given, 1, MOST_SIDE)
    if side is None:
        raise Refused(f"--parts takes the side of a part, 1 to {MOST_SIDE}", 1)
    return side


def refuse_words(given: Asked) -> None:
    """Refuses what does not go by parts."""
    if given.name != "eval":
        raise Refused(f"{'--parts' if '--parts' in given.own else '--resume'} is an option of eval", 1)
    if len(given.files) != 2:
        raise Refused(f"tf eval --parts takes PROGRAM and PICTURE, and got {len(given.files)} files", 1)
    other = next((it for it in OF_ONE_RUN if it in given.own), "--stage" if given.stages else None)
    if other:
        raise Refused(f"{other} goes with one run over a whole picture, and this one goes by parts (a side is over {MOST_SIDE}, or --parts is given)", 1)
    side_of(given.own.get("--parts"))
    jobs_of(given)


def eval_parts(words: list[str]) -> int:
    """Does what the words ask for by parts, and answers the exit status."""
    given = asked(words)
    refuse_words(given)
    with room_for(given.target) as room:
        return InParts(words, given, room).perform()
