"""`tf frames`: one program over the frames of a film, all by one process of tf. Each frame is one run of `tilefarm`; some are done side by side,
their results come in the order of the frames, and no more of them are held at a time."""
import os
import sys
from collections import deque
from contextlib import contextmanager
from functools import cached_property
from typing import TYPE_CHECKING, Callable, Iterable, Iterator, NamedTuple

from . import cutting, memory_runs
from .call import CUT, picture_in, wanted, without_a_line
from .frame_files import Frame, Targets, count_of, files_of, frames_of, identity
from .joining import SEPARATOR, Input, Section, fitted, handed_in, is_foreign, own_picture, picture_section, planes_of, section
from .many import jobs_of
from .netpbm import Picture, header_of
from .output import CONVERTED, encoded, ending, give, put, say, show, tell
from .parser import known_program
from .program import Program
from .progress import counting
from .running import Ended
from .settings import given_values
from .targets import judge, programs, refuse_ending
from .text import Failed, Refused, Text, content
from .words import Asked
from .writing import Writing, writing

if TYPE_CHECKING:
    from concurrent.futures import ThreadPoolExecutor

# how many frames wait for each that is done, so that none who does one has to wait
AHEAD = 2
# the options that go with frames
TAKEN = ("-o", "--table", "--grey", "--colours", "--jobs", "--strict", "--strip", "--quality", "--quiet")
PNG_START = b"\x89PNG"


class Done(NamedTuple):
    """The result of a frame: its picture, as bytes of the format that is wanted, the lines behind it, and what is said of it."""

    frame: Frame
    path: str | None
    data: bytes
    lines: bytes
    said: list[str]
    is_cut: bool


class Frames:
    """A program that is run on each frame."""

    def __init__(self, asked: Asked):
        other = next((it for it in asked.own if it not in TAKEN), "--stage" if asked.stages else None)
        if other:
            raise Refused(f"frames takes no {other}: it takes {', '.join(TAKEN)}", 1)
        if len(asked.files) != 2:
            raise Refused(f"tf frames takes PROGRAM and FRAMES, and got {len(asked.files)} files", 1)
        self.asked, (path, self.source) = asked, asked.files
        self.text = section("program", path, True)
        self.program, self.tables = known_program(self.text.data), handed_in(self.text, asked.tables)
        self.wanted = wanted(asked.own)._replace(declared=planes_of(self.text.data))
        self.targets, self.becomes = Targets(self.source, asked.target), {}
        if asked.target is None:
            self.refuse_stream()

    def refuse_stream(self) -> None:
        """Refuses a stream of pictures where it has no place."""
        has_picture = self.program is not None and self.program.output() is not None
        if has_picture and sys.stdout.isatty():
            raise Refused("pictures would go to the terminal: name files for them, as -o out-%05d.png", 1)
        if has_picture and any(it.kind == "accum" for it in self.program.items):
            raise Refused("a stream of pictures has no place for the lines of accumulators: name files for the pictures, as -o out-%05d.png", 1)

    # one frame

    def taken(self, frame: Frame) -> "Taken":
        """A frame that is to be done. What Python or vips has to convert is left to threads."""
        try:
            data, path = content(frame.name) if frame.data is None else frame.data, self.targets.path(frame)
        except Refused as error:
            return Taken(self, frame, error)
        if is_foreign(data) or not is_plain(path):
            return InThread(self, frame._replace(data=data))
        return Taken(self, frame._replace(data=data))

    def prepared(self, frame: Frame) -> "Prepared":
        """The run of the program on a frame, with its input."""
        said: list[str] = []
        given = self.input(frame, said)
        words = [*self.asked.words, *(f"{name}={value}" for name, value in given.supplied.items())]
        return Prepared(frame, given, words, said, memory_runs.Run(["eval", *words], (given.sections["program"].data, SEPARATOR, given.last())))

    def done(self, it: "Prepared") -> Done:
        """The result of a frame, once its run has ended."""
        ended, path = it.run.ended(), self.targets.path(it.frame)
        if ended.status:
            self.explain(ended, it.given, it.words)
        is_cut = self.judge_cut(ended.written, it.given, it.words, it.said)
        if is_plain(path) and "--quality" not in self.asked.own and is_raw(ended.written):
            return Done(it.frame, path, ended.written, b"", it.said, is_cut)
        found = picture_in(ended.written)
        if found is None:
            return Done(it.frame, None, b"", ended.written, it.said, is_cut)
        how = self.how(it.given.sections["picture"].text.data, path)
        return Done(it.frame, path, packed(found[0], path, how, it.said), found[1], it.said, is_cut)

    def input(self, frame: Frame, said: list[str]) -> Input:
        picture = self.picture(frame.name, frame.data, said)
        sections = {"program": Section(self.text.text, self.text.data), "picture": picture}
        values = fitted(sections, given_values(self.asked.words))
        return Input(sections, b"", self.tables, values)

    def picture(self, name: str, data: bytes, said: list[str]) -> Section:
        """The picture of a frame. PNG is read here, which takes less time for one frame than vips takes to start."""
        if not is_foreign(data):
            return own_picture(name, data, self.wanted)
        if not data.startswith(PNG_START):
            return picture_section(name, self.wanted, said)
        from . import png

        picture, words = png.read(data, name)
        said += words
        return Section(Text(name, data), self.wanted.planes(picture).raw(), is_own=False)

    def judge_cut(self, written: bytes, given: Input, words: list[str], said: list[str]) -> bool:
        """Whether much of a result is cut, which is said; `--strict` refuses it."""
        program: Program | None = known_program(given.sections["program"].data)
        head = cutting.head_if_cut(written) if program else None
        share = cutting.share_cut(head, given, program, words) if head else 0.0
        if share <= cutting.MOST_SHARE:
            return False
        warning = cutting.warning(share, given, program)
        if "--strict" in self.asked.own:
            raise Refused(f"{given.sections['picture'].text.name}: {warning}", CUT)
        said.append(f"warning: {warning}")
        return True

    def explain(self, ended: Ended, given: Input, words: list[str]) -> None:
        """Shows why a frame failed."""
        from .blame import Situation
        from .faults import explained

        line = ended.written.decode("utf-8", "replace").rstrip("\n")
        situation = Situation(["eval", *words], given)
        name = given.sections["picture"].text.name
        shown = explained(line, situation) if line else [without_a_line(ended.status)]
        raise FailedFrame("\n".join([f"tf: {name}: {shown[0]}", *shown[1:]]), ended.status)

    def how(self, data: bytes, path: str | None) -> Writing:
        """How a result is written: with what its own frame says, where its format holds that."""
        is_told = path is not None and (ending(path) in CONVERTED or "--quality" in self.asked.own)
        return writing(data, self.asked.own, path, ending(path)) if is_told else Writing()

    # all of them

    def perform(self) -> int:
        """Does all frames in their order. The first that fails is told, and ends the others."""
        done, cut = 0, 0
        every = count_of(self.source)
        with counting("frames", lambda: done, every), self.results() as results:
            try:
                for it in results:
                    self.deliver(it, is_first_cut=it.is_cut and not cut)
                    done, cut = done + 1, cut + it.is_cut
            except (Refused, Failed) as error:
                self.tell_failure(error, done)
                return error.status
        if cut:
            tell(f"{cut} of {done} results are cut")
        return 0

    @contextmanager
    def results(self) -> Iterator[Iterator[Done]]:
        """The results in the order of the frames. So many frames are taken ahead, and no more."""
        waiting: deque[Taken] = deque()
        try:
            yield self.in_order(waiting)
        finally:
            if "pool" in self.__dict__:
                self.pool.shutdown(wait=True, cancel_futures=True)
            for it in waiting:
                it.close()

    def in_order(self, waiting: deque["Taken"]) -> Iterator[Done]:
        """The results; a fault of the frames themselves comes after the results of those before it."""
        frames, fault, jobs = frames_of(self.source), None, jobs_of(self.asked)
        while True:
            try:
                if (frame := next(frames, None)) is None:
                    break
                self.judge(frame)
            except Refused as error:
                fault = error
                break
            waiting.append(self.taken(frame))
            begin(waiting, jobs)
            if len(waiting) >= AHEAD * jobs:
                yield first_done(waiting, jobs)
        while waiting:
            yield first_done(waiting, jobs)
        if fault:
            raise fault

    @cached_property
    def pool(self) -> "ThreadPoolExecutor":
        """The threads of those frames that want one."""
        from concurrent.futures import ThreadPoolExecutor

        return ThreadPoolExecutor(jobs_of(self.asked))

    @cached_property
    def read(self) -> frozenset[tuple[int, int]]:
        """The files of all frames, by what the system knows them by."""
        return files_of(self.source)

    @cached_property
    def kept(self) -> frozenset[tuple[int, int]]:
        """All files that no result may replace, in the same way."""
        others = (self.asked.files[0], *self.asked.tables, *programs())
        return self.read | {it for it in map(identity, others) if it}

    def judge(self, frame: Frame) -> None:
        """Refuses a result that would replace what is read, by this frame or another one, or what another frame has become, and makes the folder
        of one."""
        path = self.targets.path(frame)
        if path is None:
            return
        if os.path.isdir(self.source) and self.becomes.setdefault(path, frame) is not frame:
            raise Refused(f"{frame.name} would become {path}, as another frame has: number the results, as out-%05d.png", 1)
        refuse_ending("eval", path)
        if os.path.isfile(path) and identity(path) not in self.kept:
            return
        if os.path.lexists(path):
            judge(Asked("eval", [self.asked.files[0], frame.name], own={"-o": path}, tables=self.asked.tables))
            if identity(path) in self.read:
                raise Refused(f"{path}: another frame is read from this file, which -o would replace; name another one", 1)
            return
        try:
            os.makedirs(os.path.dirname(path) or ".", exist_ok=True)
        except OSError as error:
            raise Refused(f"{path}: {error.strerror}", 4) from error

    def deliver(self, it: Done, is_first_cut: bool) -> None:
        """Puts a result where it belongs. What is said of each frame alike is said once."""
        for line in it.said:
            if not it.is_cut or is_first_cut:
                tell(line if it.frame.name in line else f"{it.frame.name}: {line}")
        if it.path is not None:
            put(it.path, it.data)
        elif it.data:
            give(it.data)
        for line in it.lines.decode("ascii", "replace").splitlines():
            say(f"{it.frame.name}: {line}")

    def tell_failure(self, error: Refused | Failed, done: int) -> None:
        if isinstance(error, FailedFrame):
            show(error.shown)
        else:
            tell(str(error))
        tell(f"{done} frames were done before this one failed")


class Prepared(NamedTuple):
    """A run on a frame, its input, its words, and what is said of it so far."""

    frame: Frame
    given: Input
    words: list[str]
    said: list[str]
    run: memory_runs.Run


class Taken:
    """A frame that was taken, or what is wrong with it. Its program runs beside what is done for other frames, and wants no thread."""

    def __init__(self, film: Frames, frame: Frame, fault: Refused | Failed | None = None):
        self.film, self.frame, self.fault = film, frame, fault
        self.prepared: Prepared | None = None if fault else self.well(lambda: film.prepared(frame))

    def well(self, work: Callable):
        """What a work answers; what is wrong is told in the frame's turn."""
        try:
            return work()
        except (Refused, Failed) as error:
            self.fault = error

    def waits(self) -> bool:
        """Whether its program has not been started yet."""
        return not self.fault and self.prepared.run.child is None

    def is_running(self) -> bool:
        return not self.fault and self.prepared.run.is_running()

    def begin(self) -> None:
        """Starts its program."""
        self.well(self.prepared.run.begin)

    def wait(self, others: deque["Taken"], jobs: int) -> None:
        """Waits for the end of its program. Where others end before it, further ones are begun."""
        while jobs > 1 and self.is_running() and any(it.waits() for it in others):
            memory_runs.wait_for_one([self.prepared.run, *(it.prepared.run for it in others if type(it) is Taken and it.is_running())])
            begin((self, *others), jobs)
        if not self.fault:
            self.well(self.prepared.run.wait)

    def result(self) -> Done:
        """Its result, or why it has none."""
        found = None if self.fault else self.well(lambda: self.film.done(self.prepared))
        self.close()
        if self.fault:
            raise self.fault
        return found

    def close(self) -> None:
        """Ends it, where it is not wanted any more."""
        if self.prepared:
            self.prepared.run.close()


class InThread(Taken):
    """A frame that is done by a thread, from its file to the bytes of its result."""

    def __init__(self, film: Frames, frame: Frame):
        self.future = film.pool.submit(lambda: Taken(film, frame).result())

    def waits(self) -> bool:
        return False

    def is_running(self) -> bool:
        return not self.future.done()

    def wait(self, others: deque[Taken], jobs: int) -> None:
        """Its result is waited for."""

    def result(self) -> Done:
        return self.future.result()

    def close(self) -> None:
        """What it has begun ends with the pool."""


def begin(waiting: Iterable[Taken], jobs: int) -> None:
    """Starts the next frames, so that as many are done at a time as may be."""
    free = jobs - sum(it.is_running() for it in waiting)
    for it in [it for it in waiting if it.waits()][: max(free, 0)]:
        it.begin()


def first_done(waiting: deque[Taken], jobs: int) -> Done:
    """The result of the first frame. The next one is begun before that is looked at."""
    first = waiting.popleft()
    first.wait(waiting, jobs)
    begin(waiting, jobs)
    return first.result()


class FailedFrame(Failed):
    """A frame that the program refuses, and what is shown of it."""

    def __init__(self, shown: str, status: int):
        super().__init__(status)
        self.shown = shown


def is_plain(path: str | None) -> bool:
    """Whether a result goes where pictures go as `tilefarm` writes them."""
    return path is None or ending(path) not in CONVERTED


def is_raw(written: bytes) -> bool:
    """Whether this is a raw picture as `tilefarm` writes it, and nothing behind it."""
    head = header_of(written)
    if head is None or len(written) != head.end + head.length():
        return False
    return written.startswith(Picture(head.cols, head.rows, head.parts, head.most, b"").head())


def packed(picture: Picture, path: str | None, how: Writing, said: list[str]) -> bytes:
    """The picture in the format of its file. A PNG is written soon rather than short."""
    if path is None:
        return picture.raw()
    if ending(path) != ".png":
        return encoded(picture, path, how)
    from . import png

    fitted, words = how.fitting(picture)
    data, more = png.write(picture, is_soon=True)
    said += [*(f"{path}: {it}" for it in words), *more]
    return fitted.finished(data)


def frames(asked: Asked) -> int:
    """Does what `tf frames` asks for."""
    return Frames(asked).perform()
