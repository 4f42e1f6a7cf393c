"""From JPEG to a file that vips or cjpeg writes, straight on: one process reads, the program computes and one writes side by side, and no picture is
held here. Where the ranges of the program's values show that no sample of the result is cut, the writer reads from the program itself.

From JPEG to JPEG these are djpeg and cjpeg of libjpeg-turbo where they are installed, and vips otherwise. This is tried where nothing but the
result is asked for. Nothing is told or written before all of it went well: what fails, and what there is to be said of, is left to the usual way.
"""
import contextlib
import fcntl
import os
import threading
from typing import TYPE_CHECKING, BinaryIO, Callable, Iterable, Iterator, NamedTuple

from . import converters, cutting, jpeg_tools, leaving, metadata, ranges
from .joining import SEPARATOR, ended
from .netpbm import HEAD, MOST_SIDE, Header, Picture, header_of
from .output import ending, put_all, tell
from .parser import known_program
from .progress import doing
from .running import program
from .settings import given_values, settings, supplied, with_greatest
from .sides import sides_of_output
from .text import content
from .words import Asked
from .writing import JPEG, TIFF, WEBP, Writing, writing

if TYPE_CHECKING:
    import subprocess

# what else may be asked for
OWN = {"-o", "--quality", "--strip", "--strict", "--quiet"}
# the greatest sample of both pictures, and how many bytes a pipe is to hold and are passed on at a time
GREATEST, PIECE = 255, 1 << 20


class Job(NamedTuple):
    """The program's text, its words, the path and the bytes of the picture's file, how many planes it has, what the head of the result says, and
    whether samples of that can be cut."""

    text: bytes
    words: list[str]
    path: str
    given: bytes
    planes: int
    result: Header
    can_be_cut: bool


class Counted(NamedTuple):
    """The head of a result, and how many of its samples are the greatest, or so many that this is told."""

    head: Header
    greatest: int

    def share(self) -> float:
        return self.greatest / self.head.length()


class Made(NamedTuple):
    """The file of a result, without what stands beside its samples, and what was counted."""

    data: bytes
    counted: Counted


def is_done(asked: Asked, all_words: list[str]) -> bool:
    """Makes the result straight on. Where that does not go, nothing has been done."""
    job, target = job_of(asked) if is_asked_alone(asked) else None, asked.target
    if job is None:
        return False
    how = writing(job.given, asked.own, target, ending(target))
    fitting, said = how.fitting(Picture(1, 1, job.result.parts, GREATEST, b""))
    with doing(f"tilefarm eval {' '.join(asked.files)}"):
        made = next(filter(None, (tried(way, job, target, fitting) for way in ways(target))), None)
    if made is None:
        return False
    head = made.counted.head
    if made.counted.share() > cutting.MOST_SHARE:
        from .call import Call

        Call(all_words).judge_counted(head)
    for it in said:
        tell(f"{target}: {it}")
    put_all(target, how.fitting(Picture(head.cols, head.rows, head.parts, GREATEST, b""))[0].finished_blocks(made.data))
    return True


def ways(target: str) -> Iterable[Callable[[Job, str, Writing], Made | None]]:
    """The ways that a result with this name can go, the quickest first."""
    return (by_jpeg_tools, by_vips) if ending(target) in JPEG else (by_vips,)


def tried(way: Callable[[Job, str, Writing], Made | None], job: Job, target: str, how: Writing) -> Made | None:
    """What is made in a way, if it goes. (What does not even start is told by the usual way too.)"""
    with contextlib.suppress(OSError, RuntimeError):
        return way(job, target, how)
    return None


def is_asked_alone(asked: Asked) -> bool:
    """Whether the result of a JPEG is asked for as a file that vips writes well, and nothing else."""
    is_plain = asked.name == "eval" and len(asked.files) == 2 and not asked.tables and not asked.stages and asked.own.keys() <= OWN
    if not is_plain or "-" in asked.files or asked.target is None or ending(asked.target) not in (*JPEG, *TIFF, *WEBP):
        return False
    return all(map(os.path.isfile, asked.files))


def job_of(asked: Asked) -> Job | None:
    """The job, where picture and result have samples of a byte, as many planes as the program names, and sides for one run."""
    text, given = ended(content(asked.files[0])), content(asked.files[1])
    head = converters.head_in_jpeg(given)
    found = known_program(text) if b"\n" + SEPARATOR not in b"\n" + text else None
    if found is None or head is None or metadata.is_cut_jpeg(given) or head.orientation not in converters.NO_ORIENTATION or max(head.cols, head.rows) > MOST_SIDE:
        return None
    values, sides = given_values(asked.words), Header(True, head.bands, head.cols, head.rows, GREATEST, 0)
    text = with_greatest(text, found, values, sides)
    whole = known_program(text)
    items = {it.kind: it for it in whole.items}
    if not {"image", "output"} <= items.keys() or {"accum", "table"} & items.keys():
        return None
    if len(items["image"].names) != head.bands or items["output"].most.value != GREATEST:
        return None
    more = supplied(found, values, sides)
    rows, cols = sides_of_output(whole, settings(whole, values, sides))
    result = Header(True, len(items["output"].names), cols, rows, GREATEST, 0)
    can_be_cut = not rows * cols or ranges.can_be_above(text, settings(whole, values, sides), sides)
    words = [*asked.words, *(f"{name}={value}" for name, value in more.items())]
    return Job(text, words, asked.files[1], given, head.bands, result, can_be_cut)


# by djpeg and cjpeg


def by_jpeg_tools(job: Job, _: str, how: Writing) -> Made | None:
    """Lets djpeg, the program and cjpeg work side by side."""
    with contextlib.ExitStack() as stack:
        told, known, written = (stack.enter_context(memory_file()) for _ in range(3))
        given = stack.enter_context(open(job.path, "rb", buffering=0))
        start = lambda words, *streams: stack.enter_context(leaving.Child(words, *(it.fileno() for it in streams)))
        line = Line(job, stack)
        if not line.is_begun:
            return None
        line.children = [start(jpeg_tools.reading(), given, line.pictures.sink, told),
                         start([program(), "eval", *job.words], line.pictures.source, line.results.sink),
                         start(jpeg_tools.writing(how, job.result.parts), line.passed.source, written, told),
                         start(jpeg_tools.naming(), given, known, known)]
        counted = line.counted()
        is_well = counted and not all_of(told).strip() and all_of(known).startswith(jpeg_tools.SIGN)
        return Made(all_of(written), counted) if is_well else None


def memory_file() -> BinaryIO:
    return open(os.memfd_create("tf"), "w+b", buffering=0)


def all_of(file: BinaryIO) -> bytes:
    return os.pread(file.fileno(), os.fstat(file.fileno()).st_size, 0)


# by vips


def by_vips(job: Job, target: str, how: Writing) -> Made | None:
    """Lets vips, the program and vips again work side by side."""
    if not converters.is_there():
        return None
    import subprocess

    env = {**os.environ, **converters.WITHOUT_MODULES}
    with contextlib.ExitStack() as stack:
        room, told = stack.enter_context(leaving.room()), stack.enter_context(memory_file())
        start = lambda words, **more: stack.enter_context(leaving.started(words, stderr=told, cwd=room, **more))
        converters.place(job.given, job.path, room)
        reads = ["vips", "copy", "given[fail-on=error]", ".pgm" if job.planes == 1 else ".ppm"]
        writes = converters.words_of_writing("stdin", target, room, how)
        line = Line(job, stack)
        if not line.is_begun:
            return None
        line.children = [start(reads, stdin=subprocess.DEVNULL, stdout=line.pictures.sink, env={**env, **converters.HARDENED}),
                         stack.enter_context(leaving.Child([program(), "eval", *job.words], line.pictures.source.fileno(), line.results.sink.fileno())),
                         start(writes, stdin=line.passed.source, stdout=subprocess.DEVNULL, env=env)]
        counted = line.counted()
        return Made(content(converters.written_in(room, target)), counted) if counted and not all_of(told) else None


# what they work along


class Pipe:
    """A pipe that is to hold many bytes, by its two ends."""

    def __init__(self):
        source, sink = os.pipe()
        self.source, self.sink = open(source, "rb", buffering=0), open(sink, "wb", buffering=0)
        with contextlib.suppress(OSError):
            fcntl.fcntl(sink, fcntl.F_SETPIPE_SZ, PIECE)

    def __enter__(self) -> "Pipe":
        return self

    def __exit__(self, *_) -> None:
        self.source.close()
        self.sink.close()

    def begin(self, start: bytes) -> bool:
        """Gives it these bytes, where it holds so many."""
        if len(start) > fcntl.fcntl(self.sink, fcntl.F_GETPIPE_SZ):
            return False
        return self.sink.write(start) == len(start)


class Line:
    """The pipes from the reader to the program and from there to the writer, and these three processes. Where samples of the result can be cut,
    they are counted on their way from the one pipe to another."""

    def __init__(self, job: Job, stack: contextlib.ExitStack):
        self.job, self.pictures, self.results = job, stack.enter_context(Pipe()), stack.enter_context(Pipe())
        self.passed = stack.enter_context(Pipe()) if job.can_be_cut else self.results
        self.is_begun = self.pictures.begin(job.text + SEPARATOR)
        self.children: list["leaving.Child | subprocess.Popen"] = []

    def counted(self) -> Counted | None:
        """What was counted, where all of them went to their end well."""
        for it in (self.pictures.source, self.pictures.sink, self.results.sink, self.passed.source):
            it.close()
        with killed_after(converters.SECONDS, self.children):
            found = passed_on(self.results.source, self.passed.sink) if self.job.can_be_cut else Counted(self.job.result, 0)
            return found if found and not any([it.wait() for it in self.children]) else None


@contextlib.contextmanager
def killed_after(seconds: float, children: list["leaving.Child | subprocess.Popen"]) -> Iterator[None]:
    """Ends processes that take longer."""
    timer = threading.Timer(seconds, lambda: [it.kill() for it in children])
    timer.start()
    try:
        yield
    finally:
        timer.cancel()


def passed_on(source: BinaryIO, sink: BinaryIO) -> Counted | None:
    """Passes a picture on from one process to another, and counts its greatest samples, where it is a whole one."""
    start = b""
    while (head := header_of(start)) is None and len(start) < HEAD and (more := source.read(HEAD)):
        start += more
    if head is None or head.most != GREATEST:
        return None
    least, sample = cutting.MOST_SHARE * head.length(), bytes([GREATEST])
    room, count, greatest = bytearray(PIECE), len(start), cutting.count_of(sample, start, head.end, len(start), least)
    view = memoryview(room)
    with contextlib.suppress(OSError), sink:
        give(sink, start)
        while length := source.readinto(room):
            count, greatest = count + length, greatest + cutting.count_of(sample, room, 0, length, least - greatest)
            give(sink, view[:length])
    return Counted(head, greatest) if count == head.end + head.length() else None


def give(sink: BinaryIO, data: bytes | memoryview) -> None:
    """Writes all of the bytes to a process."""
    while len(data):
        data = data[sink.write(data) :]
