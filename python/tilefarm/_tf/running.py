"""Running `tilefarm`: where it is, how long it takes, and how much memory it holds."""
import contextlib
import functools
import os
import sys
import time
from typing import BinaryIO, Iterable, Iterator, NamedTuple

from . import aside, leaving
from .output import tell
from .progress import doing
from .text import Refused, content

TOP = os.path.realpath(f"{os.path.dirname(os.path.realpath(__file__))}/../../..")
BUILT = f"{TOP}/crates/tilefarm/out/tilefarm"
# the same for processors with AVX2, which `make build` leaves beside it, and what the system calls the features of these
WIDE = f"{BUILT}.x86-64-v3"
FEATURES = {"avx2", "bmi1", "bmi2", "f16c", "fma", "abm", "movbe"}
# what `make quick` leaves: the same text, of which nothing is proved
QUICK = f"{TOP}/out/quick/tilefarm"
# of as many bytes a run of a batch has its input and its result in memory, and in no file
MOST_IN_MEMORY = 1 << 24
# A small process of its own runs the program: what a process has held before it begins another counts as the other's.
# It ends the program where it is to end itself.
MEASURE = """import os, resource, signal, subprocess, sys
ends = signal.SIGINT, signal.SIGTERM, signal.SIGHUP
for it in ends:
    signal.signal(it, lambda *_: child.kill())
signal.pthread_sigmask(signal.SIG_BLOCK, ends)
child = subprocess.Popen(sys.argv[2:], preexec_fn=lambda: signal.pthread_sigmask(signal.SIG_UNBLOCK, ends))
signal.pthread_sigmask(signal.SIG_UNBLOCK, ends)
ran = child.wait()
most = resource.getrusage(resource.RUSAGE_CHILDREN).ru_maxrss
try:
    own = next(int(it.split()[1]) for it in open("/proc/self/status") if it.startswith("VmHWM"))
except OSError:
    own = resource.getrusage(resource.RUSAGE_SELF).ru_maxrss
open(sys.argv[1], "w").write(f"{most} {own}")
os._exit(ran if ran >= 0 else 128 - ran)
"""


class Ended(NamedTuple):
    """How a run ended: its status, what it wrote, the seconds of the whole process, and the most memory in kilobytes."""

    status: int
    written: bytes
    seconds: float
    memory: int = 0
    is_floor: bool = False


# starts tf by the folder that its modules are in, which is the first word
BY_FOLDER = """import sys
sys.path.insert(0, sys.argv.pop(1))
try:
    from _tf import leaving
    leaving.watch()
except KeyboardInterrupt:
    sys.exit(130)
from _tf.main import main
sys.exit(main())"""


def command_words() -> list[str]:
    """The words by which any Python starts tf: tools/tf where this text is, else the folder of an installed package."""
    own = f"{TOP}/tools/tf"
    return [own] if os.path.exists(own) else ["-c", BY_FOLDER, os.path.dirname(os.path.dirname(os.path.realpath(__file__)))]


@functools.cache
def program() -> str:
    """The program: the one that TILEFARM names, else the built one, else one on the path, else what `make quick` made, with a word, which
    TILEFARM_QUIET keeps back."""
    named = os.environ.get("TILEFARM")
    found = next(filter(is_program, [named] if named else candidates()), None)
    if found and not named and os.path.realpath(found) == QUICK and not os.environ.get("TILEFARM_QUIET"):
        tell(f"{os.path.relpath(QUICK)} is not proved (`make build` makes the proved program)")
    if named and not found:
        raise Refused(f"TILEFARM names {named}, which is no program")
    return found or none_is_there()


def candidates() -> Iterator[str | None]:
    """The places of the program, in the order in which it is looked for."""
    yield fastest_built()
    yield on_path("tilefarm")
    yield QUICK


def on_path(name: str) -> str | None:
    """The program of a name in the folders of PATH."""
    return next(filter(is_program, (os.path.join(it, name) for it in os.get_exec_path())), None)


def fastest_built(plain: str = BUILT, wide: str = WIDE, processors: str = "/proc/cpuinfo") -> str:
    """The built program for processors with AVX2, where this machine's has it and the program is of the same build; else the one for all."""
    is_current = is_program(plain) and is_program(wide) and os.path.getmtime(wide) >= os.path.getmtime(plain)
    return wide if is_current and has_features(processors) else plain


def has_features(processors: str) -> bool:
    """Whether the processor runs what is compiled for those with AVX2, as the system tells."""
    with contextlib.suppress(OSError), open(processors, encoding="utf-8") as told:
        return any(line.startswith("flags") and FEATURES.issubset(line.split()) for line in told)
    return False


def none_is_there() -> str:
    raise Refused("there is no program tilefarm yet: `make quick` makes one without proofs in some three minutes, `make build` the "
                  "proved one, and TILEFARM can name another")


def is_program(path: str | None) -> bool:
    return bool(path) and os.path.isfile(path) and os.access(path, os.X_OK)


def run(words: list[str], data: bytes, memory: bool = False, length: int = 0) -> Ended:
    """Runs the program with these words on these bytes. `length` is how many bytes it is to write, where that is known."""
    if memory or not aside.now() or len(data) + length > MOST_IN_MEMORY:
        return run_on(words, [data], memory, length)
    from . import memory_runs

    with aside.turn():
        return memory_runs.run(words, [data])


def run_on(words: list[str], blocks: Iterable[bytes], memory: bool = False, length: int = 0) -> Ended:
    """The same, on bytes that come in blocks."""
    with run_files(words, blocks, memory, length) as (ended, stdout):
        return ended._replace(written=stdout.read())


@contextlib.contextmanager
def run_files(words: list[str], blocks: Iterable[bytes], memory: bool = False, length: int = 0) -> Iterator[tuple[Ended, BinaryIO]]:
    """The same, where what the program writes is in a file, and none of it is held."""
    try:
        with leaving.nameless_file() as stdin, leaving.nameless_file() as stdout:
            stdin.writelines(blocks)
            stdin.seek(0)
            with doing(f"tilefarm {words[0]}", lambda: os.fstat(stdout.fileno()).st_size / length if length else None):
                ended = (measured if memory else plain)([program(), *words], stdin, stdout)
            stdout.seek(0)
            yield ended, stdout
    except OSError as error:
        raise Refused(f"{error.filename or leaving.usual_folder()}: {error.strerror}", 4) from error


def plain(words: list[str], stdin: BinaryIO, stdout: BinaryIO) -> Ended:
    began = time.perf_counter()
    try:
        status = leaving.Child(words, stdin.fileno(), stdout.fileno()).wait()
    except OSError as error:
        raise Refused(f"{words[0]} does not start: {error.strerror}", 4) from error
    return Ended(status if status >= 0 else 128 - status, b"", time.perf_counter() - began)


def measured(words: list[str], stdin: BinaryIO, stdout: BinaryIO) -> Ended:
    """The same, with the most memory that the process held."""
    with leaving.room() as room:
        ended = plain([sys.executable, "-I", "-S", "-c", MEASURE, f"{room}/note", *words], stdin, stdout)
        most, own = map(int, content(f"{room}/note").split())
    return ended._replace(memory=most, is_floor=most <= own)
