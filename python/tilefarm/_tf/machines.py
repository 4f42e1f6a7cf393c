"""The workers of a Dask scheduler. Dask places tasks and repeats those of workers that die. Here only so many are on their way that memory
stays bounded, and workers at fault are left out. Who answered is the scheduler's word; what was answered is data (cluster_answers.py)."""
import hashlib
import json
import logging
import os
import queue
import random
import re
import statistics
import sys
import threading
import time
import uuid
import warnings
from collections import deque
from typing import Callable, Iterator, NamedTuple

from . import cluster_answers
from .cluster_answers import Answer, Unfit
from .output import tell
from .running import program, run
from .text import Refused, content, escaped
from .words import Asked

TASK = f"{os.path.dirname(os.path.realpath(__file__))}/cluster_task.py"
# seconds: between two looks at the workers, without any worker before tf gives up, and for the scheduler's first answer at least
EACH, PATIENCE, FIRST = 1.0, 30.0, 10.0
# the variables of Dask's configuration that name certificates and a key, as files of PEM
CERTIFICATES = "DASK_DISTRIBUTED__COMM__TLS__CA_FILE, DASK_DISTRIBUTED__COMM__TLS__CLIENT__CERT and DASK_DISTRIBUTED__COMM__TLS__CLIENT__KEY"
# seconds: for one run on a worker unless --task-seconds is given, and how much longer a worker may keep silent
SECONDS, GRACE = 600.0, 30.0
# how many tasks are on their way for each thread of a worker, at least, and at most; the threads of a worker that count
AHEAD, FLOOR, MOST_AHEAD, MOST_THREADS = 2, 8, 1024, 256
# how often a task is tried where its machine failed, and with all tries on machines that had done nothing well or were left out since
TRIES, ALL_TRIES = 3, 12
MACHINE_FAILED = (4, 5)
# a task is tried a second time when it takes this many times the median of those that have ended, so many seconds, and so many have ended
SLOW, LEAST_SLOW, LEAST_ENDED = 5, 5.0, 3


class Task(NamedTuple):
    """A run of the program: what it is in words, the words of the command line, its input, which is made when it is sent, and how many
    bytes it writes at most."""

    name: str
    words: list[str]
    data: Callable[[], bytes]
    most: int


class Done(NamedTuple):
    task: Task
    worker: str
    status: int
    written: bytes

    def line(self) -> str:
        """What a failed run tells."""
        return line_of(self.written) or f"the program ended with status {self.status} and said nothing"

    def is_so_here(self) -> bool:
        """Whether a run of the program here ends in the same way."""
        ended = run(self.task.words, self.task.data())
        return (ended.status, ended.written) == (self.status, self.written)


def line_of(written: bytes) -> str:
    return escaped(written[-1000:].decode("utf-8", "replace").strip())


class Attempt(NamedTuple):
    """A task that is to be sent: not to these workers if there are others, and to one alone where its fault is to be seen. `failed` has the workers
    on which it was tried in vain, each as often, though they had done others well ("" where nobody is known), and `tries` counts all."""

    task: Task
    failed: tuple[str, ...] = ()
    tries: int = 0
    avoids: frozenset[str] = frozenset()
    is_for_one: bool = False


class Flight(NamedTuple):
    """A task that is on its way: to any worker, or to these alone, since when."""

    attempt: Attempt
    future: object
    workers: frozenset[str] | None
    began: float

    @property
    def task(self) -> Task:
        return self.attempt.task


def sent_by_value() -> Callable:
    """The function of a task. Dask sends by value what is of the main module, so it is made as if it were."""
    names = {"__name__": "__main__"}
    exec(compile(content(TASK), TASK, "exec"), names)
    return names["work"]


def machines_for(asked: Asked, left_out: frozenset[str] = frozenset()) -> "Machines":
    """The workers that the words of a command line ask for, without those that were left out before."""
    title = escaped(os.path.basename(asked.files[0])) if asked.files[0] != "-" else "program"
    found = Machines(address_of(asked.own), title, seconds_of(asked, "--task-seconds", SECONDS), seconds_of(asked, "--wait", PATIENCE))
    found.left_out |= left_out
    return found


def address_of(own: dict[str, str]) -> str:
    """The address of the scheduler, as it is given, or as the scheduler wrote it into a file."""
    if "--scheduler" in own:
        return own["--scheduler"]
    path = own["--scheduler-file"]
    try:
        found = json.loads(content(path))["address"]
    except (ValueError, KeyError, TypeError):
        found = None
    if not isinstance(found, str):
        raise Refused(f"{path} is no file of a scheduler: it has no address (dask scheduler --scheduler-file FILE writes one)", 1)
    return found


def seconds_of(asked: Asked, option: str, usual: float) -> float:
    given = asked.own.get(option, f"{usual:.0f}")
    if not (given.isascii() and given.isdecimal() and 1 <= int(given[:9]) and len(given) < 9):
        raise Refused(f"{option} takes seconds, a number from 1", 1)
    return float(given)


def refuse_bare_tls(address: str) -> None:
    """Refuses an address of TLS where Dask's configuration has no certificates, or some that cannot be used."""
    if not address.startswith("tls://"):
        return
    from distributed.security import Security

    try:
        found = Security().get_connection_args("client")["ssl_context"]
    except Exception as error:  # (a file that is not there, is none of a certificate, or does not fit another)
        raise Refused(f"--scheduler {address}: a certificate that Dask's configuration names cannot be used ({in_words(error)})", 4) from error
    if found is None:
        raise Refused(f"--scheduler {address}: TLS wants certificates, and Dask's configuration names none: {CERTIFICATES}", 4)


def hush() -> None:
    """Keeps back what Dask and its threads tell by themselves, as of inputs that go with their tasks, and of connections: tf tells what counts."""
    warnings.simplefilter("ignore")
    threading.excepthook = sys.unraisablehook = lambda _: None
    logging.disable()


def in_words(error: Exception) -> str:
    """An error of Dask without the names that things have in its own text."""
    said = re.sub(r"<[^>]*>|object at 0x[0-9a-f]+", "a connection", str(error))
    return escaped(" ".join(said.split())[:300]) or type(error).__name__


class Machines:
    """The workers of a scheduler that have this very program. `title` begins the names of tasks, which Dask's dashboard shows."""

    def __init__(self, address: str, title: str = "tilefarm", seconds: float = SECONDS, patience: float = PATIENCE):
        import distributed

        cluster_answers.close()
        hush()
        self.address, self.title, self.seconds, self.patience = address, title, seconds, patience
        self.digest = hashlib.sha256(content(program())).hexdigest()
        refuse_bare_tls(address)
        try:
            self.client = distributed.Client(address, timeout=max(FIRST, patience), set_as_default=False)
        except Exception as error:  # (of many kinds: what an address has that is none, and what packages lack)
            raise Refused(f"--scheduler {address}: no scheduler answers ({in_words(error)})", 4) from error
        self.work, self.ended = sent_by_value(), queue.Queue()
        self.flights: dict[str, Flight] = {}
        self.again: deque[Attempt] = deque()
        # the workers that are left out, and those of them of which nobody has heard yet (left_out_since)
        self.left_out: set[str] = set()
        self.untold: list[str] = []
        self.seen = self.looked = time.monotonic()
        # how long tasks took, when each worker answered last, and which worker a slow task is with, since when
        self.took: deque[float] = deque(maxlen=1000)
        self.answered: dict[str, float] = {}
        # the workers that have done a task well, and how many failed on each since
        self.well: set[str] = set()
        self.failures: dict[str, int] = {}
        self.with_worker: dict[str, tuple[str, float]] = {}

    def __enter__(self) -> "Machines":
        return self

    def __exit__(self, *_) -> None:
        futures = [it.future for it in self.flights.values()]
        self.flights = {}
        try:
            if futures:
                self.client.cancel(futures)
            self.client.close()
        except Exception:  # (the scheduler may be gone, and all is done)
            pass

    # what the scheduler says

    def asked(self, call: Callable, *given: object) -> object:
        """What the scheduler answers, and what is sent to it."""
        try:
            return call(*given)
        except Exception as error:  # (of several kinds, by where Dask notices it)
            raise Refused(f"the scheduler {self.address} answers no longer", 4) from error

    def threads(self) -> dict[str, int]:
        """The workers that may take tasks, with their threads."""
        every = self.asked(self.client.nthreads)
        return {name: min(count, MOST_THREADS) for name, count in every.items() if name not in self.left_out and isinstance(count, int) and count > 0}

    def holder(self, flight: Flight) -> str:
        """The worker that has the answer of a task; none where that is not one alone."""
        found = self.asked(self.client.who_has, [flight.future]).get(flight.future.key, ())
        return found[0] if len(found) == 1 else ""

    def holders(self) -> dict[str, str]:
        """The worker that each task on its way is with, where it is with one."""
        every = self.asked(self.client.processing)
        return {key: worker for worker, keys in every.items() for key in keys if key in self.flights}

    # sending

    def results(self, tasks: deque[Task]) -> Iterator[Done]:
        """What the tasks write, as they end; tasks that are added meanwhile are done too."""
        while tasks or self.again or self.flights:
            room = self.room()
            while (tasks or self.again) and len(self.flights) < room:
                self.submit(self.again.popleft() if self.again else Attempt(tasks.popleft()))
            done = self.next()
            if done:
                yield done
            self.look_after()

    def room(self) -> int:
        """How many tasks may be on their way. (A few are without a worker too, since some clusters start workers for tasks that wait.)"""
        threads = self.threads()
        return 0 if self.left_out and not threads else min(max(AHEAD * sum(threads.values()), FLOOR), MOST_AHEAD)

    def submit(self, attempt: Attempt) -> None:
        """Sends a task to any worker, or to those that are not left out."""
        workers = self.chosen(attempt)
        words = {"workers": sorted(workers), "allow_other_workers": False} if workers else {}
        task, key = attempt.task, self.key_of(attempt.task)
        given = task.words, task.data(), self.digest, self.seconds
        future = self.asked(lambda: self.client.submit(self.work, *given, key=key, pure=False, **words))
        self.flights[future.key] = Flight(attempt, future, workers, time.monotonic())
        self.asked(future.add_done_callback, self.ended.put)

    def key_of(self, task: Task) -> str:
        """A name that no other task has. Dask's dashboard shows it, and puts tasks together by the words before the first number."""
        return f"{self.title}-{task.name.replace(' ', '-', 1)}-{uuid.uuid4().hex}"

    def chosen(self, attempt: Attempt) -> frozenset[str] | None:
        """The workers that a task may go to, if it may not go to all."""
        if not (self.left_out or attempt.avoids or attempt.is_for_one):
            return None
        every = frozenset(self.threads())
        others = every - attempt.avoids or every
        return frozenset([random.choice(sorted(others))]) if attempt.is_for_one and others else others or None

    # what comes back

    def next(self) -> Done | None:
        """The next task that has ended well, or none yet."""
        try:
            future = self.ended.get(timeout=EACH)
        except queue.Empty:
            return None
        flight = self.flights.pop(future.key, None)
        self.with_worker.pop(future.key, None)
        return self.landed(flight) if flight else None

    def landed(self, flight: Flight) -> Done | None:
        """What a task wrote; or it is sent again, elsewhere where a worker is at fault."""
        if flight.future.status != "finished":
            self.take_back(flight)
            return None
        before = self.holder(flight)
        found = self.fetched(flight)
        worker = before if self.holder(flight) == before else ""
        self.asked(flight.future.release)
        if not worker:
            self.try_again(self.failed_on(flight.attempt, before), "no worker has its answer alone")
        elif worker in self.left_out:
            self.again.append(flight.attempt)
        else:
            self.answered[worker] = time.monotonic()
            return self.judged(flight, worker, found)
        return None

    def fetched(self, flight: Flight) -> object:
        """What a task answered."""
        try:
            return flight.future.result(timeout=self.seconds)
        except Exception:  # (whatever a worker sends may make Dask fail)
            return None

    def judged(self, flight: Flight, worker: str, found: object) -> Done | None:
        """What a worker's answer says, where it is one, of the wanted program, and its machine did not fail."""
        task = flight.task
        try:
            answer = cluster_answers.read(cluster_answers.bytes_of(found), task.most, task.words[0] == "world")
        except Unfit as fault:
            self.blame(flight, worker, f"for {task.name} it gave {fault}")
            return None
        if answer.digest != self.digest:
            digests = f"({answer.digest[:8]}.. and not {self.digest[:8]}..)"
            self.blame(flight, worker, f"it has another program {digests}" if answer.digest else "it has no program tilefarm")
            return None
        failed = self.failed(answer)
        if failed:
            self.try_elsewhere(flight, worker, failed, answer.status or 4)
            return None
        self.failures[worker] = 0
        self.well.add(worker)
        self.took.append(time.monotonic() - flight.began)
        self.forget_copies(task)
        return Done(task, worker, answer.status, answer.written)

    def failed(self, answer: Answer) -> str:
        """Why a machine did not end a run, or nothing."""
        if answer.status is None:
            return f"the run took more than {self.seconds:.0f} seconds (--task-seconds)"
        if answer.status in MACHINE_FAILED or answer.status < 0:
            return f"the program ended with status {answer.status} and said {line_of(answer.written) or 'nothing'}"
        return ""

    def take_back(self, flight: Flight) -> None:
        """A task has ended without an answer. Where that is with one worker alone, this one is at fault; else it is tried with one."""
        self.threads()
        workers = flight.workers or ()
        if flight.future.status == "error" and len(workers) == 1:
            self.blame(flight, *workers, f"{flight.task.name} ended there with an error, and not with an answer: the worker's log tells it")
        else:
            worker = next(iter(workers)) if len(workers) == 1 else ""
            attempt = self.failed_on(flight.attempt, worker)._replace(is_for_one=True)
            self.try_again(attempt, "Dask gave it up: workers died of it, or it ended there with errors")

    def try_elsewhere(self, flight: Flight, worker: str, why: str, status: int) -> None:
        """A machine has failed: the task is tried elsewhere. It counts as the task's fault only if the worker has done one well before, and
        a worker that has failed often since is left out."""
        self.failures[worker] = self.failures.get(worker, 0) + 1
        attempt = self.failed_on(flight.attempt, worker)
        self.try_again(attempt._replace(avoids=attempt.avoids | {worker}), why, status)
        if self.failures[worker] >= TRIES:
            self.leave_out(worker, f"{TRIES} tasks in a row failed there, the last one because {why}")

    def failed_on(self, attempt: Attempt, worker: str) -> Attempt:
        """A task that was tried in vain. That tells of the task where the worker had done others well, or is not known."""
        failed = (*attempt.failed, worker) if not worker or worker in self.well else attempt.failed
        return attempt._replace(failed=failed, tries=attempt.tries + 1, is_for_one=False)

    def try_again(self, attempt: Attempt, why: str, status: int = 4) -> None:
        """Sends a task once more, unless that was done often. Tries on workers that were left out since tell nothing of it."""
        if sum(it not in self.left_out for it in attempt.failed) >= TRIES or attempt.tries >= ALL_TRIES:
            raise Refused(f"{attempt.task.name}: it was tried {attempt.tries} times: {why}", status if status > 0 else 128 - status)
        self.again.append(attempt)

    def forget_copies(self, task: Task) -> None:
        """Calls off what else is on its way, or was to be sent, of a task that has ended."""
        self.again = deque(it for it in self.again if it.task is not task)
        for it in [it for it in self.flights.values() if it.task is task]:
            self.call_off(it)

    def call_off(self, flight: Flight) -> None:
        del self.flights[flight.future.key]
        self.with_worker.pop(flight.future.key, None)
        self.asked(flight.future.cancel)

    # workers at fault

    def blame(self, flight: Flight, worker: str, why: str) -> None:
        """Leaves a worker out, and sends its task elsewhere."""
        self.again.append(flight.attempt)
        self.leave_out(worker, why)

    def leave_out(self, worker: str, why: str) -> None:
        """Gives a worker nothing more, takes back what it has, and says so once."""
        if worker in self.left_out:
            return
        self.left_out.add(worker)
        self.untold.append(worker)
        tell(f"worker {escaped(worker)} is left out: {why}")
        if not self.threads():
            raise Refused(f"no worker of the scheduler {self.address} is left", 4)
        for key, other in self.holders().items():
            if other == worker:
                self.again.append(self.flights[key].attempt)
                self.call_off(self.flights[key])

    def left_out_since(self) -> list[str]:
        """The workers that were left out since this was asked last. Whoever took their answers takes none of them for good any more."""
        found, self.untold = self.untold, []
        return found

    def look_after(self) -> None:
        """Sends tasks again whose workers are all gone or slow, and gives up where there has been no worker for long."""
        threads, now = self.threads(), time.monotonic()
        if threads:
            self.seen = now
        elif now - self.seen > self.patience:
            raise Refused(f"the scheduler {self.address} has had no worker for {self.patience:.0f} seconds (--wait)", 4)
        for it in [it for it in self.flights.values() if threads and it.workers and it.workers.isdisjoint(threads)]:
            self.call_off(it)
            attempt = self.failed_on(it.attempt, next(iter(it.workers)))._replace(is_for_one=True) if it.attempt.is_for_one else it.attempt
            self.try_again(attempt, "its worker went away")
        if now - self.looked > EACH:
            self.looked = now
            self.look_after_slow(threads, now)

    def look_after_slow(self, threads: dict[str, int], now: float) -> None:
        """Tries a second time what takes much longer than others, and leaves out workers that have a task and keep silent."""
        limit = max(SLOW * statistics.median(self.took), LEAST_SLOW) if len(self.took) >= LEAST_ENDED else self.seconds
        slow = {key: it for key, it in self.flights.items() if now - it.began > min(limit, self.seconds)}
        holders = self.holders() if slow else {}
        for key, it in slow.items():
            worker = holders.get(key, "")
            if worker and self.is_silent(key, worker, now):
                self.leave_out(worker, f"it has {it.task.name} and has not answered for more than {self.seconds + GRACE:.0f} seconds (--task-seconds)")
                return
            is_alone = sum(other.task is it.task for other in self.flights.values()) == 1
            if worker and is_alone and threads.keys() - {worker} and now - it.began > limit:
                self.submit(it.attempt._replace(avoids=it.attempt.avoids | {worker}, is_for_one=False))

    def is_silent(self, key: str, worker: str, now: float) -> bool:
        """Whether a worker has had a task for longer than a run may take, and answered nothing since."""
        since = self.with_worker.get(key)
        if since is None or since[0] != worker:
            self.with_worker[key] = since = (worker, now)
        return now - max(since[1], self.answered.get(worker, 0)) > self.seconds + GRACE
