"""As much of Dask's `distributed` as tf calls, so that its engine is tested where that package is not: the same calls, by another hand.

`scheduler.py` beside this is the scheduler, and `worker.py` a worker with one thread. Functions go by their code, without what is around
them: Dask sends more, and tf's task needs no more.
"""
import itertools
import marshal
import pickle
import queue
import threading
from multiprocessing.connection import Client as connected
from multiprocessing.connection import Connection

from . import protocol

KEY = b"tests of tilefarm"
# what a worker is, while it runs a task
here = threading.local()


class KilledWorker(Exception):
    pass


def place(address: str) -> tuple[str, int]:
    """The host and the port of an address, as tcp://HOST:PORT."""
    host, _, port = address.removeprefix("tcp://").rpartition(":")
    return host, int(port)


def get_worker():
    return here.worker


def say(link: Connection, *words: object) -> None:
    link.send_bytes(protocol.dumps(words))


def heard(link: Connection, deserialize: bool = False) -> tuple:
    """The next message. A client makes objects of what it hears, and the others pass it on."""
    return protocol.loads(link.recv_bytes(), deserialize)


class Future:
    def __init__(self, client: "Client", key: str):
        self.client, self.key, self.status = client, key, "pending"
        self.value, self.worker, self.callbacks, self.lock = None, "", [], threading.Lock()

    def end(self, status: str, value, worker: str = "") -> None:
        with self.lock:
            self.status, self.value, self.worker = status, value, worker
            called, self.callbacks = self.callbacks, []
        for callback in called:
            callback(self)

    def add_done_callback(self, callback) -> None:
        with self.lock:
            is_late = self.status != "pending"
            if not is_late:
                self.callbacks.append(callback)
        if is_late:
            callback(self)

    def result(self, timeout: float | None = None):
        if self.status == "error":
            raise self.value
        return self.value

    def cancel(self) -> None:
        self.client.cancel([self])

    def release(self) -> None:
        self.client.futures.pop(self.key, None)


class Client:
    def __init__(self, address: str, timeout: float = 10, set_as_default: bool = True):
        self.link = connected(place(address), authkey=KEY)
        say(self.link, "client")
        self.futures: dict[str, Future] = {}
        self.numbers, self.told, self.lock = itertools.count(), queue.Queue(), threading.Lock()
        self.hearing = threading.Thread(target=self.hear, daemon=True)
        self.hearing.start()

    def hear(self) -> None:
        try:
            while True:
                kind, *rest = heard(self.link, True)
                if kind == "answer":
                    self.told.put(rest[0])
                elif rest[0] in self.futures:
                    self.end(*rest)
        except (EOFError, OSError):
            for it in list(self.futures.values()):
                it.end("lost", None)

    def end(self, key: str, worker: str, status: str, kind: bytes, value) -> None:
        """A task has ended. The type of its result comes as a pickle, too."""
        try:
            pickle.loads(kind)
        except Exception:
            pass
        self.futures[key].end(status, value, worker)

    def say(self, *words) -> None:
        with self.lock:
            say(self.link, *words)

    def submit(self, function, *args, key: str, pure: bool = True, workers: list[str] | None = None, allow_other_workers: bool = False) -> Future:
        future = self.futures[key] = Future(self, key)
        self.say("submit", key, marshal.dumps(function.__code__), args, workers)
        return future

    def ask(self, word: str) -> dict:
        self.say(word)
        try:
            return self.told.get(timeout=60)
        except queue.Empty:
            raise TimeoutError from None

    def nthreads(self) -> dict[str, int]:
        return self.ask("nthreads")

    def processing(self) -> dict[str, list[str]]:
        return self.ask("processing")

    def who_has(self, futures: list[Future]) -> dict[str, list[str]]:
        return {it.key: [it.worker] for it in futures}

    def cancel(self, futures: list[Future]) -> None:
        for it in futures:
            self.futures.pop(it.key, None)
            self.say("cancel", it.key)
            it.end("cancelled", None)

    def close(self) -> None:
        """Goes in order: the scheduler hangs up, and what hears it ends."""
        self.say("goodbye")
        self.hearing.join(timeout=10)
        self.link.close()
