"""A scheduler as Dask's is to those who call it: `scheduler.py FILE` writes its address into the file, and gives tasks to workers.

A task whose worker dies goes to another one; after the fourth death it is given up.
"""
import json
import os
import subprocess
import sys
from collections import deque
from multiprocessing.connection import Connection, Listener, wait

sys.path.insert(0, os.path.dirname(os.path.realpath(__file__)))
import distributed

ALLOWED_DEATHS = 3


class Task:
    def __init__(self, client: Connection, key: str, code: bytes, args: tuple, workers: list[str] | None):
        self.client, self.key, self.code, self.args, self.workers, self.deaths = client, key, code, args, workers, 0


class Scheduler:
    def __init__(self):
        self.listener = Listener(("127.0.0.1", 0), backlog=64, authkey=distributed.KEY)
        self.waiting: deque[Task] = deque()
        self.workers: dict[Connection, str] = {}
        self.running: dict[Connection, Task] = {}
        self.links: list[Connection] = []
        self.grown: subprocess.Popen | None = None

    def address(self) -> str:
        return "tcp://{}:{}".format(*self.listener.address)

    def serve(self) -> None:
        socket = self.listener._listener._socket
        while True:
            for it in wait([socket, *self.links]):
                if it is socket:
                    self.links.append(self.listener.accept())
                else:
                    self.hear(it)
            self.give()

    def hear(self, link: Connection) -> None:
        try:
            kind, *rest = distributed.heard(link)
        except (EOFError, OSError):
            self.lose(link)
            return
        if kind == "worker":
            self.workers[link] = rest[0]
        elif kind == "submit":
            self.waiting.append(Task(link, *rest))
        elif kind == "cancel":
            self.waiting = deque(it for it in self.waiting if it.key != rest[0])
        elif kind == "nthreads":
            self.tell(link, "answer", dict.fromkeys(self.workers.values(), 1))
        elif kind == "processing":
            self.tell(link, "answer", {self.workers[it]: [task.key] for it, task in self.running.items()})
        elif kind == "goodbye":
            self.lose(link)
            link.close()
        elif kind == "done":
            task = self.running.pop(link)
            self.tell(task.client, "done", task.key, self.workers[link], *rest)

    def tell(self, link: Connection, *words) -> None:
        try:
            distributed.say(link, *words)
        except OSError:
            self.lose(link)

    def lose(self, link: Connection) -> None:
        """A worker's task goes to another worker; a client's tasks are forgotten."""
        if link in self.links:
            self.links.remove(link)
        name, task = self.workers.pop(link, None), self.running.pop(link, None)
        self.waiting = deque(it for it in self.waiting if it.client is not link)
        if task:
            task.deaths += 1
            if task.deaths > ALLOWED_DEATHS:
                error = distributed.protocol.serialized(distributed.KilledWorker(task.key, name))
                self.tell(task.client, "done", task.key, name, "error", b"", error)
            else:
                self.waiting.appendleft(task)

    def give(self) -> None:
        """Gives tasks to workers that have none. With GROWS a worker is started when the first task waits."""
        if os.environ.get("GROWS") and self.waiting and not self.grown:
            self.grown = subprocess.Popen([sys.executable, f"{os.path.dirname(os.path.realpath(__file__))}/worker.py", self.address(), "grown"])
        for link in [it for it in self.workers if it not in self.running]:
            task = next((it for it in self.waiting if it.workers is None or self.workers[link] in it.workers), None)
            if task:
                self.waiting.remove(task)
                self.running[link] = task
                self.tell(link, task.code, task.args)


def main(path: str) -> None:
    scheduler = Scheduler()
    with open(f"{path}.new", "w", encoding="utf-8") as file:
        json.dump({"address": scheduler.address()}, file)
    os.replace(f"{path}.new", path)
    scheduler.serve()


main(sys.argv[1])
