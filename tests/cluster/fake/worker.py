"""Workers with one thread each: `worker.py ADDRESS NAME...` runs what the scheduler gives them."""
import marshal
import os
import pickle
import sys
import threading
import types
from multiprocessing.connection import Client

sys.path.insert(0, os.path.dirname(os.path.realpath(__file__)))
import distributed


def ended(code: bytes, args: tuple) -> tuple:
    """How a task ends: its status, the type of its result, and its result or its error."""
    try:
        found = types.FunctionType(marshal.loads(code), {"__builtins__": __builtins__})(*args)
        return "finished", pickle.dumps(type(found)), distributed.protocol.serialized(found)
    except Exception as error:
        return "error", b"", distributed.protocol.serialized(error)


def main(address: str, name: str) -> None:
    link = Client(distributed.place(address), authkey=distributed.KEY)
    distributed.here.worker = types.SimpleNamespace(address=name, name=name)
    distributed.say(link, "worker", name)
    try:
        while True:
            distributed.say(link, "done", *ended(*distributed.heard(link)))
    except (EOFError, OSError):
        pass


for name in sys.argv[2:]:
    threading.Thread(target=main, args=(sys.argv[1], name)).start()
