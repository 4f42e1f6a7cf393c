"""Makes a worker odd, as ODD_WORKER says: it lies, babbles, lies once and then babbles, is slow, lacks memory at first, stops its second
program, answers in the form of its name (forms.py), answers nothing, or dies in the middle of its second task, or of its first one. A noisy one is
tf itself, with an engine that tells things, and so are two others: one that draws late compares all that it gets but the first two, and to one that is
unhurried no task is slow.

A patient one ends nothing before others were odd, ODD_COUNT of them, or one: else the patient ones might do all tasks before. Each of the
others says that it was, by a file that begins with ODD_FILE.
"""
import glob
import logging
import os
import random
import signal
import statistics
import subprocess
import threading
import time
import warnings

KIND, FILE, COUNT = os.environ.get("ODD_WORKER", ""), os.environ.get("ODD_FILE", ""), int(os.environ.get("ODD_COUNT", "1"))
usual, runs = subprocess.run, []
# when a patient worker waits no more
UNTIL = time.monotonic() + 1500


def odd(words, **more):
    if words[1:2] not in (["eval"], ["world"]):
        return usual(words, **more)
    runs.append(words)
    if KIND == "slow":
        time.sleep(0.2)
    if KIND == "patient":
        wait()
    if KIND == "stops" and len(runs) == 2:
        was_odd("stops")
        return usual(["sh", "-c", "kill -STOP $$"], **more)
    if KIND == "silent":
        time.sleep(1000)
    if KIND == "dies" and len(runs) == 2:
        time.sleep(0.5)
        was_odd("dies")
        os.kill(os.getpid(), signal.SIGKILL)
    if KIND == "dies-first":
        os.kill(os.getpid(), signal.SIGKILL)
    return changed(usual(words, **more))


def wait():
    while len(glob.glob(f"{FILE}-*")) < COUNT and time.monotonic() < UNTIL:
        time.sleep(0.02)


def was_odd(name):
    open(f"{FILE}-{name}", "w").close()


class Behind(bytes):
    """What is behind the first line of an answer: joined to that, it becomes an answer of another form."""

    def __radd__(self, head):
        import distributed
        import forms

        name = distributed.get_worker().name
        was_odd(name)
        return forms.FORMS[name][0](head, bytes(self))


def lied(answer):
    """What a run wrote, with another last digit."""
    return answer[:-2] + (b"1" if answer[-2:-1] == b"0" else b"0") + answer[-1:]


def changed(ran):
    if KIND == "forms":
        ran.stdout = Behind(ran.stdout)
    if KIND == "lies":
        ran.stdout = lied(ran.stdout)
        was_odd(f"lies-{len(runs)}")
    if KIND == "lies-and-babbles":
        ran.stdout = lied(ran.stdout) if len(runs) == 1 else bytes(1 << 24)
        was_odd(f"{KIND}-{len(runs)}")
    if KIND == "babbles":
        ran.stdout = b"node 1 00\n"
    if KIND == "fails" and len(runs) == 1:
        ran.returncode, ran.stdout = 5, b"memory\n"
    return ran


class Untold:
    def __del__(self):
        raise OSError("in <TCP (closed)>")


def noise():
    """What an engine tells by itself, once tf has told it to be still."""
    while not logging.root.manager.disable:
        time.sleep(0.01)
    warnings.warn("Mismatched versions found")
    logging.getLogger("asyncio").error("Future exception was never retrieved")
    Untold()
    raise OSError("in <TCP (closed)>")


def draw(_, count, drawn=[]):
    drawn.append(count)
    return count - 1 if len(drawn) < 3 else 0


if KIND == "draws-late":
    random.SystemRandom.randrange = draw
elif KIND == "unhurried":
    statistics.median = lambda _: float("inf")
elif KIND == "noisy":
    threading.Thread(target=noise, daemon=True).start()
elif KIND:
    subprocess.run = odd
