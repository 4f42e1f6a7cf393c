"""Signals at random times: children end, own files go, what is there stays, and the status is 128 and the signal's number."""
import os
import random
import resource
import shutil
import signal
import subprocess
import sys
import time

from .calls import TOP, begin, call, code_of
from .rooms import FILES, InRoom

from _tf import play_runs

TIMES, SEED, LONGEST = 200, 83, 60
WATCHED = (signal.SIGINT, signal.SIGTERM, signal.SIGHUP)
LINES = ("eval p.pipe p.pgm -o made.pgm", "eval p.pipe p.pgm -o made.png", "eval p.pipe p.pgm --parts 40 --jobs 3 -o made.pgm", "eval p.pipe p.pgm --stages made",
         "eval p.pipe p.pgm --memory -o made.pgm", "report p.pipe p.pgm -o made.html", "tune p.pipe p.pgm -o made.txt",
         "eval p.pipe p.pgm --engine list --parts 40 -o made", "facts p.pipe p.pgm -o made.facts", "run p.pipe p.pgm --turns 65536 -o made.pgm",
         "eval p.pipe p.pgm p2.pgm p3.pgm --jobs 2 -o made-{name}.pgm", "frames p.pipe p%d.pgm -o made-%d.pgm", "frames p.pipe p%d.pgm --jobs 2 -o made-%d.png",
         "eval c.pipe p.jpg -o made.jpg")
# a program for a JPEG, from which djpeg and cjpeg make one where they are
OF_JPEG = "param R; param C;\nimage I(R, C);\nfunc f(x in [0 .. R-1], y in [0 .. C-1]) { else : I(x, y); }\noutput f max 255;\n"
# some seconds of one processor at least
SLOW = ("image I(2, 3);\nfunc f(x in [0 .. 16000], y in [0 .. 16000]) { else : " + " + ".join(["x * y % 7"] * 600)
        + "; }\naccum a [0 .. 0] over (x in [0 .. 16000], y in [0 .. 16000]) sum f(x, y) at 0;\n")

# tf, which gets Ctrl-C when it loads its first module, its fourth one and so on; the statuses are written, until one has loaded all
INTERRUPTED = """import posix, sys
with open(sys.argv[1]) as file:
    text = compile(file.read(), sys.argv[1], "exec")
loads, status = -2, None
while status != 0 and loads < 400:
    loads += 3
    child = posix.fork()
    if not child:
        left = loads
        def hook(event, _):
            global left
            left -= event == "import"
            if event == "import" and not left:
                posix.kill(posix.getpid(), 2)
        sys.addaudithook(hook)
        sys.argv = sys.argv[1:]
        exec(text, {"__name__": "__main__", "__file__": sys.argv[0]})
    status = posix.waitstatus_to_exitcode(posix.waitpid(child, 0)[1])
    print(status, flush=True)
"""


def line_of_status(process: int, name: str) -> str:
    """A line of what the system tells of a process, or nothing where it is gone."""
    try:
        with open(f"/proc/{process}/status", encoding="utf-8") as file:
            return next((it.split()[1] for it in file if it.startswith(f"{name}:")), "")
    except OSError:
        return ""


def watches(process: int) -> bool:
    """Whether a process has its handler of SIGHUP, which no other than ours is."""
    return bool(int(line_of_status(process, "SigCgt") or "0", 16) >> signal.SIGHUP - 1 & 1)


def of_session(leader: int) -> list[int]:
    """The processes of a session that go on."""
    found = []
    for name in filter(str.isdigit, os.listdir("/proc")):
        try:
            with open(f"/proc/{name}/stat", encoding="latin-1") as file:
                state, _, _, session = file.read().rpartition(")")[2].split()[:4]
        except OSError:
            continue
        if int(session) == leader and state not in "ZX":
            found.append(int(name))
    return found


def left_of_session(leader: int) -> list[int]:
    """The processes of a session that go on after its first one ended. The system may take a while to end what was killed, where it is busy."""
    until = time.monotonic() + LONGEST
    while (found := of_session(leader)) and time.monotonic() < until:
        time.sleep(0.01)
    return found


class Signals(InRoom):
    def setUp(self):
        super().setUp()
        picture = b"P5\n128 128\n16\n" + bytes(range(16)) * 1024
        self.files = {**FILES, "p.pgm": picture, "p2.pgm": picture, "p3.pgm": picture, "c.pipe": OF_JPEG.encode(), "p.jpg": b""}
        if shutil.which("cjpeg"):
            self.files["p.jpg"] = subprocess.run(["cjpeg"], input=picture, capture_output=True, check=True).stdout
        for name, data in self.files.items():
            self.write(name, data)
        os.mkdir(f"{self.room}/tmp")
        # (a shell starts what runs behind it with signals that are ignored, and tf goes on to ignore them)
        for it in WATCHED:
            self.addCleanup(signal.signal, it, signal.signal(it, signal.default_int_handler if it == signal.SIGINT else signal.SIG_DFL))

    def ended(self, process: int) -> int:
        """The status of a process, which ends soon."""
        until = time.monotonic() + LONGEST
        while time.monotonic() < until:
            found, status = os.waitpid(process, os.WNOHANG)
            if found:
                return code_of(status)
            time.sleep(0.002)
        os.killpg(process, signal.SIGKILL)
        os.waitpid(process, 0)
        return -1

    def left(self) -> list[str]:
        """What is there beside the files, the results and the folder of temporary files."""
        hidden = [it for it in os.listdir(self.room) if it.startswith(".")]
        inside = [f"made/{it}" for it in os.listdir(f"{self.room}/made") if it.startswith(".")] if os.path.isdir(f"{self.room}/made") else []
        return hidden + inside + [f"tmp/{it}" for it in os.listdir(f"{self.room}/tmp")]

    def test_at_random_times(self):
        chance = random.Random(SEED)
        counts = {number: 0 for number in WATCHED}
        # (where runs are short, many have ended before their signal comes)
        for times in range(5 * TIMES):
            if times >= TIMES and min(counts.values()) > 10:
                break
            line, number = chance.choice(LINES), chance.choice(WATCHED)
            process = begin(line.split(), self.room, first=os.setsid, TMPDIR=f"{self.room}/tmp")
            while not watches(process) and line_of_status(process, "State") not in ("Z", ""):
                time.sleep(0.001)
            time.sleep(chance.random() * chance.random() * 0.25)
            os.kill(process, number)
            status = self.ended(process)
            with self.subTest(line, number=number):
                self.assertIn(status, (0, 128 + number) if self.files["p.jpg"] or "jpg" not in line else (2, 128 + number))
                self.assertEqual(left_of_session(process), [])
                self.assertEqual(self.left(), [])
                self.assertEqual([it for it, data in self.files.items() if self.content(it) != data], [])
            counts[number] += status != 0
            subprocess.run(["sh", "-c", "rm -rf made* tmp/*"], cwd=self.room, check=True)
        self.assertGreater(min(counts.values()), 10, counts)

    def test_while_tf_loads_its_modules(self):
        words = [sys.executable, "-S", "-c", INTERRUPTED, f"{TOP}/tools/tf", *"check p.pipe p.pgm -o said".split()]
        # (what was compiled once is not compiled at each start)
        env = {**os.environ, "PYTHONDONTWRITEBYTECODE": "", "PYTHONPYCACHEPREFIX": f"{self.room}/compiled"}
        ran = subprocess.run(words, cwd=self.room, env=env, stdin=subprocess.DEVNULL, capture_output=True, text=True)
        *before, last = map(int, ran.stdout.split())
        self.assertEqual((ran.returncode, ran.stderr, set(before), last), (0, "", {130}, 0))
        self.assertGreater(len(before), 10)

    def test_no_half_of_a_part_is_left_where_parts_are_kept(self):
        def ends_before_the_name() -> None:
            usual = os.replace

            def replace(*words) -> None:
                # (parts are done by a thread beside that which ends tf)
                os.kill(os.getpid(), signal.SIGTERM)
                time.sleep(LONGEST)
                usual(*words)

            os.replace = replace

        line = "eval p.pipe p.pgm --parts 40 --resume made -o made.pgm".split()
        self.assertEqual(call(line, self.room, first=ends_before_the_name).status, 143)
        self.assertEqual(os.listdir(f"{self.room}/made"), [])
        self.assertEqual(call(line, self.room).status, 0)

    def test_a_result_is_whole_or_not_there(self):
        self.assertEqual(call("eval p.pipe p.pgm -o made.pgm".split(), self.room).status, 0)
        whole = self.content("made.pgm")
        chance = random.Random(SEED)
        for _ in range(20):
            process = begin("eval p.pipe p.pgm -o made.pgm".split(), self.room, first=os.setsid)
            time.sleep(chance.random() * 0.2)
            os.kill(process, signal.SIGTERM)
            self.ended(process)
            self.assertEqual(self.content("made.pgm"), whole)

    def test_a_batch_ends_at_once_by_a_signal_to_tf_alone(self):
        self.write("p.pipe", SLOW.replace("I(2, 3)", "I(128, 128)").encode())
        words = [sys.executable, "-S", f"{TOP}/tools/tf", *"eval p.pipe p.pgm p2.pgm p3.pgm --jobs 2 -o made-{name}.txt".split()]
        process = subprocess.Popen(words, cwd=self.room, stderr=subprocess.PIPE, start_new_session=True)
        self.addCleanup(process.stderr.close)
        while not any(line_of_status(it, "Name") == "tilefarm" for it in of_session(process.pid)):
            self.assertIsNone(process.poll(), process.stderr.read() if process.poll() is not None else "")
            time.sleep(0.01)
        process.send_signal(signal.SIGINT)
        # (the program would go on for hours)
        self.assertEqual((process.wait(LONGEST), process.stderr.read()), (130, b""))
        self.assertEqual(left_of_session(process.pid), [])

    def test_what_is_ignored_from_the_start_stays_ignored(self):
        before = signal.signal(signal.SIGHUP, signal.SIG_IGN)
        self.addCleanup(signal.signal, signal.SIGHUP, before)
        process = begin("eval p.pipe p.pgm -o made.pgm".split(), self.room, first=lambda: None)
        for _ in range(10):
            os.kill(process, signal.SIGHUP)
            time.sleep(0.01)
        self.assertEqual(self.ended(process), 0)

    def test_a_run_of_a_page_ends_by_itself(self):
        """What a page's run may take is a limit of the process: it needs no tf that ends it."""
        runs = play_runs.Runs(seconds=0.2)
        with open(f"{self.room}/input", "w+b") as given, open(f"{self.room}/out", "w+b") as out:
            given.write(SLOW.encode() + b"%%\nP5\n3 2\n255\n123456")
            given.seek(0)
            process = runs.turn().started([os.environ["TILEFARM"], "eval"], given, out)
            used = resource.getrusage(resource.RUSAGE_CHILDREN)
            self.assertLess(process.wait(LONGEST), 0)
            more = resource.getrusage(resource.RUSAGE_CHILDREN)
        self.assertLess(more.ru_utime + more.ru_stime - used.ru_utime - used.ru_stime, 5)
