"""Tests of -o: what stands under a name stays what it is, and what is read is never replaced."""
import os
import socket
import stat
import subprocess
import threading

from .shared import COPY, GREY, PROGRAM, TOP, InRoom, tf

from _tf import output

RAW = b"P5\n4 4\n255\n" + bytes(range(1, 17))
NOBODY = 65534


class Targets(InRoom):
    def mode(self, name: str) -> os.stat_result:
        return os.lstat(f"{self.room}/{name}")

    def test_a_pipe_is_written_to_and_stays(self):
        path = f"{self.room}/pipe"
        os.mkfifo(path)
        found = []
        reading = threading.Thread(target=lambda: found.append(self.content("pipe")))
        reading.start()
        self.assertEqual(self.tf("eval p.pipe p.pgm -o pipe"), (0, b"", ""))
        reading.join()
        self.assertEqual(found, [RAW])
        self.assertTrue(stat.S_ISFIFO(self.mode("pipe").st_mode))

    def test_a_socket_is_sent_to_and_stays(self):
        with socket.socket(socket.AF_UNIX, socket.SOCK_STREAM) as listening:
            listening.bind(f"{self.room}/socket")
            listening.listen()
            found = []

            def hear():
                with listening.accept()[0] as there, there.makefile("rb") as heard:
                    found.append(heard.read())

            hearing = threading.Thread(target=hear)
            hearing.start()
            self.assertEqual(self.tf("eval p.pipe p.pgm -o socket"), (0, b"", ""))
            hearing.join()
        self.assertEqual(found, [RAW])
        self.assertTrue(stat.S_ISSOCK(self.mode("socket").st_mode))
        self.refused("eval p.pipe p.pgm -o socket", 4, "socket: ")

    def test_devices_stay_devices(self):
        self.assertEqual(self.tf("eval p.pipe p.pgm -o /dev/null"), (0, b"", ""))
        self.assertTrue(stat.S_ISCHR(os.stat("/dev/null").st_mode))
        self.refused("eval p.pipe p.pgm -o /dev/full", 4, "/dev/full: No space left on device")
        self.assertTrue(stat.S_ISCHR(os.stat("/dev/full").st_mode))
        try:
            os.mknod(f"{self.room}/null", stat.S_IFCHR | 0o666, os.makedev(1, 3))
        except PermissionError:
            return
        self.assertEqual(self.tf("eval p.pipe p.pgm -o null")[0::2], (0, ""))
        self.assertTrue(stat.S_ISCHR(self.mode("null").st_mode))

    def test_standard_output_by_its_names(self):
        for name in ("-", "/dev/stdout", "/dev/fd/1", "/proc/self/fd/1"):
            with self.subTest(name):
                self.assertEqual(self.tf(f"eval p.pipe p.pgm -o {name}"), (0, RAW, ""))
        with open(f"{self.room}/into", "wb") as file:
            words = [f"{TOP}/tools/tf", "eval", "p.pipe", "p.pgm", "-o", "/dev/stdout"]
            subprocess.run(words, cwd=self.room, env={**os.environ, "TILEFARM": PROGRAM}, stdout=file, check=True)
        self.assertEqual(self.content("into"), RAW)

    def test_links_are_followed(self):
        self.write("old.pgm", b"older")
        os.symlink("old.pgm", f"{self.room}/link.pgm")
        os.symlink("new.pgm", f"{self.room}/leads.pgm")
        for link, file in (("link.pgm", "old.pgm"), ("leads.pgm", "new.pgm")):
            self.assertEqual(self.tf(f"eval p.pipe p.pgm -o {link}"), (0, b"", ""))
            self.assertEqual(self.content(file), RAW)
            self.assertTrue(stat.S_ISLNK(self.mode(link).st_mode))
        os.symlink("round.pgm", f"{self.room}/round.pgm")
        self.refused("eval p.pipe p.pgm -o round.pgm", 4, "round.pgm: ")

    def test_mode_and_owner_stay(self):
        self.write("old.pgm", b"older")
        os.chmod(f"{self.room}/old.pgm", 0o640)
        wanted = os.getuid(), os.getgid()
        if os.getuid() == 0:
            wanted = NOBODY, NOBODY
            os.chown(f"{self.room}/old.pgm", *wanted)
        self.assertEqual(self.tf("eval p.pipe p.pgm -o old.pgm"), (0, b"", ""))
        found = self.mode("old.pgm")
        self.assertEqual((stat.S_IMODE(found.st_mode), found.st_uid, found.st_gid), (0o640, *wanted))
        self.assertEqual(self.content("old.pgm"), RAW)

    def test_another_owner_s_file_is_written_in_its_place(self):
        if os.getuid():
            self.skipTest("to make a file of another owner takes a root user")
        self.write("old.pgm", b"older and longer")
        self.write("shut.pgm", b"older")
        for path, mode in ((self.room, 0o777), (f"{self.room}/old.pgm", 0o666), (f"{self.room}/shut.pgm", 0o644)):
            os.chmod(path, mode)
        self.assertEqual(as_nobody(lambda: output.put(f"{self.room}/old.pgm", b"new")), 0)
        self.assertNotEqual(as_nobody(lambda: output.put(f"{self.room}/shut.pgm", b"new")), 0)
        self.assertEqual((self.content("old.pgm"), self.mode("old.pgm").st_uid), (b"new", 0))
        self.assertEqual(self.content("shut.pgm"), b"older")

    def test_a_file_of_a_foreign_group_is_written_in_its_place(self):
        if os.getuid():
            self.skipTest("to make a file of another group takes a root user")
        self.write("old.pgm", b"older and longer")
        os.chmod(self.room, 0o777)
        os.chown(f"{self.room}/old.pgm", NOBODY, 0)
        before = self.mode("old.pgm").st_ino
        self.assertEqual(as_nobody(lambda: output.put(f"{self.room}/old.pgm", b"new")), 0)
        self.write("made", b"newer")
        os.chmod(f"{self.room}/made", 0o644)
        found = self.mode("old.pgm")
        self.assertEqual((self.content("old.pgm"), found.st_ino, found.st_uid, found.st_gid), (b"new", before, NOBODY, 0))
        self.assertEqual(as_nobody(lambda: output.put_file(f"{self.room}/old.pgm", f"{self.room}/made")), 0)
        self.assertEqual(self.content("old.pgm"), b"newer")
        self.assertEqual([it for it in os.listdir(self.room) if it.startswith(".")], [])

    def test_a_bit_that_lets_others_run_as_the_owner_is_dropped(self):
        self.write("old.pgm", b"older")
        os.chmod(f"{self.room}/old.pgm", 0o6755)
        self.assertEqual(self.tf("eval p.pipe p.pgm -o old.pgm"), (0, b"", ""))
        self.assertEqual(stat.S_IMODE(self.mode("old.pgm").st_mode), 0o755)

    def test_other_names_are_told(self):
        self.write("old.pgm", b"older")
        os.link(f"{self.room}/old.pgm", f"{self.room}/other.pgm")
        status, _, told = self.tf("eval p.pipe p.pgm -o old.pgm")
        self.assertEqual((status, self.content("old.pgm"), self.content("other.pgm")), (0, RAW, b"older"))
        self.assertIn("old.pgm: it had 2 names (hard links)", told)

    def test_attributes_stay(self):
        self.write("old.pgm", b"older")
        try:
            os.setxattr(f"{self.room}/old.pgm", "user.note", b"mine")
        except OSError as error:
            self.skipTest(f"this file system has no attributes of users ({error.strerror})")
        self.assertEqual(self.tf("eval p.pipe p.pgm -o old.pgm"), (0, b"", ""))
        self.assertEqual(os.getxattr(f"{self.room}/old.pgm", "user.note"), b"mine")

    def test_what_comes_by_pipes_is_read_once(self):
        for line in ("eval <(cat p.pipe) p.pgm", "eval p.pipe <(cat p.pgm)", "eval <(cat p.pipe) <(cat p.pgm)", "eval p.pipe - < p.pgm", "eval <(cat p.pipe) p.pgm --parts 3",
                     "eval p.pipe <(cat p.pgm) --parts 3"):
            ran = subprocess.run(["bash", "-c", f"{TOP}/tools/tf {line}"], cwd=self.room, env={**os.environ, "TILEFARM": PROGRAM}, capture_output=True)
            self.assertEqual((ran.returncode, ran.stdout, ran.stderr), (0, RAW, b""), line)

    def test_a_folder_whose_name_is_no_line(self):
        status, _, told = tf(["eval", "p.pipe", "p.pgm", "--engine", "list", "-o", "a\nb"], self.room)
        self.assertEqual((status, os.path.exists(f"{self.room}/a\nb")), (1, False))
        self.assertIn("each command is one line", told)

    def test_what_is_read_is_not_replaced(self):
        os.symlink("p.pgm", f"{self.room}/link.pgm")
        os.link(f"{self.room}/p.pgm", f"{self.room}/hard.pgm")
        self.write("f.facts", b"5054463100000000\n")
        for line, kind in (("eval p.pipe p.pgm -o p.pgm", "picture"), ("eval p.pipe p.pgm -o link.pgm", "picture"),
                           ("eval p.pipe p.pgm -o ./hard.pgm", "picture"), ("check p.pipe p.pgm -o p.pipe", "program"),
                           ("merge f.facts f.facts -o f.facts", "facts"), ("audit p.pipe p.pgm f.facts -o f.facts", "facts"),
                           ("--join p.pipe p.pgm -o p.pipe", "program")):
            with self.subTest(line):
                self.refused(line, 1, f"the {kind} is read from this file")
        self.assertEqual(self.content("p.pgm"), GREY.encode())

    def test_a_file_that_is_standard_input_is_not_replaced(self):
        for line, kind in (("eval p.pipe - -o p.pgm < p.pgm", "picture"), ("eval - p.pgm -o p.pgm < p.pipe", "picture"), ("graph - p.pgm -o s.svg < s.svg", "program")):
            self.write("s.svg", COPY.encode())
            ran = subprocess.run(["sh", "-c", f"{TOP}/tools/tf {line}"], cwd=self.room, env={**os.environ, "TILEFARM": PROGRAM}, capture_output=True, text=True)
            self.assertEqual((ran.returncode, ran.stdout), (1, ""), ran.stderr)
            self.assertIn(f"the {kind} is read from this file", ran.stderr)
            self.assertEqual((self.content("p.pgm"), self.content("s.svg")), (GREY.encode(), COPY.encode()))

    def test_what_other_commands_read_is_not_replaced(self):
        self.write("t.txt", b"h 0..1: 3 4\n")
        self.write("a.pgm", GREY.encode())
        for line, kind in (("table sums t t.txt -o t.txt", "numbers' file"), ("eval p.pipe p.pgm --table t.txt -o t.txt", "table"),
                           ("eval p.pipe p.pgm a.pgm --table t.txt --print -o ./{name}.pgm", "picture"),
                           ("eval p.pipe t.txt p.pgm -o {name}.txt", "picture"), ("hist p.pipe p.pgm -o p.pgm", "picture")):
            with self.subTest(line):
                self.refused(line, 1, f"the {kind} is read from this file")
        self.assertEqual((self.content("t.txt"), self.content("a.pgm")), (b"h 0..1: 3 4\n", GREY.encode()))

    def test_a_word_that_is_no_file_of_a_table_is_none(self):
        self.write("gamma", b"older")
        self.assertEqual(self.tf("table gamma t 0..3 1 -o gamma"), (0, b"", ""))
        self.assertEqual(self.content("gamma"), b"t 0..3: 0 1 2 3\n")

    def test_a_list_of_parts_is_not_replaced_by_its_result(self):
        self.assertEqual(self.tf("eval p.pipe p.pgm --engine list --parts 2 -o parts")[0], 0)
        lines = self.content("parts/commands")
        for name in ("commands", "make-part"):
            self.refused(f"join parts -o parts/{name}", 1, "the list of parts is read from this file")
        self.assertEqual(self.content("parts/commands"), lines)
        self.refused("eval p.pipe p.pgm --engine list --parts 2 -o parts", 1, "no empty folder")

    def test_the_program_itself_is_not_replaced(self):
        os.symlink(PROGRAM, f"{self.room}/itself")
        self.refused("eval p.pipe p.pgm -o itself", 1, "the program tilefarm itself")

    def test_two_names_are_refused(self):
        self.refused("eval p.pipe p.pgm -o a.pgm -o b.pgm", 1, "-o is given twice")
        self.refused("eval p.pipe p.pgm -o=", 1, "-o names no file")

    def test_endings_of_what_is_not_written(self):
        for line, said in (("hist p.pipe p.pgm -o x.pdf", ".svg and .csv"), ("graph p.pipe p.pgm -o x.pdf", ".svg and .dot"),
                           ("eval p.pipe p.pgm -o e.csv", ".pgm, .ppm, "), ("check p.pipe p.pgm -o c.png", "lines of text"),
                           ("plan p.pipe p.pgm -o c.json", ".txt and .svg"), ("--join p.pipe p.pgm -o c.pipe", "lines of text")):
            with self.subTest(line):
                self.refused(line, 1, f"writes no .{line.rpartition('.')[2]}; it writes {said}")
        self.refused("eval p.pipe p.pgm -o e.txt", 1, "writes a picture here")
        self.assertEqual(self.tf("eval p.pipe p.pgm --print -o e.txt"), (0, b"", ""))
        self.assertEqual(self.content("e.txt")[:12], b" 1  2  3  4\n")

    def test_folders(self):
        os.mkdir(f"{self.room}/made")
        self.refused("eval p.pipe p.pgm -o no/x.pgm", 4, "there is no folder no")
        self.refused("eval p.pipe p.pgm -o made", 4, "this is a folder")


def as_nobody(call) -> int:
    """The status of a process of another user that makes a call: 0 where it ends well."""
    child = os.fork()
    if not child:
        status = 1
        try:
            os.setgroups([])
            os.setgid(NOBODY)
            os.setuid(NOBODY)
            call()
            status = 0
        finally:
            os._exit(status)
    return os.waitstatus_to_exitcode(os.waitpid(child, 0)[1])


class StageFolders(InRoom):
    """--stages goes by the rules of -o."""

    def test_a_picture_that_is_read_is_kept(self):
        os.rename(f"{self.room}/p.pgm", f"{self.room}/I.png")
        self.refused("eval p.pipe I.png --stages .", 1, "I.png: the picture is read from this file, which --stages would replace")
        self.assertEqual(self.content("I.png"), GREY.encode())

    def test_what_is_there_from_another_maker_is_kept(self):
        os.mkdir(f"{self.room}/made")
        for name in ("index.html", "f.png"):
            self.write(f"made/{name}", b"mine")
            self.refused("eval p.pipe p.pgm --stages made", 1, f"made/{name}: it is there, and not as --stages made it")
            self.assertEqual((os.listdir(f"{self.room}/made"), self.content(f"made/{name}")), ([name], b"mine"))
            os.remove(f"{self.room}/made/{name}")
        self.write("other.png", b"other")
        os.symlink(f"{self.room}/other.png", f"{self.room}/made/f.png")
        self.refused("eval p.pipe p.pgm --stages made", 1, "made/f.png: it is there")
        self.assertEqual(self.content("other.png"), b"other")

    def test_what_it_made_itself_is_made_again(self):
        self.assertEqual(self.tf("eval p.pipe p.pgm --stages made"), (0, b"", ""))
        self.write("more.pgm", GREY.replace(" 255", " 99").replace("255", "99").encode())
        self.assertEqual(self.tf("eval p.pipe more.pgm --stages made"), (0, b"", ""))
        self.assertEqual(sorted(os.listdir(f"{self.room}/made")), ["I.png", "f.png", "index.html"])

    def test_what_was_changed_since_is_kept(self):
        for name in ("index.html", "f.png"):
            self.assertEqual(self.tf(f"eval p.pipe p.pgm --stages of-{name}"), (0, b"", ""))
            mine = self.content(f"of-{name}/{name}") + b"mine"
            self.write(f"of-{name}/{name}", mine)
            self.refused(f"eval p.pipe p.pgm --stages of-{name}", 1, "it is there, and not as --stages made it")
            self.assertEqual(self.content(f"of-{name}/{name}"), mine)

    def test_a_file_is_no_folder(self):
        self.refused("eval p.pipe p.pgm --stages p.pgm", 4, "p.pgm: this is a file; --stages wants a folder")
        self.refused("eval p.pipe p.pgm --stages p.pgm/more", 4, "Not a directory")

    def test_a_failure_leaves_nothing(self):
        self.write("p.pipe", COPY.replace("I(x, y);", "I(x, y) + ;").encode())
        self.assertNotEqual(self.tf("eval p.pipe p.pgm --stages made")[0], 0)
        self.assertFalse(os.path.exists(f"{self.room}/made"))

    def test_stages_of_several_pictures_are_refused(self):
        self.write("a.pgm", GREY.encode())
        self.refused("eval p.pipe p.pgm a.pgm --stages made -o {name}.png", 1, "--stages writes the stages of one picture")
