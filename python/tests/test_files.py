"""Nothing is destroyed: what is read is not written over, and what was there before is there after a failure. Every failure is seen."""
import contextlib
import errno
import gc
import os
import shlex
import shutil
import signal
import stat
import subprocess
import sys
import time
import unittest
import warnings
from unittest import mock

from lizardwire import Job, files, write_jobs
from lizardwire.files import Output, apart, take_away
from tests.support import ANSWER, JOB, PYTHON, SQUARE, Folder

BEFORE = "what was there before\n"
DRAWING = '<svg xmlns="http://www.w3.org/2000/svg"><rect width="9" height="9"/></svg>'


class Shell(Folder):
    """A test that runs lines of the shell in its folder; `lizardwire` is the package's command."""

    unbuffered = ""

    def shell(self, line, status=None):
        """Runs a line: its status, what it printed, what it said."""
        line = line.replace("lizardwire ", f"{shlex.quote(sys.executable)} -m lizardwire ")
        environment = {**os.environ, "PYTHONPATH": PYTHON, "PYTHONDONTWRITEBYTECODE": "1", "PYTHONUNBUFFERED": self.unbuffered}
        done = subprocess.run(["bash", "-c", line], cwd=self.folder, env=environment, capture_output=True, text=True)
        self.assertNotIn("Traceback", done.stderr, line)
        self.assertNotIn("Exception ignored", done.stderr, line)
        if status is not None:
            self.assertEqual(done.returncode, status, (line, done.stderr))
        return done.returncode, done.stdout, done.stderr

    def names(self):
        return sorted(os.listdir(self.folder))


class Over(Shell):
    """No output is an input."""

    def setUp(self):
        super().setUp()
        self.put("F", JOB + "\n")
        self.put("G", JOB + "\n")
        self.put("F.svg", DRAWING)
        self.put("names", "one\n")
        os.symlink("F", os.path.join(self.folder, "soft"))
        os.link(os.path.join(self.folder, "F"), os.path.join(self.folder, "hard"))

    def files(self):
        """Every file with what it holds."""
        return {name: self.get(name) for name in self.names()}

    def intact(self, line):
        before = self.files()
        status, out, said = self.shell(line)
        self.assertEqual((status, out), (2, ""), line)
        self.assertRegex(said, "^lizardwire: .* would be written (twice|while .* is read): nothing is done\n$", line)
        self.assertEqual(self.files(), before, line)

    def test_jobs(self):
        for line in ("F -o F", "F -o ./F", "F -o soft", "soft -o F", "F -o hard", "hard -o soft", "G F -o F", "-o F < F",
                     "- -o hard < soft", "/dev/stdin -o F < F", "F >> F", "< F >> F", "F -o - >> F", "F -o /dev/stdout >> F", "F 1<> F"):
            self.intact("lizardwire jobs " + line)

    def test_draw(self):
        for line in ("F.svg --inset 1 -o F.svg", "F.svg --inset 1 -o new --jobs F.svg", "F -o F", "F --words -o F", "F --in-place -o soft",
                     "F --jobs F", "F --jobs hard -o new", "F -o new --jobs new", "F -o new --jobs ./new", "F -o G --jobs G", "- -o F < F",
                     "F --names names -o names", "F --names names --jobs names", "F --answers G -o G", "F >> F", "F --words >> soft",
                     "F --jobs -", "F --jobs - > /dev/null", "F --jobs /dev/stdout", "F --jobs G >> G"):
            self.intact("lizardwire draw " + line)

    def test_what_the_shell_has_emptied(self):
        status, out, said = self.shell("lizardwire jobs F > F")
        self.assertEqual(status, 2)
        self.assertIn("standard output would be written while F, the same file, is read", said)

    def test_standard_error(self):
        """What is read is not written with hints and reasons: there is a status, and no line."""
        self.put("crlf", JOB + "\r\n")
        before = self.files()
        for line in ("jobs crlf 2>> crlf", "jobs < crlf 2>> crlf", "jobs F crlf 2>> crlf", "jobs crlf none 2>> crlf", "draw crlf 2>> crlf",
                     "jobs crlf -o new 2>> crlf", "jobs soft 2>> hard", "draw F --names names 2>> names"):
            self.assertEqual(self.shell("lizardwire " + line), (2, "", ""), line)
            self.assertEqual(self.files(), before, line)
        self.assertEqual(self.shell("lizardwire jobs F 2< F"), (0, ANSWER + "\n", ""))
        self.assertEqual(self.shell("lizardwire jobs F 2>> G"), (0, ANSWER + "\n", ""))

    def test_devices_are_no_files(self):
        self.assertEqual(self.shell("lizardwire jobs /dev/null -o /dev/null"), (0, "", ""))
        self.assertEqual(self.shell("lizardwire jobs F -o /dev/null"), (0, "", ""))
        self.assertEqual(self.shell("cat F | lizardwire jobs -o /dev/stdout | cat"), (0, ANSWER + "\n", ""))

    def test_disks(self):
        """A disk that is read is not written, by whichever name: its number tells it. No other device is kept from it."""
        def found(number, kind=stat.S_IFBLK):
            return mock.Mock(st_mode=kind | 0o660, st_dev=5, st_ino=number, st_rdev=number % 100)

        disks = {"/dev/one": found(101), "/dev/by-name": found(201), "/dev/two": found(102), "/dev/tty": found(301, stat.S_IFCHR)}
        with mock.patch("os.stat", side_effect=disks.__getitem__):
            for inputs, outputs in ((["/dev/one"], ["/dev/one"]), (["/dev/one"], ["/dev/by-name"]), ([], ["/dev/one", "/dev/by-name"])):
                with self.assertRaisesRegex(ValueError, "nothing is done"):
                    apart(inputs, outputs)
            for inputs, outputs in ((["/dev/one"], ["/dev/two"]), (["/dev/one"], ["/dev/tty"]), (["/dev/tty"], ["/dev/tty"])):
                apart(inputs, outputs)

    def test_by_name(self):
        here = os.path.join(self.folder, "F")
        apart([here], [os.path.join(self.folder, "G"), None])
        apart([], [None])
        for inputs, outputs in (([here], [here]), ([], [None, None]), ([], [here, here]), ([here, None], [None, here])):
            with self.assertRaises(ValueError):
                apart(inputs, outputs)


class Beside(Shell):
    """A file is written beside itself, and put in place at the end."""

    def setUp(self):
        super().setUp()
        self.put("F", JOB + "\n")

    def test_a_failure_leaves_what_was_there(self):
        self.put("out", BEFORE)
        # A file that cannot be read to its end; a library that is missing; a picture that has no room on its device.
        for line in ("lizardwire jobs F /proc/self/mem -o out", "LIZARDWIRE_LIBRARY=/none lizardwire jobs F -o out",
                     "LIZARDWIRE_LIBRARY=/none lizardwire draw F -o out", "lizardwire draw F --jobs out -o /dev/full",
                     "lizardwire draw F --jobs out > /dev/full", "lizardwire draw F --jobs out -o none/there",
                     "ulimit -f 0; trap '' XFSZ; lizardwire jobs F -o out"):
            status, printed, said = self.shell(line, 2)
            self.assertEqual((printed, self.get("out")), ("", BEFORE), line)
            self.assertEqual(said.count("lizardwire: "), 1, said)
            self.assertEqual(self.names(), ["F", "out"], line)

    def test_links_and_modes(self):
        self.put("out", BEFORE)
        os.chmod(os.path.join(self.folder, "out"), 0o640)
        os.mkdir(os.path.join(self.folder, "deep"))
        os.symlink("../out", os.path.join(self.folder, "deep", "link"))
        os.symlink("../new", os.path.join(self.folder, "deep", "dangling"))
        self.shell("umask 027; lizardwire jobs F -o deep/link && lizardwire jobs F -o deep/dangling && lizardwire jobs F -o other", 0)
        for name, mode in (("out", 0o640), ("new", 0o640), ("other", 0o640)):
            self.assertEqual(self.get(name), ANSWER + "\n")
            self.assertEqual(stat.S_IMODE(os.stat(os.path.join(self.folder, name)).st_mode), mode, name)
        self.assertTrue(os.path.islink(os.path.join(self.folder, "deep", "link")))
        os.chmod(os.path.join(self.folder, "out"), 0o755)
        self.shell("lizardwire draw F -o out", 0)
        self.assertEqual(stat.S_IMODE(os.stat(os.path.join(self.folder, "out")).st_mode), 0o755)
        self.assertEqual(self.names(), ["F", "deep", "new", "other", "out"])

    @unittest.skipIf(os.geteuid() != 0, "only the superuser gives files away")
    def test_the_owner_is_kept(self):
        path = self.put("out", BEFORE)
        os.chown(path, 65534, 65533)
        with Output(path) as out:
            out.write(b"new\n")
        found = os.stat(path)
        self.assertEqual((self.get("out"), found.st_uid, found.st_gid), ("new\n", 65534, 65533))

    def test_the_group_is_kept(self):
        """Where the owner may not be kept, the group may; where that may not, either, the file is written all the same."""
        path = self.put("out", BEFORE)
        before = os.stat(path)
        for allowed in (-1, None):
            asked = []

            def fchown(_, user, group, allowed=allowed, asked=asked):
                asked.append((user, group))
                if user != allowed:
                    raise PermissionError(errno.EPERM, "Operation not permitted")

            with mock.patch("os.fchown", side_effect=fchown), Output(path) as out:
                out.write(b"new\n")
            self.assertEqual((self.get("out"), asked), ("new\n", [(before.st_uid, before.st_gid), (-1, before.st_gid)]))

    def test_nobody_reads_it_before_it_is_there(self):
        """What replaces a file is its writer's alone until it has the owner and the mode of that; a set-id bit it does not get."""
        path, modes = self.put("out", BEFORE), []
        os.chmod(path, 0o4750)
        self.addCleanup(os.umask, os.umask(0))
        with mock.patch("os.fchown", side_effect=lambda file, *_: modes.append(stat.S_IMODE(os.fstat(file).st_mode))):
            with Output(path) as out:
                out.write(b"new\n")
        self.assertEqual((modes, stat.S_IMODE(os.stat(path).st_mode)), ([0o600], 0o750))

    def test_a_system_without_modes(self):
        path = self.put("out", BEFORE)
        with mock.patch("os.fchmod", side_effect=PermissionError(errno.EPERM, "Operation not permitted")), Output(path) as out:
            out.write(b"new\n")
        self.assertEqual((self.get("out"), self.names()), ("new\n", ["F", "out"]))

    def test_a_fifo_is_written_as_it_is(self):
        os.mkfifo(os.path.join(self.folder, "pipe"))
        self.assertEqual(self.shell("cat pipe & lizardwire jobs F -o pipe; wait", 0)[1], ANSWER + "\n")
        self.assertTrue(stat.S_ISFIFO(os.stat(os.path.join(self.folder, "pipe")).st_mode))

    @unittest.skipIf(os.geteuid() == 0, "nothing is denied to the superuser")
    def test_what_may_not_be_written(self):
        self.put("out", BEFORE)
        os.chmod(os.path.join(self.folder, "out"), 0o444)
        self.assertIn("out: Permission denied", self.shell("lizardwire jobs F -o out", 2)[2])
        self.assertEqual(self.get("out"), BEFORE)

    def test_what_may_not_be_written_is_asked(self):
        self.put("out", BEFORE)
        with mock.patch("os.access", return_value=False), self.assertRaises(PermissionError):
            with Output(os.path.join(self.folder, "out")):
                self.fail("it may not be written")
        self.assertEqual((self.get("out"), self.names()), (BEFORE, ["F", "out"]))

    def test_what_the_device_did_not_keep(self):
        path = self.put("out", BEFORE)
        broken = OSError(errno.EIO, "Input/output error")
        with mock.patch("os.fsync", side_effect=broken), self.assertRaisesRegex(OSError, "error: '.*out'"):
            with Output(path) as out:
                out.write(b"new\n")
        self.assertEqual((self.get("out"), self.names()), (BEFORE, ["F", "out"]))

    def test_a_device_that_cannot_say(self):
        for number in (errno.EINVAL, errno.ENOTSUP):
            path = self.put("out", BEFORE)
            with mock.patch("os.fsync", side_effect=OSError(number, os.strerror(number))), Output(path) as out:
                out.write(b"new\n")
            self.assertEqual((self.get("out"), self.names()), ("new\n", ["F", "out"]))

    def test_a_folder(self):
        os.mkdir(os.path.join(self.folder, "out"))
        self.assertIn("Is a directory", self.shell("lizardwire jobs F -o out", 2)[2])
        self.assertIn("No such file or directory", self.shell("lizardwire jobs F -o none/out", 2)[2])
        self.assertIn("Is a directory", self.shell("lizardwire jobs F -o new/", 2)[2])
        self.assertEqual(self.names(), ["F", "out"])

    def until(self, count):
        """Waits until the folder has so many files."""
        for _ in range(2000):
            if len(self.names()) >= count:
                return
            time.sleep(0.01)
        self.fail(f"no more than {self.names()}")

    def test_a_signal(self):
        self.put("out", BEFORE)
        environment = {**os.environ, "PYTHONPATH": PYTHON}
        words = [sys.executable, "-m", "lizardwire", "jobs", "-o", "out"]
        for number in (signal.SIGTERM, signal.SIGINT, signal.SIGHUP, signal.SIGUSR1, signal.SIGXCPU):
            with subprocess.Popen(words, cwd=self.folder, stdin=subprocess.PIPE, stderr=subprocess.PIPE, env=environment) as child:
                child.stdin.write(JOB.encode() + b"\n")
                child.stdin.flush()
                self.until(3)
                child.send_signal(number)
                self.assertEqual((child.wait(), child.stderr.read()), (128 + number, b""))
            self.assertEqual((self.names(), self.get("out")), (["F", "out"], BEFORE))

    def test_stopped_at_every_line(self):
        """A signal can come anywhere: what is there afterwards is what was there before, or all that is new."""
        path, ends, line = self.put("out", BEFORE), set(), 0
        with warnings.catch_warnings():
            warnings.simplefilter("ignore", ResourceWarning)  # what is stopped closes nothing
            while self.stopped_at(line, path):
                take_away()
                ends.add(self.get("out"))
                self.assertEqual(self.names(), ["F", "out"], line)
                self.put("out", BEFORE)
                line += 1
            gc.collect()
        self.assertGreater(line, 40)
        self.assertEqual(ends, {BEFORE, "new\n"})
        self.assertEqual((self.get("out"), self.names()), ("new\n", ["F", "out"]))

    def stopped_at(self, count, path):
        """Writes a file, and stops at that line of the code for files and for `with`; whether it came so far."""
        left = [count]

        def trace(frame, event, _):
            if frame.f_code.co_filename not in (files.__file__, contextlib.__file__):
                return None
            if event == "line":
                if not left[0]:
                    raise SystemExit(143)
                left[0] -= 1
            return trace

        before = sys.gettrace()
        try:
            sys.settrace(trace)
            with contextlib.ExitStack() as stack:
                stack.enter_context(Output(path)).write(b"new\n")
            return False
        except SystemExit:
            return True
        finally:
            sys.settrace(before)

    def test_another_process(self):
        """A process takes away what is its own, and not what the one that it comes from is writing."""
        path = os.path.join(self.folder, "new")
        with Output(path) as out:
            with mock.patch("os.getpid", return_value=os.getpid() + 1):
                take_away()
            out.write(b"new\n")
        self.assertEqual((self.get("new"), self.names()), ("new\n", ["F", "new"]))

    def test_a_folder_that_keeps_files(self):
        """As /tmp does: a file is its owner's to replace. Told before anything is read."""
        path = self.put("out", BEFORE)
        os.chmod(self.folder, 0o1777)
        os.chmod(path, 0o666)
        with mock.patch("os.geteuid", return_value=os.geteuid() + 1), mock.patch("os.access", return_value=True):
            with self.assertRaisesRegex(PermissionError, "only its owner may replace it in this folder"):
                with Output(path):
                    self.fail("it may not be replaced")
            os.chmod(self.folder, 0o777)
            with Output(path) as out:
                out.write(b"new\n")
        self.assertEqual((self.get("out"), self.names()), ("new\n", ["F", "out"]))

    @unittest.skipIf(os.geteuid() != 0 or not shutil.which("setpriv"), "another user is needed, and setpriv")
    def test_a_folder_that_keeps_files_from_another_user(self):
        path, another = self.put("out", BEFORE), "setpriv --reuid 65534 --clear-groups "
        os.chmod(self.folder, 0o1777)
        os.chmod(path, 0o666)
        if self.shell(another + "lizardwire jobs F")[:2] != (0, ANSWER + "\n"):
            self.skipTest("another user cannot read this folder")
        status, out, said = self.shell(another + "lizardwire jobs F -o out")
        self.assertEqual((status, out), (2, ""))
        self.assertEqual(said, "lizardwire: out: only its owner may replace it in this folder; standard output can be led there instead\n")
        self.assertEqual((self.get("out"), self.names()), (BEFORE, ["F", "out"]))

    def test_a_signal_that_is_not_heeded(self):
        """As under nohup: a terminal that goes away ends nothing."""
        line = f"trap '' HUP; exec '{sys.executable}' -m lizardwire jobs -o out"
        environment = {**os.environ, "PYTHONPATH": PYTHON}
        with subprocess.Popen(["bash", "-c", line], cwd=self.folder, stdin=subprocess.PIPE, env=environment) as child:
            child.stdin.write(JOB.encode())
            child.stdin.flush()
            self.until(2)
            child.send_signal(signal.SIGHUP)
            child.stdin.close()
            self.assertEqual(child.wait(), 0)
        self.assertEqual(self.get("out"), ANSWER + "\n")

    def test_write_jobs(self):
        path = self.put("out", BEFORE)
        jobs = [Job.of("inset", 1, SQUARE), Job.of("inset", 1, [(0.0, float(k)) for k in range(600)])]
        with self.assertRaises(ValueError):
            write_jobs(path, jobs)
        self.assertEqual(self.get("out"), BEFORE)
        write_jobs(path, jobs[:1])
        self.assertEqual((self.get("out"), self.names()), (JOB + "\n", ["F", "out"]))


class OpenAlready(Shell):
    """What is open already is written where it stands: what is there stays, and nothing is lost."""

    def setUp(self):
        super().setUp()
        self.put("F", JOB + "\n")
        self.put("log", BEFORE)

    def wrote(self, line, *files):
        """Runs a line that prints nothing; the files have what was there and what is asked for, and no other is there."""
        self.assertEqual(self.shell(line), (0, "", ""), line)
        for name in files:
            self.assertEqual(self.get(name), BEFORE + ANSWER + "\n", line)
        self.assertEqual(self.names(), sorted({"F", "log", *files}), line)
        self.put("log", BEFORE)

    def test_names_of_descriptors(self):
        for line in ("-o /dev/stdout >> log", "-o /dev/stderr 2>> log", "-o /dev/fd/3 3>> log", "-o /proc/self/fd/7 7>> log",
                     "-o /dev/fd/1 >> log", "-o /proc/thread-self/fd/1 >> log", "-o - >> log"):
            self.wrote("lizardwire jobs F " + line, "log")
        os.symlink("/dev/stdout", os.path.join(self.folder, "link"))
        self.assertEqual(self.shell("lizardwire jobs F -o link >> log"), (0, "", ""))
        self.assertEqual((self.get("log"), self.names()), (BEFORE + ANSWER + "\n", ["F", "link", "log"]))

    def test_where_it_stands(self):
        line = "{ echo before; lizardwire jobs F -o /dev/stdout; lizardwire jobs F -o /dev/stdout; } > two"
        self.assertEqual(self.shell(line), (0, "", ""))
        self.assertEqual((self.get("two"), self.names()), (f"before\n{ANSWER}\n{ANSWER}\n", ["F", "log", "two"]))

    def test_drawings(self):
        status, words, _ = self.shell("lizardwire draw F --words")
        self.shell("lizardwire draw F --words -o /dev/stdout >> log", 0)
        self.assertEqual((self.get("log"), self.names()), (BEFORE + words, ["F", "log"]))
        self.shell("lizardwire draw F --words -o /dev/fd/4 --jobs /dev/fd/3 3> three 4> four", 0)
        self.assertEqual((self.get("three"), self.get("four"), self.names()), (JOB + "\n", words, ["F", "four", "log", "three"]))

    def test_what_has_no_name(self):
        line = "exec 3<> gone; rm gone; lizardwire jobs F -o /dev/fd/3 && cat /proc/self/fd/3"
        self.assertEqual((self.shell(line), self.names()), ((0, ANSWER + "\n", ""), ["F", "log"]))
        with open(os.memfd_create("answers"), "w+b") as file:
            words = [sys.executable, "-m", "lizardwire", "jobs", "F", "-o", f"/dev/fd/{file.fileno()}"]
            environment = {**os.environ, "PYTHONPATH": PYTHON}
            self.assertEqual(subprocess.run(words, cwd=self.folder, env=environment, pass_fds=[file.fileno()]).returncode, 0)
            file.seek(0)
            self.assertEqual(file.read().decode(), ANSWER + "\n")
        self.assertFalse(os.path.exists("/memfd:answers (deleted)"))

    def test_another_program(self):
        self.wrote("exec 3>> log; lizardwire jobs F -o /proc/$$/fd/3 3>&-", "log")

    def test_what_is_not_open(self):
        for line in ("jobs F -o /dev/fd/9", "draw F --jobs new -o /dev/fd/3", "jobs F -o /dev/stdout >&-", "draw F --jobs /dev/fd/3 -o new",
                     "jobs F -o /dev/stdin < /dev/null", "jobs F -o /dev/fd/4 4< log"):
            status, out, said = self.shell("lizardwire " + line)
            self.assertEqual((status, out), (2, ""), line)
            self.assertRegex(said, r"^lizardwire: /dev/\S+: Bad file descriptor\n$", line)
            self.assertEqual((self.get("log"), self.names()), (BEFORE, ["F", "log"]), line)

    def test_a_reader_that_leaves(self):
        self.put("many", (JOB + "\n") * 3000)
        self.assertEqual(self.shell("set -o pipefail; lizardwire jobs many -o /dev/stdout | head -n 1"), (1, ANSWER + "\n", ""))

    def test_links_in_a_ring(self):
        os.symlink("one", os.path.join(self.folder, "two"))
        os.symlink("two", os.path.join(self.folder, "one"))
        self.assertIn("one: Too many levels of symbolic links", self.shell("lizardwire jobs F -o one", 2)[2])

    def test_through_the_system(self):
        """A folder that is named by the system: the file there is put in place as any other."""
        self.put("out", BEFORE)
        for name in ("out", "new"):
            self.assertEqual(self.shell(f"lizardwire jobs F -o /proc/self/cwd/{name}"), (0, "", ""))
            self.assertEqual(self.get(name), ANSWER + "\n")
        self.assertEqual(self.names(), ["F", "log", "new", "out"])


class Seen(Shell):
    """A failed write has a line and a status, and no traceback."""

    def setUp(self):
        super().setUp()
        self.put("F", JOB + "\n")
        self.put("F.svg", DRAWING)

    LINES = ("lizardwire jobs F", "lizardwire jobs < F", "lizardwire draw F", "lizardwire draw F --words", "lizardwire draw F --in-place",
             "lizardwire draw F.svg --inset 1", 'lizardwire inset 1 "0,0 4,0 4,4 0,4"', 'lizardwire outset 1 "0,0 4,0 4,4 0,4"',
             'lizardwire clearance "0,0 4,0 4,4" "9,0 9,1 8,1"', "lizardwire --version")

    def test_a_full_device(self):
        for line in self.LINES + ("lizardwire --help", "lizardwire jobs --help"):
            self.assertEqual(self.shell(line + " > /dev/full"), (2, "", "lizardwire: standard output: No space left on device\n"), line)
        for line in ("lizardwire jobs F -o /dev/full", "lizardwire draw F -o /dev/full", "lizardwire draw F --jobs /dev/full -o new"):
            self.assertEqual(self.shell(line), (2, "", "lizardwire: /dev/full: No space left on device\n"), line)
        self.assertEqual(self.names(), ["F", "F.svg"])

    def test_a_part_is_written(self):
        """The system takes what there is room for and tells it by a count: here 1,024 bytes of more."""
        self.put("many", (JOB + "\n") * 20)
        for line in ("lizardwire draw F", "lizardwire jobs many"):
            self.assertEqual(self.shell(f"ulimit -f 1; trap '' XFSZ; {line} > out"),
                             (2, "", "lizardwire: standard output: File too large\n"), line)

    def test_pipes_that_do_not_wait(self):
        """What is not there yet is waited for; what has no room is told."""
        self.put("many", (JOB + "\n") * 3000)
        words = [sys.executable, "-m", "lizardwire", "jobs"]
        more = {"cwd": self.folder, "env": {**os.environ, "PYTHONPATH": PYTHON, "PYTHONUNBUFFERED": self.unbuffered}}
        inner, outer = os.pipe()
        os.set_blocking(inner, False)
        with subprocess.Popen(words, stdin=inner, stdout=subprocess.PIPE, **more) as child:
            os.close(inner)
            time.sleep(0.5)
            with open(outer, "wb") as file:
                file.write(JOB.encode())
            self.assertEqual((child.stdout.read().decode(), child.wait()), (ANSWER + "\n", 0))
        inner, outer = os.pipe()
        os.set_blocking(outer, False)
        done = subprocess.run([*words, "many"], stdout=outer, stderr=subprocess.PIPE, **more)
        os.close(inner)
        os.close(outer)
        self.assertEqual((done.returncode, done.stderr.count(b"\n")), (2, 1))
        self.assertRegex(done.stderr, rb"^lizardwire: standard output: (Resource temporarily unavailable|.* without blocking)\n$")

    def test_a_closed_output(self):
        for line in self.LINES:
            self.assertEqual(self.shell(line + " >&-"), (2, "", "lizardwire: standard output: Bad file descriptor\n"), line)
        self.assertEqual(self.shell("lizardwire jobs F -o new >&-"), (0, "", ""))
        self.assertEqual(self.get("new"), ANSWER + "\n")

    def test_a_closed_input(self):
        for line in ("lizardwire jobs <&-", "lizardwire draw - <&-"):
            self.assertEqual(self.shell(line), (2, "", "lizardwire: standard input: Bad file descriptor\n"), line)
        self.assertEqual(self.shell("lizardwire jobs F <&-"), (0, ANSWER + "\n", ""))

    def test_standard_error_need_not_be_there(self):
        for line in ("lizardwire jobs none 2>&-", "lizardwire jobs none 2> /dev/full", "lizardwire jobs F > /dev/full 2>&-"):
            self.assertEqual(self.shell(line), (2, "", ""), line)
        self.put("crlf", JOB + "\r\n")
        self.assertEqual(self.shell("lizardwire jobs crlf 2>&-"), (0, "no,22\n", ""))

    def test_what_follows_is_not_run(self):
        self.assertNotIn("next", self.shell("lizardwire jobs F > /dev/full && echo next")[1])

    def test_a_reader_that_leaves(self):
        self.put("many", (JOB + "\n") * 3000)
        status, out, said = self.shell("set -o pipefail; lizardwire jobs many | head -n 1")
        self.assertEqual((status, out, said), (1, ANSWER + "\n", ""))


class SeenUnbuffered(Seen):
    """The same under python -u."""

    unbuffered = "1"


if __name__ == "__main__":
    unittest.main()
