"""The command line."""
import io
import itertools
import os
import pty
import re
import shutil
import subprocess
import sys
import time
import unittest
import xml.etree.ElementTree as ElementTree
from unittest import mock

from lizardwire import Job, __version__, progress, version
from lizardwire.__main__ import Watch, size_of
from tests.support import ANSWER, COLLAR, JOB, PYTHON, SLEEVE, TOP, Folder, run

DRAWING = """<svg xmlns="http://www.w3.org/2000/svg">
<polygon id="tail" points="0,0 9,0 9,9 0,9"/><circle id="eye" r="3"/><path id="bow" d="M0 0L4 4L4 0L0 2z"/></svg>"""


class Draw(Folder):
    def test_jobs(self):
        status, out, said = run("draw", self.put("a.jobs", JOB + "\n\n"))
        self.assertEqual((status, said), (0, ""))
        text = "".join(ElementTree.fromstring(out).itertext())
        for words in ("job 1", "cage of 4 vertices", "job 2", "no, 22: this is not a job line"):
            self.assertIn(words, text)

    def test_drawing(self):
        out, jobs = os.path.join(self.folder, "out.svg"), os.path.join(self.folder, "out.jobs")
        status, printed, said = run("draw", self.put("a.svg", DRAWING), "--inset", "1", "-o", out, "--jobs", jobs)
        self.assertEqual((status, printed), (1, b""))
        self.assertEqual(said, "lizardwire: circle 'eye' is not read: it is round\n")
        self.assertIn("edge 0 crosses edge 2", self.get("out.svg"))
        lines = self.get("out.jobs").splitlines()
        self.assertEqual([Job.read(line).rings[0][1] for line in lines], [(9, 0), (4, 4)])
        status, printed, _ = run("draw", jobs, "--words", "--names", self.put("names", "tail\nbow\n"))
        self.assertEqual((status, printed.decode().split()[0]), (0, "tail"))

    def test_an_outline_without_a_job_line(self):
        """It is told and has a status; the others are written."""
        long = '<path id="long" d="M0 0' + "h1v1" * 600 + 'V900"/>'
        jobs = os.path.join(self.folder, "out.jobs")
        status, _, said = run("draw", self.put("a.svg", f'<svg>{long}<rect width="4" height="4"/></svg>'), "--inset", "1", "--jobs", jobs)
        self.assertEqual((status, said), (1, "lizardwire: long has no job line: 1202 vertices are too many for a job line\n"))
        self.assertEqual(self.get("out.jobs"), JOB + "\n")

    def test_the_lizard(self):
        status, out, said = run("draw", os.path.join(TOP, "docs", "lizard.svg"), "--inset", "4")
        self.assertEqual((status, said), (0, ""))
        with open(os.path.join(TOP, "docs", "lizard-cages.svg"), "rb") as stream:
            self.assertEqual(out, stream.read())

    def test_in_place(self):
        status, out, said = run("draw", os.path.join(TOP, "docs", "lizard.svg"), "--inset", "4", "--in-place")
        self.assertEqual((status, out.count(b'class="cage"')), (0, 4))
        self.assertEqual(said.splitlines(), ["lizardwire: other hind leg: no, 9: edge 2 crosses edge 4",
                                             "lizardwire: other foreleg: no, 16: nothing is left: the margin 4 is too wide"])

    def test_standard_input(self):
        status, out, _ = run("draw", "-", given=JOB.encode())
        self.assertEqual((status, out.startswith(b"<svg")), (0, True))

    def test_answers_are_drawn_without_the_library(self):
        words = ["draw", os.path.join(TOP, "docs", "sample.jobs"), "--answers", os.path.join(TOP, "docs", "sample.values"),
                 "--names", os.path.join(TOP, "docs", "sample.names")]
        status, out, said = run(*words, LIZARDWIRE_LIBRARY="/no/such/file")
        self.assertEqual((status, said), (0, ""))
        with open(os.path.join(TOP, "docs", "cage.svg"), "rb") as stream:
            self.assertEqual(out, stream.read())

    def test_most(self):
        """What the user cuts is cut; a picture that is cut by itself is not all that was asked for."""
        jobs, many = self.put("a.jobs", (JOB + "\n") * 5), self.put("many.jobs", (JOB + "\n") * 61)
        status, out, said = run("draw", jobs, "--words", "--most", "2")
        self.assertEqual((status, len(out.splitlines())), (0, 2))
        self.assertEqual(said, "lizardwire: the first 2 of 5 outlines are told; --most changes that\n")
        for words, status, drawn, cut in (([], 1, 60, True), (["--most", "60"], 0, 60, True), (["--most", "61"], 0, 61, False),
                                          (["--in-place"], 0, 61, False), (["--in-place", "--most", "3"], 0, 3, True)):
            done, out, said = run("draw", many, *words)
            found = len(re.findall(r'class="cage" d="M[^h]*Z"', out.decode()))
            self.assertEqual((done, found, "outlines are drawn; --most changes that" in said), (status, drawn, cut), words)
        done, out, said = run("draw", many, "--words")
        self.assertEqual((done, len(out.splitlines()), said), (0, 61, ""))

    def test_counts_of_the_command_line(self):
        jobs = self.put("a.jobs", JOB)
        for words in (["--most", "0"], ["--most", "-1"], ["--columns", "0"], ["--columns", "two"], ["--columns", "9" * 400]):
            status, out, said = run("draw", jobs, *words)
            self.assertEqual((status, out), (2, b""))
            self.assertIn(f"argument {words[0]}: invalid count value", said)

    def test_an_empty_name(self):
        """As of a variable of the shell that is not set."""
        drawing = self.put("a.svg", DRAWING)
        for words in (["jobs", ""], ["jobs", drawing, "-o", ""], ["draw", ""], *(["draw", drawing, "--inset", "1", option, ""]
                                                                                 for option in ("-o", "--jobs", "--names", "--answers"))):
            self.assertEqual(run(*words), (2, b"", "lizardwire: the name of a file is empty: nothing is done\n"), words)

    def test_nothing_is_done(self):
        drawing, jobs = self.put("a.svg", DRAWING), self.put("a.jobs", JOB)
        for words, why in (
                (["draw", drawing], "a drawing has no distance"),
                (["draw", jobs, "--inset", "1"], "job lines have their own"),
                (["draw", os.path.join(self.folder, "none")], "no file"),
                (["draw", self.folder], "Is a directory"),
                (["draw", self.put("empty", "")], "there is no job"),
                (["draw", self.put("b.svg", "<svg"), "--inset", "1"], "this is not an SVG file"),
                (["draw", self.put("c.svg", '<svg xmlns="http://www.w3.org/2000/svg"/>'), "--inset", "1"], "no outline that can be read"),
                (["draw", jobs, "--names", self.put("names", "a\nb\n")], "1 outlines, but 2 names"),
                (["draw", jobs, "--answers", self.put("answers", "maybe\n")], "not an answer line")):
            status, out, said = run(*words)
            self.assertEqual((status, out), (2, b""), words)
            self.assertIn(why, said)
            self.assertNotIn("Traceback", said)


class Jobs(Folder):
    def test_files_and_standard_input(self):
        lines = (JOB + "\nnonsense\n" + JOB).encode()
        wanted = (ANSWER + "\nno,22\n" + ANSWER + "\n").encode()
        self.assertEqual(run("jobs", given=lines), (0, wanted, ""))
        path = self.put("a.jobs", lines)
        self.assertEqual(run("jobs", path), (0, wanted, ""))
        self.assertEqual(run("jobs", path, "-", given=lines)[1], wanted * 2)
        self.assertEqual(run("jobs", path, "-o", os.path.join(self.folder, "out"))[1], b"")
        self.assertEqual(self.get("out").encode(), wanted)
        self.assertEqual(run("jobs", given=b""), (0, b"", ""))
        self.assertEqual(run("jobs", path, "-o", "-"), (0, wanted, ""))

    def test_lines_of_two_files_never_join(self):
        half, rest = self.put("a", JOB[:50]), self.put("b", JOB[50:])
        self.assertEqual(run("jobs", half, rest), (0, b"no,22\nno,22\n", ""))
        whole = self.put("c", JOB)
        self.assertEqual(run("jobs", whole, self.put("empty", ""), whole), (0, (ANSWER + "\n").encode() * 2, ""))

    def test_pipes(self):
        fifo = os.path.join(self.folder, "pipe")
        os.mkfifo(fifo)
        path, line = self.put("a.jobs", JOB), (ANSWER + "\n").encode()
        shell = (f"cat '{path}' > '{fifo}' & '{sys.executable}' -m lizardwire jobs '{fifo}' '{path}' /dev/stdin < '{path}'")
        done = subprocess.run(shell, shell=True, capture_output=True, env={**os.environ, "PYTHONPATH": PYTHON})
        self.assertEqual((done.returncode, done.stdout, done.stderr), (0, line * 3, b""))
        command = f"'{sys.executable}' -m lizardwire"
        shell = f"{command} jobs <(cat '{path}') <(echo no job) && {command} draw <(cat '{path}') --words"
        done = subprocess.run(["bash", "-c", shell], capture_output=True, env={**os.environ, "PYTHONPATH": PYTHON})
        self.assertEqual((done.returncode, done.stderr), (0, b""))
        self.assertEqual(done.stdout, line + b"no,22\njob 1        inset 1        cage of 4 vertices\n")

    def test_answers_do_not_wait(self):
        """A line that is complete is answered before the next one comes."""
        words = [sys.executable, "-m", "lizardwire", "jobs"]
        environment = {**os.environ, "PYTHONPATH": PYTHON}
        with subprocess.Popen(words, stdin=subprocess.PIPE, stdout=subprocess.PIPE, env=environment) as child:
            for _ in range(3):
                child.stdin.write((JOB + "\n" + JOB[:9]).encode())
                child.stdin.flush()
                self.assertEqual(child.stdout.readline(), (ANSWER + "\n").encode())
                child.stdin.write(JOB[9:].encode() + b"\n")
                child.stdin.flush()
                self.assertEqual(child.stdout.readline(), (ANSWER + "\n").encode())
            child.stdin.close()
            self.assertEqual((child.stdout.read(), child.wait()), (b"", 0))

    def test_files_of_other_systems(self):
        """The answers stay what they are; a hint, once a file, says why."""
        hint = "lizardwire: {}: lines end in CR LF, and a job line ends in LF alone: take the CRs away with  tr -d '\\r'\n"
        path = self.put("a.jobs", (JOB + "\r\n") * 300)
        self.assertEqual(run("jobs", path, path), (0, b"no,22\n" * 600, hint.format(path) * 2))
        self.assertEqual(run("jobs", given=(JOB + "\r\n").encode()), (0, b"no,22\n", hint.format("standard input")))
        status, out, said = run("draw", path, "--words")
        self.assertEqual((status, len(out.splitlines()), said), (0, 300, hint.format(path)))
        mark = self.put("b.jobs", b"\xef\xbb\xbf" + JOB.encode())
        for words in (["jobs"], ["draw", "--words"]):
            status, out, said = run(*words, mark)
            self.assertEqual((status, said.count("\n")), (0, 1))
            self.assertIn("a byte-order mark stands before the first line", said)

    def test_hints_of_blocks_that_are_cut_anywhere(self):
        data = b"\xef\xbb\xbf" + (JOB + "\r\n").encode()
        for cut in range(len(data)):
            watch = Watch("a.jobs")
            hints = [hint for block in (data[:cut], data[cut:]) for hint in watch.hints(block)]
            self.assertEqual([" CR " in hint for hint in hints], [False, True], cut)
        watch = Watch(None)
        self.assertEqual([watch.hints(bytes([byte])) for byte in b"\r \n\n\xef\xbb\xbf\r"], [[]] * 8)

    def test_how_much_there_is_to_read(self):
        path = self.put("a.jobs", JOB)
        self.assertEqual((size_of([path, path]), size_of([path, None]), size_of(["/dev/null"])), (2 * len(JOB), None, None))

    def test_no_such_file(self):
        status, out, said = run("jobs", self.put("a.jobs", JOB), "/no/such/file")
        self.assertEqual((status, out, said), (2, b"", "lizardwire: no file /no/such/file\n"))
        status, out, said = run("jobs", self.put("a.jobs", JOB), self.folder)
        self.assertEqual((status, out, said), (2, b"", f"lizardwire: {self.folder}: Is a directory\n"))

    def test_a_reader_that_leaves(self):
        path = self.put("a.jobs", (JOB + "\n") * 3000)
        command = f"'{sys.executable}' -m lizardwire jobs '{path}' 2> '{self.folder}/said' | head -n 1"
        with os.popen(f"PYTHONPATH='{PYTHON}' {command}") as out:
            self.assertEqual(out.read(), ANSWER + "\n")
        self.assertEqual(self.get("said"), "")


class Spread(Folder):
    """A job file cut between its lines, the parts answered side by side: the README's lines keep the order."""

    def setUp(self):
        super().setUp()
        squares = [Job.of("inset", 1, [(0, 0), (4 + k, 0), (4 + k, 4), (0, 4)]) for k in range(200)]
        self.wanted = "".join(job.answer().line() + "\n" for job in squares)
        self.put("jobs.txt", "".join(job.line() + "\n" for job in squares))

    def shell(self, line):
        """What the line puts into answers.txt."""
        line = line.replace("python3", f"'{sys.executable}'")
        subprocess.run(line, shell=True, check=True, cwd=self.folder, env={**os.environ, "PYTHONPATH": PYTHON})
        return self.get("answers.txt")

    @unittest.skipUnless(shutil.which("split") and shutil.which("xargs"), "no split or xargs here")
    def test_split_and_xargs(self):
        line = ("split -n l/4 -d jobs.txt part. && ls part.?? | xargs -P 4 -I{} python3 -m lizardwire jobs {} -o {}.out"
                " && cat part.??.out > answers.txt")
        self.assertEqual(self.shell(line), self.wanted)

    @unittest.skipUnless(shutil.which("parallel"), "no GNU parallel here")
    def test_parallel(self):
        line = "parallel --pipe --keep-order --block 4k python3 -m lizardwire jobs < jobs.txt > answers.txt"
        self.assertEqual(self.shell(line), self.wanted)


class Progress(Folder):
    """It shows on a terminal, and nowhere else."""

    def on_terminal(self, shared=False, end="\n"):
        """What the terminal gets where standard error is one, from a run that takes a while; answers go to a file, or there, too."""
        inner, outer = pty.openpty()
        with open(os.path.join(self.folder, "out"), "wb") as out:
            child = subprocess.Popen([sys.executable, "-m", "lizardwire", "jobs"], stdin=subprocess.PIPE, stdout=outer if shared else out,
                                     stderr=outer, env={**os.environ, "PYTHONPATH": PYTHON})
        os.close(outer)
        for _ in range(3):
            child.stdin.write((JOB + end).encode() * 32)
            child.stdin.flush()
            time.sleep(0.8)
        child.stdin.close()
        said = b""
        while True:
            try:
                part = os.read(inner, 4096)
            except OSError:
                part = b""
            if not part:
                break
            said += part
        os.close(inner)
        self.assertEqual(child.wait(), 0)
        return said.decode()

    def test_a_run_on_a_terminal(self):
        said = self.on_terminal()
        self.assertRegex(said, r"\d+ jobs, [\d,]+ a second")
        self.assertTrue(said.endswith("\r\x1b[K"))
        self.assertEqual(self.get("out"), (ANSWER + "\n") * 96)

    def test_answers_on_the_terminal(self):
        self.assertEqual(self.on_terminal(shared=True), (ANSWER + "\r\n") * 96)

    def test_a_hint_has_a_line_of_its_own(self):
        said = self.on_terminal(end="\n" * 7 + "\r\n")
        self.assertRegex(said, r"(^|\x1b\[K)lizardwire: standard input: lines end in CR LF.*\r\n")

    def counted(self, terminal):
        """What 64 steps that take their time say."""
        stream = io.StringIO()
        stream.isatty = lambda: terminal
        with mock.patch("sys.stderr", stream), mock.patch("time.monotonic", side_effect=itertools.count().__next__):
            counter = progress.Progress("jobs", 200)
            for _ in range(64):
                counter.step(2)
            counter.end()
        return stream.getvalue()

    def test_how_far_it_is(self):
        self.assertIn("64 jobs, ", self.counted(True))
        self.assertIn(", 64 %", self.counted(True))
        self.assertEqual(self.counted(False), "")


class Clearance(Folder):
    def test_told(self):
        rings = ("collar", COLLAR), ("sleeve", SLEEVE)
        collar, sleeve = (name + "=" + " ".join(f"{x},{y}" for x, y in ring) for name, ring in rings)
        self.assertEqual(run("clearance", collar, sleeve), (0, b"0.2 0,0 0,0.2\n", ""))
        self.assertEqual(run("clearance", sleeve, collar.partition("=")[2]), (0, b"0.2 0,0.2 0,0\n", ""))
        out = os.path.join(self.folder, "out.svg")
        self.assertEqual(run("clearance", collar, sleeve, "-o", out), (0, b"0.2 0,0 0,0.2\n", ""))
        with open(os.path.join(TOP, "docs", "clearance.svg"), encoding="utf-8") as stream:
            self.assertEqual(self.get("out.svg"), stream.read())
        self.assertEqual(run("clearance", collar, sleeve, "-o", "-"), (0, self.get("out.svg").encode(), ""))

    def test_they_meet(self):
        self.assertEqual(run("clearance", "0,0 4,0 4,4", "1,-1 2,-1 2,9"), (0, b"0\n", ""))
        status, out, said = run("clearance", "0,0 4,0 4,4", "1,-1 2,-1 2,9", "-o", "-")
        self.assertEqual((status, said, b"clearance 0: they meet" in out), (0, "", True))

    def test_refused(self):
        good, bad, words = "0,0 4,0 4,4", "0,0 4,4 4,0 0,2", "no, 9: edge 0 crosses edge 2\n"
        for pair, name in (((good, "a=" + bad), "a"), ((good, bad), "second"), ((bad, "a=" + good), "first"), (("b=" + bad, bad), "b")):
            self.assertEqual(run("clearance", *pair), (1, b"", f"lizardwire: {name}: {words}"))
        self.assertEqual(run("clearance", "a=b", "0,0 4,0 4,4"),
                         (2, b"", 'lizardwire: a ring is written "0,0 4,0 4,4 0,4", and not \'b\'\n'))
        path = self.put("before", "kept")
        self.assertEqual(run("clearance", "0,0 4,0 4,4", "0,0 1,1", "-o", path)[0], 1)
        self.assertEqual((self.get("before"), run("clearance", "0,0 4,0 4,4", "9,0 9,1 8,1", "-o", "/no/such/folder/out")[0]), ("kept", 2))


class Offsets(unittest.TestCase):
    def test_inset_and_outset(self):
        self.assertEqual(run("inset", "1", "0,0 4,0 4,4 0,4"), (0, b"1,1 3,1 3,3 1,3\n", ""))
        self.assertEqual(run("outset", "1", "0,0 4,0 4,4 0,4"), (0, b"-1,5 -1,-1 5,-1 5,5\n", ""))
        self.assertEqual(run("inset", "2", "0,0 4,0 4,4 0,4"),
                         (1, b"", "lizardwire: no, 16: nothing is left: the margin 2 is too wide\n"))
        self.assertEqual(run("inset", str(1 / 3), "0,0 1e9,0 0,1e9")[1].split()[0], f"{1 / 3},{1 / 3}".encode())
        for distance, words in (("-1e-3", "14: the distance -0.001 is below 0"), ("-inf", "13: the distance is not a number up to 1e12")):
            self.assertEqual(run("inset", distance, "0,0 4,0 4,4"), (1, b"", f"lizardwire: no, {words}\n"))
        for ring in ("0,0 4", "0,0 4,x 2,2", "0,0 4,0,1 4,4", "0,0 4,0 4,", "0, 0 4, 0 4, 4"):
            self.assertEqual(run("inset", "1", ring), (2, b"", f'lizardwire: a ring is written "0,0 4,0 4,4 0,4", and not {ring!r}\n'))

    def test_help(self):
        for words in ([], ["draw"], ["jobs"], ["inset"], ["outset"], ["clearance"]):
            status, out, said = run(*words, "--help")
            self.assertEqual((status, said), (0, ""))
            self.assertIn(b"usage: python -m lizardwire", out)
        self.assertEqual(run("--version"), (0, f"lizardwire {__version__}, library {version()}\n".encode(), ""))
        status, out, _ = run("--version", LIZARDWIRE_LIBRARY="/no/such/file")
        self.assertEqual(status, 0)
        self.assertIn(b"no library: the Lizardwire library was not found", out)

    def test_words_that_are_not_understood(self):
        """One line and a status; nothing where there is no standard error."""
        for words in ([], ["none"], ["draw"], ["draw", "F", "--none"], ["draw", "F", "--inset", "x"], ["draw", "F", "--inset"],
                      ["draw", "F", "--inset", "1", "--outset", "1"], ["jobs", "-x"], ["jobs", "-o"], ["inset"], ["inset", "1"],
                      ["inset", "x", "0,0"], ["outset", "1", "0,0 4,0 4,4", "1,1"], ["clearance", "0,0 4,0 4,4"]):
            status, out, said = run(*words)
            self.assertEqual((status, out), (2, b""), words)
            self.assertRegex(said, r"^lizardwire: .*\(python -m lizardwire.* --help says more\)\n$")
        for none in ("2>&-", "2> /dev/full"):
            done = subprocess.run(f"'{sys.executable}' -m lizardwire none {none}", shell=True, capture_output=True,
                                  env={**os.environ, "PYTHONPATH": PYTHON, "PYTHONUNBUFFERED": ""})
            self.assertEqual((done.returncode, done.stdout, done.stderr), (2, b"", b""), none)

    def test_one_version(self):
        """The package, the crate and the command have one number."""
        for path, line in ((("rust", "Cargo.toml"), r'^version = "(.*)"$'), (("cli", "lizardwire.c"), r'^#define VERSION "(.*)"$')):
            with open(os.path.join(TOP, *path), encoding="utf-8") as stream:
                self.assertEqual(re.findall(line, stream.read(), re.M), [__version__], path)

    def test_without_the_library(self):
        status, _, said = run("inset", "1", "0,0 4,0 4,4", LIZARDWIRE_LIBRARY="/no/such/file")
        self.assertEqual(status, 2)
        self.assertIn("/no/such/file", said)
        self.assertNotIn("Traceback", said)


if __name__ == "__main__":
    unittest.main()
