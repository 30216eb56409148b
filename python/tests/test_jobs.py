"""Job lines and answer lines."""
import io
import os
import unittest

from lizardwire import Answer, Job, Refused, _library, answer_line, read_jobs, write_jobs
from lizardwire.jobs import lines
from tests.support import ANSWER, JOB, PANE, SQUARE, TOP, Folder


def sample(name):
    with open(os.path.join(TOP, "docs", name), "rb") as stream:
        return stream.read().splitlines()


class Lines(unittest.TestCase):
    def test_read_and_written(self):
        job = Job.read(JOB)
        self.assertEqual((job.side, job.distance, job.rings), ("inset", 1.0, [SQUARE]))
        self.assertEqual(job.line(), JOB)
        self.assertEqual(job, Job.of("inset", 1, SQUARE))
        self.assertEqual(job.answer().line(), ANSWER)

    def test_ill_formed(self):
        for line in (b"", b"inset", b"Inset" + JOB[5:].encode(), JOB.encode() + b",", JOB.encode() + b"\r", JOB.encode() + b" ",
                     JOB.upper().encode(), b"outset,3ff0000000000000,0", b"outset,3ff0000000000000,2,3,3", b"inset,3ff0,1,0",
                     b"inset,3ff0000000000000,01,0", b"inset,3ff0000000000000,2,3", b"inset,3ff0000000000000,1000",
                     b"inset,3ff0000000000000,+1,0", b"inset,3ff0000000000000,1,\xd9\xa3", JOB.encode() + b",0" * 9000):
            with self.assertRaises(Refused) as caught:
                Job.read(line)
            self.assertEqual(caught.exception.number, 22)
            self.assertEqual(answer_line(line[:_library.LINE_BYTES + 1]), b"no,22")

    def test_refused(self):
        nan = "7ff8000000000000"
        zero = "0000000000000000"
        for line, number in ((f"inset,{zero},1,3,{zero}", 1), (f"inset,{zero},1,9,{zero},{nan}", 2), (f"inset,{zero},1,3,{zero},{zero}", 3),
                             (f"inset,{zero},1,0", 4), (f"inset,{zero},1,1,{zero},{zero}", 4), (JOB.replace("3ff0000000000000", nan), 13)):
            self.assertEqual(answer_line(line.encode()), f"no,{number}".encode())
            self.assertEqual(Job.read(line).answer().line(), f"no,{number}")

    def test_no_job_line(self):
        for job in (Job.of("outset", 1, PANE), Job.of("inset", 1, [(0.0, float(k)) for k in range(600)])):
            with self.assertRaises(ValueError):
                job.line()

    def test_an_outset_is_of_one_ring(self):
        for rings in (PANE, []):
            self.assertEqual(Job.of("outset", 1, rings).answer().line(), "no,22")
        self.assertEqual(Job.of("inset", 1, []).answer().line(), "no,3")

    def test_long_lines_are_passed_over(self):
        long = b"x" * 40000
        for size, kept in ((16384, 16384), (16385, 16385), (16386, 16385), (40000, 16385)):
            found = list(lines(io.BytesIO(long[:size] + b"\nnext")))
            self.assertEqual([len(line) for line in found], [kept, 4])
        self.assertEqual(list(lines(io.BytesIO(b""))), [])
        self.assertEqual(list(lines(io.BytesIO(b"a\n\nb\n"))), [b"a", b"", b"b"])


class Answers(unittest.TestCase):
    def test_read_and_written(self):
        self.assertEqual(Answer.read(ANSWER).line(), ANSWER)
        self.assertEqual(Answer.read("no,16").line(), "no,16")
        self.assertEqual(Answer.read("no,9").words(), "two edges cross")
        told = Answer.read("no,9;ring=0;wholes=1,5;floats=;events=0,2,0")
        self.assertEqual((told.refused.values, told.words(), told.event_words()),
                         ({"ring": 0, "first": 1, "second": 5}, "edge 1 crosses edge 5", "2 divisions"))

    def test_no_answer(self):
        for line in ("", "ok", "ok,1,4", "ok,2,4" + ANSWER[6:], "no", "no,x", JOB, "no,9;ring", "no,0", "no,-5", "no,016", "no,\u0663",
                     "no,7;ring=-5", "no,9;ring=-5;wholes=0,2", "no,11;wholes=-9", f"no,9;ring=0;wholes=1,{10 ** 400}",
                     "ok,2,5,-1" + ANSWER[6:], b"no,\xff"):
            with self.assertRaisesRegex(ValueError, "not an answer line"):
                Answer.read(line)

    def test_a_zero_has_no_sign(self):
        self.assertEqual(Answer([[(-0.0, 0.0)]], None).line(), "ok,1,1" + ",0000000000000000" * 2)


class Sample(Folder):
    """The answers of the sample are the reference's, by the functions over numbers and by the library's job line."""

    def test_single_rings(self):
        for job, answer in zip(sample("sample.jobs"), sample("sample.answers")):
            if len(Job.read(job).counts) == 1:
                self.assertEqual(Job.read(job).answer().line().encode(), answer)

    def test_with_what_they_carry(self):
        for job, told in zip(sample("sample.jobs"), sample("sample.values")):
            if len(Job.read(job).counts) == 1:
                ours, theirs = Job.read(job).answer(), Answer.read(told)
                self.assertEqual((ours.words(), ours.event_words()), (theirs.words(), theirs.event_words()))

    def test_regions(self):
        for job, answer in zip(sample("sample.jobs"), sample("sample.answers")):
            self.assertEqual(Job.read(job).answer().line().encode(), answer)

    def test_lines(self):
        for job, answer in zip(sample("sample.jobs"), sample("sample.answers")):
            self.assertEqual(answer_line(job), answer)

    def test_files(self):
        jobs = read_jobs(os.path.join(TOP, "docs", "sample.jobs"))
        path = os.path.join(self.folder, "again.jobs")
        write_jobs(path, jobs)
        self.assertEqual(self.get("again.jobs").encode().splitlines(), sample("sample.jobs"))
        refused = read_jobs(self.put("bad.jobs", JOB + "\nnonsense\n"))[1]
        self.assertEqual(refused.number, 22)


if __name__ == "__main__":
    unittest.main()
