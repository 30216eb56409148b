"""A stream of job lines, in blocks that are cut anywhere."""
import os
import random
import unittest

from lizardwire import Refused, Stream, _library, answer_line
from tests.support import ANSWER, JOB, TOP

LINE = (JOB + "\n").encode()
SAID = (ANSWER + "\n").encode()


def docs(name):
    with open(os.path.join(TOP, "docs", name), "rb") as stream:
        return stream.read()


def answered(data, cuts):
    """What a stream answers to the bytes, cut there."""
    stream, out = Stream(), []
    for start, end in zip([0, *cuts], [*cuts, len(data)]):
        out.append(stream.feed(data[start:end]))
    return b"".join(out) + stream.finish()


class Streams(unittest.TestCase):
    def test_the_sample(self):
        jobs, answers = docs("sample.jobs"), docs("sample.answers")
        self.assertEqual(answered(jobs, []), answers)
        self.assertEqual(answered(jobs[:-1], range(1, len(jobs) - 1)), answers)

    def test_cut_anywhere(self):
        draw = random.Random(7)
        data = LINE + b"\n\nnonsense\n" + LINE + b"x" * 40000 + b"\n" + LINE[:-1]
        wanted = SAID + b"no,22\n" * 3 + SAID + b"no,22\n" + SAID
        for _ in range(60):
            self.assertEqual(answered(data, sorted(draw.randrange(len(data)) for _ in range(draw.randrange(9)))), wanted)

    def test_lines_of_the_longest(self):
        for length in (16383, 16384, 16385, 16386, 99999):
            line = JOB.encode() + b"," * (length - len(JOB))
            self.assertEqual(answered(line, []), b"no,22\n")
            self.assertEqual(answered(line + b"\n" + LINE, []), b"no,22\n" + SAID)
        self.assertEqual(answer_line(JOB.encode() + b"," * (16384 - len(JOB))), b"no,22")

    def test_more_answers_than_there_is_room_for(self):
        data = b"\n" * (Stream.ROOM // 2)
        self.assertEqual(Stream().feed(data), b"no,22\n" * len(data))

    def test_an_answer_comes_with_its_line(self):
        stream = Stream()
        self.assertEqual([stream.feed(LINE[:-1]), stream.feed(b"\n"), stream.feed(LINE[:9]), stream.feed(LINE[9:] + b"n")],
                         [b"", SAID, b"", SAID])
        self.assertEqual(stream.finish(), b"no,22\n")

    def test_the_next_input(self):
        stream = Stream()
        self.assertEqual((stream.feed(LINE[:20]), stream.finish(), stream.finish()), (b"", b"no,22\n", b""))
        self.assertEqual(stream.feed(LINE), SAID)

    def test_what_is_fed(self):
        stream = Stream()
        self.assertEqual((stream.feed(b""), stream.feed(bytearray(LINE)), stream.feed(memoryview(LINE))), (b"", SAID, SAID))
        for block in (JOB, 5, None, [1.5]):
            with self.assertRaises(TypeError):
                stream.feed(block)
        self.assertEqual(stream.feed(LINE), SAID)

    def test_what_one_line_is(self):
        self.assertEqual(answer_line(bytearray(JOB.encode())), ANSWER.encode())
        for line in (JOB, 5, None):
            with self.assertRaises(TypeError):
                answer_line(line)

    def test_a_state_that_no_stream_made(self):
        stream = Stream()
        for k in range(_library.STREAM_BYTES):
            stream._state[k] = 255
        for ask in (lambda: stream.feed(LINE), stream.finish):
            with self.assertRaises(Refused) as caught:
                ask()
            self.assertEqual(caught.exception.number, 21)


class Lent(unittest.TestCase):
    """The library's functions over memory that is too short."""

    def setUp(self):
        self.state, self.out = _library.lent_bytes(_library.STREAM_BYTES), _library.lent_bytes(_library.STREAM_OUTPUT)
        self.assertEqual(_library.call("lw_stream", self.state, len(self.state)).refusal, 0)

    def test_state(self):
        short = _library.STREAM_BYTES - 1
        made = _library.call("lw_stream", self.state, short)
        self.assertEqual((made.refusal, made.count), (20, _library.STREAM_BYTES))
        for fed in (_library.call("lw_feed", LINE, len(LINE), self.state, short, self.out, len(self.out)),
                    _library.call("lw_finish", self.state, short, self.out, len(self.out))):
            self.assertEqual((fed.refusal, fed.first, fed.taken, fed.written), (20, _library.STREAM_BYTES, 0, 0))

    def test_output(self):
        fed = _library.call("lw_feed", LINE, len(LINE), self.state, len(self.state), self.out, len(SAID) - 1)
        self.assertEqual((fed.refusal, fed.first, fed.written), (20, len(SAID), 0))
        rest = LINE[fed.taken:]
        fed = _library.call("lw_feed", rest, len(rest), self.state, len(self.state), self.out, len(SAID))
        self.assertEqual((fed.refusal, fed.taken, bytes(self.out[:fed.written])), (0, len(rest), SAID))

    def test_output_at_the_end(self):
        _library.call("lw_feed", LINE, len(LINE) - 1, self.state, len(self.state), self.out, len(self.out))
        for room, refusal, first, written in ((5, 20, len(SAID), 0), (len(SAID), 0, 0, len(SAID)), (0, 0, 0, 0)):
            fed = _library.call("lw_finish", self.state, len(self.state), self.out, room)
            self.assertEqual((fed.refusal, fed.first, fed.written), (refusal, first, written))


if __name__ == "__main__":
    unittest.main()
