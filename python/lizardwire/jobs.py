"""Job lines and answer lines.

A job is one line: ``inset`` or ``outset``, distance, ring count, vertex counts,
coordinates, parted by commas. A float is the 16 hexadecimal digits of its bits. The
answer is ``ok``, ring count, vertex counts, coordinates; or ``no`` and a number.
"""
import ctypes
import math
import re
import struct
from typing import Any, BinaryIO, Iterable, Iterator, List, Optional, Sequence, Union

from . import _library
from .files import Output, Path
from .refusals import Drawn, Refused, from_lists, short
from .shapes import Cage, Events, Outline, Region, Ring, RingLike, _float, _floats, _lengths, _numbers, _parted, _rings

_FLOAT = re.compile(rb"[0-9a-f]{16}\Z")
_COUNT = re.compile(rb"(0|[1-9][0-9]{0,2})\Z")


def _hex(number: float) -> str:
    return struct.pack(">d", number).hex()


def _read_float(field: bytes) -> float:
    if not _FLOAT.match(field):
        raise Refused(22)
    number: float = struct.unpack(">d", bytes.fromhex(field.decode()))[0]
    return number


def _read_count(field: bytes) -> int:
    if not _COUNT.match(field):
        raise Refused(22)
    return int(field)


def _rings_of(numbers: Sequence[float], counts: Sequence[int]) -> List[Ring]:
    """The rings, or none where the counts do not add up to the points."""
    if len(numbers) % 2 or 2 * sum(counts) != len(numbers):
        return []
    return _parted(numbers, counts)


class Job:
    """A job: ``side`` is "inset" or "outset"; ``counts`` has the vertices of each ring, ``numbers`` the coordinates."""

    def __init__(self, side: str, distance: float, counts: Iterable[int], numbers: Iterable[float]) -> None:
        if side not in ("inset", "outset"):
            raise ValueError(f"a job is an inset or an outset, and not {side!r}")
        self.side, self.distance = side, _float(distance)
        self.counts, self.numbers = _lengths(counts), _floats(numbers)

    @classmethod
    def of(cls, side: str, distance: float, rings: Union[RingLike, Iterable[RingLike]]) -> "Job":
        """The job of one ring, or of a list of rings. It is asked all that a drawing is, 27 too, also where they are those of a cage."""
        lists = [_numbers(ring) for ring in _rings(rings)]
        return cls(side, distance, [len(n) // 2 for n in lists], [number for n in lists for number in n])

    @classmethod
    def read(cls, line: Union[bytes, str]) -> "Job":
        """The job of a line without its line feed. Raises :class:`Refused` with 22 where it is none."""
        text = line.encode("utf-8", "surrogateescape") if isinstance(line, str) else line
        fields = text.split(b",")
        if len(text) > _library.LINE_BYTES or len(fields) < 3 or fields[0] not in (b"inset", b"outset"):
            raise Refused(22)
        distance, rings = _read_float(fields[1]), _read_count(fields[2])
        if len(fields) < 3 + rings or (fields[0] == b"outset" and rings != 1):
            raise Refused(22)
        counts = [_read_count(field) for field in fields[3:3 + rings]]
        return cls(fields[0].decode(), distance, counts, [_read_float(field) for field in fields[3 + rings:]])

    @property
    def rings(self) -> List[Ring]:
        """Its rings; none where the counts do not add up to the points."""
        return _rings_of(self.numbers, self.counts)

    def line(self) -> str:
        """The job line, without line feed. Raises ValueError for what no job line can say."""
        if self.side == "outset" and len(self.counts) != 1:
            raise ValueError("an outset is of one ring")
        fields = [self.side, _hex(self.distance), str(len(self.counts)), *map(str, self.counts), *map(_hex, self.numbers)]
        line = ",".join(fields)
        if max([len(self.counts), *self.counts]) > 999 or len(line) > _library.LINE_BYTES:
            raise ValueError(f"{len(self.numbers) // 2} vertices are too many for a job line")
        return line

    def answer(self) -> "Answer":
        """Its answer, by the library's functions over numbers."""
        try:
            cage = self._cage()
        except Refused as refusal:
            return Answer([], refusal, Events(refusal.collapses, refusal.divides, refusal.joins))
        return Answer(cage.rings, None, cage.events)

    def _cage(self) -> Cage:
        if self.side == "outset" and len(self.counts) != 1:
            raise Refused(22)
        if len(self.counts) != 1:
            return Region.from_numbers(self.numbers, self.counts).inset(self.distance)
        self._ask_lengths()
        outline = Outline.from_numbers(self.numbers)
        return outline.inset(self.distance) if self.side == "inset" else outline.outset(self.distance)

    def _ask_lengths(self) -> None:
        """Questions 1, 2 and 3. Of an outline the library asks 1 and 2 alone, and 3 comes before its other questions."""
        if len(self.numbers) % 2:
            raise Refused(1)
        for index, number in enumerate(self.numbers):
            if not math.isfinite(number):
                raise Refused(2, {"index": index}, drawn=Drawn(self.numbers, self.counts))
        if 2 * sum(self.counts) != len(self.numbers):
            raise Refused(3)

    def __eq__(self, other: object) -> bool:
        return isinstance(other, Job) and self.__dict__ == other.__dict__

    def __repr__(self) -> str:
        return f"<Job: {self.side} {short(self.distance)} of {' + '.join(map(str, self.counts)) or 'no'} vertices>"


class Answer:
    """What a job came to: ``rings``, or why there are none in ``refused``; ``events`` where they are known."""

    def __init__(self, rings: List[Ring], refused: Optional[Refused], events: Optional[Events] = None) -> None:
        self.rings, self.refused, self.events = rings, refused, events

    @classmethod
    def read(cls, line: Union[bytes, str]) -> "Answer":
        """The answer of a line without its line feed. What the reference in ``oracle/`` adds to a line with ``--full`` is read, too.

        Raises ValueError where it is no answer line.
        """
        data = line.encode("utf-8", "surrogateescape") if isinstance(line, str) else line
        first, *more = data.split(b";")
        fields = first.split(b",")
        try:
            told = {key: [v for v in value.split(b",") if v] for key, value in (part.split(b"=", 1) for part in more)}
            ring, wholes, counted = ([_read_count(v) for v in told.get(key, [])] for key in (b"ring", b"wholes", b"events"))
            events = Events(*counted) if len(counted) == 3 else None
            number = _read_count(fields[1])
            if fields[0] == b"no" and len(fields) == 2 and number:
                return cls([], from_lists(number, ring, wholes, [_read_float(v) for v in told.get(b"floats", [])]), events)
            if fields[0] == b"ok":
                counts = [_read_count(field) for field in fields[2:2 + number]]
                rings = _rings_of([_read_float(field) for field in fields[2 + number:]], counts)
                if rings and len(rings) == number:
                    return cls(rings, None, events)
        except (IndexError, ValueError):
            pass
        raise ValueError(f"not an answer line: {data[:60].decode('ascii', 'replace')!r}")

    def line(self) -> str:
        """The answer line, without line feed. A zero has no sign."""
        if self.refused:
            return f"no,{self.refused.number}"
        numbers = [0.0 if number == 0 else number for ring in self.rings for point in ring for number in point]
        return ",".join(["ok", str(len(self.rings)), *(str(len(ring)) for ring in self.rings), *map(_hex, numbers)])

    def words(self) -> str:
        """The answer in a few words."""
        if self.refused:
            return self.refused.words
        return "cage of " + " + ".join(str(len(ring)) for ring in self.rings) + " vertices"

    def event_words(self) -> str:
        """What the offset did on its way, in words; nothing where nothing happened or nothing is known."""
        names = (("collapse", "collapses"), ("division", "divisions"), ("join", "joins"))
        return ", ".join(f"{n} {name[n > 1]}" for n, name in zip(self.events or (), names) if n)


# ---- many lines

def answer_line(line: bytes) -> bytes:
    """The answer line to a job line, both without line feed. A refused job is an answer, too."""
    out = _library.lent_bytes(_library.LINE_BYTES)
    data = memoryview(line).tobytes()
    answer = _library.call("lw_job_line", data, len(data), out, len(out))
    if answer.refusal:
        raise Refused(answer.refusal, {"needed": answer.count})
    return ctypes.string_at(out, answer.count)


class Stream:
    """Job lines in blocks that are cut anywhere, answered as their lines end, in memory that does not grow.

        answers = Stream()
        for block in blocks:
            out.write(answers.feed(block))
        out.write(answers.finish())

    What comes out, joined, has one answer a line. After :meth:`finish` it takes the next input.
    One stream is for one thread at a time.
    """

    ROOM = 1 << 18

    def __init__(self) -> None:
        self._state = _library.lent_bytes(_library.STREAM_BYTES)
        self._out = _library.lent_bytes(max(self.ROOM, _library.STREAM_OUTPUT))
        made = _library.call("lw_stream", self._state, len(self._state))
        if made.refusal:
            raise Refused(made.refusal, {"needed": made.count})

    def feed(self, block: Union[bytes, bytearray, memoryview]) -> bytes:
        """Takes the next bytes of the input; the answers of the lines that end in them, each with its line feed."""
        data, answers, taken = memoryview(block).tobytes(), [], 0
        start = ctypes.cast(ctypes.c_char_p(data), ctypes.c_void_p).value or 0
        while taken < len(data):
            fed = self._call("lw_feed", ctypes.c_char_p(start + taken), len(data) - taken)
            answers.append(ctypes.string_at(self._out, fed.written))
            taken += fed.taken
        return b"".join(answers)

    def finish(self) -> bytes:
        """The end of the input: the answer of a last line without line feed."""
        return ctypes.string_at(self._out, self._call("lw_finish").written)

    def _call(self, name: str, *block: Any) -> Any:
        fed = _library.call(name, *block, self._state, len(self._state), self._out, len(self._out))
        if fed.refusal:
            raise Refused(fed.refusal, {"needed": fed.first} if fed.refusal == 20 else None)
        return fed


def lines(stream: BinaryIO) -> Iterator[bytes]:
    """The lines of a stream without their line feeds; of one that is too long, one byte more than is allowed."""
    most = _library.LINE_BYTES + 1
    while True:
        line = stream.readline(most + 1)
        if not line:
            return
        part = line
        while not part.endswith(b"\n"):
            part = stream.readline(1 << 16)
            if not part:
                break
        yield line[:-1] if line.endswith(b"\n") else line[:most]


def read_jobs(path: Path) -> List[Union[Job, Refused]]:
    """The jobs of a file, a line each; a line that is no job is its refusal."""
    jobs: List[Union[Job, Refused]] = []
    with open(path, "rb") as stream:
        for line in lines(stream):
            try:
                jobs.append(Job.read(line))
            except Refused as refusal:
                jobs.append(refusal)
    return jobs


def write_jobs(path: Path, jobs: Iterable[Job]) -> None:
    """Writes jobs to a file, a line each. Where one has no line, nothing is written, and what was there before stays."""
    with Output(path) as out:
        for job in jobs:
            out.write((job.line() + "\n").encode("ascii"))
