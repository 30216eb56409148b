"""``python -m lizardwire``: cages from the command line."""
import argparse
import contextlib
import os
import re
import signal
import sys
from typing import Any, Iterator, List, NoReturn, Optional, Sequence, Tuple

from . import __version__, svg
from .draw import Item, clean, clearance_picture, in_place, picture
from .files import INPUT, OUTPUT, Output, Unsayable, apart, blocks, read_all
from .jobs import Answer, Job, Stream
from .progress import Progress
from .refusals import Refused, exact
from .shapes import Outline, Point, inset, outset, version

MOST = 60

ABOUT = """Cages of outlines: the ring that a drawing's edges make once they have moved inward,
or outward, by a given distance; or the reason why there is none."""

DRAW = """Draws each outline of a file with its cage, as one SVG picture. The file has job
lines, or is an SVG drawing: polygon, polyline, rect and straight path elements are
read; for each curved one a line on standard error says that it is not. A drawing has
no distance of its own: give --inset or --outset."""

JOBS = """Answers job lines: one job a line, one answer a line, in order. Reads the files
one after the other, or standard input; pipes are read as they come. Each line is on its
own, so a file may be cut between lines and its parts answered anywhere."""

OFFSET = """The cage {where} an outline. Each RING is one word, its vertices parted by spaces and
east from north by a comma: "0,0 4,0 4,4 0,4". Prints a line for each ring of the cage,
in the same form."""

CLEARANCE = """How far two outlines are apart: the least distance from a vertex of either to an edge of
the other, and 0 where they meet. Each OUTLINE is one word, with a name before it or without:
"collar=-3,0 3,0 3,-2 -3,-2". Prints the clearance and, where they do not meet, the nearest
point of each."""


def complain(words: str) -> None:
    """A line on standard error, where there is one."""
    try:
        if sys.stderr is not None:
            print(f"lizardwire: {words}", file=sys.stderr, flush=True)
    except OSError:
        # The interpreter would try once more as it ends, and give a status of its own.
        sys.stderr = open(os.devnull, "w", encoding="utf-8")


def no(refusal: Refused) -> str:
    """A refusal in a line."""
    return f"no, {refusal.number}: {refusal.words}"


def count(text: str) -> int:
    """A count of the command line, 1 or more."""
    number = int(text)
    if not 1 <= number <= 10 ** 9:
        raise ValueError
    return number


def versions() -> str:
    """The package's version and the library's."""
    try:
        return f"lizardwire {__version__}, library {version()}"
    except OSError as error:
        return f"lizardwire {__version__}, no library: {str(error).splitlines()[0]}"


class Version(argparse.Action):
    """Prints the versions; the library is opened for this alone."""

    def __call__(self, parser: argparse.ArgumentParser, *rest: object) -> None:
        put((None, versions() + "\n"))
        parser.exit()


class Parser(argparse.ArgumentParser):
    """Help that cannot be printed is a failure: argparse passes over it. Words that are not understood are told as any other failure."""

    def __init__(self, **words: Any) -> None:
        super().__init__(**words)
        # Where argparse looks for options, -1e-3 is a number, too.
        self._negative_number_matcher = re.compile(r"-(\d+\.?\d*|\.\d+)(e[-+]?\d+)?$|-(inf|infinity|nan)$", re.I)

    def print_help(self, file: Any = None) -> None:
        put((None, self.format_help()))

    def error(self, message: str) -> NoReturn:
        complain(f"{message} ({self.prog} --help says more)")
        self.exit(2)


def parser() -> argparse.ArgumentParser:
    """The command line."""
    top = Parser(prog="python -m lizardwire", description=ABOUT,
                 epilog="Status: 0 all done; 1 an outline, inset or outset was refused, or part of a drawing was not read or not drawn; "
                        "2 it failed. A refused job is an answer, and not a failure. A file that is written is put in place at the "
                        "end: after a failure it is as it was.")
    top.add_argument("--version", action=Version, nargs=0, help="the package's version and the library's")
    each = top.add_subparsers(dest="command", metavar="COMMAND", required=True)

    draw = each.add_parser("draw", help="a picture of outlines and their cages", description=DRAW)
    draw.add_argument("file", metavar="FILE", help="job lines or an SVG drawing; - for standard input")
    side = draw.add_mutually_exclusive_group()
    side.add_argument("--inset", metavar="D", type=float, help="of an SVG drawing: the cage inside, D units of the drawing away")
    side.add_argument("--outset", metavar="D", type=float, help="of an SVG drawing: the cage outside")
    draw.add_argument("-o", "--output", metavar="OUT", help="the picture's file (standard output if not given)")
    draw.add_argument("--jobs", metavar="OUT", help="write the outlines as job lines to this file, too")
    draw.add_argument("--names", metavar="FILE", help="a name a line, in place of 'job 1', 'job 2', ..")
    draw.add_argument("--answers", metavar="FILE", help="draw these answer lines; the library is not called")
    draw.add_argument("--columns", metavar="N", type=count, help="drawings side by side (2)")
    draw.add_argument("--most", metavar="N", type=count,
                      help=f"do the first N outlines only ({MOST} in a picture, all with --in-place and --words)")
    draw.add_argument("--in-place", action="store_true",
                      help="outlines and cages where they are, for a drawing program to open; refusals go to standard error")
    draw.add_argument("--words", action="store_true", help="print a line of words for each outline in place of a picture")
    draw.set_defaults(run=run_draw)

    jobs = each.add_parser("jobs", help="answer job lines", description=JOBS)
    jobs.add_argument("files", metavar="FILE", nargs="*", help="job lines; - or none for standard input")
    jobs.add_argument("-o", "--output", metavar="OUT", help="the answers' file (standard output if not given)")
    jobs.set_defaults(run=run_jobs)

    for name, where in (("inset", "inside"), ("outset", "outside")):
        offset = each.add_parser(name, help=f"the cage {where} an outline", description=OFFSET.format(where=where))
        offset.add_argument("distance", metavar="DISTANCE", type=float)
        offset.add_argument("rings", metavar="RING", nargs="+" if name == "inset" else 1,
                            help="the outline" + (", then its holes" if name == "inset" else ""))
        offset.set_defaults(run=run_offset)

    clear = each.add_parser("clearance", help="how far two outlines are apart", description=CLEARANCE)
    clear.add_argument("outlines", metavar="OUTLINE", nargs=2, help="its vertices, after a name and = or without")
    clear.add_argument("-o", "--output", metavar="OUT", help="write a picture of both and their nearest points to this file, too; "
                                                              "- prints it in place of the line")
    clear.set_defaults(run=run_clearance)
    return top


# ---- files

def named(name: Optional[str]) -> Optional[str]:
    """A file's name; None for standard input or output."""
    if name == "":
        raise ValueError("the name of a file is empty: nothing is done")
    return None if name == "-" else name


def text_lines(name: str) -> List[str]:
    """The lines of a file of words."""
    return read_all(named(name)).decode("utf-8", "replace").splitlines()


def put(*texts: Tuple[Optional[str], str]) -> None:
    """Texts into files, or to standard output. Where one cannot be written, every file stays as it was."""
    with contextlib.ExitStack() as stack:
        outputs = [stack.enter_context(Output(named(name))) for name, _ in texts]
        for output, (_, text) in zip(outputs, texts):
            output.write(text.encode("utf-8"))
            output.flush()


class Watch:
    """Looks for what other systems add to job lines: a byte-order mark, a CR before the LF. Each is told once a file."""

    def __init__(self, name: Optional[str]) -> None:
        self.name = INPUT if name is None else name
        self.head = self.last = b""
        self.told = False

    def hints(self, block: bytes) -> List[str]:
        """What is to be said of the next bytes of the file."""
        hints = []
        if len(self.head) < 3:
            self.head += block[:3 - len(self.head)]
            if self.head == b"\xef\xbb\xbf":
                hints.append(f"{self.name}: a byte-order mark stands before the first line: take it away with  tail -c +4")
        if not self.told and (b"\r\n" in block or self.last + block[:1] == b"\r\n"):
            self.told = True
            hints.append(f"{self.name}: lines end in CR LF, and a job line ends in LF alone: take the CRs away with  tr -d '\\r'")
        self.last = block[-1:]
        return hints


# ---- draw

# Outlines by their names; a line that is none has no job.
Found = List[Tuple[str, Optional[Job]]]


def drawn_jobs(data: bytes, words: argparse.Namespace) -> Tuple[Found, bool]:
    """Names and jobs of an SVG drawing, and whether every element was read."""
    if words.inset is None and words.outset is None:
        raise ValueError("a drawing has no distance: give --inset D or --outset D")
    side, distance = ("inset", words.inset) if words.inset is not None else ("outset", words.outset)
    shapes, unread = svg.read(data)
    for element in unread:
        complain(str(element))
    found: Found = []
    for shape in shapes:
        if side == "outset" and len(shape.rings) > 1:
            unread.append(svg.Unread(shape.name, f"it has {len(shape.rings)} rings, and an outset is of one"))
            complain(str(unread[-1]))
        else:
            found.append((shape.name, Job.of(side, distance, shape.rings)))
    if not found:
        raise ValueError("the drawing has no outline that can be read")
    return found, not unread


def line_jobs(data: bytes, name: Optional[str]) -> Found:
    """Names and jobs of job lines."""
    for hint in Watch(name).hints(data):
        complain(hint)
    found: Found = []
    for number, line in enumerate(data[:-1].split(b"\n") if data.endswith(b"\n") else data.split(b"\n") if data else [], 1):
        try:
            found.append((f"job {number}", Job.read(line)))
        except Refused:
            found.append((f"job {number}", None))
    if not found:
        raise ValueError("there is no job in the file")
    return found


def run_draw(words: argparse.Namespace) -> int:
    """The command draw."""
    inputs = [named(name) for name in (words.file, words.names, words.answers) if name is not None]
    outputs = ([words.jobs] if words.jobs is not None else []) + [words.output]
    apart(inputs, [named(name) for name in outputs])
    found, up, all_read = outlines(words)
    names, answers = beside(words, found)
    some, all_done = how_many(words, len(found))
    items = [made(names[k], found[k][1], answers[k] if answers else None, up) for k in counted(some)]
    text = in_words(items) if words.words else in_place(items) if words.in_place else picture(items, words.columns)
    lines, all_written = job_lines(found) if words.jobs else ("", True)
    put(*([(words.jobs, lines)] if words.jobs else []), (words.output, text))
    for item in items if words.in_place and not words.words else []:
        if item.answer.refused:
            complain(f"{item.name}: {item.words()}")
    return 0 if all_read and all_done and all_written else 1


def outlines(words: argparse.Namespace) -> Tuple[Found, bool, bool]:
    """What is to be drawn; whether north is up there; whether all of it was read."""
    data = read_all(named(words.file))
    if svg.is_svg(data):
        found, all_read = drawn_jobs(data, words)
        return found, False, all_read
    if words.inset is not None or words.outset is not None:
        raise ValueError("job lines have their own side and distance: --inset and --outset are for SVG drawings")
    return line_jobs(data, named(words.file)), True, True


def beside(words: argparse.Namespace, found: Found) -> Tuple[List[str], Optional[List[Answer]]]:
    """The names of the outlines, and their answers where those are given."""
    names = text_lines(words.names) if words.names else [name for name, _ in found]
    answers = [Answer.read(line) for line in text_lines(words.answers)] if words.answers else None
    for what, listed in (("names", names), ("answers", answers)):
        if listed is not None and len(listed) != len(found):
            raise ValueError(f"{len(found)} outlines, but {len(listed)} {what}")
    return names, answers


def how_many(words: argparse.Namespace, all_of_them: int) -> Tuple[int, bool]:
    """How many outlines are done, and whether that is all that was asked for: a picture has room for so many."""
    most = words.most or (all_of_them if words.in_place or words.words else MOST)
    if all_of_them > most:
        complain(f"the first {most} of {all_of_them:,} outlines are {'told' if words.words else 'drawn'}; --most changes that")
    return min(most, all_of_them), all_of_them <= most or words.most is not None


def counted(count: int) -> Iterator[int]:
    """0, 1, and so on, with progress."""
    with Progress("outlines", count) as progress:
        for k in range(count):
            yield k
            progress.step()


def made(name: str, job: Optional[Job], answer: Optional[Answer], up: bool) -> Item:
    """An outline to draw, with the answer that is given, or with the library's."""
    if job is None:
        return Item(name, "", 0.0, [], answer or Answer([], Refused(22)), up)
    if answer is None:
        answer = job.answer()
    elif answer.refused:
        answer = Answer([], answer.refused.of_drawing(job.numbers, job.counts), answer.events)
    return Item(name, job.side, job.distance, job.rings, answer, up)


def job_lines(found: Found) -> Tuple[str, bool]:
    """The job lines, and whether all of them could be written."""
    lines, all_written = [], True
    for title, job in found:
        try:
            lines.append((job.line() if job else "") + "\n")
        except ValueError as error:
            complain(f"{title} has no job line: {error}")
            all_written = False
    return "".join(lines), all_written


def in_words(items: Sequence[Item]) -> str:
    """A line for each outline."""
    names = max([12, *(len(clean(item.name)) for item in items)])
    asked = max([14, *(len(item.asked()) for item in items)])
    lines = []
    for item in items:
        events = item.answer.event_words()
        lines.append(f"{clean(item.name):{names}} {item.asked():{asked}} {item.words()}{'; ' + events if events else ''}\n")
    return "".join(lines)


# ---- jobs

def size_of(names: Sequence[Optional[str]]) -> Optional[int]:
    """How many bytes there are to read, where all of them are files."""
    if not all(name is not None and os.path.isfile(name) for name in names):
        return None
    return sum(os.path.getsize(name) for name in names if name is not None)


def run_jobs(words: argparse.Namespace) -> int:
    """The command jobs: each file is a stream of its own, so that lines of two never join."""
    names = [named(name) for name in words.files or ["-"]]
    apart(names, [named(words.output)])
    stream, progress = Stream(), Progress("jobs", size_of(names))
    with Output(named(words.output)) as out, progress:
        # Answers and progress on one terminal would run into each other.
        progress.on &= not out.terminal()
        for name in names:
            watch = Watch(name)
            for block in blocks(name):
                put_answers(out, stream.feed(block), len(block), progress)
                for hint in watch.hints(block):
                    progress.end()
                    complain(hint)
            put_answers(out, stream.finish(), 0, progress)
    return 0


def put_answers(out: Output, answers: bytes, taken: int, progress: Progress) -> None:
    """Answers are handed on at once: who waits for them may be about to send more."""
    if answers:
        out.write(answers)
        out.flush()
    progress.step(taken, answers.count(b"\n"))


# ---- inset, outset, clearance

def point_of(pair: str) -> Tuple[float, float]:
    """A point of a ring."""
    east, north = pair.split(",")
    return float(east), float(north)


def ring_of(text: str) -> List[Tuple[float, float]]:
    """The points of a word of the command line."""
    try:
        return [point_of(pair) for pair in text.split()]
    except ValueError:
        raise ValueError(f'a ring is written "0,0 4,0 4,4 0,4", and not {text!r}') from None


def run_offset(words: argparse.Namespace) -> int:
    """The commands inset and outset."""
    offset = inset if words.command == "inset" else outset
    cage = offset([ring_of(text) for text in words.rings], words.distance)
    put((None, "".join(" ".join(map(plain_point, ring)) + "\n" for ring in cage)))
    return 0


def run_clearance(words: argparse.Namespace) -> int:
    """The command clearance."""
    (one, _, first), (two, _, second) = (text.rpartition("=") for text in words.outlines)
    names, outlines = (one or "first", two or "second"), []
    for name, text in zip(names, (first, second)):
        try:
            outlines.append(Outline(ring_of(text)))
        except Refused as refusal:
            complain(f"{name}: {no(refusal)}")
            return 1
    near = outlines[0].nearest_points(outlines[1])
    line = " ".join([exact(outlines[0].clearance(outlines[1])), *(map(plain_point, near[1:]) if near else ())]) + "\n"
    drawn = [(words.output, clearance_picture(outlines[0], outlines[1], names))] if words.output is not None else []
    put(*drawn, *([(None, line)] if words.output != "-" else []))
    return 0


def plain_point(point: Point) -> str:
    """A point of a ring, as it is read."""
    return f"{exact(point[0])},{exact(point[1])}"


# ---- all of them

def reason(error: Exception) -> str:
    """Why it failed, in a line or a few."""
    if isinstance(error, OSError) and error.filename is not None and error.strerror:
        return f"{os.fsdecode(error.filename)}: {error.strerror}"
    return str(error)


def command(arguments: Optional[Sequence[str]]) -> int:
    """Runs a command; its status. What was printed has arrived."""
    try:
        words = parser().parse_args(arguments)
        status: int = words.run(words)
    except SystemExit as end:  # --help, --version, words that are not understood
        status = end.code if isinstance(end.code, int) else 0
    if sys.stdout is not None:
        try:
            sys.stdout.flush()
        except OSError as error:
            raise OSError(error.errno, error.strerror, OUTPUT) from None
    return status


def hush() -> None:
    """What cannot be written is dropped: the interpreter would try once more as it ends, and complain in its own words."""
    try:
        os.dup2(os.open(os.devnull, os.O_WRONLY), sys.stdout.fileno())
    except (AttributeError, OSError, ValueError):
        pass


def main(arguments: Optional[Sequence[str]] = None) -> int:
    """Runs a command; its status."""
    try:
        return command(arguments)
    except Refused as refusal:
        complain(no(refusal))
        return 1
    except KeyboardInterrupt:
        return 130
    except Unsayable:
        return 2
    except (ValueError, OSError) as error:
        printing = isinstance(error, OSError) and error.filename == OUTPUT
        if printing:
            hush()
        # A reader that has seen enough, as head, is not told.
        if printing and isinstance(error, BrokenPipeError):
            return 1
        complain(reason(error))
        return 2


# The signals that end a program from outside.
ENDING = (signal.SIGINT, signal.SIGTERM, signal.SIGHUP, signal.SIGQUIT, signal.SIGALRM, signal.SIGUSR1, signal.SIGUSR2, signal.SIGXCPU,
          signal.SIGVTALRM, signal.SIGPROF)


def stopped(number: int, _: object) -> None:
    """A signal that ends the program: what was written beside a file is taken away first, and a second signal does not come between."""
    for each in ENDING:
        signal.signal(each, signal.SIG_IGN)
    raise SystemExit(128 + number)


if __name__ == "__main__":
    for ending in ENDING:
        if signal.getsignal(ending) != signal.SIG_IGN:  # as it is under nohup
            signal.signal(ending, stopped)
    sys.exit(main())
