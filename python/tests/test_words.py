"""Refusals in words: those of words.txt, to which the Rust crate is held, too; and what the commands make of them."""
import copy
import math
import os
import pickle
import unittest
from types import SimpleNamespace

from lizardwire import Job, Outline, Refused, Region, refusals
from lizardwire.refusals import OF_POINT, Drawn, short
from lizardwire.shapes import _known
from tests.support import BOW, HERE, HOOK, JOB, PANE, SQUARE, Folder, run

OF = {"given": False, "result": True, "unknown": None, "point": False}


def rows():
    """The lines of words.txt, each as its cells."""
    with open(os.path.join(HERE, "words.txt"), encoding="utf-8") as stream:
        return [[cell.strip() for cell in line.split("|")] for line in stream if not line.startswith("#")]


def told(number, of, carried, lengths, numbers):
    """What the package says of a line's first cells."""
    *wholes, value = carried.split()
    answer = SimpleNamespace(refusal=int(number), value=float(value), **dict(zip(("ring", "first", "second"), map(int, wholes))))
    drawn = Drawn([float(n) for n in numbers.split()], [int(n) for n in lengths.split()]) if lengths or numbers else None
    known = OF_POINT if of == "point" else _known(answer, drawn) if drawn else None
    return refusals.refused(answer, of_result=OF[of], drawn=drawn, known=known).words


class Stored(unittest.TestCase):
    def test_each(self):
        for *cells, words in rows():
            self.assertEqual(told(*cells), words, cells)

    def test_all_are_there(self):
        found = {(int(row[0]), row[1]) for row in rows()}
        self.assertEqual({number for number, of in found if of == "unknown"} & set(refusals.PLAIN), set(refusals.PLAIN))
        for number in (2, 7, 11, 12, 21):
            self.assertIn((number, "given"), found)
        values = {row[2].split()[3] for row in rows()}
        self.assertLessEqual({repr(n) for n in (2.0, 0.1, 1e12, 1e-7, 1234567.875, -0.0)}, values)


class Numbers(unittest.TestCase):
    def test_as_a_person_writes_them(self):
        for number, text in ((2.0, "2"), (-0.0, "0"), (1e12, "1e12"), (1e-7, "1e-7"), (1 / 3, "0.333333333333"), (-1.5, "-1.5"),
                             (0.1 + 0.2, "0.3"), (math.inf, "inf"), (math.nan, "nan"), (3, "3")):
            self.assertEqual(short(number), text)


class OfDrawings(unittest.TestCase):
    def words(self, call, *arguments):
        with self.assertRaises(Refused) as caught:
            call(*arguments)
        return caught.exception.words

    def test_7_names_the_vertices(self):
        twice = [(0, 0), (4, 0), (4, 0), (0, 4)]
        self.assertEqual(self.words(Outline, twice), "vertices 1 and 2 of the outline are the same point")
        self.assertEqual(self.words(Outline.from_numbers, [0, 0, 4, 0, 4, 4, 0, 0, -0.0, 0]),
                         "vertices 3 and 0 of the outline are the same point")
        self.assertEqual(self.words(Region, [PANE[0], PANE[1][:2] + PANE[1][1:]]), "vertices 1 and 2 of hole 0 are the same point")
        self.assertEqual(Job.of("outset", 1, twice).answer().words(), "vertices 1 and 2 of the outline are the same point")
        with self.assertRaises(Refused) as caught:
            Outline(twice)
        self.assertEqual(caught.exception.values, {"ring": 0})

    def test_2_names_the_ring_of_a_job(self):
        self.assertEqual(Job("inset", 1, [3], [0, 0, 4, 0, math.nan, 4]).answer().words(), "the east of vertex 2 is not a finite number")
        self.assertEqual(self.words(Outline(SQUARE).contains, (0, math.inf)), "the north of the point is not a finite number")
        self.assertEqual(self.words(Region(PANE).nearest, (math.nan, 0)), "the east of the point is not a finite number")

    def test_a_number_alone_and_the_drawing(self):
        def words(number, numbers, lengths):
            return Refused(number).of_drawing(numbers, lengths).words
        square = [0, 0, 4, 0, 4, 4, 0, 4]
        self.assertEqual(words(7, [*square, 1, 1, 2, 2, 2, 2], [4, 3]), "vertices 1 and 2 of hole 0 are the same point")
        hole = [1, 1, 2, math.inf, 2, math.nan]
        self.assertEqual(words(2, [*square, *hole], [4, 3]), "the north of vertex 1 of hole 0 is not a finite number")
        for number in (2, 7):
            self.assertEqual(words(number, square, [4]), refusals.PLAIN[number])

    def test_islands_are_not_holes(self):
        island = [(x + 20, y) for x, y in SQUARE]
        for rings in ([PANE[0], island], [PANE[0], island[::-1]]):
            words = self.words(Region, rings)
            self.assertEqual(words, "ring 1 lies apart from ring 0: each is an outline of its own")
        self.assertEqual(self.words(Region.of_outlines, Outline(PANE[0]), [Outline(island)]), words)
        # Outlines are taken as they are: this one would not pass its check.
        bow = Outline.stored([number for x, y in BOW for number in (x + 20, y)])
        self.assertEqual(self.words(Region.of_outlines, Outline(PANE[0]), [bow]), words)
        self.assertEqual(self.words(Region, PANE[::-1]), "ring 1 lies around ring 0: the outer ring comes first")
        for by, first, second in (((0, 0), 0, 0), ((4, 0), 0, 0), ((4, 4), 1, 0), ((-4, 1), 2, 1)):
            beside = [(x + by[0], y + by[1]) for x, y in SQUARE]
            words = f"edge {second} of ring 1 crosses or touches edge {first} of ring 0"
            self.assertEqual(self.words(Region, [SQUARE, beside]), words)
            self.assertEqual(self.words(Region.of_outlines, Outline(SQUARE), [Outline(beside)]), words)

    def test_holes_that_are_not_apart(self):
        big, small = [(1, 1), (9, 1), (9, 9), (1, 9)], PANE[1]
        self.assertEqual(self.words(Region, [PANE[0], big, small]), "hole 1 lies inside hole 0")
        self.assertEqual(self.words(Region, [PANE[0], small, big]), "hole 0 lies inside hole 1")
        self.assertEqual(self.words(Region, [PANE[0], small, small]), "edge 0 of hole 0 crosses or touches edge 0 of hole 1")

    def test_edges_are_those_that_were_given(self):
        """Also where a ring is stored reversed, or without its closing repeat, or would not be a shape with it."""
        # As many vertices as a ring can have, the last of them on the hole's edge 1, and then the first one again.
        full = [(float(k), 1.0 + k % 2) for k in range(126)] + [(128.0, 9.0), (0.0, 9.0), (0.0, 1.0)]
        tip = [(-3.0, 5.0), (-3.0, 7.0), (0.0, 6.0), (-3.0, 5.0)]
        for outer, hole, first, second in ((SQUARE, HOOK, 1, 2), (SQUARE + SQUARE[:1], HOOK, 1, 2), (SQUARE, HOOK + HOOK[:1], 1, 2),
                                           (SQUARE[::-1], HOOK, 1, 2), (SQUARE, HOOK[::-1], 1, 0), (full, tip, 127, 1),
                                           (tip, full, 1, 127)):
            for number, rings in ((11, [outer, hole]), (12, [[(x * 50 - 999, y * 50 - 999) for x, y in SQUARE], outer, hole])):
                told = _known(SimpleNamespace(refusal=number, first=0, second=1),
                              Drawn([number for ring in rings for point in ring for number in point], list(map(len, rings))))
                self.assertEqual(told, ((number - 11, first), (number - 10, second)))

    def test_edges_of_a_closed_ring(self):
        """In words a closing repeat is no vertex, drawn or handed in; for `meeting` it is one, and the other outline has fewer."""
        words = "edge 2 of ring 1 crosses or touches edge 1 of ring 0"
        closed, hook = (Outline.stored([number for point in ring for number in point]) for ring in (SQUARE + SQUARE[:1], HOOK))
        self.assertEqual(self.words(Region, [SQUARE + SQUARE[:1], HOOK]), words)
        self.assertEqual(self.words(Region.of_outlines, closed, [hook]), words)
        self.assertEqual(closed.meeting(hook), (0, 3, True))
        # Without its repeat it would be no shape.
        back = Outline.stored([0, 20, 4, 20, 0, 20])
        self.assertEqual(self.words(Region.of_outlines, Outline(SQUARE), [back]), "ring 1 lies apart from ring 0: each is an outline of its own")

    def test_what_is_no_shape(self):
        self.assertEqual(self.words(Outline.stored, [0, 0, 4, 0]), "this is not a shape: the outline has 2 vertices, and not 3 to 128")
        self.assertEqual(self.words(Region.stored, [0, 0, 4, 0, 4, 4], []), "this is not a shape: there is no ring")
        self.assertEqual(self.words(Outline.stored, [0, 0, 4, 0, 4, 2e9]), "this is not a shape: the north of vertex 2 is not within 1e9")

    def test_copies_say_the_same(self):
        for rings, words, edges in ((PANE[::-1], "ring 1 lies around ring 0: the outer ring comes first", None),
                                    ([SQUARE, HOOK], "edge 2 of ring 1 crosses or touches edge 1 of ring 0", ((0, 1), (1, 2)))):
            with self.assertRaises(Refused) as caught:
                Region(rings)
            for again in (pickle.loads(pickle.dumps(caught.exception)), copy.copy(caught.exception)):
                self.assertEqual((str(again), again.words, again.number, again.values, again.of_result, again.edges),
                                 (f"{words} (refusal 11)", words, 11, {"hole": 0}, False, edges))

    def test_edges_of_a_refusal(self):
        """Of a 9 they are its values; of an 11 or a 12 what is known of the drawing, and the values stay."""
        self.assertEqual(Refused(9, {"ring": 1, "first": 3, "second": 7}).edges, ((1, 3), (1, 7)))
        for number, values in ((9, None), (11, {"hole": 0}), (12, {"first": 0, "second": 1}), (16, {"distance": 2.0})):
            self.assertIsNone(Refused(number, values).edges)
        for rings, number, values, edges in (
                ([SQUARE, HOOK], 11, {"hole": 0}, ((0, 1), (1, 2))),
                ([PANE[0], PANE[1], HOOK], 11, {"hole": 1}, ((0, 3), (2, 0))),
                ([PANE[0], PANE[1], PANE[1]], 12, {"first": 0, "second": 1}, ((1, 0), (2, 0))),
                (BOW, 9, {"ring": 0, "first": 0, "second": 2}, ((0, 0), (0, 2)))):
            refused = Job.of("inset", 1, rings).answer().refused
            self.assertEqual((refused.number, refused.values, refused.edges), (number, values, edges))
            self.assertEqual([edge.ring for edge in refused.edges], [edge[0] for edge in edges])


class Commands(Folder):
    TWICE = "inset,3ff0000000000000,1,4" + 2 * ",0000000000000000" + 2 * ",4010000000000000,0000000000000000" + 2 * ",4010000000000000"

    def test_7_in_words(self):
        jobs = self.put("a.jobs", self.TWICE + "\n")
        wanted = "job 1        inset 1        no, 7: vertices 1 and 2 of the outline are the same point\n"
        self.assertEqual(run("draw", jobs, "--words"), (0, wanted.encode(), ""))
        answers = self.put("a.answers", "no,7\n")
        self.assertEqual(run("draw", jobs, "--answers", answers, "--words"), (0, wanted.encode(), ""))
        answers = self.put("answers", "no,7;ring=0;wholes=;floats=\n")
        self.assertEqual(run("draw", jobs, "--words", "--answers", answers, LIZARDWIRE_LIBRARY="/none"), (0, wanted.encode(), ""))

    def test_islands_of_a_path(self):
        drawing = self.put("a.svg", '<svg xmlns="http://www.w3.org/2000/svg"><path id="two" d="M0 0h4v4h-4z M20 0h4v4h-4z"/></svg>')
        status, out, _ = run("draw", drawing, "--inset", "1", "--words")
        self.assertEqual(status, 0)
        self.assertIn(b"no, 11: ring 1 lies apart from ring 0: each is an outline of its own", out)
        self.assertNotIn(b"hole", out)
        status, _, said = run("draw", drawing, "--outset", "1")
        self.assertEqual((status, said.splitlines()[0]), (2, "lizardwire: two is not read: it has 2 rings, and an outset is of one"))

    def test_no_zero_has_a_sign(self):
        status, out, _ = run("inset", "-0.0", "-0,-0.0 4,-0 4,4 -0,4")
        self.assertEqual((status, out), (0, b"0,0 4,0 4,4 0,4\n"))
        zero = self.put("a.jobs", JOB.replace("3ff0000000000000", "8000000000000000"))
        self.assertIn(b"inset 0 ", run("draw", zero, "--words")[1])
        for words in ([], ["--in-place"]):
            self.assertNotRegex(run("draw", zero, *words)[1].decode(), r"-0(\.0+)?[^.\d]")


if __name__ == "__main__":
    unittest.main()
