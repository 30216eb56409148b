"""Edges that are too short for a drawing, 27: asked of rings and job lines, and of no outline, region or cage that is at hand."""
import copy
import math
import pickle
import random
import unittest
import xml.etree.ElementTree as ElementTree

from lizardwire import Cage, Job, Outline, Place, Refused, Region, Stream, _library, answer_line, hypot, inset, outset, svg
from lizardwire.draw import Item, in_place, picture
from lizardwire.jobs import Answer
from lizardwire.refusals import LEAST, _hairline
from tests import exact
from tests.support import BOW, CUT, NEARLY, PANE, SQUARE, Asked, Folder, comb, flat, run

BELOW = math.nextafter(LEAST, 0)
# A hair in the outline, and in a hole.
HAIR = [(0, 0), (4, 0), (4, 2), (4, 2.0000002), (0, 4)]
HAIR_HOLE = [(4, 4), (6, 4), (6, 6), (4, 4.0000001)]
OUTER = [(0, 0), (20, 0), (20, 20), (0, 20)]
# Regions whose insets by that distance have a hairline in the outer ring, and in the hole; and how many vertices are left a little later.
REGIONS = (
    ([[(0, 0), (20, 0), (20, 20), (1, 20), (0, 19)], [(9, 9), (11, 9), (11, 11), (9, 11)]], 0, [4, 4]),
    ([OUTER, [(5, 5), (15, 5), (15, 9), (10, 9), (9, 10), (9, 15), (5, 15)]], 1, [4, 6]),
)


class Doors(Asked):
    def at_the_door(self, *rings):
        """What every door says to these rings, which is the same: the refusal, or None."""
        job, numbers, lengths = Job.of("inset", 1, rings), flat(*rings), list(map(len, rings))
        try:
            Region(rings)
        except Refused as refusal:
            number, values = refusal.number, refusal.values
        else:
            self.assertNotEqual(job.answer().line(), "no,27")
            return None
        calls = [(Region.from_numbers, numbers, lengths), (inset, rings, 1), (inset, rings, math.nan), (outset, rings[:1], 1)]
        calls += [(Outline, rings[0]), (Outline.from_numbers, flat(rings[0]))] if len(rings) == 1 else []
        for call, *arguments in calls if len(rings) == 1 else calls[:3]:
            self.assertEqual(self.refused(number, call, *arguments).values, values)
        line = f"no,{number}".encode()
        self.assertEqual((job.answer().line().encode(), answer_line(job.line().encode())), (line, line))
        self.assertEqual(Stream().feed(job.line().encode() + b"\n"), line + b"\n")
        out = _library.lent(8)
        told = _library.call("lw_region_inset", *_library.numbers_in(numbers), *_library.wholes_in(lengths), 1.0, out, 8)
        self.assertEqual((told.refusal, told.ring, list(out)), (number, values.get("ring", 0), [0.0] * 8))
        return number, values

    def test_how_short(self):
        for length, told in ((LEAST, None), (BELOW, (27, {"ring": 0}))):
            for ring in ([(0, 0), (length, 0), (4, 4)], [(0, 0), (4, -4), (0, length)], [(0, -length), (4, 4), (0, 0)]):
                self.assertEqual(self.at_the_door(ring), told)
        for side, told in ((7.08e-7, None), (7e-7, (27, {"ring": 0}))):
            self.assertEqual(self.at_the_door([(0, 0), (side, side), (0, 4)]), told)
            self.assertEqual(self.at_the_door([(0, 0), (0, 4), (-side, side)]), told)
        far = math.nextafter(1e9, 0)
        self.assertIsNone(self.at_the_door([(1e9, 0), (far, 4), (0, 4)]))
        self.assertEqual(self.at_the_door([(1e9, 0), (1e9, 1e9), (far, 1e9), (0, 4)]), (27, {"ring": 0}))

    def test_closing_repeats(self):
        self.assertIsNone(self.at_the_door(SQUARE + SQUARE[:1]))
        self.assertEqual(self.at_the_door(SQUARE + 2 * SQUARE[:1]), (7, {"ring": 0}))
        self.assertEqual(self.at_the_door(SQUARE + [(5e-7, 0)] + SQUARE[:1]), (27, {"ring": 0}))
        self.assertEqual(self.at_the_door(SQUARE + [(5e-7, 0)]), (27, {"ring": 0}))

    def test_order(self):
        flat_one = [(0, 0), (1e-7, 0), (2, 0)]
        for rings, told in (
                ([flat_one], (27, {"ring": 0})), ([BOW + [(0, 1e-7)]], (27, {"ring": 0})), ([HAIR], (27, {"ring": 0})),
                ([HAIR + [(math.nan, 0)]], (2, {"index": 10})), ([HAIR[2:4]], (4, {"ring": 0, "found": 2})),
                ([HAIR + [(0, 2e9)]], (5, {"ring": 0, "value": 2e9})),
                ([comb(128) + [(0.0, 9.0000001)]], (6, {"ring": 0, "needed": 129, "room": 128})), ([HAIR + HAIR[-1:]], (7, {"ring": 0})),
                ([HAIR[:1] + HAIR], (7, {"ring": 0})), ([OUTER, HAIR_HOLE], (27, {"ring": 1})),
                ([OUTER, [(8, 8), (9, 8), (9, 9)], HAIR_HOLE], (27, {"ring": 2})), ([HAIR, HAIR_HOLE[:2]], (27, {"ring": 0})),
                ([OUTER, HAIR_HOLE, HAIR_HOLE[:2]], (27, {"ring": 1})), ([BOW, HAIR_HOLE], (9, {"ring": 0, "first": 0, "second": 2})),
                ([OUTER, [(x + 90, y) for x, y in HAIR_HOLE]], (27, {"ring": 1})), ([OUTER, HAIR_HOLE, HAIR_HOLE], (27, {"ring": 1})),
                ([OUTER, *[PANE[1]] * 8, HAIR_HOLE], (27, {"ring": 9}))):
            self.assertEqual(self.at_the_door(*rings), told, rings)
        self.refused(1, Outline.from_numbers, flat(HAIR)[:-1])
        self.refused(3, Region.from_numbers, flat(HAIR), [4])


class AsTheyAre(Asked):
    def test_the_least_length_without_the_library(self):
        """The package finds the edge by the length that the library tells, also where rounding decides."""
        draw, short = random.Random(7), 0
        for _ in range(3000):
            east = draw.uniform(0, 1e-6)
            north = math.sqrt(1e-12 - east * east)
            east, north = (exact.moved(number, draw.randrange(-2, 3)) for number in (east, north))
            self.assertEqual(_hairline((0.0, 0.0), (east, -north)), hypot(east, north) < LEAST)
            short += hypot(east, north) < LEAST
        self.assertTrue(500 < short < 2500, short)
        for east in (0.0, 1.0, math.nan, math.inf, -1e308):
            self.assertFalse(_hairline((1e308, 0.0), (east, 1e308)) or _hairline((0.0, 0.0), (east, 0.0)))
            self.assertFalse(_hairline((0.0, 1e308), (0.0, -1e308)) or _hairline((0.0, east), (0.0, math.nan)))

    def test_a_cage_with_a_hairline(self):
        cage = inset(CUT, NEARLY)
        (east, north), end = cage.outline.edge(3)
        self.assertTrue(2.3e-7 < hypot(end[0] - east, end[1] - north) < 2.4e-7)
        # Its ring is a drawing like any other.
        for call, *arguments in ((Outline, cage[0]), (Outline, cage.outer), (Region, cage.rings), (Region, [cage.outer]),
                                 (Outline.from_numbers, flat(cage.outer)), (Region.from_numbers, flat(cage.outer), [5]),
                                 (inset, cage.outer, 0.1), (inset, cage.rings, 0.1), (outset, cage.outer, 0.1)):
            refusal = self.refused(27, call, *arguments)
            self.assertEqual((refusal.values, refusal.edge), ({"ring": 0}, (0, 3)))
        job = Job.of("inset", 0.1, cage)
        self.assertEqual((job.answer().line(), answer_line(job.line().encode())), ("no,27", b"no,27"))
        # As it is.
        again = cage.inset(0.1)
        self.assertEqual(len(again.outer), 4)
        for vertex, corner in zip(again.outer, ((1.8071065, 1.8071065), (2.1928935, 1.8071065), (2.1928935, 2.1928935))):
            self.assertLess(math.dist(vertex, corner), 1e-6)
        outline = cage.outline
        for same in (inset(cage, 0.1), outline.inset(0.1), inset(outline, 0.1), inset(cage.region, 0.1), Region(cage).inset(0.1),
                     cage.region.inset(0.1), Region.without_holes(outline).inset(0.1), Region.of_outlines(outline).inset(0.1),
                     Outline.stored(outline.numbers).inset(0.1), Region.stored(outline.numbers, [5]).inset(0.1)):
            self.assertEqual(same, again)
        self.assertEqual(cage.outset(0.1), outset(cage, 0.1))
        self.assertEqual(cage.outset(0.1), outset(outline, 0.1))
        for shape in (outline, cage.region):
            self.assertTrue(shape.area > 0.34 and shape.perimeter > 2.3 and shape.nearest((2, 9)).distance > 6)
            self.assertIs(shape.contains((2, 2)), Place.INSIDE)
        self.assertTrue(outline.extent > 2.29 and outline.clearance(Outline(CUT)) > 1.7 and not outline.meeting(Outline(CUT)))
        self.assertEqual((outline.vertex(3), len(outline.edges)), (cage.outer[3], 5))
        for shape in (cage, outline, cage.region):
            for other in (copy.copy(shape), copy.deepcopy(shape), pickle.loads(pickle.dumps(shape))):
                self.assertEqual((other, other.inset(0.1)), (shape, again))

    def test_regions_with_a_hairline(self):
        for rings, ring, left in REGIONS:
            cage = Region(rings).inset(NEARLY)
            self.assertEqual(list(map(len, cage)), list(map(len, rings)))
            for call, *arguments in ((Region, cage.rings), (Region, list(cage)), (inset, cage.rings, 0.1),
                                     (Region.from_numbers, flat(*cage), [len(ring) for ring in cage])):
                self.assertEqual(self.refused(27, call, *arguments).values, {"ring": ring})
            again = cage.inset(0.1)
            self.assertEqual(list(map(len, again)), left)
            region = cage.region
            for same in (inset(cage, 0.1), region.inset(0.1), inset(region, 0.1), Region(cage).inset(0.1),
                         Region.of_outlines(region.outer, region.holes).inset(0.1), pickle.loads(pickle.dumps(region)).inset(0.1)):
                self.assertEqual(same, again)
            self.assertEqual(Region(again.rings), again.region)

    def test_cages_and_lists(self):
        """A cage that is made by hand is a cage; what is no shape is 21."""
        self.assertEqual(inset(Cage([SQUARE], None), 1).outer, inset(SQUARE, 1).outer)
        self.refused(21, inset, Cage([SQUARE[:2]], None), 1)
        self.refused(21, Region, Cage([], None))
        with self.assertRaisesRegex(ValueError, "a cage of 2 rings is no outline"):
            outset(inset(PANE, 1), 1)
        with self.assertRaises(TypeError):
            outset(Region(PANE), 1)


WORDS = "vertices 2 and 3 of the outline, at (4, 2), are 2e-7 apart: edge 2 is shorter than 0.000001"


class InWords(Folder):
    def test_the_edge_as_it_is_drawn(self):
        for ring, words, edge in (
                (HAIR, WORDS, 2), (HAIR + HAIR[:1], WORDS, 2),
                (HAIR[::-1], "vertices 1 and 2 of the outline, at (4, 2.0000002), are 2e-7 apart: edge 1 is shorter than 0.000001", 1),
                (HAIR[3:] + HAIR[:3], "vertices 4 and 0 of the outline, at (4, 2), are 2e-7 apart: edge 4 is shorter than 0.000001", 4)):
            refused = Job.of("outset", 1, ring).answer().refused
            self.assertEqual((refused.words, refused.edge, refused.edges), (words, (0, edge), None))
            for other in (pickle.loads(pickle.dumps(refused)), copy.copy(refused)):
                self.assertEqual((str(other), other.edge), (f"{words} (refusal 27)", (0, edge)))
        self.assertIsNone(Refused(27, {"ring": 0}).edge)

    def test_a_number_alone_and_the_drawing(self):
        refused = Refused(27).of_drawing(flat(OUTER, HAIR_HOLE), [4, 4])
        self.assertEqual(refused.words, "vertices 3 and 0 of hole 0, at (4, 4.0000001), are 1e-7 apart: edge 3 is shorter than 0.000001")
        self.assertEqual((refused.values, refused.edge), ({}, (1, 3)))
        for numbers, lengths in ((flat(SQUARE), [4]), ([], []), ([math.nan] * 8, [4]), ([1e308, -1e308, -1e308, 1e308], [2]), ([0.0], [1])):
            refused = Refused(27).of_drawing(numbers, lengths)
            self.assertEqual((refused.words, refused.edge), ("an edge is shorter than 0.000001", None))
            self.assertEqual(Refused(27, {"ring": 3}).of_drawing(numbers, lengths).words, "hole 2 has an edge shorter than 0.000001")

    def test_of_answer_lines(self):
        jobs, answers = self.put("a.jobs", Job.of("inset", 1, HAIR).line() + "\n"), self.put("a.answers", "no,27\n")
        wanted = f"job 1        inset 1        no, 27: {WORDS}\n".encode()
        self.assertEqual(run("draw", jobs, "--words"), (0, wanted, ""))
        self.assertEqual(run("jobs", jobs), (0, b"no,27\n", ""))
        full = self.put("b.answers", "no,27;ring=0;wholes=;floats=\n")
        for given in (answers, full):
            self.assertEqual(run("draw", jobs, "--words", "--answers", given, LIZARDWIRE_LIBRARY="/none"), (0, wanted, ""))
        told = run("draw", jobs, "--in-place", "--answers", answers, LIZARDWIRE_LIBRARY="/none")
        self.assertEqual((told[0], told[2]), (0, f"lizardwire: job 1: no, 27: {WORDS}\n"))
        self.assertEqual(run("inset", "1", "0,0 4,0 4,2 4,2.0000002 0,4"), (1, b"", f"lizardwire: no, 27: {WORDS}\n"))
        self.assertEqual(run("clearance", "a=0,0 4,0 4,2 4,2.0000002 0,4", "9,9 8,8 8,9"), (1, b"", f"lizardwire: a: no, 27: {WORDS}\n"))


SPACE = "{http://www.w3.org/2000/svg}"
TWICE = [(0, 0), (4, 0), (4, 2), (4, 2), (0, 4)]


def item(rings, up=True):
    job = Job.of("inset", 1, rings)
    return Item("part", "inset", 1, job.rings, job.answer(), up)


def shapes(root, name):
    return [shape for shape in root.iter() if shape.get("class") == name]


class InPictures(unittest.TestCase):
    def test_the_place_is_ringed(self):
        """In the outline and in a hole, drawn either way, with a closing repeat; and a vertex that stands twice (7)."""
        for rings, ring, edge in ((HAIR, 0, 2), (HAIR + HAIR[:1], 0, 2), (HAIR[::-1], 0, 1), ([OUTER, HAIR_HOLE], 1, 3), (TWICE, 0, 2),
                                  (TWICE[:1] + TWICE[4:] * 2 + TWICE[1:2], 0, 1), (SQUARE + [(0.0, 1e-7)], 0, 4)):
            for up in (True, False):
                one = item(rings, up)
                root = ElementTree.fromstring(picture([one]))
                legend, spot = ((float(shape.get("cx")), float(shape.get("cy"))) for shape in shapes(root, "spot"))
                drawn = [points.split("L") for points in shapes(root, "source refused")[1].get("d").strip("Z").replace("M", "").split("Z")]
                self.assertEqual("{:.2f} {:.2f}".format(*spot), drawn[ring][edge])
                self.assertEqual(legend, (20, 10))
                # The edge is a dot, and its number stands beside the ring.
                dot = shapes(root, "mark")[1].get("d").strip("M").split("L")
                self.assertEqual(dot, [drawn[ring][edge]] * 2)
                numbers = [(text.text, float(text.get("x")), float(text.get("y"))) for text in shapes(root, "edge")]
                self.assertEqual([text for text, _, _ in numbers], [str(edge)] * 2)
                for _, x, y in numbers:
                    self.assertTrue(10 < math.dist((x, y), spot) < 50)
                self.assertIn(one.words(), [title.text for title in root.iter(SPACE + "title")])
                self.assertIn("vertices too near", "".join(root.itertext()))

    def test_in_place(self):
        for rings, ring, edge in (([HAIR], 0, 2), ([OUTER, HAIR_HOLE], 1, 3), ([TWICE], 0, 2)):
            for up in (True, False):
                one = item(rings, up)
                text = in_place([one])
                root = ElementTree.fromstring(text)
                place, turn = rings[ring][edge], -1 if up else 1
                after = rings[ring][(edge + 1) % len(rings[ring])]
                (mark,), (spot,) = shapes(root, "mark"), shapes(root, "spot")
                ends = [tuple(map(float, end.split())) for end in mark.get("d").strip("M").split("L")]
                self.assertEqual(ends, [(place[0], turn * place[1]), (after[0], turn * after[1])])
                corners = [tuple(map(float, end.split())) for end in spot.get("d").strip("MZ").split("L")]
                wide = 4 if ring == 0 else 20
                self.assertEqual(len(corners), 4)
                for corner in corners:
                    self.assertAlmostEqual(math.dist(corner, ends[0]), 0.03 * wide)
                self.assertIn(one.words(), [title.text for title in root.iter(SPACE + "title")])
                # It can be read again, all of it.
                self.assertEqual(svg.read(text.encode())[1], [])

    def test_where_it_is_not_known(self):
        for refused in (Refused(27), Refused(27, {"ring": 0}), Refused(27).of_drawing(flat(SQUARE), [4])):
            one = Item("part", "inset", 1, [SQUARE], Answer([], refused))
            for text in (picture([one]), in_place([one])):
                root = ElementTree.fromstring(text)
                self.assertEqual((shapes(root, "spot"), shapes(root, "mark")), ([], []))
        # An answer of another drawing.
        other = Item("part", "inset", 1, [SQUARE], Answer([], Refused(27).of_drawing(flat(OUTER, HAIR_HOLE), [4, 4])))
        self.assertEqual(shapes(ElementTree.fromstring(picture([other])), "spot"), [])


if __name__ == "__main__":
    unittest.main()
