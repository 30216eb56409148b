"""Every question about outlines, regions and cages; an inset that is inset again; counts that are none."""
import copy
import math
import os
import pickle
import random
import sys
import unittest

import lizardwire
from lizardwire import Cage, Events, Job, Meeting, Nearest, NearestPoints, Outline, Place, Region, hypot, inset, outset
from tests import exact, typed
from tests.support import BOW, COLLAR, CUT, HOOK, JOB, NEARLY, PANE, SLEEVE, SQUARE, TOP, Asked, Folder, comb, flat

INNER = [(1.0, 1.0), (3.0, 1.0), (3.0, 3.0), (1.0, 3.0)]
BAD_COUNTS = ((-1, ValueError), (2 ** 64, ValueError), (-2 ** 64, ValueError), (2 ** 64 + 4, ValueError), (True, TypeError),
              (4.0, TypeError), ("4", TypeError), (None, TypeError))


def one_side(first, second):
    """The least distance from a vertex of the second to an edge of the first."""
    return min(first.nearest(vertex).distance for vertex in second.vertices)


class OfOutlines(Asked):
    def setUp(self):
        self.square = Outline(SQUARE)

    def test_measures(self):
        self.assertEqual((self.square.area, self.square.perimeter, self.square.extent), (16, 16, 4))
        moved = Outline([(x - 7, y) for x, y in SQUARE])
        self.assertEqual((moved.area, moved.perimeter, moved.extent), (16, 16, 7))

    def clear(self, first, second, due):
        """The clearance is that number, bit for bit, whichever is named first, and how far the nearest points are apart."""
        self.assertEqual([first.clearance(second).hex(), second.clearance(first).hex()], [float(due).hex()] * 2)
        met = first.meeting(second) is not None
        for one, two in ((first, second), (second, first)):
            near = one.nearest_points(two)
            self.assertEqual(near is None, met)
            if near:
                self.assertEqual([near.distance.hex(), hypot(*(a - b for a, b in zip(*near[1:]))).hex()], [float(due).hex()] * 2)
                self.assertTrue(near.of_first in one.vertices or near.of_second in two.vertices)
                self.assertLess(max(one.nearest(near.of_first).distance, two.nearest(near.of_second).distance), 1e-12)
        return met

    def test_clearance(self):
        self.clear(Outline(COLLAR), Outline(SLEEVE), 0.2)
        self.assertGreater(one_side(Outline(SLEEVE), Outline(COLLAR)), 2.9)
        # Nearest to the square: an edge, a vertex alone, a closing edge alone; inside, a vertex of the inner one; of the outer one.
        for ring, due in (([(x + 9, y) for x, y in SQUARE], 5), ([(5, 2), (9, 0), (9, 4)], 1), ([(10, 2), (12, 12), (2, 10)], hypot(2, 2)),
                          (INNER, 1)):
            self.assertFalse(self.clear(self.square, Outline.stored(flat(ring)), due))
        self.assertFalse(self.clear(Outline([(0, 0), (4, 0), (4, 4), (2, 3.25), (0, 4)]), Outline(INNER), 0.25))
        # They meet, where no vertex of either is near the other, too.
        for ring in (SQUARE, [(x + 2, y) for x, y in SQUARE], [(4, 2), (9, 0), (9, 4)], [(-3, 1), (7, 1), (7, 3), (-3, 3)]):
            self.assertTrue(self.clear(self.square, Outline(ring), 0))
        # So near that the gap is worked out as 0, and no meeting: points there are.
        sloping, tip = Outline([(5e-324, 0), (1, 0), (1, 1)]), Outline([(0, 0), (-1, 1), (-1, -1)])
        self.assertFalse(self.clear(sloping, tip, 0))
        for ask in (self.square.clearance, self.square.nearest_points):
            with self.assertRaises(TypeError):
                ask(SQUARE)

    def test_clearance_of_any(self):
        """Of drawn outlines, and of 128 vertices and 128; in many one side alone would not do."""
        draw, tally = random.Random(1), [0, 0, 0]
        pairs = [[Outline.stored([draw.randrange(12) + moved for _ in range(2 * draw.randint(3, 8))]) for moved in (0, moved)]
                 for moved in range(20) for _ in range(20)]
        for tooth in (0, 1, 62, 125):
            for side, north in enumerate((-1.8, 1.3)):
                rings = [comb(128), [(x + 0.5, -y - 0.5) for x, y in comb(128)]]
                rings[side][tooth] = rings[side][tooth][0], north
                pairs.append([Outline.stored(flat(ring)) for ring in rings])
        for first, second in pairs:
            sides = one_side(first, second), one_side(second, first)
            if self.clear(first, second, 0 if first.meeting(second) else min(sides)):
                tally[0] += 1
            else:
                tally[1] += sides[0] < sides[1]
                tally[2] += sides[1] < sides[0]
        self.assertGreater(min(tally), 30)

    def test_nearest_points(self):
        collar, sleeve = Outline(COLLAR), Outline(SLEEVE)
        near = collar.nearest_points(sleeve)
        self.assertIsInstance(near, NearestPoints)
        self.assertEqual((near.distance, near.of_first, near.of_second), (0.2, (0, 0), (0, 0.2)))
        self.assertEqual(sleeve.nearest_points(collar), (0.2, (0, 0.2), (0, 0)))
        # Of several as near: the lowest vertex of the first, then the lowest of the second.
        beyond = Outline([(x + 6, y) for x, y in SQUARE])
        self.assertEqual(self.square.nearest_points(beyond), (2, (4, 0), (6, 0)))
        self.assertEqual(beyond.nearest_points(self.square), (2, (6, 0), (4, 0)))
        inner = Outline(INNER[2:] + INNER[:2])
        self.assertEqual(self.square.nearest_points(inner), (1, (4, 3), (3, 3)))
        self.assertEqual(inner.nearest_points(self.square), (1, (3, 3), (4, 3)))
        # Vertex 0 of this one is as near as vertex 2 of the square.
        around = Outline([(5, 2), (14, 2), (14, 9), (-4, 9), (-4, 5), (12, 5)])
        self.assertEqual(self.square.nearest_points(around), (1, (4, 4), (4, 5)))
        self.assertEqual(around.nearest_points(self.square), (1, (5, 2), (4, 2)))

    def test_meeting(self):
        """The outline of fewer vertices is in the outer walk, of two with as many the first: the pair is not in the named order."""
        triangle, hook = Outline([(3, 3), (6, 3), (6, 6)]), Outline.stored(flat(HOOK))
        longer = Outline.stored(flat(HOOK, [(7, 2)]))
        for first, second, told, edges in ((self.square, triangle, (0, 1, True), (1, 0)), (triangle, self.square, (0, 1, False), (0, 1)),
                                           (self.square, hook, (1, 2, False), (1, 2)), (hook, self.square, (0, 3, False), (0, 3)),
                                           (self.square, longer, (1, 2, False), (1, 2)), (longer, self.square, (1, 2, True), (2, 1)),
                                           (self.square, self.square, (0, 0, False), (0, 0))):
            met = first.meeting(second)
            self.assertIsInstance(met, Meeting)
            self.assertEqual((met, (met.outer, met.inner, met.swapped)), (told, told))
            self.assertIs(met.swapped, told[2])
            self.assertEqual((met.edge_of_first, met.edge_of_second), edges)
            self.assertTrue(exact.share(*first.edge(met.edge_of_first), *second.edge(met.edge_of_second)))
        for apart in (Outline(INNER), Outline([(1, 1), (3, 1), (2, 3)]), Outline([(x + 5, y) for x, y in SQUARE])):
            self.assertIsNone(self.square.meeting(apart))
            self.assertIsNone(apart.meeting(self.square))
        with self.assertRaises(TypeError):
            self.square.meeting(SQUARE)

    def test_edges_are_counted_as_they_are(self):
        """Of an outline that is stored: one that runs clockwise, one with a closing repeat, which counts, one of 128 vertices."""
        triangle, hook = Outline([(3, 3), (6, 3), (6, 6)]), Outline.stored(flat(HOOK))
        self.assertEqual(Outline.stored(flat(SQUARE[::-1])).meeting(triangle), (0, 1, True))
        self.assertEqual(Outline(SQUARE[::-1]).meeting(triangle), (0, 2, True))
        self.assertEqual(Outline.stored(flat(SQUARE, SQUARE[:1])).meeting(hook), (0, 3, True))
        self.assertEqual(Outline(comb(128)).meeting(Outline([(-3, 5), (0, 6), (-3, 7)])), (0, 127, True))

    def test_vertices_and_edges(self):
        self.assertEqual([self.square.vertex(k) for k in range(4)], SQUARE)
        self.assertEqual([self.square.edge(k) for k in range(4)], self.square.edges)
        self.assertEqual(self.square.edges[3], ((0, 4), (0, 0)))
        self.assertEqual((self.square.vertex(-1), self.square.edge(-4)), ((0, 4), ((0, 0), (4, 0))))
        for k in (4, -5, 2 ** 64, -2 ** 64, 2 ** 64 + 1):
            for ask in (self.square.vertex, self.square.edge):
                with self.assertRaises(IndexError):
                    ask(k)
        for k in (True, 1.0, "1", None):
            with self.assertRaises(TypeError):
                self.square.vertex(k)

    def test_the_boundary(self):
        self.assertEqual(self.square.distance_to_boundary((7, 8)), 5)
        self.assertEqual(self.square.closest_boundary_point((7, 2)), (4, 2))
        self.refused(2, self.square.distance_to_boundary, (math.nan, 0))

    def test_as_it_is(self):
        clockwise = flat(SQUARE[::-1])
        self.assertEqual(Outline.stored(clockwise).numbers, clockwise)
        self.assertEqual(Outline.stored(self.square.numbers), self.square)
        # It is to run counter-clockwise, which is not asked.
        self.assertEqual(len(Outline.from_numbers(clockwise).inset(1)), 1)
        self.refused(17, Outline.stored(clockwise).inset, 1)
        for numbers in ([], [0, 0, 4, 0, 4], [0, 0, 4, 0], flat(comb(129)), [0, 0, 4, 0, 4, math.nan], [0, 0, 4, 0, 4, 1e10]):
            self.refused(21, Outline.stored, numbers)

    def test_an_inset_is_inset_again(self):
        cage = inset(CUT, NEARLY)
        self.assertEqual(len(cage.outer), 5)
        self.assertGreater(cage.outline.area, cage.inset(0.1).outline.area)
        self.assertEqual(cage.inset(0.1), cage.outline.inset(0.1))
        self.assertEqual(cage.outset(0).rings, cage.rings)
        # As it is, it is a shape.
        self.assertEqual(cage.outline.vertices, cage.outer)
        self.assertEqual(inset(SQUARE, 1).inset(0.5).outset(0.5).outline.area, 4)
        self.assertEqual(self.refused(16, inset(SQUARE, 1).inset, 1).values, {"distance": 1.0})


class OfRegions(Asked):
    def setUp(self):
        self.pane = Region(PANE)

    def test_measures(self):
        self.assertEqual((self.pane.area, self.pane.perimeter), (96, 48))

    def test_places(self):
        for point, place in (((1, 1), Place.INSIDE), ((5, 5), Place.OUTSIDE), ((4, 5), Place.ON_BOUNDARY), ((0, 5), Place.ON_BOUNDARY),
                             ((11, 5), Place.OUTSIDE)):
            self.assertIs(self.pane.contains(point), place)
        self.refused(2, self.pane.contains, (math.inf, 0))

    def test_the_boundary(self):
        self.assertEqual(self.pane.nearest((5, 4.5)), (0.5, (5, 4)))
        self.assertEqual((self.pane.distance_to_boundary((9, 5)), self.pane.closest_boundary_point((9, 5))), (1, (10, 5)))
        self.refused(2, self.pane.closest_boundary_point, (0, math.nan))

    def test_rings(self):
        self.assertEqual((self.pane.outer, self.pane.holes), (Outline(PANE[0]), [Outline(PANE[1])]))
        self.assertEqual(self.pane.hole(0), self.pane.hole(-1))
        for k in (1, -2, 2 ** 64):
            with self.assertRaises(IndexError):
                self.pane.hole(k)
        with self.assertRaises(TypeError):
            self.pane.hole(False)
        self.assertEqual(Region(SQUARE).holes, [])
        with self.assertRaises(IndexError):
            Region(SQUARE).hole(0)

    def test_of_outlines(self):
        outer, hole = Outline(PANE[0]), Outline(PANE[1])
        self.assertEqual(Region.of_outlines(outer, [hole]), self.pane)
        self.assertEqual(Region.of_outlines(outer), Region.without_holes(outer))
        self.assertEqual(Region.without_holes(outer).rings, [PANE[0]])
        self.assertEqual(self.refused(11, Region.of_outlines, hole, [outer]).values, {"hole": 0})
        self.assertEqual(self.refused(12, Region.of_outlines, outer, [hole, hole]).values, {"first": 0, "second": 1})
        # Outlines are taken as they are, also where they would not pass their check: flat, crossing, one point, closed.
        for numbers in ([0, 0, 1, 0, 2, 0], flat(BOW), [0] * 8, [0, 0, 1, 0, 0, 0]):
            refusal = self.refused(11, Region.of_outlines, Outline.stored(numbers), [Outline([(10, 10), (11, 10), (11, 11)])])
            self.assertEqual(refusal.words, "ring 1 lies apart from ring 0: each is an outline of its own")
        many = [Outline([(x / 8 + k, y / 8 + 1) for x, y in SQUARE]) for k in range(9)]
        self.assertEqual(self.refused(10, Region.of_outlines, Outline([(x - 1, y) for x, y in PANE[0]]), many).values, {"holes": 9})
        self.assertIn("hole 0 has 33 vertices", self.refused(21, Region.of_outlines, outer, [Outline(comb(33))]).words)
        with self.assertRaises(TypeError):
            Region.of_outlines(PANE[0], [hole])
        with self.assertRaises(TypeError):
            Region.without_holes(PANE[0])

    def test_as_it_is(self):
        numbers = flat(*PANE)
        self.assertEqual(Region.stored(numbers, [4, 4]), self.pane)
        self.assertEqual(Region.stored(self.pane.numbers, self.pane.lengths), self.pane)
        # Nor is it asked that holes run counter-clockwise: this cage runs over one that does not.
        turned = Region.stored(flat(PANE[0], PANE[1][::-1]), [4, 4])
        self.assertEqual((turned.area, len(turned.inset(1))), (96, 1))
        given = Region.of_outlines(Outline(PANE[0]), [Outline.stored(flat(PANE[1][::-1]))])
        self.assertEqual((given, len(given.inset(1))), (turned, 1))
        self.assertEqual(len(Region([PANE[0], PANE[1][::-1]]).inset(1)), 2)
        # Whether holes lie inside and apart is not asked.
        self.assertEqual(Region.stored(numbers * 2, [4] * 4).lengths, [4] * 4)
        for given, lengths in ((numbers[:-1], [4, 4]), (numbers, []), ([], []), (numbers, [4]), (numbers, [4, 4, 0]), (numbers, [6, 2]),
                               (flat(PANE[0]) * 10, [4] * 10), (flat(comb(129)), [129]), (flat(PANE[0], comb(33)), [4, 33]),
                               (numbers[:-1] + [math.nan], [4, 4]), (numbers[:-1] + [-2e9], [4, 4]), (numbers, [2 ** 64 - 1, 9])):
            self.refused(21, Region.stored, given, lengths)

    def test_an_inset_is_inset_again(self):
        once = self.pane.inset(0.5)
        twice = once.inset(0.5)
        self.assertEqual(len(twice), 2)
        self.assertEqual(once.region.area, 81 - 9)
        self.assertEqual(twice, once.region.inset(0.5))
        self.assertEqual(twice.region.area, self.pane.inset(1).region.area)
        self.refused(16, twice.inset, 2)
        for ask in (lambda: once.outline, lambda: once.outset(1)):
            with self.assertRaisesRegex(ValueError, "a cage of 2 rings is no outline"):
                ask()
        self.assertEqual(inset(SQUARE, 1).region, Region.without_holes(Outline(INNER)))


class Sample(Asked):
    """Regions of the sample: their answers are those of their outlines."""

    def test_regions(self):
        jobs = [job for job in lizardwire.read_jobs(os.path.join(TOP, "docs", "sample.jobs")) if len(job.counts) > 1]
        self.assertGreater(len(jobs), 2)
        draw = random.Random(11)
        for job in jobs:
            region = Region.from_numbers(job.numbers, job.counts)
            rings = [region.outer, *region.holes]
            self.assertEqual(region.numbers, [number for ring in rings for number in ring.numbers])
            self.assertAlmostEqual(region.area, region.outer.area - sum(hole.area for hole in region.holes))
            self.assertAlmostEqual(region.perimeter, sum(ring.perimeter for ring in rings))
            for _ in range(200):
                point = [draw.uniform(-1.2, 1.2) * region.outer.extent for _ in range(2)]
                inside = [ring.contains(point) is Place.INSIDE for ring in rings]
                self.assertEqual(region.contains(point) is Place.INSIDE, inside[0] and not any(inside[1:]))
                self.assertEqual(region.nearest(point), min(ring.nearest(point) for ring in rings))
            for vertex in rings[-1].vertices:
                self.assertIs(region.contains(vertex), Place.ON_BOUNDARY)
            self.assertEqual(Region.of_outlines(rings[0], rings[1:]), region)
            cage = job.answer()
            if not cage.refused:
                self.assertEqual(region.inset(job.distance).rings, cage.rings)


class Said(Asked):
    """What the documentation says of answers that one would not expect."""

    def test_past_the_largest_double(self):
        corner = sys.float_info.max, -sys.float_info.max
        for shape in (Outline(SQUARE), Region(PANE)):
            self.assertEqual(shape.nearest(corner), (0, corner))
            self.assertEqual((shape.distance_to_boundary(corner), shape.closest_boundary_point(corner)), (0, corner))
            self.assertIn("past the largest double", shape.nearest.__doc__)
            self.assertIn(":meth:`nearest`", shape.distance_to_boundary.__doc__)
        self.assertIn("past the largest double, the distance reads 0 and the point is the one asked", Nearest.__doc__)

    def test_a_hole_right_beside_the_outer_ring(self):
        region = Region([[(0.825897065619964, 0.8562508352412294), (15.39124853793309, 5.264144826356171),
                          (-2.174102934380036, 25.264144826356173)],
                         [(10.20842615453086, 3.6956738090765153), (11.850205399363, 4.192523396385756),
                          (10.72931577694693, 6.9440986027311355)]])
        point = 11.02931577694693, 3.9440986027311355
        self.assertEqual((region.contains(point), region.hole(0).contains(point)), (Place.OUTSIDE, Place.ON_BOUNDARY))
        self.assertEqual(region.nearest(point), (0, point))
        self.assertIn("it can be told outside", region.contains.__doc__)


class Counts(Asked):
    """A count is never wrapped: it is refused, or it is told that it is none."""

    def test_of_rings(self):
        for count, error in BAD_COUNTS:
            for make in (Region.from_numbers, Region.stored):
                with self.assertRaises(error):
                    make(flat(SQUARE), [count])
            with self.assertRaises(error):
                Job("inset", 1, [count], flat(SQUARE))
        for count in (2 ** 64 - 1, 2 ** 63, 0):
            self.refused(3, Region.from_numbers, flat(SQUARE), [count])
            self.refused(21, Region.stored, flat(SQUARE), [count])
        self.refused(3, Region.from_numbers, flat(SQUARE), [2 ** 63, 2 ** 63, 4])
        self.assertEqual(Job("inset", 1, [2 ** 63, 2 ** 63, 4], flat(SQUARE)).answer().refused.number, 3)

    def test_text_is_no_number(self):
        for make in (lambda: Outline([("0", "0"), ("4", "0"), ("4", "4")]), lambda: Outline(["00", "40", "44"]),
                     lambda: inset(SQUARE, "1"), lambda: Outline(SQUARE).contains("22"), lambda: Job("inset", "1", [4], flat(SQUARE)),
                     lambda: lizardwire.hypot("3", 4)):
            with self.assertRaises(TypeError):
                make()


class Places(unittest.TestCase):
    def test_it_is_not_true_or_false(self):
        for place in Place:
            with self.assertRaisesRegex(TypeError, "write `is Place.INSIDE`"):
                bool(place)
        with self.assertRaises(TypeError):
            if Outline(SQUARE).contains((9, 9)):
                self.fail("outside is not true")

    def test_it_is_an_enum_still(self):
        self.assertEqual([place.value for place in (Place.OUTSIDE, Place.ON_BOUNDARY, Place.INSIDE)], [0, 1, 2])
        self.assertIs(Place(2), Place.INSIDE)
        self.assertIs(Place["OUTSIDE"], Place.OUTSIDE)
        self.assertIs(pickle.loads(pickle.dumps(Place.INSIDE)), Place.INSIDE)
        self.assertEqual({Place.INSIDE: 1}[copy.deepcopy(Place.INSIDE)], 1)
        self.assertEqual(repr(Place.INSIDE), "<Place.INSIDE: 2>")


class Typed(Folder):
    """The program that mypy reads runs, too."""

    def test_it(self):
        self.assertEqual(typed.outlines(Outline(SQUARE)), (32, 9, 0, 4))
        self.assertEqual(typed.regions(Region(PANE)), [(0, 0), (96, 49)])
        self.assertEqual(typed.cages(0.5), inset(SQUARE, 1))
        self.assertIsNone(typed.cages(2))
        self.assertEqual(typed.jobs(self.put("a.jobs", JOB)), b"no,22\ncage of 4 vertices")


class Alike(unittest.TestCase):
    """Equal shapes have equal hashes; copies and pickles are equal; what is handed out is a copy."""

    def test_cages(self):
        one, two = inset(SQUARE, 1), Cage([INNER], Events(3, 0, 0))
        self.assertEqual((one, hash(one)), (two, hash(two)))
        self.assertNotEqual(one, inset(SQUARE, 0.5))
        self.assertNotEqual(one, one.rings)
        self.assertNotEqual(Cage([INNER, INNER], Events(0, 0, 0)), Cage([INNER + INNER], Events(0, 0, 0)))
        one.rings[0].clear()
        self.assertEqual(one.outer, INNER)

    def test_a_cage_reads_like_a_list(self):
        cage = inset(PANE, 1)
        self.assertEqual((list(cage), cage[0], cage[1:], cage[-1]), (cage.rings, cage.outer, cage.holes, cage.rings[1]))
        self.assertEqual((list(reversed(cage)), cage.index(cage.outer), cage.outer in cage), (cage.rings[::-1], 0, True))

    def test_copies(self):
        for shape in (Outline(SQUARE), Region(PANE), inset(PANE, 1), outset(SQUARE, 1)):
            for again in (copy.copy(shape), copy.deepcopy(shape), pickle.loads(pickle.dumps(shape))):
                self.assertEqual((again, hash(again), repr(again)), (shape, hash(shape), repr(shape)))

    def test_zeros(self):
        one, two = Outline([(0.0, 0.0), (4, 0.0), (4, 4)]), Outline([(-0.0, 0.0), (4, -0.0), (4, 4)])
        self.assertEqual((one, hash(one), repr(one.vertices)), (two, hash(two), repr(two.vertices)))
        region, left = Region.without_holes(two), Outline([(-0.0, -0.0), (-4, -0.0), (-4, -4), (-0.0, -4)])
        self.assertNotIn("-0.0", repr((two.numbers, two.edges, two.vertex(0), two.edge(0), two.edge(2), left.nearest((1, 1)),
                                       two.inset(0).rings, region.rings, region.numbers, Region.without_holes(left).nearest((1, 1)))))


if __name__ == "__main__":
    unittest.main()
