"""Exact turns (R-9): outlines, points, cages and regions that lie almost on a line, judged in whole numbers.

In the folder above, `python3 -m tests.test_turns SEED SECONDS` draws for so long and prints what it met.
"""
import math
import random
import sys
import time
import unittest
from collections import Counter

from lizardwire import Outline, Place, Refused, Region, _library, inset, outset
from tests import exact
from tests.exact import edges, on_ring, rings_share, rounded
from tests.support import PANE, SQUARE

MOST, LEAST = sys.float_info.max, 5e-324
BESIDE = [(2.6, 0.6), (0.1, 1.6), (1.5, 1.7), (1.85, 0.9)]
CROSSED = [(0.8, 0.3), (1.4, 3), (1.6, 1.2), (1.2, 2.1)]


# ---- the judge

def overlap(first, second):
    """Whether two edges, the second from the first's end, have more in common than that end."""
    (a, b), (_, c) = first, second
    return exact.on_segment(a, b, c) or exact.on_segment(c, a, b)


def first_pair(ring):
    """The first two edges that have a point in common and should not, in the order of `check_simple`; or None."""
    listed = edges(ring)
    for i, first in enumerate(listed):
        for j in range(i + 1, len(listed)):
            second = listed[j]
            if j == i + 1:
                bad = overlap(first, second)
            elif i == 0 and j == len(listed) - 1:
                bad = overlap(second, first)
            else:
                bad = exact.share(*first, *second)
            if bad:
                return i, j
    return None


def turns_back(ring):
    """Whether the ring is stored reversed: its area, rounded as the library's, is below 0."""
    (east, north), twice = ring[0], 0.0
    for (a, b), (c, d) in edges(ring):
        twice += (a - east) * (d - north) - (b - north) * (c - east)
    return twice < 0


def refused_pair(ring):
    """The edges that 9 has to name, those of the ring as it is given; or None."""
    if not turns_back(ring):
        return first_pair(ring)
    pair, last = first_pair(ring[:1] + ring[:0:-1]), len(ring) - 1
    return pair and (last - pair[1], last - pair[0])


# ---- what is drawn

def beside(r, a, b):
    """A point of the segment from a to b, each number moved by 0 to 3 steps."""
    t = r.choice((0.0, 1.0, 0.5, 0.25, r.random(), r.random()))
    return tuple(exact.moved(a[k] + (b[k] - a[k]) * t, r.choice((0, 0, r.randrange(-3, 4)))) for k in (0, 1))


def spot(r, size):
    """A point: of small whole or decimal numbers, or anywhere."""
    if r.random() < 0.5:
        step = r.choice((1.0, 0.5, 0.1, 0.05))
        return size * step * r.randrange(-30, 31), size * step * r.randrange(-30, 31)
    return size * r.uniform(-4, 4), size * r.uniform(-4, 4)


def finger(r):
    """A ring of 3 to 9 vertices, of which some lie almost on a line."""
    size = r.choice((1.0, 1.0, 1.0, 2.0 ** -20, 3e7, 1e-100))
    a, b = spot(r, size), spot(r, size)
    ring = [a, b] + [beside(r, a, b) for _ in range(r.randrange(1, 4))] + [spot(r, size) for _ in range(r.randrange(0, 4))]
    if r.random() < 0.5:
        ring += [beside(r, *r.sample(ring, 2))]
    r.shuffle(ring)
    return ring


def comb(r):
    """A ring along a line and back beside it, closed by a far vertex: simple, but for what is moved."""
    a, b = spot(r, 1.0), spot(r, 1.0)
    ways = sorted(r.random() for _ in range(r.randrange(2, 5)))
    there = [tuple(exact.moved(a[k] + (b[k] - a[k]) * t, r.randrange(-3, 4)) for k in (0, 1)) for t in ways]
    far = a[0] + b[1] - a[1], a[1] + a[0] - b[0]
    return [a] + there + [b, far] + ([beside(r, b, far)] if r.random() < 0.3 else [])


def dented(r):
    """A ring with a vertex that touches, or almost touches, the edge across."""
    a, b = spot(r, 1.0), spot(r, 1.0)
    c, d = ((at[0] - by * (b[1] - a[1]), at[1] + by * (b[0] - a[0])) for at, by in ((b, r.uniform(0.5, 2)), (a, r.uniform(0.5, 2))))
    ring, first = [a, b, c, beside(r, a, b), d][::r.choice((-1, 1))], r.randrange(5)
    return ring[first:] + ring[:first]


def made(ring):
    """The outline of a ring, or the refusal."""
    try:
        return Outline(ring), None
    except Refused as refusal:
        return None, refusal


class Drawn(unittest.TestCase):
    """What is drawn is judged; the counts show that each answer came, and that rounding would have told others."""

    def judge_outline(self, ring, met):
        while len(ring) > 1 and ring[0] == ring[-1]:
            ring = ring[:-1]
        _, refusal = made(ring)
        if refusal is not None and refusal.number in (4, 7):
            met["refused before"] += 1
            return
        self.assertEqual(refusal is not None and refusal.number == 27, exact.hairline(ring), ring)
        if refusal is not None and refusal.number in (27, 8):
            met[f"refused with {refusal.number}"] += 1
            return
        pair = refused_pair(ring)
        if refusal is None:
            self.assertIsNone(pair, ring)
            met["accepted"] += 1
        else:
            self.assertEqual((refusal.number, refusal.values), (9, pair and {"ring": 0, "first": pair[0], "second": pair[1]}), ring)
            met["refused with 9"] += 1

    def judge_place(self, ring, point, met):
        """The shape is handed in as it is: no check is asked of it."""
        numbers = [number for vertex in ring for number in vertex]
        answer = _library.call("lw_contains", *_library.numbers_in(numbers), *point)
        self.assertEqual(answer.refusal, 0, (ring, point))
        on = on_ring(point, ring)
        self.assertEqual(Place(answer.place) == Place.ON_BOUNDARY, on, (ring, point))
        met["on the boundary" if on else "beside it"] += 1
        met["rounding tells otherwise"] += on != exact.on_rounded(point, ring)

    def judge_cage(self, rings, cage, met):
        """No ring of it shares a point with the source, with another ring of it, or with itself but at a vertex."""
        for k, ring in enumerate(cage):
            self.assertIsNone(first_pair(ring), (rings, cage))
            for other in rings + cage[:k]:
                self.assertFalse(rings_share(ring, other), (rings, cage))
        met["cages"] += 1
        met["cages of more than one ring"] += len(cage) > 1

    def judge_offset(self, ring, r, met):
        outline, _ = made(ring)
        if outline is None:
            return
        size = math.sqrt(outline.area)
        for work in (outline.inset, outline.outset):
            try:
                self.judge_cage([outline.vertices], work(size * 10 ** r.uniform(-6, -0.5)).rings, met)
            except Refused as refusal:
                met[f"offset refused with {refusal.number}"] += 1

    def judge_region(self, r, met):
        """A hole that touches, or almost touches, the outer ring or another hole."""
        def scaled(ring, by, east, north):
            return [(east + by * a, north + by * b) for a, b in ring]

        outer = scaled(SQUARE, r.uniform(4, 6), r.uniform(-1, 1), r.uniform(-1, 1))
        outer[2] = outer[2][0] + r.uniform(-3, 3), outer[2][1] + r.uniform(-3, 3)
        sizes = (r.uniform(0.5, 1), 3, 6), (0.5, 9, 11)
        holes = [scaled(SQUARE, by, r.uniform(low, high), r.uniform(low, high)) for by, low, high in sizes]
        of = r.choice((outer, outer, holes[1]))
        holes[0][r.randrange(4)] = beside(r, *r.choice(edges(of)))
        rings = [outer, *holes]
        sharing = any(rings_share(a, b) for k, a in enumerate(rings) for b in rings[:k])
        try:
            region = Region(rings)
        except Refused as refusal:
            met[f"region refused with {refusal.number}, sharing a point: {sharing}"] += 1
            if refusal.number in (11, 12) and not sharing:
                # No point in common: then a vertex does not test inside, or tests inside another hole.
                inside = [Outline(outer).contains(vertex) == Place.INSIDE for hole in holes for vertex in hole]
                within = [Outline(a).contains(v) == Place.INSIDE for a, b in (holes, holes[::-1]) for v in b]
                self.assertTrue(not all(inside) or any(within), rings)
            return
        self.assertFalse(sharing, rings)
        met["region accepted"] += 1
        try:
            self.judge_cage(region.rings, region.inset(10 ** r.uniform(-6, -1)).rings, met)
        except Refused as refusal:
            met[f"offset refused with {refusal.number}"] += 1

    def judge_meeting(self, r, met):
        """Two rings, handed in as they are, of which the second touches, or almost touches, the first."""
        first = r.choice((comb, dented))(r)
        second = [beside(r, *r.choice(edges(first))) if r.random() < 0.6 else spot(r, 1.0) for _ in range(r.randrange(3, 9))]
        if r.random() < 0.4:
            # Beside its edges, so that the rings are apart more often.
            by = r.uniform(-20, 20)
            second = [(a + by, b) for a, b in second]
        rings = [first, second][::r.choice((-1, 1))]
        one, other = (Outline.stored([number for vertex in ring for number in vertex]) for ring in rings)
        due = exact.ring_pair(*rings)
        self.assertEqual(one.meeting(other), due, rings)
        met["apart" if due is None else "meet, second in the outer walk" if due[2] else "meet, first in the outer walk"] += 1
        met["not the lowest edge of the outer walk"] += bool(due and due[0])
        met["nor of the inner walk"] += bool(due and due[0] and due[1])

    def judge(self, r, met):
        for ring in (finger(r), comb(r), dented(r)):
            self.judge_outline(ring, met)
            for _ in range(3):
                self.judge_place(ring, beside(r, *r.choice(edges(ring))), met)
        self.judge_offset(comb(r), r, met)
        self.judge_region(r, met)

    def test_drawn(self):
        r, met = random.Random(9), Counter()
        for _ in range(400):
            self.judge(r, met)
        for what in ("accepted", "refused with 27", "refused with 9", "on the boundary", "beside it", "rounding tells otherwise", "cages",
                     "cages of more than one ring", "region accepted",
                     "region refused with 11, sharing a point: True", "region refused with 12, sharing a point: True"):
            self.assertGreater(met[what], 20, met)

    def test_meetings(self):
        r, met = random.Random(4), Counter()
        for _ in range(1500):
            self.judge_meeting(r, met)
        for what in ("apart", "meet, second in the outer walk", "meet, first in the outer walk", "not the lowest edge of the outer walk",
                     "nor of the inner walk"):
            self.assertGreater(met[what], 100, met)

    def test_tiny(self):
        """Shapes of the smallest numbers, handed in as they are."""
        r, met = random.Random(3), Counter()
        for _ in range(300):
            ring = [(LEAST * r.randrange(-3, 4), LEAST * r.randrange(-3, 4)) for _ in range(4)]
            for _ in range(4):
                self.judge_place(ring, (LEAST * r.randrange(-3, 4), LEAST * r.randrange(-3, 4)), met)
        self.assertGreater(min(met["on the boundary"], met["beside it"], met["rounding tells otherwise"]), 100, met)


class Case(unittest.TestCase):
    def refused(self, number, values, call, *arguments):
        with self.assertRaises(Refused) as caught:
            call(*arguments)
        self.assertEqual((caught.exception.number, caught.exception.values), (number, values))


class Examples(Case):
    """Rings, points and regions are rows of docs/DIFFERENCES.md: rounded turns tell each otherwise (oracle/tests/rounded.rs)."""

    def test_rings(self):
        """Rounded turns refused the first with 9, named the edges 0 and 3 of the second, and accepted the third."""
        self.assertEqual(Outline(BESIDE).vertices, BESIDE[:1] + BESIDE[:0:-1])
        self.assertEqual(Outline(BESIDE[::-1]).vertices, BESIDE[::-1])
        self.refused(9, {"ring": 0, "first": 0, "second": 2}, Outline, CROSSED)
        self.refused(9, {"ring": 0, "first": 1, "second": 3}, Outline, [(0.1, 0), (0.2, 0), (0.2, 0.1), (0.4, 0.3)])

    def test_points(self):
        for ring, point, place in (([(0.1, 0.4), (0.2, 0.4), (0.3, 0.2)], (0.2, 0.3), Place.INSIDE),
                                   ([(0, 0.4), (0.3, 0.1), (0.3, 0)], (0.2, 0.2), Place.OUTSIDE),
                                   ([(0.1, 0.2), (0.1, 0.4), (0.4, 0.7)], (0.2, 0.5), Place.ON_BOUNDARY),
                                   ([(0.1, 0.2), (0, 0.2), (0.7, 0.6)], (0.4, 0.4), Place.ON_BOUNDARY)):
            shape = Outline(ring)
            self.assertEqual(shape.contains(point), place, (ring, point))
            self.assertEqual((on_ring(point, ring), exact.on_rounded(point, shape.vertices)),
                             (place == Place.ON_BOUNDARY, place != Place.ON_BOUNDARY), (ring, point))

    def test_regions(self):
        def square(side):
            return [(0, 0), (side, 0), (side, side), (0, side)]

        inside = [[(0.7, 0.4), (0, 0.6), (0.6, 0)], [(0.1, 0.5), (0.5, 0.1), (0.5, 0.4)]]
        touching = [[(-0.09, 0.02), (-0.72, -0.12), (-0.54, -0.93), (0.09, -0.79)], [(-0.45, -0.06), (-0.48, -0.35), (-0.3, -0.31)]]
        apart = [square(1.1), [(0.7, 0.9), (0.4, 0.6), (0.8, 0.2)], [(0.2, 0.9), (0.2, 0.8), (0.6, 0.3)]]
        joined = [square(1.9), [(1.5, 1.7), (0.3, 0.9), (0.4, 1.2)], [(1.6, 1.5), (0.9, 1.3), (1.7, 0.5)]]
        self.assertEqual((len(Region(inside).rings), len(Region(apart).rings)), (2, 3))
        self.refused(11, {"hole": 0}, Region, touching)
        self.refused(12, {"first": 0, "second": 1}, Region, joined)

    def test_the_judge(self):
        """It tells what is told of E5 to E7, and what no rounding tells."""
        self.assertEqual(refused_pair([(0.0, 0.0), (4.0, 4.0), (4.0, 0.0), (0.0, 2.0)]), (0, 2))
        self.assertEqual(refused_pair([(0.0, 0.0), (4.0, 0.0), (4.0, 4.0), (4.0, 2.0), (0.0, 2.0)]), (1, 2))
        self.assertEqual((refused_pair(SQUARE), refused_pair(SQUARE[::-1]), refused_pair(BESIDE)), (None, None, None))
        self.assertEqual([on_ring(point, SQUARE) for point in ((4.0, 2.0), (2.0, 2.0), (4.0, 4.0), (4.0, 4.000000000000001))],
                         [True, False, True, False])
        a, b, c = (0.5, 0.5000000000000001), (12.0, 12.0), (24.0, 24.0)
        self.assertEqual((rounded(a, b, c), exact.turn(a, b, c), exact.turn(b, a, c)), (0.0, exact.LEFT, exact.RIGHT))
        self.assertEqual(exact.turn((0.0, math.nan), b, c), exact.UNKNOWN)

    def test_the_judge_of_clearances(self):
        """It tells R-1's spike from either side, 0 of bars that cross, and a gap of 0 of rings that are apart."""
        collar = [(-3.0, 0.0), (3.0, 0.0), (3.0, -2.0), (-3.0, -2.0)]
        sleeve = [(-5.0, 10.0), (-1.0, 6.0), (0.0, 0.2), (1.0, 6.0), (5.0, 10.0)]
        level, upright = ([(-e, -n), (e, -n), (e, n), (-e, n)] for e, n in ((3.0, 1.0), (1.0, 3.0)))
        apart = [(0.2, 0.2), (0.2, 0.3), (0.0, 0.2)], [(0.3, 0.4), (0.1, 0.4), (0.3, 0.2)]
        for first, second, met, sides, told in ((collar, sleeve, False, (2.9903617305345733, 0.2), 0.2),
                                                (level, upright, True, (2.0, 2.0), 0.0),
                                                (*apart, False, (0.0, 0.09999999999999998), 0.0)):
            self.assertEqual((min(exact.gaps(first, second)), min(exact.gaps(second, first))), sides)
            self.assertEqual([rings_share(first, second), rings_share(second, first)], [met, met])
            self.assertEqual([exact.clearance(first, second), exact.clearance(second, first)], [told, told])

    def test_beside_an_edge(self):
        """An edge along (1, 1): what is one step off it is not on the boundary."""
        shape = Outline([(0.5, 0.5), (24, 24), (0, 24)])
        for at in (0.5, 0.7, 12.0, 23.9):
            self.assertEqual(shape.contains((at, at)), Place.ON_BOUNDARY)
            for step in (-1, 1):
                self.assertNotEqual(shape.contains((at, exact.moved(at, step))), Place.ON_BOUNDARY)
                self.assertNotEqual(shape.contains((exact.moved(at, step), at)), Place.ON_BOUNDARY)


class Any(Case):
    """Numbers that are not finite or too large are refused before anything is worked out with them; a point may be any finite one."""

    def test_outlines_and_regions(self):
        for k, bad in enumerate((math.nan, math.inf, -math.inf, math.nan, 1e308, -1e308, MOST, -MOST)):
            numbers = [number for point in SQUARE for number in point]
            numbers[k] = bad
            ring = list(zip(numbers[::2], numbers[1::2]))
            number, alone, hole = 2, {"index": k}, {"index": 8 + k}
            if math.isfinite(bad):
                number, alone, hole = 5, {"ring": 0, "value": bad}, {"ring": 1, "value": bad}
            for call in (Outline, Region, lambda shape: inset(shape, 1), lambda shape: outset(shape, 1)):
                self.refused(number, alone, call, ring)
            self.refused(number, hole, Region, [PANE[0], ring])
            self.refused(number, hole, inset, [PANE[0], ring], 1)

    def test_distances(self):
        for bad in (math.nan, math.inf, -math.inf, 1e308, MOST):
            for call in (inset, outset):
                self.refused(13, {}, call, SQUARE, bad)
            self.refused(13, {}, inset, PANE, bad)

    def test_shapes_handed_in(self):
        out, square = _library.lent(_library.OUTLINE_NUMBERS), _library.numbers_in([number for point in SQUARE for number in point])
        for k, bad in enumerate((math.nan, math.inf, -math.inf, 1e308, -1e308, MOST, exact.moved(1e9, 1), exact.moved(-1e9, 1))):
            numbers = [number for point in SQUARE for number in point]
            numbers[k] = bad
            shape = _library.numbers_in(numbers)
            for name, *more in (("lw_contains", 2.0, 2.0), ("lw_contains", math.nan, 2.0), ("lw_nearest", 2.0, 2.0), ("lw_area",),
                                ("lw_inset", 1.0, out, len(out)), ("lw_inset", math.nan, out, len(out)),
                                ("lw_outset", 1.0, out, len(out)), ("lw_meeting", *square)):
                self.assertEqual(_library.call(name, *shape, *more).refusal, 21, (name, bad, k))
            self.assertEqual(_library.call("lw_meeting", *square, *shape).refusal, 21, (bad, k))

    def test_points(self):
        square = Outline(SQUARE)
        for bad in (math.nan, math.inf, -math.inf):
            self.refused(2, {"index": 0}, square.contains, (bad, 2))
            self.refused(2, {"index": 1}, square.contains, (2, bad))
            self.refused(2, {"index": 0}, square.contains, (bad, bad))
        for far in (1e308, -1e308, MOST, -MOST):
            for point in ((far, 2), (2, far), (far, far), (far, -far), (far, 0), (0, far), (far, 4), (far, LEAST), (LEAST, far)):
                self.assertEqual(square.contains(point), Place.OUTSIDE, point)
        for place, points in ((Place.INSIDE, ((LEAST, 2), (2, LEAST), (LEAST, LEAST))),
                              (Place.ON_BOUNDARY, ((LEAST, 0), (-0.0, 2), (2.0 ** -1022, 4))),
                              (Place.OUTSIDE, ((-LEAST, 2), (2, -LEAST), (-LEAST, 0), (-LEAST, -LEAST)))):
            for point in points:
                self.assertEqual(square.contains(point), place, point)

    def test_points_beside_a_slope(self):
        """Of any size. Only the line itself is told exactly: on which side of it a point tests is rounded."""
        slope = Outline([(0, 0), (4, 4), (0, 4)])
        for number in (LEAST, 3 * LEAST, 2.0 ** -1022, 1e-200, 1e-9, 3.3):
            self.assertEqual(slope.contains((number, number)), Place.ON_BOUNDARY, number)
            self.assertNotEqual(slope.contains((number, exact.moved(number, 1))), Place.ON_BOUNDARY, number)
            self.assertNotEqual(slope.contains((exact.moved(number, 1), number)), Place.ON_BOUNDARY, number)
            self.assertEqual(slope.contains((-number, -number)), Place.OUTSIDE, number)
        for far in (1e308, MOST):
            self.assertEqual((slope.contains((far, far)), slope.contains((-far, -far))), (Place.OUTSIDE, Place.OUTSIDE))


def main():
    seed, seconds = int(sys.argv[1]), float(sys.argv[2])
    r, met, stop = random.Random(seed), Counter(), time.monotonic() + seconds
    while time.monotonic() < stop:
        met["rounds"] += 1
        Drawn().judge(r, met)
        Drawn().judge_meeting(r, met)
    for what, count in sorted(met.items()):
        print(f"{what}: {count}")


if __name__ == "__main__":
    main()
