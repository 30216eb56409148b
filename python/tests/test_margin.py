"""The margin in true distance (R-10): asked of accepted insets of the library, in exact arithmetic.

Of an accepted inset at a distance above 0, the exact distance from each vertex of the cage to every edge of the source is at
least the distance, less twice the tolerance, less 1e-15 times the largest absolute coordinate of the source. The tolerance is
1e-9 × (1 + distance + extent), and the extent is that same coordinate. A double is read from its bits as a whole number of
units of 2^-1074; squares are compared as whole numbers. The judgement computes with no float.

In the folder above, `python3 -m tests.test_margin SEED SECONDS` draws insets for so long and prints what it met.
"""
import math
import os
import random
import struct
import sys
import time
import unittest
from fractions import Fraction

from lizardwire import Answer, Job, Outline, Refused, Region, _library, answer_line, inset
from tests.exact import units
from tests.support import PANE, SQUARE, TOP

# 1 in units; what a unit is divided by for a margin, and 1 for a ratio.
ONE, PARTS, DIGITS = 2 ** 1074, 10 ** 15, 10 ** 24


# ---- the judge

def promised(one, distance, largest):
    """The margin that is promised, in PARTS of a unit; 0 where that would be below 0."""
    tolerance = 10 ** 6 * (one + distance + largest)
    return max(PARTS * distance - 2 * tolerance - largest, 0)


def nothing_off(one, distance, largest):
    """The distance itself: more than is promised."""
    return PARTS * distance


def twice_as_far(one, distance, largest):
    """The margin promised at twice the distance."""
    return promised(one, 2 * distance, largest)


def nearest(point, start, end):
    """The point of an edge nearest to a point, as i and j: the fraction i / j of the way, the projection kept within the edge."""
    east, north = end[0] - start[0], end[1] - start[1]
    squared = east * east + north * north
    if squared == 0:
        return 0, 1
    return min(max((point[0] - start[0]) * east + (point[1] - start[1]) * north, 0), squared), squared


def squared_apart(point, start, end, i, j):
    """j² times the squared distance of a point from the fraction i / j of an edge."""
    east = j * (point[0] - start[0]) - i * (end[0] - start[0])
    north = j * (point[1] - start[1]) - i * (end[1] - start[1])
    return east * east + north * north


def edges(ring):
    """The edges of a ring, the one that closes it last."""
    return list(zip(ring, ring[1:] + ring[:1]))


class Judged:
    """A source and a cage, in whole numbers: how far each vertex of the cage is from each edge of the source."""

    def __init__(self, rings, distance, cage):
        numbers = [distance] + [number for ring in rings + cage for point in ring for number in point]
        whole = {number: units(number) for number in numbers}
        # A power of two that divides all of them is taken out. Nothing is rounded, and there is less to multiply.
        out = min((value & -value).bit_length() - 1 for value in (ONE, *whole.values()) if value)
        whole = {number: value >> out for number, value in whole.items()}

        def read(ring):
            return [(whole[east], whole[north]) for east, north in ring]

        self.one, self.distance = ONE >> out, whole[distance]
        self.largest = max(abs(number) for ring in rings for point in read(ring) for number in point)
        # Of each pair: ring and vertex of the cage, ring and edge of the source; the squared distance times j², and j.
        self.pairs = []
        sources = [(s, e, *edge) for s, ring in enumerate(rings) for e, edge in enumerate(edges(read(ring)))]
        for r, ring in enumerate(cage):
            for v, point in enumerate(read(ring)):
                for s, e, start, end in sources:
                    i, j = nearest(point, start, end)
                    self.pairs.append(((r, v, s, e), squared_apart(point, start, end, i, j), j))

    def margin(self, kind=promised):
        """The margin in PARTS of a unit."""
        return kind(self.one, self.distance, self.largest)

    def faults(self, kind=promised):
        """The pairs that are nearer than the margin."""
        squared = self.margin(kind) ** 2
        return [pair for pair, apart, j in self.pairs if squared * j * j > PARTS ** 2 * apart]

    def least(self):
        """The least ratio of the two squares, in DIGITS parts. The margin is above 0."""
        squared = self.margin() ** 2
        return min(DIGITS * PARTS ** 2 * apart // (squared * j * j) for _, apart, j in self.pairs)


# ---- drawn insets

def star(r, n, low):
    """A ring about (0, 0), within 1 of it."""
    far = [r.uniform(low, 1) for _ in range(n)]
    return [(k * math.cos(2 * math.pi * at / n), k * math.sin(2 * math.pi * at / n)) for at, k in enumerate(far)]


def skyline(r, n):
    """Columns side by side: right angles, edges on one line, narrow places."""
    ends = [0] + sorted(r.sample(range(1, 4 * n), n))
    ring = [(0, 0)] + [(end, 0) for end in ends[1:-1] if r.random() < 0.2] + [(ends[-1], 0)]
    for start, end in reversed(list(zip(ends, ends[1:]))):
        top = r.randint(n, 4 * n)
        ring += [(end, top), (start, top)]
    return [(east / (4 * n), north / (4 * n)) for (east, north), after in edges(ring) if (east, north) != after]


def lattice(r, n):
    """A star whose corners lie on a lattice: parallel edges, and events at the same time."""
    return [(round(east * 8) / 8, round(north * 8) / 8) for east, north in star(r, n, 0.3)]


def near_twins(r, ring):
    """The ring with some vertices doubled, the second of the two a little beside the first, or on the way to the next one."""
    doubled = []
    for start, end in edges(ring):
        doubled.append(start)
        if r.random() < 0.25:
            step = r.choice([0.5, 10 ** r.uniform(-16, -1), 10 ** r.uniform(-320, -1)])
            aside = r.choice([0, 0, 10 ** r.uniform(-16, -3), 5e-324])
            doubled.append((start[0] + step * (end[0] - start[0]) + aside, start[1] + step * (end[1] - start[1])))
    return doubled


def holes(r):
    """Holes about (0, 0), apart from each other: most of them are inside a star of radius 0.75 to 1."""
    n, turn = r.choice([1, 1, 2, 3, 5, 8]), r.uniform(0, 7)
    reach, size = (0.0, 0.3) if n == 1 else (0.35, 0.7 / n if n > 3 else 0.15)
    middles = [(reach * math.cos(turn + 2 * math.pi * k / n), reach * math.sin(turn + 2 * math.pi * k / n)) for k in range(n)]
    rings = [star(r, r.randint(3, 8), 0.5) for _ in range(n)]
    return [[(size / 2 * east + x, size / 2 * north + y) for east, north in ring] for (x, y), ring in zip(middles, rings)]


def begun(r, ring):
    """The ring begun at any vertex, in either direction."""
    at = r.randrange(len(ring))
    ring = ring[at:] + ring[:at]
    return ring[::-1] if r.random() < 0.5 else ring


def drawn(r):
    """A source and a distance."""
    kind = r.random()
    if kind < 0.3:
        rings = [star(r, r.randint(3, 24), r.choice([0.2, 0.5, 0.9]))]
    elif kind < 0.42:
        rings = [skyline(r, r.randint(2, 9))]
    elif kind < 0.58:
        rings = [lattice(r, r.randint(4, 14))]
    elif kind < 0.6:
        rings = [star(r, r.randint(60, 128), 0.95)]
    else:
        rings = [star(r, r.randint(3, 16), 0.75), *holes(r)]
    if r.random() < 0.3:
        rings = [near_twins(r, ring) for ring in rings]
    size = r.choice([1.0, 10 ** r.uniform(-6, 8.9), 10 ** r.uniform(-1, 4)])
    room, far = 9.9e8 - size, r.choice([0, 0, 0, size * r.uniform(-3, 3), 10 ** r.uniform(-3, 8.9)])
    east, north = (max(-room, min(room, far * r.choice([-1, 0, 1]))) for _ in range(2))
    rings = [begun(r, [(size * x + east, size * y + north) for x, y in ring]) for ring in rings]
    return rings, r.choice([size * r.uniform(0.001, 0.3), size * 10 ** r.uniform(-5, -1), 10 ** r.uniform(-9, math.log10(size) / 2)])


def as_it_is(ring, distance):
    """The inset of an outline that is handed in as it is: it has to pass 21 and nothing else."""
    out = _library.lent(_library.OUTLINE_NUMBERS)
    numbers = _library.numbers_in([number for point in ring for number in point])
    answer = _library.call("lw_inset", *numbers, distance, out, len(out))
    if answer.refusal:
        raise Refused(answer.refusal)
    return [_library.points(out[:2 * answer.count])]


def by_a_job(rings, distance):
    """The inset by a job line: what is judged is read from the answer line."""
    answer = Answer.read(answer_line(Job.of("inset", distance, rings).line().encode()))
    if answer.refused:
        raise answer.refused
    return answer.rings


def cage_of(r, rings, distance):
    """The cage, by one of the ways in; some rings have their first vertex once more at the end."""
    repeated = [ring + ring[:1] if r.random() < 0.2 else ring for ring in rings]
    way = r.random()
    if way < 0.2:
        return by_a_job(repeated, distance)
    if len(rings) == 1 and way < 0.35:
        return as_it_is(rings[0], distance)
    return Region(repeated).inset(distance).rings if way < 0.5 else inset(repeated, distance).rings


class Met:
    """What a run met."""

    def __init__(self, seed):
        self.random = random.Random(seed)
        self.tried = self.accepted = self.holed = self.above = self.pairs = self.above_pairs = self.unkept = self.short_of_twice = 0
        self.faults, self.least = [], None

    def ask(self):
        """One drawn inset."""
        rings, distance = drawn(self.random)
        self.tried += 1
        try:
            cage = cage_of(self.random, rings, distance)
        except Refused:
            return
        judged = Judged(rings, distance, cage)
        self.accepted += 1
        self.holed += len(rings) > 1
        self.pairs += len(judged.pairs)
        self.faults += [(rings, distance, cage, fault) for fault in judged.faults()]
        if judged.margin():
            self.above += 1
            self.above_pairs += len(judged.pairs)
            self.unkept += bool(judged.faults(nothing_off))
            self.short_of_twice += bool(judged.faults(twice_as_far))
            least = judged.least()
            self.least = least if self.least is None else min(least, self.least)

    def words(self):
        least = self.least or 0
        return "\n".join((
            f"{self.tried} tried, {self.accepted} accepted, {self.holed} of them with holes, {self.accepted - self.above} with margin 0",
            f"{self.pairs} pairs of a vertex and an edge, {self.above_pairs} of them with a margin above 0: {len(self.faults)} faults",
            f"least ratio of the two squares {least // DIGITS}.{least % DIGITS:024d}",
            f"of {self.above}, {self.unkept} do not keep the distance itself, {self.short_of_twice} not the margin of twice the distance"))


# ---- tests

class Judging(unittest.TestCase):
    def test_numbers_from_their_bits(self):
        r = random.Random(10)
        numbers = [struct.unpack("<d", struct.pack("<Q", r.getrandbits(64)))[0] for _ in range(2000)]
        for number in [0.0, -0.0, 1.0, -1.5, 0.1, 5e-324, -2.2e-308, 1e9, 1.7e308] + [x for x in numbers if math.isfinite(x)]:
            self.assertEqual(Fraction(units(number), ONE), Fraction(number))
        for number in (math.nan, math.inf, -math.inf):
            self.assertRaises(ValueError, units, number)

    def test_the_nearest_point(self):
        r = random.Random(10)
        sweep = sorted({Fraction(i, j) for j in range(1, 21) for i in range(j + 1)})
        met = set()
        for _ in range(200):
            point, start, end = ((r.randint(-3, 3), r.randint(-3, 3)) for _ in range(3))
            i, j = nearest(point, start, end)
            self.assertTrue(0 <= i <= j and j > 0)
            least = Fraction(squared_apart(point, start, end, i, j), j * j)
            swept = min(Fraction(squared_apart(point, start, end, at.numerator, at.denominator), at.denominator ** 2) for at in sweep)
            self.assertLessEqual(least, swept)
            if Fraction(i, j).denominator <= 20:
                self.assertEqual(least, swept)
                met.add((start == end, i == 0, i == j))
        # An edge of no length, its start, its end, and a point between.
        self.assertEqual(met, {(True, True, False), (False, True, False), (False, False, True), (False, False, False)})

    def test_the_margin_to_the_last_bit(self):
        # Distance 5 and extent 100: 5 - 2 × 1e-9 × 106 - 1e-15 × 100.
        square, margin = [(0.0, 0.0), (100.0, 0.0), (100.0, 100.0), (0.0, 100.0)], Fraction("4.9999997879999")
        self.assertEqual(Fraction(promised(ONE, 5 * ONE, 100 * ONE), PARTS * ONE), margin)
        near = float(margin)
        below, above = (near, math.nextafter(near, 5)) if Fraction(near) < margin else (math.nextafter(near, 0), near)
        self.assertTrue(Fraction(below) < margin <= Fraction(above))
        self.assertEqual(Judged([square], 5.0, [[(50.0, above), (above, 50.0)]]).faults(), [])
        self.assertEqual(Judged([square], 5.0, [[(50.0, below), (below, 50.0)]]).faults(), [(0, 0, 0, 0), (0, 1, 0, 3)])

    def test_no_margin_below_twice_the_tolerance(self):
        for distance, above in ((2e-9, False), (4e-9, False), (1e-8, False), (1.01e-8, True), (1e-7, True)):
            self.assertEqual(Judged([SQUARE], distance, [SQUARE]).margin() > 0, above)
        self.assertEqual(Judged([SQUARE], 0.0, [SQUARE]).margin(), 0)

    def test_the_largest_coordinate_is_of_all_rings(self):
        judged = Judged([SQUARE, [(2.0, -9.0)]], 1.0, [])
        self.assertEqual(judged.largest, 9 * judged.one)

    def test_a_vertex_moved_towards_an_edge(self):
        cage = inset(SQUARE, 1).rings
        self.assertEqual(Judged([SQUARE], 1.0, cage).faults(), [])
        # The margin is 1 - 1.2e-8 - 4e-15.
        nearer = 1 - 1.3e-8
        # Edge 3 is the one that closes the ring.
        for vertex, point, fault in ((0, (1.0, nearer), 0), (1, (4 - nearer, 1.0), 1), (2, (3.0, 4 - nearer), 2), (3, (nearer, 3.0), 3)):
            moved = [cage[0][:vertex] + [point] + cage[0][vertex + 1:]]
            self.assertEqual(Judged([SQUARE], 1.0, moved).faults(), [(0, vertex, 0, fault)])

    def test_a_vertex_moved_towards_a_hole(self):
        rings = [[(float(east), float(north)) for east, north in ring] for ring in PANE]
        cage = inset(rings, 1).rings
        self.assertEqual(Judged(rings, 1.0, cage).faults(), [])
        # The hole's corners are 4 and 6; its edge 3 closes it. The cage's second ring goes round the hole.
        for point, fault in (((5.0, 3.5), 0), ((6.5, 5.0), 1), ((5.0, 6.5), 2), ((3.5, 5.0), 3)):
            for ring in (0, 1):
                moved = [cage[at][:2] + [point] + cage[at][3:] if at == ring else cage[at] for at in (0, 1)]
                self.assertEqual(Judged(rings, 1.0, moved).faults(), [(ring, 2, 1, fault)])


class Insets(unittest.TestCase):
    def test_drawn(self):
        met = Met(10)
        for _ in range(900):
            met.ask()
        self.assertEqual(met.faults[:1], [])
        self.assertGreater(met.accepted, 400)
        self.assertGreater(met.holed, 150)
        self.assertGreater(met.above, 400)
        self.assertGreater(met.above_pairs, 150_000)
        # More than is promised is more than is kept: such a margin has faults.
        self.assertGreater(met.unkept, 300)
        self.assertGreater(met.short_of_twice, met.above * 9 // 10)
        # The nearest pair is nearly as near as the margin allows.
        self.assertLess(met.least, DIGITS + DIGITS // 1_000_000)

    def test_shapes_that_only_21_passed(self):
        # Crossed and folded rings, which are no outlines. Handed in as they are, some have an inset.
        r, accepted = random.Random(10), 0
        for _ in range(6000):
            ring = [(float(r.randint(0, 6)), float(r.randint(0, 6))) for _ in range(r.randint(3, 7))]
            distance = r.choice([0.125, 0.25, 0.5, 1.0])
            try:
                cage = as_it_is(ring, distance)
            except Refused:
                continue
            try:
                Outline(ring)
            except Refused:
                accepted += 1
                self.assertEqual(Judged([ring], distance, cage).faults(), [])
        self.assertGreater(accepted, 40)


def points(*numbers):
    """Points of a flat list."""
    return [(float(east), float(north)) for east, north in zip(numbers[::2], numbers[1::2])]


PLATE = points(0, 0, 4, 0, 4, 4, 0, 4)

# What a definition with a fault would have accepted: the fault, as oracle/mutants.edits names it; distance, source, cage, and
# the pairs that are too near.
WRONG = [
    ("no_gap_test_of_an_outline", 0.625, [points(3, 0, 2, 1, 3, 1, 3, 2, 0, 2, 0, 0)],
     [points(1.491116523516816, 0.625, 0.625, 1.4911165235168156, 0.625, 0.625)], [(0, 1, 0, 3)]),
    ("no_gap_test_of_a_region", 0.75, [PLATE, points(2, 1, 3, 1, 3, 3)],
     [points(0.75, 3.25, 0.75, 0.17705098312484202, 2.286474508437579, 3.25)], [(0, 1, 0, 0)]),
    ("no_closing_edge_in_the_gap_of_an_outline", 0.375, [points(2, 1, 3, 3, 0, 3, 1, 1, 0, 0, 1, 0)],
     [points(1.5, 0.8385254915624212, 2.3932372542187896, 2.625, 0.6067627457812104, 2.625)], [(0, 0, 0, 5)]),
    ("no_closing_edge_in_the_gap_of_a_region", 0.75, [PLATE, points(3, 3, 1, 3, 1, 2)],
     [points(0.17705098312484202, 0.75, 3.25, 0.75, 3.25, 2.286474508437579)], [(0, 0, 0, 3)]),
    ("no_closing_edge_in_the_gap_of_a_region", 1.5, [points(0, 0, 6, 0, 6, 6, 0, 6), points(5, 2, 4, 2, 4, 1), points(3, 3, 5, 3, 4, 5)],
     [points(1.5, 1.5, 2.5, 1.5, 2.4999999999999996, 4.500000000000001, 1.5, 4.5)], [(0, 2, 2, 2)]),
    ("gap_of_a_region_to_its_outer_ring_alone", 1.0, [points(4, 6, 1, 1, 0, 1, 6, 0, 5, 2), points(4, 3, 4, 1, 5, 1)],
     [points(3.137605453270724, 2.6190251238361086, 2.5222423927262563, 1.5934200229286608, 3, 1.5137937550497043)],
     [(0, 0, 1, 0), (0, 0, 1, 2)]),
]


class WrongDefinitions(unittest.TestCase):
    def test_what_they_accept_is_too_near(self):
        for name, distance, rings, cage, faults in WRONG:
            with self.subTest(name):
                self.assertEqual(Judged(rings, distance, cage).faults(), faults)

    def test_the_library_refuses_it(self):
        for name, distance, rings, _, _ in WRONG:
            with self.subTest(name), self.assertRaises(Refused) as caught:
                inset(rings, distance)
            self.assertEqual(caught.exception.number, 17)

    def test_the_names(self):
        with open(os.path.join(TOP, "oracle", "mutants.edits"), encoding="utf-8") as stream:
            named = [line[6:].rstrip() for line in stream if line.startswith("name: ")]
        self.assertEqual([name for name, *_ in WRONG if name not in named], [])


if __name__ == "__main__":
    if len(sys.argv) == 3:
        asked, end = Met(int(sys.argv[1])), time.monotonic() + float(sys.argv[2])
        while time.monotonic() < end:
            asked.ask()
        print(asked.words())
        sys.exit(bool(asked.faults))
    unittest.main()
