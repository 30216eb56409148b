"""Pictures: what they show, and that nothing in them overlaps or sticks out."""
import math
import random
import re
import unittest
import xml.etree.ElementTree as ElementTree

from lizardwire import Answer, Job, Outline, Refused, svg
from lizardwire.draw import FAR, Item, Page, away, clearance_picture, cut, in_place, meeting, picture, width, within, wrap
from tests.support import BOW, COLLAR, HOOK, PANE, SLEEVE, SQUARE

SPACE = "{http://www.w3.org/2000/svg}"


OVER = [(8, 4), (12, 4), (12, 6), (8, 6)]
# Rings of a job, the refusal, and the edges that meet, each with its ring: a hole across the outer ring; with its closing repeat, drawn
# clockwise, the outer ring drawn clockwise, both; at a vertex of its own, of both, at the end of an edge that goes on; two holes.
MEETINGS = (
    ([PANE[0], OVER], 11, (0, 1), (1, 0)),
    ([PANE[0], OVER + OVER[:1]], 11, (0, 1), (1, 0)),
    ([PANE[0], OVER[::-1]], 11, (0, 1), (1, 0)),
    ([PANE[0][::-1], OVER], 11, (0, 1), (1, 0)),
    ([SQUARE, HOOK], 11, (0, 1), (1, 2)),
    ([SQUARE + SQUARE[:1], HOOK], 11, (0, 1), (1, 2)),
    ([SQUARE[::-1], HOOK + HOOK[:1]], 11, (0, 1), (1, 2)),
    ([SQUARE, HOOK[:1] + HOOK[:0:-1]], 11, (0, 1), (1, 0)),
    ([PANE[0], [(5, 4), (5, 6), (0, 5)]], 11, (0, 3), (1, 1)),
    ([PANE[0], [(5, 5), (10, 10), (4, 6)]], 11, (0, 1), (1, 0)),
    ([PANE[0], [(10, 0), (14, 0), (14, 4)]], 11, (0, 0), (1, 0)),
    ([PANE[0], PANE[1], [(5, 5), (7, 5), (7, 7), (5, 7)]], 12, (1, 1), (2, 0)),
    ([PANE[0], [(1, 1), (2, 1), (2, 2)], PANE[1], [(3, 5), (3, 4), (5, 5)]], 12, (2, 3), (3, 1)),
)
# The same where no edges meet, and the rings that are marked: a hole apart, around, within another, around another.
UNMET = (
    ([PANE[0], [(x + 20, y) for x, y in SQUARE]], 11, [1]),
    (PANE[::-1], 11, [1]),
    ([PANE[0], PANE[1], [(1, 1), (9, 1), (9, 9), (1, 9)]], 12, [1, 2]),
    ([PANE[0], [(1, 1), (9, 1), (9, 9), (1, 9)], PANE[1]], 12, [1, 2]),
)


def item(ring, distance=1, name="part", side="inset", up=True):
    job = Job.of(side, distance, ring)
    return Item(name, side, distance, job.rings, job.answer(), up)


def told(number, values, rings):
    return Item("part", "inset", 1, rings, Answer([], Refused(number, values)))


def parse(items, columns=None):
    return ElementTree.fromstring(picture(items, columns))


def classes(root, name):
    return [e for e in root.iter() if name in e.get("class", "").split()]


def texts(root, kind):
    return [t for g in root.iter(SPACE + "g") if g.get("class") == kind for t in g]


def points(element):
    numbers = [float(n) for n in re.findall(r"-?\d+\.?\d*", element.get("d"))]
    return list(zip(numbers[::2], numbers[1::2]))


class Pictures(unittest.TestCase):
    def test_source_and_cage(self):
        root = parse([item(SQUARE)])
        source, cage = classes(root, "source")[1], classes(root, "cage")[1]
        self.assertEqual((len(points(source)), len(points(cage))), (4, 4))
        self.assertEqual(len(classes(root, "vertex")), 2 + 4)
        said = [t.text for t in texts(root, "wide")]
        self.assertEqual(said, ["outline, as drawn", "its cage", "part", "inset 1", "cage of 4 vertices"])

    def test_north_is_up_for_jobs_and_down_as_drawn(self):
        triangle = [(0, 0), (9, 0), (0, 9)]
        up, down = (points(classes(parse([item(triangle, up=up)]), "source")[1]) for up in (True, False))
        self.assertGreater(up[0][1], up[2][1])
        self.assertLess(down[0][1], down[2][1])
        self.assertLess(up[0][0], up[1][0])
        self.assertLess(down[0][0], down[1][0])

    def test_one_scale_for_both_axes(self):
        p = points(classes(parse([item([(0, 0), (90, 0), (90, 30), (0, 30)])]), "source")[1])
        self.assertAlmostEqual(math.dist(p[0], p[1]), 3 * math.dist(p[1], p[2]), delta=0.1)

    def test_crossing_edges_are_marked(self):
        root = parse([item(BOW)])
        marks = classes(root, "mark")
        self.assertEqual(len(marks), 1 + 2)
        source = points(classes(root, "refused")[1])
        self.assertEqual([points(mark) for mark in marks[1:]], [[source[0], source[1]], [source[2], source[3]]])
        self.assertEqual(len(classes(root, "spot")), 1)
        self.assertEqual([t.text for t in texts(root, "phone") if t.get("class") == "edge"], ["0", "2"])
        self.assertIn("no, 9: edge 0 crosses edge 2", [t.text for t in texts(root, "wide")])

    def test_holes_are_marked(self):
        rings = PANE + [[(5, 5), (7, 5), (7, 7), (5, 7)]]
        both, one = told(12, {"first": 0, "second": 1}, rings), told(11, {"hole": 1}, rings)
        self.assertEqual(len(points(classes(parse([both]), "mark")[1])), 8)
        self.assertEqual(len(points(classes(parse([one]), "mark")[1])), 4)
        self.assertIn("fill-rule: evenodd", picture([one]))

    def test_edges_of_two_rings_are_marked(self):
        for rings, number, *pair in MEETINGS:
            one = item(rings)
            self.assertEqual((one.answer.refused.number, one.answer.refused.edges), (number, tuple(pair)), rings)
            root = parse([one])
            placed = iter(points(classes(root, "refused")[1]))
            source = [[next(placed) for _ in ring] for ring in rings]
            edges = [[source[ring][edge], source[ring][(edge + 1) % len(rings[ring])]] for ring, edge in pair]
            self.assertEqual([points(mark) for mark in classes(root, "mark")[1:]], edges, rings)
            spot = [float(classes(root, "spot")[0].get(name)) for name in ("cx", "cy")]
            self.assertLess(max(away(spot, *edge) for edge in edges), 0.03, rings)
            words = "edge {} of ring {} meets edge {} of ring {}".format(*(n for ring, edge in pair for n in (edge, ring)))
            self.assertIn(words, [title.text for title in root.iter(SPACE + "title")])
            for kind, size in Page(1).sizes():
                numbers = [t for t in texts(root, kind) if t.get("class") == "edge"]
                self.assertEqual([t.text for t in numbers], [str(edge) for _, edge in pair])
                self.assertIn("edges that meet", [t.text for t in texts(root, kind)])
                # Each number stands at its own edge.
                for t, edge, other in zip(numbers, edges, edges[::-1]):
                    at = float(t.get("x")), float(t.get("y")) - 0.36 * size
                    self.assertLess(away(at, *edge), away(at, *other), (rings, kind, t.text))

    def test_where_no_edges_meet_the_holes_are_marked(self):
        for rings, number, marked in UNMET:
            one = item(rings)
            self.assertEqual((one.answer.refused.number, one.answer.refused.edges), (number, None))
            # The picture is that of the refusal and its holes, however it was found.
            told = Refused(number, one.answer.refused.values)
            told.words = one.answer.refused.words
            self.assertEqual(picture([one]), picture([one._replace(answer=Answer([], told))]))
            root = parse([one])
            self.assertEqual([len(points(mark)) for mark in classes(root, "mark")[1:]], [sum(len(rings[ring]) for ring in marked)])
            self.assertEqual((len(classes(root, "spot")), len(list(root.iter(SPACE + "title")))), (0, 1))
            self.assertIn("where it fails", [t.text for t in texts(root, "wide")])

    def test_what_the_marks_are_called(self):
        met, unmet = item(MEETINGS[0][0]), item(UNMET[0][0])
        for items, words in (([item(BOW)], "edges that cross"), ([item(BOW), met], "edges that meet"), ([met, met], "edges that meet"),
                             ([met, unmet], "where it fails"), ([item(BOW), unmet], "where it fails"), ([item(SQUARE)], None)):
            said = [t.text for t in texts(parse(items), "wide")]
            for name in ("edges that cross", "edges that meet", "where it fails"):
                self.assertEqual(said.count(name), int(name == words), (words, name))

    def test_refused_in_words(self):
        root = parse([item(SQUARE, 2)])
        self.assertEqual(len(classes(root, "cage")), 0)
        self.assertEqual([t.text for t in classes(root, "no")][0], "no, 16: nothing is left: the margin 2 is too wide")

    def test_what_cannot_be_drawn(self):
        for rings in ([], [[(0.0, math.nan), (1, 1), (2, 2)]], [[(0.0, 1e300), (1, 1), (2, 2)]], [[(1.0, 1.0)] * 3]):
            root = parse([told(2, {"index": 1}, rings)])
            self.assertEqual([t.text for t in texts(root, "wide")].count("part"), 1)

    def test_words_that_xml_cannot_hold(self):
        root = parse([item(SQUARE, name='<a & "b">\x00\x1b\ud800')])
        self.assertIn('<a & "b">', classes(root, "name")[0].text)

    def test_it_is_as_wide_as_its_place(self):
        for count in (1, 2, 5):
            root = parse([item(SQUARE)] * count)
            self.assertEqual(root.get("width"), "100%")
            self.assertIsNone(root.get("height"))
            self.assertEqual(root.get("viewBox").split()[:2], ["0", "0"])
        self.assertEqual(len(texts(parse([item(SQUARE)] * 3, 3), "wide")), 2 + 3 * 3)


class InPlace(unittest.TestCase):
    def test_every_digit_is_kept(self):
        ring = [(0.1, 0.2), (9.3, 1 / 3), (7.7, 8.123456789012345)]
        for up in (False, True):
            one = item(ring, 0.5, "a & b", up=up)
            shapes, unread = svg.read(in_place([one]).encode())
            self.assertEqual((len(shapes), unread), (2, []))
            turn = -1 if up else 1
            self.assertEqual(shapes[0], ("a & b", [[(x, turn * y) for x, y in ring]]))
            self.assertEqual(shapes[1], ("a & b cage", [[(x, turn * y) for x, y in one.answer.rings[0]]]))

    def test_refused(self):
        root = ElementTree.fromstring(in_place([item(BOW)]))
        self.assertEqual([len(points(mark)) for mark in classes(root, "mark")], [2, 2])
        self.assertIn("part, inset 1: no, 9: edge 0 crosses edge 2", "".join(root.itertext()))

    def test_edges_of_two_rings(self):
        for rings, number, *pair in MEETINGS:
            for up in (False, True):
                root = ElementTree.fromstring(in_place([item(rings, up=up)]))
                turn = -1 if up else 1
                edges = [[rings[ring][edge], rings[ring][(edge + 1) % len(rings[ring])]] for ring, edge in pair]
                marks = [[(x, turn * y) for x, y in points(mark)] for mark in classes(root, "mark")]
                self.assertEqual(marks, edges)
                said = [title.text for title in root.iter(SPACE + "title")]
                self.assertIn(f"no, {number}: edge ", said[1])
                self.assertRegex(said[3], r"^edge \d of ring \d meets edge \d of ring \d$")
        for rings, number, _ in UNMET:
            root = ElementTree.fromstring(in_place([item(rings)]))
            self.assertEqual((classes(root, "mark"), len(list(root.iter(SPACE + "title")))), ([], 3))

    def test_all_is_in_the_box(self):
        root = ElementTree.fromstring(in_place([item(SQUARE, side="outset"), item([(50, 50), (60, 50), (60, 60)])]))
        left, top, wide, high = map(float, root.get("viewBox").split())
        for shape in root.iter(SPACE + "path"):
            for x, y in points(shape):
                self.assertTrue(left < x < left + wide and top < y < top + high)
        self.assertTrue(in_place([told(2, {"index": 0}, [])]).startswith("<svg"))


def odd(point, ring):
    """Whether a ray to the east crosses the ring an odd number of times."""
    x, y = point
    return sum((a[1] > y) != (b[1] > y) and x < a[0] + (y - a[1]) * (b[0] - a[0]) / (b[1] - a[1])
               for a, b in zip(ring, ring[1:] + ring[:1])) % 2


class Clearances(unittest.TestCase):
    def drawn(self, first, second, *more):
        """The picture; its words; where the two nearest points are in it."""
        root = ElementTree.fromstring(clearance_picture(Outline(first), Outline(second), ("one", "two"), *more))
        ends = [(float(end.get("cx")), float(end.get("cy"))) for end in classes(root, "end")[2:]]
        return root, [t.text for t in texts(root, "wide")], ends

    def test_from_close_by(self):
        root, said, (collar, tip) = self.drawn(COLLAR, SLEEVE)
        self.assertEqual(said, ["one", "two", "nearest points", "close-up", "0.2", "clearance 0.2"])
        self.assertEqual(root.find(SPACE + "title").text, "one and two: clearance 0.2")
        # The spike's tip, and below it, in the middle, the collar's upper edge.
        sleeve, below = (points(shape) for shape in classes(root, "source")[4:])
        self.assertIn(tip, sleeve)
        self.assertEqual((collar[0], collar[1]), (tip[0], min(y for _, y in below)))
        self.assertGreater(collar[1] - tip[1], 48)
        self.assertEqual(points(classes(root, "gap")[1]), [collar, tip])
        # The frame in the drawing is around the tip there.
        whole, frame = points(classes(root, "source")[2]), classes(root, "frame")[1]
        x, y, wide, high = (float(frame.get(key)) for key in ("x", "y", "width", "height"))
        self.assertEqual([x < p[0] < x + wide and y < p[1] < y + high for p in whole], [p == whole[2] for p in whole])

    def test_far_apart_and_inside(self):
        root, said, (first, second) = self.drawn(SQUARE, [(7, 8), (9, 8), (9, 9)])
        self.assertEqual((said, classes(root, "frame")), (["one", "two", "nearest points", "5", "clearance 5"], []))
        square, other = (points(shape) for shape in classes(root, "source")[2:])
        self.assertEqual((first, second), (square[2], other[0]))
        self.assertLess(second[1], first[1])
        _, _, (first, second) = self.drawn(SQUARE, [(7, 8), (9, 8), (9, 9)], False)
        self.assertGreater(second[1], first[1])
        # The larger one is drawn below, whichever is named first.
        for rings in (PANE, PANE[::-1]):
            root, said, _ = self.drawn(*rings)
            kinds = [shape.get("class") for shape in classes(root, "source")[2:]]
            self.assertEqual((kinds, said[-1]), (["source", "source other"][::1 if rings is PANE else -1], "clearance 4"))

    def test_they_meet(self):
        root, said, ends = self.drawn(SQUARE, HOOK)
        self.assertEqual((said, ends), (["one", "two", "edges that meet", "1", "0", "clearance 0: they meet"], []))
        self.assertEqual([len(points(mark)) for mark in classes(root, "mark")[1:]], [2, 2])
        self.assertIn("edge 1 of one meets edge 0 of two", [title.text for title in root.iter(SPACE + "title")])
        self.assertIn("<title>edge 1 of a &lt; meets edge 0 of &amp; </title>",
                      clearance_picture(Outline(SQUARE), Outline(HOOK), ("a <", "&\n")))

    def test_every_digit(self):
        root, said, _ = self.drawn(SQUARE, [(4.5, 4.5), (6, 5), (5, 6)])
        self.assertEqual(said[-2:], ["0.7071", "clearance 0.7071067811865476"])
        self.assertEqual([root.find(SPACE + "title").text, root.get("aria-label")], ["one and two: " + said[-1]] * 2)

    def test_outlines_are_wanted(self):
        for pair in ((Outline(SQUARE), HOOK), (HOOK, Outline(SQUARE))):
            with self.assertRaisesRegex(TypeError, "an Outline is wanted, and not list"):
                clearance_picture(*pair)

    def test_nothing_is_far_out(self):
        """A close-up is cut off before it is clipped; its points are there all the same."""
        large = [(-1e9, -1), (1e9, -1), (1e9, -1e9), (-1e9, -1e9)]
        for first, second in (([(0.2, 0.2), (0.2, 0.3), (0, 0.2)], [(0.3, 0.4), (0.1, 0.4), (0.3, 0.2)]),
                              (large, [(0, -0.999), (1e9, 1e9), (-1e9, 1e9)]), (large, [(x, -y - 1.999) for x, y in large])):
            root, said, _ = self.drawn(first, second)
            self.assertIn("close-up", said)
            shapes = [points(shape) for shape in classes(root, "source")[2:]]
            self.assertEqual([len(shapes), max(abs(c) for shape in shapes for p in shape for c in p)], [4, FAR])
            self.assertTrue(all(any(abs(c) == FAR for p in shape for c in p) for shape in shapes[2:]))

    def test_cut_off(self):
        """What is in the square is in the part, and nothing else of the square is."""
        self.assertEqual(within(SQUARE, 4), SQUARE)
        self.assertEqual(within([(0, 0), (8, 0), (0, 4)], 4), [(0, 0), (4, 0), (4, 2), (0, 4)])
        draw, tally = random.Random(8), [0, 0]
        for _ in range(200):
            ring = [(draw.uniform(-30, 30), draw.uniform(-30, 30)) for _ in range(draw.randint(3, 9))]
            part = within(ring, 10)
            self.assertTrue(all(abs(c) <= 10 + 1e-9 for p in part for c in p))
            for _ in range(20):
                point = draw.uniform(-10, 10), draw.uniform(-10, 10)
                self.assertEqual(odd(point, part), odd(point, ring))
                tally[odd(point, ring)] += 1
        self.assertGreater(min(tally), 1000)


class Room(unittest.TestCase):
    """No words overlap, and nothing sticks out, whatever the names and answers are."""

    def items(self):
        draw = random.Random(5)
        for k in range(40):
            count = draw.randint(3, 40)
            ring = [(draw.uniform(0, 100), draw.uniform(0, draw.choice((1, 50, 900)))) for _ in range(count)]
            if k % 3:
                ring = [((30 + 60 * draw.random()) * math.cos(2 * math.pi * j / count), 40 * math.sin(2 * math.pi * j / count))
                        for j in range(count)]
            name = "".join(draw.choice("abc defghimMW & 漢字é") for _ in range(draw.randint(0, 60)))
            yield item(ring, draw.choice((0, 0.5, 3, 1e-7, 123456.789, -2)), name, draw.choice(("inset", "outset")))

    def check(self, items, columns):
        self.check_root(parse(items, columns), Page(columns))

    def check_root(self, root, page):
        across, high = map(float, root.get("viewBox").split()[2:])
        for kind, size in page.sizes():
            boxes = []
            for t in texts(root, kind):
                x, y, wide = float(t.get("x")), float(t.get("y")), width(t.text or "", size, t.get("class") in ("name", "edge"))
                if t.get("class") == "edge":
                    x -= wide / 2
                boxes.append((x, y - 0.75 * size, x + wide, y + 0.2 * size, t.text))
            for k, a in enumerate(boxes):
                self.assertTrue(a[0] >= 0 and a[1] >= 0 and a[2] <= across + 1 and a[3] <= high, a)
                for b in boxes[:k]:
                    self.assertTrue(a[2] <= b[0] + 0.5 or b[2] <= a[0] + 0.5 or a[3] <= b[1] + 0.5 or b[3] <= a[1] + 0.5, (a, b))
        cut_off = [shape for group in root.iter(SPACE + "g") if group.get("clip-path") for shape in group]
        for shape in root.iter(SPACE + "path"):
            if "h40" not in shape.get("d") and "l40" not in shape.get("d") and shape not in cut_off:
                for x, y in points(shape):
                    self.assertTrue(0 <= x <= across and 0 <= y <= high, shape.get("d"))

    def test_two_outlines(self):
        """Far apart and near, one inside the other, meeting: in a close-up and without."""
        draw, columns = random.Random(7), []
        for k in range(90):
            count, size = draw.randint(3, 12), 3 * draw.random()
            gap = draw.choice((-1, 0, 1e-9, 0.00123456789, 0.1, 2, 40))
            middle = (size + 10 + gap, draw.uniform(-2, 12)) if k % 3 else (10 - gap - size, 5)
            ring = [(middle[0] - size * math.cos(2 * math.pi * j / count), middle[1] - size * math.sin(2 * math.pi * j / count))
                    for j in range(count)]
            names = tuple("".join(draw.choice("abc dmMW & 漢字é") for _ in range(draw.randint(0, 60))) for _ in range(2))
            outlines = [Outline(PANE[0]), Outline(ring)][::draw.choice((1, -1))]
            root = ElementTree.fromstring(clearance_picture(*outlines, names, draw.choice((True, False))))
            columns.append(2 if classes(root, "frame") else 1)
            self.check_root(root, Page(columns[-1]))
            marked = (0, 3) if outlines[0].meeting(outlines[1]) else (4, 0)
            self.assertEqual((len(classes(root, "end")), len(classes(root, "mark"))), marked)
        self.assertTrue(20 < columns.count(2) < 70)

    def test_it(self):
        items = list(self.items())
        for columns in (1, 2, 3, 5):
            self.check(items, columns)

    def test_rings_that_meet(self):
        draw, items = random.Random(6), []
        for _ in range(60):
            count, size = draw.randint(3, 12), draw.uniform(1, 8)
            middle = draw.uniform(-1, 11), draw.uniform(-1, 11)
            hole = [(middle[0] + size * math.cos(2 * math.pi * k / count), middle[1] + size * math.sin(2 * math.pi * k / count))
                    for k in range(count)]
            items.append(item([PANE[0], hole, PANE[1]]))
        self.assertGreater(sum(one.pair() is not None for one in items), 30)
        for columns in (1, 2, 5):
            self.check(items, columns)

    def test_a_phone_reads_twelve_pixels(self):
        for columns in (1, 2, 3, 5):
            page = Page(columns)
            self.assertAlmostEqual(page.phone * 360 / page.across, 12)


class Parts(unittest.TestCase):
    def test_wrap_and_cut(self):
        self.assertEqual(wrap("", 10, 100), [])
        for text in ("no, 9: edge 1 crosses edge 5", "a" * 200, "one two three four five six seven"):
            for room in (60, 100, 300):
                for line in wrap(text, 10, room):
                    self.assertLessEqual(width(line, 10), room)
        self.assertEqual(wrap("edge 0 crosses edge 2", 10, width("edge 0 crosses edge", 10)), ["edge 0 crosses", "edge 2"])
        self.assertEqual(cut("short", 10, 100), "short")
        self.assertTrue(cut("a rather long name", 10, 50).endswith("…"))

    def test_meeting(self):
        self.assertEqual(meeting((0, 0), (4, 4), (0, 4), (4, 0)), (2, 2))
        self.assertEqual(meeting((4, 0), (4, 4), (4, 4), (4, 2)), (4, 2))
        self.assertEqual(meeting((0, 0), (4, 0), (2, 0), (6, 0))[1], 0)
        # End to end, one turned round, and one upon the other.
        for a, b, c, d, at in (((0, 0), (4, 0), (4, 0), (6, 0), (4, 0)), ((4, 0), (0, 0), (4, 0), (6, 0), (4, 0)),
                               ((0, 0), (4, 0), (0, 0), (2, 0), (2, 0)), ((0, 0), (4, 0), (4, 0), (0, 0), (0, 0)),
                               ((0, 0), (4, 0), (4, 0), (4, 6), (4, 0)), ((1, 1), (1, 1), (0, 0), (4, 4), (1, 1))):
            self.assertEqual(meeting(a, b, c, d), at)
            self.assertEqual(meeting(c, d, a, b), at)


if __name__ == "__main__":
    unittest.main()
