"""What README.md shows of the package and of what is not covered is what the library answers, and what the header shows."""
import doctest
import os
import re
import unittest
from fractions import Fraction

from lizardwire import Outline, Place, Refused, inset
from tests.support import TOP
from tests.test_margin import ONE, PARTS, promised, units


def points(words):
    """The points of '(0,0),(−4,14)'."""
    return [(float(east), float(north)) for east, north in re.findall(r"\(([-.\d]+),([-.\d]+)\)", words.replace("−", "-"))]


def drawing(words):
    """A ring; or a square by two corners, and its hole."""
    if not words.startswith("the square"):
        return [points(words)]
    corners, hole = re.split(r", hole | with the hole ", words)
    (west, south), (east, north) = points(corners)
    return [[(west, south), (east, south), (east, north), (west, north)], points(hole)]


class Readme(unittest.TestCase):
    def setUp(self):
        self.path = os.path.join(TOP, "README.md")
        with open(self.path, encoding="utf-8") as stream:
            self.text = stream.read()
        self.rows = re.findall(r"^  \| (\S.*\)) \| ([\d.]+) \| (.*?) \| (.*) \|$", self.text, re.M)
        self.assertEqual(len(self.rows), 4)

    def test_the_example(self):
        told = doctest.testfile(self.path, module_relative=False, encoding="utf-8")
        self.assertGreater(told.attempted, 3)
        self.assertEqual(told.failed, 0)

    def test_what_a_cage_can_lack(self):
        for shape, distance, answer, _ in self.rows:
            area = re.search(r", area ([\d.]+)$", answer)
            if area:
                cage = inset(drawing(shape), float(distance))
                self.assertEqual(len(cage), 1)
                self.assertEqual(f"{Outline(cage.outer).area:.{len(area.group(1).split('.')[1])}f}", area.group(1))
            else:
                with self.assertRaises(Refused) as caught:
                    inset(drawing(shape), float(distance))
                no = caught.exception
                self.assertEqual((answer, no.collapses, no.divides), (f"{no.number}, c = d = 0, j = {no.joins}", 0, 0))

    def test_the_header_shows_the_same(self):
        with open(os.path.join(TOP, "include", "lizardwire.h"), encoding="utf-8") as stream:
            words = stream.read().replace("\n *", "")
        said = re.search(
            r"can be missing: (.*) inset by (\S+) gives one of two triangles; (.*) inset by (\S+) keeps (\S+) of an area of (\S+)\."
            r" Nor does (\d+) always .* left: (.*) inset by (\S+) gets it, and an area of (\S+) is left\.",
            words,
        )
        half, by, most, by_more, kept, due, number, square, by_less, left = said.groups()
        shown = [(drawing(half), by), (drawing(most), by_more), (drawing(square), by_less)]
        one, two, _, four = self.rows
        self.assertEqual(shown, [(drawing(shape), distance) for shape, distance, *_ in (one, two, four)])
        self.assertRegex(one[3], "^two such triangles:")
        self.assertEqual((f"the upper triangle, area {kept}", due), (two[2], two[3].split(",")[0]))
        self.assertEqual((number, left), (four[2].split(",")[0], four[3].split(",")[0]))

    def test_the_margins(self):
        rows = re.findall(r"^   \| ([\d.e]+) \| ([\d.e]+) \| (\S+) \|$", self.text, re.M)
        self.assertEqual(len(rows), 6)
        for extent, distance, margin in rows:
            exact = Fraction(promised(ONE, units(float(distance)), units(float(extent))), PARTS * ONE)
            self.assertEqual(exact, 0 if margin == "nothing" else Fraction(margin))

    def test_the_turns(self):
        rows = re.findall(r"^   \| (\(.*?\)) \| the (outline|point \(.*?\)) \| (.*?) \| (.*?) \|$", self.text, re.M)
        self.assertEqual(len(rows), 4)
        for shape, asked, answer, rounded in rows:
            self.assertNotEqual(answer, rounded)
            if asked == "outline":
                try:
                    Outline(points(shape))
                    told = "accepted"
                except Refused as no:
                    told = f"{no.number}, edges {no.values['first']} and {no.values['second']}"
            else:
                place = Outline(points(shape)).contains(points(asked)[0])
                told = "on the boundary" if place is Place.ON_BOUNDARY else place.name.lower()
            self.assertEqual(told, answer, shape)

    def test_nearer_between_vertices(self):
        shape, distance, corner, gap = re.search(r"(\(0,0\)\S*) inset (\S+) passes (\S+) at ([\d.]+)\.\n", self.text).groups()
        cage = Outline(inset(points(shape), float(distance)).outer)
        self.assertEqual(f"{cage.nearest(points(corner)[0]).distance:.2f}", gap)


if __name__ == "__main__":
    unittest.main()
