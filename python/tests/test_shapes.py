"""Outlines, regions and cages: E1 to E14, bad input, and what a refusal says."""
import _ctypes
import math
import os
import pickle
import subprocess
import sys
import tempfile
import unittest
from decimal import Decimal
from fractions import Fraction
from unittest import mock

import lizardwire
from lizardwire import Events, LibraryMissing, Outline, Place, Refused, Region, _library, hypot, inset, outset
from tests.support import BOW, PANE, PYTHON, SQUARE, comb


class Examples(unittest.TestCase):
    def refused(self, number, values, call, *arguments):
        with self.assertRaises(Refused) as caught:
            call(*arguments)
        self.assertEqual((caught.exception.number, caught.exception.values), (number, values))
        return caught.exception

    def test_e1_too_few_points(self):
        self.refused(4, {"ring": 0, "found": 0}, Outline, [])
        self.refused(4, {"ring": 0, "found": 1}, Outline, [(1, 2), (1, 2)])

    def test_e2_a_closing_repeat_is_dropped(self):
        self.assertEqual(Outline(SQUARE + SQUARE[:1]).vertices, SQUARE)

    def test_e3_clockwise(self):
        self.assertEqual(Outline([(0, 0), (0, 4), (4, 4), (4, 0)]).vertices, SQUARE)

    def test_e4_flat(self):
        self.refused(8, {"ring": 0}, Outline, [(0, 0), (1, 0), (2, 0)])

    def test_e5_e6_edges_that_meet(self):
        self.refused(9, {"ring": 0, "first": 0, "second": 2}, Outline, BOW)
        self.refused(9, {"ring": 0, "first": 1, "second": 2}, Outline, [(0, 0), (4, 0), (4, 4), (4, 2), (0, 2)])

    def test_e7_contains(self):
        square = Outline(SQUARE)
        places = [square.contains(point) for point in ((2, 2), (4, 2), (5, 2))]
        self.assertEqual(places, [Place.INSIDE, Place.ON_BOUNDARY, Place.OUTSIDE])
        self.refused(2, {"index": 1}, square.contains, (2, math.nan))

    def test_e8_inset(self):
        cage = inset(SQUARE, 1)
        self.assertEqual(cage.rings, [[(1, 1), (3, 1), (3, 3), (1, 3)]])
        self.assertEqual((cage.events, cage.holes, len(cage)), (Events(0, 0, 0), [], 1))
        self.assertEqual(inset([SQUARE], 1).rings, cage.rings)

    def test_e9_nothing_is_left(self):
        refusal = self.refused(16, {"distance": 2.0}, inset, SQUARE, 2)
        self.assertEqual((refusal.collapses, refusal.divides, refusal.joins), (0, 0, 0))
        self.assertEqual(self.refused(16, {"distance": 3.0}, inset, SQUARE, 3).collapses, 1)

    def test_e10_outset(self):
        self.assertEqual(outset(SQUARE, 1).outer, [(-1, 5), (-1, -1), (5, -1), (5, 5)])

    def test_e11_a_region(self):
        cage = inset(PANE, 1)
        self.assertEqual(cage.holes, [[(3, 7), (3, 3), (7, 3), (7, 7)]])
        self.refused(17, {"distance": 2.0}, inset, PANE, 2)

    def test_e12_range(self):
        self.assertEqual(len(Outline([(0, 0), (1e9, 0), (0, 1e9)])), 3)
        above = math.nextafter(1e9, math.inf)
        self.refused(5, {"ring": 0, "value": above}, Outline, [(0, 0), (above, 0), (0, 1e9)])

    def test_e13_hypot(self):
        self.assertEqual(hypot(3, 4), 5)

    def test_e14_distances(self):
        self.refused(14, {"distance": -1.0}, inset, SQUARE, -1)
        self.refused(13, {}, inset, SQUARE, math.nan)
        self.refused(16, {"distance": 1e12}, inset, SQUARE, 1e12)
        self.assertEqual(inset(SQUARE, -0.0).outer, SQUARE)


class Questions(unittest.TestCase):
    def test_area_and_nearest(self):
        square = Outline(SQUARE)
        self.assertEqual(square.area, 16)
        self.assertEqual(square.nearest((7, 8)), (5, (4, 4)))
        self.assertEqual(square, Outline.from_numbers([0, 0, 4, 0, 4, 4, 0, 4]))
        self.assertEqual(hash(square), hash(Outline(SQUARE)))

    def test_bad_numbers(self):
        for number, call in ((1, lambda: Outline.from_numbers([0, 0, 1])), (2, lambda: Outline([(0, math.inf)])),
                             (6, lambda: Outline(comb(129))), (7, lambda: Outline([(0, 0), (4, 0), (4, 0), (0, 4)])),
                             (3, lambda: outset([], 1))):
            with self.assertRaises(Refused) as caught:
                call()
            self.assertEqual(caught.exception.number, number)

    def test_what_is_no_point(self):
        for ring in ([(0, 0, 0), (1, 0, 0), (0, 1, 0)], [(0,), (1,), (2,)]):
            with self.assertRaises(TypeError):
                Outline(ring)
        with self.assertRaises(ValueError):
            outset(PANE, 1)

    def test_many_vertices(self):
        cage = inset(comb(128), 0.01)
        self.assertGreater(len(cage.outer), 100)

    def test_points_of_any_sequence(self):
        self.assertEqual(inset([[0, 0], [4, 0], [4, 4], [0, 4]], 1).outer, inset(iter(SQUARE), 1).outer)
        for kind in (Decimal, Fraction, int):
            self.assertEqual(inset([(kind(x), kind(y)) for x, y in SQUARE], kind(1)), inset(SQUARE, 1))


class Regions(unittest.TestCase):
    def test_rings(self):
        region = Region(PANE)
        self.assertEqual(region.rings, PANE)
        self.assertEqual(region, Region.from_numbers([n for ring in PANE for point in ring for n in point], [4, 4]))
        self.assertEqual(Region(SQUARE).rings, [SQUARE])

    def test_refusals(self):
        small = [(1, 1), (2, 1), (2, 2), (1, 2)]
        for number, values, rings in (
                (3, {}, []),
                (4, {"ring": 1, "found": 2}, [PANE[0], [(1, 1), (2, 2)]]),
                (9, {"ring": 1, "first": 0, "second": 2}, [PANE[0], [(x + 1, y + 1) for x, y in BOW]]),
                (10, {"holes": 9}, [PANE[0]] + [[(x / 4 + k, y / 4) for x, y in small] for k in range(9)]),
                (11, {"hole": 0}, [small, PANE[0]]),
                (12, {"first": 0, "second": 1}, [PANE[0], small, small])):
            with self.assertRaises(Refused) as caught:
                inset(rings, 1)
            self.assertEqual((caught.exception.number, caught.exception.values), (number, values))

    def test_words_name_the_hole(self):
        with self.assertRaises(Refused) as caught:
            Region([PANE[0], [(1, 1), (math.nan, 1), (2, 2)]])
        self.assertEqual(caught.exception.words, "the east of vertex 1 of hole 0 is not a finite number")


class Words(unittest.TestCase):
    def test_a_rigger_understands(self):
        for call, words in (
                (lambda: inset(BOW, 1), "edge 0 crosses edge 2"),
                (lambda: inset(SQUARE, 2), "nothing is left: the margin 2 is too wide"),
                (lambda: inset(SQUARE, -1), "the distance -1 is below 0"),
                (lambda: inset([(0, 0), (1, 1)], 1), "the outline has 2 vertices: 3 are needed"),
                (lambda: inset([(0, 0), (1, math.nan), (3, 3)], 1), "the north of vertex 1 is not a finite number"),
                (lambda: inset(comb(200), 1), "the outline has more than 128 vertices")):
            with self.assertRaises(Refused) as caught:
                call()
            self.assertEqual(caught.exception.words, words)
            self.assertEqual(str(caught.exception), f"{words} (refusal {caught.exception.number})")

    def test_every_number_has_words(self):
        names = {name: 1 for fields in lizardwire.refusals.CARRIES.values() for name, _ in fields}
        for number in lizardwire.refusals.PLAIN:
            values = {name: names[name] for name, _ in lizardwire.refusals.CARRIES.get(number, ())}
            for carried in (values, None):
                self.assertGreater(len(Refused(number, carried).words), 10)

    def test_rings_by_name(self):
        few, crossed = {"ring": 1, "found": 2}, {"ring": 1, "first": 0, "second": 2}
        self.assertEqual(Refused(4, few).words, "hole 0 has 2 vertices: 3 are needed")
        self.assertEqual(Refused(4, few, of_result=True).words, "piece 1 of the cage has 2 vertices: 3 are needed")
        self.assertEqual(Refused(4, few, of_result=None).words, "ring 1 has 2 vertices: 3 are needed")
        self.assertEqual(Refused(9, crossed, of_result=None).words, "in hole 0, edge 0 crosses edge 2")

    def test_a_piece_is_named(self):
        with self.assertRaises(Refused) as caught:
            inset([(3, 0), (0, 4), (0, 0)], 1)
        self.assertEqual((caught.exception.number, caught.exception.words), (4, "piece 0 of the cage has 2 vertices: 3 are needed"))

    def test_pickled(self):
        refusal = pickle.loads(pickle.dumps(Refused(9, {"ring": 0, "first": 1, "second": 5}, events=(1, 2, 3))))
        self.assertEqual((refusal.number, refusal.values["second"], refusal.joins), (9, 5, 3))


class Finding(unittest.TestCase):
    def test_where_it_is_looked_for(self):
        with mock.patch.dict(os.environ, {"LIZARDWIRE_LIBRARY": ""}):
            places = _library.places()
        self.assertEqual([os.path.basename(place) for place in places], ["liblizardwire.so", "liblizardwire.so.3"] * 2)
        self.assertEqual([os.path.dirname(place) for place in places[:2]], [os.path.dirname(lizardwire.__file__)] * 2)
        self.assertTrue(all(os.path.dirname(place).endswith(os.path.join("target", "shared")) for place in places[2:]))

    def test_missing(self):
        with mock.patch.dict(os.environ, {"LIZARDWIRE_LIBRARY": "/no/such/file.so"}), mock.patch.object(_library, "_loaded", None):
            with self.assertRaises(LibraryMissing) as caught:
                hypot(3, 4)
        self.assertIn("/no/such/file.so", str(caught.exception))

    def test_a_copy_has_its_own(self):
        with tempfile.TemporaryDirectory() as folder:
            subprocess.run([os.path.join(PYTHON, "build"), folder], check=True)
            environment = {key: value for key, value in os.environ.items() if key != "LIZARDWIRE_LIBRARY"}
            code = "import lizardwire; lizardwire.hypot(3, 4); print(lizardwire._library.places()[0], lizardwire._library._loaded._name)"
            done = subprocess.run([sys.executable, "-c", code], cwd=folder, env={**environment, "PYTHONPATH": folder},
                                  check=True, capture_output=True, text=True)
            self.assertEqual(done.stdout.split(), [os.path.join(os.path.realpath(folder), "lizardwire", "liblizardwire.so")] * 2)

    def refused(self, path):
        """Why a file is not the library."""
        with mock.patch.dict(os.environ, {"LIZARDWIRE_LIBRARY": path}), mock.patch.object(_library, "_loaded", None):
            with self.assertRaises(LibraryMissing) as caught:
                hypot(3, 4)
        return str(caught.exception)

    @unittest.skipUnless(hasattr(_ctypes, "__file__"), "no other library is at hand")
    def test_another_library(self):
        """One that can be opened and lacks a function is told by the function's name."""
        self.assertIn("has no lw_version", self.refused(_ctypes.__file__))

    def test_not_a_library(self):
        self.assertIn("cannot be opened", self.refused(__file__))

    def test_another_interface(self):
        """The number in the library's own name says which functions it has, whatever the file is called."""
        library = _library.library()._name
        with open(library, "rb") as file:
            data = file.read()
        self.assertEqual(_library._interface(library), _library.INTERFACE)
        with tempfile.NamedTemporaryFile(suffix=".so") as other:
            other.write(data.replace(b"\0liblizardwire.so.3\0", b"\0liblizardwire.so.2\0"))
            other.flush()
            self.assertIn("is liblizardwire.so.2: this package is written for liblizardwire.so.3", self.refused(other.name))

    def test_an_older_version(self):
        with mock.patch.object(_library, "VERSION", 10 ** 6):
            self.assertRegex(self.refused(_library.library()._name), r"is of version \d+: this package needs 1000000 or later")
        self.assertEqual(lizardwire.version(), _library.VERSION)


if __name__ == "__main__":
    unittest.main()
