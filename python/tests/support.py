"""What the tests share."""
import os
import subprocess
import sys
import tempfile
import unittest

from lizardwire import Refused

HERE = os.path.dirname(os.path.abspath(__file__))
PYTHON = os.path.dirname(HERE)
TOP = os.path.dirname(PYTHON)

SQUARE = [(0.0, 0.0), (4.0, 0.0), (4.0, 4.0), (0.0, 4.0)]
BOW = [(0, 0), (4, 4), (4, 0), (0, 2)]
# Its edge 0 meets the square's edge 3 alone; the square's edge 1, its lowest, meets the edges 2 and 3 of this.
HOOK = [(2, 1), (-2, 1), (-2, 3), (6, 3)]
# The sleeve has a spike that comes within 0.2 of the collar; the collar's own vertices are 2.99 from the sleeve.
COLLAR = [(-3, 0), (3, 0), (3, -2), (-3, -2)]
SLEEVE = [(-5, 10), (-1, 6), (0, 0.2), (1, 6), (5, 10)]
PANE = [[(0, 0), (10, 0), (10, 10), (0, 10)], [(4, 4), (6, 4), (6, 6), (4, 6)]]
# A corner is cut off. Inset by that distance it has five vertices, two of them closer together than a drawing may have them.
CUT, NEARLY = [(0, 0), (4, 0), (4, 4), (1, 4), (0, 3)], 1.7071065

JOB = ("inset,3ff0000000000000,1,4,0000000000000000,0000000000000000,4010000000000000,0000000000000000,"
       "4010000000000000,4010000000000000,0000000000000000,4010000000000000")
ANSWER = ("ok,1,4,3ff0000000000000,3ff0000000000000,4008000000000000,3ff0000000000000,"
          "4008000000000000,4008000000000000,3ff0000000000000,4008000000000000")


def comb(count):
    """A ring of so many vertices."""
    return [(float(k), 1.0 + k % 2) for k in range(count - 2)] + [(float(count), 9.0), (0.0, 9.0)]


def flat(*rings):
    """The numbers of rings."""
    return [number for ring in rings for point in ring for number in point]


def run(*words, given=b"", **more):
    """``python -m lizardwire`` with these words: status, output, what went to standard error."""
    environment = {**os.environ, "PYTHONPATH": PYTHON, "PYTHONDONTWRITEBYTECODE": "1", **more}
    done = subprocess.run([sys.executable, "-m", "lizardwire", *words], input=given, capture_output=True, env=environment)
    return done.returncode, done.stdout, done.stderr.decode()


class Asked(unittest.TestCase):
    """A test of what is refused."""

    def refused(self, number, call, *arguments):
        """The refusal with this number."""
        with self.assertRaises(Refused) as caught:
            call(*arguments)
        self.assertEqual(caught.exception.number, number)
        return caught.exception


class Folder(unittest.TestCase):
    """A test with a folder of its own."""

    def setUp(self):
        folder = tempfile.TemporaryDirectory()
        self.addCleanup(folder.cleanup)
        self.folder = folder.name

    def put(self, name, text):
        """A file in the folder; its path."""
        path = os.path.join(self.folder, name)
        with open(path, "wb") as stream:
            stream.write(text if isinstance(text, bytes) else text.encode())
        return path

    def get(self, name):
        """What a file of the folder holds."""
        with open(os.path.join(self.folder, name), "rb") as stream:
            return stream.read().decode()
