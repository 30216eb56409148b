"""tools/refusals tells each place that does not have what docs/REFUSALS.md says."""
import os
import shutil
import subprocess
import sys

from tests.support import TOP, Folder

PLACES = (
    "README.md", "crates/error/specs/Refusals.antt", "crates/error/src/lib.rt", "docs/REQUIREMENTS.md",
    "docs/DECISIONS.md", "include/lizardwire.h", "oracle/src/answer.rs", "python/lizardwire/refusals.py",
    "python/tests/words.txt", "rust/src/refusal.rs", "rust/src/words.rs", "tools/places",
)
TABLE = "docs/REFUSALS.md"

# A place, what stands there, what an error would put there.
ERRORS = (
    ("README.md", "| 16 | nothing is left at that distance | the distance |\n", ""),
    ("README.md", "| ring, needed, room |", "| ring, room, needed |"),
    ("crates/error/specs/Refusals.antt", "question = 15;", "question = 19;"),
    ("crates/error/specs/Refusals.antt", "needed ∷ room ∷ []", "room ∷ needed ∷ []"),
    ("crates/error/src/lib.rt", "Refusal::Slots(_) => 15", "Refusal::Slots(_) => 19"),
    ("crates/error/src/lib.rt", "Negative(f64)", "Negative(usize)"),
    ("crates/error/src/lib.rt", "told(9, ring, first, second, 0.0)", "told(9, ring, second, first, 0.0)"),
    ("docs/REQUIREMENTS.md", "`Refusal::Far`,", "`Refusal::Negative`,"),
    ("docs/DECISIONS.md", "Numbers 1 to 22 and 27", "Numbers 1 to 22"),
    ("docs/REQUIREMENTS.md", "the numbers 1 to 22 and 27", "the numbers 1 to 22 and 27 and 28"),
    ("include/lizardwire.h", "a coordinate beyond +-1e9 ", "a coordinate beyond +-1e8 "),
    ("include/lizardwire.h", "first: 387, value: what remained", "first: 387"),
    ("include/lizardwire.h", 'return "the distance is below 0"', 'return "the distance is 0"'),
    ("include/lizardwire.h", 'case LW_REFUSED_SHORT: return "the lent memory', 'case LW_REFUSED_SHAPE: return "the lent memory'),
    ("oracle/src/answer.rs", "&[iterations as usize], &[residual]", "&[iterations as usize], &[]"),
    ("oracle/src/answer.rs", "{ distance } => Refusal::of(16,", "{ distance } => Refusal::of(17,"),
    ("oracle/src/answer.rs", "Err(Refusal::of(13, &[], &[]))", "Err(Refusal::of(22, &[], &[]))"),
    ("python/lizardwire/refusals.py", '12: (("first", "first"), ("second", "second"))', '12: (("first", "second"), ("second", "first"))'),
    ("python/lizardwire/refusals.py", 'this is not a job line"', 'this is no job"'),
    ("python/lizardwire/refusals.py", '    17: "at {distance}', '    170: "at {distance}'),
    ("python/lizardwire/refusals.py", "{room} vertices", "{most} vertices"),
    ("python/tests/words.txt", "19 | unknown | 0 3 0 0.0 |  |  | 3 holes would be left: 8 is the limit\n", ""),
    ("python/tests/words.txt", "22 | unknown |", "22 | given |"),
    ("python/tests/words.txt", "|  | refused\n", "|  | this is new\n"),
    ("rust/src/refusal.rs", "/// 8: an area of nothing beside the outline's span.", "/// 8: no area."),
    ("rust/src/refusal.rs", "10 => Self::ManyHoles { holes: first }", "10 => Self::ManyHoles { holes: second }"),
    ("rust/src/refusal.rs", "Self::Shape => 21", "Self::Shape => 20"),
    ("rust/src/refusal.rs", "        residual: f64,\n", ""),
    ("rust/src/words.rs", '14 => "the distance is below 0"', '14 => "the distance is 0"'),
    ("rust/src/words.rs", '        19 => "more than 8 holes would be left",\n', ""),
    ("rust/src/words.rs", '        20 => "the lent', '        24 => "the lent'),
    ("oracle/src/answer.rs", "Refusal::of(27, &[], &[]).in_ring(", "Refusal::of(27, &[], &[]).told("),
    ("tools/places", "question 1 to 22 and 27", "question 1 to 27"),
    ("tools/places", "{*range(1, 22 + 1), 27}", "{*range(1, 23 + 1), 27}"),
)


class Held(Folder):
    def setUp(self):
        super().setUp()
        for path in PLACES + (TABLE,):
            os.makedirs(os.path.dirname(os.path.join(self.folder, path)), exist_ok=True)
            shutil.copy(os.path.join(TOP, path), os.path.join(self.folder, path))
        for name in os.listdir(os.path.join(TOP, "oracle", "src")):
            if name.endswith(".rs"):
                shutil.copy(os.path.join(TOP, "oracle", "src", name), os.path.join(self.folder, "oracle", "src", name))

    def told(self, *words):
        """The places that have a fault, and what is said."""
        tool = [sys.executable, os.path.join(TOP, "tools", "refusals"), *words, self.folder]
        done = subprocess.run(tool, capture_output=True, text=True)
        self.assertEqual(done.stderr, "")
        self.assertEqual(done.returncode, int("in every place" not in done.stdout), done.stdout)
        return {line.split(": ")[1] for line in done.stdout.splitlines()} if done.returncode else set(), done.stdout

    def test_all_agree(self):
        self.assertEqual(self.told()[0], set())

    def test_one_place_is_wrong(self):
        for path, old, new in ERRORS:
            text = self.get(path)
            self.assertIn(old, text, path)
            self.put(path, text.replace(old, new, 1))
            places, said = self.told()
            self.assertEqual(places, {path}, (old, said))
            self.put(path, text)

    def test_a_new_refusal(self):
        """Every place is named that lacks it; README and header can be written."""
        row = "| 40 | `Columns` | `columns` columns; `wide: f64` how wide | too few columns | too few | first | asked beside it |\n"
        self.put(TABLE, self.get(TABLE) + row)
        places, said = self.told()
        self.assertEqual(places, set(PLACES), said)
        places, said = self.told("--write")
        self.assertEqual(places, set(PLACES) - {"README.md", "include/lizardwire.h"}, said)
        self.assertIn("docs/DECISIONS.md: no 'Numbers 1 to 22, 27 and 40'", said)
        self.assertIn("| 40 | too few columns | columns, how wide |\n", self.get("README.md"))
        header = self.get("include/lizardwire.h")
        self.assertIn("    /* too few columns (first: columns, value: how wide) */\n    LW_REFUSED_COLUMNS = 40\n", header)
        self.assertIn('    case LW_REFUSED_COLUMNS: return "too few";\n', header)

    def test_rows_stand_by_number(self):
        lines = self.get(TABLE).splitlines(True)
        for wrong in (lines[:-2] + lines[:-3:-1], lines + lines[-1:], lines[:-23]):
            self.put(TABLE, "".join(wrong))
            done = subprocess.run([sys.executable, os.path.join(TOP, "tools", "refusals"), self.folder], capture_output=True, text=True)
            self.assertEqual((done.returncode, done.stderr), (1, f"refusals: {TABLE}: the numbers do not go up from row to row\n"))
