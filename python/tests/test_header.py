"""include/lizardwire.h, this package, the Rust crate and the exported functions declare the same."""
import ctypes
import glob
import math
import os
import re
import unittest

from lizardwire import Place, _library
from tests.support import BOW, PANE, SQUARE, TOP, comb

WORDS = {"usize": "size_t", "f64": "double", "[usize; 9]": "size_t[9]"}
SLICES = {"&[f64]": "double*", "&mut [f64]": "double*", "&[usize]": "size_t*", "&[u8]": "uint8_t*", "&mut [u8]": "uint8_t*"}
POINTERS = {"*const f64": "double*", "*mut f64": "double*", "*const usize": "size_t*", "*const u8": "uint8_t*", "*mut u8": "uint8_t*"}
KINDS = {
    ctypes.c_size_t: "size_t", ctypes.c_double: "double", ctypes.c_size_t * 9: "size_t[9]", ctypes.c_char_p: "uint8_t*",
    ctypes.POINTER(ctypes.c_double): "double*", ctypes.POINTER(ctypes.c_size_t): "size_t*", ctypes.POINTER(ctypes.c_uint8): "uint8_t*",
}


def text(*path):
    with open(os.path.join(TOP, *path), encoding="utf-8") as stream:
        return stream.read()


def crates():
    """The code of every crate."""
    return "\n".join(text(os.path.relpath(path, TOP)) for path in sorted(glob.glob(os.path.join(TOP, "crates", "*", "src", "*.rt"))))


def header():
    """Structs with their fields, and functions with their types, of the header."""
    plain = re.sub(r"/\*.*?\*/", "", text("include", "lizardwire.h"), flags=re.S)
    structs = {}
    for name, body in re.findall(r"typedef struct (\w+) \{(.*?)\}", plain, re.S):
        fields = []
        for kind, names in re.findall(r"(\w+) ([^;]+);", body):
            for field in names.split(","):
                array = re.fullmatch(r"(\w+)\[1 \+ LW_HOLES\]", field.strip())
                fields.append((array.group(1), kind + "[9]") if array else (field.strip(), kind))
        structs[name] = fields
    functions = {}
    for result, name, arguments in re.findall(r"(\w+) (lw_\w+)\(([^)]*)\);", plain):
        listed = [] if arguments == "void" else arguments.split(",")
        kinds = [re.sub(r"const |\w+$", "", argument.strip()).replace(" ", "") for argument in listed]
        functions[name] = (result, kinds)
    return structs, functions


def rust_structs(source):
    """The structs of Rust or Rattle, by C's words."""
    found = {}
    for name, body in re.findall(r"struct (Lw\w+) \{(.*?)\n\}", source, re.S):
        found[name] = [(field, WORDS[kind]) for field, kind in re.findall(r"pub (\w+): ([^,]+),", body)]
    return found


def rust_functions(source):
    """The functions of Rust or Rattle, by C's words; a slice is a pointer and a count."""
    found = {}
    source = re.sub(r"<'\w+>|'\w+ ", "", source)
    for name, arguments, result in re.findall(r"fn (lw_\w+)\(([^)]*)\)\s*->\s*(\w+)", source):
        kinds = []
        for kind in re.findall(r"\w+: ([^,\n]+)", arguments):
            if kind in SLICES:
                kinds += [SLICES[kind], "size_t"]
            else:
                kinds.append(POINTERS.get(kind) or WORDS[kind])
        found[name] = (WORDS.get(result, result), kinds)
    return found


class Declared(unittest.TestCase):
    def setUp(self):
        self.structs, self.functions = header()

    def test_something_is_found(self):
        self.assertEqual(len(self.structs), 13)
        self.assertEqual(len(self.functions), 31)

    def test_here(self):
        for name, fields in self.structs.items():
            ours = [(field, KINDS[kind]) for field, kind in getattr(_library, name)._fields_]
            self.assertEqual(ours, fields, name)
        for name, (result, arguments) in self.functions.items():
            told, kinds = _library.FUNCTIONS[name]
            self.assertEqual((KINDS.get(told) or told.__name__, [KINDS[kind] for kind in kinds]), (result, arguments), name)
        self.assertEqual(set(_library.FUNCTIONS), set(self.functions))

    def test_the_rust_crate(self):
        source = text("rust", "src", "ffi.rs")
        self.assertEqual(rust_structs(source), self.structs)
        self.assertEqual(rust_functions(source), self.functions)

    def test_the_exported_functions(self):
        source = crates()
        self.assertEqual(rust_structs(source), self.structs)
        exported = rust_functions("\n".join(re.findall(r'extern "C" (fn [^{]*?-> \w+)', source)))
        self.assertEqual(exported, self.functions)

    def test_the_library(self):
        for name in self.functions:
            self.assertTrue(hasattr(_library.library(), name), f"the library has no {name}")

    def test_the_numbers(self):
        defined = {name: int(number) for name, number in re.findall(r"#define LW_(\w+) (\d+)", text("include", "lizardwire.h"))}
        for place in Place:
            self.assertEqual(defined.pop(place.name), place.value)
        self.assertEqual(defined, {name: getattr(_library, name) for name in defined})
        self.assertGreater(len(defined), 8)


def flat(*rings):
    return [float(number) for ring in rings for point in ring for number in point]


def told(answer):
    """The fields of an answer that do not read 0."""
    fields = ((name, getattr(answer, name)) for name, _ in answer._fields_)
    return {name: value for name, value in ((name, list(value) if name == "counts" else value) for name, value in fields)
            if value and value != [0] * 9}


class Called(unittest.TestCase):
    """What the package declares and does not call itself, or never so."""

    def test_check(self):
        square = flat(SQUARE)
        for numbers, said in ((square, {"count": 4}), (flat(SQUARE[::-1]), {"count": 4}), (square + square[:2], {"count": 4}),
                              (square[:7], {"refusal": 1}), (square[:7] + [math.nan], {"refusal": 2, "first": 7}), ([], {"refusal": 4}),
                              (square[:7] + [2e9], {"refusal": 5, "value": 2e9}), (flat(BOW), {"refusal": 9, "second": 2})):
            self.assertEqual(told(_library.call("lw_check", *_library.numbers_in(numbers))), said, numbers)

    def test_clearance(self):
        """What 21 refuses, of the first, of the second and of both; the package has asked it before."""
        square = flat(SQUARE)
        for bad in ([], square[:4], square[:7], flat(comb(129)), square[:7] + [math.nan], square[:7] + [-2e9]):
            for first, second in ((bad, square), (square, bad), (bad, bad)):
                answer = _library.call("lw_clearance", *_library.numbers_in(first), *_library.numbers_in(second))
                self.assertEqual(told(answer), {"refusal": 21})

    def inset(self, rings, distance, room=16, lengths=(4, 4)):
        """What lw_region_inset tells, and its output, which was all 7."""
        out, _ = _library.numbers_in([7.0] * 16)
        answer = _library.call("lw_region_inset", *_library.numbers_in(flat(*rings)), *_library.wholes_in(lengths), distance, out, room)
        return told(answer), out[:]

    def test_region_inset(self):
        cage = [1, 1, 9, 1, 9, 9, 1, 9, 3, 7, 3, 3, 7, 3, 7, 7]
        granted = {"rings": 2, "counts": [4, 4] + [0] * 7}
        self.assertEqual(self.inset(PANE, 1.0), (granted, cage))
        # A drawing is taken: its rings may run either way, which lw_stored_region_inset does not ask.
        said, out = self.inset([ring[::-1] for ring in PANE], 1.0)
        self.assertEqual((said, sorted(_library.points(out))), (granted, sorted(_library.points(cage))))

    def test_region_inset_refused(self):
        apart = [(east + 20, north) for east, north in SQUARE]
        for said, *given in (({"refusal": 3}, PANE, 1.0, 16, (4, 3)), ({"refusal": 11}, [PANE[0], apart], 1.0),
                             ({"refusal": 13}, PANE, math.nan), ({"refusal": 14, "value": -1.0}, PANE, -1.0),
                             ({"refusal": 20, "first": 16}, PANE, 1.0, 15), ({"refusal": 20, "first": 16}, PANE, 1.0, 0)):
            self.assertEqual(self.inset(*given), (said, [7] * 16), said)


if __name__ == "__main__":
    unittest.main()
