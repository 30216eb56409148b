"""The shared library by ctypes: include/lizardwire.h, declared once.

It is looked for in this order:

1. the file that the environment variable LIZARDWIRE_LIBRARY names;
2. ``liblizardwire.so``, then ``liblizardwire.so.3``, in this package's folder, beside this file;
3. the same in ``target/shared`` of the repository that this file stands in.
"""
import ctypes
import operator
import os
import re
from ctypes import POINTER, c_char_p, c_double, c_size_t, c_uint8
from typing import Any, Dict, Iterable, List, Optional, Sequence, Tuple

VARIABLE = "LIZARDWIRE_LIBRARY"
NAME = "liblizardwire.so"
# The number in the name that the library was built with: within one, functions are added and none is changed.
INTERFACE = 3
# LW_VERSION of the header that is declared here: a library of this version or a later one has all of it, as it is said there.
VERSION = 4

VERTICES, HOLES, HOLE_VERTICES = 128, 8, 32
OUTLINE_NUMBERS = 2 * VERTICES
REGION_NUMBERS = 2 * VERTICES + 2 * HOLES * HOLE_VERTICES
LINE_BYTES = 16384
STREAM_BYTES, STREAM_OUTPUT = 16387, 16385


class LibraryMissing(OSError):
    """The shared library is not there, cannot be opened, or is not the one that this package is written for."""


def _struct(name: str, *fields: Tuple[str, Any]) -> Any:
    return type(name, (ctypes.Structure,), {"_fields_": list(fields)})


def _wholes(*names: str) -> List[Tuple[str, Any]]:
    return [(name, c_size_t) for name in names]


def _floats(*names: str) -> List[Tuple[str, Any]]:
    return [(name, c_double) for name in names]


_REFUSAL = _wholes("refusal", "ring", "first", "second") + _floats("value")
_EVENTS = _wholes("collapses", "divides", "joins")
_RINGS: List[Tuple[str, Any]] = [("rings", c_size_t), ("counts", c_size_t * (1 + HOLES))]

LwOutline = _struct("LwOutline", *_REFUSAL, *_wholes("count"))
LwPlace = _struct("LwPlace", *_wholes("refusal", "first", "place"))
LwNearest = _struct("LwNearest", *_wholes("refusal", "first"), *_floats("distance", "east", "north"))
LwArea = _struct("LwArea", *_wholes("refusal"), *_floats("area"))
LwLength = _struct("LwLength", *_wholes("refusal"), *_floats("length"))
LwMeeting = _struct("LwMeeting", *_wholes("refusal", "meets", "outer", "inner", "swapped"))
LwPoint = _struct("LwPoint", *_wholes("refusal"), *_floats("east", "north"))
LwEdge = _struct("LwEdge", *_wholes("refusal"), *_floats("start_east", "start_north", "end_east", "end_north"))
LwOffset = _struct("LwOffset", *_REFUSAL, *_wholes("count"), *_EVENTS)
LwRegion = _struct("LwRegion", *_REFUSAL, *_RINGS)
LwRegionOffset = _struct("LwRegionOffset", *_REFUSAL, *_RINGS, *_EVENTS)
LwLine = _struct("LwLine", *_wholes("refusal", "count"))
LwFed = _struct("LwFed", *_wholes("refusal", "first", "taken", "written"))

_NUMBERS = (POINTER(c_double), c_size_t)
_POINT = (c_double, c_double)
_REGION = _NUMBERS + (POINTER(c_size_t), c_size_t)
_TEXT = (c_char_p, c_size_t)
_BYTES = (POINTER(c_uint8), c_size_t)

FUNCTIONS: Dict[str, Tuple[Any, Tuple[Any, ...]]] = {
    "lw_version": (c_size_t, ()),
    "lw_hypot": (c_double, (c_double, c_double)),
    "lw_check": (LwOutline, _NUMBERS),
    "lw_outline": (LwOutline, _NUMBERS + _NUMBERS),
    "lw_contains": (LwPlace, _NUMBERS + _POINT),
    "lw_nearest": (LwNearest, _NUMBERS + _POINT),
    "lw_area": (LwArea, _NUMBERS),
    "lw_perimeter": (LwLength, _NUMBERS),
    "lw_extent": (LwLength, _NUMBERS),
    "lw_clearance": (LwLength, _NUMBERS + _NUMBERS),
    "lw_meeting": (LwMeeting, _NUMBERS + _NUMBERS),
    "lw_vertex": (LwPoint, _NUMBERS + (c_size_t,)),
    "lw_edge": (LwEdge, _NUMBERS + (c_size_t,)),
    "lw_inset": (LwOffset, _NUMBERS + (c_double,) + _NUMBERS),
    "lw_outset": (LwOffset, _NUMBERS + (c_double,) + _NUMBERS),
    "lw_region": (LwRegion, _REGION + _NUMBERS),
    "lw_region_inset": (LwRegionOffset, _REGION + (c_double,) + _NUMBERS),
    "lw_given_region": (LwRegion, _REGION + _NUMBERS),
    "lw_without_holes": (LwRegion, _NUMBERS + _NUMBERS),
    "lw_stored_region": (LwRegion, _REGION),
    "lw_stored_region_inset": (LwRegionOffset, _REGION + (c_double,) + _NUMBERS),
    "lw_region_contains": (LwPlace, _REGION + _POINT),
    "lw_region_nearest": (LwNearest, _REGION + _POINT),
    "lw_region_area": (LwArea, _REGION),
    "lw_region_perimeter": (LwLength, _REGION),
    "lw_region_outer": (LwOutline, _REGION + _NUMBERS),
    "lw_region_hole": (LwOutline, _REGION + (c_size_t,) + _NUMBERS),
    "lw_job_line": (LwLine, _TEXT + _BYTES),
    "lw_stream": (LwLine, _BYTES),
    "lw_feed": (LwFed, _TEXT + _BYTES + _BYTES),
    "lw_finish": (LwFed, _BYTES + _BYTES),
}

_loaded: Optional[ctypes.CDLL] = None


# ---- finding it

def places() -> List[str]:
    """The files that are tried, in order."""
    named = os.environ.get(VARIABLE)
    if named:
        return [named]
    here = os.path.dirname(os.path.abspath(__file__))
    folders = here, os.path.normpath(os.path.join(here, "..", "..", "target", "shared"))
    return [os.path.join(folder, name) for folder in folders for name in (NAME, f"{NAME}.{INTERFACE}")]


def library() -> ctypes.CDLL:
    """The shared library, opened once."""
    global _loaded
    if _loaded is None:
        tried = places()
        found = [place for place in tried if os.path.isfile(place)]
        if not found:
            raise LibraryMissing(
                "the Lizardwire library was not found. Looked for:\n  " + "\n  ".join(tried)
                + f"\nBuild it with tools/library, or name the file in {VARIABLE}.")
        _loaded = _opened(found[0])
    return _loaded


def _opened(path: str) -> ctypes.CDLL:
    """The library of a file, once it is known to be the one that is declared here."""
    try:
        number = _interface(path)
        if number not in (None, INTERFACE):
            raise LibraryMissing(f"{path} is {NAME}.{number}: this package is written for {NAME}.{INTERFACE}")
        opened = ctypes.CDLL(os.path.abspath(path))
    except LibraryMissing:
        raise
    except OSError as error:
        raise LibraryMissing(f"{path} cannot be opened: {error}") from None
    for name, (result, arguments) in FUNCTIONS.items():
        function = getattr(opened, name, None)
        if function is None:
            raise LibraryMissing(f"{path} has no {name}: it is not the library of this package, or an older one")
        function.restype, function.argtypes = result, arguments
    version = opened.lw_version()
    if version < VERSION:
        raise LibraryMissing(f"{path} is of version {version}: this package needs {VERSION} or later")
    return opened


def _interface(path: str) -> Optional[int]:
    """The number in the name that a library was built with, which stands among its strings; None where it has none."""
    with open(path, "rb") as file:
        found = re.search(rb"\0" + re.escape(NAME).encode() + rb"\.(\d+)\0", file.read())
    return int(found.group(1)) if found else None


# ---- calling it

def call(name: str, *arguments: Any) -> Any:
    """Calls a function of the library, its types as declared above."""
    return getattr(library(), name)(*arguments)


def lent(count: int) -> Any:
    """Memory for so many numbers."""
    return (c_double * count)()


def lent_bytes(count: int) -> Any:
    """Memory for so many bytes."""
    return (c_uint8 * count)()


def numbers_in(values: Sequence[float]) -> Tuple[Any, int]:
    """Numbers as a pointer and a count. The memory is never empty, so the pointer is never null."""
    return (c_double * max(len(values), 1))(*values), len(values)


def wholes_in(values: Sequence[int]) -> Tuple[Any, int]:
    """Whole numbers, likewise, that fit: see :func:`whole`."""
    return (c_size_t * max(len(values), 1))(*values), len(values)


def whole(value: Any, what: str) -> int:
    """A count that the library's counts have room for: ctypes would wrap any other."""
    if isinstance(value, bool) or not hasattr(type(value), "__index__"):
        raise TypeError(f"{what} is a whole number, and not {value!r}")
    number = operator.index(value)
    if number != c_size_t(number).value:
        raise ValueError(f"{what} is 0 or more and below 2^64, and not {number}")
    return number


def points(numbers: Iterable[float]) -> List[Tuple[float, float]]:
    """Pairs of a flat list. A zero has no sign."""
    each = (number + 0.0 for number in numbers)
    return list(zip(each, each))
