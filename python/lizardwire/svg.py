"""Outlines out of an SVG drawing.

Read are ``polygon``, ``polyline``, ``rect`` without round corners, and ``path`` with
the commands M L H V Z in either case: straight edges. Each is one shape. The parts of
a path are rings of one region; the one that encloses most is the outer ring. What is
left open is closed, as it is when it is filled. Transforms of the shape and of the
groups around it are worked in, all six kinds.

Not read, and said so for each: ``circle``, ``ellipse``, ``line``, ``use``, round
corners, paths with curves, a ``svg`` inside another, and transforms in a ``style``.
Passed over in silence is what has no outline (text, images, definitions, what is not
displayed). Styles other than ``display`` are not looked at.

Coordinates are taken as they are drawn, the second one growing downwards.
"""
import math
import re
import xml.etree.ElementTree as ElementTree
from typing import Dict, List, NamedTuple, Sequence, Tuple, Union

from .shapes import Point, Ring

Matrix = Tuple[float, float, float, float, float, float]
SAME: Matrix = (1.0, 0.0, 0.0, 1.0, 0.0, 0.0)

_SPACE = "{http://www.w3.org/2000/svg}"
_LABEL = "{http://www.inkscape.org/namespaces/inkscape}label"
_NUMBER = r"[-+]?(?:\d+\.?\d*|\.\d+)(?:[eE][-+]?\d+)?"
_TOKEN = re.compile(rf"\s*,?\s*([A-Za-z]|{_NUMBER})")
_TRANSFORM = re.compile(r"\s*,?\s*(\w+)\s*\(([^)]*)\)")
_GROUPS = ("g", "a", "switch")
_CURVES = {"C": "a curve", "S": "a curve", "Q": "a curve", "T": "a curve", "A": "an arc"}
_NOT_READ = {
    "circle": "it is round",
    "ellipse": "it is round",
    "line": "it encloses nothing",
    "use": "it is a copy of another element",
    "svg": "it is a drawing inside the drawing",
}


class Shape(NamedTuple):
    """A shape of the drawing: its rings, the outer one first."""

    name: str
    rings: List[Ring]


class Unread(NamedTuple):
    """An element that was not read, and why."""

    name: str
    why: str

    def __str__(self) -> str:
        return f"{self.name} is not read: {self.why}"


class _Cannot(ValueError):
    """Why an element cannot be read."""


def is_svg(data: bytes) -> bool:
    """Whether a file's bytes look like SVG and not like job lines."""
    return data.lstrip(b"\xef\xbb\xbf \t\r\n").startswith(b"<")


def read(data: bytes) -> Tuple[List[Shape], List[Unread]]:
    """The shapes of an SVG file, and what was not read. Raises ValueError where it is no SVG."""
    try:
        root = ElementTree.fromstring(data)
    except (ElementTree.ParseError, LookupError, ValueError) as error:  # the last two of its encoding
        raise ValueError(f"this is not an SVG file: {error}") from None
    if root.tag not in (_SPACE + "svg", "svg"):
        raise ValueError(f"this is not an SVG file: it starts with <{_tag(root)}>")
    shapes: List[Shape] = []
    unread: List[Unread] = []
    try:
        _walk(root, SAME, {}, shapes, unread)
    except RecursionError:
        raise ValueError("this SVG file cannot be read: its groups are nested too deeply") from None
    return shapes, unread


def _tag(element: ElementTree.Element) -> str:
    return element.tag.rsplit("}", 1)[-1] if isinstance(element.tag, str) else ""


def _walk(parent: ElementTree.Element, matrix: Matrix, seen: Dict[str, int], shapes: List[Shape], unread: List[Unread]) -> None:
    for element in parent:
        tag = _tag(element)
        if not tag or not (element.tag.startswith(_SPACE) or "}" not in element.tag) or _hidden(element):
            continue
        if tag not in _GROUPS and tag not in _READERS and tag not in _NOT_READ:
            continue
        seen[tag] = seen.get(tag, 0) + 1
        name = _name(element, tag, seen[tag])
        try:
            inner = _times(matrix, _transform(element))
            if tag in _GROUPS:
                _walk(element, inner, seen, shapes, unread)
            elif tag in _NOT_READ:
                raise _Cannot(_NOT_READ[tag])
            else:
                rings = [[_moved(inner, point) for point in ring] for ring in _READERS[tag](element)]
                if rings:
                    shapes.append(Shape(name, _outer_first(rings)))
        except _Cannot as why:
            unread.append(Unread(f"{tag} '{name}'" if not name.startswith(tag) else name, str(why)))


def _name(element: ElementTree.Element, tag: str, count: int) -> str:
    title = element.find(_SPACE + "title")
    said = (title.text if title is not None else None) or element.get(_LABEL) or element.get("id") or ""
    return " ".join(said.split()) or f"{tag} {count}"


def _hidden(element: ElementTree.Element) -> bool:
    return element.get("display") == "none" or bool(re.search(r"display\s*:\s*none", element.get("style", "")))


# ---- the elements

def _floats(text: str) -> List[float]:
    numbers, at = [], 0
    text = text.strip()
    while at < len(text):
        found = _TOKEN.match(text, at)
        if not found or found.group(1).isalpha():
            raise _Cannot(f"{text[at:at + 12]!r} is not a number")
        numbers.append(_number(found.group(1)))
        at = found.end()
    return numbers


def _number(text: str) -> float:
    number = float(text)
    if not math.isfinite(number):
        raise _Cannot(f"{text} is too large a number")
    return number


def _points(element: ElementTree.Element) -> List[Ring]:
    numbers = _floats(element.get("points", ""))
    if len(numbers) % 2:
        raise _Cannot("it has an odd count of coordinates")
    return [list(zip(numbers[::2], numbers[1::2]))] if numbers else []


def _rect(element: ElementTree.Element) -> List[Ring]:
    if element.get("rx", "0") not in ("0", "auto") or element.get("ry", "0") not in ("0", "auto"):
        raise _Cannot("it has round corners")
    try:
        x, y, wide, high = (_number(element.get(key, "0")) for key in ("x", "y", "width", "height"))
    except ValueError:
        raise _Cannot("its place or size is not a plain number") from None
    return [[(x, y), (x + wide, y), (x + wide, y + high), (x, y + high)]] if wide > 0 and high > 0 else []


def _path(element: ElementTree.Element) -> List[Ring]:
    rings: List[Ring] = []
    tokens = _path_tokens(element.get("d", ""))
    here = start = (0.0, 0.0)
    command, at, opened = "", 0, False
    while at < len(tokens):
        token = tokens[at]
        if isinstance(token, str):
            command, at = token, at + 1
            if command.upper() in _CURVES:
                raise _Cannot(f"it has {_CURVES[command.upper()]} ({command}); turn curves into straight edges first")
            if command.upper() not in "MLHVZ":
                raise _Cannot(f"{command} is not a path command")
            if command.upper() == "Z":
                here, opened = start, False
                continue
        elif not command or command.upper() == "Z":
            raise _Cannot("a number stands where a command should")
        need = 1 if command.upper() in "HV" else 2
        part = tokens[at:at + need]
        if len(part) < need or any(isinstance(t, str) for t in part):
            raise _Cannot(f"{command} lacks a number")
        at += need
        here_to = _to(command, here, [float(t) for t in part])
        if command.upper() == "M":
            start, opened = here_to, False
            command = "l" if command == "m" else "L"
        else:
            if not opened:
                rings.append([here])
                opened = True
            rings[-1].append(here_to)
        here = here_to
    return rings


def _path_tokens(text: str) -> List[Union[str, float]]:
    tokens: List[Union[str, float]] = []
    at = 0
    text = text.strip()
    while at < len(text):
        found = _TOKEN.match(text, at)
        if not found:
            raise _Cannot(f"{text[at:at + 12]!r} is no path")
        word = found.group(1)
        tokens.append(word if word.isalpha() else _number(word))
        at = found.end()
    return tokens


def _to(command: str, here: Point, numbers: Sequence[float]) -> Point:
    base = here if command.islower() else (0.0, 0.0)
    if command in "Hh":
        return base[0] + numbers[0], here[1]
    if command in "Vv":
        return here[0], base[1] + numbers[0]
    return base[0] + numbers[0], base[1] + numbers[1]


_READERS = {"polygon": _points, "polyline": _points, "rect": _rect, "path": _path}


def _outer_first(rings: List[Ring]) -> List[Ring]:
    """The ring that encloses most goes first; the others keep their order."""
    areas = [abs(sum(p[0] * q[1] - q[0] * p[1] for p, q in zip(ring, ring[1:] + ring[:1]))) for ring in rings]
    outer = areas.index(max(areas))
    return [rings[outer]] + rings[:outer] + rings[outer + 1:]


# ---- transforms

def _times(a: Matrix, b: Matrix) -> Matrix:
    return (a[0] * b[0] + a[2] * b[1], a[1] * b[0] + a[3] * b[1], a[0] * b[2] + a[2] * b[3], a[1] * b[2] + a[3] * b[3],
            a[0] * b[4] + a[2] * b[5] + a[4], a[1] * b[4] + a[3] * b[5] + a[5])


def _moved(m: Matrix, p: Point) -> Point:
    return p if m == SAME else (m[0] * p[0] + m[2] * p[1] + m[4], m[1] * p[0] + m[3] * p[1] + m[5])


def _transform(element: ElementTree.Element) -> Matrix:
    if re.search(r"(^|[;\s])transform\s*:", element.get("style", "")):
        raise _Cannot("it has a transform in its style; put it into the attribute")
    text, matrix, at = element.get("transform", "").strip(), SAME, 0
    while at < len(text):
        found = _TRANSFORM.match(text, at)
        if not found:
            raise _Cannot(f"its transform {text[at:at + 20]!r} is not understood")
        matrix, at = _times(matrix, _one_transform(found.group(1), _floats(found.group(2)))), found.end()
    return matrix


def _one_transform(kind: str, n: List[float]) -> Matrix:
    if kind == "matrix" and len(n) == 6:
        return n[0], n[1], n[2], n[3], n[4], n[5]
    if kind == "translate" and len(n) in (1, 2):
        return 1.0, 0.0, 0.0, 1.0, n[0], n[1] if len(n) == 2 else 0.0
    if kind == "scale" and len(n) in (1, 2):
        return n[0], 0.0, 0.0, n[-1], 0.0, 0.0
    if kind == "rotate" and len(n) in (1, 3):
        c, s = math.cos(math.radians(n[0])), math.sin(math.radians(n[0]))
        x, y = (n[1], n[2]) if len(n) == 3 else (0.0, 0.0)
        return c, s, -s, c, x - c * x + s * y, y - s * x - c * y
    if kind == "skewX" and len(n) == 1:
        return 1.0, 0.0, math.tan(math.radians(n[0])), 1.0, 0.0, 0.0
    if kind == "skewY" and len(n) == 1:
        return 1.0, math.tan(math.radians(n[0])), 0.0, 1.0, 0.0, 0.0
    raise _Cannot(f"its transform {kind} of {len(n)} numbers is not understood")
