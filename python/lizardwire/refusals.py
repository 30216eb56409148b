"""Why there is no cage: the refusal, in words."""
import math
import operator
from fractions import Fraction
from typing import Any, Callable, Dict, List, NamedTuple, Optional, Sequence, Tuple, Union

Value = Union[int, float]

# What each refusal carries, by the fields of the library's answer.
CARRIES: Dict[int, Tuple[Tuple[str, str], ...]] = {
    2: (("index", "first"),),
    4: (("ring", "ring"), ("found", "first")),
    5: (("ring", "ring"), ("value", "value")),
    6: (("ring", "ring"), ("needed", "first"), ("room", "second")),
    7: (("ring", "ring"),),
    8: (("ring", "ring"),),
    9: (("ring", "ring"), ("first", "first"), ("second", "second")),
    10: (("holes", "first"),),
    11: (("hole", "first"),),
    12: (("first", "first"), ("second", "second")),
    14: (("distance", "value"),),
    15: (("needed", "first"),),
    16: (("distance", "value"),),
    17: (("distance", "value"),),
    18: (("events", "first"), ("residual", "value")),
    19: (("needed", "first"),),
    20: (("needed", "first"),),
    27: (("ring", "ring"),),
}

# The library's answer lines give the number alone; these words need no value.
PLAIN = {
    1: "the count of numbers is odd: a vertex is two",
    2: "a coordinate is not a finite number",
    3: "there is no ring, or the vertex counts do not add up to the points",
    4: "a ring has fewer than 3 vertices",
    5: "a coordinate is beyond 1e9",
    6: "a ring has too many vertices",
    7: "a vertex stands twice in a row",
    8: "a ring is flat: it encloses nothing",
    9: "two edges cross",
    10: "there are more than 8 holes",
    11: "a ring is not inside the first one",
    12: "two holes are not apart",
    13: "the distance is not a number up to 1e12",
    14: "the distance is below 0",
    15: "too many edges: 128 can move at once",
    16: "nothing is left: the margin is too wide",
    17: "the cage falls apart or meets the outline",
    18: "the cage was not finished in 387 events",
    19: "more than 8 holes would be left",
    20: "the lent memory is too short",
    21: "this is not a shape, or not a stream's state",
    22: "this is not a job line",
    27: "an edge is shorter than 0.000001",
}

# What is said with the values, where these alone make the sentence.
SENTENCES = {
    4: "{ring} has {found} vertices: 3 are needed",
    5: "{ring} has the coordinate {value}: 1e9 is the limit",
    6: "{ring} has more than {room} vertices",
    7: "{ring} has the same vertex twice in a row",
    8: "{ring} is flat: it encloses nothing",
    10: "there are {holes} holes: 8 is the limit",
    14: "the distance {distance} is below 0",
    15: "too many edges: {needed} would move, 128 can",
    16: "nothing is left: the margin {distance} is too wide",
    17: "at {distance} the cage falls apart or meets the outline",
    18: "after {events} events {residual} of the distance is still to go",
    19: "{needed} holes would be left: 8 is the limit",
    20: "the lent memory is too short: {needed} are needed",
    27: "{ring} has an edge shorter than 0.000001",
}

# An edge below this length is a hairline: 27. A length is the nearest double, and of two as near the even one, which this one is not: so
# the exact length is at most half way between this one and the one before.
LEAST = 1e-6
_HALF_WAY = (Fraction(LEAST) + Fraction(math.nextafter(LEAST, 0.0))) / 2


class RingEdge(NamedTuple):
    """An edge of a ring of what was given: edge k runs from vertex k to the next, the last one to vertex 0."""

    ring: int
    edge: int


# Two edges that cross or touch, that of the lower ring first.
Pair = Tuple[RingEdge, RingEdge]
# What more can be known: which edges of the two rings of an 11 or a 12 meet, or, where none do, how the second lies to the first; that
# the number of a 2 is a point's.
WITHIN, AROUND, APART, OF_POINT = "within", "around", "apart", "of a point"
Known = Union[Pair, str, None]


class Drawn(NamedTuple):
    """What was given: its numbers, and the vertex count of each ring."""

    numbers: Sequence[float]
    lengths: Sequence[int]

    def as_it_is(self, ring: int) -> List[Tuple[float, float]]:
        """The vertices of a ring."""
        start, count = 2 * sum(self.lengths[:ring]), self.lengths[ring]
        numbers = self.numbers[start:start + 2 * count]
        return list(zip(numbers[::2], numbers[1::2]))

    def ring(self, ring: int) -> List[Tuple[float, float]]:
        """The vertices of a ring, one closing repeat dropped."""
        points = self.as_it_is(ring)
        return points[:-1] if len(points) > 1 and points[0] == points[-1] else points

    def ends(self, edge: RingEdge) -> Tuple[int, int]:
        """The vertices that an edge joins, by their numbers."""
        return edge.edge, (edge.edge + 1) % len(self.ring(edge.ring))

    def edge(self, number: int, ring: int) -> Optional[RingEdge]:
        """The first edge of a ring that is refused with 7, its ends being one point, or with 27, being too short."""
        points = self.ring(ring) if ring < len(self.lengths) else []
        refuses: Callable[[Any, Any], Any] = _hairline if number == 27 else operator.eq
        edges = enumerate(zip(points, points[1:] + points[:1]))
        return next((RingEdge(ring, k) for k, (start, end) in edges if refuses(start, end)), None)

    def found(self, number: int) -> Dict[str, Value]:
        """What a 2, a 7 or a 27 carries, where an answer line has the number alone."""
        if number == 2:
            return next(({"index": k} for k, value in enumerate(self.numbers) if not math.isfinite(value)), {})
        rings = range(len(self.lengths) if number in (7, 27) else 0)
        return next(({"ring": ring} for ring in rings if self.edge(number, ring)), {})


def _hairline(start: Tuple[float, float], end: Tuple[float, float]) -> bool:
    """Is the edge too short, its ends being two points? The library's length, the nearest double, without the library."""
    east, north = end[0] - start[0], end[1] - start[1]
    near = abs(east) < LEAST and abs(north) < LEAST and (east, north) != (0, 0)
    return near and Fraction(east) ** 2 + Fraction(north) ** 2 <= _HALF_WAY ** 2


def short(number: float) -> str:
    """A number as a person writes it: 2 and not 2.0, 1e12 and not 1e+12, 0 without a sign."""
    digits, _, exponent = f"{number + 0.0:.12g}".partition("e")
    return f"{digits}e{int(exponent)}" if exponent else digits


def _tiny(length: float) -> str:
    """The length of a hairline in three digits, which never read 1e-6."""
    return short(min(float(f"{length:.2e}"), 9.99e-7))


def exact(number: float) -> str:
    """The shortest digits that read back as the same number."""
    text = short(number)
    return text if float(text) == number else repr(number)


def _ring_name(ring: int, of_result: Optional[bool] = False) -> str:
    """A ring of what was given, or of the result; by its number where that is not known."""
    if of_result is None:
        return f"ring {ring}"
    if of_result:
        return f"piece {ring} of the cage"
    return "the outline" if ring == 0 else f"hole {ring - 1}"


def _number_name(index: int, lengths: Sequence[int]) -> str:
    """A number by its vertex, counted in its ring where there are several."""
    axis, vertex = ("east", "north")[index % 2], index // 2
    left = vertex
    for ring, length in enumerate(lengths if len(lengths) > 1 else ()):
        if left < length:
            return f"the {axis} of vertex {left} of {_ring_name(ring)}"
        left -= length
    return f"the {axis} of vertex {vertex}"


def _too_near(number: int, drawn: Drawn, edge: RingEdge) -> str:
    """The words of a 7 or a 27: an edge of the drawing whose ends are one point, or a hair apart."""
    points, (first, second) = drawn.ring(edge.ring), drawn.ends(edge)
    words = f"vertices {first} and {second} of {_ring_name(edge.ring)}"
    if number == 7:
        return f"{words} are the same point"
    at, length = ", ".join(map(short, points[first])), _tiny(math.dist(points[first], points[second]))
    return f"{words}, at ({at}), are {length} apart: edge {first} is shorter than 0.000001"


def _hole_outside(hole: int, known: Known) -> str:
    """The words of an 11."""
    if isinstance(known, tuple):
        return f"edge {known[1].edge} of ring {hole + 1} crosses or touches edge {known[0].edge} of ring 0"
    return {
        AROUND: f"ring {hole + 1} lies around ring 0: the outer ring comes first",
        APART: f"ring {hole + 1} lies apart from ring 0: each is an outline of its own",
    }.get(known or "", f"ring {hole + 1} is not inside ring 0")


def _holes_touch(first: int, second: int, known: Known) -> str:
    """The words of a 12."""
    if isinstance(known, tuple):
        return f"edge {known[0].edge} of hole {first} crosses or touches edge {known[1].edge} of hole {second}"
    return {
        WITHIN: f"hole {second} lies inside hole {first}",
        AROUND: f"hole {first} lies inside hole {second}",
    }.get(known or "", f"hole {first} and hole {second} are not apart")


def _no_shape(drawn: Drawn) -> str:
    """Why 21 does not pass it."""
    numbers, lengths = drawn
    if len(numbers) % 2:
        return "the count of numbers is odd"
    if not lengths:
        return "there is no ring"
    if 2 * sum(lengths) != len(numbers):
        return "the vertex counts do not add up to the points"
    for ring, length in enumerate(lengths):
        most = 32 if ring else 128
        if not 3 <= length <= most:
            return f"{_ring_name(ring)} has {length} vertices, and not 3 to {most}"
    for index, number in enumerate(numbers):
        if not abs(number) <= 1e9:
            return f"{_number_name(index, lengths)} is not within 1e9"
    return f"there are {len(lengths) - 1} holes: 8 is the limit"


class Refused(ValueError):
    """There is no such outline, region or cage; ``str`` says why in plain words.

    ``number`` is the number of the question that was answered with no, 1 to 22 and 27.
    ``values`` has what goes with it by name: ``{"ring": 0, "first": 3, "second": 7}``
    of two edges that cross. ``words`` is the reason without the number; they name
    vertices and edges where the refused drawing is at hand (``drawn``, and what else is
    ``known``). ``edges`` has two edges that cross or touch, each with its ring: those of
    a 9; of an 11 or a 12 of a drawing at hand those of its two rings, the lower ring
    first; None where there are none. ``edge`` has the first edge of the ring of a 7 or a
    27 whose ends are one point or a hair apart, of a drawing at hand; otherwise None.
    ``of_result`` says whether the ring of a 4, 5 or 6 is one of the result, None where
    that is not known. ``collapses``, ``divides`` and ``joins`` count what the offset had
    done before it stopped. Rings, holes, vertices and edges count from 0; edge k runs
    from vertex k to the next.
    """

    def __init__(self, number: int, values: Optional[Dict[str, Value]] = None, *, of_result: Optional[bool] = False,
                 drawn: Optional[Drawn] = None, known: Known = None, events: Tuple[int, int, int] = (0, 0, 0)) -> None:
        self.number = number
        self.values: Dict[str, Value] = dict(values or {})
        self.of_result = of_result
        self.collapses, self.divides, self.joins = events
        self.edges: Optional[Pair] = known if isinstance(known, tuple) else self._crossed()
        told = self.values or (drawn.found(number) if drawn else {})
        self.edge: Optional[RingEdge] = drawn.edge(number, int(told["ring"])) if drawn and told and number in (7, 27) else None
        self.words = self._words(told, drawn, known)
        super().__init__(f"{self.words} (refusal {number})")

    def of_drawing(self, numbers: Sequence[float], lengths: Sequence[int]) -> "Refused":
        """The same refusal with words that name the vertices of this drawing, where a 2, a 7 or a 27 is about some."""
        if self.number not in (2, 7, 27):
            return self
        return Refused(self.number, self.values, of_result=self.of_result, drawn=Drawn(numbers, lengths),
                       events=(self.collapses, self.divides, self.joins))

    def __reduce__(self) -> Tuple[Any, ...]:  # an exception with keyword arguments is pickled by hand
        return _again, (self.number, self.words), self.__dict__

    def _crossed(self) -> Optional[Pair]:
        """The two edges of a 9, where they are known."""
        if self.number != 9 or not self.values:
            return None
        ring, first, second = (int(self.values[name]) for name in ("ring", "first", "second"))
        return RingEdge(ring, first), RingEdge(ring, second)

    def _words(self, v: Dict[str, Value], drawn: Optional[Drawn], known: Known) -> str:
        """The reason in words, with its values where they are known."""
        number = self.number
        plain = PLAIN.get(number, "refused")
        if number == 21 and drawn:
            return f"this is not a shape: {_no_shape(drawn)}"
        if not v:
            return plain
        if number == 2 and known == OF_POINT:
            return f"the {('east', 'north')[int(v['index']) % 2]} of the point is not a finite number"
        if number == 2:
            return (_number_name(int(v["index"]), drawn.lengths) if drawn else f"number {v['index']}") + " is not a finite number"
        if drawn and self.edge:
            return _too_near(number, drawn, self.edge)
        if number == 9:
            return ("" if v["ring"] == 0 else f"in {_ring_name(int(v['ring']))}, ") + f"edge {v['first']} crosses edge {v['second']}"
        if number == 11:
            return _hole_outside(int(v["hole"]), known)
        if number == 12:
            return _holes_touch(int(v["first"]), int(v["second"]), known)
        return self._sentence() if number in SENTENCES else plain

    def _sentence(self) -> str:
        """Its sentence, the values filled in; 4, 5 and 6 are met in what was given and in the result."""
        told = {name: short(value) if isinstance(value, float) else str(value) for name, value in self.values.items()}
        if "ring" in told:
            told["ring"] = _ring_name(int(self.values["ring"]), self.of_result if self.number in (4, 5, 6) else False)
        return SENTENCES[self.number].format(**told)


def _again(number: int, words: str) -> Refused:
    """A refusal out of a pickle, its values still to come."""
    refusal = Refused(number)
    refusal.args = (f"{words} (refusal {number})",)
    return refusal


def refused(answer: Any, **more: Any) -> Refused:
    """The refusal that a struct of the library tells."""
    values = {name: getattr(answer, field) for name, field in CARRIES.get(answer.refusal, ()) if hasattr(answer, field)}
    if hasattr(answer, "collapses"):
        more["events"] = (answer.collapses, answer.divides, answer.joins)
    return Refused(answer.refusal, values, **more)


def from_lists(number: int, ring: Sequence[Value], wholes: Sequence[Value], floats: Sequence[Value]) -> Refused:
    """The refusal of lists of what it carries; where they are not all there, it carries nothing."""
    have = {"ring": ring, "first": wholes, "second": wholes[1:], "value": floats}
    fields = CARRIES.get(number, ())
    values = {name: have[field][0] for name, field in fields if have[field]}
    complete = len(values) == len(fields) and all(math.isfinite(v) for v in values.values())
    return Refused(number, values if complete else None, of_result=None)
