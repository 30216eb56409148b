"""Outlines, regions and their cages."""
import operator
from enum import Enum
from typing import Any, Iterable, List, NamedTuple, NoReturn, Optional, Sequence, Tuple, Union, overload

from . import _library
from ._library import call, lent, numbers_in, points, whole, wholes_in
from .refusals import APART, AROUND, OF_POINT, WITHIN, Drawn, Known, Refused, RingEdge, refused

Point = Tuple[float, float]
Edge = Tuple[Point, Point]
Ring = List[Point]
PointLike = Sequence[float]
RingLike = Iterable[PointLike]


class Place(Enum):
    """Where a point lies. It is not true or false: ``if`` needs ``place is Place.INSIDE``."""

    OUTSIDE = 0
    ON_BOUNDARY = 1
    INSIDE = 2

    def __bool__(self) -> NoReturn:
        raise TypeError("a place is not true or false: write `is Place.INSIDE`, or `is not Place.OUTSIDE` to have the boundary, too")


class Nearest(NamedTuple):
    """The nearest point of a boundary, and how far it is.

    Where that is past the largest double, the distance reads 0 and the point is the one asked.
    """

    distance: float
    point: Point


class NearestPoints(NamedTuple):
    """Where two outlines come nearest, in ``first.nearest_points(second)``: a point of each, one of them a vertex, and how far it is."""

    distance: float
    of_first: Point
    of_second: Point


class Meeting(NamedTuple):
    """Two edges that meet, one of each of two outlines: in ``first.meeting(second)``.

    The outline of fewer vertices is in the outer walk, of two with as many the first. ``outer`` is the lowest edge there that
    meets any edge of the other, and ``inner`` the lowest edge of the other that it meets: so they are not in the order in which
    the outlines are named. ``swapped`` says whether the second, having fewer vertices, is in the outer walk.
    """

    outer: int
    inner: int
    swapped: bool

    @property
    def edge_of_first(self) -> int:
        """The edge of the outline that is named first."""
        return self.inner if self.swapped else self.outer

    @property
    def edge_of_second(self) -> int:
        """The edge of the outline that is named second."""
        return self.outer if self.swapped else self.inner


class Events(NamedTuple):
    """What an offset did on its way: edges that shrank to nothing, splits of a ring into two, splits that made two rings one."""

    collapses: int
    divides: int
    joins: int


# ---- what is handed in, and what is asked

def _float(value: Any) -> float:
    """A coordinate or a distance. Digits in a text are none."""
    if isinstance(value, (str, bytes, bytearray)):
        raise TypeError(f"a number is wanted, and not {value!r}")
    return float(value)


def _floats(values: Iterable[Any]) -> List[float]:
    return [_float(value) for value in values]


def _numbers(ring: RingLike) -> List[float]:
    """The flat list of a ring's points."""
    numbers: List[float] = []
    for point in ring:
        pair = tuple(point)
        if len(pair) != 2:
            raise TypeError(f"a vertex is two numbers, east and north, and not {pair!r}")
        numbers += (_float(pair[0]), _float(pair[1]))
    return numbers


def _rings(rings: Iterable[Any]) -> List[Any]:
    """The rings of a list of rings, or of one ring."""
    listed = [list(part) for part in rings]
    return [listed] if listed and listed[0] and not hasattr(type(listed[0][0]), "__iter__") else listed


def _lengths(lengths: Iterable[Any]) -> List[int]:
    """Vertex counts of rings."""
    return [whole(length, "a vertex count") for length in lengths]


def _parted(numbers: Sequence[float], lengths: Iterable[int]) -> List[Ring]:
    """The rings of a flat list."""
    rings, at = [], 0
    for length in lengths:
        rings.append(points(numbers[2 * at:2 * (at + length)]))
        at += length
    return rings


def _index(k: Any, count: int, what: str) -> int:
    """A place in a list of so many, below 0 counted from its end."""
    if isinstance(k, bool) or not hasattr(type(k), "__index__"):
        raise TypeError(f"the {what}'s number is a whole number, and not {k!r}")
    at = operator.index(k)
    if not -count <= at < count:
        raise IndexError(f"there is no {what} {at}: there are {count}")
    return at % count


def _granted(answer: Any, **more: Any) -> Any:
    """The answer, where it is granted."""
    if answer.refusal:
        raise refused(answer, **more)
    return answer


def _place(answer: Any) -> Place:
    return Place(_granted(answer, known=OF_POINT).place)


def _nearest(answer: Any) -> Nearest:
    found = _granted(answer, known=OF_POINT)
    return Nearest(found.distance, (found.east + 0.0, found.north + 0.0))


def _events(answer: Any) -> Events:
    return Events(answer.collapses, answer.divides, answer.joins)


def version() -> int:
    """The version of the library: it goes up with every function that is added or changed."""
    return int(call("lw_version"))


def hypot(x: float, y: float) -> float:
    """The double nearest to the root of x² + y², ties to even."""
    return float(call("lw_hypot", _float(x), _float(y)))


# ---- shapes

class Cage(Sequence[Ring]):
    """The rings of an inset or outset, the outer one first. It can be read like a list of rings.

    It can be offset again, as it is: nothing of it is asked but 21, so that an edge shorter than
    0.000001, which a drawing is refused for (27), does no harm. Its rings as lists are a drawing
    like any other: ``Outline(cage.outer)`` asks 27, ``cage.outline`` does not. Two are equal where
    their rings are; ``events``, which tell how it was found, are not compared.
    """

    def __init__(self, rings: Iterable[RingLike], events: Events) -> None:
        lists = [_numbers(ring) for ring in rings]
        self._numbers = tuple(number for numbers in lists for number in numbers)
        self._counts = tuple(len(numbers) // 2 for numbers in lists)
        self._events = events

    @property
    def rings(self) -> List[Ring]:
        """Its rings."""
        return _parted(self._numbers, self._counts)

    @property
    def events(self) -> Events:
        """What the offset did on its way."""
        return self._events

    @property
    def outer(self) -> Ring:
        """The outer ring."""
        return self.rings[0]

    @property
    def holes(self) -> List[Ring]:
        """The other rings."""
        return self.rings[1:]

    @property
    def outline(self) -> "Outline":
        """The cage as an outline, as it is. Raises ValueError where it has holes: it is a :attr:`region` then."""
        if len(self) != 1:
            raise ValueError(f"a cage of {len(self)} rings is no outline: it is a region")
        return Outline.stored(self._numbers)

    @property
    def region(self) -> "Region":
        """The cage as a region, as it is."""
        return Region.stored(self._numbers, self._counts)

    def inset(self, distance: float) -> "Cage":
        """The cage inside this one. Refused as :meth:`Outline.inset` and :meth:`Region.inset`, and with 21."""
        return self.outline.inset(distance) if len(self) == 1 else self.region.inset(distance)

    def outset(self, distance: float) -> "Cage":
        """The cage outside this one, which has one ring."""
        return self.outline.outset(distance)

    def __len__(self) -> int:
        return len(self._counts)

    @overload
    def __getitem__(self, at: int) -> Ring: ...

    @overload
    def __getitem__(self, at: slice) -> List[Ring]: ...

    def __getitem__(self, at: Union[int, slice]) -> Union[Ring, List[Ring]]:
        return self.rings[at]

    def __eq__(self, other: object) -> bool:
        if not isinstance(other, Cage):
            return NotImplemented
        return (self._numbers, self._counts) == (other._numbers, other._counts)

    def __hash__(self) -> int:
        return hash((self._numbers, self._counts))

    def __repr__(self) -> str:
        return "<Cage of " + " + ".join(map(str, self._counts)) + " vertices>"


class Outline:
    """An outline that has passed its check: 3 to 128 vertices, no two edges crossing.

    That is told exactly: no two edges that are no neighbours share a point, however
    nearly they lie on one line.

    The vertices may come in either direction, with the first one repeated at the end
    or not; they are kept counter-clockwise. Raises :class:`Refused` with 2 or 4 to 9,
    or with 27: an edge is shorter than 0.000001.
    """

    def __init__(self, ring: RingLike) -> None:
        self._check(_numbers(ring))

    @classmethod
    def from_numbers(cls, numbers: Iterable[float]) -> "Outline":
        """The outline of a flat list, east then north of each vertex. Refused as above, and with 1."""
        outline = cls.__new__(cls)
        outline._check(_floats(numbers))
        return outline

    @classmethod
    def stored(cls, numbers: Iterable[float]) -> "Outline":
        """An outline as it is, by its :attr:`numbers`: 21 is asked, and nothing else, 27 neither.

        It runs counter-clockwise. That is not asked: one that runs clockwise can be refused an offset that it gets as
        ``Outline(..)``, which turns it round.
        """
        outline = cls.__new__(cls)
        outline._keep(_floats(numbers))
        return outline

    def _check(self, numbers: List[float]) -> None:
        out = lent(_library.OUTLINE_NUMBERS)
        answer = _granted(call("lw_outline", *numbers_in(numbers), out, len(out)), drawn=Drawn(numbers, [len(numbers) // 2]))
        self._numbers = numbers_in(out[:2 * answer.count])

    def _keep(self, numbers: List[float]) -> None:
        self._numbers = numbers_in(numbers)
        _granted(call("lw_area", *self._numbers), drawn=Drawn(numbers, [len(numbers) // 2]))

    @property
    def numbers(self) -> List[float]:
        """Its flat list, east then north of each vertex."""
        return [number + 0.0 for number in self._numbers[0]]

    @property
    def vertices(self) -> Ring:
        """Its vertices, counter-clockwise, or as they were stored."""
        return points(self._numbers[0])

    @property
    def edges(self) -> List[Edge]:
        """Its edges: edge k runs from vertex k to the next, the last one to vertex 0."""
        vertices = self.vertices
        return list(zip(vertices, vertices[1:] + vertices[:1]))

    def vertex(self, k: int) -> Point:
        """Vertex k, below 0 counted from the end. Raises IndexError where there is none."""
        found = _granted(call("lw_vertex", *self._numbers, _index(k, len(self), "vertex")))
        return found.east + 0.0, found.north + 0.0

    def edge(self, k: int) -> Edge:
        """Edge k, likewise."""
        found = _granted(call("lw_edge", *self._numbers, _index(k, len(self), "edge")))
        return (found.start_east + 0.0, found.start_north + 0.0), (found.end_east + 0.0, found.end_north + 0.0)

    @property
    def area(self) -> float:
        """The area enclosed."""
        return float(_granted(call("lw_area", *self._numbers)).area)

    @property
    def perimeter(self) -> float:
        """The length of the boundary."""
        return float(_granted(call("lw_perimeter", *self._numbers)).length)

    @property
    def extent(self) -> float:
        """The largest absolute coordinate."""
        return float(_granted(call("lw_extent", *self._numbers)).length)

    def clearance(self, other: "Outline") -> float:
        """The least distance from a vertex of either outline to an edge of the other; 0 if an edge of one meets an edge of the other.

        It is the same, bit for bit, whichever is named first. One outline inside the other is measured the same way. A distance can
        round to 0 where they do not meet: :meth:`meeting` tells.
        """
        return float(_granted(call("lw_clearance", *self._numbers, *_outline(other)._numbers)).length)

    def nearest_points(self, other: "Outline") -> Optional[NearestPoints]:
        """Where the outlines come nearest; the distance is their :meth:`clearance`. None where they meet: :meth:`meeting` has the edges.

        Each vertex of this outline is asked for the nearest point of the other, from vertex 0 on, then each of the other for that of
        this one. Of several as near the first counts.
        """
        if self.meeting(other):
            return None
        asked = [(vertex, other.nearest(vertex)) for vertex in self.vertices]
        asked_back = [(vertex, self.nearest(vertex)) for vertex in other.vertices]
        found = [NearestPoints(near.distance, vertex, near.point) for vertex, near in asked]
        found += [NearestPoints(near.distance, near.point, vertex) for vertex, near in asked_back]
        return min(found, key=lambda pair: pair.distance)

    def meeting(self, other: "Outline") -> Optional[Meeting]:
        """Two edges, one of this outline and one of the other, that share a point, which is told exactly; see :class:`Meeting`.

        None where no two do, as where one outline lies inside the other. An edge is counted in its outline as it is: see :attr:`edges`.
        """
        found = _granted(call("lw_meeting", *self._numbers, *_outline(other)._numbers))
        return Meeting(found.outer, found.inner, found.swapped == 1) if found.meets == 1 else None

    def contains(self, point: PointLike) -> Place:
        """Where a point lies: on the boundary if and only if it lies on an edge, with nothing rounded.

        Refused with 2 where the point is not finite.
        """
        return _place(call("lw_contains", *self._numbers, *_numbers([point])))

    def nearest(self, point: PointLike) -> Nearest:
        """The nearest point of the boundary, and how far it is. Refused with 2 where the point is not finite.

        Where that is past the largest double, the distance reads 0 and the point is the one asked.
        """
        return _nearest(call("lw_nearest", *self._numbers, *_numbers([point])))

    def distance_to_boundary(self, point: PointLike) -> float:
        """How far the boundary is: the distance of :meth:`nearest`."""
        return self.nearest(point).distance

    def closest_boundary_point(self, point: PointLike) -> Point:
        """The nearest point of the boundary."""
        return self.nearest(point).point

    def inset(self, distance: float) -> Cage:
        """The ring inside at that distance. Refused with 13 to 18, or with 4 to 6 of the result.

        Above 0 each of its vertices lies, measured exactly, at least

            distance - 2e-9 * (1 + distance + largest) - 1e-15 * largest

        from every edge of the outline, ``largest`` being the outline's largest absolute coordinate and nothing being rounded.
        """
        return self._offset("lw_inset", distance)

    def outset(self, distance: float) -> Cage:
        """The ring outside at that distance, likewise, but of exact distances nothing is promised."""
        return self._offset("lw_outset", distance)

    def _offset(self, name: str, distance: float) -> Cage:
        out = lent(_library.OUTLINE_NUMBERS)
        answer = _granted(call(name, *self._numbers, _float(distance), out, len(out)), of_result=True)
        return Cage([points(out[:2 * answer.count])], _events(answer))

    def __eq__(self, other: object) -> bool:
        if not isinstance(other, Outline):
            return NotImplemented
        return self.numbers == other.numbers

    def __hash__(self) -> int:
        return hash(tuple(self.numbers))

    def __reduce__(self) -> Tuple[Any, ...]:  # lent memory is not pickled: its numbers are
        return type(self).stored, (self.numbers,)

    def __len__(self) -> int:
        return self._numbers[1] // 2

    def __repr__(self) -> str:
        return f"<Outline of {len(self)} vertices>"


def _outline(outline: object) -> Outline:
    """An outline, and not a ring of points, which nobody has checked."""
    if not isinstance(outline, Outline):
        raise TypeError(f"an Outline is wanted, and not {type(outline).__name__}")
    return outline


class Region:
    """An outline with up to 8 holes of up to 32 vertices each.

    ``rings`` is the outer ring and then the holes. The holes lie inside it and apart
    from each other. Raises :class:`Refused` with 2 to 12, or with 27: an edge is shorter
    than 0.000001. A :class:`Cage` is taken as it is, as its :attr:`Cage.region`.
    """

    def __init__(self, rings: Union[RingLike, Iterable[RingLike]]) -> None:
        if isinstance(rings, Cage):
            self._store(rings._numbers, rings._counts)
            return
        lists = [_numbers(ring) for ring in _rings(rings)]
        self._make("lw_region", [number for numbers in lists for number in numbers], [len(numbers) // 2 for numbers in lists])

    @classmethod
    def from_numbers(cls, numbers: Iterable[float], lengths: Iterable[int]) -> "Region":
        """The region of a flat list, with the vertex count of each ring. Refused as above, and with 1."""
        region = cls.__new__(cls)
        region._make("lw_region", _floats(numbers), _lengths(lengths))
        return region

    @classmethod
    def of_outlines(cls, outer: Outline, holes: Iterable[Outline] = ()) -> "Region":
        """The region of given outlines, as they are. Refused with 10 to 12, and with 21 of a hole of more than 32 vertices.

        Each runs counter-clockwise, holes too. That is not asked: of a hole that runs clockwise, as :meth:`Outline.stored`
        keeps it, an inset can be granted without it. ``Region(..)`` turns such rings round.
        """
        outlines = [_outline(outline) for outline in (outer, *holes)]
        region = cls.__new__(cls)
        region._make("lw_given_region", [number for outline in outlines for number in outline.numbers], list(map(len, outlines)))
        return region

    @classmethod
    def without_holes(cls, outline: Outline) -> "Region":
        """The region of one outline, as it is."""
        out = lent(_library.OUTLINE_NUMBERS)
        answer = _granted(call("lw_without_holes", *_outline(outline)._numbers, out, len(out)))
        region = cls.__new__(cls)
        region._hold(out, answer.counts[:answer.rings])
        return region

    @classmethod
    def stored(cls, numbers: Iterable[float], lengths: Iterable[int]) -> "Region":
        """A region as it is, by its :attr:`numbers` and :attr:`lengths`: 21 is asked, and nothing else, 27 neither.

        Each ring runs counter-clockwise, holes too. That is not asked: of a hole that runs clockwise, as other programs
        write it, an inset can be granted without it. ``Region(..)`` and :meth:`from_numbers` turn such rings round.
        """
        region = cls.__new__(cls)
        region._store(_floats(numbers), _lengths(lengths))
        return region

    def _store(self, numbers: Sequence[float], lengths: Sequence[int]) -> None:
        answer = call("lw_stored_region", *numbers_in(numbers), *wholes_in(lengths))
        self._hold(numbers, _granted(answer, drawn=Drawn(numbers, lengths)).counts[:answer.rings])

    def _make(self, name: str, numbers: List[float], lengths: List[int]) -> None:
        out = lent(_library.REGION_NUMBERS)
        answer = call(name, *numbers_in(numbers), *wholes_in(lengths), out, len(out))
        if answer.refusal:
            given = Drawn(numbers, lengths)
            raise refused(answer, drawn=given, known=_known(answer, given))
        self._hold(out, answer.counts[:answer.rings])

    def _hold(self, numbers: Sequence[float], lengths: List[int]) -> None:
        """Keeps rings for the library: numbers with their count, vertex counts with theirs."""
        self._rings = *numbers_in(numbers[:2 * sum(lengths)]), *wholes_in(lengths)

    @property
    def numbers(self) -> List[float]:
        """The flat list of its rings, one after the other."""
        return [number + 0.0 for number in self._rings[0]]

    @property
    def lengths(self) -> List[int]:
        """The vertex count of each ring."""
        return list(self._rings[2])

    @property
    def rings(self) -> List[Ring]:
        """The outer ring and the holes, each counter-clockwise, or as it was stored."""
        return _parted(self._rings[0], self.lengths)

    @property
    def outer(self) -> Outline:
        """The outer ring as an outline."""
        out = lent(_library.OUTLINE_NUMBERS)
        answer = _granted(call("lw_region_outer", *self._rings, out, len(out)))
        return Outline.stored(out[:2 * answer.count])

    def hole(self, k: int) -> Outline:
        """Hole k as an outline, below 0 counted from the end. Raises IndexError where there is none."""
        out = lent(_library.OUTLINE_NUMBERS)
        answer = _granted(call("lw_region_hole", *self._rings, _index(k, self._rings[3] - 1, "hole"), out, len(out)))
        return Outline.stored(out[:2 * answer.count])

    @property
    def holes(self) -> List[Outline]:
        """Its holes as outlines."""
        return [self.hole(k) for k in range(self._rings[3] - 1)]

    @property
    def area(self) -> float:
        """The area inside the outer ring and outside every hole."""
        return float(_granted(call("lw_region_area", *self._rings)).area)

    @property
    def perimeter(self) -> float:
        """The length of the outer ring and of every hole."""
        return float(_granted(call("lw_region_perimeter", *self._rings)).length)

    def contains(self, point: PointLike) -> Place:
        """Where a point lies; one in a hole is outside, one on an edge of a hole is on the boundary.

        But where that edge is right beside the outer ring, it can be told outside. Refused with 2 where the point is not finite.
        """
        return _place(call("lw_region_contains", *self._rings, *_numbers([point])))

    def nearest(self, point: PointLike) -> Nearest:
        """The nearest point of the boundary, that of the holes too, and how far it is; past the largest double as of an outline.

        Refused with 2 where the point is not finite.
        """
        return _nearest(call("lw_region_nearest", *self._rings, *_numbers([point])))

    def distance_to_boundary(self, point: PointLike) -> float:
        """How far the boundary is, that of the holes too: the distance of :meth:`nearest`."""
        return self.nearest(point).distance

    def closest_boundary_point(self, point: PointLike) -> Point:
        """The nearest point of the boundary, that of the holes too."""
        return self.nearest(point).point

    def inset(self, distance: float) -> Cage:
        """The region inside: the outer ring moves in, the holes grow. Refused with 13 to 19, or with 4 to 6 of the result.

        Above 0 each vertex lies at least as far as :meth:`Outline.inset` says from every edge of every ring of this region,
        ``largest`` being the largest absolute coordinate of them all.
        """
        out = lent(_library.REGION_NUMBERS)
        answer = _granted(call("lw_stored_region_inset", *self._rings, _float(distance), out, len(out)), of_result=True)
        return Cage(_parted(out, answer.counts[:answer.rings]), _events(answer))

    def __eq__(self, other: object) -> bool:
        if not isinstance(other, Region):
            return NotImplemented
        return (self.numbers, self.lengths) == (other.numbers, other.lengths)

    def __hash__(self) -> int:
        return hash((tuple(self.numbers), tuple(self.lengths)))

    def __reduce__(self) -> Tuple[Any, ...]:  # as of an outline
        return type(self).stored, (self.numbers, self.lengths)

    def __repr__(self) -> str:
        return "<Region of " + " + ".join(map(str, self.lengths)) + " vertices>"


def _as_drawn(given: Drawn, ring: int) -> Outline:
    """A ring as an outline, not turned round, so that its edges have the numbers that they were given with: without a closing
    repeat, as one that was drawn; or as it is, where it is none without it."""
    try:
        return Outline.stored(_numbers(given.ring(ring)))
    except Refused:
        return Outline.stored(_numbers(given.as_it_is(ring)))


def _known(answer: Any, given: Drawn) -> Known:
    """Which edges of the two rings of an 11 or a 12 meet, or how the second lies to the first. All rings have passed 21 by then."""
    if answer.refusal not in (11, 12):
        return None
    first, second = (0, answer.first + 1) if answer.refusal == 11 else (answer.first + 1, answer.second + 1)
    one, two = _as_drawn(given, first), _as_drawn(given, second)
    met = one.meeting(two)
    if met:
        return RingEdge(first, met.edge_of_first), RingEdge(second, met.edge_of_second)
    if one.contains(two.vertex(0)) is Place.INSIDE:
        return WITHIN
    return AROUND if two.contains(one.vertex(0)) is Place.INSIDE else APART


# ---- cages

def inset(rings: Union[RingLike, Iterable[RingLike], Outline, Region], distance: float) -> Cage:
    """The cage inside.

    ``rings`` is one ring of points, or a list of rings: the outer one, then the holes. They are asked all that a drawing is; a
    :class:`Cage`, an :class:`Outline` or a :class:`Region` is taken as it is.
    Raises :class:`Refused`, whose words say why there is none.
    How far its vertices lie from the rings at least, :meth:`Outline.inset` and :meth:`Region.inset` say.
    """
    if isinstance(rings, (Cage, Outline, Region)):
        return rings.inset(distance)
    listed = _rings(rings)
    return Outline(listed[0]).inset(distance) if len(listed) == 1 else Region(listed).inset(distance)


def outset(rings: Union[RingLike, Iterable[RingLike], Outline], distance: float) -> Cage:
    """The cage outside. ``rings`` is one ring, without holes; a :class:`Cage` or an :class:`Outline` is taken as it is."""
    if isinstance(rings, (Cage, Outline)):
        return rings.outset(distance)
    listed = _rings(rings)
    if not listed:
        raise Refused(3)
    if len(listed) > 1:
        raise ValueError(f"an outset is of one ring, and not of {len(listed)}")
    return Outline(listed[0]).outset(distance)
