"""Doubles as whole numbers, and turns, meetings and folds of points, the pair of edges of two rings and their clearance in them:
what R-9, R-3 and R-1 say, worked out in another way than the library's.

A finite double is a whole number of units of the smallest one, 2^-1074, and so each answer here is exact, but for what is
said to be in doubles or rounded.
"""
import math
import struct

STRAIGHT, LEFT, RIGHT, UNKNOWN = 0, 1, 2, 3


def bits(number):
    return struct.unpack("<Q", struct.pack("<d", number))[0]


def of_bits(word):
    return struct.unpack("<d", struct.pack("<Q", word))[0]


def moved(number, steps):
    """The double so many steps further from 0, or nearer; the number itself where there is no such finite one."""
    word = bits(number) + steps
    found = of_bits(word) if 0 <= word < 1 << 64 else number
    return found if math.isfinite(found) else number


def units(number):
    """A double as a whole number of units, from its bits."""
    word = bits(number)
    field, digits = word >> 52 & 0x7FF, word & 2 ** 52 - 1
    if field == 0x7FF:
        raise ValueError("not a finite number")
    size = (2 ** 52 + digits) << field - 1 if field else digits
    return -size if word >> 63 else size


def whole(point):
    """A point in units."""
    return units(point[0]), units(point[1])


def finite(point):
    return math.isfinite(point[0]) and math.isfinite(point[1])


def turn(a, b, c):
    """To which side of the line from a to b the point c lies."""
    if not (finite(a) and finite(b) and finite(c)):
        return UNKNOWN
    (ae, an), (be, bn), (ce, cn) = whole(a), whole(b), whole(c)
    left, right = (be - ae) * (cn - an), (bn - an) * (ce - ae)
    return LEFT if left > right else RIGHT if left < right else STRAIGHT


def rounded(a, b, c):
    """The rounded cross product, whose sign the Rust takes for the turn."""
    return (b[0] - a[0]) * (c[1] - a[1]) - (b[1] - a[1]) * (c[0] - a[0])


def within(value, bound):
    """Whether a fraction, by numerator and denominator, is from 0 to 1."""
    return 0 <= value <= bound if bound > 0 else bound <= value <= 0


def along(point, start, way):
    """Whether a point is start + t * way with t from 0 to 1, all in units."""
    east, north = point[0] - start[0], point[1] - start[1]
    for first, second, a, b in ((east, north, *way), (north, east, way[1], way[0])):
        if a:
            return within(first, a) and first * b == second * a
    return east == north == 0


def on_segment(point, a, b):
    """Whether a finite point lies on the segment from a to b, both finite."""
    point, a, b = whole(point), whole(a), whole(b)
    return along(point, a, (b[0] - a[0], b[1] - a[1]))


def share(p1, p2, q1, q2):
    """Whether two segments with finite ends have a point in common."""
    return common(*map(whole, (p1, p2, q1, q2)))


def common(p1, p2, q1, q2):
    """The same of segments in units: p1 + s * d = q1 + t * e with s and t from 0 to 1."""
    (d, f), (e, g), (w, v) = ((b[0] - a[0], b[1] - a[1]) for a, b in ((p1, p2), (q1, q2), (p1, q1)))
    bound = e * f - d * g
    if bound:
        return within(e * v - g * w, bound) and within(d * v - f * w, bound)
    # Parallel, or one is a point: if they have a point in common, then an end of one lies on the other.
    return along(p1, q1, (e, g)) or along(p2, q1, (e, g)) or along(q1, p1, (d, f)) or along(q2, p1, (d, f))


def meet(p1, p2, q1, q2):
    """What is told of two segments. Where one end is not finite, its other end may still lie on the other segment."""
    broken = [k for k, point in enumerate((p1, p2, q1, q2)) if not finite(point)]
    if not broken:
        return share(p1, p2, q1, q2)
    if len(broken) > 1:
        return False
    return on_segment((p2, p1)[broken[0]], q1, q2) if broken[0] < 2 else on_segment((q2, q1)[broken[0] - 2], p1, p2)


def folds(shared, a, b):
    """Whether two edges from one end overlap. The dot product is in doubles, as in the Rust."""
    dot = (a[0] - shared[0]) * (b[0] - shared[0]) + (a[1] - shared[1]) * (b[1] - shared[1])
    return dot > 0 and turn(shared, a, b) == STRAIGHT


def hypot(x, y):
    """The double nearest to the root of x² + y², ties to even."""
    squared = units(x) ** 2 + units(y) ** 2
    room = max(0, 64 - squared.bit_length() // 2)
    root = math.isqrt(squared << 2 * room)
    # One bit more, set where the root is not whole: then the division rounds as the root would.
    return (2 * root + (root * root != squared << 2 * room)) / (1 << 1075 + room)


def gap(point, a, b):
    """How far a point is from an edge, each step in doubles, as in the Rust."""
    (e, f), (w, v) = ((end[0] - a[0], end[1] - a[1]) for end in (b, point))
    squared = e * e + f * f
    t = min(max((w * e + v * f) / squared, 0.0), 1.0) if squared > 0 else 0.0
    return hypot(point[0] - (a[0] + t * e), point[1] - (a[1] + t * f))


def edges(ring):
    """The edges of a ring, the one that closes it last."""
    return list(zip(ring, ring[1:] + ring[:1]))


def hairline(ring):
    """Is an edge too short for a drawing?"""
    return any(hypot(b[0] - a[0], b[1] - a[1]) < 1e-6 for a, b in edges(ring))


def on_ring(point, ring):
    """Whether a finite point lies on an edge of a ring."""
    return any(on_segment(point, a, b) for a, b in edges(ring))


def on_rounded(point, ring):
    """The same by the rounded cross product and the edge's box, as the Rust tells it."""
    return any(rounded(a, b, point) == 0 and min(a[0], b[0]) <= point[0] <= max(a[0], b[0])
               and min(a[1], b[1]) <= point[1] <= max(a[1], b[1]) for a, b in edges(ring))


def walk(outer, inner):
    """The lowest edge of the outer ring that has a point in common with any of the inner one, and the lowest of these."""
    outer, inner = (edges([whole(vertex) for vertex in ring]) for ring in (outer, inner))
    return next(((j, k) for j, edge in enumerate(outer) for k, other in enumerate(inner) if common(*edge, *other)), None)


def ring_pair(first, second):
    """Where two rings have a point in common, the edge of the outer walk, that of the inner walk, and whether the second ring is
    in the outer walk, as it is where it has fewer vertices."""
    swapped = len(second) < len(first)
    found = walk(second, first) if swapped else walk(first, second)
    return found and (*found, swapped)


def rings_share(ring, other):
    """Whether two rings have a point in common."""
    return walk(ring, other) is not None


def gaps(ring, other):
    """Of each vertex of a ring the least gap to the edges of another."""
    return [min(gap(vertex, *edge) for edge in edges(other)) for vertex in ring]


def clearance(first, second):
    """0 where two rings have a point in common, else the least gap of the vertices of each to the edges of the other."""
    return 0.0 if rings_share(first, second) else min(gaps(first, second) + gaps(second, first))
