"""A user's program for mypy --strict alone: what the package's functions take and give."""
from pathlib import Path
from typing import List, Optional, Tuple

from lizardwire import (
    Answer, Cage, Events, Job, Meeting, Nearest, NearestPoints, Outline, Place, Refused, Region, Stream, answer_line, hypot, inset, outset,
    read_jobs, version, write_jobs,
)

SQUARE = [(0, 0), (4, 0), (4, 4), (0, 4)]


def outlines(outline: Outline) -> Tuple[float, float, float, float]:
    place: Place = outline.contains((2, 2))
    nearest: Nearest = outline.nearest([7.0, 8.0])
    start, end = outline.edge(0)
    east, north = outline.vertex(-1)
    assert place is Place.INSIDE and start != end
    clear: float = outline.clearance(Outline.stored(outline.numbers))
    near: Optional[NearestPoints] = outline.nearest_points(Outline(SQUARE))
    assert near is None or near.distance >= 0 and near.of_first != near.of_second
    met: Optional[Meeting] = outline.meeting(Outline.stored(outline.numbers))
    assert met is not None and not met.swapped and met.outer + met.inner == met.edge_of_first + met.edge_of_second
    return outline.area + outline.perimeter, outline.extent + nearest.distance, clear, east + north


def regions(region: Region) -> List[Tuple[float, float]]:
    again = Region.of_outlines(region.outer, region.holes)
    assert again.hole(0) == Region.without_holes(region.outer).outer or again.contains((1, 1)) is not Place.OUTSIDE
    stored = Region.stored(region.numbers, region.lengths)
    return [region.closest_boundary_point((0, 0)), (stored.area, stored.distance_to_boundary((1, 1)) + stored.perimeter)]


def cages(distance: float) -> Optional[Cage]:
    try:
        cage = inset(SQUARE, distance).inset(distance)
    except Refused as refusal:
        number: int = refusal.number
        assert refusal.edges is None or refusal.edges[0].ring <= refusal.edges[1].ring
        assert refusal.edge is None or refusal.edge.ring + refusal.edge.edge >= 0
        return None if number else outset([SQUARE], distance)
    assert inset(cage, 0) == inset(cage.outline, 0) == inset(cage.region, 0) == outset(cage, 0) == outset(cage.outline, 0)
    assert Region(cage) == cage.region
    events: Events = cage.events
    first: List[Tuple[float, float]] = cage[0]
    rest: List[List[Tuple[float, float]]] = cage[1:]
    return cage if events.joins + len(first) + len(rest) + cage.region.area > version() else cage.outline.outset(hypot(3, 4))


def jobs(path: str) -> bytes:
    found = [job for job in read_jobs(path) if isinstance(job, Job)]
    write_jobs(Path(path), found)
    answer: Answer = found[0].answer()
    stream = Stream()
    return stream.feed(answer_line(found[0].line().encode())) + stream.finish() + answer.words().encode()
