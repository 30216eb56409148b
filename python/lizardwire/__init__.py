"""Cages of outlines and regions.

You draw the outline of a part and give a distance. You get the ring that its edges make
once they have moved inward by that distance, corners mitred, or outward for an outset.
Holes stay holes. Where no such ring is found, :class:`Refused` says why, in words and by
number. Where a drawing has a narrow place, a cage can lack the part behind it.

    >>> import lizardwire
    >>> square = [(0, 0), (4, 0), (4, 4), (0, 4)]
    >>> lizardwire.inset(square, 1).outer
    [(1.0, 1.0), (3.0, 1.0), (3.0, 3.0), (1.0, 3.0)]
    >>> lizardwire.inset(square, 2)
    Traceback (most recent call last):
        ...
    lizardwire.refusals.Refused: nothing is left: the margin 2 is too wide (refusal 16)

A cage can be offset again and asked, as an outline or a region:

    >>> lizardwire.inset(square, 1).inset(0.5).outline.area
    1.0
    >>> lizardwire.Region([square, [(1, 1), (2, 1), (2, 2), (1, 2)]]).contains((1.5, 1.5)) is lizardwire.Place.OUTSIDE
    True

The work is done by the shared library, whose functions are proved. This package is
ordinary Python over it, from 3.9 on, and needs nothing else. ``python -m lizardwire
--help`` says what it does from the command line.
"""
from ._library import LibraryMissing
from .jobs import Answer, Job, Stream, answer_line, read_jobs, write_jobs
from .refusals import Refused
from .shapes import Cage, Events, Meeting, Nearest, NearestPoints, Outline, Place, Region, hypot, inset, outset, version

__all__ = [
    "Answer", "Cage", "Events", "Job", "LibraryMissing", "Meeting", "Nearest", "NearestPoints", "Outline", "Place", "Refused",
    "Region", "Stream", "answer_line", "hypot", "inset", "outset", "read_jobs", "version", "write_jobs",
]
__version__ = "0.4.0"
