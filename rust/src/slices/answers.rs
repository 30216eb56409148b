//! What is answered, and how it is read from the library's structs.

use crate::ffi;
use crate::refusal::Refusal;

/// East and north.
pub type Point = (f64, f64);

/// Where a point lies.
#[derive(Debug, Clone, Copy, PartialEq, Eq, Hash)]
#[non_exhaustive]
pub enum Place {
    /// Outside, or in a hole.
    Outside,
    /// On the boundary, exactly: it lies on an edge.
    OnBoundary,
    /// Inside.
    Inside,
}

/// The nearest point of a boundary. Where it is farther than the largest double, the distance reads 0 and the point is the one asked.
#[derive(Debug, Clone, Copy, PartialEq)]
#[non_exhaustive]
pub struct Nearest {
    /// How far it is.
    pub distance: f64,
    /// Where it is.
    pub point: Point,
}

/// Where two outlines come nearest: a point of each, one of them a vertex.
#[derive(Debug, Clone, Copy, PartialEq)]
#[non_exhaustive]
pub struct NearestPoints {
    /// How far they are apart: the clearance of the outlines.
    pub distance: f64,
    /// The point of the outline that is named first: of `self` in [`Outline::nearest_points`](crate::Outline::nearest_points).
    pub of_first: Point,
    /// The point of the outline that is named second: of the other.
    pub of_second: Point,
}

/// Two edges that meet, one of each of two outlines.
///
/// The outline of fewer vertices is in the outer walk, of two with as many the first. So `outer` and `inner` are not in the order in
/// which the outlines are named: [`edge_of_first`](Self::edge_of_first) and [`edge_of_second`](Self::edge_of_second) go by that.
#[derive(Debug, Clone, Copy, PartialEq, Eq, Hash)]
#[non_exhaustive]
pub struct Meeting {
    /// Of the outer walk, the lowest edge that meets any.
    pub outer: usize,
    /// Of the inner walk, the lowest edge that it meets.
    pub inner: usize,
    /// Whether the second outline, having fewer vertices, is in the outer walk.
    pub swapped: bool,
}

impl Meeting {
    /// The edge of the outline that is named first: of `self` in [`Outline::meeting`](crate::Outline::meeting).
    pub fn edge_of_first(&self) -> usize {
        [self.outer, self.inner][usize::from(self.swapped)]
    }

    /// The edge of the outline that is named second: of the other.
    pub fn edge_of_second(&self) -> usize {
        [self.inner, self.outer][usize::from(self.swapped)]
    }
}

/// The completed events of an offset.
#[derive(Debug, Clone, Copy, PartialEq, Eq, Hash, Default)]
#[non_exhaustive]
pub struct Events {
    /// Edges that shrank to nothing.
    pub collapses: usize,
    /// Splits of a ring into two.
    pub divides: usize,
    /// Splits that made two rings one.
    pub joins: usize,
}

/// The rings of a region: the vertices of each, the outer one first.
#[derive(Debug, Clone, Copy, PartialEq, Eq, Hash)]
pub struct Rings {
    rings: usize,
    counts: [usize; 1 + crate::HOLES],
}

impl Rings {
    /// The vertices of each ring.
    pub fn counts(&self) -> &[usize] {
        &self.counts[..self.rings]
    }

    /// How many numbers the rings are, two a vertex.
    pub fn numbers(&self) -> usize {
        self.counts.iter().map(|count| 2 * count).sum()
    }

    /// No more rings than there are counts.
    fn of(rings: usize, counts: [usize; 1 + crate::HOLES]) -> Self {
        Self {
            rings: rings.min(counts.len()),
            counts,
        }
    }
}

pub(super) fn vertices(a: ffi::LwOutline) -> Result<usize, Refusal> {
    Refusal::told(a.refusal, a.ring, a.first, a.second, a.value).map(|()| a.count)
}

pub(super) fn place(a: ffi::LwPlace) -> Result<Place, Refusal> {
    Refusal::told(a.refusal, 0, a.first, 0, 0.0).map(|()| match a.place {
        2 => Place::Inside,
        1 => Place::OnBoundary,
        _ => Place::Outside,
    })
}

pub(super) fn nearest(a: ffi::LwNearest) -> Result<Nearest, Refusal> {
    Refusal::told(a.refusal, 0, a.first, 0, 0.0).map(|()| Nearest {
        distance: a.distance,
        point: (a.east, a.north),
    })
}

pub(super) fn area(a: ffi::LwArea) -> Result<f64, Refusal> {
    Refusal::told(a.refusal, 0, 0, 0, 0.0).map(|()| a.area)
}

pub(super) fn length(a: ffi::LwLength) -> Result<f64, Refusal> {
    Refusal::told(a.refusal, 0, 0, 0, 0.0).map(|()| a.length)
}

pub(super) fn meeting(a: ffi::LwMeeting) -> Result<Option<Meeting>, Refusal> {
    let found = Meeting {
        outer: a.outer,
        inner: a.inner,
        swapped: a.swapped == 1,
    };
    Refusal::told(a.refusal, 0, 0, 0, 0.0).map(|()| (a.meets == 1).then_some(found))
}

pub(super) fn offset(a: ffi::LwOffset) -> (Result<usize, Refusal>, Events) {
    let told = Refusal::told(a.refusal, a.ring, a.first, a.second, a.value);
    let events = Events {
        collapses: a.collapses,
        divides: a.divides,
        joins: a.joins,
    };
    (told.map(|()| a.count), events)
}

pub(super) fn rings(a: ffi::LwRegion) -> Result<Rings, Refusal> {
    let told = Refusal::told(a.refusal, a.ring, a.first, a.second, a.value);
    told.map(|()| Rings::of(a.rings, a.counts))
}

pub(super) fn region_offset(a: ffi::LwRegionOffset) -> (Result<Rings, Refusal>, Events) {
    let told = Refusal::told(a.refusal, a.ring, a.first, a.second, a.value);
    let events = Events {
        collapses: a.collapses,
        divides: a.divides,
        joins: a.joins,
    };
    (told.map(|()| Rings::of(a.rings, a.counts)), events)
}

/// The bytes written; with 20 the struct's one count is the bytes needed.
pub(super) fn line(a: ffi::LwLine) -> Result<usize, Refusal> {
    Refusal::told(a.refusal, 0, a.count, 0, 0.0).map(|()| a.count)
}
