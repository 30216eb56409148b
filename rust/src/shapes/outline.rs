//! Outlines.

use super::{granted, numbers_of, points_of};
use crate::refusal::Refusal;
use crate::slices::{self, Events, Meeting, Nearest, NearestPoints, Place, Point};

/// Lent memory, long enough for any outline.
fn room() -> [f64; crate::OUTLINE_NUMBERS] {
    [0.0; crate::OUTLINE_NUMBERS]
}

/// `slices::inset` or `slices::outset`.
type Offset = fn(&[f64], f64, &mut [f64]) -> (Result<usize, Refusal>, Events);

/// An outline: 3 to 128 vertices within ±1e9.
///
/// One that was drawn runs counter-clockwise, no edge of it is shorter than 0.000001, and no two of its edges that are no neighbours
/// share a point, which is told exactly. One that comes from an inset, an outset or [`Region::hole`](crate::Region::hole), or was
/// [`stored`](Self::stored), is kept as it is, and can be asked and offset like any other:
///
/// ```
/// use lizardwire::{Outline, Refusal};
///
/// let drawn = [(0.0, 0.0), (4.0, 0.0), (4.0, 4.0), (1.0, 4.0), (0.0, 3.0)];
/// let cage = Outline::new(&drawn)?.inset(1.7071065)?;
/// // It has an edge of 2.3e-7, and can be inset again; as a drawing it is refused.
/// assert!(cage.inset(0.1).is_ok());
/// assert_eq!(Outline::new(&cage.vertices()), Err(Refusal::Hairline { ring: 0 }));
/// # Ok::<(), Refusal>(())
/// ```
#[derive(Debug, Clone, PartialEq)]
pub struct Outline {
    numbers: Vec<f64>,
}

impl Outline {
    /// The outline of these vertices, in either direction, with the first one repeated at the end or not: 2, 4 to 7, 27,
    /// 8, 9.
    pub fn new(points: &[Point]) -> Result<Self, Refusal> {
        Self::from_numbers(&numbers_of(points))
    }

    /// The outline of a flat list of numbers, east then north: 1, 2, 4 to 7, 27, 8, 9.
    pub fn from_numbers(numbers: &[f64]) -> Result<Self, Refusal> {
        let mut out = room();
        let count = slices::outline(numbers, &mut out)?;
        Ok(Self::kept(&out, count))
    }

    /// An outline that was kept, a flat list of numbers as [`numbers`](Self::numbers) gives it, taken as it is: 21.
    ///
    /// It runs counter-clockwise. That is not asked, but the offsets go by it; [`from_numbers`](Self::from_numbers) turns one round
    /// that runs clockwise.
    pub fn stored(numbers: &[f64]) -> Result<Self, Refusal> {
        slices::extent(numbers)?;
        Ok(Self::kept(numbers, numbers.len() / 2))
    }

    /// The first vertices of a list that has passed 21.
    pub(super) fn kept(numbers: &[f64], count: usize) -> Self {
        Self {
            numbers: numbers[..2 * count].to_vec(),
        }
    }

    /// Its vertices.
    pub fn vertices(&self) -> Vec<Point> {
        points_of(&self.numbers)
    }

    /// Its numbers, two a vertex.
    pub fn numbers(&self) -> &[f64] {
        &self.numbers
    }

    /// Vertex k, counted from 0, where there is one.
    pub fn vertex(&self, k: usize) -> Option<Point> {
        granted(slices::vertex(&self.numbers, k))
    }

    /// Edge k, from vertex k to the next, where there is one. The last one closes the ring.
    pub fn edge(&self, k: usize) -> Option<(Point, Point)> {
        granted(slices::edge(&self.numbers, k))
    }

    /// Its edges, as many as its vertices.
    pub fn edges(&self) -> Vec<(Point, Point)> {
        (0..).map_while(|k| self.edge(k)).collect()
    }

    /// The area enclosed.
    pub fn area(&self) -> f64 {
        granted(slices::area(&self.numbers))
    }

    /// The length of the boundary.
    pub fn perimeter(&self) -> f64 {
        granted(slices::perimeter(&self.numbers))
    }

    /// The largest absolute coordinate.
    pub fn extent(&self) -> f64 {
        granted(slices::extent(&self.numbers))
    }

    /// The clearance of this outline and another: the least distance from a vertex of either to an edge of the other, and 0 if an
    /// edge of one meets an edge of the other. It is the same, bit for bit, whichever is named first. One outline inside the other
    /// is measured the same way. A distance can round to 0 where they do not meet: [`meeting`](Self::meeting) tells.
    ///
    /// ```
    /// use lizardwire::Outline;
    ///
    /// let collar = Outline::new(&[(-3.0, 0.0), (3.0, 0.0), (3.0, -2.0), (-3.0, -2.0)])?;
    /// // A sleeve with a spike.
    /// let sleeve = Outline::new(&[(-5.0, 10.0), (-1.0, 6.0), (0.0, 0.2), (1.0, 6.0), (5.0, 10.0)])?;
    /// assert_eq!((collar.clearance(&sleeve), sleeve.clearance(&collar)), (0.2, 0.2));
    /// let near = collar.nearest_points(&sleeve).unwrap();
    /// assert_eq!((near.of_first, near.of_second), ((0.0, 0.0), (0.0, 0.2)));
    /// # Ok::<(), lizardwire::Refusal>(())
    /// ```
    pub fn clearance(&self, other: &Self) -> f64 {
        granted(slices::clearance(&self.numbers, &other.numbers))
    }

    /// Where this outline and another come nearest; none where they meet. The distance is their [`clearance`](Self::clearance). Each
    /// vertex of this one is asked for the nearest point of the other, from vertex 0 on, then each of the other for that of this
    /// one. Of several as near the first counts.
    pub fn nearest_points(&self, other: &Self) -> Option<NearestPoints> {
        granted(slices::nearest_points(&self.numbers, &other.numbers))
    }

    /// Two edges, one of this outline and one of another, that share a point, which is told exactly; none where no two do, as where
    /// one outline lies inside the other. The outline of fewer vertices is in the outer walk, of two with as many this one:
    /// [`Meeting`] has the lowest edge there that meets any of the other outline, and the lowest of the other that it meets.
    ///
    /// ```
    /// use lizardwire::Outline;
    ///
    /// let square = Outline::new(&[(0.0, 0.0), (4.0, 0.0), (4.0, 4.0), (0.0, 4.0)])?;
    /// let triangle = Outline::new(&[(3.0, 3.0), (6.0, 3.0), (6.0, 6.0)])?;
    /// let met = square.meeting(&triangle).unwrap();
    /// // The triangle has fewer vertices: it is in the outer walk.
    /// assert_eq!((met.outer, met.inner, met.swapped), (0, 1, true));
    /// assert_eq!(square.edge(met.edge_of_first()), Some(((4.0, 0.0), (4.0, 4.0))));
    /// assert_eq!(triangle.edge(met.edge_of_second()), Some(((3.0, 3.0), (6.0, 3.0))));
    /// assert_eq!(square.meeting(&square.inset(1.0)?), None);
    /// # Ok::<(), lizardwire::Refusal>(())
    /// ```
    pub fn meeting(&self, other: &Self) -> Option<Meeting> {
        granted(slices::meeting(&self.numbers, &other.numbers))
    }

    /// Where a point lies: 2. It is on the boundary if and only if it lies on an edge, with nothing rounded.
    pub fn contains(&self, point: Point) -> Result<Place, Refusal> {
        slices::contains(&self.numbers, point)
    }

    /// The nearest point of the boundary, and how far it is: 2.
    pub fn nearest(&self, point: Point) -> Result<Nearest, Refusal> {
        slices::nearest(&self.numbers, point)
    }

    /// How far the boundary is: 2.
    pub fn distance_to_boundary(&self, point: Point) -> Result<f64, Refusal> {
        self.nearest(point).map(|nearest| nearest.distance)
    }

    /// The nearest point of the boundary: 2.
    pub fn closest_boundary_point(&self, point: Point) -> Result<Point, Refusal> {
        self.nearest(point).map(|nearest| nearest.point)
    }

    /// The outline inside this one at that distance: 13, 14, 15 to 18, and 4 to 6 of its result. Above 0 each of its
    /// vertices lies, measured exactly, at least distance − 2e-9 × (1 + distance + largest) − 1e-15 × largest from every edge of
    /// this one, `largest` being the largest absolute coordinate of this one and nothing being rounded.
    pub fn inset(&self, distance: f64) -> Result<Self, Refusal> {
        self.inset_counted(distance).0
    }

    /// The outline outside this one at that distance, likewise, but of exact distances nothing is promised.
    pub fn outset(&self, distance: f64) -> Result<Self, Refusal> {
        self.outset_counted(distance).0
    }

    /// The inset, and the events that were completed, refused or not.
    pub fn inset_counted(&self, distance: f64) -> (Result<Self, Refusal>, Events) {
        self.offset(slices::inset, distance)
    }

    /// The outset, and the events that were completed, refused or not.
    pub fn outset_counted(&self, distance: f64) -> (Result<Self, Refusal>, Events) {
        self.offset(slices::outset, distance)
    }

    fn offset(&self, offset: Offset, distance: f64) -> (Result<Self, Refusal>, Events) {
        let mut out = room();
        let (told, events) = offset(&self.numbers, distance, &mut out);
        (told.map(|count| Self::kept(&out, count)), events)
    }
}
