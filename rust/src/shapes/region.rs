//! Regions.

use super::{flat, granted, points_of, Outline};
use crate::refusal::Refusal;
use crate::slices::{self, Events, Nearest, Place, Point, Rings};

/// Lent memory, long enough for any region.
fn room() -> [f64; crate::REGION_NUMBERS] {
    [0.0; crate::REGION_NUMBERS]
}

/// An outline with up to 8 holes of up to 32 vertices each.
///
/// The rings of one that was drawn run counter-clockwise, its holes too, which lie inside and apart, and no edge of them is shorter
/// than 0.000001. One that comes from an inset or was [`stored`](Self::stored) is kept as it is, and can be asked and inset like any
/// other.
#[derive(Debug, Clone, PartialEq)]
pub struct Region {
    numbers: Vec<f64>,
    counts: Vec<usize>,
}

impl Region {
    /// The region of these rings, the outer one first: 2 to 7, 27, 8 to 12.
    pub fn new<R: AsRef<[Point]>>(rings: &[R]) -> Result<Self, Refusal> {
        let (numbers, lengths) = flat(rings);
        Self::from_numbers(&numbers, &lengths)
    }

    /// The region of a flat list of numbers, with the vertices of each ring: 1 to 7, 27, 8 to 12.
    pub fn from_numbers(numbers: &[f64], lengths: &[usize]) -> Result<Self, Refusal> {
        let mut out = room();
        let rings = slices::region(numbers, lengths, &mut out)?;
        Ok(Self::kept(&out, rings))
    }

    /// The region of outlines, taken as they are: 10 to 12, and 21 of a hole of more than 32 vertices. How they run is not asked, as
    /// of [`stored`](Self::stored).
    pub fn of_outlines(outer: &Outline, holes: &[Outline]) -> Result<Self, Refusal> {
        let rings = || std::iter::once(outer).chain(holes).map(Outline::numbers);
        let numbers: Vec<f64> = rings().flatten().copied().collect();
        let counts: Vec<usize> = rings().map(|ring| ring.len() / 2).collect();
        let mut out = room();
        let rings = slices::given_region(&numbers, &counts, &mut out)?;
        Ok(Self::kept(&out, rings))
    }

    /// An outline as a region without holes, taken as it is.
    pub fn without_holes(outer: &Outline) -> Self {
        let mut out = room();
        let rings = granted(slices::without_holes(outer.numbers(), &mut out));
        Self::kept(&out, rings)
    }

    /// A region that was kept, as [`numbers`](Self::numbers) and [`counts`](Self::counts) give it, taken as it is: 21.
    ///
    /// Each of its rings runs counter-clockwise, holes too. That is not asked: of a hole that runs clockwise an inset can be granted
    /// without it. [`from_numbers`](Self::from_numbers) turns such rings round.
    pub fn stored(numbers: &[f64], counts: &[usize]) -> Result<Self, Refusal> {
        let rings = slices::stored_region(numbers, counts)?;
        Ok(Self::kept(numbers, rings))
    }

    /// The first numbers of a list, of rings that have passed 21.
    fn kept(numbers: &[f64], rings: Rings) -> Self {
        Self {
            numbers: numbers[..rings.numbers()].to_vec(),
            counts: rings.counts().to_vec(),
        }
    }

    /// Its rings, the outer one first.
    pub fn rings(&self) -> Vec<Vec<Point>> {
        let mut points = points_of(&self.numbers).into_iter();
        let counts = self.counts.iter();
        counts
            .map(|count| points.by_ref().take(*count).collect())
            .collect()
    }

    /// The numbers of its rings one after the other, two a vertex.
    pub fn numbers(&self) -> &[f64] {
        &self.numbers
    }

    /// The vertices of each ring, the outer one first.
    pub fn counts(&self) -> &[usize] {
        &self.counts
    }

    /// Its outer ring.
    pub fn outer(&self) -> Outline {
        let mut out = [0.0; crate::OUTLINE_NUMBERS];
        let told = slices::region_outer(&self.numbers, &self.counts, &mut out);
        Outline::kept(&out, granted(told))
    }

    /// Hole k, counted from 0, where there is one.
    pub fn hole(&self, k: usize) -> Option<Outline> {
        let mut out = [0.0; crate::OUTLINE_NUMBERS];
        let told = slices::region_hole(&self.numbers, &self.counts, k, &mut out);
        granted(told).map(|count| Outline::kept(&out, count))
    }

    /// Its holes.
    pub fn holes(&self) -> Vec<Outline> {
        (0..).map_while(|k| self.hole(k)).collect()
    }

    /// The area inside the outer ring and outside every hole.
    pub fn area(&self) -> f64 {
        granted(slices::region_area(&self.numbers, &self.counts))
    }

    /// The length of the outer ring and of every hole.
    pub fn perimeter(&self) -> f64 {
        granted(slices::region_perimeter(&self.numbers, &self.counts))
    }

    /// Where a point lies: 2. One in a hole is outside. One on its edge is on the boundary; but where that edge is right beside the
    /// outer ring, it can be told outside.
    pub fn contains(&self, point: Point) -> Result<Place, Refusal> {
        slices::region_contains(&self.numbers, &self.counts, point)
    }

    /// The nearest point of the boundary, that of the holes too, and how far it is: 2.
    pub fn nearest(&self, point: Point) -> Result<Nearest, Refusal> {
        slices::region_nearest(&self.numbers, &self.counts, point)
    }

    /// How far the boundary is: 2.
    pub fn distance_to_boundary(&self, point: Point) -> Result<f64, Refusal> {
        self.nearest(point).map(|nearest| nearest.distance)
    }

    /// The nearest point of the boundary: 2.
    pub fn closest_boundary_point(&self, point: Point) -> Result<Point, Refusal> {
        self.nearest(point).map(|nearest| nearest.point)
    }

    /// The region inside this one at that distance: the outer ring moves in, the holes grow: 13, 14, 15 to 19, and 4 to 6 of the
    /// result. Above 0 each vertex lies at least as far as [`Outline::inset`] says from every edge of every ring of this one,
    /// `largest` being the largest absolute coordinate of them all.
    pub fn inset(&self, distance: f64) -> Result<Self, Refusal> {
        self.inset_counted(distance).0
    }

    /// The inset, and the events that were completed, refused or not.
    pub fn inset_counted(&self, distance: f64) -> (Result<Self, Refusal>, Events) {
        let mut out = room();
        let (told, events) =
            slices::stored_region_inset(&self.numbers, &self.counts, distance, &mut out);
        (told.map(|rings| Self::kept(&out, rings)), events)
    }
}
