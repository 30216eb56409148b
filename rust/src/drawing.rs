//! What was drawn, and what is found in it beside a refusal.

use crate::refusal::Refusal;
use crate::shapes::{points_of, Outline};
use crate::slices::{self, Place, Point};
use crate::words::{coordinate, drawn, tiny, Short};

/// An edge below this length is a hairline: 27.
const LEAST: f64 = 1e-6;

/// Rings as they were given: a flat list of numbers, and the vertices of each ring. The two need not fit each other.
pub(crate) struct Drawing<'a> {
    pub numbers: &'a [f64],
    pub lengths: &'a [usize],
}

impl Drawing<'_> {
    /// The words that need the drawing; none where it does not tell more.
    pub(crate) fn words(&self, refusal: &Refusal) -> Option<String> {
        match *refusal {
            Refusal::NotFinite { index } => Some(format!(
                "{} is not a finite number",
                self.coordinate_name(index)
            )),
            Refusal::Repeated { ring } => self.repeated(ring),
            Refusal::Hairline { ring } => self.hairline(ring),
            Refusal::HoleOutside { hole } => self.hole_outside(hole),
            Refusal::HolesTouch { first, second } => self.holes_touch(first, second),
            Refusal::Shape => Some(format!("this is not a shape: {}", self.no_shape()?)),
            _ => None,
        }
    }

    /// A number by its vertex, and by its ring where there are several.
    fn coordinate_name(&self, index: usize) -> String {
        let (axis, vertex) = coordinate(index);
        match self.ring_of(vertex) {
            Some((ring, k)) if self.lengths.len() > 1 => {
                format!("the {axis} of vertex {k} of {}", drawn(ring))
            }
            _ => format!("the {axis} of vertex {vertex}"),
        }
    }

    /// The ring of a vertex, and its place there.
    fn ring_of(&self, mut vertex: usize) -> Option<(usize, usize)> {
        for (ring, &length) in self.lengths.iter().enumerate() {
            if vertex < length {
                return Some((ring, vertex));
            }
            vertex -= length;
        }
        None
    }

    fn repeated(&self, ring: usize) -> Option<String> {
        let (k, next, _) = self.edge(ring, |start, end| start == end)?;
        let name = drawn(ring);
        Some(format!(
            "vertices {k} and {next} of {name} are the same point"
        ))
    }

    fn hairline(&self, ring: usize) -> Option<String> {
        let length = |start: Point, end: Point| slices::hypot(end.0 - start.0, end.1 - start.1);
        let short = |start, end| start != end && length(start, end) < LEAST;
        let (k, next, (start, end)) = self.edge(ring, short)?;
        let (name, far) = (drawn(ring), tiny(length(start, end)));
        let (east, north) = (Short(start.0), Short(start.1));
        Some(format!(
            "vertices {k} and {next} of {name}, at ({east}, {north}), are {far} apart: edge {k} is shorter than 0.000001"
        ))
    }

    /// The first edge of a ring that something holds of: its number, that of the vertex it ends in, and its ends.
    fn edge(
        &self,
        ring: usize,
        holds: impl Fn(Point, Point) -> bool,
    ) -> Option<(usize, usize, (Point, Point))> {
        let vertices = points_of(opened(self.ring(ring)?));
        let edge = |k: usize| {
            let next = (k + 1) % vertices.len();
            (k, next, (vertices[k], vertices[next]))
        };
        let mut edges = (0..vertices.len()).map(edge);
        edges.find(|&(_, _, (start, end))| holds(start, end))
    }

    fn hole_outside(&self, hole: usize) -> Option<String> {
        let ring = hole.checked_add(1)?;
        let (outer, inner) = (self.outline(0)?, self.outline(ring)?);
        if let Some(met) = outer.meeting(&inner) {
            let (one, other) = (met.edge_of_second(), met.edge_of_first());
            Some(format!(
                "edge {one} of ring {ring} crosses or touches edge {other} of ring 0"
            ))
        } else if lies_inside(&outer, &inner) {
            Some(format!(
                "ring {ring} lies around ring 0: the outer ring comes first"
            ))
        } else if lies_inside(&inner, &outer) {
            None
        } else {
            Some(format!(
                "ring {ring} lies apart from ring 0: each is an outline of its own"
            ))
        }
    }

    fn holes_touch(&self, first: usize, second: usize) -> Option<String> {
        let one = self.outline(first.checked_add(1)?)?;
        let other = self.outline(second.checked_add(1)?)?;
        if let Some(met) = one.meeting(&other) {
            let (of_one, of_other) = (met.edge_of_first(), met.edge_of_second());
            Some(format!(
                "edge {of_one} of hole {first} crosses or touches edge {of_other} of hole {second}"
            ))
        } else if lies_inside(&other, &one) {
            Some(format!("hole {second} lies inside hole {first}"))
        } else if lies_inside(&one, &other) {
            Some(format!("hole {first} lies inside hole {second}"))
        } else {
            None
        }
    }

    /// Why 21 does not pass it.
    fn no_shape(&self) -> Option<String> {
        if self.numbers.len() % 2 == 1 {
            return Some("the count of numbers is odd".to_string());
        }
        if self.lengths.is_empty() {
            return Some("there is no ring".to_string());
        }
        if self.vertices(self.lengths.len()) != Some(self.numbers.len() / 2) {
            return Some("the vertex counts do not add up to the points".to_string());
        }
        self.no_count()
            .or_else(|| self.too_far())
            .or_else(|| self.many_holes())
    }

    /// The first ring of too few or too many vertices.
    fn no_count(&self) -> Option<String> {
        let most = |ring| [crate::HOLE_VERTICES, crate::VERTICES][usize::from(ring == 0)];
        let mut counts = self.lengths.iter().enumerate();
        let (ring, count) = counts.find(|&(ring, count)| !(3..=most(ring)).contains(count))?;
        let (name, most) = (drawn(ring), most(ring));
        Some(format!("{name} has {count} vertices, and not 3 to {most}"))
    }

    /// The first number beyond 1e9, or that is none.
    fn too_far(&self) -> Option<String> {
        let near = |number: &f64| number.abs() <= 1e9;
        let index = self.numbers.iter().position(|number| !near(number))?;
        Some(format!("{} is not within 1e9", self.coordinate_name(index)))
    }

    fn many_holes(&self) -> Option<String> {
        let holes = self.lengths.len().checked_sub(1)?;
        (holes > crate::HOLES).then(|| format!("there are {holes} holes: 8 is the limit"))
    }

    /// The vertices of the first rings.
    fn vertices(&self, rings: usize) -> Option<usize> {
        let mut lengths = self.lengths.get(..rings)?.iter();
        lengths.try_fold(0, |sum: usize, length| sum.checked_add(*length))
    }

    /// A ring's numbers.
    fn ring(&self, ring: usize) -> Option<&[f64]> {
        let (start, end) = (self.vertices(ring)?, self.vertices(ring.checked_add(1)?)?);
        self.numbers.get(start.checked_mul(2)?..end.checked_mul(2)?)
    }

    /// A ring as an outline, not turned round, so that its edges have the numbers that they were given with: without a closing
    /// repeat, as one that was drawn; or as it is, where it is none without it.
    fn outline(&self, ring: usize) -> Option<Outline> {
        let numbers = self.ring(ring)?;
        Outline::stored(opened(numbers))
            .or_else(|_| Outline::stored(numbers))
            .ok()
    }
}

/// A ring's numbers without one closing repeat of the first vertex.
fn opened(numbers: &[f64]) -> &[f64] {
    match numbers.len().checked_sub(2) {
        Some(last) if last > 0 && numbers[..2] == numbers[last..] => &numbers[..last],
        _ => numbers,
    }
}

/// Of two outlines that share no point: does the first lie inside the second?
fn lies_inside(first: &Outline, second: &Outline) -> bool {
    first
        .vertex(0)
        .is_some_and(|vertex| second.contains(vertex) == Ok(Place::Inside))
}
