//! Refusals in words, the same as those of the Python package.

use std::fmt;

use crate::drawing::Drawing;
use crate::refusal::Refusal;
use crate::slices::Point;

/// One line of words for the number of a refusal, without what it carries; an answer line `no,17` has the number alone.
pub fn words(number: usize) -> &'static str {
    match number {
        0 => "granted",
        1 => "the count of numbers is odd: a vertex is two",
        2 => "a coordinate is not a finite number",
        3 => "there is no ring, or the vertex counts do not add up to the points",
        4 => "a ring has fewer than 3 vertices",
        5 => "a coordinate is beyond 1e9",
        6 => "a ring has too many vertices",
        7 => "a vertex stands twice in a row",
        8 => "a ring is flat: it encloses nothing",
        9 => "two edges cross",
        10 => "there are more than 8 holes",
        11 => "a ring is not inside the first one",
        12 => "two holes are not apart",
        13 => "the distance is not a number up to 1e12",
        14 => "the distance is below 0",
        15 => "too many edges: 128 can move at once",
        16 => "nothing is left: the margin is too wide",
        17 => "the cage falls apart or meets the outline",
        18 => "the cage was not finished in 387 events",
        19 => "more than 8 holes would be left",
        20 => "the lent memory is too short",
        21 => "this is not a shape, or not a stream's state",
        22 => "this is not a job line",
        27 => "an edge is shorter than 0.000001",
        _ => "refused",
    }
}

impl fmt::Display for Refusal {
    fn fmt(&self, f: &mut fmt::Formatter<'_>) -> fmt::Result {
        told(self, Met::Somewhere, f)
    }
}

impl Refusal {
    /// The words where the rings that were refused are at hand, as they were given: "vertices 2 and 3 of hole 0 are the same point",
    /// "edge 0 of ring 1 crosses or touches edge 1 of ring 0", "vertices 2 and 3 of the outline, at (4, 2), are 2e-7 apart: edge 2 is
    /// shorter than 0.000001".
    ///
    /// ```
    /// use lizardwire::Outline;
    ///
    /// let drawn = [(0.0, 0.0), (4.0, 0.0), (4.0, 4.0), (4.0, 4.0), (0.0, 4.0)];
    /// let refusal = Outline::new(&drawn).unwrap_err();
    /// assert_eq!(refusal.to_string(), "the outline has the same vertex twice in a row");
    /// assert_eq!(refusal.in_drawing(&[drawn]), "vertices 2 and 3 of the outline are the same point");
    /// ```
    pub fn in_drawing<R: AsRef<[Point]>>(&self, rings: &[R]) -> String {
        let (numbers, lengths) = crate::shapes::flat(rings);
        self.in_numbers(&numbers, &lengths)
    }

    /// The same of a flat list of numbers, with the vertices of each ring.
    pub fn in_numbers(&self, numbers: &[f64], lengths: &[usize]) -> String {
        let found = Drawing { numbers, lengths }.words(self);
        found.unwrap_or_else(|| Words(self, Met::Drawing).to_string())
    }

    /// The words where a question about a point was refused: the number of a 2 is then the point's, "the east of the point".
    pub fn in_point(&self) -> String {
        match *self {
            Self::NotFinite { index } => {
                format!(
                    "the {} of the point is not a finite number",
                    coordinate(index).0
                )
            }
            _ => self.to_string(),
        }
    }

    /// The words where an offset was refused: the ring of a 4, 5 or 6 is then one of the result, "piece 0 of the cage".
    pub fn in_cage(&self) -> String {
        Words(self, Met::Cage).to_string()
    }
}

/// Where a ring of 4, 5 or 6 stands: in what was given, in the result, or that is not known.
#[derive(Clone, Copy)]
enum Met {
    Drawing,
    Cage,
    Somewhere,
}

struct Words<'a>(&'a Refusal, Met);

impl fmt::Display for Words<'_> {
    fn fmt(&self, f: &mut fmt::Formatter<'_>) -> fmt::Result {
        told(self.0, self.1, f)
    }
}

fn told(refusal: &Refusal, met: Met, f: &mut fmt::Formatter<'_>) -> fmt::Result {
    use Refusal as R;
    match *refusal {
        R::NotFinite { index } => write!(f, "number {index} is not a finite number"),
        R::Few { ring, found } => {
            write!(f, "{} has {found} vertices: 3 are needed", Ring(ring, met))
        }
        R::Range { ring, value } => {
            write!(
                f,
                "{} has the coordinate {}: 1e9 is the limit",
                Ring(ring, met),
                Short(value)
            )
        }
        R::Room { ring, room, .. } => {
            write!(f, "{} has more than {room} vertices", Ring(ring, met))
        }
        R::Repeated { ring } => write!(f, "{} has the same vertex twice in a row", drawn(ring)),
        R::Hairline { ring } => write!(f, "{} has an edge shorter than 0.000001", drawn(ring)),
        R::Flat { ring } => write!(f, "{} is flat: it encloses nothing", drawn(ring)),
        R::Crossed {
            ring: 0,
            first,
            second,
        } => write!(f, "edge {first} crosses edge {second}"),
        R::Crossed {
            ring,
            first,
            second,
        } => {
            write!(f, "in {}, edge {first} crosses edge {second}", drawn(ring))
        }
        R::ManyHoles { holes } => write!(f, "there are {holes} holes: 8 is the limit"),
        R::HoleOutside { hole } => {
            write!(f, "ring {} is not inside ring 0", hole.saturating_add(1))
        }
        R::HolesTouch { first, second } => {
            write!(f, "hole {first} and hole {second} are not apart")
        }
        R::Negative { distance } => write!(f, "the distance {} is below 0", Short(distance)),
        R::Slots { needed } => write!(f, "too many edges: {needed} would move, 128 can"),
        R::Collapses { distance } => {
            write!(
                f,
                "nothing is left: the margin {} is too wide",
                Short(distance)
            )
        }
        R::Splits { distance } => {
            write!(
                f,
                "at {} the cage falls apart or meets the outline",
                Short(distance)
            )
        }
        R::Unfinished { events, residual } => {
            write!(
                f,
                "after {events} events {} of the distance is still to go",
                Short(residual)
            )
        }
        R::ManyPieces { needed } => write!(f, "{needed} holes would be left: 8 is the limit"),
        R::Short { needed } => write!(f, "the lent memory is too short: {needed} are needed"),
        R::Odd | R::Lengths | R::Far | R::Shape | R::Job | R::Other { .. } => {
            f.write_str(words(refusal.number()))
        }
    }
}

/// The axis and the vertex of a number of a flat list.
pub(crate) fn coordinate(index: usize) -> (&'static str, usize) {
    (["east", "north"][index % 2], index / 2)
}

/// A ring of what was given.
pub(crate) fn drawn(ring: usize) -> impl fmt::Display {
    Ring(ring, Met::Drawing)
}

struct Ring(usize, Met);

impl fmt::Display for Ring {
    fn fmt(&self, f: &mut fmt::Formatter<'_>) -> fmt::Result {
        match *self {
            Ring(0, Met::Drawing) => f.write_str("the outline"),
            Ring(ring, Met::Drawing) => write!(f, "hole {}", ring - 1),
            Ring(ring, Met::Cage) => write!(f, "piece {ring} of the cage"),
            Ring(ring, Met::Somewhere) => write!(f, "ring {ring}"),
        }
    }
}

/// A number as a person writes it, in 12 digits: 2 and not 2.0, 1e12, 1e-7, and 0 for −0.
pub(crate) struct Short(pub f64);

const DIGITS: i32 = 12;

impl fmt::Display for Short {
    fn fmt(&self, f: &mut fmt::Formatter<'_>) -> fmt::Result {
        let number = self.0;
        if number == 0.0 || number.is_nan() {
            return f.write_str(if number == 0.0 { "0" } else { "nan" });
        }
        if number.is_infinite() {
            return write!(f, "{number}");
        }
        let rounded = format!("{:.*e}", DIGITS as usize - 1, number);
        let (digits, exponent) = rounded.split_once('e').unwrap_or((&rounded, "0"));
        match exponent.parse::<i32>() {
            Ok(exponent) if (-4..DIGITS).contains(&exponent) => {
                let places = (DIGITS - 1 - exponent) as usize;
                f.write_str(without_zeros(&format!("{number:.places$}")))
            }
            _ => write!(f, "{}e{exponent}", without_zeros(digits)),
        }
    }
}

/// The length of a hairline in three digits, which never read 1e-6.
pub(crate) fn tiny(length: f64) -> impl fmt::Display {
    let rounded = format!("{length:.2e}").parse().unwrap_or(length);
    Short(rounded.min(9.99e-7))
}

/// Without the zeros at its end that follow a point.
fn without_zeros(digits: &str) -> &str {
    if digits.contains('.') {
        digits.trim_end_matches('0').trim_end_matches('.')
    } else {
        digits
    }
}

#[cfg(test)]
mod tests;
