//! The refusal: the question that was answered with no, and what it carries.

/// The question that was answered with no, and what goes with it.
///
/// Rings, edges, vertices, holes and indices count from 0. Ring 0 is the outer one, ring k is hole k − 1, and edge k runs from
/// vertex k to the next. `Few`, `Range` and `Room` can also come from an offset's result; `ring` is then its place among the
/// finished rings. `Hairline` is asked of a ring as it is drawn, its closing edge included, after `Repeated` and before `Flat`. It is
/// not asked of an [`Outline`](crate::Outline) or a [`Region`](crate::Region) that is at hand: an inset with so short an edge can be inset
/// again.
///
/// [`Display`](std::fmt::Display) says it in words, those of the Python package: "edge 0 crosses edge 2". It does not know of what
/// "number 3" or "ring 0" is one: where the drawing is at hand, [`in_drawing`](Self::in_drawing) says "the north of vertex 1", of a
/// refused point [`in_point`](Self::in_point) "the north of the point", of a refused offset [`in_cage`](Self::in_cage) "piece 0 of
/// the cage".
#[derive(Debug, Clone, Copy, PartialEq)]
#[non_exhaustive]
pub enum Refusal {
    /// 1: the count of numbers is odd.
    Odd,
    /// 2: a number is not finite.
    NotFinite {
        /// Its index in the flat list.
        index: usize,
    },
    /// 3: no ring, or vertex counts that do not add up to the points.
    Lengths,
    /// 4: fewer than three vertices.
    Few {
        /// The ring.
        ring: usize,
        /// Vertices found.
        found: usize,
    },
    /// 5: a coordinate beyond ±1e9.
    Range {
        /// The ring.
        ring: usize,
        /// The coordinate.
        value: f64,
    },
    /// 6: more vertices than there is room for: 128, in a hole 32.
    Room {
        /// The ring.
        ring: usize,
        /// Vertices that need room.
        needed: usize,
        /// The room: 128, for a hole 32.
        room: usize,
    },
    /// 7: a vertex equal to its neighbour.
    Repeated {
        /// The ring.
        ring: usize,
    },
    /// 8: an area of nothing beside the outline's span.
    Flat {
        /// The ring.
        ring: usize,
    },
    /// 9: two edges cross or touch.
    Crossed {
        /// The ring.
        ring: usize,
        /// One edge.
        first: usize,
        /// The other.
        second: usize,
    },
    /// 10: more than 8 holes.
    ManyHoles {
        /// Holes given.
        holes: usize,
    },
    /// 11: a hole that reaches the outer ring or lies outside it.
    HoleOutside {
        /// The hole.
        hole: usize,
    },
    /// 12: two holes that are not apart.
    HolesTouch {
        /// One hole.
        first: usize,
        /// The other.
        second: usize,
    },
    /// 13: a distance that is not finite, or above 1e12.
    Far,
    /// 14: a distance below 0.
    Negative {
        /// The distance.
        distance: f64,
    },
    /// 15: a front of more than 128 edges.
    Slots {
        /// Edges that need a place.
        needed: usize,
    },
    /// 16: nothing is left at that distance.
    Collapses {
        /// The distance.
        distance: f64,
    },
    /// 17: what is left is not one piece, or not clear of the source.
    Splits {
        /// The distance.
        distance: f64,
    },
    /// 18: 387 events did not bring the front to the distance.
    Unfinished {
        /// 387.
        events: usize,
        /// What remained of the distance.
        residual: f64,
    },
    /// 19: more than 8 holes are left.
    ManyPieces {
        /// 9.
        needed: usize,
    },
    /// 20: lent memory is too short.
    Short {
        /// Numbers needed, two a vertex; of job lines, bytes.
        needed: usize,
    },
    /// 21: a shape or a stream's state handed in is none: counts or coordinates out of bounds.
    Shape,
    /// 22: an ill-formed job line.
    Job,
    /// 27: an edge shorter than 0.000001.
    Hairline {
        /// The ring.
        ring: usize,
    },
    /// A question that this crate does not know, of a newer library.
    Other {
        /// Its number.
        number: usize,
    },
}

impl Refusal {
    /// What a struct of the library says; `Ok` where it is granted. So far the library asks the questions 1 to 22 and 27, a newer one
    /// may go on.
    pub(crate) fn told(
        number: usize,
        ring: usize,
        first: usize,
        second: usize,
        value: f64,
    ) -> Result<(), Self> {
        Err(match number {
            0 => return Ok(()),
            1 => Self::Odd,
            2 => Self::NotFinite { index: first },
            3 => Self::Lengths,
            4 => Self::Few { ring, found: first },
            5 => Self::Range { ring, value },
            6 => Self::Room {
                ring,
                needed: first,
                room: second,
            },
            7 => Self::Repeated { ring },
            8 => Self::Flat { ring },
            9 => Self::Crossed {
                ring,
                first,
                second,
            },
            10 => Self::ManyHoles { holes: first },
            11 => Self::HoleOutside { hole: first },
            12 => Self::HolesTouch { first, second },
            13 => Self::Far,
            14 => Self::Negative { distance: value },
            15 => Self::Slots { needed: first },
            16 => Self::Collapses { distance: value },
            17 => Self::Splits { distance: value },
            18 => Self::Unfinished {
                events: first,
                residual: value,
            },
            19 => Self::ManyPieces { needed: first },
            20 => Self::Short { needed: first },
            21 => Self::Shape,
            22 => Self::Job,
            27 => Self::Hairline { ring },
            number => Self::Other { number },
        })
    }

    /// The question's number, 1 to 22 and 27. [`Other`](Self::Other) has one of its own.
    pub fn number(&self) -> usize {
        match self {
            Self::Odd => 1,
            Self::NotFinite { .. } => 2,
            Self::Lengths => 3,
            Self::Few { .. } => 4,
            Self::Range { .. } => 5,
            Self::Room { .. } => 6,
            Self::Repeated { .. } => 7,
            Self::Flat { .. } => 8,
            Self::Crossed { .. } => 9,
            Self::ManyHoles { .. } => 10,
            Self::HoleOutside { .. } => 11,
            Self::HolesTouch { .. } => 12,
            Self::Far => 13,
            Self::Negative { .. } => 14,
            Self::Slots { .. } => 15,
            Self::Collapses { .. } => 16,
            Self::Splits { .. } => 17,
            Self::Unfinished { .. } => 18,
            Self::ManyPieces { .. } => 19,
            Self::Short { .. } => 20,
            Self::Shape => 21,
            Self::Job => 22,
            Self::Hairline { .. } => 27,
            Self::Other { number } => *number,
        }
    }
}

impl std::error::Error for Refusal {}
