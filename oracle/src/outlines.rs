//! Questions about an outline, a region or points and the reference's answers,
//! one a line.
//!
//! A line has fields of 16 lower-case hexadecimal digits, parted by commas: the
//! kind, how many fields of answer follow, the answer, and the question's
//! fields to the end of the line. Whole numbers stand as themselves, floats by
//! their bits; in an answer a zero has no sign.

use std::cmp::Ordering;
use std::fmt;

use crate::answer::{bits, checked_distance, door, handed, of_offset, points, Refusal, ROOM};
use crate::error::{KernelError, NavigationError};
use crate::events;
use crate::job::Job;
use crate::region::{Area, Containment, PlanarPoint, Polygon};
use crate::regions::{self, Changed, Given};
use crate::tally::LAST;

/// Largest coordinate of question 21.
pub(crate) const MAX_COORDINATE: f64 = 1e9;

/// An outline of the reference.
pub type Outline = Polygon<ROOM>;

/// A shape handed in: its numbers and how many vertices they are said to be.
#[derive(Debug, Clone, PartialEq)]
pub struct Shape {
    /// Vertices.
    pub count: u64,
    /// East then north, any bits; from two a vertex on nothing is read.
    pub numbers: Vec<f64>,
}

impl Shape {
    /// The shape of an outline, as it is stored.
    pub fn new(outline: &Outline) -> Self {
        let numbers = numbers_of(outline);
        let count = numbers.len() as u64 / 2;
        Self { count, numbers }
    }
}

/// What is asked.
#[derive(Debug, Clone, PartialEq)]
pub enum Question {
    /// The outline of these numbers.
    Outline(Vec<f64>),
    /// Where a point lies.
    Contains(Shape, [f64; 2]),
    /// The nearest point of the boundary, and its distance.
    Nearest(Shape, [f64; 2]),
    /// Area, perimeter and extent.
    Measures(Shape),
    /// The clearance of two outlines.
    Clearance(Shape, Shape),
    /// Edge k.
    Edge(Shape, u64),
    /// Two points and the distance between them.
    Point([f64; 2], [f64; 2]),
    /// An area of so many square metres, and one of so many hectares.
    Area(f64),
    /// The outset, or else the inset, by a distance.
    Offset(bool, f64, Shape),
    /// The region of these lengths and numbers.
    Region(Given),
    /// The inset of that region.
    RegionInset(f64, Given),
    /// A point in that region, and its measures, with a field changed.
    RegionPoint(Given, [f64; 2], Changed),
    /// The turn from the first point by the second to the third.
    Turn([[f64; 2]; 3]),
    /// Whether two segments meet.
    Meet([[[f64; 2]; 2]; 2]),
    /// Whether two edges overlap that share the first point.
    Fold([[f64; 2]; 3]),
    /// The edges at which two rings meet.
    Pair(Shape, Shape),
    /// The inset of a region handed in.
    Again(f64, Given),
}

/// How many kinds of questions there are.
pub const KINDS: usize = 17;

/// Names of the kinds.
pub const NAMES: [&str; KINDS] = [
    "outline",
    "contains",
    "nearest",
    "measures",
    "clearance",
    "edge",
    "point",
    "area",
    "offset",
    "region",
    "inset",
    "within",
    "turn",
    "meet",
    "fold",
    "pair",
    "again",
];

impl Question {
    /// What a job asks: of one ring an offset of its outline, or the outline
    /// where that is refused; of more an inset of their region.
    pub fn of_job(job: &Job) -> Self {
        if job.counts.len() != 1 {
            return Self::RegionInset(job.distance, Given::of_job(job));
        }
        match new_outline(&job.numbers) {
            Ok(outline) => Self::Offset(job.outset, job.distance, Shape::new(&outline)),
            Err(_) => Self::Outline(job.numbers.clone()),
        }
    }

    /// What a job asks of its shape handed in: of one ring an offset, of more an
    /// inset. None where the reference makes no such shape.
    pub fn of_given(job: &Job) -> Option<Self> {
        if job.counts.len() != 1 {
            let stored = regions::stored_given(&Given::of_job(job))?;
            return Some(Self::Again(job.distance, stored));
        }
        let outline = handed_outline(&job.numbers).ok()?;
        let shape = Shape::new(&outline);
        Some(Self::Offset(job.outset, job.distance, shape))
    }

    /// The kind's number.
    pub fn kind(&self) -> usize {
        match self {
            Self::Outline(_) => 0,
            Self::Contains(..) => 1,
            Self::Nearest(..) => 2,
            Self::Measures(_) => 3,
            Self::Clearance(..) => 4,
            Self::Edge(..) => 5,
            Self::Point(..) => 6,
            Self::Area(_) => 7,
            Self::Offset(..) => 8,
            Self::Region(_) => 9,
            Self::RegionInset(..) => 10,
            Self::RegionPoint(..) => 11,
            Self::Turn(_) => 12,
            Self::Meet(_) => 13,
            Self::Fold(_) => 14,
            Self::Pair(..) => 15,
            Self::Again(..) => 16,
        }
    }

    /// The question's fields.
    pub fn fields(&self) -> Vec<u64> {
        let raw = |numbers: &[f64]| -> Vec<u64> { numbers.iter().map(|x| x.to_bits()).collect() };
        match self {
            Self::Outline(numbers) => raw(numbers),
            Self::Contains(shape, point) | Self::Nearest(shape, point) => {
                [vec![shape.count], raw(point), raw(&shape.numbers)].concat()
            }
            Self::Measures(shape) => [vec![shape.count], raw(&shape.numbers)].concat(),
            Self::Clearance(first, second) | Self::Pair(first, second) => [
                vec![first.count, second.count],
                raw(&first.numbers),
                raw(&second.numbers),
            ]
            .concat(),
            Self::Edge(shape, place) => [vec![shape.count, *place], raw(&shape.numbers)].concat(),
            Self::Point(first, second) => [raw(first), raw(second)].concat(),
            Self::Area(value) => raw(&[*value]),
            Self::Offset(outward, distance, shape) => [
                vec![u64::from(*outward), distance.to_bits(), shape.count],
                raw(&shape.numbers),
            ]
            .concat(),
            Self::Region(given) => regions::fields(given),
            Self::RegionInset(distance, given) | Self::Again(distance, given) => {
                [raw(&[*distance]), regions::fields(given)].concat()
            }
            Self::RegionPoint(given, point, changed) => [
                vec![changed.place, changed.value],
                raw(point),
                regions::fields(given),
            ]
            .concat(),
            Self::Turn(points) | Self::Fold(points) => raw(points.as_flattened()),
            Self::Meet(segments) => raw(segments.as_flattened().as_flattened()),
        }
    }

    /// The answer's fields.
    pub fn answer(&self) -> Vec<u64> {
        match self {
            Self::Outline(numbers) => outline(numbers),
            Self::Contains(shape, point) => contains(shape, *point),
            Self::Nearest(shape, point) => nearest(shape, *point),
            Self::Measures(shape) => measures(shape),
            Self::Clearance(first, second) => clearance(first, second),
            Self::Edge(shape, place) => edge(shape, *place),
            Self::Point(first, second) => two_points(*first, *second),
            Self::Area(value) => area(*value),
            Self::Offset(outward, distance, shape) => offset(*outward, *distance, shape),
            Self::Region(given) => regions::region(given),
            Self::RegionInset(distance, given) => regions::inset(given, *distance),
            Self::RegionPoint(given, point, changed) => regions::asked(given, *point, *changed),
            Self::Turn([a, b, c]) => vec![turn_number(Outline::oracle_orient(*a, *b, *c))],
            Self::Meet([p, q]) => vec![u64::from(Outline::oracle_segments_meet(*p, *q))],
            Self::Fold([shared, a, b]) => {
                vec![u64::from(Outline::oracle_folds_back(*shared, *a, *b))]
            }
            Self::Pair(first, second) => pair(first, second),
            Self::Again(distance, given) => regions::again(given, *distance),
        }
    }

    /// The line, without LF.
    pub fn line(&self) -> String {
        self.line_with(&self.answer())
    }

    /// The line with this answer, which need not be right.
    pub fn line_with(&self, answer: &[u64]) -> String {
        let fields = [
            &[self.kind() as u64, answer.len() as u64],
            answer,
            &self.fields(),
        ]
        .concat();
        let fields: Vec<String> = fields.iter().map(|field| format!("{field:016x}")).collect();
        fields.join(",")
    }
}

/// The outline of numbers that come in from outside: questions 1, 2, 4 to 9
/// and 27.
pub fn new_outline(numbers: &[f64]) -> Result<Outline, Refusal> {
    door(&points(numbers)?, 0)
}

/// The outline that the reference makes of numbers, 27 not asked: what a shape
/// handed in has to be.
pub fn handed_outline(numbers: &[f64]) -> Result<Outline, Refusal> {
    handed(&points(numbers)?, 0)
}

/// The stored vertices' numbers.
pub fn numbers_of(outline: &Outline) -> Vec<f64> {
    outline.vertices().iter().flat_map(|p| p.xy()).collect()
}

/// Number, ring, two whole numbers and the float; what is not carried reads 0.
pub(crate) fn carried(refusal: Option<&Refusal>) -> [u64; 5] {
    let Some(refusal) = refusal else {
        return [0; 5];
    };
    let whole = |place: usize| refusal.wholes.get(place).map_or(0, |whole| *whole as u64);
    [
        u64::from(refusal.number),
        refusal.ring.unwrap_or(0) as u64,
        whole(0),
        whole(1),
        refusal.floats.first().map_or(0, |float| bits(*float)),
    ]
}

/// The count and the stored numbers; 0 where there is no outline.
fn stored(outline: Option<&Outline>) -> Vec<u64> {
    let numbers = outline.map_or(Vec::new(), numbers_of);
    let count = numbers.len() as u64 / 2;
    [vec![count], numbers.into_iter().map(bits).collect()].concat()
}

/// What is carried, the count, the stored numbers.
fn outline(numbers: &[f64]) -> Vec<u64> {
    let made = new_outline(numbers);
    let carried = carried(made.as_ref().err());
    [carried.to_vec(), stored(made.as_ref().ok())].concat()
}

/// Question 21: the numbers of so many vertices.
fn proper(shape: &Shape) -> Result<&[f64], Refusal> {
    let improper = Err(Refusal::of(21, &[], &[]));
    if shape.count < 3 || shape.count > ROOM as u64 {
        return improper;
    }
    let Some(numbers) = shape.numbers.get(..2 * shape.count as usize) else {
        return improper;
    };
    if !numbers.iter().all(|x| x.abs() <= MAX_COORDINATE) {
        return improper;
    }
    Ok(numbers)
}

/// Question 21, then the outline: the reference is asked on what its `new`
/// gives, so the numbers have to be those of a stored outline.
fn proper_outline(shape: &Shape) -> Result<Outline, Refusal> {
    let numbers = proper(shape)?;
    let outline = handed_outline(numbers).expect("an outline");
    assert_eq!(numbers_of(&outline), numbers, "as it is stored");
    Ok(outline)
}

/// Question 2 of a point: east first.
pub(crate) fn checked(point: [f64; 2]) -> Result<PlanarPoint, Refusal> {
    PlanarPoint::from_metres(point[0], point[1]).map_err(|error| match error {
        NavigationError::Kernel(KernelError::NotFinite {
            parameter: "easting",
            ..
        }) => Refusal::of(2, &[0], &[]),
        NavigationError::Kernel(KernelError::NotFinite {
            parameter: "northing",
            ..
        }) => Refusal::of(2, &[1], &[]),
        other => unreachable!("of a point: {other:?}"),
    })
}

fn asked(shape: &Shape, point: [f64; 2]) -> Result<(Outline, PlanarPoint), Refusal> {
    let outline = proper_outline(shape)?;
    Ok((outline, checked(point)?))
}

/// The number of a refusal, and its whole number.
pub(crate) fn number_and_whole(refusal: Option<&Refusal>) -> [u64; 2] {
    let [number, _, whole, ..] = carried(refusal);
    [number, whole]
}

fn contains(shape: &Shape, point: [f64; 2]) -> Vec<u64> {
    let asked = asked(shape, point);
    let [number, whole] = number_and_whole(asked.as_ref().err());
    let place = asked.map_or(Containment::Outside, |(outline, p)| outline.contains(p));
    vec![number, whole, place_number(place)]
}

/// Outside, and beside a refusal.
pub(crate) const OUTSIDE: u64 = 0;

/// 0 outside, 1 on the boundary, 2 inside.
pub(crate) fn place_number(place: Containment) -> u64 {
    match place {
        Containment::Outside => OUTSIDE,
        Containment::OnBoundary => 1,
        Containment::Inside => 2,
    }
}

fn nearest(shape: &Shape, point: [f64; 2]) -> Vec<u64> {
    let asked = asked(shape, point);
    let [number, whole] = number_and_whole(asked.as_ref().err());
    let (distance, foot) = asked.map_or((0.0, [0.0; 2]), |(outline, p)| {
        (
            outline.distance_to_boundary(p).metres(),
            outline.closest_boundary_point(p).xy(),
        )
    });
    vec![number, whole, bits(distance), bits(foot[0]), bits(foot[1])]
}

fn measures(shape: &Shape) -> Vec<u64> {
    match proper_outline(shape) {
        Err(refusal) => vec![u64::from(refusal.number), 0, 0, 0, 0],
        Ok(outline) => vec![
            0,
            bits(outline.area().square_metres()),
            bits(outline.area().hectares()),
            bits(outline.perimeter().metres()),
            bits(outline.oracle_extent()),
        ],
    }
}

/// R-1: "the least gap over the vertices of each against the edges of the
/// other, still 0 if the rings meet". An infinite one reads 0.
fn clearance(first: &Shape, second: &Shape) -> Vec<u64> {
    let outlines = proper_outline(first).and_then(|first| Ok((first, proper_outline(second)?)));
    match outlines {
        Err(refusal) => vec![u64::from(refusal.number), 0],
        Ok((first, second)) => {
            let mut least = f64::INFINITY;
            for (each, other) in [(&first, &second), (&second, &first)] {
                let gaps = each.vertices().iter().map(|v| other.oracle_gap(*v));
                least = gaps.fold(least, f64::min);
            }
            let free = least.is_finite() && !first.oracle_meets(&second);
            vec![0, if free { bits(least) } else { 0 }]
        }
    }
}

/// Question 21 of both, then of the rings as they are handed in: whether they
/// meet, the edge of the outer walk, that of the inner one, and whether the
/// second is in the outer walk.
fn pair(first: &Shape, second: &Shape) -> Vec<u64> {
    let rings = proper(first).and_then(|first| Ok((points(first)?, points(proper(second)?)?)));
    let (number, found) = match rings {
        Err(refusal) => (u64::from(refusal.number), None),
        Ok((first, second)) => (0, Outline::oracle_pair(&first, &second)),
    };
    match found {
        None => vec![number, 0, 0, 0, 0],
        Some((outer, inner, swapped)) => {
            vec![number, 1, outer as u64, inner as u64, u64::from(swapped)]
        }
    }
}

/// Edge k; from the last on, (0, 0) twice.
fn edge(shape: &Shape, place: u64) -> Vec<u64> {
    let ends = |outline: Outline| {
        let edge = outline.edges().nth(usize::try_from(place).ok()?);
        edge.map(|(start, end)| [start.xy(), end.xy()].concat())
    };
    let (number, ends) = match proper_outline(shape) {
        Err(refusal) => (u64::from(refusal.number), None),
        Ok(outline) => (0, ends(outline)),
    };
    let ends = ends.unwrap_or(vec![0.0; 4]).into_iter().map(bits);
    [vec![number], ends.collect()].concat()
}

fn two_points(first: [f64; 2], second: [f64; 2]) -> Vec<u64> {
    let (first, second) = (checked(first), checked(second));
    let distance = match (&first, &second) {
        (Ok(first), Ok(second)) => first.distance_to(*second).metres(),
        _ => 0.0,
    };
    [
        &number_and_whole(first.as_ref().err())[..],
        &number_and_whole(second.as_ref().err())[..],
        &[bits(distance)],
    ]
    .concat()
}

/// Of each of the two: number, the float carried, value, hectares.
fn area(value: f64) -> Vec<u64> {
    let told = |area: Result<Area, NavigationError>| {
        let refusal = area.as_ref().err().map(|error| match error {
            NavigationError::Kernel(KernelError::NotFinite { .. }) => Refusal::of(2, &[0], &[]),
            NavigationError::Kernel(KernelError::OutOfRange { value, .. }) => {
                Refusal::of(14, &[], &[*value])
            }
            other => unreachable!("of an area: {other:?}"),
        });
        let [number, _, _, _, float] = carried(refusal.as_ref());
        let area = area.unwrap_or(Area::ZERO);
        [
            number,
            float,
            bits(area.square_metres()),
            bits(area.hectares()),
        ]
    };
    [
        told(Area::from_square_metres(value)),
        told(Area::from_hectares(value)),
    ]
    .concat()
}

/// Questions 21 and 13, then what the reference answers.
fn offset_of(outward: bool, distance: f64, shape: &Shape) -> Result<Outline, Refusal> {
    let outline = proper_outline(shape)?;
    let distance = checked_distance(distance)?;
    let result = if outward {
        outline.outset(distance)
    } else {
        outline.inset(distance)
    };
    result.map_err(of_offset)
}

/// What is carried, the completed events, the count, the stored numbers.
fn offset(outward: bool, distance: f64, shape: &Shape) -> Vec<u64> {
    events::clear();
    let made = offset_of(outward, distance, shape);
    let events = events::events();
    let counts = [events.collapses, events.divides, events.joins];
    [
        carried(made.as_ref().err()).to_vec(),
        counts.map(|count| count as u64).to_vec(),
        stored(made.as_ref().ok()),
    ]
    .concat()
}

/// 0 straight, 1 left, 2 right, 3 where a number is not finite.
pub fn turn_number(turn: f64) -> u64 {
    match turn.partial_cmp(&0.0) {
        Some(Ordering::Equal) => 0,
        Some(Ordering::Greater) => 1,
        Some(Ordering::Less) => 2,
        None => 3,
    }
}

/// How often each kind, and each number within it.
#[derive(Debug, Clone, Default)]
pub struct Tally {
    /// By kind and number; 0 is granted.
    pub numbers: [[usize; LAST + 1]; KINDS],
    /// Completed collapses, dividing splits and joining splits of the offsets.
    pub events: [u64; 3],
}

impl Tally {
    /// Counts one question.
    pub fn add(&mut self, question: &Question) {
        let answer = question.answer();
        self.numbers[question.kind()][answer[0] as usize] += 1;
        let offset = matches!(
            question,
            Question::Offset(..) | Question::RegionInset(..) | Question::Again(..)
        );
        if offset {
            for (sum, count) in self.events.iter_mut().zip(&answer[5..]) {
                *sum += count;
            }
        }
    }
}

impl fmt::Display for Tally {
    fn fmt(&self, f: &mut fmt::Formatter<'_>) -> fmt::Result {
        for (name, numbers) in NAMES.iter().zip(&self.numbers) {
            let total: usize = numbers.iter().sum();
            if total == 0 {
                continue;
            }
            write!(f, "{name} {total}:")?;
            for (number, count) in numbers.iter().enumerate().filter(|(_, count)| **count > 0) {
                write!(f, " {number}×{count}")?;
            }
            writeln!(f)?;
        }
        if self.events != [0; 3] {
            let [collapses, divides, joins] = self.events;
            writeln!(f, "events {collapses} {divides} {joins}")?;
        }
        Ok(())
    }
}
