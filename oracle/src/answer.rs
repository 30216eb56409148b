//! The answer to a job: the questions in their order.

use std::fmt::Write;
use std::sync::atomic::{AtomicBool, Ordering};

use crate::error::{KernelError, NavigationError};
use crate::events::{self, Events};
use crate::job::Job;
use crate::region::{PlanarPoint, Polygon, Region};
use crate::units::Distance;

/// Room of an outline and of the front.
pub const ROOM: usize = 128;
/// Room of a hole.
pub const HOLE_ROOM: usize = 32;
/// Holes of a region.
pub const HOLES: usize = 8;
/// Largest distance.
pub const LARGEST: f64 = 1e12;
/// Least length of an edge that comes in from outside.
pub const LEAST_EDGE: f64 = 1e-6;

type Outer = Polygon<ROOM>;
type Hole = Polygon<HOLE_ROOM>;

/// A region of the reference.
pub type Whole = Region<ROOM, HOLE_ROOM, HOLES>;

/// The question answered with no, and what it carries.
#[derive(Debug, Clone, PartialEq)]
pub struct Refusal {
    /// Number of the question.
    pub number: u32,
    /// Ring, for 4 to 9 and 27.
    pub ring: Option<usize>,
    /// Whole numbers carried.
    pub wholes: Vec<usize>,
    /// Floats carried.
    pub floats: Vec<f64>,
}

/// What a job gives.
#[derive(Debug, Clone, PartialEq)]
pub struct Answer {
    /// Rings, outer first, or a refusal.
    pub result: Result<Vec<Vec<PlanarPoint>>, Refusal>,
    /// Completed events.
    pub events: Events,
    /// Finished rings visited.
    pub rings: usize,
}

impl Refusal {
    pub(crate) fn of(number: u32, wholes: &[usize], floats: &[f64]) -> Self {
        Self {
            number,
            ring: None,
            wholes: wholes.to_vec(),
            floats: floats.to_vec(),
        }
    }

    pub(crate) fn in_ring(self, ring: usize) -> Self {
        Self {
            ring: Some(ring),
            ..self
        }
    }
}

/// What answers the inset of one ring.
#[derive(Debug, Clone, Copy, PartialEq, Eq)]
pub enum Single {
    /// `Polygon`, as a job has it.
    Outline,
    /// `Region` without holes.
    Region,
}

/// The answer to a line without its LF.
pub fn answer_line(line: &[u8]) -> Answer {
    answer_line_by(line, Single::Outline)
}

/// The same, the inset of one ring answered as said.
pub fn answer_line_by(line: &[u8], single: Single) -> Answer {
    match Job::read(line) {
        Some(job) => answer_by(&job, single),
        None => Answer {
            result: Err(Refusal::of(22, &[], &[])),
            events: Events::default(),
            rings: 0,
        },
    }
}

/// The answer to a job.
pub fn answer(job: &Job) -> Answer {
    answer_by(job, Single::Outline)
}

fn answer_by(job: &Job, single: Single) -> Answer {
    events::clear();
    let result = run(job, single);
    Answer {
        result,
        events: events::events(),
        rings: events::rings(),
    }
}

fn run(job: &Job, single: Single) -> Result<Vec<Vec<PlanarPoint>>, Refusal> {
    if job.counts.len() == 1 && (job.outset || single == Single::Outline) {
        let rings = rings(&job.counts, &job.numbers)?;
        let outer: Outer = door(&rings[0], 0)?;
        let distance = checked_distance(job.distance)?;
        let result = if job.outset {
            outer.outset(distance)
        } else {
            outer.inset(distance)
        };
        let outline = result.map_err(of_offset)?;
        return Ok(vec![outline.vertices().to_vec()]);
    }
    let region = new_region(&job.counts, &job.numbers)?;
    let distance = checked_distance(job.distance)?;
    Ok(rings_of(&region.inset(distance).map_err(of_offset)?))
}

static HAIRLINES_PASS: AtomicBool = AtomicBool::new(false);

/// From now on 27 is left out, or asked.
pub fn pass_hairlines(on: bool) {
    HAIRLINES_PASS.store(on, Ordering::Relaxed);
}

/// Whether an edge is below the least length, the closing one too; one closing
/// repeat is dropped before.
fn has_hairline(ring: &[PlanarPoint]) -> bool {
    let kept = match ring {
        [first, .., last] if first == last => &ring[..ring.len() - 1],
        _ => ring,
    };
    let mut edges = kept.iter().zip(kept.iter().cycle().skip(1));
    edges.any(|(a, b)| a.distance_to(*b).metres() < LEAST_EDGE)
}

/// How a ring is made of points: `door` or `handed`.
type Make<const N: usize> = fn(&[PlanarPoint], usize) -> Result<Polygon<N>, Refusal>;

/// A ring that comes in from outside, and its place: 27 is asked after 4 to 7
/// and before 8 and 9.
pub(crate) fn door<const N: usize>(
    ring: &[PlanarPoint],
    place: usize,
) -> Result<Polygon<N>, Refusal> {
    let made = handed(ring, place);
    let before = matches!(&made, Err(refusal) if refusal.number <= 7);
    if !before && has_hairline(ring) && !HAIRLINES_PASS.load(Ordering::Relaxed) {
        return Err(Refusal::of(27, &[], &[]).in_ring(place));
    }
    made
}

/// A ring of a shape handed in, as the reference makes it: 4 to 9.
pub(crate) fn handed<const N: usize>(
    ring: &[PlanarPoint],
    place: usize,
) -> Result<Polygon<N>, Refusal> {
    Polygon::new(ring).map_err(|error| of_ring(error).in_ring(place))
}

/// The region of ring lengths and numbers that come in from outside: questions
/// 1 to 12 and 27.
pub fn new_region(counts: &[usize], numbers: &[f64]) -> Result<Whole, Refusal> {
    region_by(counts, numbers, door, door)
}

/// The region that the reference makes of them, 27 not asked.
pub fn handed_region(counts: &[usize], numbers: &[f64]) -> Result<Whole, Refusal> {
    region_by(counts, numbers, handed, handed)
}

fn region_by(
    counts: &[usize],
    numbers: &[f64],
    outer: Make<ROOM>,
    hole: Make<HOLE_ROOM>,
) -> Result<Whole, Refusal> {
    let rings = rings(counts, numbers)?;
    let outer = outer(&rings[0], 0)?;
    let mut holes: Vec<Hole> = Vec::new();
    for (place, ring) in rings.iter().enumerate().skip(1) {
        holes.push(hole(ring, place)?);
    }
    Whole::new(outer, &holes).map_err(of_region)
}

/// The rings of a region, the outer one first.
pub fn rings_of(region: &Whole) -> Vec<Vec<PlanarPoint>> {
    let holes = region.holes().iter().map(|hole| hole.vertices().to_vec());
    let mut rings = vec![region.outer().vertices().to_vec()];
    rings.extend(holes);
    rings
}

/// Questions 1 and 2.
pub(crate) fn points(numbers: &[f64]) -> Result<Vec<PlanarPoint>, Refusal> {
    if numbers.len() % 2 != 0 {
        return Err(Refusal::of(1, &[], &[]));
    }
    if let Some(index) = numbers.iter().position(|number| !number.is_finite()) {
        return Err(Refusal::of(2, &[index], &[]));
    }
    Ok(numbers
        .chunks_exact(2)
        .map(|pair| PlanarPoint::from_metres(pair[0], pair[1]).expect("finite"))
        .collect())
}

/// Questions 1, 2 and 3; at least one ring.
fn rings(counts: &[usize], numbers: &[f64]) -> Result<Vec<Vec<PlanarPoint>>, Refusal> {
    let points = points(numbers)?;
    let needed = counts
        .iter()
        .try_fold(0_usize, |sum, count| sum.checked_add(*count));
    if counts.is_empty() || needed != Some(points.len()) {
        return Err(Refusal::of(3, &[], &[]));
    }
    let mut points = points.into_iter();
    Ok(counts
        .iter()
        .map(|count| points.by_ref().take(*count).collect())
        .collect())
}

/// Question 13.
pub(crate) fn checked_distance(distance: f64) -> Result<Distance, Refusal> {
    if !distance.is_finite() || distance > LARGEST {
        return Err(Refusal::of(13, &[], &[]));
    }
    Ok(Distance::from_metres(distance).expect("finite"))
}

/// Questions 4 to 9.
pub(crate) fn of_ring(error: NavigationError) -> Refusal {
    match error {
        NavigationError::Kernel(KernelError::InsufficientData { found, .. }) => {
            Refusal::of(4, &[found], &[])
        }
        NavigationError::Kernel(KernelError::OutOfRange { value, .. }) => {
            Refusal::of(5, &[], &[value])
        }
        NavigationError::Kernel(KernelError::CapacityExceeded {
            needed, capacity, ..
        }) => Refusal::of(6, &[needed, capacity], &[]),
        NavigationError::Degenerate {
            context: "a polygon with a repeated vertex",
        } => Refusal::of(7, &[], &[]),
        NavigationError::Degenerate {
            context: "a polygon of zero area",
        } => Refusal::of(8, &[], &[]),
        NavigationError::SelfIntersecting {
            first_edge,
            second_edge,
        } => Refusal::of(9, &[first_edge, second_edge], &[]),
        other => unreachable!("of an outline: {other:?}"),
    }
}

/// Questions 10 to 12.
fn of_region(error: NavigationError) -> Refusal {
    match error {
        NavigationError::Kernel(KernelError::CapacityExceeded { needed, .. }) => {
            Refusal::of(10, &[needed], &[])
        }
        NavigationError::HoleOutside { hole } => Refusal::of(11, &[hole], &[]),
        NavigationError::HolesOverlap { first, second } => Refusal::of(12, &[first, second], &[]),
        other => unreachable!("of a region: {other:?}"),
    }
}

/// Questions 14 to 19, and 4 to 6 of a piece.
pub(crate) fn of_offset(error: NavigationError) -> Refusal {
    match error {
        NavigationError::Kernel(KernelError::OutOfRange {
            parameter: "offset distance, metres",
            value,
            ..
        }) => Refusal::of(14, &[], &[value]),
        NavigationError::Kernel(KernelError::CapacityExceeded {
            context: "the front of a polygon offset",
            needed,
            ..
        }) => Refusal::of(15, &[needed], &[]),
        NavigationError::OffsetCollapses { distance } => Refusal::of(16, &[], &[distance]),
        NavigationError::OffsetSplits { distance } => Refusal::of(17, &[], &[distance]),
        NavigationError::Kernel(KernelError::NotConverged {
            iterations,
            residual,
        }) => Refusal::of(18, &[iterations as usize], &[residual]),
        NavigationError::Kernel(KernelError::CapacityExceeded {
            context: "the holes of an inset region",
            needed,
            ..
        }) => Refusal::of(19, &[needed], &[]),
        // The piece refused is the ring visited last.
        piece => of_ring(piece).in_ring(events::rings().saturating_sub(1)),
    }
}

/// A number of an answer line; a zero has no sign.
pub(crate) fn bits(number: f64) -> u64 {
    if number == 0.0 {
        0
    } else {
        number.to_bits()
    }
}

impl Answer {
    /// The answer line, without LF.
    pub fn line(&self) -> String {
        match &self.result {
            Err(refusal) => format!("no,{}", refusal.number),
            Ok(rings) => {
                let mut line = format!("ok,{}", rings.len());
                for ring in rings {
                    let _ = write!(line, ",{}", ring.len());
                }
                for point in rings.iter().flatten() {
                    let (east, north) = (point.east_metres(), point.north_metres());
                    let _ = write!(line, ",{:016x},{:016x}", bits(east), bits(north));
                }
                line
            }
        }
    }

    /// The answer line, then what a refusal carries and the events.
    pub fn full_line(&self) -> String {
        let mut line = self.line();
        if let Err(refusal) = &self.result {
            let ring = refusal.ring.map_or(String::new(), |ring| ring.to_string());
            let wholes: Vec<String> = refusal.wholes.iter().map(usize::to_string).collect();
            let floats: Vec<String> = refusal
                .floats
                .iter()
                .map(|float| format!("{:016x}", bits(*float)))
                .collect();
            let _ = write!(
                line,
                ";ring={ring};wholes={};floats={}",
                wholes.join(","),
                floats.join(",")
            );
        }
        let events = self.events;
        let _ = write!(
            line,
            ";events={},{},{}",
            events.collapses, events.divides, events.joins
        );
        line
    }
}
