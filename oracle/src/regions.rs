//! Questions about a region and the reference's answers, as fields.

use crate::answer::{
    bits, checked_distance, handed_region, new_region, of_offset, rings_of, Refusal, Whole, HOLES,
    HOLE_ROOM, ROOM,
};
use crate::events;
use crate::job::Job;
use crate::outlines::{carried, checked, number_and_whole, place_number, MAX_COORDINATE, OUTSIDE};

/// A region as numbers: ring lengths, the outer ring first, and coordinates.
#[derive(Debug, Clone, PartialEq)]
pub struct Given {
    /// Vertices of each ring.
    pub lengths: Vec<u64>,
    /// East then north, any bits.
    pub numbers: Vec<f64>,
}

/// One field of a stored region put in place of another: where, and what.
///
/// 0 changes nothing, 1 is the outer count, 2 the number of holes, 3 to 10 a
/// hole's count; from 16 on come the 256 numbers of the outer ring, and from
/// 512 on the 512 numbers of the holes.
#[derive(Debug, Clone, Copy, PartialEq, Eq)]
pub struct Changed {
    /// The field.
    pub place: u64,
    /// A whole number, or a float's bits.
    pub value: u64,
}

/// Where the outer ring's and the holes' numbers start in `Changed`.
pub const OUTER: u64 = 16;
/// The same of the holes.
pub const INNER: u64 = 512;

/// A region as the library holds it.
#[derive(Debug, Clone, PartialEq)]
struct Held {
    count: u64,
    holes: u64,
    counts: [u64; HOLES],
    outer: Vec<f64>,
    inner: Vec<f64>,
}

/// Question 21 of one ring; from two numbers a vertex on nothing is read.
fn proper_ring(count: u64, room: usize, numbers: &[f64]) -> bool {
    (3..=room as u64).contains(&count)
        && numbers[..2 * count as usize]
            .iter()
            .all(|x| x.abs() <= MAX_COORDINATE)
}

impl Held {
    fn new(region: &Whole) -> Self {
        let mut held = Self {
            count: region.outer().vertices().len() as u64,
            holes: region.holes().len() as u64,
            counts: [0; HOLES],
            outer: vec![0.0; 2 * ROOM],
            inner: vec![0.0; 2 * HOLE_ROOM * HOLES],
        };
        for (k, p) in region.outer().vertices().iter().enumerate() {
            held.outer[2 * k..2 * k + 2].copy_from_slice(&p.xy());
        }
        for (place, hole) in region.holes().iter().enumerate() {
            held.counts[place] = hole.vertices().len() as u64;
            for (k, p) in hole.vertices().iter().enumerate() {
                let at = 2 * (HOLE_ROOM * place + k);
                held.inner[at..at + 2].copy_from_slice(&p.xy());
            }
        }
        held
    }

    fn with(mut self, changed: Changed) -> Self {
        let Changed { place, value } = changed;
        let float = f64::from_bits(value);
        match place {
            1 => self.count = value,
            2 => self.holes = value,
            3..=10 => self.counts[place as usize - 3] = value,
            OUTER..INNER => self.outer[(place - OUTER) as usize] = float,
            INNER.. => self.inner[(place - INNER) as usize] = float,
            _ => {}
        }
        self
    }

    /// Question 21.
    fn proper(&self) -> bool {
        proper_ring(self.count, ROOM, &self.outer)
            && self.holes <= HOLES as u64
            && (0..self.holes as usize)
                .all(|k| proper_ring(self.counts[k], HOLE_ROOM, &self.inner[2 * HOLE_ROOM * k..]))
    }

    /// What is read of it: counts, and the numbers of so many vertices.
    fn read(&self) -> (u64, u64, Vec<u64>, Vec<f64>) {
        let holes = self.holes as usize;
        let mut numbers = self.outer[..2 * self.count as usize].to_vec();
        for k in 0..holes {
            let from = 2 * HOLE_ROOM * k;
            numbers.extend(&self.inner[from..from + 2 * self.counts[k] as usize]);
        }
        (
            self.count,
            self.holes,
            self.counts[..holes].to_vec(),
            numbers,
        )
    }
}

impl Given {
    /// The rings of a job.
    pub fn of_job(job: &Job) -> Self {
        Self {
            lengths: job.counts.iter().map(|count| *count as u64).collect(),
            numbers: job.numbers.clone(),
        }
    }

    /// The lengths as counts.
    fn counts(&self) -> Vec<usize> {
        self.lengths.iter().map(|n| *n as usize).collect()
    }
}

/// The region of these lengths and numbers.
pub fn made(given: &Given) -> Result<Whole, Refusal> {
    new_region(&given.counts(), &given.numbers)
}

/// The region that the reference makes of them, as it is stored; 27 is not
/// asked.
pub fn stored_given(given: &Given) -> Option<Given> {
    let region = handed_region(&given.counts(), &given.numbers).ok()?;
    Some(given_of(&region))
}

/// The lengths and numbers of a region.
pub fn given_of(region: &Whole) -> Given {
    let rings = rings_of(region);
    Given {
        lengths: rings.iter().map(|ring| ring.len() as u64).collect(),
        numbers: rings.iter().flatten().flat_map(|p| p.xy()).collect(),
    }
}

/// Whether the reference can be asked about the region with this change: it is
/// refused by 21, or what is read of it stays as it was.
pub fn answerable(given: &Given, changed: Changed) -> bool {
    made(given).is_ok_and(|region| {
        let held = Held::new(&region);
        let now = held.clone().with(changed);
        !now.proper() || now.read() == held.read()
    })
}

/// Rings, nine counts, and the stored numbers ring after ring.
fn stored(region: Option<&Whole>) -> Vec<u64> {
    let rings = region.map_or(Vec::new(), rings_of);
    let mut fields = vec![rings.len() as u64];
    fields.extend((0..=HOLES).map(|k| rings.get(k).map_or(0, |ring| ring.len() as u64)));
    fields.extend(rings.iter().flatten().flat_map(|p| p.xy()).map(bits));
    fields
}

/// The ring lengths and coordinates as fields of a question.
pub fn fields(given: &Given) -> Vec<u64> {
    [
        vec![given.lengths.len() as u64],
        given.lengths.clone(),
        given.numbers.iter().map(|x| x.to_bits()).collect(),
    ]
    .concat()
}

/// What is carried, then the region.
pub fn region(given: &Given) -> Vec<u64> {
    let made = made(given);
    let carried = carried(made.as_ref().err());
    [carried.to_vec(), stored(made.as_ref().ok())].concat()
}

/// Question 21 of a region handed in ring after ring.
pub fn proper(given: &Given) -> bool {
    let mut left = &given.numbers[..];
    for (place, count) in given.lengths.iter().enumerate() {
        let room = if place == 0 { ROOM } else { HOLE_ROOM };
        let cut = 2 * (*count).min(ROOM as u64) as usize;
        if cut > left.len() || !proper_ring(*count, room, left) {
            return false;
        }
        left = &left[cut..];
    }
    left.is_empty() && (1..=1 + HOLES).contains(&given.lengths.len())
}

/// Question 21, then the region: the reference is asked on what its `new`
/// gives, so the numbers have to be those of a stored region.
fn proper_region(given: &Given) -> Result<Whole, Refusal> {
    if !proper(given) {
        return Err(Refusal::of(21, &[], &[]));
    }
    let region = handed_region(&given.counts(), &given.numbers).expect("a region");
    assert_eq!(given_of(&region), *given, "as it is stored");
    Ok(region)
}

fn inset_of(region: &Whole, distance: f64) -> Result<Whole, Refusal> {
    region.inset(checked_distance(distance)?).map_err(of_offset)
}

/// What the inset of a region handed in leaves.
pub fn left_of(given: &Given, distance: f64) -> Option<Given> {
    let left = inset_of(&proper_region(given).ok()?, distance);
    Some(given_of(&left.ok()?))
}

/// The inset of a region from numbers.
pub fn inset(given: &Given, distance: f64) -> Vec<u64> {
    told(|| inset_of(&made(given)?, distance))
}

/// The inset of a region handed in.
pub fn again(given: &Given, distance: f64) -> Vec<u64> {
    told(|| inset_of(&proper_region(given)?, distance))
}

/// What is carried, the completed events, then the region.
fn told(inset: impl Fn() -> Result<Whole, Refusal>) -> Vec<u64> {
    events::clear();
    let made = inset();
    let events = events::events();
    let counts = [events.collapses, events.divides, events.joins];
    [
        carried(made.as_ref().err()).to_vec(),
        counts.map(|count| count as u64).to_vec(),
        stored(made.as_ref().ok()),
    ]
    .concat()
}

/// Number, whole number, place, distance and nearest point; number, area and
/// perimeter.
pub fn asked(given: &Given, point: [f64; 2], changed: Changed) -> Vec<u64> {
    // Beside a refusal stands an empty region, which 21 refuses as well.
    let region = made(given).ok();
    let region = region.filter(|region| Held::new(region).with(changed).proper());
    let Some(region) = region else {
        return vec![21, 0, OUTSIDE, 0, 0, 0, 21, 0, 0];
    };
    let p = checked(point);
    let [number, whole] = number_and_whole(p.as_ref().err());
    let (place, distance, foot) = match p {
        Err(_) => (OUTSIDE, 0.0, [0.0; 2]),
        Ok(p) => (
            place_number(region.contains(p)),
            region.distance_to_boundary(p).metres(),
            region.closest_boundary_point(p).xy(),
        ),
    };
    vec![
        number,
        whole,
        place,
        bits(distance),
        bits(foot[0]),
        bits(foot[1]),
        0,
        bits(region.area().square_metres()),
        bits(region.perimeter().metres()),
    ]
}
