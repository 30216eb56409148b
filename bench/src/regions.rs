//! Regions beside the Rust of kinavis with its own, inexact `hypot`: from numbers to a region, and from numbers to its inset.
use crate::outlines::{ellipse, once};
use oracle::region::{PlanarPoint, Polygon, Region};
use oracle::units::Distance;
use std::f64::consts::TAU;
use std::hint::black_box;

type Whole = Region<128, 32, 8>;

#[repr(C)]
#[allow(dead_code)]
struct Checked {
    refusal: usize,
    ring: usize,
    first: usize,
    second: usize,
    value: f64,
    rings: usize,
    counts: [usize; 9],
}

#[repr(C)]
#[allow(dead_code)]
struct Inset {
    refusal: usize,
    ring: usize,
    first: usize,
    second: usize,
    value: f64,
    rings: usize,
    counts: [usize; 9],
    collapses: usize,
    divides: usize,
    joins: usize,
}

extern "C" {
    fn lw_region(numbers: *const f64, count: usize, lengths: *const usize, rings: usize, out: *mut f64, room: usize) -> Checked;
    fn lw_region_inset(numbers: *const f64, count: usize, lengths: *const usize, rings: usize, distance: f64, out: *mut f64, room: usize) -> Inset;
}

fn region(given: &Given, out: &mut [f64]) -> Checked {
    unsafe { lw_region(given.numbers.as_ptr(), given.numbers.len(), given.lengths.as_ptr(), given.lengths.len(), out.as_mut_ptr(), out.len()) }
}

fn inset(given: &Given, distance: f64, out: &mut [f64]) -> Inset {
    unsafe { lw_region_inset(given.numbers.as_ptr(), given.numbers.len(), given.lengths.as_ptr(), given.lengths.len(), distance, out.as_mut_ptr(), out.len()) }
}

/// Ring lengths and coordinates, ring after ring.
struct Given {
    lengths: Vec<usize>,
    numbers: Vec<f64>,
}

/// Eight holes of n vertices each in two rows, in an ellipse of 8 vertices.
fn eight_holes(n: usize) -> Given {
    let mut numbers = ellipse(8);
    let mut lengths = vec![8];
    for k in 0..8 {
        let (east, north) = (20.0 * (k % 4) as f64 - 30.0, 24.0 * (k / 4) as f64 - 12.0);
        for i in 0..n {
            let a = (i as f64 + 0.1 * k as f64) / n as f64 * TAU;
            let far = if i % 2 == 0 { 6.0 } else { 5.0 };
            numbers.extend([east + far * a.cos(), north + far * a.sin()]);
        }
        lengths.push(n);
    }
    Given { lengths, numbers }
}

/// The Rust's rings, of the points of each.
fn rings(given: &Given) -> Vec<Vec<PlanarPoint>> {
    let mut from = 0;
    given
        .lengths
        .iter()
        .map(|length| {
            let part = &given.numbers[from..from + 2 * length];
            from += 2 * length;
            part.chunks(2).map(|v| PlanarPoint::from_metres(v[0], v[1]).expect("finite")).collect()
        })
        .collect()
}

fn theirs(rings: &[Vec<PlanarPoint>]) -> Option<Whole> {
    let outer = Polygon::new(&rings[0]).ok()?;
    let holes: Option<Vec<_>> = rings[1..].iter().map(|ring| Polygon::new(ring).ok()).collect();
    Whole::new(outer, &holes?).ok()
}

/// The vertices of each ring of a region of the Rust.
fn counts(region: &Whole) -> Vec<usize> {
    let holes = region.holes().iter().map(|hole| hole.vertices().len());
    std::iter::once(region.outer().vertices().len()).chain(holes).collect()
}

/// Each row is the best of many passes, in which the two take turns.
pub fn measure() {
    const PASSES: usize = 200;
    println!("ns a call, best of {PASSES} passes");
    println!("{:<42}{:>7}{:>12}{:>12}{:>12}", "of", "events", "ours", "Rust", "ours/Rust");
    for (n, distance) in [(8, 1.0), (15, 1.0), (8, 3.0), (15, 3.0)] {
        let given = eight_holes(n);
        let rings = rings(&given);
        let by = Distance::from_metres(distance).expect("finite");
        let mut out = [0.0; 768];
        let made = inset(&given, distance, &mut out);
        let answer = theirs(&rings).and_then(|region| region.inset(by).ok());
        assert_eq!(made.refusal == 0, answer.is_some(), "eight holes of {n}, inset {distance}: {}", made.refusal);
        if let Some(region) = &answer {
            assert_eq!(made.counts[..made.rings], counts(region)[..]);
        }
        let mut best = [f64::INFINITY; 4];
        for _ in 0..PASSES {
            let passes = [
                once(1, || { black_box(region(black_box(&given), black_box(&mut out))); }),
                once(1, || { black_box(&theirs(black_box(&rings))); }),
                once(1, || { black_box(inset(black_box(&given), distance, black_box(&mut out))); }),
                once(1, || { black_box(&theirs(black_box(&rings)).map(|region| region.inset(by))); }),
            ];
            for (b, t) in best.iter_mut().zip(passes) {
                *b = b.min(t);
            }
        }
        let events = made.collapses + made.divides + made.joins;
        let refused = if made.refusal == 0 { String::new() } else { format!(": no, {}", made.refusal) };
        let row = |name: String, events: usize, ours: f64, theirs: f64| println!("{name:<42}{events:>7}{ours:>12.0}{theirs:>12.0}{:>12.2}", ours / theirs);
        row(format!("check, 8 holes of {n}"), 0, best[0], best[1]);
        row(format!("check and inset {distance}, 8 holes of {n}{refused}"), events, best[2], best[3]);
        row(format!("inset alone (the difference), of {n}"), events, best[2] - best[0], best[3] - best[1]);
    }
}
