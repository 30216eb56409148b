//! Rings whose edges lie almost on a line: the boxes of most pairs are not apart, and rounded products do not tell the turns.
use crate::outlines::{check, contains, once, place_of};
use oracle::region::{PlanarPoint, Polygon};
use std::hint::black_box;

/// Edges to and fro along (1, 1), each shorter than the last and a little above it, and around them back.
fn slivers() -> Vec<f64> {
    let (far, less, step) = (1e8 / 3.0, 1e4, 1e-6);
    let mut ring = Vec::new();
    for k in 0..63 {
        let (at, up) = (far - less * k as f64, step * k as f64);
        ring.extend([-at, -at + up, at, at + up]);
    }
    ring.extend([far, 3.0 * far, -3.0 * far, 3.0 * far]);
    ring
}

/// A chain on (1, 1), and above it so many pairs of edges between points of (1, 1) further out and points that are beside (0, 0) by
/// the smallest numbers: what tells a turn stands 1,000 bits below the products that cancel.
fn fan(pairs: usize) -> Vec<f64> {
    let links = 127 - 2 * pairs;
    let mut ring = Vec::new();
    for k in 0..links {
        let at = 6e8 * (links - k) as f64 / (links + 1) as f64 + 1.0 / 3.0;
        ring.extend([at, at]);
    }
    for k in 0..pairs {
        let at = 2e9 / 3.0 + 1e7 / 7.0 * k as f64;
        ring.extend([0.0, 5e-324 * (k + 1) as f64, at, at]);
    }
    ring.extend([1e9, -1e9]);
    ring
}

fn planar(p: &(f64, f64)) -> PlanarPoint {
    PlanarPoint::from_metres(p.0, p.1).expect("finite")
}

/// Points along (1, 1), so far above it, in the boxes of all edges but few.
fn along(most: f64, up: f64) -> Vec<(f64, f64)> {
    (1..=64).map(|k| most / 65.0 * k as f64).map(|at| (at, at + up)).collect()
}

/// A row in µs. Where the Rust refuses the ring, its time tells nothing.
fn row(name: &str, [ours, theirs]: [f64; 2], accepts: bool) {
    match accepts {
        true => println!("{name:<30}{:>10.2}{:>10.2}{:>12.1}", ours / 1e3, theirs / 1e3, ours / theirs),
        false => println!("{name:<30}{:>10.2}{:>10}", ours / 1e3, "refused"),
    }
}

/// Each row is the best of many passes, in which the two take turns.
fn measure_one(name: &str, ring: &[f64], points: &[(f64, f64)]) {
    const PASSES: usize = 100;
    let vertices: Vec<PlanarPoint> = ring.chunks(2).map(|v| planar(&(v[0], v[1]))).collect();
    let asked: Vec<PlanarPoint> = points.iter().map(planar).collect();
    let (made, polygon) = (check(ring), Polygon::<128>::new(&vertices));
    assert_eq!((made.refusal, made.count), (0, 128), "{name}");
    if let Ok(polygon) = &polygon {
        for (p, q) in points.iter().zip(&asked) {
            assert_eq!(contains(ring, *p).place, place_of(polygon.contains(*q)), "{name}");
        }
    }
    let mut best = [[f64::INFINITY; 2]; 2];
    for _ in 0..PASSES {
        let passes = [
            once(1, || { black_box(check(black_box(ring))); }),
            once(1, || { let _ = black_box(Polygon::<128>::new(black_box(&vertices))); }),
            once(points.len(), || for p in points { black_box(contains(black_box(ring), *p)); }),
            polygon.as_ref().map_or(0.0, |o| once(points.len(), || for p in &asked { black_box(black_box(o).contains(*p)); })),
        ];
        for (b, t) in best.iter_mut().flatten().zip(passes) {
            *b = b.min(t);
        }
    }
    row(&format!("check, {name} of 128"), best[0], polygon.is_ok());
    if !points.is_empty() {
        row(&format!("contains, {name} of 128"), best[1], polygon.is_ok());
    }
}

pub fn measure() {
    println!("edges almost on a line, µs a call, best of 100 passes");
    println!("{:<30}{:>10}{:>10}{:>12}", "of", "ours", "Rust", "ours/Rust");
    measure_one("slivers", &slivers(), &along(3e7, 1e-4));
    measure_one("fan and chain", &fan(40), &[]);
    measure_one("fan", &fan(63), &along(6e8, 0.0));
}
