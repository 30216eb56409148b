//! The check of an outline, `contains` and `nearest` beside the Rust of kinavis with its own, inexact `hypot`.
use crate::cases::Random;
use oracle::region::{Containment, PlanarPoint, Polygon};
use std::f64::consts::TAU;
use std::hint::black_box;
use std::time::Instant;

#[repr(C)]
#[allow(dead_code)]
pub struct Outline {
    pub refusal: usize,
    ring: usize,
    first: usize,
    second: usize,
    value: f64,
    pub count: usize,
}

#[repr(C)]
#[allow(dead_code)]
pub struct Place {
    refusal: usize,
    first: usize,
    pub place: usize,
}

#[repr(C)]
#[allow(dead_code)]
struct Nearest {
    refusal: usize,
    first: usize,
    distance: f64,
    east: f64,
    north: f64,
}

extern "C" {
    fn lw_check(numbers: *const f64, length: usize) -> Outline;
    fn lw_outline(numbers: *const f64, length: usize, out: *mut f64, room: usize) -> Outline;
    fn lw_contains(outline: *const f64, length: usize, east: f64, north: f64) -> Place;
    fn lw_nearest(outline: *const f64, length: usize, east: f64, north: f64) -> Nearest;
}

pub fn check(numbers: &[f64]) -> Outline {
    unsafe { lw_check(numbers.as_ptr(), numbers.len()) }
}

fn outline(numbers: &[f64], out: &mut [f64]) -> Outline {
    unsafe { lw_outline(numbers.as_ptr(), numbers.len(), out.as_mut_ptr(), out.len()) }
}

pub fn contains(ring: &[f64], p: (f64, f64)) -> Place {
    unsafe { lw_contains(ring.as_ptr(), ring.len(), p.0, p.1) }
}

fn nearest(ring: &[f64], p: (f64, f64)) -> Nearest {
    unsafe { lw_nearest(ring.as_ptr(), ring.len(), p.0, p.1) }
}

/// Points on an ellipse.
pub fn ellipse(n: usize) -> Vec<f64> {
    (0..n).flat_map(|k| { let a = k as f64 / n as f64 * TAU; [100.0 * a.cos(), 60.0 * a.sin()] }).collect()
}

/// A star-shaped ring with random radii: a drawn outline's spikes and notches.
pub fn star(n: usize) -> Vec<f64> {
    let mut r = Random(7);
    let mut ring = Vec::new();
    for k in 0..n {
        let a = (k as f64 + 0.15 + 0.15 * r.unit()) / n as f64 * TAU;
        let d = 70.0 + 30.0 * r.unit();
        ring.extend([d * a.cos(), d * a.sin()]);
    }
    ring
}

/// Long teeth side by side.
pub fn comb(n: usize) -> Vec<f64> {
    let teeth = n / 4;
    let mut ring = Vec::new();
    for k in 0..teeth {
        let x = 4.0 * k as f64;
        ring.extend([x, 0.0, x + 0.5, -30.0, x + 2.0, -30.0, x + 2.5, 0.0]);
    }
    let last = ring.len();
    (ring[0], ring[1]) = (-1.0, 50.0);
    (ring[last - 2], ring[last - 1]) = (4.0 * teeth as f64, 50.0);
    ring
}

/// Nanoseconds a call.
pub fn once(calls: usize, mut work: impl FnMut()) -> f64 {
    let start = Instant::now();
    work();
    start.elapsed().as_nanos() as f64 / calls as f64
}

/// Points in and around a ring.
fn around(ring: &[f64], count: usize) -> Vec<(f64, f64)> {
    let side = |first: usize| {
        let values = || ring.iter().skip(first).step_by(2);
        (values().cloned().fold(f64::INFINITY, f64::min), values().cloned().fold(f64::NEG_INFINITY, f64::max))
    };
    let ((west, east), (south, north)) = (side(0), side(1));
    let mut r = Random(3);
    let mut within = |low: f64, high: f64| (low + high) / 2.0 + 0.6 * (high - low) * r.unit();
    (0..count).map(|_| (within(west, east), within(south, north))).collect()
}

pub fn place_of(c: Containment) -> usize {
    match c {
        Containment::Outside => 0,
        Containment::OnBoundary => 1,
        Containment::Inside => 2,
    }
}

/// Both answer alike: the stored ring, where each point lies, and its distance but for what an inexact `hypot` rounds.
fn agree(ring: &[f64], polygon: &Polygon<128>, points: &[(f64, f64)], planar: &[PlanarPoint]) {
    let mut out = [0.0; 256];
    for made in [outline(ring, &mut out), check(ring)] {
        assert_eq!((made.refusal, made.count), (0, ring.len() / 2));
    }
    for (k, v) in polygon.vertices().iter().enumerate() {
        assert_eq!((out[2 * k], out[2 * k + 1]), (v.east_metres(), v.north_metres()));
    }
    for (p, q) in points.iter().zip(planar) {
        assert_eq!(contains(ring, *p).place, place_of(polygon.contains(*q)));
        let (ours, theirs) = (nearest(ring, *p).distance, polygon.distance_to_boundary(*q).metres());
        assert!((ours - theirs).abs() <= 1e-12 * theirs, "{ours} beside {theirs}");
    }
}

/// Each row is the best of many passes, in which the two take turns.
pub fn measure() {
    const PASSES: usize = 300;
    const POINTS: usize = 256;
    println!("ns a call, best of {PASSES} passes");
    println!("{:<30}{:>10}{:>10}{:>12}", "of", "ours", "Rust", "ours/Rust");
    for (name, draw) in [("ellipse", ellipse as fn(usize) -> Vec<f64>), ("star", star), ("comb", comb)] {
        for n in [8, 32, 128] {
            let ring = draw(n);
            let planar = |p: &(f64, f64)| PlanarPoint::from_metres(p.0, p.1).expect("finite");
            let vertices: Vec<PlanarPoint> = ring.chunks(2).map(|v| planar(&(v[0], v[1]))).collect();
            let polygon = Polygon::<128>::new(&vertices).expect("an outline");
            let points = around(&ring, POINTS);
            let asked: Vec<PlanarPoint> = points.iter().map(planar).collect();
            agree(&ring, &polygon, &points, &asked);
            let checks = 1 + 4096 / n / n;
            let mut out = [0.0; 256];
            let mut best = [[f64::INFINITY; 2]; 4];
            for _ in 0..PASSES {
                let passes = [
                    [
                        once(checks, || for _ in 0..checks { black_box(check(black_box(&ring))); }),
                        once(checks, || for _ in 0..checks { black_box(&Polygon::<128>::new(black_box(&vertices))); }),
                    ],
                    [
                        once(checks, || for _ in 0..checks { black_box(outline(black_box(&ring), black_box(&mut out))); }),
                        once(checks, || for _ in 0..checks { black_box(&Polygon::<128>::new(black_box(&vertices))); }),
                    ],
                    [
                        once(POINTS, || for p in &points { black_box(contains(black_box(&ring), *p)); }),
                        once(POINTS, || for p in &asked { black_box(black_box(&polygon).contains(*p)); }),
                    ],
                    [
                        once(POINTS, || for p in &points { black_box(nearest(black_box(&ring), *p)); }),
                        once(POINTS, || for p in &asked { black_box(black_box(&polygon).closest_boundary_point(*p)); }),
                    ],
                ];
                for (b, t) in best.iter_mut().flatten().zip(passes.iter().flatten()) {
                    *b = b.min(*t);
                }
            }
            for (row, [ours, theirs]) in ["check", "check, lent output", "contains", "nearest"].iter().zip(best) {
                println!("{:<30}{:>10.1}{:>10.1}{:>12.2}", format!("{row}, {name} of {n}"), ours, theirs, ours / theirs);
            }
        }
    }
}
