//! Insets and outsets beside the Rust of kinavis with its own, inexact `hypot`.
use crate::cases::Random;
use crate::outlines::{comb, ellipse, once, star};
use oracle::region::{PlanarPoint, Polygon};
use oracle::units::Distance;
use std::f64::consts::TAU;
use std::hint::black_box;

#[repr(C)]
#[allow(dead_code)]
pub struct Offset {
    refusal: usize,
    ring: usize,
    first: usize,
    second: usize,
    value: f64,
    count: usize,
    collapses: usize,
    divides: usize,
    joins: usize,
}

extern "C" {
    fn lw_inset(outline: *const f64, length: usize, distance: f64, out: *mut f64, room: usize) -> Offset;
    fn lw_outset(outline: *const f64, length: usize, distance: f64, out: *mut f64, room: usize) -> Offset;
}

pub fn offset(outward: bool, ring: &[f64], distance: f64, out: &mut [f64]) -> Offset {
    let call = if outward { lw_outset } else { lw_inset };
    unsafe { call(ring.as_ptr(), ring.len(), distance, out.as_mut_ptr(), out.len()) }
}

/// A convex ring with uneven edges, which collapse one by one: 114 events at 128 vertices.
fn uneven(n: usize) -> Vec<f64> {
    let mut r = Random(7);
    (0..n)
        .flat_map(|k| {
            let a = (k as f64 + 0.5 + 0.4 * r.unit()) / n as f64 * TAU;
            [100.0 * a.cos() + 5.0 * (2.0 * a).cos(), 60.0 * a.sin()]
        })
        .collect()
}

/// A ring whose notches close one after the other as it grows.
fn notched(n: usize) -> Vec<f64> {
    let teeth = n / 4;
    let mut ring = Vec::new();
    for k in 0..teeth {
        let x = 10.0 * k as f64;
        let w = 0.5 + 0.01 * k as f64;
        ring.extend([x, 0.0, x + 4.0, 0.0, x + 4.0 + w, 6.0, x + 5.0 + 2.0 * w, 0.0]);
    }
    let last = ring.len();
    (ring[last - 2], ring[last - 1]) = (10.0 * teeth as f64, 60.0);
    (ring[0], ring[1]) = (-1.0, 60.0);
    ring
}

/// Each row is the best of many passes, in which the two take turns.
pub fn measure() {
    const PASSES: usize = 200;
    println!("ns a call, best of {PASSES} passes");
    println!("{:<34}{:>7}{:>12}{:>12}{:>12}", "of", "events", "ours", "Rust", "ours/Rust");
    let cases: [(&str, fn(usize) -> Vec<f64>, bool, f64); 6] = [
        ("inset 0.5, ellipse", ellipse, false, 0.5),
        ("inset 0.05, star", star, false, 0.05),
        ("inset 0.2, comb", comb, false, 0.2),
        ("outset 1, ellipse", ellipse, true, 1.0),
        ("outset 3, notched", notched, true, 3.0),
        ("inset 59.5, uneven", uneven, false, 59.5),
    ];
    for (name, draw, outward, distance) in cases {
        for n in [8, 32, 128] {
            let ring = draw(n);
            let vertices: Vec<PlanarPoint> = ring.chunks(2).map(|v| PlanarPoint::from_metres(v[0], v[1]).expect("finite")).collect();
            let Ok(polygon) = Polygon::<128>::new(&vertices) else { println!("{name} of {n}: no outline"); continue };
            let stored: Vec<f64> = polygon.vertices().iter().flat_map(|v| [v.east_metres(), v.north_metres()]).collect();
            let by = Distance::from_metres(distance).expect("finite");
            let theirs = || if outward { polygon.outset(by) } else { polygon.inset(by) };
            let mut out = [0.0; 256];
            let ours = offset(outward, &stored, distance, &mut out);
            let answer = theirs();
            assert_eq!(ours.refusal == 0, answer.is_ok(), "{name} of {n}: {}", ours.refusal);
            if let Ok(result) = &answer {
                assert_eq!(ours.count, result.vertices().len());
            }
            let calls = 1 + 64 / n;
            let mut best = [f64::INFINITY; 2];
            for _ in 0..PASSES {
                let passes = [
                    once(calls, || for _ in 0..calls { black_box(offset(outward, black_box(&stored), distance, black_box(&mut out))); }),
                    once(calls, || for _ in 0..calls { black_box(&theirs()); }),
                ];
                for (b, t) in best.iter_mut().zip(passes) {
                    *b = b.min(t);
                }
            }
            let events = ours.collapses + ours.divides + ours.joins;
            let row = format!("{name} of {n}{}", if ours.refusal == 0 { String::new() } else { format!(": no, {}", ours.refusal) });
            println!("{row:<34}{events:>7}{:>12.0}{:>12.0}{:>12.2}", best[0], best[1], best[0] / best[1]);
        }
    }
}
