//! `bench`: nanoseconds a call of our `hypot` beside the C library's, and of the questions about outlines, their offsets and
//! regions beside the Rust's. `bench slivers`: outlines whose edges lie almost on a line alone. `bench test`: compares our `hypot`
//! with an exact one.
mod cases;
mod exact;
mod offsets;
mod outlines;
mod regions;
mod slivers;

use cases::{Pair, Random};
use std::hint::black_box;
use std::time::Instant;

extern "C" {
    fn lw_hypot(x: f64, y: f64) -> f64;
    fn hypot(x: f64, y: f64) -> f64;
}

fn ours(x: f64, y: f64) -> f64 {
    unsafe { lw_hypot(x, y) }
}

fn c_library(x: f64, y: f64) -> f64 {
    unsafe { hypot(x, y) }
}

/// Nanoseconds a call over all pairs.
fn once(pairs: &[Pair], f: impl Fn(f64, f64) -> f64) -> f64 {
    let start = Instant::now();
    let mut sum = 0.0;
    for &(x, y) in pairs {
        sum += f(x, y);
    }
    black_box(sum);
    start.elapsed().as_nanos() as f64 / pairs.len() as f64
}

/// Each row is the best of many passes, in which the three take turns.
fn measure() {
    const PASSES: usize = 400;
    println!("ns a call, best of {PASSES} passes over 4096 pairs");
    println!("{:<30}{:>8}{:>8}{:>8}{:>10}", "operands", "ours", "C", "Rust", "ours/C");
    for (name, pairs) in cases::timed(4096) {
        let mut best = [f64::INFINITY; 3];
        for _ in 0..PASSES {
            best[0] = best[0].min(once(&pairs, ours));
            best[1] = best[1].min(once(&pairs, c_library));
            best[2] = best[2].min(once(&pairs, |x, y| x.hypot(y)));
        }
        println!("{:<30}{:>8.1}{:>8.1}{:>8.1}{:>10.2}", name, best[0], best[1], best[2], best[0] / best[1]);
    }
}

/// Equal bits; NaNs count as equal, whatever their bits.
fn same(a: f64, b: f64) -> bool {
    a.to_bits() == b.to_bits() || (a.is_nan() && b.is_nan())
}

/// How many answers differ from the exact ones. The first ten are printed.
fn compare() -> usize {
    let mut differences = 0;
    println!("{:<42}{:>10}{:>12}{:>16}", "operands", "pairs", "ours differ", "the C library's");
    for (name, count, draw) in cases::hard() {
        let mut r = Random(name.len() as u64);
        let (mut here, mut other) = (0, 0);
        for _ in 0..count {
            let (x, y) = draw(&mut r);
            let e = exact::hypot(x, y);
            let z = ours(x, y);
            if !same(z, e) {
                here += 1;
                if differences + here <= 10 {
                    println!("hypot({:016x}, {:016x}): {:016x}, exact {:016x}", x.to_bits(), y.to_bits(), z.to_bits(), e.to_bits());
                }
            }
            other += !same(c_library(x, y), e) as usize;
        }
        println!("{name:<42}{count:>10}{here:>12}{other:>16}");
        differences += here;
    }
    differences
}

fn main() {
    match std::env::args().nth(1).as_deref() {
        None => {
            measure();
            println!();
            outlines::measure();
            println!();
            slivers::measure();
            println!();
            offsets::measure();
            println!();
            regions::measure();
        }
        Some("slivers") => slivers::measure(),
        Some("test") => {
            let n = compare();
            println!("{n} differences");
            std::process::exit((n > 0) as i32);
        }
        Some(other) => {
            eprintln!("bench: no mode `{other}`: give none, `slivers` or `test`");
            std::process::exit(2);
        }
    }
}
