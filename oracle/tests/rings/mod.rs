//! Pairs of rings that are handed in, and what is told of them.

#![allow(dead_code)]

use oracle::generate::{clearance, pair};
use oracle::hypot;
use oracle::outlines::{handed_outline, Outline, Question, Shape};
use oracle::region::{Containment, PlanarPoint};

pub type Edge = [[f64; 2]; 2];

/// The numbers of a shape that are read.
pub fn given(shape: &Shape) -> &[f64] {
    &shape.numbers[..2 * shape.count as usize]
}

/// The edges of a shape, the last closing.
pub fn edges(shape: &Shape) -> Vec<Edge> {
    let vertices: Vec<[f64; 2]> = given(shape)
        .chunks_exact(2)
        .map(|pair| [pair[0], pair[1]])
        .collect();
    let next = vertices.iter().cycle().skip(1);
    vertices.iter().zip(next).map(|(a, b)| [*a, *b]).collect()
}

/// All pairs of edges that meet, the first's and the second's; exchanged where
/// the second ring is in the outer walk.
pub fn meetings(first: &Shape, second: &Shape, exchanged: bool) -> Vec<(u64, u64)> {
    let mut met = Vec::new();
    for (p, j) in edges(first).into_iter().zip(0..) {
        for (q, k) in edges(second).into_iter().zip(0..) {
            if Outline::oracle_segments_meet(p, q) {
                met.push(if exchanged { (k, j) } else { (j, k) });
            }
        }
    }
    met
}

/// Of all pairs of edges that meet the lowest, the edge of the ring with fewer
/// vertices standing first, of equal ones that of the first.
fn lowest(first: &Shape, second: &Shape) -> Vec<u64> {
    let fewer = second.count < first.count;
    match meetings(first, second, fewer).into_iter().min() {
        None => vec![0; 5],
        Some((outer, inner)) => vec![0, 1, outer, inner, u64::from(fewer)],
    }
}

/// The outline that the reference makes of a shape, and its own shape.
pub fn made(shape: &Shape) -> Option<(Outline, Shape)> {
    let outline = handed_outline(given(shape)).ok()?;
    Some((outline, Shape::new(&outline)))
}

/// Each drawn pair is told as it should. How many are apart, meet with the
/// first in the outer walk, with the second; and how many are two outlines.
fn told(seed: u64, count: u64) -> [usize; 4] {
    let mut told = [0; 4];
    for index in 0..count {
        let asked = pair(seed, index);
        let Question::Pair(first, second) = &asked else {
            panic!("a pair");
        };
        let answer = asked.answer();
        if answer[0] != 0 {
            assert_eq!(answer, [21, 0, 0, 0, 0]);
            continue;
        }
        assert_eq!(answer, lowest(first, second), "{}", asked.line());
        told[(answer[1] + answer[4]) as usize] += 1;
        // The crossing test of the checks: yes where any two edges meet.
        if let (Some((a, first)), Some((b, second))) = (made(first), made(second)) {
            told[3] += 1;
            let meet = !meetings(&first, &second, false).is_empty();
            assert_eq!(a.oracle_meets(&b), meet, "{}", asked.line());
            assert_eq!(b.oracle_meets(&a), meet, "{}", asked.line());
        }
    }
    told
}

/// The same, and none of these is rare.
pub fn as_it_should() {
    let told = told(7, 20_000);
    assert!(told.iter().all(|count| *count > 2_000), "{told:?}");
}

/// Whether a point is within the outline of a shape.
pub fn holds(ring: &Shape, [east, north]: [f64; 2]) -> bool {
    let point = PlanarPoint::from_metres(east, north).expect("finite");
    made(ring).is_some_and(|(ring, _)| ring.contains(point) == Containment::Inside)
}

/// Whether question 21 refuses a shape.
fn improper(one: &Shape) -> bool {
    Question::Pair(one.clone(), one.clone()).answer()[0] == 21
}

/// What a refused question is an instance of.
pub fn refused_cases(first: &Shape, second: &Shape) -> Vec<(&'static str, bool)> {
    vec![
        ("21 of the first", !improper(second)),
        ("21 of the second", !improper(first)),
        ("21 of both", improper(first) && improper(second)),
    ]
}

/// How far a point is from an edge.
fn gap(p: [f64; 2], [a, b]: Edge) -> f64 {
    let (along, from) = ([b[0] - a[0], b[1] - a[1]], [p[0] - a[0], p[1] - a[1]]);
    let square = along[0] * along[0] + along[1] * along[1];
    let part = (from[0] * along[0] + from[1] * along[1]) / square;
    let part = if square > 0.0 {
        part.clamp(0.0, 1.0)
    } else {
        0.0
    };
    let [east, north] = [0, 1].map(|k| a[k] + part * along[k] - p[k]);
    hypot::exact(east, north)
}

pub fn least(gaps: impl IntoIterator<Item = f64>) -> f64 {
    gaps.into_iter().fold(f64::INFINITY, f64::min)
}

/// Of each vertex of these edges, the least gap from those.
pub fn gaps(vertices: &[Edge], others: &[Edge]) -> Vec<f64> {
    let of = |[vertex, _]: &Edge| least(others.iter().map(|edge| gap(*vertex, *edge)));
    vertices.iter().map(of).collect()
}

/// The least gap of a ring's vertices from another's edges.
pub fn one_sided(vertices: &Shape, other: &Shape) -> f64 {
    least(gaps(&edges(vertices), &edges(other)))
}

/// Edge by edge: 0 where two meet, else the least gap of an end of either from
/// the other.
fn edge_by_edge(first: &Shape, second: &Shape) -> f64 {
    let mut nearest = f64::INFINITY;
    for p in edges(first) {
        for q in edges(second) {
            if Outline::oracle_segments_meet(p, q) {
                return 0.0;
            }
            let ends = [gap(p[0], q), gap(p[1], q), gap(q[0], p), gap(q[1], p)];
            nearest = least(ends).min(nearest);
        }
    }
    nearest
}

/// The two outlines of a question about their clearance.
pub fn cleared(asked: &Question) -> [&Shape; 2] {
    let Question::Clearance(first, second) = asked else {
        panic!("a clearance");
    };
    [first, second]
}

/// Each drawn pair is told the same in either order, as edge by edge. How many
/// are refused, have 0, are as near from either side, and are nearer by the
/// vertices of the first alone, of the second alone: what was measured before
/// R-1, from the second's vertices, tells another clearance of the pair in the
/// order drawn, and of it exchanged.
pub fn either_order(seed: u64, count: u64) -> [usize; 5] {
    let mut told = [0; 5];
    for index in 0..count {
        let asked = clearance(seed, 2 * index);
        let again = clearance(seed, 2 * index + 1);
        let [first, second] = cleared(&asked);
        let [other, one] = cleared(&again);
        assert_eq!([first.count, second.count], [one.count, other.count]);
        let (answer, line) = (asked.answer(), asked.line());
        assert_eq!(answer, again.answer(), "{line}");
        if answer[0] != 0 {
            assert_eq!(answer, [21, 0], "{line}");
            told[0] += 1;
            continue;
        }
        assert_eq!([given(first), given(second)], [given(one), given(other)]);
        let nearest = edge_by_edge(first, second);
        assert_eq!(answer, [0, nearest.to_bits()], "{line}");
        let sides = [one_sided(first, second), one_sided(second, first)];
        told[match nearest {
            0.0 => 1,
            _ if sides[0] == sides[1] => 2,
            _ if sides[0] < sides[1] => 3,
            _ => 4,
        }] += 1;
    }
    told
}

/// The same, and none of these is rare.
pub fn the_same_in_either_order() {
    let told = either_order(7, 10_000);
    assert!(told.iter().all(|count| *count > 700), "{told:?}");
}
