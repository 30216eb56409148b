//! The edges at which two rings meet.

mod cases;
mod rings;

use std::collections::BTreeSet;

use cases::Cases;
use oracle::outlines::{Outline, Question, Shape};
use oracle::{stored, turns, wrong};
use rings::{as_it_should, edges, given, holds, made, meetings, refused_cases, Edge};

const S: &[[f64; 2]] = &[[0.0, 0.0], [4.0, 0.0], [4.0, 4.0], [0.0, 4.0]];

fn shape(ring: &[[f64; 2]]) -> Shape {
    Shape {
        count: ring.len() as u64,
        numbers: ring.as_flattened().to_vec(),
    }
}

#[test]
fn the_lowest_pair() {
    as_it_should();
}

/// A triangle at S is in the outer walk, named first or second.
#[test]
fn a_triangle_at_the_square() {
    let told = |first: &[[f64; 2]], second: &[[f64; 2]]| {
        Question::Pair(shape(first), shape(second)).answer()
    };
    let crossing = [[3.0, 3.0], [6.0, 3.0], [6.0, 6.0]];
    assert_eq!(told(S, &crossing), [0, 1, 0, 1, 1]);
    assert_eq!(told(&crossing, S), [0, 1, 0, 1, 0]);
    // Of equal ones the first is.
    let other = [[6.0, 6.0], [3.0, 3.0], [6.0, 3.0], [9.0, 3.0]];
    assert_eq!(told(S, &other), [0, 1, 1, 0, 0]);
    assert_eq!(told(&other, S), [0, 1, 0, 1, 0]);
    let beside = [[5.0, 5.0], [6.0, 5.0], [6.0, 6.0]];
    let within = [[1.0, 1.0], [2.0, 1.0], [2.0, 2.0]];
    for apart in [beside, within] {
        assert_eq!(told(S, &apart), [0; 5]);
        assert_eq!(told(&apart, S), [0; 5]);
    }
    assert_eq!(told(S, &S[..2]), [21, 0, 0, 0, 0]);
    assert_eq!(told(&S[..2], S), [21, 0, 0, 0, 0]);
}

/// A point lies on an edge.
fn on(point: [f64; 2], edge: Edge) -> bool {
    Outline::oracle_segments_meet([point, point], edge)
}

/// Two edges lie on one line and have more than a point in common.
fn overlap(p: Edge, q: Edge) -> bool {
    let ends = [p, q].into_iter().flatten();
    let shared: Vec<[f64; 2]> = ends.filter(|v| on(*v, p) && on(*v, q)).collect();
    let straight = q.iter().all(|v| turns::exact(p[0], p[1], *v) == 0.0);
    straight && shared.iter().any(|v| *v != shared[0])
}

/// The least and the greatest of each coordinate.
fn bounds(vertices: &[[f64; 2]]) -> [[f64; 2]; 2] {
    let axis = |k: usize| vertices.iter().map(move |v| v[k]);
    [
        [0, 1].map(|k| axis(k).fold(f64::INFINITY, f64::min)),
        [0, 1].map(|k| axis(k).fold(f64::NEG_INFINITY, f64::max)),
    ]
}

/// What the walks of a question that is not refused are an instance of.
fn walk_cases(first: &Shape, second: &Shape, answer: &[u64]) -> Vec<(&'static str, bool)> {
    let [_, meets, outer, inner, swapped] = answer[..] else {
        panic!("five fields");
    };
    let (meets, swapped) = (meets == 1, swapped == 1);
    let (n, m) = (first.count, second.count);
    let walked = meetings(first, second, swapped);
    let (few, many) = (n.min(m), n.max(m));
    // What is found if the other ring is in the outer walk.
    let other = meetings(first, second, !swapped).into_iter().min();
    let another = other.is_some_and(|other| other != (inner, outer));
    let neither = other.is_some_and(|other| other.0 != inner && other.1 != outer);
    vec![
        ("apart", !meets),
        ("the first outer", meets && n < m),
        ("the second outer", swapped && m < n),
        ("as many", meets && n == m && !swapped),
        ("the first outer, else another pair", another && n < m),
        ("the second outer, else another pair", another && m < n),
        ("as many, else another pair", another && n == m),
        ("else another edge of either", neither),
        (
            "several outer edges",
            walked.iter().any(|met| met.0 != outer),
        ),
        ("several inner edges", {
            walked.iter().any(|met| met.0 == outer && met.1 != inner)
        }),
        ("a lower inner edge of a later outer one", {
            walked.iter().any(|met| met.0 > outer && met.1 < inner)
        }),
        ("outer edge 0", meets && outer == 0),
        ("outer edge above 0", outer > 0),
        ("inner edge 0", meets && inner == 0),
        ("inner edge above 0", inner > 0),
        ("the outer closing edge", meets && outer + 1 == few),
        ("the inner closing edge", meets && inner + 1 == many),
        ("a full outer ring", meets && few == 128),
        ("a full inner ring", meets && many == 128 && few < 128),
    ]
}

/// What the rings of a question that is not refused are an instance of.
fn ring_cases(first: &Shape, second: &Shape, answer: &[u64]) -> Vec<(&'static str, bool)> {
    let (meets, swapped) = (answer[1] == 1, answer[4] == 1);
    let (n, m) = (first.count, second.count);
    let rings = [edges(first), edges(second)];
    let [outside, inside] = if swapped {
        [&rings[1], &rings[0]]
    } else {
        [&rings[0], &rings[1]]
    };
    let [outer, inner] = [answer[2], answer[3]].map(|edge| edge as usize);
    let met = meetings(first, second, false).len();
    let ends = |a: &[Edge], b: &[Edge]| a.iter().any(|[v, _]| b.iter().any(|e| on(*v, *e)));
    let touching = ends(outside, inside) || ends(inside, outside);
    let shared = outside
        .iter()
        .any(|[v, _]| inside.iter().any(|[w, _]| v == w));
    let second_within = holds(first, rings[1][0][0]);
    let first_within = holds(second, rings[0][0][0]);
    let within = second_within || first_within;
    let [low, high] = bounds(outside.as_flattened());
    let at_side = |edge: &Edge, beyond: fn(f64, f64) -> bool| {
        let [least, most] = bounds(edge);
        (0..2).any(|k| beyond(least[k], high[k]) || beyond(low[k], most[k]))
    };
    let beside = |edge: &Edge| at_side(edge, |a, b| a > b);
    let turned = |shape: &Shape| made(shape).is_some_and(|(_, made)| made.numbers != given(shape));
    let closed = |shape: &Shape| given(shape)[..2] == given(shape)[2 * shape.count as usize - 2..];
    let all = |test: fn(f64) -> bool| meets && given(first).iter().all(|x| test(x.abs()));
    vec![
        ("crossed", meets && !touching),
        ("at a vertex of both alone", shared && met == 4),
        ("a vertex on an edge alone", touching && !shared && met == 2),
        (
            "on one line",
            meets && overlap(outside[outer], inside[inner]),
        ),
        ("the second within the first", !meets && second_within),
        ("the first within the second", !meets && first_within),
        ("boxes apart", inside.iter().all(beside)),
        ("apart, no edge beside the box", {
            !meets && !within && !inside.iter().any(beside)
        }),
        ("an edge beside the box before the one met", {
            inside[..inner].iter().any(beside)
        }),
        ("the edge met touches the box alone", {
            meets && at_side(&inside[inner], |a, b| a >= b)
        }),
        ("no outline", meets && made(first).is_none()),
        ("clockwise", meets && turned(first) && turned(second)),
        ("the longer one by its repeat", {
            meets && (n == m + 1 && closed(first) || m == n + 1 && closed(second))
        }),
        (
            "numbers past the second's",
            second.numbers.len() as u64 > 2 * m,
        ),
        ("tiny", all(|x| x < 1e-140)),
        ("far", all(|x| x > 1e8)),
    ]
}

#[test]
fn the_stored_list_reaches_every_case() {
    let mut cases = Cases::default();
    for asked in stored::questions() {
        let Question::Pair(first, second) = &asked else {
            continue;
        };
        let answer = asked.answer();
        cases.add(if answer[0] == 21 {
            refused_cases(first, second)
        } else {
            let walk = walk_cases(first, second, &answer);
            [walk, ring_cases(first, second, &answer)].concat()
        });
    }
    assert_eq!(cases.missed(), [""; 0]);
}

/// What another reading tells of two rings that meet.
fn reading(name: &str, first: &Shape, second: &Shape) -> Vec<u64> {
    let fewer = second.count < first.count;
    let walked = |exchanged: bool| meetings(first, second, exchanged).into_iter();
    let lowest = |exchanged: bool| walked(exchanged).min();
    let of_outer = |outer: u64| walked(fewer).filter(move |met| met.0 == outer);
    let (outer, inner) = lowest(fewer).expect("they meet");
    let last = walked(fewer).map(|met| met.0).max();
    let (told, swapped) = match name {
        "named order" => (Some((inner, outer)), fewer),
        "named order, not swapped" => (Some((inner, outer)), false),
        "first named outside" => (lowest(false), false),
        "longer outside" => (lowest(!fewer), !fewer),
        "of equal ones the second outside" => (lowest(true), true),
        "outer edge not the lowest" => (last.and_then(|outer| of_outer(outer).min()), fewer),
        "inner edge not the lowest" => (of_outer(outer).max(), fewer),
        "swapped told wrongly" => (Some((outer, inner)), !fewer),
        _ => panic!("{name}"),
    };
    let (outer, inner) = told.expect("they meet");
    vec![0, 1, outer, inner, u64::from(swapped)]
}

/// The answers that are wrong on purpose are those of the readings that they
/// are named by, each wrong, and each reading is there.
#[test]
fn misread_pairs_are_what_they_are_named_by() {
    let lines = wrong::lines();
    let mut names = BTreeSet::new();
    for (name, asked, told) in wrong::misread_pairs() {
        let Question::Pair(first, second) = &asked else {
            panic!("{name}");
        };
        assert_eq!(told[..], reading(name, first, second), "{name}");
        assert_ne!(told[..], asked.answer(), "{name}");
        assert!(lines.contains(&(Some(15), asked.line_with(&told))));
        if name == "of equal ones the second outside" {
            assert_eq!(first.count, second.count);
        }
        names.insert(name);
    }
    assert_eq!(names.len(), 8);
}
