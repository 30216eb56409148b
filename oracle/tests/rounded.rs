//! The rounded turns, chosen at start-up; alone in its process.

mod rings;

use oracle::answer::answer_line;
use oracle::job::Job;
use oracle::outlines::{handed_outline, Outline, Question, Shape};
use oracle::{stored, turns};
use rings::{as_it_should, the_same_in_either_order};

type Ring<'a> = &'a [[f64; 2]];

/// What is told of an inset by 0: whether outline or region is accepted.
fn told(rings: &[Ring]) -> String {
    let job = Job {
        outset: false,
        distance: 0.0,
        counts: rings.iter().map(|ring| ring.len()).collect(),
        numbers: rings.concat().as_flattened().to_vec(),
    };
    answer_line(job.line().as_bytes()).full_line()
}

fn refused(first: usize, second: usize) -> String {
    format!("no,9;ring=0;wholes={first},{second};floats=;events=0,0,0")
}

/// Of the outline as it is stored.
fn place(ring: Ring, point: [f64; 2]) -> u64 {
    let outline = handed_outline(ring.as_flattened()).expect("an outline");
    Question::Contains(Shape::new(&outline), point).answer()[2]
}

#[test]
fn the_choice() {
    let thin: Ring = &[[2.6, 0.6], [0.1, 1.6], [1.5, 1.7], [1.85, 0.9]];
    let crossed: Ring = &[[0.8, 0.3], [1.4, 3.0], [1.6, 1.2], [1.2, 2.1]];
    let touching: Ring = &[[0.1, 0.0], [0.2, 0.0], [0.2, 0.1], [0.4, 0.3]];
    let (near, on) = ([0.5, 0.5000000000000001], [12.0, 12.0]);
    let slope: Ring = &[[0.0, 0.0], [24.0, 24.0], [0.0, 24.0]];
    let straight = |a, b, c| Question::Turn([a, b, c]).answer() == [0];
    let pairs = stored::questions().filter(|asked| matches!(asked, Question::Pair(..)));
    let pairs: Vec<Question> = pairs.collect();
    let edges = || -> Vec<Vec<u64>> { pairs.iter().map(Question::answer).collect() };
    let exactly = edges();
    // The exact turn where nothing was said.
    let exact = || {
        assert!(told(&[thin]).starts_with("ok,1,4,"));
        assert_eq!(told(&[crossed]), refused(0, 2));
        assert_eq!(told(&[touching]), refused(1, 3));
        assert_eq!(Outline::oracle_orient(near, on, [24.0, 24.0]), 1.0);
        assert!(!straight(near, on, [24.0, 24.0]));
        assert_eq!(place(slope, near), 2);
        assert_eq!(place(slope, on), 1);
        assert_eq!(Question::Fold([on, near, [1.0, 1.0]]).answer(), [0]);
        rows(true);
    };
    exact();
    turns::use_rounded(true);
    assert_eq!(told(&[thin]), refused(0, 2));
    assert_eq!(told(&[crossed]), refused(0, 3));
    assert!(told(&[touching]).starts_with("ok,1,4,"));
    assert!(straight(near, on, [24.0, 24.0]));
    assert_eq!(Question::Fold([on, near, [1.0, 1.0]]).answer(), [1]);
    rows(false);
    // The lowest pair all the same; of some stored pairs another one, or none.
    as_it_should();
    the_same_in_either_order();
    let both = || exactly.iter().zip(edges()).filter(|(a, b)| *a != b);
    assert!(both().any(|(a, b)| a[1] == b[1]));
    assert!(both().any(|(a, b)| a[1] != b[1]));
    turns::use_rounded(false);
    exact();
}

/// The chosen clearances, in both orders, each with whether the rings meet.
fn clearances(exact: bool) {
    let mut told = Vec::new();
    for asked in stored::chosen_questions() {
        if let Question::Clearance(first, second) = &asked {
            let met = Question::Pair(first.clone(), second.clone()).answer()[1] == 1;
            told.push((f64::from_bits(asked.answer()[1]), met));
        }
    }
    let short = 3.925231146709438e-17;
    let (apart, together) = ((short, false), (0.0, true));
    let due = if exact {
        [apart, together]
    } else {
        [together, apart]
    };
    let due = [due[0], due[1], (0.0, !exact), (0.2, false)];
    assert_eq!(told, due.map(|row| [row; 2]).as_flattened());
}

/// Rows of docs/DIFFERENCES.md that the tests from C, Rust and Python ask:
/// places of points, and regions; and clearances.
fn rows(exact: bool) {
    clearances(exact);
    let pick = |one: u64, other: u64| if exact { one } else { other };
    let points: [(Ring, [f64; 2], u64); 4] = [
        (
            &[[0.1, 0.4], [0.2, 0.4], [0.3, 0.2]],
            [0.2, 0.3],
            pick(2, 1),
        ),
        (
            &[[0.0, 0.4], [0.3, 0.1], [0.3, 0.0]],
            [0.2, 0.2],
            pick(0, 1),
        ),
        (
            &[[0.1, 0.2], [0.1, 0.4], [0.4, 0.7]],
            [0.2, 0.5],
            pick(1, 2),
        ),
        (
            &[[0.1, 0.2], [0.0, 0.2], [0.7, 0.6]],
            [0.4, 0.4],
            pick(1, 0),
        ),
    ];
    for (ring, point, there) in points {
        assert_eq!(place(ring, point), there, "{ring:?} {point:?}");
    }
    let square = |side: f64| [[0.0, 0.0], [side, 0.0], [side, side], [0.0, side]];
    let regions: [(&[Ring], u64); 4] = [
        (
            &[
                &[[0.7, 0.4], [0.0, 0.6], [0.6, 0.0]],
                &[[0.1, 0.5], [0.5, 0.1], [0.5, 0.4]],
            ],
            pick(0, 11),
        ),
        (
            &[
                &[[-0.09, 0.02], [-0.72, -0.12], [-0.54, -0.93], [0.09, -0.79]],
                &[[-0.45, -0.06], [-0.48, -0.35], [-0.3, -0.31]],
            ],
            pick(11, 0),
        ),
        (
            &[
                &square(1.1),
                &[[0.7, 0.9], [0.4, 0.6], [0.8, 0.2]],
                &[[0.2, 0.9], [0.2, 0.8], [0.6, 0.3]],
            ],
            pick(0, 12),
        ),
        (
            &[
                &square(1.9),
                &[[1.5, 1.7], [0.3, 0.9], [0.4, 1.2]],
                &[[1.6, 1.5], [0.9, 1.3], [1.7, 0.5]],
            ],
            pick(12, 0),
        ),
    ];
    for (rings, number) in regions {
        let start = match number {
            0 => format!("ok,{},", rings.len()),
            11 => "no,11;ring=;wholes=0;".to_string(),
            _ => "no,12;ring=;wholes=0,1;".to_string(),
        };
        assert!(told(rings).starts_with(&start), "{} {rings:?}", told(rings));
    }
}
