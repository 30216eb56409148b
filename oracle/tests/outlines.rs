//! Questions about outlines and regions, and their answers.

mod cases;

use std::collections::BTreeSet;

use cases::Cases;
use oracle::answer::{answer_line, LEAST_EDGE};
use oracle::outlines::{turn_number, Question, Shape, Tally, KINDS};
use oracle::regions::{left_of, made, Given};
use oracle::{stored, turns, wrong};

const S: &[[f64; 2]] = &[[0.0, 0.0], [4.0, 0.0], [4.0, 4.0], [0.0, 4.0]];

fn numbers(ring: &[[f64; 2]]) -> Vec<f64> {
    ring.iter().flatten().copied().collect()
}

fn outline(ring: &[[f64; 2]]) -> Vec<u64> {
    Question::Outline(numbers(ring)).answer()
}

fn granted(ring: &[[f64; 2]]) -> Vec<u64> {
    let stored = numbers(ring).into_iter().map(f64::to_bits);
    let mut answer = vec![0, 0, 0, 0, 0, ring.len() as u64];
    answer.extend(stored);
    answer
}

fn shape(ring: &[[f64; 2]]) -> Shape {
    Shape {
        count: ring.len() as u64,
        numbers: numbers(ring),
    }
}

#[test]
fn e1_few() {
    assert_eq!(outline(&[]), [4, 0, 0, 0, 0, 0]);
    assert_eq!(outline(&[[1.0, 2.0], [1.0, 2.0]]), [4, 0, 1, 0, 0, 0]);
}

#[test]
fn e2_closed_e3_clockwise() {
    assert_eq!(outline(&[S[0], S[1], S[2], S[3], S[0]]), granted(S));
    assert_eq!(outline(&[S[0], S[3], S[2], S[1]]), granted(S));
}

#[test]
fn e4_flat_e5_e6_crossed() {
    let flat = [[0.0, 0.0], [1.0, 0.0], [2.0, 0.0]];
    assert_eq!(outline(&flat), [8, 0, 0, 0, 0, 0]);
    let crossed = [[0.0, 0.0], [4.0, 4.0], [4.0, 0.0], [0.0, 2.0]];
    assert_eq!(outline(&crossed), [9, 0, 0, 2, 0, 0]);
    let folded = [[0.0, 0.0], [4.0, 0.0], [4.0, 4.0], [4.0, 2.0], [0.0, 2.0]];
    assert_eq!(outline(&folded), [9, 0, 1, 2, 0, 0]);
    // Walked backwards: edge k is edge n − 1 − k.
    let back = [folded[0], folded[4], folded[3], folded[2], folded[1]];
    assert_eq!(outline(&back), [9, 0, 2, 3, 0, 0]);
}

#[test]
fn e7_containment() {
    let place = |point| Question::Contains(shape(S), point).answer();
    assert_eq!(place([2.0, 2.0]), [0, 0, 2]);
    assert_eq!(place([4.0, 2.0]), [0, 0, 1]);
    assert_eq!(place([5.0, 2.0]), [0, 0, 0]);
    assert_eq!(place([f64::NAN, f64::NAN]), [2, 0, 0]);
    assert_eq!(place([5.0, f64::INFINITY]), [2, 1, 0]);
}

/// The question of an offset of S.
fn of_square(outward: bool, distance: f64) -> Question {
    Question::Offset(outward, distance, shape(S))
}

/// The answer to an offset that is granted without an event.
fn pulled(ring: &[[f64; 2]]) -> Vec<u64> {
    let stored = numbers(ring).into_iter().map(f64::to_bits).collect();
    [vec![0; 8], vec![ring.len() as u64], stored].concat()
}

/// The drawn examples about offsets of S: side, distance, answer.
fn drawn_offsets() -> Vec<(bool, f64, Vec<u64>)> {
    let refused = |number: u64, float: f64, collapses| {
        vec![number, 0, 0, 0, float.to_bits(), collapses, 0, 0, 0]
    };
    let within = [[1.0, 1.0], [3.0, 1.0], [3.0, 3.0], [1.0, 3.0]];
    let about = [[-1.0, 5.0], [-1.0, -1.0], [5.0, -1.0], [5.0, 5.0]];
    vec![
        // E8.
        (false, 1.0, pulled(&within)),
        // E9.
        (false, 2.0, refused(16, 2.0, 0)),
        (false, 3.0, refused(16, 3.0, 1)),
        // E10.
        (true, 1.0, pulled(&about)),
        // E14.
        (false, -1.0, refused(14, -1.0, 0)),
        (false, f64::NAN, refused(13, 0.0, 0)),
        (false, 1e12, refused(16, 1e12, 1)),
        (false, -0.0, pulled(S)),
    ]
}

#[test]
fn e8_e9_e10_e14_offsets() {
    let lines: Vec<String> = stored::questions().map(|asked| asked.line()).collect();
    for (outward, distance, answer) in drawn_offsets() {
        let question = of_square(outward, distance);
        assert_eq!(question.answer(), answer, "{outward} {distance}");
        assert!(lines.contains(&question.line()), "{outward} {distance}");
    }
}

#[test]
fn an_offset_that_is_refused_by_its_shape() {
    let few = Question::Offset(true, f64::NAN, shape(&S[..2]));
    assert_eq!(few.answer(), [21, 0, 0, 0, 0, 0, 0, 0, 0]);
    assert_eq!(few.fields()[..3], [1, f64::NAN.to_bits(), 2]);
}

#[test]
fn e12_range() {
    let above = f64::from_bits(1e9_f64.to_bits() + 1);
    let ring = [[0.0, 0.0], [1e9, 0.0], [0.0, 1e9]];
    assert_eq!(outline(&ring), granted(&ring));
    let past = [[0.0, 0.0], [1e9, 0.0], [0.0, above]];
    assert_eq!(outline(&past), [5, 0, 0, 0, above.to_bits(), 0]);
}

#[test]
fn the_square() {
    let answer = |question: Question| question.answer();
    let float = f64::to_bits;
    assert_eq!(answer(Question::Outline(vec![1.0])), [1, 0, 0, 0, 0, 0]);
    assert_eq!(
        answer(Question::Outline(vec![1.0, f64::NAN])),
        [2, 0, 1, 0, 0, 0]
    );
    assert_eq!(
        answer(Question::Nearest(shape(S), [5.0, 2.0])),
        [0, 0, float(1.0), float(4.0), float(2.0)]
    );
    assert_eq!(
        answer(Question::Nearest(shape(S), [f64::MAX, f64::MAX])),
        [0, 0, 0, float(f64::MAX), float(f64::MAX)]
    );
    assert_eq!(
        answer(Question::Measures(shape(S))),
        [0, float(16.0), float(0.0016), float(16.0), float(4.0)]
    );
    let beside = [[6.0, 0.0], [8.0, 0.0], [8.0, 1.0]];
    assert_eq!(
        answer(Question::Clearance(shape(S), shape(&beside))),
        [0, float(2.0)]
    );
    let touching = [[4.0, 1.0], [8.0, 0.0], [8.0, 1.0]];
    assert_eq!(
        answer(Question::Clearance(shape(S), shape(&touching))),
        [0, 0]
    );
    assert_eq!(
        answer(Question::Edge(shape(S), 3)),
        [0, 0, float(4.0), 0, 0]
    );
    assert_eq!(answer(Question::Edge(shape(S), 4)), [0; 5]);
    assert_eq!(answer(Question::Edge(shape(&S[..2]), 0)), [21, 0, 0, 0, 0]);
    assert_eq!(
        answer(Question::Point([0.0, 0.0], [3.0, 4.0])),
        [0, 0, 0, 0, float(5.0)]
    );
    assert_eq!(
        answer(Question::Area(1.0)),
        [
            0,
            0,
            float(1.0),
            float(0.0001),
            0,
            0,
            float(1e4),
            float(1.0)
        ]
    );
    assert_eq!(
        answer(Question::Area(-1.0)),
        [14, float(-1.0), 0, 0, 14, float(-1e4), 0, 0]
    );
    assert_eq!(
        answer(Question::Area(1e305)),
        [0, 0, float(1e305), float(1e305 / 1e4), 2, 0, 0, 0]
    );
}

#[test]
fn a_line() {
    let line = Question::Point([0.0, -0.0], [3.0, 4.0]).line();
    assert_eq!(line, "0000000000000006,0000000000000005,0000000000000000,0000000000000000,0000000000000000,0000000000000000,4014000000000000,0000000000000000,8000000000000000,4008000000000000,4010000000000000");
}

#[test]
fn the_stored_list_reaches_every_number() {
    let mut tally = Tally::default();
    for question in stored::questions() {
        tally.add(&question);
    }
    let reached: [&[usize]; KINDS] = [
        &[0, 1, 2, 4, 5, 6, 7, 8, 9, 27],
        &[0, 2, 21],
        &[0, 2, 21],
        &[0, 21],
        &[0, 21],
        &[0, 21],
        &[0, 2],
        &[0, 2, 14],
        &[0, 4, 5, 13, 14, 15, 16, 17, 18, 21],
        &[0, 1, 2, 3, 4, 5, 6, 7, 8, 9, 10, 11, 12, 27],
        &[
            0, 1, 2, 3, 4, 5, 6, 7, 8, 9, 10, 11, 12, 13, 14, 15, 16, 17, 18, 19, 27,
        ],
        &[0, 2, 21],
        &[0, 1, 2, 3],
        &[0, 1],
        &[0, 1],
        &[0, 21],
        &[0, 4, 5, 6, 13, 14, 15, 16, 17, 18, 19, 21],
    ];
    for (kind, numbers) in tally.numbers.iter().enumerate() {
        for (number, count) in numbers.iter().enumerate() {
            let reached = reached[kind].contains(&number);
            assert_eq!(*count > 0, reached, "kind {kind}, number {number}");
        }
    }
}

/// What an outline's question and answer are an instance of.
fn outline_cases(numbers: &[f64], answer: &[u64]) -> Vec<(&'static str, bool)> {
    let above = f64::from_bits(1e9_f64.to_bits() + 1);
    let ring: Vec<&[f64]> = numbers.chunks_exact(2).collect();
    let number = answer[0];
    let (first, last) = (ring.first(), ring.last());
    let closed = ring.len() > 1 && first == last;
    let twice = closed && ring.len() > 2 && ring[ring.len() - 2] == ring[0];
    let stored = answer.get(8..10);
    let given = ring.get(1).map(|p| [p[0].to_bits(), p[1].to_bits()]);
    let same = stored == given.as_ref().map(|p| &p[..]);
    let bad = |k: usize| ring.get(k).is_some_and(|p| p.iter().any(|x| x.abs() > 1e9));
    let about = |k: usize, axis: usize| ring[k % ring.len()][axis] - ring[0][axis];
    let twice_area: f64 = (0..ring.len())
        .map(|k| about(k, 0) * about(k + 1, 1) - about(k, 1) * about(k + 1, 0))
        .sum();
    let range = |x: f64| numbers.contains(&x);
    vec![
        ("no vertices", ring.is_empty()),
        ("1 vertex", ring.len() == 1),
        ("2 vertices", ring.len() == 2),
        ("3 vertices", ring.len() == 3 && number == 0),
        ("127 vertices", answer[5] == 127),
        ("128 vertices", answer[5] == 128),
        ("128 vertices, closed", answer[5] == 128 && closed),
        ("129 vertices", number == 6 && answer[2..4] == [129, 128]),
        ("130 vertices", number == 6 && answer[2..4] == [130, 128]),
        ("a bad vertex 129", number == 5 && bad(128)),
        ("a bad vertex 130", number == 6 && bad(129)),
        ("found 0", number == 4 && answer[2] == 0),
        ("found 1", number == 4 && answer[2] == 1),
        ("found 2", number == 4 && answer[2] == 2),
        ("counter-clockwise", number == 0 && same),
        ("clockwise", number == 0 && !same),
        ("closed once", number == 0 && closed),
        ("closed twice", number == 7 && twice),
        (
            "a zero with a sign",
            number == 0 && numbers.iter().any(|x| x.to_bits() == 1 << 63),
        ),
        (
            "zeros of both signs, one point",
            number == 7 && numbers.iter().any(|x| x.to_bits() == 1 << 63),
        ),
        ("the largest coordinate", number == 0 && range(1e9)),
        ("the least coordinate", number == 0 && range(-1e9)),
        (
            "the next above",
            number == 5 && answer[4] == above.to_bits(),
        ),
        (
            "the next below",
            number == 5 && answer[4] == (-above).to_bits(),
        ),
        ("neighbours meet", number == 9 && answer[3] == answer[2] + 1),
        (
            "first and last meet",
            number == 9 && answer[2] == 0 && answer[3] as usize == ring.len() - 1,
        ),
        (
            "crossed, counter-clockwise",
            number == 9 && twice_area > 0.0,
        ),
        ("crossed, clockwise", number == 9 && twice_area < 0.0),
        ("edges apart meet", number == 9 && answer[3] > answer[2] + 1),
        (
            "far from the origin",
            number == 0 && numbers.iter().all(|x| x.abs() > 1e7),
        ),
        (
            "odd and not finite",
            number == 1 && numbers.iter().any(|x| !x.is_finite()),
        ),
        ("a hairline", number == 27 && !closed),
        ("a hairline, closed", number == 27 && closed),
        ("a hairline in 128", number == 27 && ring.len() >= 127),
        ("a hairline in three", number == 27 && ring.len() == 3),
        ("just that long", number == 0 && range(LEAST_EDGE)),
        ("a hairline of no area", number == 27 && twice_area == 0.0),
    ]
}

#[test]
fn the_stored_list_reaches_every_case_of_an_outline() {
    let mut cases = Cases::default();
    let (mut least, mut most) = (f64::INFINITY, 0.0_f64);
    for question in stored::questions() {
        let Question::Outline(numbers) = &question else {
            continue;
        };
        let answer = question.answer();
        cases.add(outline_cases(numbers, &answer));
        // Triangles of the family about the relative bound.
        if numbers.len() == 6 && [0, 8].contains(&answer[0]) {
            let [a, b, c] = [0, 2, 4].map(|k| [numbers[k], numbers[k + 1]]);
            let area = ((b[0] - a[0]) * (c[1] - a[1]) - (b[1] - a[1]) * (c[0] - a[0])).abs() / 2.0;
            let wide = |k: usize| a[k].max(b[k]).max(c[k]) - a[k].min(b[k]).min(c[k]);
            let part = area / (wide(0) * wide(0) + wide(1) * wide(1)) / 1e-12;
            if answer[0] == 0 {
                least = least.min(part);
            } else {
                most = most.max(part);
            }
        }
    }
    assert_eq!(cases.missed(), [""; 0]);
    assert!(least < 1.01 && most > 0.99, "{least} {most}");
}

/// What a question about a shape or numbers, and its answer, are an instance of.
fn other_cases(question: &Question, answer: &[u64]) -> Vec<(&'static str, bool)> {
    let far = |p: &[f64; 2]| p.iter().any(|x| x.abs() >= 1e150);
    let subnormal = |p: &[f64; 2]| p.iter().any(|x| x.is_subnormal());
    let on_vertex = |shape: &Shape, p: &[f64; 2]| shape.numbers.chunks_exact(2).any(|v| v == p);
    let level = |shape: &Shape, p: &[f64; 2]| {
        let mut vertices = shape.numbers.chunks_exact(2);
        vertices.any(|v| v[1] == p[1] && v[0] != p[0])
    };
    match question {
        Question::Outline(_) => vec![],
        Question::Contains(shape, p) => vec![
            ("inside", answer[2] == 0),
            ("on the boundary", answer[2] == 1),
            ("outside", answer[0] == 0 && answer[2] == 2),
            ("on a vertex", answer[2] == 1 && on_vertex(shape, p)),
            (
                "level with a vertex, inside",
                answer[2] == 0 && level(shape, p),
            ),
            (
                "level with a vertex, outside",
                answer[0] == 0 && answer[2] == 2 && level(shape, p),
            ),
            ("far, contained or not", answer[0] == 0 && far(p)),
            ("a subnormal point", answer[0] == 0 && subnormal(p)),
            ("east not finite", answer[..2] == [2, 0]),
            ("north not finite", answer[..2] == [2, 1]),
            (
                "21 before 2",
                answer[0] == 21 && p.iter().any(|x| !x.is_finite()),
            ),
            (
                "numbers past the vertices",
                answer[0] == 0 && shape.numbers.len() as u64 > 2 * shape.count,
            ),
            (
                "too few numbers",
                answer[0] == 21 && (shape.numbers.len() as u64) < shape.count.saturating_mul(2),
            ),
            ("2 vertices", answer[0] == 21 && shape.count == 2),
            ("129 vertices", answer[0] == 21 && shape.count == 129),
        ],
        Question::Nearest(shape, p) => vec![
            (
                "a distance of 0",
                answer[0] == 0 && answer[2] == 0 && !far(p),
            ),
            (
                "an infinite distance",
                answer[0] == 0 && answer[2] == 0 && far(p),
            ),
            ("a large distance", answer[2] > 1e150_f64.to_bits()),
            ("a subnormal distance", answer[2] > 0 && answer[2] < 1 << 52),
            (
                "the foot on a vertex",
                answer[0] == 0 && on_vertex(shape, &[3, 4].map(|k| f64::from_bits(answer[k]))),
            ),
            ("nearest, not finite", answer[0] == 2),
        ],
        Question::Measures(shape) => vec![
            ("measures of 128", answer[0] == 0 && shape.count >= 127),
            ("measures of 3", answer[0] == 0 && shape.count == 3),
        ],
        Question::Clearance(first, second) => vec![
            ("clear", answer[1] > 0),
            ("not clear", answer[0] == 0 && answer[1] == 0),
            ("the first improper", answer[0] == 21 && second.count >= 3),
            (
                "the second improper",
                answer[0] == 21
                    && first.numbers.len() as u64 == first.count.wrapping_mul(2)
                    && first.numbers.iter().all(|x| x.abs() <= 1e9),
            ),
        ],
        Question::Edge(shape, place) => vec![
            ("the last edge", answer[0] == 0 && *place + 1 == shape.count),
            (
                "past the last edge",
                answer[0] == 0 && *place >= shape.count,
            ),
            ("the largest place", answer[0] == 0 && *place == u64::MAX),
        ],
        Question::Point(p, q) => vec![
            ("apart", answer[4] > 0),
            (
                "infinitely far",
                answer[0] == 0 && answer[2] == 0 && answer[4] == 0 && p != q,
            ),
            ("first point's east", answer[..2] == [2, 0]),
            ("first point's north", answer[..2] == [2, 1]),
            ("second point", answer[2] == 2 && answer[0] == 0),
        ],
        Question::Area(_) => vec![
            ("no area", answer[..] == [0; 8]),
            ("negative, carried", answer[0] == 14 && answer[1] != 0),
            ("only hectares refused", answer[0] == 0 && answer[4] == 2),
            ("an area not finite", answer[0] == 2),
        ],
        Question::Offset(outward, distance, shape) => {
            offset_cases(*outward, *distance, shape, answer)
        }
        Question::Region(_) | Question::RegionInset(..) | Question::RegionPoint(..) => {
            region_cases(question, answer)
        }
        Question::Again(distance, given) => again_cases(*distance, given, answer),
        Question::Turn(_) | Question::Meet(_) | Question::Fold(_) => point_cases(question, answer),
        // In tests/pairs.rs.
        Question::Pair(..) => vec![],
    }
}

/// The turn as it is rounded: 0, 1, 2 or 3 as the answer has it.
fn rounded_turn([a, b, c]: [[f64; 2]; 3]) -> u64 {
    turn_number(turns::rounded(a, b, c))
}

/// What a question about points and its answer are an instance of.
fn point_cases(question: &Question, answer: &[u64]) -> Vec<(&'static str, bool)> {
    let fields = question.fields();
    let numbers: Vec<f64> = fields.iter().map(|bits| f64::from_bits(*bits)).collect();
    let finite = numbers.iter().all(|x| x.is_finite());
    let tiny = numbers.iter().all(|x| x.is_subnormal() || *x == 0.0);
    let huge = numbers.iter().any(|x| x.is_finite() && x.abs() > 1e307);
    let told = answer[0];
    match question {
        Question::Turn(points) => {
            let rounded = rounded_turn(*points);
            let [a, b, c] = *points;
            let same = a == b || b == c || c == a;
            vec![
                ("a turn, straight", told == 0 && !same),
                ("a turn, one point twice", told == 0 && same),
                ("straight, rounded to a side", told == 0 && rounded > 0),
                ("left, rounded to straight", told == 1 && rounded == 0),
                ("right, rounded to straight", told == 2 && rounded == 0),
                ("left, rounded to right", told == 1 && rounded == 2),
                ("right, rounded to left", told == 2 && rounded == 1),
                ("no number where it is rounded", told < 3 && rounded == 3),
                ("a turn, tiny", tiny && [1, 2].contains(&told)),
                ("a turn, tiny and straight", tiny && told == 0 && !same),
                ("a turn, huge", huge && [1, 2].contains(&told)),
                ("a turn, NaN", numbers.iter().any(|x| x.is_nan())),
                ("a turn, infinite", numbers.iter().any(|x| x.is_infinite())),
                ("a turn, -0", fields.contains(&(1 << 63))),
            ]
        }
        Question::Meet([p, q]) => {
            let [p1, p2] = *p;
            let [q1, q2] = *q;
            let turns = [[q1, q2, p1], [q1, q2, p2], [p1, p2, q1], [p1, p2, q2]];
            let exact = turns.map(|three| Question::Turn(three).answer()[0]);
            let sides = turns.map(rounded_turn);
            let point = p1 == p2 || q1 == q2;
            let flat = exact == [0; 4] && finite;
            vec![
                ("crossed", told == 1 && !exact.contains(&0)),
                ("touching", told == 1 && exact.contains(&0) && !flat),
                ("on one line, meeting", told == 1 && flat && !point),
                ("on one line, apart", told == 0 && flat && !point),
                ("a point on a segment", told == 1 && point && p != q),
                ("a point apart", told == 0 && point && finite),
                ("meeting, other turns rounded", told == 1 && exact != sides),
                ("apart, other turns rounded", told == 0 && exact != sides),
                ("segments, not finite", !finite),
                ("segments, huge", huge && told == 1),
                ("segments, tiny", tiny && told == 1),
            ]
        }
        Question::Fold(points) => {
            let exact = Question::Turn(*points).answer()[0];
            let rounded = rounded_turn(*points);
            vec![
                ("folded", told == 1),
                ("straight ahead", told == 0 && exact == 0),
                ("folded, rounded to a side", told == 1 && rounded > 0),
                ("aside, rounded to straight", exact > 0 && rounded == 0),
                ("a fold, not finite", !finite),
                ("a fold, huge", huge),
                ("a fold, tiny", tiny),
            ]
        }
        _ => vec![],
    }
}

/// What an offset's question and answer are an instance of.
fn offset_cases(
    outward: bool,
    distance: f64,
    shape: &Shape,
    answer: &[u64],
) -> Vec<(&'static str, bool)> {
    let [number, ring, first, _, _, collapses, divides, joins, count] = answer[..9] else {
        panic!("nine fields and the numbers");
    };
    let events = collapses + divides + joins;
    let (granted, inward) = (number == 0, !outward);
    let moved = granted && distance > 0.0;
    let given = |vertices: u64| moved && shape.count == vertices;
    let limit = |steps: i64| f64::from_bits(1e12_f64.to_bits().wrapping_add_signed(steps));
    let extremes: Vec<f64> = shape.numbers.iter().map(|x| x.abs()).collect();
    vec![
        ("13 of a NaN", number == 13 && distance.is_nan()),
        ("13 of an infinity", number == 13 && distance.is_infinite()),
        ("13, the next above", number == 13 && distance == limit(1)),
        ("the largest distance", distance == 1e12 && number == 16),
        ("the largest, outset", distance == 1e12 && number == 5),
        ("the next below", distance == limit(-1) && number != 13),
        ("14, below -1e12", number == 14 && distance < -1e12),
        ("14, subnormal", number == 14 && distance.is_subnormal()),
        ("14, outset", number == 14 && outward),
        ("by 0", granted && distance.to_bits() == 0),
        ("by -0", granted && distance.to_bits() == 1 << 63),
        ("by 0, outset", granted && distance == 0.0 && outward),
        (
            "17 by a subnormal distance",
            number == 17 && distance.is_subnormal(),
        ),
        ("15 at a split", number == 15 && first == 129 && events == 0),
        (
            "15 after an event",
            number == 15 && first == 129 && events > 0,
        ),
        ("16, no event", number == 16 && events == 0),
        ("16 after collapses", number == 16 && collapses > 9),
        ("16 after a division", number == 16 && divides > 0),
        ("17, no event", number == 17 && events == 0),
        ("17 after a collapse", number == 17 && collapses > 0),
        ("17 after a division", number == 17 && divides > 0),
        ("17, outset", number == 17 && outward),
        ("18", number == 18 && first == 387 && events == 387),
        ("4 of a piece", number == 4 && first == 2 && ring == 0),
        ("4 of a later piece", number == 4 && ring > 0),
        ("5 of a piece, inset", number == 5 && inward),
        ("5 of a piece, outset", number == 5 && outward),
        ("5 of a later piece", number == 5 && ring > 0),
        ("21, few", number == 21 && shape.count < 3),
        ("21, many", number == 21 && shape.count > 128),
        (
            "21, the count huge",
            number == 21 && shape.count == u64::MAX,
        ),
        (
            "21, a number out of range",
            number == 21 && (3..=128).contains(&shape.count) && extremes.iter().any(|x| *x > 1e9),
        ),
        (
            "21, too few numbers",
            number == 21 && (shape.numbers.len() as u64) < shape.count.saturating_mul(2),
        ),
        ("21 before 13", number == 21 && !distance.is_finite()),
        ("21 before 14", number == 21 && distance < 0.0),
        (
            "an inset, many collapses",
            moved && inward && collapses > 30,
        ),
        ("an inset, a division", moved && inward && divides > 0),
        ("an inset, a join", moved && inward && joins > 0),
        ("an inset, no event", moved && inward && events == 0),
        ("an outset, collapses", moved && outward && collapses > 3),
        ("an outset, a division", moved && outward && divides > 0),
        ("an outset, no event", moved && outward && events == 0),
        ("8 vertices", given(8)),
        ("32 vertices", given(32)),
        ("127 vertices", given(127)),
        ("128 vertices", given(128)),
        ("128 vertices, outset", given(128) && outward),
        ("128 vertices left", moved && count == 128),
        ("fewer vertices left", moved && count < shape.count),
        (
            "offset, numbers past the vertices",
            moved && shape.numbers.len() as u64 > 2 * shape.count,
        ),
        (
            "at the limits of the coordinates",
            moved && extremes.iter().all(|x| *x > 9e8),
        ),
    ]
}

#[test]
fn the_stored_list_reaches_every_case_of_the_rest() {
    let mut cases = Cases::default();
    for question in stored::questions() {
        cases.add(other_cases(&question, &question.answer()));
    }
    assert_eq!(cases.missed(), [""; 0]);
}

/// What a question about a region and its answer are an instance of.
fn region_cases(question: &Question, answer: &[u64]) -> Vec<(&'static str, bool)> {
    let number = answer[0];
    match question {
        Question::Region(given) => vec![
            ("a sum past the largest number", {
                let mut sum = Some(0_u64);
                for length in &given.lengths {
                    sum = sum.and_then(|sum| sum.checked_add(*length));
                }
                number == 3 && sum.is_none()
            }),
            ("no ring", number == 3 && given.lengths.is_empty()),
            (
                "a hole's refusal",
                (4..=9).contains(&number) && answer[1] > 0,
            ),
            ("eight holes", number == 0 && answer[5] == 9),
        ],
        Question::RegionInset(distance, given) => {
            let edges: u64 = given.lengths.iter().sum();
            let events: u64 = answer[5..8].iter().sum();
            let of_piece = |k| number == k && events > 0;
            vec![
                ("15 while loading", number == 15 && edges > 128),
                ("15 at a split", number == 15 && edges <= 128),
                ("4 of a piece", of_piece(4)),
                ("5 of a piece", of_piece(5)),
                ("6 of a piece", of_piece(6)),
                ("accepted with joins", number == 0 && answer[7] > 0),
                ("accepted with divisions", number == 0 && answer[6] > 0),
                ("accepted with holes", number == 0 && answer[8] > 1),
                ("an inset by 0", number == 0 && *distance == 0.0),
                ("refused after events", number == 17 && events > 0),
            ]
        }
        Question::RegionPoint(given, _, changed) => vec![
            ("inside, with holes", {
                number == 0 && answer[2] == 0 && given.lengths.len() > 1
            }),
            ("on the boundary", number == 0 && answer[2] == 1),
            ("outside", number == 0 && answer[2] == 2),
            (
                "a field that nothing reads",
                number == 0 && changed.place > 0,
            ),
            ("too many holes", number == 21 && changed.place == 2),
            ("a hole's number", number == 21 && changed.place >= 512),
        ],
        _ => vec![],
    }
}

/// The rings of a region, told from its first vertex.
fn from_first(given: &Given) -> Vec<Vec<[f64; 2]>> {
    let first = [given.numbers[0], given.numbers[1]];
    let mut vertices = given.numbers.chunks_exact(2);
    let vertex = |p: &[f64]| [p[0] - first[0], p[1] - first[1]];
    let ring = |count: &u64| {
        vertices
            .by_ref()
            .take(*count as usize)
            .map(vertex)
            .collect()
    };
    given.lengths.iter().map(ring).collect()
}

/// The length of the shortest edge.
fn least_edge(rings: &[Vec<[f64; 2]>]) -> f64 {
    let edges = rings.iter().flat_map(|ring| {
        let next = ring.iter().cycle().skip(1);
        ring.iter().zip(next)
    });
    let lengths = edges.map(|(a, b)| (b[0] - a[0]).hypot(b[1] - a[1]));
    lengths.fold(f64::INFINITY, f64::min)
}

/// What a question about the inset of a region handed in, and its answer, are
/// an instance of.
fn again_cases(distance: f64, given: &Given, answer: &[u64]) -> Vec<(&'static str, bool)> {
    let number = answer[0];
    if number == 21 {
        let rings = given.lengths.len();
        let sum = given
            .lengths
            .iter()
            .try_fold(0, |sum: u64, n| sum.checked_add(*n));
        let fits = sum.is_some_and(|sum| 2 * sum == given.numbers.len() as u64);
        return vec![
            ("handed in, no ring", rings == 0),
            ("handed in, many holes", rings > 9 && fits),
            ("handed in, lengths that do not add up", !fits && rings > 0),
            ("handed in, a sum past the largest", sum.is_none()),
            ("handed in, an odd count", given.numbers.len() % 2 == 1),
            (
                "handed in, few",
                fits && given.lengths.iter().any(|n| *n < 3),
            ),
            (
                "handed in, a wide hole",
                fits && given.lengths.iter().skip(1).any(|n| *n > 32),
            ),
            (
                "handed in, a wide outer ring",
                fits && given.lengths.first() > Some(&128),
            ),
            (
                "handed in, not finite",
                fits && given.numbers.iter().any(|x| !x.is_finite()),
            ),
            (
                "handed in, out of range",
                fits && given.numbers.iter().any(|x| x.is_finite() && x.abs() > 1e9),
            ),
        ];
    }
    let edges: u64 = given.lengths.iter().sum();
    let events: u64 = answer[5..8].iter().sum();
    let rings = from_first(given);
    let short = made(given).is_err_and(|refusal| refusal.number == 27);
    let moved = number == 0 && distance > 0.0;
    let loading = number == 16 && least_edge(&rings) == 0.0;
    let holes = given.lengths.len() > 1;
    vec![
        ("a hairline, by 0", number == 0 && short && distance == 0.0),
        ("a hairline inset", moved && short && !holes),
        ("a hairline inset, with holes", moved && short && holes),
        (
            "a hairline left again",
            moved && short && answer[8] > 0 && {
                let left = left_of(given, distance).expect("a region");
                made(&left).is_err_and(|refusal| refusal.number == 27)
            },
        ),
        ("no hairline, inset", moved && !short),
        ("16 while loading", loading && edges <= 128),
        (
            "16 while loading, past the last slot",
            loading && edges > 128,
        ),
        ("15 while loading, handed in", number == 15 && edges > 128),
        ("15 at a split, handed in", number == 15 && edges <= 128),
        ("16 after events, handed in", number == 16 && events > 0),
        ("17 of a hairline", number == 17 && short),
        ("18, handed in", number == 18 && events == 387),
        ("4 of a piece, handed in", number == 4),
        ("5 of a piece, handed in", number == 5),
        ("6 of a piece, handed in", number == 6),
        ("19, handed in", number == 19),
        ("13, handed in", number == 13),
        ("14, handed in", number == 14),
        ("joins, handed in", moved && answer[7] > 0),
        ("divisions, handed in", moved && answer[6] > 0),
        ("collapses, handed in", moved && answer[5] > 0),
    ]
}

/// E11: a square of side 10 with a hole.
#[test]
fn e11_regions() {
    let outer = [[0.0, 0.0], [10.0, 0.0], [10.0, 10.0], [0.0, 10.0]];
    let hole = [[4.0, 4.0], [6.0, 4.0], [6.0, 6.0], [4.0, 6.0]];
    let given = Given {
        lengths: vec![4, 4],
        numbers: [numbers(&outer), numbers(&hole)].concat(),
    };
    let rings: [[[f64; 2]; 4]; 2] = [
        [[1.0, 1.0], [9.0, 1.0], [9.0, 9.0], [1.0, 9.0]],
        [[3.0, 7.0], [3.0, 3.0], [7.0, 3.0], [7.0, 7.0]],
    ];
    let stored = rings.as_flattened().as_flattened().iter();
    let mut answer = vec![0; 8];
    answer.extend([2, 4, 4, 0, 0, 0, 0, 0, 0, 0]);
    answer.extend(stored.map(|x| x.to_bits()));
    assert_eq!(Question::RegionInset(1.0, given.clone()).answer(), answer);
    let refused = Question::RegionInset(2.0, given).answer();
    assert_eq!(refused[0], 17);
    assert_eq!(refused[4], 2.0_f64.to_bits());
}

/// A file of a program that reads a stored list.
fn of_program(name: &str) -> Vec<u8> {
    let path = format!("{}/../crates/{name}", env!("CARGO_MANIFEST_DIR"));
    std::fs::read(path).expect("a file of the program")
}

#[test]
fn the_stored_lists_are_those_that_the_programs_read() {
    let replayed = stored::replayed().join("\n") + "\n";
    for (name, made) in [
        ("replay/stdin", replayed.into_bytes()),
        ("replay/stdout", stored::counts().into_bytes()),
        ("lizardwire/stdin", stored::jobs()),
        ("lizardwire/stdout", stored::answers().into_bytes()),
    ] {
        assert!(made == of_program(name), "tools/stored makes {name} again");
    }
}

#[test]
fn the_stored_list_fits_the_replay() {
    for line in stored::replayed() {
        let fields = (line.len() + 1) / 17;
        assert!(fields <= 1100, "{fields}");
    }
    let bytes = of_program("replay/stdin").len();
    assert!(bytes < 4_194_304, "{bytes}");
}

/// Of each kind every field of an answer is wrong in some line; the rest of the
/// line is that of the right one.
#[test]
fn wrong_answers_are_wrong() {
    let lines = wrong::lines();
    for asked in wrong::asked() {
        let right = asked.line();
        let fields: Vec<&str> = right.split(',').collect();
        for place in 2..2 + asked.answer().len() {
            let wrong = lines.iter().filter(|(kind, line)| {
                let other: Vec<&str> = line.split(',').collect();
                *kind == Some(asked.kind())
                    && other.len() == fields.len()
                    && (0..fields.len()).all(|k| (k == place) == (other[k] != fields[k]))
            });
            assert_eq!(wrong.count(), 1, "field {place} of {right}");
        }
    }
    let told = |asked: &Question| (asked.kind(), asked.answer()[0] > 0);
    let kinds: Vec<(usize, bool)> = wrong::asked().iter().map(told).collect();
    for kind in (0..KINDS).flat_map(|kind| [(kind, false), (kind, true)]) {
        assert!(kinds.contains(&kind), "{kind:?}");
    }
}

/// The chosen point of a region lies on the hole's first edge, to the last bit,
/// and is told outside, at distance 0.
#[test]
fn a_point_on_a_hole_told_outside() {
    let asked = stored::chosen_questions();
    let Some(Question::RegionPoint(given, point, _)) = asked.last() else {
        panic!("a point of a region");
    };
    let vertex = |k: usize| [given.numbers[2 * k], given.numbers[2 * k + 1]];
    let (from, to) = (vertex(3), vertex(4));
    assert_eq!(turns::exact(from, to, *point), 0.0);
    assert!((0..2).all(|axis| from[axis] < point[axis] && point[axis] < to[axis]));
    assert_eq!(asked[asked.len() - 1].answer()[..4], [0, 0, 0, 0]);
}

/// chosen.jobs: what it is, then words about each place with its jobs.
#[test]
fn the_chosen_jobs_are_all_there() {
    let blocks = include_str!("../chosen.jobs").split("\n\n").skip(1);
    let blocks: Vec<(&str, &str)> = blocks.filter_map(|block| block.split_once('\n')).collect();
    assert_eq!(blocks.len(), 35);
    for (words, jobs) in blocks {
        assert!(words.starts_with("# ") && !jobs.contains('#'), "{words}");
        let jobs: BTreeSet<&str> = jobs.lines().collect();
        assert!(jobs.len() >= 4, "{words}");
        let chosen = |job: &&str| match job.strip_prefix(stored::GIVEN) {
            Some(given) => stored::chosen_given().any(|line| line == given.as_bytes()),
            None => stored::chosen().any(|line| line == job.as_bytes()),
        };
        assert!(jobs.iter().all(chosen), "{words}");
        // A job has a hairline in the blocks about 27 alone.
        let of_27 = words.starts_with("# An edge below") || words.starts_with("# 27");
        let refused = |job: &&&str| answer_line(job.as_bytes()).line() == "no,27";
        assert!(of_27 || jobs.iter().filter(refused).count() == 0, "{words}");
    }
    let given = |line: &[u8]| answer_line(line).line() == "no,27";
    assert!(stored::chosen_given().all(given));
}

#[test]
fn the_stored_jobs_reach_every_number() {
    let answers = stored::answers();
    for number in (1..=19).chain([22, 27]) {
        let answer = format!("no,{number}");
        let count = answers.lines().filter(|line| **line == answer).count();
        assert!(count >= 12, "{number}: {count}");
    }
    let accepted = answers.lines().filter(|line| line.starts_with("ok,"));
    assert!(accepted.count() >= 100);
}

#[test]
fn the_stored_jobs_cut_a_line_and_fill_the_output() {
    let jobs = stored::jobs();
    let (before, after) = jobs.split_at(stored::CUT);
    let lf = |byte: &u8| *byte == b'\n';
    let from = before.iter().rposition(lf).expect("a line before") + 1;
    let to = after.iter().position(lf).expect("its end");
    let cut = [&before[from..], &after[..to]].concat();
    assert!(from < stored::CUT && to > 0);
    assert!(answer_line(&cut).line().starts_with("ok,1,4,"));
    // In the block that begins there: empty lines, with two blocks of answers.
    assert!(after.len() <= stored::BLOCK);
    assert!(after[to..].starts_with(&vec![b'\n'; stored::EMPTY + 1]));
    assert!("no,22\n".len() * stored::EMPTY > 2 * stored::BLOCK);
    // The last line has no LF.
    assert_eq!(jobs.last(), Some(&b'0'));
}
