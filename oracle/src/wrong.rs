//! Questions stored with an answer that is wrong on purpose: a comparison that
//! cannot fail shows by them.
//!
//! Of a question of each kind, granted and refused, or answered with 0 and with
//! another number, every field of the answer is wrong once, the others being
//! right; and once each it has a field too many and one too few. Pairs of rings,
//! clearances and short edges have the answers of other readings as well. Some
//! lines cannot be read at all.

use crate::outlines::{Question, Shape, KINDS};
use crate::regions::{Changed, Given};
use crate::stored::{COLLAR, SLEEVE};

/// A triangle, and a square of side 10.
const TRIANGLE: &[f64] = &[0.0, 0.0, 4.0, 0.0, 0.0, 3.0];
const SQUARE: &[f64] = &[0.0, 0.0, 10.0, 0.0, 10.0, 10.0, 0.0, 10.0];

/// A hole of it with a short edge.
const HAIRLINE: &[f64] = &[4.0, 4.0, 4.0 + 9e-7, 4.0, 5.0, 5.0];

fn shape(numbers: &[f64]) -> Shape {
    Shape {
        count: numbers.len() as u64 / 2,
        numbers: numbers.to_vec(),
    }
}

/// The square with a hole, from (4, 4) on.
fn given(hole: &[f64]) -> Given {
    Given {
        lengths: vec![4, hole.len() as u64 / 2],
        numbers: [SQUARE, hole].concat(),
    }
}

/// Questions of each kind, granted and refused.
pub fn asked() -> Vec<Question> {
    let triangle = || shape(TRIANGLE);
    let far = [20.0, 0.0, 24.0, 0.0, 20.0, 3.0];
    let hole = [4.0, 4.0, 6.0, 4.0, 6.0, 6.0, 4.0, 6.0];
    let crossed = vec![0.0, 0.0, 4.0, 4.0, 4.0, 0.0, 0.0, 2.0];
    vec![
        Question::Outline(TRIANGLE.to_vec()),
        // 9 with two edges, and 5 with the value.
        Question::Outline(crossed),
        Question::Outline(vec![0.0, 0.0, 2e9, 0.0, 0.0, 1.0]),
        Question::Outline(vec![0.0, 0.0, 9e-7, 0.0, 4.0, 4.0]),
        Question::Contains(triangle(), [1.0, 1.0]),
        Question::Contains(triangle(), [1.0, f64::NAN]),
        Question::Nearest(triangle(), [5.0, 1.0]),
        Question::Nearest(triangle(), [5.0, f64::NAN]),
        Question::Measures(triangle()),
        Question::Measures(shape(&TRIANGLE[..4])),
        Question::Clearance(triangle(), shape(&far)),
        Question::Clearance(triangle(), shape(&far[..4])),
        Question::Edge(triangle(), 1),
        Question::Edge(shape(&TRIANGLE[..4]), 1),
        Question::Point([1.0, 2.0], [4.0, 6.0]),
        Question::Point([f64::NAN, 2.0], [4.0, f64::INFINITY]),
        Question::Area(2.5),
        Question::Area(-1.0),
        Question::Offset(false, 0.5, triangle()),
        Question::Offset(true, 0.5, triangle()),
        // 16 with the distance, after a collapse.
        Question::Offset(false, 6.0, shape(SQUARE)),
        Question::Region(given(&hole)),
        // 4 of ring 1, 27 of it, and 11.
        Question::Region(given(&hole[..4])),
        Question::Region(given(HAIRLINE)),
        Question::Region(given(&[4.0, 4.0, 14.0, 4.0, 4.0, 5.0])),
        Question::RegionInset(1.0, given(&hole)),
        // Granted after joins, and 17 with the distance.
        Question::RegionInset(1.0, given(&[9.0, 4.5, 9.5, 5.0, 9.0, 5.5, 8.5, 5.0])),
        Question::RegionInset(2.0, given(&hole)),
        Question::RegionPoint(given(&hole), [3.0, 5.0], Changed { place: 0, value: 0 }),
        Question::RegionPoint(given(&hole), [3.0, 5.0], Changed { place: 1, value: 2 }),
        // Straight, left by a last bit, right, unknown.
        Question::Turn([[0.0, 0.0], [1.0, 2.0], [2.0, 4.0]]),
        Question::Turn([[0.5, 0.5000000000000001], [12.0, 12.0], [24.0, 24.0]]),
        Question::Turn([[24.0, 24.0], [12.0, 12.0], [0.5, 0.5000000000000001]]),
        Question::Turn([[0.0, 0.0], [1.0, f64::NAN], [2.0, 4.0]]),
        Question::Meet([[[0.0, 0.0], [4.0, 0.0]], [[2.0, 0.0], [2.0, 5.0]]]),
        Question::Meet([[[0.0, 0.0], [4.0, 0.0]], [[2.0, 5e-324], [2.0, 5.0]]]),
        Question::Fold([[4.0, 4.0], [4.0, 0.0], [4.0, 2.0]]),
        Question::Fold([[12.0, 12.0], [0.5, 0.5000000000000001], [1.0, 1.0]]),
        // The second in the outer walk, apart, 21.
        Question::Pair(shape(SQUARE), shape(&[8.0, 8.0, 14.0, 8.0, 14.0, 14.0])),
        Question::Pair(triangle(), shape(&far)),
        Question::Pair(triangle(), shape(&far[..4])),
        // Granted with a short edge, 21, and 16 with the distance.
        Question::Again(0.5, given(HAIRLINE)),
        Question::Again(0.5, given(&hole[..4])),
        Question::Again(6.0, given(HAIRLINE)),
    ]
}

/// The name of another reading, a question, and the answer that it has there.
pub type Misread<const FIELDS: usize> = (&'static str, Question, [u64; FIELDS]);

/// Pairs of rings with the answers of other readings: of which ring is in the
/// outer walk, of which edge stands first, of which edge is found.
pub fn misread_pairs() -> Vec<Misread<5>> {
    // Of the pointed one edge 0 meets edge 3 of the square, 1 meets 0 and 3, 2
    // meets 0: it is in the outer walk, and the pair is 0 and 3.
    let pointed = [5.0, 5.0, -5.0, 5.0, 5.0, -4.0];
    let second = || Question::Pair(shape(SQUARE), shape(&pointed));
    let first = || Question::Pair(shape(&pointed), shape(SQUARE));
    // Of the left edge 1 meets 1 and 2 of the right, 2 meets 0 and 1: the pair
    // is 1 and 1, or else 0 of the right and 2 of the left.
    let left = [0.0, 3.0, 0.0, 0.0, 4.0, 0.0];
    let right = [1.0, 1.0, 5.0, 1.0, 1.0, -1.0];
    let alike = || Question::Pair(shape(&left), shape(&right));
    vec![
        ("named order", second(), [0, 1, 3, 0, 1]),
        ("named order, not swapped", second(), [0, 1, 3, 0, 0]),
        ("first named outside", second(), [0, 1, 0, 1, 0]),
        ("longer outside", first(), [0, 1, 0, 1, 1]),
        ("of equal ones the second outside", alike(), [0, 1, 0, 2, 1]),
        ("outer edge not the lowest", second(), [0, 1, 2, 0, 1]),
        ("outer edge not the lowest", alike(), [0, 1, 2, 0, 0]),
        ("inner edge not the lowest", alike(), [0, 1, 1, 2, 0]),
        ("swapped told wrongly", second(), [0, 1, 0, 3, 0]),
        ("swapped told wrongly", first(), [0, 1, 0, 3, 1]),
        ("swapped told wrongly", alike(), [0, 1, 1, 1, 1]),
    ]
}

/// Clearances with the answers of other readings: of whose vertices are
/// measured, of which gap is told, of what is asked before.
pub fn misread_clearances() -> Vec<Misread<2>> {
    let clear = |a: &[f64], b: &[f64]| Question::Clearance(shape(a), shape(b));
    let told = |name, asked, gap: f64| (name, asked, [0, gap.to_bits()]);
    // Two with a spike toward a side of the square, 0.5 from it: one within, one
    // outside at the closing edge. Bars that cross. Two vertices alone.
    let within = &[3.0, 4.0, 9.5, 5.0, 3.0, 6.0];
    let outside = &[-0.5, 5.0, -3.0, 6.0, -3.0, 4.0];
    let level = &[-3.0, -1.0, 3.0, -1.0, 3.0, 1.0, -3.0, 1.0];
    let upright = &[-1.0, -3.0, 1.0, -3.0, 1.0, 3.0, -1.0, 3.0];
    let few = &[20.0, 0.0, 24.0, 0.0];
    let named = || clear(COLLAR, SLEEVE);
    let exchanged = || clear(SLEEVE, COLLAR);
    let by_collar = 2.9903617305345733;
    vec![
        told("the first's vertices alone", named(), by_collar),
        told("the second's vertices alone", exchanged(), by_collar),
        told("the greatest gap", named(), 10.198039027185569),
        told("the greatest gap", exchanged(), 10.198039027185569),
        told("between vertices", named(), 3.006659275674582),
        told("between vertices", exchanged(), 3.006659275674582),
        told("from itself", named(), 0.0),
        told("from itself", exchanged(), 0.0),
        told("the greater side", clear(SQUARE, within), 5.0),
        told("the greater side", clear(within, SQUARE), 5.0),
        told("0 within", clear(SQUARE, within), 0.0),
        told("0 within", clear(within, SQUARE), 0.0),
        told("no closing edge", clear(SQUARE, outside), 4.828078792603348),
        told("no closing edge", clear(outside, SQUARE), 4.828078792603348),
        told("meeting not asked", clear(level, upright), 2.0),
        told("21 not asked", clear(TRIANGLE, few), 16.0),
        told("21 not asked", clear(few, TRIANGLE), 16.0),
    ]
}

/// A square with a corner cut off, and a distance by which the cut's edge has
/// shrunk to 2.3e-7.
pub const CUT: &[f64] = &[0.0, 0.0, 4.0, 0.0, 4.0, 4.0, 1.0, 4.0, 0.0, 3.0];
pub const SHRUNK: f64 = 1.7071065;

/// What that inset leaves.
pub fn left_of_cut() -> Shape {
    let answer = Question::Offset(false, SHRUNK, shape(CUT)).answer();
    let numbers: Vec<f64> = answer[9..].iter().map(|x| f64::from_bits(*x)).collect();
    shape(&numbers)
}

/// Rings and regions with the answers of other readings of 27: of which edges
/// are asked, by which length, in which place, of which shapes.
pub fn misread_hairlines() -> Vec<(&'static str, Question, Vec<u64>)> {
    let no = |number: u64, fields: usize| [vec![number], vec![0; fields - 1]].concat();
    let bits = |numbers: &[f64]| numbers.iter().map(|x| x.to_bits()).collect::<Vec<u64>>();
    let refused = |name, ring: &[f64]| (name, Question::Outline(ring.to_vec()), no(27, 6));
    let granted = |name, ring: &[f64]| {
        let told = [vec![0; 5], vec![ring.len() as u64 / 2], bits(ring)].concat();
        (name, Question::Outline(ring.to_vec()), told)
    };
    let flat = vec![0.0, 0.0, 9e-7, 0.0, 2.0, 0.0];
    let crossed = vec![0.0, 0.0, 9e-7, 0.0, 4.0, 4.0, 4.0, 0.0, 0.0, 2.0];
    let repeated = &[0.0, 0.0, 9e-7, 0.0, 4.0, 4.0, 4.0, 4.0, 0.0, 4.0];
    let closed = &[TRIANGLE, &[0.0, 0.0]].concat();
    let holed = given(HAIRLINE);
    let counts = [2, 4, 3, 0, 0, 0, 0, 0, 0, 0].to_vec();
    let unasked = [vec![0; 5], counts, bits(&holed.numbers)].concat();
    let left = left_of_cut();
    let again = Given {
        lengths: vec![left.count],
        numbers: left.numbers.clone(),
    };
    let cut = Given {
        lengths: vec![5],
        numbers: CUT.to_vec(),
    };
    let piece = Question::Offset(false, SHRUNK, shape(CUT));
    vec![
        refused("just that long", &[0.0, 0.0, 1e-6, 0.0, 4.0, 4.0]),
        granted(
            "no closing edge",
            &[0.0, 0.0, 4.0, 0.0, 4.0, 4.0, 7e-7, 7e-7],
        ),
        ("after 8", Question::Outline(flat), no(8, 6)),
        (
            "after 9",
            Question::Outline(crossed),
            vec![9, 0, 1, 3, 0, 0],
        ),
        refused("before 7", repeated),
        refused("before 5", &[0.0, 0.0, 9e-7, 0.0, 2e9, 1.0]),
        refused("before 4", &[0.0, 0.0, 9e-7, 0.0]),
        refused(
            "by the greater side",
            &[0.0, 0.0, 7.08e-7, 7.08e-7, 0.0, 4.0],
        ),
        granted("by both sides added", &[0.0, 0.0, 7e-7, 7e-7, 0.0, 4.0]),
        refused("by east alone", SQUARE),
        refused("the repeat not dropped", closed),
        ("no hole asked", Question::Region(holed.clone()), unasked),
        (
            "the outer ring's number",
            Question::RegionInset(0.5, holed),
            no(27, 18),
        ),
        ("handed in", Question::Offset(false, 0.1, left), no(27, 9)),
        ("handed in", Question::Again(0.1, again), no(27, 18)),
        ("a piece asked", piece, no(27, 9)),
        (
            "a piece asked",
            Question::RegionInset(SHRUNK, cut),
            no(27, 18),
        ),
    ]
}

/// The wrong answers to a question.
fn answers(question: &Question) -> Vec<Vec<u64>> {
    let right = question.answer();
    let one_wrong = |place: usize| {
        let mut answer = right.clone();
        answer[place] = answer[place].wrapping_add(1);
        answer
    };
    let mut wrong: Vec<Vec<u64>> = (0..right.len()).map(one_wrong).collect();
    wrong.push([&right[..], &[0]].concat());
    wrong.push(right[..right.len() - 1].to_vec());
    wrong
}

/// Lines that cannot be read: a kind that is none, an answer longer than the
/// line, a digit that is none, a field too short, no field.
fn unread() -> [String; 5] {
    let field = |value: u64| format!("{value:016x}");
    let line = Question::Area(2.5).line();
    [
        [field(KINDS as u64), field(0)].join(","),
        [field(7), field(8), field(0)].join(","),
        line.replace('a', "A").replace('4', "g"),
        line[1..].to_string(),
        String::new(),
    ]
}

/// The lines, without LF, each with its kind where it has one.
pub fn lines() -> Vec<(Option<usize>, String)> {
    let mut lines = Vec::new();
    for question in asked() {
        for answer in answers(&question) {
            lines.push((Some(question.kind()), question.line_with(&answer)));
        }
    }
    let line = |asked: &Question, told: &[u64]| (Some(asked.kind()), asked.line_with(told));
    let pairs = misread_pairs().into_iter();
    lines.extend(pairs.map(|(_, asked, told)| line(&asked, &told)));
    let clearances = misread_clearances().into_iter();
    lines.extend(clearances.map(|(_, asked, told)| line(&asked, &told)));
    let hairlines = misread_hairlines().into_iter();
    lines.extend(hairlines.map(|(_, asked, told)| line(&asked, &told)));
    lines.extend(unread().map(|line| (None, line)));
    lines
}
