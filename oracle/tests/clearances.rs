//! The clearance of two outlines.

mod cases;
mod rings;

use std::collections::BTreeSet;

use cases::Cases;
use oracle::outlines::{Question, Shape};
use oracle::{stored, wrong};
use rings::{
    cleared, edges, gaps, given, holds, least, meetings, one_sided, refused_cases,
    the_same_in_either_order,
};

#[test]
fn one_clearance_in_either_order() {
    the_same_in_either_order();
}

/// 0.2, of which the collar's own vertices tell 3 or so.
#[test]
fn the_collar_and_the_spike() {
    let asked = stored::chosen_questions();
    let stored: Vec<&Question> = asked.iter().filter(|asked| asked.kind() == 4).collect();
    let [.., named, exchanged] = stored[..] else {
        panic!("both orders");
    };
    let [collar, sleeve] = cleared(named);
    assert_eq!([sleeve, collar], cleared(exchanged));
    assert_eq!(collar.numbers.len() + sleeve.numbers.len(), 18);
    for asked in [named, exchanged] {
        assert_eq!(asked.answer(), [0, 0.2_f64.to_bits()]);
    }
    assert_eq!(one_sided(sleeve, collar), 0.2);
    assert_eq!((one_sided(collar, sleeve) * 1000.0).round(), 2990.0);
}

/// Where the least gap is: the last vertex alone, the closing edge alone.
fn ends(first: &Shape, second: &Shape) -> [bool; 2] {
    let (vertices, others) = (edges(first), edges(second));
    let last = vertices.len() - 1;
    let nearest = least(gaps(&vertices, &others));
    [
        nearest < least(gaps(&vertices[..last], &others)),
        nearest < least(gaps(&vertices, &others[..others.len() - 1])),
    ]
}

/// What a clearance that is not refused is an instance of.
fn clear_cases(first: &Shape, second: &Shape, clearance: f64) -> Vec<(&'static str, bool)> {
    let meet = !meetings(first, second, false).is_empty();
    let sides = [one_sided(first, second), one_sided(second, first)];
    let (by_first, by_second) = (sides[0] < sides[1], sides[1] < sides[0]);
    let clear = clearance > 0.0;
    let vertex = |shape: &Shape| edges(shape)[0][0];
    let first_within = clear && holds(second, vertex(first));
    let second_within = clear && holds(first, vertex(second));
    let numbers = [given(first), given(second)].concat();
    let any = |test: fn(f64) -> bool| numbers.iter().any(|x| test(x.abs()));
    let [last_of_first, closing_of_second] = ends(first, second);
    let [last_of_second, closing_of_first] = ends(second, first);
    vec![
        ("by the first's vertices", clear && by_first),
        ("by the second's vertices", clear && by_second),
        ("as near from either side", clear && sides[0] == sides[1]),
        ("meeting, a gap of 0", meet && sides[0].min(sides[1]) == 0.0),
        (
            "meeting, gaps above 0",
            meet && sides[0].min(sides[1]) > 0.0,
        ),
        ("apart, a gap of 0", !meet && !clear),
        (
            "apart, a gap of 0 from one side alone",
            !meet && !clear && by_first != by_second,
        ),
        (
            "the first within, by its vertices",
            first_within && by_first,
        ),
        (
            "the first within, by the second's",
            first_within && by_second,
        ),
        (
            "the second within, by its vertices",
            second_within && by_second,
        ),
        (
            "the second within, by the first's",
            second_within && by_first,
        ),
        (
            "the first's last vertex",
            clear && by_first && last_of_first,
        ),
        (
            "the second's last vertex",
            clear && by_second && last_of_second,
        ),
        (
            "the first's closing edge",
            clear && by_second && closing_of_first,
        ),
        (
            "the second's closing edge",
            clear && by_first && closing_of_second,
        ),
        ("a subnormal clearance", clearance.is_subnormal()),
        ("a clearance of a last bit", clear && clearance < 1e-14),
        ("a clearance above 1e8", clearance > 1e8),
        ("a coordinate of 1e9", clear && any(|x| x == 1e9)),
        ("a subnormal coordinate", clear && any(f64::is_subnormal)),
        ("tiny", clear && !any(|x| x > 1e-140)),
        ("a full first ring", clear && first.count == 128),
        ("a full second ring", clear && second.count == 128),
        ("as many vertices", clear && first.count == second.count),
        (
            "numbers past the second's",
            second.numbers.len() as u64 > 2 * second.count,
        ),
    ]
}

#[test]
fn the_stored_list_reaches_every_case() {
    let mut cases = Cases::default();
    for asked in stored::questions().filter(|asked| asked.kind() == 4) {
        let [first, second] = cleared(&asked);
        let answer = asked.answer();
        cases.add(if answer[0] == 21 {
            refused_cases(first, second)
        } else {
            clear_cases(first, second, f64::from_bits(answer[1]))
        });
    }
    assert_eq!(cases.missed(), [""; 0]);
}

/// What another reading tells of two rings.
fn reading(name: &str, first: &Shape, second: &Shape) -> f64 {
    let (a, b) = (edges(first), edges(second));
    let sides = [one_sided(first, second), one_sided(second, first)];
    let points = |shape: &Shape| -> Vec<[[f64; 2]; 2]> {
        edges(shape)
            .iter()
            .map(|[vertex, _]| [*vertex; 2])
            .collect()
    };
    match name {
        "the first's vertices alone" => sides[0],
        "the second's vertices alone" => sides[1],
        "the greater side" => sides[0].max(sides[1]),
        "the greatest gap" => [gaps(&a, &b), gaps(&b, &a)]
            .concat()
            .into_iter()
            .fold(0.0, f64::max),
        "between vertices" => least(gaps(&points(first), &points(second))),
        "from itself" => one_sided(first, first),
        "0 within" => {
            assert!(holds(first, b[0][0]) != holds(second, a[0][0]));
            0.0
        }
        "no closing edge" => {
            let open = [gaps(&a, &b[..b.len() - 1]), gaps(&b, &a[..a.len() - 1])];
            least(open.concat())
        }
        "meeting not asked" | "21 not asked" => sides[0].min(sides[1]),
        _ => panic!("{name}"),
    }
}

/// The answers that are wrong on purpose are those of the readings that they
/// are named by, each wrong, and each reading is there.
#[test]
fn misread_clearances_are_what_they_are_named_by() {
    let lines = wrong::lines();
    let mut names = BTreeSet::new();
    for (name, asked, told) in wrong::misread_clearances() {
        let [first, second] = cleared(&asked);
        let reading = reading(name, first, second);
        assert_eq!(told, [0, reading.to_bits()], "{name}: {reading}");
        assert_ne!(told[..], asked.answer(), "{name}");
        assert!(lines.contains(&(Some(4), asked.line_with(&told))));
        names.insert(name);
    }
    assert_eq!(names.len(), 10);
}
