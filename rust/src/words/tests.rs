//! The words are those of the Python package: both are held to python/tests/words.txt.

use std::str::FromStr;

use super::words;
use crate::refusal::Refusal;
use crate::shapes::{Outline, Region};
use crate::slices::Point;

/// A line `number | of | ring first second value | vertex counts | numbers | words`.
struct Row<'a> {
    refusal: Refusal,
    of: &'a str,
    lengths: Vec<usize>,
    numbers: Vec<f64>,
    words: &'a str,
}

fn list<T: FromStr>(cell: &str) -> Vec<T>
where
    T::Err: std::fmt::Debug,
{
    let parts = cell.split_whitespace();
    parts.map(|part| part.parse().unwrap()).collect()
}

fn row(line: &str) -> Row<'_> {
    let cells: Vec<&str> = line.split('|').map(str::trim).collect();
    let [number, of, carried, lengths, numbers, words] = cells[..] else {
        panic!("six columns: {line}");
    };
    let (wholes, value) = carried.rsplit_once(' ').unwrap();
    let wholes: Vec<usize> = list(wholes);
    let number = number.parse().unwrap();
    let value = value.parse().unwrap();
    Row {
        refusal: Refusal::told(number, wholes[0], wholes[1], wholes[2], value).unwrap_err(),
        of,
        lengths: list(lengths),
        numbers: list(numbers),
        words,
    }
}

#[test]
fn the_words_of_the_python_package() {
    let path = concat!(env!("CARGO_MANIFEST_DIR"), "/../python/tests/words.txt");
    let text = std::fs::read_to_string(path).unwrap();
    let mut seen = std::collections::BTreeSet::new();
    for line in text.lines().filter(|line| !line.starts_with('#')) {
        let row = row(line);
        let told = match row.of {
            "unknown" => row.refusal.to_string(),
            "given" => row.refusal.in_numbers(&row.numbers, &row.lengths),
            "result" => row.refusal.in_cage(),
            "point" => row.refusal.in_point(),
            of => panic!("{of}: {line}"),
        };
        assert_eq!(told, row.words, "{line}");
        seen.insert((row.refusal.number(), row.of));
    }
    let known = (1..100).filter(|number| words(*number) != "refused");
    for number in known {
        assert!(seen.contains(&(number, "unknown")), "{number}");
    }
}

/// A newer library may ask what this crate does not know.
#[test]
fn a_number_that_is_not_known() {
    for number in [23, 26, 28, 99, usize::MAX] {
        let refusal = Refusal::told(number, 1, 2, 3, 4.0).unwrap_err();
        assert_eq!(refusal, Refusal::Other { number });
        assert_eq!(refusal.number(), number);
        assert_eq!(refusal.to_string(), "refused");
    }
    assert_eq!(Refusal::told(0, 1, 2, 3, 4.0), Ok(()));
}

/// Of what the number of a 2 is one, the refusal does not say: a vertex, or a point that was asked.
#[test]
fn a_number_that_is_not_finite() {
    let square = Outline::new(&[(0.0, 0.0), (4.0, 0.0), (4.0, 4.0)]).unwrap();
    let refusal = square.contains((2.0, f64::NAN)).unwrap_err();
    assert_eq!(refusal.to_string(), "number 1 is not a finite number");
    assert_eq!(refusal.in_cage(), refusal.to_string());
    let north = "the north of the point is not a finite number";
    assert_eq!(refusal.in_point(), north);
}

/// A closing repeat behind 128 vertices as it may be drawn, and a ring that crosses itself as it may be handed in.
#[test]
fn rings_of_either_kind() {
    let apart = "ring 1 lies apart from ring 0: each is an outline of its own";
    let teeth = (0..126).map(|k| (f64::from(k), f64::from(k % 2)));
    let ends = [(126.0, 9.0), (-1.0, 9.0), (0.0, 0.0)];
    let comb: Vec<Point> = teeth.chain(ends).collect();
    let bow = vec![(0.0, 20.0), (4.0, 24.0), (4.0, 20.0), (0.0, 22.0)];
    let triangle = vec![(0.0, 20.0), (4.0, 20.0), (4.0, 24.0)];
    let drawn = [comb, triangle];
    assert_eq!(Region::new(&drawn).unwrap_err().in_drawing(&drawn), apart);
    let (outer, flat) = (
        Outline::new(&drawn[0]).unwrap(),
        crate::shapes::flat(&[&bow]).0,
    );
    let crossed = Outline::stored(&flat).unwrap();
    let refusal = Region::of_outlines(&outer, &[crossed]).unwrap_err();
    assert_eq!(refusal.in_drawing(&[outer.vertices(), bow]), apart);
    // Without its closing repeat it would be no shape.
    let back = vec![(0.0, 20.0), (4.0, 20.0), (0.0, 20.0)];
    let stored = Outline::stored(&crate::shapes::flat(&[&back]).0).unwrap();
    let refusal = Region::of_outlines(&outer, &[stored]).unwrap_err();
    assert_eq!(refusal.in_drawing(&[outer.vertices(), back]), apart);
    // In words a repeat is no vertex, drawn or handed in; for `meeting` it is one, and the other outline has fewer.
    let closed = vec![(0.0, 0.0), (4.0, 0.0), (4.0, 4.0), (0.0, 4.0), (0.0, 0.0)];
    let hook = vec![(2.0, 1.0), (-2.0, 1.0), (-2.0, 3.0), (6.0, 3.0)];
    let [outer, inner] =
        [&closed, &hook].map(|ring| Outline::stored(&crate::shapes::flat(&[ring]).0).unwrap());
    let met = outer.meeting(&inner).unwrap();
    assert_eq!((met.outer, met.inner, met.swapped), (0, 3, true));
    let refusal = Region::of_outlines(&outer, &[inner]).unwrap_err();
    let words = "edge 2 of ring 1 crosses or touches edge 1 of ring 0";
    assert_eq!(refusal.in_drawing(&[closed, hook]), words);
}

/// A drawing that is not the one that was refused: the words are those without it.
#[test]
fn another_drawing() {
    let square = [0.0, 0.0, 9.0, 0.0, 9.0, 9.0, 0.0, 9.0];
    let hole = [1.0, 1.0, 2.0, 1.0, 2.0, 2.0, 1.0, 2.0];
    let both = [square, hole].concat();
    let refusals = [
        Refusal::Repeated { ring: 0 },
        Refusal::Repeated { ring: usize::MAX },
        Refusal::Hairline { ring: 0 },
        Refusal::Hairline { ring: usize::MAX },
        Refusal::HoleOutside { hole: 0 },
        Refusal::HoleOutside { hole: usize::MAX },
        Refusal::HolesTouch {
            first: 0,
            second: usize::MAX,
        },
        Refusal::Shape,
    ];
    for refusal in refusals {
        assert_eq!(refusal.in_numbers(&both, &[4, 4]), refusal.to_string());
    }
    let refusals = [
        Refusal::Repeated { ring: 1 },
        Refusal::Hairline { ring: 1 },
        Refusal::HoleOutside { hole: 0 },
        Refusal::HolesTouch {
            first: 0,
            second: 1,
        },
    ];
    let lengths: [&[usize]; 4] = [&[], &[1], &[0, 0], &[0, usize::MAX / 2 + 1, usize::MAX]];
    for refusal in refusals {
        for length in lengths.iter().filter(|length| length.len() < 3) {
            assert_eq!(refusal.in_numbers(&both, length), refusal.to_string());
        }
        assert!(!refusal.in_numbers(&both, lengths[3]).is_empty());
    }
    let last = Refusal::NotFinite { index: usize::MAX };
    let vertex = usize::MAX / 2;
    for length in lengths.iter().filter(|length| length.len() < 3) {
        let words = format!("the north of vertex {vertex} is not a finite number");
        assert_eq!(last.in_numbers(&both, length), words);
    }
}
