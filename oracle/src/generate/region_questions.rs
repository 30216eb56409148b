//! Questions about regions from a seed: the jobs of the load, by `Region`.

use super::drawn_line;
use super::questions::{not_finite, shape_of, suited_point};
use crate::draw::Draw;
use crate::job::Job;
use crate::outlines::Question;
use crate::regions::{answerable, made, Changed, Given, INNER, OUTER};

/// The distance and the rings of a job of the load, of several rings mostly.
pub(super) fn of_load(draw: &mut Draw, small: bool, only: Option<&str>) -> (f64, Given) {
    loop {
        let line = drawn_line(draw, small, only).expect("a family");
        let Some(job) = Job::read(&line) else {
            continue;
        };
        if job.counts.len() == 1 && only.is_none() && !draw.once_in(12) {
            continue;
        }
        return (job.distance, Given::of_job(&job));
    }
}

/// Families that one of 4 to 12 or 27 refuses.
const FAULTY: [&str; 10] = [
    "few",
    "range",
    "room",
    "room",
    "repeated",
    "hairline",
    "outside",
    "overlap",
    "holes",
    "two-faults",
];

/// Families for places that the others seldom reach: joins, 15, 18, 19, and a
/// piece's 4, 5 and 6.
const RARE: [&str; 8] = [
    "known",
    "known",
    "loaded",
    "joined-holes",
    "tiny-hole",
    "saw-room",
    "full",
    "hourglass",
];

/// Those that the small load has not.
const WIDE: [&str; 6] = [
    "room",
    "holes",
    "loaded",
    "joined-holes",
    "saw-room",
    "full",
];

/// One of the load, small mostly.
pub(super) fn any(draw: &mut Draw) -> (f64, Given) {
    let only = match draw.below(10) {
        0 => Some(draw.pick(&FAULTY)),
        1 | 2 => Some(draw.pick(&RARE)),
        _ => None,
    };
    let small = !only.is_some_and(|name| WIDE.contains(&name)) && !draw.once_in(3);
    of_load(draw, small, only)
}

/// Ring lengths that do not fit, their sum past the largest number too.
pub(super) fn misfit(draw: &mut Draw, mut given: Given) -> Given {
    let place = draw.below(given.lengths.len() + 1);
    match draw.below(4) {
        0 => given.lengths.clear(),
        1 if place < given.lengths.len() => {
            given.lengths[place] = draw.pick(&[0, 1, 129, 1 << 32, 1 << 63, u64::MAX]);
        }
        2 => given.lengths.extend([1 << 63, 1 << 63]),
        _ => given.lengths.push(draw.pick(&[0, 1, 1 << 62, u64::MAX])),
    }
    given
}

/// A number that is not finite, or one too many.
pub(super) fn spoilt(draw: &mut Draw, mut given: Given) -> Given {
    if draw.once_in(3) {
        given.numbers.push(1.0);
    }
    for _ in 0..draw.below(3).min(given.numbers.len()) {
        let place = draw.below(given.numbers.len());
        given.numbers[place] = not_finite(draw);
    }
    given
}

/// A region that the reference makes.
fn sound(draw: &mut Draw) -> Given {
    loop {
        let (_, given) = any(draw);
        if made(&given).is_ok() {
            return given;
        }
    }
}

/// A point that suits one of the rings.
fn point(draw: &mut Draw, given: &Given) -> [f64; 2] {
    let ring = draw.below(given.lengths.len());
    let before: u64 = given.lengths[..ring].iter().sum();
    let from = 2 * before as usize;
    let to = from + 2 * given.lengths[ring] as usize;
    suited_point(draw, &shape_of(given.numbers[from..to].to_vec()))
}

/// Nothing, or a field that 21 refuses, or one that nothing reads.
fn changed(draw: &mut Draw, given: &Given) -> Changed {
    if !draw.once_in(3) {
        return Changed { place: 0, value: 0 };
    }
    loop {
        let (place, value) = match draw.below(7) {
            0 => (1, draw.pick(&[0, 1, 2, 129, 1 << 32, u64::MAX])),
            1 => (2, draw.pick(&[9, 10, 1 << 32, 1 << 63, u64::MAX])),
            2 => (
                3 + draw.below(8) as u64,
                draw.pick(&[0, 2, 33, 1 << 58, u64::MAX]),
            ),
            3 => (OUTER + draw.below(256) as u64, far(draw)),
            4 => (INNER + draw.below(512) as u64, far(draw)),
            _ => {
                let holes = given.lengths.len().saturating_sub(1).clamp(1, 8);
                let hole = draw.below(holes) as u64;
                (INNER + 64 * hole + draw.below(6) as u64, far(draw))
            }
        };
        let changed = Changed { place, value };
        if answerable(given, changed) {
            return changed;
        }
    }
}

/// The bits of a number that is not in range.
fn far(draw: &mut Draw) -> u64 {
    if draw.once_in(2) {
        not_finite(draw).to_bits()
    } else {
        draw.pick(&[2e9_f64, -1e300, f64::MAX, 1_000_000_000.000_000_1])
            .to_bits()
    }
}

/// Question `index` of a seed about a region.
pub fn region(seed: u64, index: u64) -> Question {
    let draw = &mut Draw::at(seed.rotate_left(16), index);
    match draw.below(20) {
        0..=2 => Question::Region(any(draw).1),
        3 => {
            let (_, given) = any(draw);
            Question::Region(misfit(draw, given))
        }
        4 => {
            let (_, given) = any(draw);
            Question::Region(spoilt(draw, given))
        }
        5..=8 => {
            let given = sound(draw);
            let point = point(draw, &given);
            let changed = changed(draw, &given);
            Question::RegionPoint(given, point, changed)
        }
        _ => {
            let (distance, given) = any(draw);
            Question::RegionInset(distance, given)
        }
    }
}
