//! Questions about insets of regions handed in, from a seed: what the reference
//! makes of the load, 27 not asked, and what their insets leave, inset again.

use super::region_questions::{any, misfit, of_load, spoilt};
use crate::draw::Draw;
use crate::outlines::Question;
use crate::regions::{left_of, proper, stored_given, Given};

/// A distance, and a region as it is stored.
fn handed(draw: &mut Draw) -> (f64, Given) {
    loop {
        let (distance, given) = match draw.below(4) {
            0 => {
                let name = draw.pick(&["hairline", "tiny-hole", "chamfer", "thin"]);
                of_load(draw, true, Some(name))
            }
            1 => {
                let name = draw.pick(&["known", "known", "loaded", "joined-holes", "saw-room"]);
                of_load(draw, false, Some(name))
            }
            _ => any(draw),
        };
        if let Some(stored) = stored_given(&given) {
            return (distance, stored);
        }
    }
}

/// What an inset leaves, and another distance.
fn left(draw: &mut Draw) -> (f64, Given) {
    loop {
        let (distance, given) = if draw.once_in(3) {
            of_load(draw, true, Some("chamfer"))
        } else {
            any(draw)
        };
        let stored = stored_given(&given);
        if let Some(left) = stored.and_then(|stored| left_of(&stored, distance)) {
            let part = draw.pick(&[0.0, 0.05, 0.1, 0.5, 1.0]);
            return (part * distance, left);
        }
    }
}

/// A region that question 21 refuses.
fn improper(draw: &mut Draw) -> (f64, Given) {
    loop {
        let (distance, given) = match draw.below(8) {
            0 => of_load(draw, false, Some("holes")),
            1 | 2 => of_load(draw, false, Some("room")),
            3 => of_load(draw, true, Some("range")),
            4 => of_load(draw, true, Some("few")),
            _ => {
                let (distance, given) = handed(draw);
                let spoil = draw.pick(&[misfit, spoilt]);
                (distance, spoil(draw, given))
            }
        };
        if !proper(&given) {
            return (distance, given);
        }
    }
}

/// Question `index` of a seed about the inset of a region handed in.
pub fn again(seed: u64, index: u64) -> Question {
    let draw = &mut Draw::at(seed.rotate_left(40), index);
    let (distance, given) = match draw.below(12) {
        0 => improper(draw),
        1..=4 => left(draw),
        5 => {
            let (_, given) = handed(draw);
            let distance = draw.pick(&[f64::NAN, f64::INFINITY, 1e300, -1.0, -5e-324, -0.0, 1e12]);
            (distance, given)
        }
        _ => handed(draw),
    };
    Question::Again(distance, given)
}
