//! A seeded load of job lines that reaches every refusal.

mod again_questions;
mod broken;
mod clearance_questions;
mod door;
mod hairlines;
mod known;
mod offsets;
mod outlines;
mod pair_questions;
mod questions;
mod rare;
mod region_questions;
mod regions;
mod shape;
mod slivers;
mod turn_questions;

pub use again_questions::again;
pub use clearance_questions::clearance;
pub use offsets::offset;
pub use pair_questions::pair;
pub use questions::question;
pub use region_questions::region;
pub use turn_questions::turning;

use crate::draw::Draw;
use crate::job::Job;

/// Most vertices of a job of the small load.
pub const SMALL: usize = 12;

/// Most bytes of an ill-formed line of the small load.
const SHORT: usize = 400;

/// A way to draw lines: how often in the whole load, how often in the small
/// one, its name, and what draws a line with at most so many vertices.
struct Family {
    often: usize,
    small: usize,
    name: &'static str,
    draw: fn(&mut Draw, usize) -> Vec<u8>,
}

const fn family(
    often: usize,
    small: usize,
    name: &'static str,
    draw: fn(&mut Draw, usize) -> Vec<u8>,
) -> Family {
    Family {
        often,
        small,
        name,
        draw,
    }
}

const FAMILIES: &[Family] = &[
    family(60, 70, "star", outlines::star),
    family(30, 20, "regular", outlines::regular),
    family(30, 40, "columns", outlines::columns),
    family(40, 20, "comb", outlines::comb),
    family(60, 10, "rotated-comb", outlines::rotated_comb),
    family(50, 60, "saw", outlines::saw),
    family(30, 40, "waist", outlines::waist),
    family(50, 60, "squares", outlines::squares),
    family(60, 100, "grid", outlines::grid),
    family(20, 20, "far", outlines::far),
    family(30, 20, "distant", outlines::distant),
    family(30, 30, "mirrored", outlines::mirrored),
    family(20, 30, "thin", outlines::thin),
    family(20, 0, "wide", outlines::wide),
    family(60, 60, "grid-hole", regions::grid),
    family(80, 60, "cells", regions::cells),
    family(60, 0, "many-cells", regions::many_cells),
    family(20, 20, "tiny-hole", regions::tiny_hole),
    family(15, 20, "numbers", door::numbers),
    family(15, 15, "lengths", door::lengths),
    family(15, 15, "few", door::few),
    family(15, 15, "range", door::range),
    family(15, 0, "room", door::room),
    family(15, 15, "repeated", door::repeated),
    family(15, 15, "flat", door::flat),
    family(15, 25, "crossed", door::crossed),
    family(10, 0, "holes", door::holes),
    family(15, 15, "outside", door::outside),
    family(15, 15, "overlap", door::overlap),
    family(25, 25, "distance", door::distance),
    family(10, 10, "two-faults", door::two_faults),
    family(35, 30, "broken", broken::broken),
    family(5, 0, "longest", broken::longest),
    family(15, 12, "hourglass", rare::hourglass),
    family(10, 20, "triangle", rare::triangle),
    family(10, 20, "pocket", rare::pocket),
    family(10, 10, "spike", rare::spike),
    family(10, 10, "straight", rare::straight),
    family(12, 0, "corridor", rare::corridor),
    family(15, 0, "saw-room", rare::saw_room),
    family(8, 0, "full", rare::full),
    family(8, 0, "loaded", rare::loaded),
    family(8, 0, "joined-holes", rare::joined_holes),
    family(40, 30, "known", known::known),
    family(60, 40, "slivers", slivers::slivers),
    family(60, 60, "hairline", hairlines::hairline),
    family(20, 20, "chamfer", hairlines::chamfer),
];

/// Names of the families.
pub fn names() -> impl Iterator<Item = &'static str> {
    FAMILIES.iter().map(|family| family.name)
}

/// Line `index` of a seed, without LF: of one family, or of the load. `None`
/// where no family of the load has that name.
pub fn line(seed: u64, index: u64, small: bool, only: Option<&str>) -> Option<Vec<u8>> {
    let mut draw = Draw::at(seed, index);
    drawn_line(&mut draw, small, only)
}

/// A line of one family, or of the load.
fn drawn_line(draw: &mut Draw, small: bool, only: Option<&str>) -> Option<Vec<u8>> {
    let weight = |family: &Family| {
        let often = if small { family.small } else { family.often };
        match only {
            Some(name) if name != family.name => 0,
            _ => often,
        }
    };
    let total: usize = FAMILIES.iter().map(weight).sum();
    if total == 0 {
        return None;
    }
    let most = if small { SMALL } else { 128 };
    loop {
        let mut place = draw.below(total);
        let family = FAMILIES.iter().find(|family| {
            let here = place < weight(family);
            place = place.saturating_sub(weight(family));
            here
        })?;
        let line = (family.draw)(draw, most);
        let fits = match Job::read(&line) {
            Some(job) => job.numbers.len() <= 2 * SMALL + 1,
            None => line.len() <= SHORT,
        };
        if fits || !small {
            return Some(line);
        }
    }
}
