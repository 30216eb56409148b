//! Ill-formed lines, and well-formed ones beside them.

use super::outlines;
use super::shape::compass;
use crate::draw::Draw;
use crate::job::LONGEST;

const ONE: &[u8] = b",3ff0000000000000";

/// A line that breaks one rule, or nearly does.
pub fn broken(draw: &mut Draw, most: usize) -> Vec<u8> {
    let mut line = match draw.below(3) {
        0 => outlines::star(draw, most.min(24)),
        1 => outlines::grid(draw, most),
        _ => outlines::waist(draw, most),
    };
    let commas: Vec<usize> = (0..line.len()).filter(|k| line[*k] == b',').collect();
    let with = |start: String, numbers: usize| {
        let mut line = start.into_bytes();
        for _ in 0..numbers {
            line.extend_from_slice(ONE);
        }
        line
    };
    match draw.below(20) {
        0 => line.clear(),
        1 => {
            let last = draw.pick(&[b'\r', b',', 0, b' ', b'0']);
            line.push(last);
        }
        2 => {
            let first = draw.pick(&[b' ', b',', 0, 0xef, b'i']);
            line.insert(0, first);
        }
        3 => {
            let place = draw.pick(&commas);
            let byte = draw.pick(&[b' ', b',', b'\t', b'"', b'0']);
            line.insert(place + 1, byte);
        }
        4 => {
            let place = draw.pick(&commas);
            line.remove(place);
        }
        5 => {
            let place = draw.below(line.len());
            line[place] = draw.pick(&[0x80, 0xff, 0xc3, 0, b'\r', b' ', b'\t', b'G', b'g', b',']);
        }
        6 => {
            let place = draw.below(line.len());
            line[place] = line[place].to_ascii_uppercase();
        }
        7 => line = line.to_ascii_uppercase(),
        8 | 9 => {
            let length = draw.below(line.len());
            line.truncate(length);
        }
        10 => {
            let start = draw.pick(&["inset", "inset,", "outset", "inset,3ff0000000000000"]);
            line = start.as_bytes().to_vec();
        }
        11 => {
            // Grown rings can only be one.
            let rings = draw.pick(&["0", "2,3,3", "2", "9", "10,3", "999"]);
            line = with(format!("outset,3ff0000000000000,{rings}"), draw.below(13));
        }
        12 => {
            let count = draw.pick(&[
                "04", "004", "0004", "1000", "+4", "-4", "4.0", "4 ", "", "00", "000", "4",
            ]);
            line = with(format!("inset,3ff0000000000000,1,{count}"), 8);
        }
        13 => {
            let count = draw.pick(&["01", "1.", "1000", "x", "", "1", "00"]);
            line = with(format!("inset,3ff0000000000000,{count},3"), 6);
        }
        14 => {
            // Fewer counts than rings.
            let rings = draw.pick(&["3,3,3", "2,3", "1", "999,3"]);
            line = with(format!("inset,3ff0000000000000,{rings}"), draw.below(2));
        }
        15 => {
            let word = draw.pick(&[
                "Inset", "INSET", "onset", "insets", "inse", "outsets", "", "ok",
            ]);
            line = with(format!("{word},3ff0000000000000,1,3"), 6);
        }
        16 => {
            let float = draw.pick(&[
                "3FF0000000000000",
                "3ff000000000000",
                "3ff00000000000000",
                "0x3ff00000000000",
                "1.0",
                "",
                "3ff000000000000g",
                "3ff0000000000000",
            ]);
            line = if draw.once_in(2) {
                with(format!("inset,{float},1,4"), 8)
            } else {
                with(format!("inset,3ff0000000000000,1,4,{float}"), 7)
            };
        }
        17 => {
            // No ring at all is well formed.
            line = with("inset,3ff0000000000000,0".into(), draw.below(5));
        }
        18 => {
            let length = 1 + draw.below(40);
            line = (0..length)
                .map(|_| match draw.bits() as u8 {
                    b'\n' => b'\r',
                    byte => byte,
                })
                .collect();
        }
        _ => {
            let last = draw.pick(&commas);
            line.truncate(last + 1);
        }
    }
    line
}

/// Lines about the longest length.
pub fn longest(draw: &mut Draw, _: usize) -> Vec<u8> {
    let start = match draw.below(5) {
        // 16,384 bytes: lengths that do not add up, and lengths that do.
        0 => "inset,3ff0000000000000,2,99,99",
        1 => "inset,3ff0000000000000,12,100,100,100,20,20,20,20,20,20,20,20,20",
        // One byte more, well formed but for its length.
        2 => "inset,3ff0000000000000,2,99,100",
        _ => "",
    };
    if start.is_empty() {
        let length = draw.pick(&[LONGEST - 1, LONGEST, LONGEST + 1, 20_000, 70_000]);
        return vec![draw.pick(&[b'0', b',', b'i']); length];
    }
    let mut line = start.as_bytes().to_vec();
    let mut place = 0;
    // A hundred points about the origin, again and again.
    while line.len() + 34 <= LONGEST + 1 {
        for number in compass(f64::from(place) / 100.0) {
            line.extend_from_slice(format!(",{:016x}", number.to_bits()).as_bytes());
        }
        place += 1;
    }
    line
}
