//! Small inputs found by search, each for one place.

use super::shape::{mirror, rectangle, reorder, square, write, Ring};
use crate::draw::Draw;

fn case(place: usize) -> (f64, Vec<Ring>) {
    match place {
        // 18: tips of two notches meet.
        0 => (
            0.5,
            vec![vec![
                [0.0, 0.0],
                [1.0, 1.0],
                [2.0, 0.0],
                [2.0, 4.0],
                [1.0, 2.0],
                [0.0, 4.0],
            ]],
        ),
        // 18 with a hole.
        1 => (
            1.0,
            vec![
                square(7.0),
                vec![[5.0, 2.5], [6.0, 3.0], [6.0, 4.0], [3.5, 0.5]],
            ],
        ),
        2 => (
            16.0,
            vec![
                rectangle([-40.0, -40.0], [40.0, 40.0]),
                vec![
                    [8.0, 15.0],
                    [-12.0, 15.0],
                    [-15.0, 13.0],
                    [-26.0, -2.0],
                    [11.0, -7.0],
                    [9.0, -6.0],
                ],
            ],
        ),
        // Accepted with two joins and one hole.
        3 => (
            1.0,
            vec![
                square(9.0),
                vec![[6.0, 3.0], [5.0, 8.0], [5.0, 7.0], [1.0, 5.0], [1.0, 3.0]],
            ],
        ),
        // Accepted with a join and no hole.
        4 => (
            1.7,
            vec![vec![
                [0.0, 0.0],
                [4.5, -6.0],
                [6.0, 0.0],
                [7.5, -6.0],
                [7.5, 8.7],
                [6.0, 2.4],
                [4.5, 8.7],
            ]],
        ),
        // 17 from tidying: the T of four squares, a needle.
        5 => (
            0.6,
            vec![vec![
                [0.0, 0.0],
                [3.0, 0.0],
                [3.0, 1.0],
                [2.0, 1.0],
                [2.0, 2.0],
                [1.0, 2.0],
                [1.0, 1.0],
                [0.0, 1.0],
            ]],
        ),
        6 => (1.0, vec![vec![[0.0, 0.0], [1e6, 0.0], [2e6, 1.0]]]),
        // 27; handed in, 16 while loading.
        7 => (
            1.0,
            vec![
                rectangle([-1e9, -1e9], [1e9, 1e9]),
                vec![[5e8, 5e8], [5e8 + 1e-7, 5e8], [5e8, 5e8 + 1e-7]],
            ],
        ),
        8 => (
            1.0,
            vec![
                rectangle([-5e8, -5e8], [5e8, 5e8]),
                vec![[0.0, 0.0], [1e-9, 0.0], [0.0, 1e-9]],
            ],
        ),
        // 16 though much is left: an edge vanishes just at the distance.
        9 => (
            1.0,
            vec![vec![[0.0, 2.0], [4.0, 2.0], [5.0, 3.0], [3.0, 5.0]]],
        ),
        // A piece is flat: its area decides between 16 and left out.
        10 => (
            2.0,
            vec![square(9.0), vec![[8.0, 4.0], [1.0, 8.0], [3.0, 4.0]]],
        ),
        11 => (
            1.0,
            vec![
                square(9.0),
                vec![[2.0, 6.0], [2.0, 7.0], [4.0, 5.0], [1.0, 2.0]],
            ],
        ),
        // A piece of area 0 among the holes, left out.
        12 => (
            1.0,
            vec![square(5.0), vec![[2.0, 3.0], [4.0, 3.0], [2.0, 1.0]]],
        ),
        // A ring turned round: 17 of an outline, 16 of a region.
        13 => (
            1.0,
            vec![vec![[5.5, 3.5], [1.5, 6.5], [2.0, 5.5], [0.5, 3.5]]],
        ),
        // 4 of a piece, after joins.
        14 => (
            2.5,
            vec![square(9.0), vec![[1.0, 3.0], [3.0, 2.0], [6.0, 6.0]]],
        ),
        // 5 of a piece though it shrinks: two lines that meet far away.
        15 => (
            9.0,
            vec![vec![
                [0.0, 0.0],
                [-0.743611, -9.972314],
                [98.98, -17.4084],
                [98.236, -27.3807],
                [48.374347, -23.66268],
                [47.63073555, -33.635],
                [-52.0, -26.0],
            ]],
        ),
        // Accepted, with a spike between parallel edges.
        16 => (
            1.0,
            vec![square(5.0), vec![[2.0, 3.0], [1.0, 2.0], [1.0, 3.0]]],
        ),
        // 4 of a piece after a ring that vanished.
        17 => (
            1.0,
            vec![vec![
                [1.0, 0.0],
                [1.0, -1.0],
                [0.25, -1.0],
                [0.25, -3.0],
                [2.25, -3.0],
                [2.25, -1.0],
                [1.5, -1.0],
                [1.5, 0.0],
                [3.0, 0.0],
                [0.0, 4.0],
                [0.0, 0.0],
            ]],
        ),
        // Accepted, nearer than the distance: a tooth between levels that differ.
        18 => (
            1.0,
            vec![vec![
                [0.0, 0.0],
                [9.0, 0.0],
                [9.0, 4.0],
                [5.0, 4.0],
                [5.0, 6.0],
                [4.0, 6.0],
                [4.0, 3.0],
                [0.0, 3.0],
            ]],
        ),
        // Accepted without its left room: a spike's longer side goes too.
        19 => (
            0.6,
            vec![vec![
                [0.0, 0.0],
                [10.0, 0.0],
                [10.0, 4.0],
                [7.0, 1.0],
                [3.0, 1.0],
                [0.0, 4.0],
            ]],
        ),
        // 19: nine rings that count as holes.
        _ => {
            let mut rings = vec![vec![
                [0.0, 0.0],
                [0.0, -9.0],
                [40.0, -9.0],
                [40.0, -1.5],
                [7.0, 0.0],
                [23.0, 0.0],
                [22.5, 1.6],
                [22.0, 0.3],
                [21.5, 1.6],
                [21.0, 0.3],
                [20.5, 1.6],
            ]];
            for k in 0..8 {
                let east = 2.5 + 4.5 * f64::from(k);
                rings.push(vec![[east, -6.0], [east + 0.5, -6.0], [east, -5.5]]);
            }
            (0.9, rings)
        }
    }
}

/// One of the inputs, as it is or changed a little.
pub fn known(draw: &mut Draw, _: usize) -> Vec<u8> {
    let (mut distance, mut rings) = case(draw.below(21));
    if draw.once_in(3) {
        distance *= mirror(draw, &mut rings);
    }
    if draw.once_in(4) {
        reorder(draw, &mut rings);
    }
    write(false, distance, &rings)
}
