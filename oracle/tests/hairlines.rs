//! Question 27: short edges at the door, and past it.

mod big;

use std::cmp::Ordering;
use std::collections::{BTreeMap, BTreeSet};

use big::against_halfway;
use oracle::answer::{answer, answer_line, LEAST_EDGE};
use oracle::generate;
use oracle::job::Job;
use oracle::outlines::{Question, Shape};
use oracle::region::{PlanarPoint, Polygon};
use oracle::regions::Given;
use oracle::{stored, wrong};

type Ring<'a> = &'a [[f64; 2]];

const S: Ring = &[[0.0, 0.0], [4.0, 0.0], [4.0, 4.0], [0.0, 4.0]];
/// About the origin.
const BOX: Ring = &[[-9.0, -9.0], [9.0, -9.0], [9.0, 9.0], [-9.0, 9.0]];
/// Below the limit by a last bit.
const SHORT: f64 = f64::from_bits(LEAST_EDGE.to_bits() - 1);

fn job(distance: f64, rings: &[Ring]) -> Job {
    Job {
        outset: false,
        distance,
        counts: rings.iter().map(|ring| ring.len()).collect(),
        numbers: rings.iter().copied().flatten().flatten().copied().collect(),
    }
}

/// The number that refuses the inset, and its ring; 0 where it is accepted.
fn told(distance: f64, rings: &[Ring]) -> (u32, Option<usize>) {
    let job = job(distance, rings);
    let told = answer(&job).result;
    told.map_or_else(|refusal| (refusal.number, refusal.ring), |_| (0, None))
}

fn number(ring: Ring) -> u32 {
    let (number, place) = told(0.0, &[ring]);
    // As an outline from numbers, and as a region without holes.
    let numbers = ring.as_flattened().to_vec();
    let fields = |answer: Vec<u64>| (answer[0] as u32, answer[1] as usize);
    let same = (number, place.unwrap_or(0));
    assert_eq!(fields(Question::Outline(numbers.clone()).answer()), same);
    let lengths = vec![ring.len() as u64];
    let given = Given { lengths, numbers };
    assert_eq!(fields(Question::Region(given).answer()), same);
    number
}

#[test]
fn the_limit() {
    assert_eq!(LEAST_EDGE.to_bits(), 0x3eb0_c6f7_a0b5_ed8d);
    assert_eq!(number(&[[0.0, 0.0], [1e-6, 0.0], [4.0, 4.0]]), 0);
    assert_eq!(number(&[[0.0, 0.0], [SHORT, 0.0], [4.0, 4.0]]), 27);
    assert_eq!(number(&[[0.0, 0.0], [0.0, -SHORT], [4.0, 4.0]]), 27);
    // In any direction.
    assert_eq!(number(&[[0.0, 0.0], [7e-7, 7e-7], [0.0, 4.0]]), 27);
    assert_eq!(number(&[[0.0, 0.0], [7.08e-7, 7.08e-7], [0.0, 4.0]]), 0);
    assert_eq!(number(&[[0.0, 0.0], [6e-7, 8e-7], [0.0, 4.0]]), 0);
    // The closing edge, walked either way.
    assert_eq!(number(&[S[0], S[1], S[2], [0.0, SHORT]]), 27);
    assert_eq!(number(&[S[0], S[1], S[2], [0.0, 1e-6]]), 0);
    assert_eq!(number(&[S[0], [0.0, 4.0], S[2], S[1], [SHORT, 0.0]]), 27);
    // Doubles about 1e9 are 1.2e-7 apart: eight of them, and nine.
    let below = |places| f64::from_bits(1e9_f64.to_bits() - places);
    let far = |places| [[1e9, 0.0], [1e9, 4.0], [0.0, 4.0], [below(places), 0.0]];
    assert_eq!(number(&far(8)), 27);
    assert_eq!(number(&far(9)), 0);
}

#[test]
fn what_is_carried() {
    let hole: Ring = &[[0.0, 0.0], [SHORT, 0.0], [1.0, 1.0]];
    let line = |rings: &[Ring]| answer(&job(0.5, rings)).full_line();
    let full = |ring| format!("no,27;ring={ring};wholes=;floats=;events=0,0,0");
    assert_eq!(line(&[hole]), full(0));
    assert_eq!(line(&[BOX, hole]), full(1));
    let other: Ring = &[[5.0, 5.0], [6.0, 5.0], [5.0, 6.0]];
    assert_eq!(line(&[BOX, other, hole]), full(2));
}

#[test]
fn its_place_among_the_questions() {
    let (s, first) = (SHORT, [0.0, 0.0]);
    let nan = f64::NAN;
    // 4, 5, 6 and 7 of the ring before it, wherever they are.
    assert_eq!(number(&[first, [s, 0.0]]), 4);
    assert_eq!(number(&[first, [s, 0.0], [4.0, 2e9]]), 5);
    let mut many: Vec<[f64; 2]> = (0..129).map(|k| [f64::from(k), f64::from(k * k)]).collect();
    many[128] = [s, 0.0];
    assert_eq!(number(&many), 6);
    many.remove(64);
    assert_eq!(number(&many), 27);
    assert_eq!(number(&[first, [s, 0.0], S[2], S[2], S[3]]), 7);
    assert_eq!(number(&[S[1], S[1], S[2], first, [s, 0.0]]), 7);
    // 8 and 9 after it.
    assert_eq!(number(&[first, [s, 0.0], [2.0, 0.0]]), 27);
    assert_eq!(number(&[first, [1e-6, 0.0], [2.0, 0.0]]), 8);
    assert_eq!(number(&[first, [s, 0.0], S[2], S[1], [0.0, 2.0]]), 27);
    assert_eq!(number(&[first, [1e-6, 0.0], S[2], S[1], [0.0, 2.0]]), 9);
    // Ring by ring; before 10, 11 and 13.
    let hair: Ring = &[first, [s, 0.0], [1.0, 1.0]];
    let repeated: Ring = &[[1.0, 1.0], [1.0, 1.0], [2.0, 1.0]];
    let flat: Ring = &[[1.0, 1.0], [2.0, 2.0], [3.0, 3.0]];
    assert_eq!(told(nan, &[hair, &[]]), (27, Some(0)));
    assert_eq!(told(nan, &[hair, repeated]), (27, Some(0)));
    assert_eq!(told(nan, &[flat, hair]), (8, Some(0)));
    assert_eq!(told(nan, &[BOX, repeated, hair]), (7, Some(1)));
    assert_eq!(told(nan, &[BOX, hair, repeated]), (27, Some(1)));
    assert_eq!(
        told(nan, &[S, &[first, [s, 0.0], [9.0, 9.0]]]),
        (27, Some(1))
    );
    let mut holes = vec![BOX];
    holes.extend([S; 8]);
    holes.push(hair);
    assert_eq!(told(nan, &holes), (27, Some(9)));
    assert_eq!(told(nan, &[hair]), (27, Some(0)));
}

#[test]
fn one_closing_repeat_is_dropped_before() {
    let zero = [-0.0, 0.0];
    assert_eq!(number(&[S[0], S[1], S[2], S[3], S[0]]), 0);
    assert_eq!(number(&[S[0], S[1], S[2], S[3], zero]), 0);
    assert_eq!(number(&[S[0], S[1], S[2], S[3], S[0], S[0]]), 7);
    // Once it is dropped the edge before it closes the ring.
    assert_eq!(number(&[S[0], S[1], S[2], [0.0, SHORT], S[0]]), 27);
    assert_eq!(number(&[S[0], S[1], S[2], [0.0, SHORT], S[0], S[0]]), 7);
    assert_eq!(number(&[S[0], S[1], S[2], [0.0, SHORT]]), 27);
}

/// The length of each edge of a shape, the closing one last.
fn least_edge(shape: &Shape) -> f64 {
    let ring: Vec<&[f64]> = shape.numbers.chunks_exact(2).collect();
    let next = ring.iter().cycle().skip(1);
    let lengths = ring
        .iter()
        .zip(next)
        .map(|(a, b)| (b[0] - a[0]).hypot(b[1] - a[1]));
    lengths.fold(f64::INFINITY, f64::min)
}

/// "So an inset with a hairline can be inset again."
#[test]
fn an_inset_with_a_hairline() {
    // The piece is not asked.
    let left = wrong::left_of_cut();
    assert_eq!(left.count, 5);
    let least = least_edge(&left);
    assert!((2.2e-7..2.4e-7).contains(&least), "{least}");
    // From outside it is refused.
    let ring: Vec<[f64; 2]> = left.numbers.chunks_exact(2).map(|p| [p[0], p[1]]).collect();
    assert_eq!(told(0.1, &[&ring]), (27, Some(0)));
    // Handed in it is inset, as an outline and as a region.
    let outline = Question::Offset(false, 0.1, left.clone()).answer();
    let given = Given {
        lengths: vec![left.count],
        numbers: left.numbers.clone(),
    };
    let region = Question::Again(0.1, given.clone()).answer();
    assert_eq!(outline[..8], [0, 0, 0, 0, 0, 1, 0, 0]);
    assert_eq!(region[..8], outline[..8]);
    assert_eq!(outline[8], 4);
    assert_eq!(region[8..18], [1, 4, 0, 0, 0, 0, 0, 0, 0, 0]);
    assert_eq!(region[18..], outline[9..]);
    // By 0 it is itself.
    let itself = Question::Again(0.0, given).answer();
    let bits: Vec<u64> = left.numbers.iter().map(|x| x.to_bits()).collect();
    assert_eq!(itself[18..], bits);
    // What else is asked of it is answered.
    let point = [ring[0][0] + 0.1, ring[0][1] + 0.1];
    assert_eq!(Question::Contains(left.clone(), point).answer(), [0, 0, 2]);
    assert_eq!(Question::Measures(left.clone()).answer()[0], 0);
    assert_eq!(Question::Clearance(left.clone(), left).answer(), [0, 0]);
}

#[test]
fn a_region_handed_in() {
    let numbers = |rings: &[Ring]| rings.concat().as_flattened().to_vec();
    let number = |lengths: &[u64], numbers: Vec<f64>| {
        let lengths = lengths.to_vec();
        Question::Again(1.0, Given { lengths, numbers }).answer()
    };
    let refused = [vec![21], vec![0; 17]].concat();
    // No ring, lengths that do not add up, an odd count.
    assert_eq!(number(&[], vec![]), refused);
    assert_eq!(number(&[4], numbers(&[S, S])), refused);
    assert_eq!(number(&[4, 4], numbers(&[S])), refused);
    assert_eq!(number(&[4, u64::MAX], numbers(&[S])), refused);
    assert_eq!(number(&[4], [numbers(&[S]), vec![0.0]].concat()), refused);
    // Rings of 2, 129 and 33 vertices, nine holes.
    assert_eq!(number(&[2], numbers(&[&S[..2]])), refused);
    let round = |count: u32| -> Vec<[f64; 2]> {
        let at = |k| f64::from(k) / f64::from(count) * core::f64::consts::TAU;
        (0..count).map(|k| [at(k).cos(), at(k).sin()]).collect()
    };
    assert_eq!(number(&[129], numbers(&[&round(129)])), refused);
    assert_eq!(number(&[4, 33], numbers(&[BOX, &round(33)])), refused);
    let nine = [&[4][..], &[3; 9]].concat();
    let small: Ring = &S[..3];
    let rings = [&[BOX][..], &[small; 9]].concat();
    assert_eq!(number(&nine, numbers(&rings)), refused);
    // A number that is not finite or not in range.
    for wrong in [
        f64::NAN,
        f64::INFINITY,
        f64::from_bits(1e9_f64.to_bits() + 1),
    ] {
        for place in 0..8 {
            let mut spoilt = numbers(&[S]);
            spoilt[place] = wrong;
            assert_eq!(number(&[4], spoilt), refused);
        }
    }
    // Past 21: 13 and 14, then the inset.
    let hole: Ring = &[[0.0, 0.0], [9e-7, 0.0], [1.0, 1.0], [0.0, 1.0]];
    let given = Given {
        lengths: vec![4, 4],
        numbers: numbers(&[BOX, hole]),
    };
    let asked = |distance| Question::Again(distance, given.clone()).answer();
    assert_eq!(asked(f64::NAN)[..5], [13, 0, 0, 0, 0]);
    assert_eq!(asked(-1.0)[..5], [14, 0, 0, 0, (-1.0_f64).to_bits()]);
    let granted = asked(1.0);
    assert_eq!((granted[0], granted[8]), (0, 2));
    assert_eq!(Question::RegionInset(1.0, given).answer()[..2], [27, 1]);
}

/// Of a region handed in an edge may be lost while it is loaded: 16, before 15
/// where that edge has no room.
#[test]
fn lost_while_loading() {
    let mut met = [0; 2];
    for line in stored::chosen_given() {
        let job = Job::read(line).expect("a job");
        let asked = Question::of_given(&job).expect("a shape");
        let answer = asked.answer();
        let edges: usize = job.counts.iter().sum();
        if answer[..9] == [16, 0, 0, 0, 1.0_f64.to_bits(), 0, 0, 0, 0] {
            met[usize::from(edges > 128)] += 1;
        }
    }
    assert_eq!(met, [4, 2]);
}

/// Whether the rounded length is below the limit, told without a root: the sum
/// of the squares against that of the number halfway to the double below. The
/// limit's last bit is 1, so that number itself rounds down.
fn below_the_limit(east: f64, north: f64) -> bool {
    let order = against_halfway(east, north, LEAST_EDGE.to_bits() - 1);
    order != Ordering::Greater
}

/// Questions 4 to 9 and 27 of a ring, by themselves; 8 and 9 as the reference
/// answers them.
fn door(ring: Ring, room: usize) -> u32 {
    let mut kept = ring.to_vec();
    if kept.len() > 1 && kept.first() == kept.last() {
        kept.pop();
    }
    if kept.len() < 3 {
        return 4;
    }
    for (k, p) in kept.iter().enumerate() {
        if p.iter().any(|x| x.abs() > 1e9) {
            return 5;
        }
        if k >= room {
            return 6;
        }
    }
    let mut edges = kept.clone();
    edges.push(kept[0]);
    if edges.windows(2).any(|edge| edge[0] == edge[1]) {
        return 7;
    }
    let short = |edge: &[[f64; 2]]| {
        let [east, north] = [0, 1].map(|axis| edge[1][axis] - edge[0][axis]);
        below_the_limit(east, north)
    };
    if edges.windows(2).any(short) {
        return 27;
    }
    let points: Vec<PlanarPoint> = kept
        .iter()
        .map(|p| PlanarPoint::from_metres(p[0], p[1]).expect("finite"))
        .collect();
    match Polygon::<128>::new(&points) {
        Ok(_) => 0,
        Err(error) if format!("{error:?}").contains("zero area") => 8,
        Err(_) => 9,
    }
}

/// What the door tells of the rings of a job: the first that is refused.
fn at_the_door(job: &Job) -> Option<(u32, usize)> {
    let rings: usize = job.counts.iter().sum();
    let sound = job.numbers.iter().all(|x| x.is_finite());
    if !sound || job.counts.is_empty() || 2 * rings != job.numbers.len() {
        return None;
    }
    let points: Vec<[f64; 2]> = job.numbers.chunks_exact(2).map(|p| [p[0], p[1]]).collect();
    let mut from = 0;
    for (place, count) in job.counts.iter().enumerate() {
        let room = if place == 0 { 128 } else { 32 };
        let number = door(&points[from..from + count], room);
        if number > 0 {
            return Some((number, place));
        }
        from += count;
    }
    Some((0, 0))
}

/// Drawn jobs are refused at the door where it by itself refuses them, with the
/// same number and ring.
#[test]
fn the_door_by_itself() {
    let mut met: BTreeMap<(u32, bool), usize> = BTreeMap::new();
    let drawn = |family, count: u64| (0..count).map(move |k| generate::line(11, k, false, family));
    let lines = drawn(Some("hairline"), 20_000)
        .chain(drawn(Some("chamfer"), 2_000))
        .chain(drawn(None, 10_000));
    for line in lines {
        let line = line.expect("a line");
        let Some(job) = Job::read(&line) else {
            continue;
        };
        let Some((number, place)) = at_the_door(&job) else {
            continue;
        };
        let answer = answer_line(&line);
        let told = answer.result.as_ref().err();
        // A piece's 4 to 6 come after the door.
        let told = told.filter(|refusal| refusal.ring.is_some() && answer.rings == 0);
        let told = told.map(|refusal| (refusal.number, refusal.ring));
        let wanted = (number > 0).then_some((number, Some(place)));
        let line = String::from_utf8_lossy(&line);
        assert_eq!(told, wanted, "{line}");
        *met.entry((number, place > 0)).or_default() += 1;
    }
    for number in [4, 5, 6, 7, 8, 9, 27] {
        for hole in [false, true] {
            let count = met.get(&(number, hole)).copied().unwrap_or(0);
            assert!(count > 50, "{number} {hole}: {met:?}");
        }
    }
}

/// Edges about the limit, by last places from it, of rings that are otherwise
/// accepted or 27.
#[test]
fn both_sides_of_the_limit_are_drawn() {
    let mut met: BTreeMap<i64, usize> = BTreeMap::new();
    let (mut closing, mut slanted) = (0, 0);
    for index in 0..5_000 {
        let line = generate::line(12, index, true, Some("hairline")).expect("a line");
        let job = Job::read(&line).expect("a job");
        let [count] = job.counts[..] else {
            continue;
        };
        let points: Vec<&[f64]> = job.numbers.chunks_exact(2).collect();
        for k in 0..count {
            let (a, b) = (points[k], points[(k + 1) % count]);
            let (east, north) = (b[0] - a[0], b[1] - a[1]);
            let length = oracle::hypot::exact(east, north);
            let places = length.to_bits() as i64 - LEAST_EDGE.to_bits() as i64;
            if places.abs() <= 2 {
                *met.entry(places).or_default() += 1;
                closing += usize::from(k + 1 == count);
                slanted += usize::from(east.abs().min(north.abs()) > 1e-7);
            }
        }
    }
    for places in -2..=2 {
        assert!(met.get(&places) > Some(&60), "{met:?}");
    }
    assert!(closing > 200 && slanted > 300, "{closing} {slanted}");
}

/// The answers that are wrong on purpose are wrong, each reading is there, and
/// the right one is what R-7 says.
#[test]
fn misread_hairlines_are_wrong() {
    let lines = wrong::lines();
    let mut names = BTreeSet::new();
    for (name, asked, told) in wrong::misread_hairlines() {
        let right = asked.answer();
        assert_ne!(told, right, "{name}");
        let line = (Some(asked.kind()), asked.line_with(&told));
        assert!(lines.contains(&line), "{name}");
        let refused = match name {
            "just that long" | "by the greater side" | "by east alone" => 0,
            "the repeat not dropped" | "handed in" | "a piece asked" => 0,
            "before 4" => 4,
            "before 5" => 5,
            "before 7" => 7,
            _ => 27,
        };
        assert_eq!(right[0], refused, "{name}");
        let unasked = ["no closing edge", "by both sides added", "no hole asked"];
        match name {
            "after 8" => assert_eq!(told[0], 8),
            "after 9" => assert_eq!(told[0], 9),
            "the outer ring's number" => assert_eq!((told[1], right[1]), (0, 1)),
            _ => assert_eq!(told[0] == 0, unasked.contains(&name), "{name}"),
        }
        names.insert(name);
    }
    assert_eq!(names.len(), 15);
}
