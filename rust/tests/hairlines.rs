//! Edges that are too short for a drawing: 27. Asked of numbers and of job lines, and of no outline or region that is at hand.

use lizardwire::slices;
use lizardwire::{
    answer_jobs, answer_line, Outline, Place, Point, Refusal, Region, REGION_NUMBERS,
};

const LEAST: f64 = 1e-6;
const HAIR: f64 = 1.7071065;

fn hairline(ring: usize) -> Refusal {
    Refusal::Hairline { ring }
}

fn below(number: f64) -> f64 {
    f64::from_bits(number.to_bits() - 1)
}

fn square(from: f64, to: f64) -> Vec<Point> {
    vec![(from, from), (to, from), (to, to), (from, to)]
}

/// The job line of an inset of these rings by 1.
fn job(rings: &[Vec<Point>]) -> String {
    let bits = |number: f64| format!("{:016x}", number.to_bits());
    let counts = rings.iter().map(|ring| ring.len().to_string());
    let numbers = rings
        .concat()
        .into_iter()
        .flat_map(|p| [bits(p.0), bits(p.1)]);
    let head = ["inset".to_string(), bits(1.0), rings.len().to_string()];
    let fields: Vec<String> = head.into_iter().chain(counts).chain(numbers).collect();
    fields.join(",")
}

/// What each door says to these rings, which is the same: a region, its inset, a job, and an outline where there is one ring. Where
/// it is refused, nothing is written, however short the output is.
fn at_the_door(rings: &[Vec<Point>]) -> Result<(), Refusal> {
    let numbers: Vec<f64> = rings.concat().iter().flat_map(|p| [p.0, p.1]).collect();
    let lengths: Vec<usize> = rings.iter().map(Vec::len).collect();
    let told = Region::new(rings).map(|_| ());
    if let Err(refused) = told {
        let mut out = [7.0; REGION_NUMBERS];
        assert_eq!(slices::region(&numbers, &lengths, &mut out), Err(refused));
        assert_eq!(slices::region(&numbers, &lengths, &mut []), Err(refused));
        for distance in [1.0, f64::NAN] {
            let inset = slices::region_inset(&numbers, &lengths, distance, &mut out);
            assert_eq!(inset, (Err(refused), Default::default()));
        }
        assert_eq!(out, [7.0; REGION_NUMBERS]);
        let line = format!("no,{}", refused.number());
        assert_eq!(answer_line(job(rings).as_bytes()), line.as_bytes());
        let mut answers = Vec::new();
        answer_jobs(job(rings).as_bytes(), &mut answers).unwrap();
        assert_eq!(answers, format!("{line}\n").as_bytes());
        answers.clear();
        answer_jobs(format!("{}\n", job(rings)).as_bytes(), &mut answers).unwrap();
        assert_eq!(answers, format!("{line}\n").as_bytes());
    }
    if let [ring] = rings {
        assert_eq!(Outline::new(ring).map(|_| ()), told);
        assert_eq!(slices::check(&numbers).map(|_| ()), told);
        if told.is_err() {
            let mut out = [7.0; 8];
            for room in [0, 8] {
                let written = slices::outline(&numbers, &mut out[..room]);
                assert_eq!(written.map(|_| ()), told);
            }
            assert_eq!(out, [7.0; 8]);
        }
    }
    told
}

fn of_ring(ring: &[Point]) -> Result<(), Refusal> {
    at_the_door(&[ring.to_vec()])
}

/// The least length, along an axis and aslant; the closing edge; where doubles are farther apart.
#[test]
fn how_short() {
    for (length, told) in [(LEAST, Ok(())), (below(LEAST), Err(hairline(0)))] {
        assert_eq!(of_ring(&[(0.0, 0.0), (length, 0.0), (4.0, 4.0)]), told);
        assert_eq!(of_ring(&[(0.0, 0.0), (4.0, -4.0), (0.0, length)]), told);
        assert_eq!(of_ring(&[(0.0, 0.0), (0.0, -length), (4.0, 4.0)]), told);
    }
    for (side, told) in [(7.08e-7, Ok(())), (7e-7, Err(hairline(0)))] {
        assert_eq!(of_ring(&[(0.0, 0.0), (side, side), (0.0, 4.0)]), told);
        assert_eq!(of_ring(&[(0.0, 0.0), (0.0, 4.0), (side, -side)]), told);
    }
    let far = below(1e9);
    assert_eq!(of_ring(&[(1e9, 0.0), (far, 4.0), (0.0, 4.0)]), Ok(()));
    let near = [(1e9, 0.0), (1e9, 1e9), (far, 1e9), (0.0, 4.0)];
    assert_eq!(of_ring(&near), Err(hairline(0)));
}

/// One closing repeat is dropped, and has no edge; two are 7.
#[test]
fn closing_repeats() {
    let mut ring = square(0.0, 4.0);
    ring.push((0.0, 0.0));
    assert_eq!(of_ring(&ring), Ok(()));
    ring.push((0.0, 0.0));
    assert_eq!(of_ring(&ring), Err(Refusal::Repeated { ring: 0 }));
    ring[4] = (5e-7, 0.0);
    assert_eq!(of_ring(&ring), Err(hairline(0)));
}

#[test]
fn order_in_a_ring() {
    // 8 and 9 come after it.
    assert_eq!(
        of_ring(&[(0.0, 0.0), (1e-7, 0.0), (2.0, 0.0)]),
        Err(hairline(0))
    );
    let bow = [(0.0, 0.0), (4.0, 4.0), (4.0, 0.0), (0.0, 2.0), (0.0, 1e-7)];
    assert_eq!(of_ring(&bow), Err(hairline(0)));
    // 2 and 4 to 7 come before it, wherever they are.
    let mut ring = vec![(0.0, 0.0), (4.0, 0.0), (4.0, 1e-7), (4.0, 4.0)];
    assert_eq!(of_ring(&ring), Err(hairline(0)));
    let few = Refusal::Few { ring: 0, found: 2 };
    assert_eq!(of_ring(&ring[1..3]), Err(few));
    for twice in [(4.0, 4.0), (0.0, 0.0)] {
        let closed = [&ring[..], &[twice, twice]].concat();
        assert_eq!(of_ring(&closed), Err(Refusal::Repeated { ring: 0 }));
    }
    let teeth = (0..126).map(|k| (f64::from(k), f64::from(k % 2)));
    let ends = [(126.0, 9.0), (-1.0, 9.0), (-1.0, 8.9999999)];
    let full: Vec<Point> = teeth.chain(ends).collect();
    let room = Refusal::Room {
        ring: 0,
        needed: 129,
        room: 128,
    };
    assert_eq!(of_ring(&full), Err(room));
    ring[3].1 = 2e9;
    let range = Refusal::Range {
        ring: 0,
        value: 2e9,
    };
    assert_eq!(of_ring(&ring), Err(range));
    ring[3].1 = f64::NAN;
    assert_eq!(of_ring(&ring), Err(Refusal::NotFinite { index: 7 }));
    let odd = [0.0, 0.0, 1e-7, 0.0, 4.0, 4.0, 1.0];
    assert_eq!(Outline::from_numbers(&odd), Err(Refusal::Odd));
    let short = Region::from_numbers(&odd[..6], &[4]);
    assert_eq!(short, Err(Refusal::Lengths));
}

#[test]
fn order_of_rings() {
    let outer = square(0.0, 20.0);
    let hair: Vec<Point> = vec![(4.0, 4.0), (6.0, 4.0), (6.0, 6.0), (4.0, 4.0000001)];
    let hair_outer = [&outer[..3], &[(0.0, 1e-7)]].concat();
    let good = square(8.0, 9.0);
    let bow = vec![(8.0, 8.0), (9.0, 9.0), (9.0, 8.0), (8.0, 8.5)];
    let outside = vec![(40.0, 4.0), (60.0, 4.0), (60.0, 6.0), (40.0, 4.0000001)];
    let told = |rings: [&Vec<Point>; 3]| at_the_door(&rings.map(Clone::clone)).unwrap_err();
    assert_eq!(told([&outer, &hair, &good]), hairline(1));
    assert_eq!(told([&outer, &good, &hair]), hairline(2));
    // All of a ring before anything of the next.
    assert_eq!(told([&hair_outer, &good[..2].to_vec(), &good]), hairline(0));
    assert_eq!(told([&outer, &hair, &good[..2].to_vec()]), hairline(1));
    assert_eq!(told([&outer, &hair, &bow]), hairline(1));
    let crossed = |ring| Refusal::Crossed {
        ring,
        first: 0,
        second: 2,
    };
    assert_eq!(told([&outer, &bow, &hair]), crossed(1));
    assert_eq!(told([&bow, &hair, &good]), crossed(0));
    // All rings before 10, 11 and 12.
    assert_eq!(told([&outer, &good, &outside]), hairline(2));
    assert_eq!(told([&outer, &hair, &hair]), hairline(1));
    let mut many = vec![outer];
    many.extend(vec![good; 8]);
    many.push(hair);
    assert_eq!(at_the_door(&many), Err(hairline(9)));
}

/// A square of side 4 with a corner cut off; by this distance a hair is left of that edge.
#[test]
fn an_inset_with_a_hairline_is_inset_again() {
    let house = [(0.0, 0.0), (4.0, 0.0), (4.0, 4.0), (1.0, 4.0), (0.0, 3.0)];
    let cage = Outline::new(&house).unwrap().inset(HAIR).unwrap();
    let (start, end) = cage.edge(3).unwrap();
    let length = lizardwire::hypot(end.0 - start.0, end.1 - start.1);
    assert!((2.3e-7..2.4e-7).contains(&length), "{length}");
    assert_eq!(of_ring(&cage.vertices()), Err(hairline(0)));
    let words = Outline::new(&cage.vertices()).unwrap_err();
    let words = words.in_drawing(&[cage.vertices()]);
    assert!(
        words.starts_with("vertices 3 and 4 of the outline, at ("),
        "{words}"
    );
    assert!(
        words.ends_with(" apart: edge 3 is shorter than 0.000001"),
        "{words}"
    );
    // As it is.
    let again = cage.inset(0.1).unwrap();
    let corners = square(1.8071065, 2.1928935);
    assert_eq!(again.vertices().len(), 4);
    for (vertex, corner) in again.vertices().iter().zip(corners) {
        assert!((vertex.0 - corner.0).abs() < 1e-6 && (vertex.1 - corner.1).abs() < 1e-6);
    }
    assert!(cage.outset(0.1).is_ok());
    assert!(cage.area() > 0.34 && cage.perimeter() > 2.3 && cage.extent() > 2.29);
    assert_eq!(cage.contains((2.0, 2.0)), Ok(Place::Inside));
    assert!(cage.nearest((2.0, 9.0)).unwrap().distance > 6.0);
    let source = Outline::new(&house).unwrap();
    assert!(cage.clearance(&source) > 1.7 && cage.meeting(&source).is_none());
    assert_eq!(Outline::stored(cage.numbers()).as_ref(), Ok(&cage));
    // As a region without holes.
    let alone = Region::without_holes(&cage);
    assert_eq!(alone.inset(0.1).unwrap().outer(), again);
    assert_eq!(Region::of_outlines(&cage, &[]), Ok(alone.clone()));
    assert_eq!(alone.outer(), cage);
    let drawn = Region::new(&[house]).unwrap();
    assert_eq!(drawn.inset(HAIR), Ok(alone));
}

/// A region with a hairline in its outer ring, and one with a hairline in its hole.
#[test]
fn an_inset_region_with_a_hairline_is_inset_again() {
    let cut = vec![
        (0.0, 0.0),
        (20.0, 0.0),
        (20.0, 20.0),
        (1.0, 20.0),
        (0.0, 19.0),
    ];
    let inner = vec![
        (5.0, 5.0),
        (15.0, 5.0),
        (15.0, 9.0),
        (10.0, 9.0),
        (9.0, 10.0),
        (9.0, 15.0),
        (5.0, 15.0),
    ];
    let rows = [
        ([cut, square(9.0, 11.0)], 0, [4, 4]),
        ([square(0.0, 20.0), inner], 1, [4, 6]),
    ];
    for (drawn, ring, counts) in rows {
        let cage = Region::new(&drawn).unwrap().inset(HAIR).unwrap();
        assert_eq!(cage.counts(), drawn.map(|ring| ring.len()));
        assert_eq!(at_the_door(&cage.rings()), Err(hairline(ring)));
        let again = cage.inset(0.1).unwrap();
        assert_eq!(again.counts(), counts);
        assert_eq!(at_the_door(&again.rings()), Ok(()));
        assert_eq!(
            Region::stored(cage.numbers(), cage.counts()).as_ref(),
            Ok(&cage)
        );
        let outlines = Region::of_outlines(&cage.outer(), &cage.holes());
        assert_eq!(outlines.unwrap().inset(0.1), Ok(again));
        assert!(cage.area() > 0.0 && cage.perimeter() > 0.0);
        assert!(cage.contains((2.0, 2.0)).is_ok() && cage.nearest((2.0, 2.0)).is_ok());
    }
}
