//! Exact turns, and numbers that are not finite, too large or tiny.
//!
//! What is told of points and regions here is told otherwise with rounded turns: docs/DIFFERENCES.md has the rows, and
//! oracle/tests/rounded.rs both answers. The numbers that are refused are so before anything is worked out with them.

use lizardwire::{slices, Outline, Place, Point, Refusal, Region};

const S: [f64; 8] = [0.0, 0.0, 4.0, 0.0, 4.0, 4.0, 0.0, 4.0];
const LEAST: f64 = 5e-324;

fn points(numbers: &[f64]) -> Vec<Point> {
    numbers.chunks(2).map(|v| (v[0], v[1])).collect()
}

/// 9 of ring 0.
fn crossed(first: usize, second: usize) -> Result<Outline, Refusal> {
    Err(Refusal::Crossed {
        ring: 0,
        first,
        second,
    })
}

/// Rounded turns refused the first ring, named the edges 0 and 3 of the second, and accepted the third.
#[test]
fn rings_almost_on_a_line() {
    let beside = [(2.6, 0.6), (0.1, 1.6), (1.5, 1.7), (1.85, 0.9)];
    let stored = [beside[0], beside[3], beside[2], beside[1]];
    assert_eq!(Outline::new(&beside).unwrap().vertices(), stored);
    let other = Outline::new(&[(0.8, 0.3), (1.4, 3.0), (1.6, 1.2), (1.2, 2.1)]);
    assert_eq!(other, crossed(0, 2));
    let touching = Outline::new(&[(0.1, 0.0), (0.2, 0.0), (0.2, 0.1), (0.4, 0.3)]);
    assert_eq!(touching, crossed(1, 3));
}

#[test]
fn points_almost_on_an_edge() {
    let rows = [
        (
            [(0.1, 0.4), (0.2, 0.4), (0.3, 0.2)],
            (0.2, 0.3),
            Place::Inside,
        ),
        (
            [(0.0, 0.4), (0.3, 0.1), (0.3, 0.0)],
            (0.2, 0.2),
            Place::Outside,
        ),
        (
            [(0.1, 0.2), (0.1, 0.4), (0.4, 0.7)],
            (0.2, 0.5),
            Place::OnBoundary,
        ),
        (
            [(0.1, 0.2), (0.0, 0.2), (0.7, 0.6)],
            (0.4, 0.4),
            Place::OnBoundary,
        ),
    ];
    for (ring, point, place) in rows {
        let outline = Outline::new(&ring).unwrap();
        assert_eq!(outline.contains(point), Ok(place), "{ring:?} {point:?}");
    }
}

#[test]
fn holes_that_touch_or_do_not() {
    let square = |side: f64| vec![(0.0, 0.0), (side, 0.0), (side, side), (0.0, side)];
    let told = |rings: &[&[Point]]| Region::new(rings).map(|region| region.rings().len());
    let outer = [(0.7, 0.4), (0.0, 0.6), (0.6, 0.0)];
    let hole = [(0.1, 0.5), (0.5, 0.1), (0.5, 0.4)];
    assert_eq!(told(&[&outer, &hole]), Ok(2));
    let outer = [(-0.09, 0.02), (-0.72, -0.12), (-0.54, -0.93), (0.09, -0.79)];
    let hole = [(-0.45, -0.06), (-0.48, -0.35), (-0.3, -0.31)];
    assert_eq!(
        told(&[&outer, &hole]),
        Err(Refusal::HoleOutside { hole: 0 })
    );
    let first = [(0.7, 0.9), (0.4, 0.6), (0.8, 0.2)];
    let second = [(0.2, 0.9), (0.2, 0.8), (0.6, 0.3)];
    assert_eq!(told(&[&square(1.1), &first, &second]), Ok(3));
    let first = [(1.5, 1.7), (0.3, 0.9), (0.4, 1.2)];
    let second = [(1.6, 1.5), (0.9, 1.3), (1.7, 0.5)];
    let touch = Refusal::HolesTouch {
        first: 0,
        second: 1,
    };
    assert_eq!(told(&[&square(1.9), &first, &second]), Err(touch));
}

#[test]
fn a_number_that_is_not_finite() {
    let outer = [(-9.0, -9.0), (9.0, -9.0), (9.0, 9.0), (-9.0, 9.0)];
    let square = Outline::from_numbers(&S).unwrap();
    for (k, bad) in [f64::NAN, f64::INFINITY, f64::NEG_INFINITY]
        .into_iter()
        .cycle()
        .take(8)
        .enumerate()
    {
        let mut ring = S;
        ring[k] = bad;
        let points = points(&ring);
        assert_eq!(slices::check(&ring), Err(Refusal::NotFinite { index: k }));
        assert_eq!(Outline::new(&points), Err(Refusal::NotFinite { index: k }));
        assert_eq!(
            Region::new(&[&outer[..], &points[..]]),
            Err(Refusal::NotFinite { index: 8 + k })
        );
        handed_in(&ring);
        assert_eq!(
            square.contains((bad, bad)),
            Err(Refusal::NotFinite { index: 0 })
        );
        assert_eq!(
            square.contains((2.0, bad)),
            Err(Refusal::NotFinite { index: 1 })
        );
    }
}

#[test]
fn a_number_that_is_too_large() {
    let outer = [(-9.0, -9.0), (9.0, -9.0), (9.0, 9.0), (-9.0, 9.0)];
    for (k, value) in [1e308, -1e308, f64::MAX, f64::MIN].into_iter().enumerate() {
        let mut ring = S;
        ring[k] = value;
        let points = points(&ring);
        assert_eq!(
            Outline::new(&points),
            Err(Refusal::Range { ring: 0, value })
        );
        assert_eq!(
            Region::new(&[&outer[..], &points[..]]),
            Err(Refusal::Range { ring: 1, value })
        );
        handed_in(&ring);
    }
}

/// A shape with such a number, handed in as it is.
fn handed_in(ring: &[f64]) {
    let mut out = [7.0; 256];
    assert_eq!(slices::contains(ring, (2.0, 2.0)), Err(Refusal::Shape));
    assert_eq!(slices::contains(ring, (f64::NAN, 2.0)), Err(Refusal::Shape));
    assert_eq!(slices::nearest(ring, (2.0, 2.0)), Err(Refusal::Shape));
    assert_eq!(slices::area(ring), Err(Refusal::Shape));
    assert_eq!(slices::meeting(ring, &S), Err(Refusal::Shape));
    assert_eq!(slices::meeting(&S, ring), Err(Refusal::Shape));
    assert_eq!(slices::inset(ring, 1.0, &mut out).0, Err(Refusal::Shape));
    assert_eq!(slices::outset(ring, 1.0, &mut out).0, Err(Refusal::Shape));
    assert_eq!(out, [7.0; 256]);
}

#[test]
fn distances() {
    let square = Outline::from_numbers(&S).unwrap();
    let region = Region::new(&[square.vertices()]).unwrap();
    for bad in [f64::NAN, f64::INFINITY, f64::NEG_INFINITY, 1e308, f64::MAX] {
        assert_eq!(square.inset(bad), Err(Refusal::Far));
        assert_eq!(square.outset(bad), Err(Refusal::Far));
        assert_eq!(region.inset(bad), Err(Refusal::Far));
    }
}

/// A point may be any finite one.
#[test]
fn points_of_any_size() {
    let square = Outline::from_numbers(&S).unwrap();
    let slope = Outline::new(&[(0.0, 0.0), (4.0, 4.0), (0.0, 4.0)]).unwrap();
    for far in [1e308, -1e308, f64::MAX, f64::MIN] {
        for point in [(far, 2.0), (2.0, far), (far, far), (far, LEAST)] {
            assert_eq!(square.contains(point), Ok(Place::Outside));
        }
        assert_eq!(slope.contains((far, far)), Ok(Place::Outside));
    }
    // Farther than the largest double.
    let corner = (f64::MAX, f64::MIN);
    let nearest = square.nearest(corner).unwrap();
    assert_eq!((nearest.distance, nearest.point), (0.0, corner));
    assert_eq!(square.contains((LEAST, 2.0)), Ok(Place::Inside));
    assert_eq!(square.contains((-LEAST, 2.0)), Ok(Place::Outside));
    assert_eq!(square.contains((LEAST, 0.0)), Ok(Place::OnBoundary));
    assert_eq!(slope.contains((LEAST, LEAST)), Ok(Place::OnBoundary));
}
