//! Regions: those that are drawn, those of outlines, those that are kept and handed in again.

use std::slice::from_ref;

use lizardwire::slices::{self, Rings};
use lizardwire::{Outline, Place, Point, Refusal, Region, REGION_NUMBERS};

const SHAPE: Refusal = Refusal::Shape;

fn square(from: f64, to: f64) -> Vec<Point> {
    vec![(from, from), (to, from), (to, to), (from, to)]
}

/// A closed comb of so many vertices, from one height to the next.
fn comb(count: usize, south: f64) -> Vec<Point> {
    let teeth = (0..count - 2).map(|k| (k as f64, south + (k % 2) as f64));
    let ends = [(count as f64, south + 9.0), (0.0, south + 9.0)];
    teeth.chain(ends).collect()
}

fn outline(points: &[Point]) -> Outline {
    Outline::new(points).unwrap()
}

fn numbers(rings: &[Vec<Point>]) -> Vec<f64> {
    rings.concat().iter().flat_map(|p| [p.0, p.1]).collect()
}

/// The square of side 10 with a hole of side 2 in its midst.
fn frame() -> Region {
    Region::new(&[square(0.0, 10.0), square(4.0, 6.0)]).unwrap()
}

#[test]
fn questions_of_a_region() {
    let region = frame();
    assert_eq!((region.area(), region.perimeter()), (96.0, 48.0));
    assert_eq!(region.counts(), [4, 4]);
    assert_eq!(region.rings(), [square(0.0, 10.0), square(4.0, 6.0)]);
    assert_eq!(region.numbers(), numbers(&region.rings()));
    assert_eq!(region.outer().vertices(), square(0.0, 10.0));
    assert_eq!(region.hole(0).unwrap().vertices(), square(4.0, 6.0));
    assert_eq!(region.holes(), [region.hole(0).unwrap()]);
    for beyond in [1, 7, 8, 9, usize::MAX / 2, usize::MAX] {
        assert_eq!(region.hole(beyond), None);
    }
}

#[test]
fn where_points_lie() {
    let region = frame();
    let places = [
        ((2.0, 2.0), Place::Inside),
        ((5.0, 5.0), Place::Outside),
        ((4.0, 5.0), Place::OnBoundary),
        ((10.0, 5.0), Place::OnBoundary),
        ((11.0, 5.0), Place::Outside),
        ((f64::MAX, f64::MIN), Place::Outside),
    ];
    for (point, place) in places {
        assert_eq!(region.contains(point), Ok(place), "{point:?}");
    }
    let nearest = region.nearest((3.0, 5.0)).unwrap();
    assert_eq!((nearest.distance, nearest.point), (1.0, (4.0, 5.0)));
    assert_eq!(region.distance_to_boundary((5.0, 4.5)), Ok(0.5));
    assert_eq!(region.closest_boundary_point((5.0, 4.5)), Ok((5.0, 4.0)));
    assert_eq!(
        region.closest_boundary_point((13.0, 14.0)),
        Ok((10.0, 10.0))
    );
    for (point, index) in [((f64::NAN, f64::NAN), 0), ((0.0, f64::INFINITY), 1)] {
        let refused = Refusal::NotFinite { index };
        assert_eq!(region.contains(point), Err(refused));
        assert_eq!(region.nearest(point), Err(refused));
        assert_eq!(region.distance_to_boundary(point), Err(refused));
        assert_eq!(region.closest_boundary_point(point), Err(refused));
    }
}

#[test]
fn an_inset_is_a_region_that_can_be_inset_again() {
    let once = frame().inset(0.5).unwrap();
    assert_eq!((once.area(), once.counts()), (72.0, &[4, 4][..]));
    let twice = once.inset(0.5).unwrap();
    assert_eq!(twice.area(), 48.0);
    assert_eq!(twice.contains((2.9, 5.0)), Ok(Place::Inside));
    assert_eq!(twice.contains((3.0, 5.0)), Ok(Place::OnBoundary));
    assert_eq!(twice.inset(0.0).unwrap(), twice);
    assert_eq!(Region::stored(twice.numbers(), twice.counts()), Ok(twice));
    let (refused, events) = once.inset_counted(1.5);
    assert_eq!(refused, Err(Refusal::Splits { distance: 1.5 }));
    assert_eq!(events.joins, 0);
    assert_eq!(once.inset(f64::NAN), Err(Refusal::Far));
    let negative = Refusal::Negative { distance: -1.0 };
    assert_eq!(once.inset(-1.0), Err(negative));
}

/// What is checked first and what is handed in have the same inset.
#[test]
fn an_inset_of_a_region_as_it_is_drawn() {
    let region = frame();
    let (mut drawn, mut stored) = ([7.0; REGION_NUMBERS], [7.0; REGION_NUMBERS]);
    let (n, c) = (region.numbers(), region.counts());
    let first = slices::region_inset(n, c, 0.75, &mut drawn);
    let second = slices::stored_region_inset(n, c, 0.75, &mut stored);
    assert_eq!(first, second);
    assert_eq!(drawn, stored);
    assert_eq!(drawn[16..], [7.0; REGION_NUMBERS - 16]);
    assert_eq!(first.0.unwrap().numbers(), 16);
}

#[test]
fn regions_of_outlines() {
    let outer = outline(&square(0.0, 10.0));
    let hole = outline(&square(4.0, 6.0));
    assert_eq!(Region::of_outlines(&outer, from_ref(&hole)), Ok(frame()));
    let alone = Region::of_outlines(&outer, &[]).unwrap();
    assert_eq!(alone, Region::without_holes(&outer));
    assert_eq!((alone.counts(), alone.area()), (&[4][..], 100.0));
    assert!(alone.holes().is_empty());
    assert_eq!(alone.inset(1.0).unwrap().outer(), outer.inset(1.0).unwrap());
    let told = |outer: &Outline, holes: &[Outline]| Region::of_outlines(outer, holes).unwrap_err();
    let outside = Refusal::HoleOutside { hole: 0 };
    assert_eq!(told(&hole, from_ref(&outer)), outside);
    let touch = Refusal::HolesTouch {
        first: 0,
        second: 1,
    };
    assert_eq!(told(&outer, &[hole.clone(), hole.clone()]), touch);
    let many = vec![hole; 9];
    assert_eq!(told(&outer, &many), Refusal::ManyHoles { holes: 9 });
    assert_eq!(told(&outer, &[outline(&comb(33, 1.0))]), SHAPE);
}

/// Eight holes of 32 vertices in an outline of 128: as many as there is room for.
#[test]
fn the_largest_region() {
    let mut outer: Vec<Point> = (0..126).map(|k| (k as f64, (k % 2) as f64)).collect();
    outer.extend([(126.0, 200.0), (-1.0, 200.0)]);
    let holes: Vec<Vec<Point>> = (0..8).map(|k| comb(32, 10.0 + 20.0 * k as f64)).collect();
    let rings: Vec<Vec<Point>> = std::iter::once(outer).chain(holes).collect();
    let region = Region::new(&rings).unwrap();
    assert_eq!(region.numbers().len(), REGION_NUMBERS);
    assert_eq!(region.holes().len(), 8);
    assert_eq!(region.hole(7).unwrap().vertices(), rings[8]);
    let again = Region::of_outlines(&region.outer(), &region.holes());
    assert_eq!(again.as_ref(), Ok(&region));
    assert_eq!(Region::stored(region.numbers(), region.counts()), again);
    assert!(matches!(region.inset(0.1), Err(Refusal::Slots { .. })));
}

/// Every function that takes a region as it is, of one that 21 does not pass; nothing is written.
fn refused_with_21(numbers: &[f64], counts: &[usize]) {
    let mut out = [7.0; REGION_NUMBERS];
    let nowhere = (f64::NAN, f64::NAN);
    let (n, c) = (numbers, counts);
    assert_eq!(slices::stored_region(n, c), Err(SHAPE), "{n:?} {c:?}");
    let (told, events) = slices::stored_region_inset(n, c, f64::NAN, &mut out);
    assert_eq!((told, events), (Err(SHAPE), Default::default()));
    assert_eq!(slices::region_contains(n, c, nowhere), Err(SHAPE));
    assert_eq!(slices::region_nearest(n, c, nowhere), Err(SHAPE));
    assert_eq!(slices::region_area(n, c), Err(SHAPE));
    assert_eq!(slices::region_perimeter(n, c), Err(SHAPE));
    assert_eq!(slices::region_outer(n, c, &mut out), Err(SHAPE));
    assert_eq!(slices::region_hole(n, c, 0, &mut out), Err(SHAPE));
    assert_eq!(slices::region_hole(n, c, usize::MAX, &mut []), Err(SHAPE));
    assert_eq!(Region::stored(n, c), Err(SHAPE));
    assert_eq!(out, [7.0; REGION_NUMBERS]);
}

#[test]
fn a_region_handed_in_that_is_none() {
    let good = numbers(&[square(0.0, 10.0), square(4.0, 6.0)]);
    let half = usize::MAX / 2 + 1;
    let bad_counts: [&[usize]; 14] = [
        &[],
        &[0],
        &[8, 0],
        &[4],
        &[4, 3],
        &[4, 5],
        &[4, 4, 0],
        &[6, 2],
        &[2, 6],
        &[usize::MAX, 9],
        &[half, half, 8],
        &[4, half],
        &[half + 4, half + 4],
        &[usize::MAX; 2],
    ];
    for counts in bad_counts {
        refused_with_21(&good, counts);
    }
    refused_with_21(&good[..15], &[4, 4]);
    refused_with_21(&[], &[]);
    refused_with_21(&[], &[0]);
    for bad in [f64::NAN, f64::INFINITY, 1.1e9, -1.1e9, f64::MAX] {
        for k in [0, 15] {
            let mut numbers = good.clone();
            numbers[k] = bad;
            refused_with_21(&numbers, &[4, 4]);
            assert_eq!(slices::given_region(&numbers, &[4, 4], &mut []), Err(SHAPE));
        }
    }
}

#[test]
fn a_region_handed_in_that_is_too_large() {
    let many: Vec<Vec<Point>> = std::iter::once(square(0.0, 10.0))
        .chain((0..9).map(|_| square(4.0, 6.0)))
        .collect();
    refused_with_21(&numbers(&many), &[4; 10]);
    let given = slices::given_region(&numbers(&many), &[4; 10], &mut []);
    assert_eq!(given, Err(Refusal::ManyHoles { holes: 9 }));
    for (outer, hole) in [(129, 3), (3, 33), (4, 128)] {
        let wide = numbers(&[comb(outer, 0.0), comb(hole, 2.0)]);
        refused_with_21(&wide, &[outer, hole]);
        let given = slices::given_region(&wide, &[outer, hole], &mut []);
        assert_eq!(given, Err(SHAPE));
    }
}

/// The numbers written by a call that is granted in `needed` numbers, refused in fewer.
fn written(needed: usize, call: &dyn Fn(&mut [f64]) -> Result<(), Refusal>) -> Vec<f64> {
    for room in 0..needed {
        let mut out = vec![7.0; room];
        assert_eq!(call(&mut out), Err(Refusal::Short { needed }), "{room}");
        assert_eq!(out, vec![7.0; room]);
    }
    let mut out = vec![7.0; needed + 3];
    assert_eq!(call(&mut out), Ok(()));
    assert_eq!(out.split_off(needed), [7.0; 3]);
    out
}

#[test]
fn short_output_is_left_as_it_was() {
    let region = frame();
    let (n, c) = (region.numbers(), region.counts());
    let rings = |told: Result<Rings, Refusal>| told.map(|rings| assert_eq!(rings.counts(), c));
    let count = |told: Result<usize, Refusal>| told.map(|count| assert_eq!(count, 4));
    let some = |told: Result<Option<usize>, Refusal>| told.map(|had| assert_eq!(had, Some(4)));
    let alone = |told: Result<Rings, Refusal>| told.map(|rings| assert_eq!(rings.counts(), [4]));
    let all = n.to_vec();
    assert_eq!(written(16, &|out| rings(slices::region(n, c, out))), all);
    assert_eq!(
        written(16, &|out| rings(slices::given_region(n, c, out))),
        all
    );
    assert_eq!(
        written(8, &|out| alone(slices::without_holes(&n[..8], out))),
        all[..8]
    );
    assert_eq!(
        written(8, &|out| count(slices::region_outer(n, c, out))),
        all[..8]
    );
    assert_eq!(
        written(8, &|out| some(slices::region_hole(n, c, 0, out))),
        all[8..]
    );
    let inset = frame().inset(1.0).unwrap();
    assert_eq!(
        written(16, &|out| rings(
            slices::stored_region_inset(n, c, 1.0, out).0
        )),
        inset.numbers()
    );
    assert_eq!(
        written(16, &|out| rings(slices::region_inset(n, c, 1.0, out).0)),
        inset.numbers()
    );
}

#[test]
fn a_hole_that_is_not_there_is_not_written() {
    let region = frame();
    let (n, c) = (region.numbers(), region.counts());
    let mut out = [7.0; 8];
    for k in [1, 8, usize::MAX] {
        assert_eq!(slices::region_hole(n, c, k, &mut out), Ok(None));
        assert_eq!(slices::region_hole(n, c, k, &mut []), Ok(None));
    }
    assert_eq!(out, [7.0; 8]);
}

/// 21 asks for counts and coordinates and nothing else: holes outside and edges that cross are taken as they are.
#[test]
fn a_stored_region_is_taken_as_it_is() {
    let apart = numbers(&[square(4.0, 6.0), square(0.0, 1.0)]);
    let region = Region::stored(&apart, &[4, 4]).unwrap();
    assert_eq!(region.numbers(), apart);
    assert_eq!((region.area(), region.perimeter()), (3.0, 12.0));
    assert_eq!(region.inset(0.0).as_ref(), Ok(&region));
    assert_eq!(region.inset(0.1), Err(Refusal::Splits { distance: 0.1 }));
    assert_eq!(
        Region::from_numbers(&apart, &[4, 4]),
        Err(Refusal::HoleOutside { hole: 0 })
    );
    assert_eq!(
        slices::given_region(&apart, &[4, 4], &mut []),
        Err(Refusal::HoleOutside { hole: 0 })
    );
}

#[test]
fn drawn_lengths_that_do_not_add_up() {
    let drawn = numbers(&[square(0.0, 10.0)]);
    for lengths in [&[][..], &[3], &[5], &[usize::MAX, 5], &[usize::MAX / 2 + 5]] {
        assert_eq!(
            Region::from_numbers(&drawn, lengths),
            Err(Refusal::Lengths),
            "{lengths:?}"
        );
    }
    assert_eq!(Region::from_numbers(&drawn[..7], &[4]), Err(Refusal::Odd));
}
