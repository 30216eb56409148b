//! The drawn examples E1 to E14, as far as the library has their functions.

use lizardwire::{hypot, Events, Outline, Place, Point, Refusal};

const S: [Point; 4] = [(0.0, 0.0), (4.0, 0.0), (4.0, 4.0), (0.0, 4.0)];

fn square() -> Outline {
    Outline::new(&S).unwrap()
}

#[test]
fn e1_too_few_points() {
    assert_eq!(Outline::new(&[]), Err(Refusal::Few { ring: 0, found: 0 }));
    assert_eq!(
        Outline::new(&[(1.0, 2.0), (1.0, 2.0)]),
        Err(Refusal::Few { ring: 0, found: 1 })
    );
}

#[test]
fn e2_a_closing_repeat_is_dropped() {
    let closed = [S[0], S[1], S[2], S[3], S[0]];
    assert_eq!(Outline::new(&closed).unwrap().vertices(), S);
}

#[test]
fn e3_a_clockwise_ring_is_stored_reversed() {
    assert_eq!(
        Outline::new(&[S[0], S[3], S[2], S[1]]).unwrap().vertices(),
        S
    );
}

#[test]
fn e4_a_flat_ring() {
    assert_eq!(
        Outline::new(&[(0.0, 0.0), (1.0, 0.0), (2.0, 0.0)]),
        Err(Refusal::Flat { ring: 0 })
    );
}

#[test]
fn e5_e6_edges_that_meet() {
    let bow = [(0.0, 0.0), (4.0, 4.0), (4.0, 0.0), (0.0, 2.0)];
    assert_eq!(
        Outline::new(&bow),
        Err(Refusal::Crossed {
            ring: 0,
            first: 0,
            second: 2
        })
    );
    let fold = [(0.0, 0.0), (4.0, 0.0), (4.0, 4.0), (4.0, 2.0), (0.0, 2.0)];
    assert_eq!(
        Outline::new(&fold),
        Err(Refusal::Crossed {
            ring: 0,
            first: 1,
            second: 2
        })
    );
}

#[test]
fn e7_where_points_lie() {
    assert_eq!(square().contains((2.0, 2.0)), Ok(Place::Inside));
    assert_eq!(square().contains((4.0, 2.0)), Ok(Place::OnBoundary));
    assert_eq!(square().contains((5.0, 2.0)), Ok(Place::Outside));
    assert_eq!(
        square().contains((f64::NAN, 2.0)),
        Err(Refusal::NotFinite { index: 0 })
    );
}

#[test]
fn e8_inset() {
    let (cage, events) = square().inset_counted(1.0);
    assert_eq!(
        cage.unwrap().vertices(),
        [(1.0, 1.0), (3.0, 1.0), (3.0, 3.0), (1.0, 3.0)]
    );
    assert_eq!(events, Events::default());
}

#[test]
fn e9_nothing_is_left() {
    let mut events = Events::default();
    assert_eq!(
        square().inset_counted(2.0),
        (Err(Refusal::Collapses { distance: 2.0 }), events)
    );
    events.collapses = 1;
    assert_eq!(
        square().inset_counted(3.0),
        (Err(Refusal::Collapses { distance: 3.0 }), events)
    );
}

#[test]
fn e10_outset() {
    let cage = square().outset(1.0).unwrap();
    assert_eq!(
        cage.vertices(),
        [(-1.0, 5.0), (-1.0, -1.0), (5.0, -1.0), (5.0, 5.0)]
    );
}

#[test]
fn e11_a_region() {
    use lizardwire::{slices, Region};
    let outer = [(0.0, 0.0), (10.0, 0.0), (10.0, 10.0), (0.0, 10.0)];
    let hole = [(4.0, 4.0), (6.0, 4.0), (6.0, 6.0), (4.0, 6.0)];
    let region = Region::new(&[outer, hole]).unwrap();
    assert_eq!(region.rings(), [outer.to_vec(), hole.to_vec()]);
    let cage = region.inset(1.0).unwrap();
    let grown = [(3.0, 7.0), (3.0, 3.0), (7.0, 3.0), (7.0, 7.0)];
    assert_eq!(cage.hole(0).unwrap().vertices(), grown);
    assert_eq!(region.inset(2.0), Err(Refusal::Splits { distance: 2.0 }));
    assert_eq!(
        Region::new(&[hole, outer]),
        Err(Refusal::HoleOutside { hole: 0 })
    );
    assert_eq!(Region::new::<Vec<Point>>(&[]), Err(Refusal::Lengths));
    let numbers: Vec<f64> = [outer, hole]
        .concat()
        .iter()
        .flat_map(|p| [p.0, p.1])
        .collect();
    let mut out = [7.0; 15];
    let (refused, _) = slices::region_inset(&numbers, &[4, 4], 1.0, &mut out);
    assert_eq!(refused, Err(Refusal::Short { needed: 16 }));
    assert_eq!(
        slices::region(&numbers, &[4, 4], &mut out),
        Err(Refusal::Short { needed: 16 })
    );
    assert_eq!(out, [7.0; 15]);
}

#[test]
fn e12_range() {
    assert!(Outline::new(&[(0.0, 0.0), (1e9, 0.0), (0.0, 1e9)]).is_ok());
    let above = f64::from_bits(1e9_f64.to_bits() + 1);
    assert_eq!(
        Outline::new(&[(0.0, 0.0), (above, 0.0), (0.0, 1e9)]),
        Err(Refusal::Range {
            ring: 0,
            value: above
        })
    );
}

#[test]
fn e13_hypot() {
    assert_eq!(hypot(3.0, 4.0), 5.0);
    // Other libraries round this root to its neighbour.
    assert_eq!(hypot(118.98, 454.86), 470.16365235947364);
}

#[test]
fn e14_distances() {
    assert_eq!(
        square().inset(-1.0),
        Err(Refusal::Negative { distance: -1.0 })
    );
    assert_eq!(square().inset(f64::NAN), Err(Refusal::Far));
    assert_eq!(
        square().inset(1e12),
        Err(Refusal::Collapses { distance: 1e12 })
    );
    assert_eq!(square().inset(-0.0).unwrap(), square());
}
