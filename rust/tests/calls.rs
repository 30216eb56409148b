//! Bad input and short output, and what the crate adds to the library.

use lizardwire::{
    hypot, slices, Events, Meeting, Nearest, NearestPoints, Outline, Place, Point, Refusal, Region,
};

const S: [f64; 8] = [0.0, 0.0, 4.0, 0.0, 4.0, 4.0, 0.0, 4.0];

fn comb(count: usize) -> Vec<Point> {
    let teeth = (0..count - 2).map(|k| (k as f64, 1.0 + (k % 2) as f64));
    teeth.chain([(count as f64, 9.0), (0.0, 9.0)]).collect()
}

#[test]
fn bad_numbers() {
    assert_eq!(slices::check(&S), Ok(4));
    assert_eq!(slices::check(&S[..7]), Err(Refusal::Odd));
    assert_eq!(
        Outline::from_numbers(&[0.0, 0.0, 1.0, f64::INFINITY]),
        Err(Refusal::NotFinite { index: 3 })
    );
    assert_eq!(
        Outline::new(&[(0.0, 0.0), (4.0, 0.0), (4.0, 0.0), (0.0, 4.0)]),
        Err(Refusal::Repeated { ring: 0 })
    );
    assert_eq!(Outline::new(&comb(128)).unwrap().vertices().len(), 128);
    assert_eq!(
        Outline::new(&comb(129)),
        Err(Refusal::Room {
            ring: 0,
            needed: 129,
            room: 128
        })
    );
}

#[test]
fn a_shape_handed_in_that_is_none() {
    let full = [0.5; 2 * 129];
    let none: [&[f64]; 6] = [
        &[],
        &S[..4],
        &S[..7],
        &full,
        &[0.0, 0.0, 2e9, 0.0, 0.0, 1.0],
        &[f64::NAN; 6],
    ];
    for shape in none {
        let mut out = [7.0; 256];
        let refused = Refusal::Shape;
        assert_eq!(slices::contains(shape, (f64::NAN, 0.0)), Err(refused));
        assert_eq!(slices::nearest(shape, (f64::NAN, 0.0)), Err(refused));
        assert_eq!(slices::area(shape), Err(refused));
        assert_eq!(slices::perimeter(shape), Err(refused));
        assert_eq!(slices::extent(shape), Err(refused));
        assert_eq!(slices::clearance(shape, &S), Err(refused));
        assert_eq!(slices::clearance(&S, shape), Err(refused));
        assert_eq!(slices::clearance(shape, shape), Err(refused));
        assert_eq!(slices::nearest_points(shape, &S), Err(refused));
        assert_eq!(slices::nearest_points(&S, shape), Err(refused));
        assert_eq!(slices::meeting(shape, &S), Err(refused));
        assert_eq!(slices::meeting(&S, shape), Err(refused));
        assert_eq!(slices::meeting(shape, shape), Err(refused));
        assert_eq!(slices::vertex(shape, 0), Err(refused));
        assert_eq!(slices::vertex(shape, usize::MAX), Err(refused));
        assert_eq!(slices::edge(shape, 0), Err(refused));
        assert_eq!(slices::without_holes(shape, &mut out), Err(refused));
        let offsets = [slices::inset, slices::outset];
        for offset in offsets {
            assert_eq!(offset(shape, f64::NAN, &mut out).0, Err(refused));
        }
        assert_eq!(out, [7.0; 256]);
        assert_eq!(Outline::stored(shape), Err(refused));
    }
}

#[test]
fn short_output_is_left_as_it_was() {
    for room in 0..8 {
        let mut out = vec![7.0; room];
        assert_eq!(
            slices::outline(&S, &mut out),
            Err(Refusal::Short { needed: 8 })
        );
        assert_eq!(
            slices::inset(&S, 1.0, &mut out).0,
            Err(Refusal::Short { needed: 8 })
        );
        assert_eq!(
            slices::outset(&S, 1.0, &mut out).0,
            Err(Refusal::Short { needed: 8 })
        );
        assert_eq!(out, vec![7.0; room]);
    }
    let mut out = [7.0; 12];
    assert_eq!(slices::inset(&S, 1.0, &mut out).0, Ok(4));
    assert_eq!(
        out,
        [1.0, 1.0, 3.0, 1.0, 3.0, 3.0, 1.0, 3.0, 7.0, 7.0, 7.0, 7.0]
    );
}

#[test]
fn questions_of_an_outline() {
    let square = Outline::from_numbers(&S).unwrap();
    assert_eq!((square.area(), square.perimeter()), (16.0, 16.0));
    assert_eq!(square.extent(), 4.0);
    assert_eq!(square.numbers(), S);
    let nearest = square.nearest((7.0, 8.0)).unwrap();
    assert_eq!((nearest.distance, nearest.point), (5.0, (4.0, 4.0)));
    assert_eq!(square.distance_to_boundary((7.0, 8.0)), Ok(5.0));
    assert_eq!(square.closest_boundary_point((7.0, 8.0)), Ok((4.0, 4.0)));
    let not_finite = Refusal::NotFinite { index: 1 };
    let point = (7.0, f64::NAN);
    assert_eq!(square.contains(point), Err(not_finite));
    assert_eq!(square.nearest(point), Err(not_finite));
    assert_eq!(square.distance_to_boundary(point), Err(not_finite));
    assert_eq!(square.closest_boundary_point(point), Err(not_finite));
    let far = Outline::new(&[(-9.0, 3.0), (2.0, 3.0), (2.0, 5.0)]).unwrap();
    assert_eq!(far.extent(), 9.0);
    let slope = Outline::new(&[(0.0, 0.0), (3.0, 0.0), (3.0, 4.0)]).unwrap();
    assert_eq!(slope.perimeter(), 12.0);
}

#[test]
fn vertices_and_edges() {
    let square = Outline::from_numbers(&S).unwrap();
    assert_eq!(square.vertex(1), Some((4.0, 0.0)));
    assert_eq!(square.edge(1), Some(((4.0, 0.0), (4.0, 4.0))));
    assert_eq!(square.edge(3), Some(((0.0, 4.0), (0.0, 0.0))));
    for beyond in [4, 5, 128, usize::MAX / 2, usize::MAX / 2 + 1, usize::MAX] {
        assert_eq!(square.vertex(beyond), None);
        assert_eq!(square.edge(beyond), None);
    }
    let vertices: Vec<Point> = (0..4).filter_map(|k| square.vertex(k)).collect();
    assert_eq!(vertices, square.vertices());
    let edges = square.edges();
    assert_eq!(edges.len(), 4);
    for (k, edge) in edges.iter().enumerate() {
        assert_eq!((edge.0, edge.1), (vertices[k], vertices[(k + 1) % 4]));
    }
    assert_eq!(Outline::new(&comb(128)).unwrap().edges().len(), 128);
}

/// The clearance of two outlines, whichever is named first, by its bits.
fn clear(first: &[f64], second: &[f64]) -> f64 {
    let told = slices::clearance(first, second).unwrap();
    let back = slices::clearance(second, first).unwrap();
    assert_eq!(told.to_bits(), back.to_bits());
    told
}

/// The distance of the vertex of the second outline that is nearest to the first.
fn vertex_by_vertex(first: &[f64], second: &[f64]) -> f64 {
    let gap = |v: &[f64]| slices::nearest(first, (v[0], v[1])).unwrap().distance;
    second
        .chunks_exact(2)
        .map(gap)
        .fold(f64::INFINITY, f64::min)
}

#[test]
fn clearance_from_both_sides() {
    // The collar is 0.2 from the sleeve's spike; its own vertices are farther from the sleeve.
    let collar = [-3.0, 0.0, 3.0, 0.0, 3.0, -2.0, -3.0, -2.0];
    let sleeve = [-5.0, 10.0, -1.0, 6.0, 0.0, 0.2, 1.0, 6.0, 5.0, 10.0];
    assert_eq!(clear(&collar, &sleeve), 0.2);
    assert!(vertex_by_vertex(&sleeve, &collar) > 2.9);
    // Nearest to the square: a vertex alone, a closing edge alone, a corner.
    assert_eq!(clear(&S, &[5.0, 2.0, 9.0, 0.0, 9.0, 4.0]), 1.0);
    assert_eq!(
        clear(&S, &[10.0, 2.0, 12.0, 12.0, 2.0, 10.0]),
        hypot(2.0, 2.0)
    );
    assert_eq!(clear(&S, &[7.0, 8.0, 9.0, 8.0, 9.0, 9.0]), 5.0);
    // One inside the other, by a vertex of the inner one, and of the outer one.
    let inner = [1.0, 1.0, 3.0, 1.0, 3.0, 3.0, 1.0, 3.0];
    let notched = [0.0, 0.0, 4.0, 0.0, 4.0, 4.0, 2.0, 3.25, 0.0, 4.0];
    assert_eq!(clear(&S, &inner), 1.0);
    assert_eq!(clear(&notched, &inner), 0.25);
    // They meet, and no vertex of either need be near the other.
    assert_eq!(clear(&S, &S), 0.0);
    assert_eq!(clear(&S, &[4.0, 2.0, 9.0, 0.0, 9.0, 4.0]), 0.0);
    assert_eq!(clear(&S, &[-3.0, 1.0, 7.0, 1.0, 7.0, 3.0, -3.0, 3.0]), 0.0);
    // So near that the gap is worked out as 0, and no meeting.
    let (sloping, tip) = (
        [5e-324, 0.0, 1.0, 0.0, 1.0, 1.0],
        [0.0, 0.0, -1.0, 1.0, -1.0, -1.0],
    );
    assert_eq!(slices::meeting(&sloping, &tip), Ok(None));
    assert_eq!(clear(&sloping, &tip), 0.0);
}

/// Vertices of whole numbers below 10, moved.
fn drawn(state: &mut u32, vertices: usize, moved: f64) -> Vec<f64> {
    let mut next = || {
        *state = state.wrapping_mul(1_103_515_245).wrapping_add(12_345);
        f64::from((*state >> 16) % 10) + moved
    };
    (0..2 * vertices).map(|_| next()).collect()
}

/// Of drawn outlines the clearance is the one from both sides, and the distance of the nearest points, which are where they should be.
#[test]
fn drawn_clearances() {
    let (mut state, mut meet, mut of_first, mut of_second) = (5, 0, 0, 0);
    for round in 0..4000 {
        let first = drawn(&mut state, 3 + round % 6, 0.0);
        let second = drawn(&mut state, 3 + round / 6 % 6, (round % 23) as f64);
        let told = clear(&first, &second);
        let Some(near) = slices::nearest_points(&first, &second).unwrap() else {
            assert!(slices::meeting(&first, &second).unwrap().is_some());
            assert_eq!(told.to_bits(), 0);
            meet += 1;
            continue;
        };
        let sides = [
            vertex_by_vertex(&first, &second),
            vertex_by_vertex(&second, &first),
        ];
        assert_eq!(told.to_bits(), sides[0].min(sides[1]).to_bits());
        assert_eq!(told.to_bits(), near.distance.to_bits());
        let apart = (
            near.of_first.0 - near.of_second.0,
            near.of_first.1 - near.of_second.1,
        );
        assert_eq!(hypot(apart.0, apart.1).to_bits(), told.to_bits());
        for (outline, point) in [(&first, near.of_first), (&second, near.of_second)] {
            assert!(slices::nearest(outline, point).unwrap().distance < 1e-12);
        }
        of_first += usize::from(told < sides[0]);
        of_second += usize::from(told < sides[1]);
    }
    assert!(meet > 400 && of_first > 300 && of_second > 300);
}

/// The same of 128 vertices and 128: a comb, and below it the comb turned over, half a tooth to the side. In turn a tooth of either almost
/// reaches the other.
#[test]
fn clearances_of_full_outlines() {
    for round in 1..21 {
        let upper = comb(128);
        let lower: Vec<Point> = upper.iter().map(|v| (v.0 + 0.5, -v.1 - 0.5)).collect();
        let [mut first, mut second] = [upper, lower];
        let tooth = round * 37 % 126;
        if round % 2 == 0 {
            first[tooth].1 = -1.8;
        } else {
            second[tooth].1 = 1.3;
        }
        let flat = |ring: &[Point]| -> Vec<f64> { ring.iter().flat_map(|v| [v.0, v.1]).collect() };
        let (first, second) = (flat(&first), flat(&second));
        let sides = [
            vertex_by_vertex(&first, &second),
            vertex_by_vertex(&second, &first),
        ];
        assert!(sides[round % 2] > sides[1 - round % 2]);
        let told = clear(&first, &second);
        assert_eq!(told.to_bits(), sides[1 - round % 2].to_bits());
        let near = slices::nearest_points(&first, &second).unwrap().unwrap();
        assert_eq!(near.distance.to_bits(), told.to_bits());
    }
}

/// Of several as near: the lowest vertex of the first outline, then the lowest of the second.
#[test]
fn the_nearest_points_of_several() {
    let beyond = [6.0, 0.0, 8.0, 0.0, 8.0, 4.0, 6.0, 4.0];
    let points = |first: &[f64], second: &[f64]| {
        let near = slices::nearest_points(first, second).unwrap()?;
        Some((near.of_first, near.of_second))
    };
    assert_eq!(points(&S, &beyond), Some(((4.0, 0.0), (6.0, 0.0))));
    assert_eq!(points(&beyond, &S), Some(((6.0, 0.0), (4.0, 0.0))));
    let inner = [3.0, 3.0, 1.0, 3.0, 1.0, 1.0, 3.0, 1.0];
    // Vertex 0 of the inner one, and the lowest edge of the square that is as near.
    assert_eq!(points(&S, &inner), Some(((4.0, 3.0), (3.0, 3.0))));
    assert_eq!(points(&inner, &S), Some(((3.0, 3.0), (4.0, 3.0))));
    // Vertex 0 of this one is as near as vertex 2 of the square.
    let around = [
        5.0, 2.0, 14.0, 2.0, 14.0, 9.0, -4.0, 9.0, -4.0, 5.0, 12.0, 5.0,
    ];
    assert_eq!(points(&S, &around), Some(((4.0, 4.0), (4.0, 5.0))));
    assert_eq!(points(&around, &S), Some(((5.0, 2.0), (4.0, 2.0))));
    assert_eq!(points(&S, &[4.0, 2.0, 9.0, 0.0, 9.0, 4.0]), None);
}

/// `outer`, `inner` and `swapped`; then the edges of the first outline and of the second.
type Told = ((usize, usize, bool), (usize, usize));

fn told(first: &[f64], second: &[f64]) -> Option<Told> {
    let met = slices::meeting(first, second).unwrap()?;
    let edges = (met.edge_of_first(), met.edge_of_second());
    Some(((met.outer, met.inner, met.swapped), edges))
}

#[test]
fn the_edges_of_two_outlines_that_meet() {
    // Fewer vertices: in the outer walk, wherever it is named.
    let triangle = [3.0, 3.0, 6.0, 3.0, 6.0, 6.0];
    assert_eq!(told(&S, &triangle), Some(((0, 1, true), (1, 0))));
    assert_eq!(told(&triangle, &S), Some(((0, 1, false), (0, 1))));
    // As many: the first is in the outer walk. Its lowest edge that meets any is another than the one that the second's meets.
    let hook = [2.0, 1.0, -2.0, 1.0, -2.0, 3.0, 6.0, 3.0];
    assert_eq!(told(&S, &hook), Some(((1, 2, false), (1, 2))));
    assert_eq!(told(&hook, &S), Some(((0, 3, false), (0, 3))));
    let longer = [&hook[..], &[7.0, 2.0]].concat();
    assert_eq!(told(&longer, &S), Some(((1, 2, true), (2, 1))));
    // A corner on a corner, and a corner on an edge.
    let corner = [4.0, 4.0, 9.0, 4.0, 9.0, 9.0];
    assert_eq!(told(&S, &corner), Some(((0, 1, true), (1, 0))));
    let tip = [9.0, 4.0, 4.0, 2.0, 9.0, 0.0];
    assert_eq!(told(&S, &tip), Some(((0, 1, true), (1, 0))));
    // Beside it, and inside.
    for apart in [
        [6.0, 0.0, 8.0, 0.0, 8.0, 4.0],
        [1.0, 1.0, 3.0, 1.0, 2.0, 3.0],
    ] {
        assert_eq!(told(&S, &apart), None);
        assert_eq!(told(&apart, &S), None);
    }
}

/// As they are handed in: an outline that runs clockwise, a closing repeat, which counts, and the last of 128 edges.
#[test]
fn edges_are_counted_as_they_are_handed_in() {
    let triangle = [3.0, 3.0, 6.0, 3.0, 6.0, 6.0];
    let clockwise = [0.0, 0.0, 0.0, 4.0, 4.0, 4.0, 4.0, 0.0];
    assert_eq!(told(&clockwise, &triangle), Some(((0, 2, true), (2, 0))));
    let across = [-1.0, 1.0, 5.0, 1.0, 5.0, 2.0, -1.0, 2.0];
    assert_eq!(told(&S, &across), Some(((1, 0, false), (1, 0))));
    let closed = [&S[..], &[0.0, 0.0]].concat();
    assert_eq!(told(&closed, &across), Some(((0, 1, true), (1, 0))));
    let full = Outline::new(&comb(128)).unwrap();
    let aside = [(-3.0, 5.0), (0.0, 6.0), (-3.0, 7.0)];
    let met = full.meeting(&Outline::new(&aside).unwrap()).unwrap();
    assert_eq!((met.edge_of_first(), met.edge_of_second()), (127, 0));
    assert!(met.swapped);
}

/// Outlines meet where the one is 0 clear of the other.
#[test]
fn meeting_and_clearance() {
    let square = Outline::from_numbers(&S).unwrap();
    for east in 0..9 {
        let moved = |v: &Point| (v.0 + f64::from(east), v.1);
        let moved: Vec<Point> = square.vertices().iter().map(moved).collect();
        let other = Outline::new(&moved).unwrap();
        assert_eq!(square.meeting(&other).is_some(), east <= 4);
        assert_eq!(square.clearance(&other) == 0.0, east <= 4);
    }
}

#[test]
fn an_inset_can_be_inset_again() {
    let corner = [(0.0, 0.0), (4.0, 0.0), (4.0, 4.0), (1.0, 4.0), (0.0, 3.0)];
    let cage = Outline::new(&corner).unwrap().inset(1.7071065).unwrap();
    let again = cage.inset(0.1).unwrap();
    assert_eq!(Outline::stored(cage.numbers()).as_ref(), Ok(&cage));
    assert_eq!(Outline::stored(again.numbers()).unwrap(), again);
    assert!(again.area() < cage.area() && cage.clearance(&again) > 0.0999);
    let outside = again.outset(0.1).unwrap();
    assert!((outside.area() - cage.area()).abs() < 1e-6);
}

#[test]
fn a_stored_outline_is_taken_as_it_is() {
    let clockwise = [0.0, 0.0, 0.0, 4.0, 4.0, 4.0, 4.0, 0.0];
    let stored = Outline::stored(&clockwise).unwrap();
    assert_eq!(stored.numbers(), clockwise);
    assert_eq!((stored.area(), stored.perimeter()), (16.0, 16.0));
    let bow = [0.0, 0.0, 4.0, 4.0, 4.0, 0.0, 0.0, 4.0];
    assert_eq!(Outline::stored(&bow).unwrap().numbers(), bow);
}

#[test]
fn an_offset_that_divides() {
    // Two rooms with a narrow passage: they part before the distance is reached.
    let rooms = [
        (0.0, 0.0),
        (8.0, 0.0),
        (8.0, 3.5),
        (12.0, 3.5),
        (12.0, 0.0),
        (20.0, 0.0),
        (20.0, 8.0),
        (12.0, 8.0),
        (12.0, 4.5),
        (8.0, 4.5),
        (8.0, 8.0),
        (0.0, 8.0),
    ];
    let (refused, events) = Outline::new(&rooms).unwrap().inset_counted(1.0);
    assert_eq!(refused, Err(Refusal::Splits { distance: 1.0 }));
    assert!(events.collapses + events.divides > 0 && events.joins == 0);
}

#[test]
fn threads_share_nothing() {
    let inset = || Outline::from_numbers(&S).unwrap().inset(1.0).unwrap();
    let threads: Vec<_> = (0..4).map(|_| std::thread::spawn(inset)).collect();
    for thread in threads {
        assert_eq!(thread.join().unwrap(), inset());
    }
}

#[test]
fn what_is_kept_goes_from_thread_to_thread() {
    fn goes<T: Send + Sync + Unpin + std::panic::UnwindSafe + 'static>() {}
    goes::<Outline>();
    goes::<Region>();
    goes::<Refusal>();
    goes::<Place>();
    goes::<Nearest>();
    goes::<NearestPoints>();
    goes::<Meeting>();
    goes::<Events>();
    goes::<slices::Rings>();
    goes::<slices::Stream>();
    goes::<slices::Fed>();
    goes::<slices::NotFed>();
}

#[test]
fn refusals_have_their_numbers_and_words() {
    let square = Outline::from_numbers(&S).unwrap();
    let refusal = square.inset(2.0).unwrap_err();
    let words = "nothing is left: the margin 2 is too wide";
    assert_eq!(
        (refusal.number(), refusal.to_string()),
        (16, words.to_string())
    );
    let refusal = slices::check(&[0.0, 0.0, 4.0, 4.0, 4.0, 0.0, 0.0, 2.0]).unwrap_err();
    assert_eq!(
        (refusal.number(), refusal.to_string()),
        (9, "edge 0 crosses edge 2".to_string())
    );
    let error: Box<dyn std::error::Error> = Box::new(refusal);
    assert!(error.downcast_ref::<Refusal>().is_some());
}

#[test]
fn job_lines() {
    let job = concat!(
        "inset,3ff0000000000000,1,4,",
        "0000000000000000,0000000000000000,4010000000000000,0000000000000000,",
        "4010000000000000,4010000000000000,0000000000000000,4010000000000000",
    );
    let ok = concat!(
        "ok,1,4,",
        "3ff0000000000000,3ff0000000000000,4008000000000000,3ff0000000000000,",
        "4008000000000000,4008000000000000,3ff0000000000000,4008000000000000",
    );
    assert_eq!(lizardwire::answer_line(job.as_bytes()), ok.as_bytes());
    assert_eq!(lizardwire::answer_line(b""), b"no,22");
    let mut out = [b'#'; 20];
    assert_eq!(
        slices::job_line(job.as_bytes(), &mut out),
        Err(Refusal::Short { needed: ok.len() })
    );
    assert_eq!(out, [b'#'; 20]);
}
