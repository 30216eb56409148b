//! Job lines and their answers.

use std::io::BufReader;

use oracle::answer::{answer_line, answer_line_by, Answer, Refusal, Single};
use oracle::draw::Draw;
use oracle::generate;
use oracle::job::{Job, LONGEST};
use oracle::lines::next_line;
use oracle::outlines::Question;
use oracle::region::{Containment, PlanarPoint, Polygon};
use oracle::tally::Tally;

type Ring<'a> = &'a [[f64; 2]];

const S: Ring = &[[0.0, 0.0], [4.0, 0.0], [4.0, 4.0], [0.0, 4.0]];

fn line(outset: bool, distance: f64, rings: &[Ring]) -> String {
    Job {
        outset,
        distance,
        counts: rings.iter().map(|ring| ring.len()).collect(),
        numbers: rings.iter().copied().flatten().flatten().copied().collect(),
    }
    .line()
}

fn inset(distance: f64, rings: &[Ring]) -> Answer {
    answer_line(line(false, distance, rings).as_bytes())
}

fn outset(distance: f64, ring: Ring) -> Answer {
    answer_line(line(true, distance, &[ring]).as_bytes())
}

fn rings(answer: &Answer) -> Vec<Vec<[f64; 2]>> {
    let rings = answer.result.as_ref().expect("accepted");
    let point = |p: &PlanarPoint| [p.east_metres(), p.north_metres()];
    rings
        .iter()
        .map(|ring| ring.iter().map(point).collect())
        .collect()
}

fn refusal(answer: &Answer) -> &Refusal {
    answer.result.as_ref().expect_err("refused")
}

fn number(text: &[u8]) -> u32 {
    answer_line(text)
        .result
        .map_or_else(|refusal| refusal.number, |_| 0)
}

#[track_caller]
fn refused(answer: &Answer, full: &str) {
    assert_eq!(answer.full_line(), full);
}

#[test]
fn the_sample() {
    let job = b"inset,3ff0000000000000,1,4,0000000000000000,0000000000000000,4010000000000000,0000000000000000,4010000000000000,4010000000000000,0000000000000000,4010000000000000";
    let answer = "ok,1,4,3ff0000000000000,3ff0000000000000,4008000000000000,3ff0000000000000,4008000000000000,4008000000000000,3ff0000000000000,4008000000000000";
    assert_eq!(answer_line(job).line(), answer);
    assert_eq!(
        answer_line(job).full_line(),
        format!("{answer};events=0,0,0")
    );
}

#[test]
fn e1_few() {
    refused(
        &inset(0.0, &[&[]]),
        "no,4;ring=0;wholes=0;floats=;events=0,0,0",
    );
    refused(
        &inset(0.0, &[&[[1.0, 2.0], [1.0, 2.0]]]),
        "no,4;ring=0;wholes=1;floats=;events=0,0,0",
    );
}

#[test]
fn e2_closed_e3_clockwise() {
    let closed = inset(0.0, &[&[S[0], S[1], S[2], S[3], S[0]]]);
    assert_eq!(rings(&closed), [S]);
    let clockwise = inset(0.0, &[&[S[0], S[3], S[2], S[1]]]);
    assert_eq!(rings(&clockwise), [S]);
}

#[test]
fn e4_flat_e5_e6_crossed() {
    let flat = inset(0.0, &[&[[0.0, 0.0], [1.0, 0.0], [2.0, 0.0]]]);
    refused(&flat, "no,8;ring=0;wholes=;floats=;events=0,0,0");
    let crossed = inset(0.0, &[&[[0.0, 0.0], [4.0, 4.0], [4.0, 0.0], [0.0, 2.0]]]);
    refused(&crossed, "no,9;ring=0;wholes=0,2;floats=;events=0,0,0");
    let folded: Ring = &[[0.0, 0.0], [4.0, 0.0], [4.0, 4.0], [4.0, 2.0], [0.0, 2.0]];
    refused(
        &inset(0.0, &[folded]),
        "no,9;ring=0;wholes=1,2;floats=;events=0,0,0",
    );
}

#[test]
fn e7_containment() {
    let point = |p: [f64; 2]| PlanarPoint::from_metres(p[0], p[1]).unwrap();
    let square = Polygon::<128>::new(&S.iter().map(|p| point(*p)).collect::<Vec<_>>()).unwrap();
    assert_eq!(square.contains(point([2.0, 2.0])), Containment::Inside);
    assert_eq!(square.contains(point([4.0, 2.0])), Containment::OnBoundary);
    assert_eq!(square.contains(point([5.0, 2.0])), Containment::Outside);
}

#[test]
fn e8_e9_e10_square() {
    let shrunk = inset(1.0, &[S]);
    assert_eq!(
        rings(&shrunk),
        [[[1.0, 1.0], [3.0, 1.0], [3.0, 3.0], [1.0, 3.0]]]
    );
    refused(
        &inset(2.0, &[S]),
        "no,16;ring=;wholes=;floats=4000000000000000;events=0,0,0",
    );
    refused(
        &inset(3.0, &[S]),
        "no,16;ring=;wholes=;floats=4008000000000000;events=1,0,0",
    );
    let grown = outset(1.0, S);
    assert_eq!(
        rings(&grown),
        [[[-1.0, 5.0], [-1.0, -1.0], [5.0, -1.0], [5.0, 5.0]]]
    );
}

#[test]
fn e11_hole() {
    let outer: Ring = &[[0.0, 0.0], [10.0, 0.0], [10.0, 10.0], [0.0, 10.0]];
    let hole: Ring = &[[4.0, 4.0], [6.0, 4.0], [6.0, 6.0], [4.0, 6.0]];
    let answer = inset(1.0, &[outer, hole]);
    let result = rings(&answer);
    assert_eq!(result[0], [[1.0, 1.0], [9.0, 1.0], [9.0, 9.0], [1.0, 9.0]]);
    assert_eq!(result[1], [[3.0, 7.0], [3.0, 3.0], [7.0, 3.0], [7.0, 7.0]]);
    assert_eq!(refusal(&inset(2.0, &[outer, hole])).number, 17);
}

#[test]
fn e12_range() {
    let large: Ring = &[[0.0, 0.0], [1e9, 0.0], [0.0, 1e9]];
    assert!(inset(0.0, &[large]).result.is_ok());
    let above = f64::from_bits(1e9_f64.to_bits() + 1);
    refused(
        &inset(0.0, &[&[[0.0, 0.0], [above, 0.0], [0.0, 1e9]]]),
        "no,5;ring=0;wholes=;floats=41cdcd6500000001;events=0,0,0",
    );
}

#[test]
fn e14_distance() {
    refused(
        &inset(-1.0, &[S]),
        "no,14;ring=;wholes=;floats=bff0000000000000;events=0,0,0",
    );
    refused(
        &inset(f64::NAN, &[S]),
        "no,13;ring=;wholes=;floats=;events=0,0,0",
    );
    assert_eq!(refusal(&inset(1e12, &[S])).number, 16);
    assert_eq!(rings(&inset(-0.0, &[S])), [S]);
    let above = f64::from_bits(1e12_f64.to_bits() + 1);
    assert_eq!(refusal(&inset(above, &[S])).number, 13);
    assert_eq!(refusal(&inset(-1e13, &[S])).number, 14);
    assert_eq!(refusal(&inset(f64::NEG_INFINITY, &[S])).number, 13);
}

#[test]
fn zeros_have_no_sign() {
    let ring: Ring = &[[-0.0, -0.0], [4.0, -0.0], [-0.0, 4.0]];
    let zero = "0000000000000000";
    assert_eq!(
        inset(0.0, &[ring]).line(),
        format!("ok,1,3,{zero},{zero},4010000000000000,{zero},{zero},4010000000000000")
    );
}

/// A line of the square with one field replaced.
fn with(place: usize, field: &str) -> Vec<u8> {
    let whole = line(false, 1.0, &[S]);
    let mut fields: Vec<&str> = whole.split(',').collect();
    fields[place] = field;
    fields.join(",").into_bytes()
}

#[test]
fn ill_formed_lines() {
    let good = line(false, 1.0, &[S]).into_bytes();
    assert_eq!(number(&good), 0);
    for place in 0..good.len() {
        for byte in [0, b' ', b'\r', b'\t', b'"', b'G', 0x80, 0xff] {
            let mut bad = good.clone();
            bad[place] = byte;
            assert_eq!(number(&bad), 22, "byte {byte} at {place}");
        }
        // Cut short: ill formed but where a whole number of fields is left.
        let cut = number(&good[..place]);
        assert!([22, 1, 3].contains(&cut), "cut at {place}: {cut}");
    }
    for end in [&b"\r"[..], b",", b" ", b"\0", b"0"] {
        assert_eq!(number(&[&good[..], end].concat()), 22);
    }
    for (place, field) in [
        (0, ""),
        (0, "Inset"),
        (0, "insets"),
        (0, "onset"),
        (1, ""),
        (1, "3FF0000000000000"),
        (1, "3ff000000000000"),
        (1, "03ff0000000000000"),
        (1, "1.0"),
        (2, ""),
        (2, "01"),
        (2, "1000"),
        (2, "+1"),
        (2, "-1"),
        (2, "1.0"),
        (3, "04"),
        (3, "00"),
        (3, "004"),
        (3, "0004"),
        (3, "1000"),
        (3, ""),
        (3, "x"),
        (4, ""),
        (4, "000000000000000A"),
        (4, "000000000000000g"),
        (4, "0x00000000000000"),
    ] {
        assert_eq!(number(&with(place, field)), 22, "{field} as field {place}");
    }
    for text in [
        "",
        ",",
        "inset",
        "inset,",
        "inset,3ff0000000000000",
        "inset,3ff0000000000000,",
    ] {
        assert_eq!(number(text.as_bytes()), 22, "{text}");
    }
    // Counts: fewer than the rings say is ill formed, more are coordinates.
    assert_eq!(number(b"inset,3ff0000000000000,1"), 22);
    assert_eq!(number(b"inset,3ff0000000000000,2,3"), 22);
    assert_eq!(number(b"inset,3ff0000000000000,999,3"), 22);
    assert_eq!(number(b"inset,3ff0000000000000,1,3,4"), 22);
    assert_eq!(number(b"inset,3ff0000000000000,0"), 3);
    assert_eq!(number(b"inset,3ff0000000000000,0,3ff0000000000000"), 1);
    assert_eq!(
        number(b"inset,3ff0000000000000,0,7ff0000000000000,3ff0000000000000"),
        2
    );
    assert_eq!(number(b"inset,3ff0000000000000,1,0"), 4);
    assert_eq!(number(b"inset,3ff0000000000000,1,999"), 3);
    // An outset has one ring.
    assert_eq!(number(b"outset,3ff0000000000000,0"), 22);
    assert_eq!(number(b"outset,3ff0000000000000,2,0,0"), 22);
    assert_eq!(number(b"outset,3ff0000000000000,10"), 22);
    assert_eq!(number(b"outset,3ff0000000000000,1,0"), 4);
}

#[test]
fn longest_lines() {
    let start = "inset,3ff0000000000000,2,99,99";
    let mut text = start.as_bytes().to_vec();
    while text.len() < LONGEST {
        text.extend_from_slice(b",3ff0000000000000");
    }
    assert_eq!(text.len(), LONGEST);
    assert_eq!(number(&text), 3);
    let mut over = b"inset,3ff0000000000000,2,99,100".to_vec();
    over.extend_from_slice(&text[start.len()..]);
    assert_eq!(over.len(), LONGEST + 1);
    assert_eq!(number(&over), 22);
}

#[test]
fn questions_in_order() {
    let nan = f64::NAN;
    // 1 before 2, 2 before 3, 3 before 4.
    let mut job = Job::read(line(false, nan, &[S]).as_bytes()).unwrap();
    job.numbers[3] = nan;
    job.numbers.push(0.0);
    assert_eq!(number(job.line().as_bytes()), 1);
    job.numbers.push(nan);
    let text = job.line();
    refused(
        &answer_line(text.as_bytes()),
        "no,2;ring=;wholes=3;floats=;events=0,0,0",
    );
    job.numbers[3] = 0.0;
    job.numbers[9] = 0.0;
    assert_eq!(number(job.line().as_bytes()), 3);
    // 4 before 5, 5 and 6 by vertex, 6 before 7.
    assert_eq!(refusal(&inset(nan, &[&[[2e9, 0.0], [0.0, 2e9]]])).number, 4);
    let many: Vec<[f64; 2]> = (0..131).map(|k| [f64::from(k), f64::from(k * k)]).collect();
    let mut bad = many.clone();
    bad[128][1] = -2e9;
    refused(
        &inset(nan, &[&bad]),
        "no,5;ring=0;wholes=;floats=c1ddcd6500000000;events=0,0,0",
    );
    let mut bad = many;
    bad[129] = [2e9, 2e9];
    refused(
        &inset(nan, &[&bad]),
        "no,6;ring=0;wholes=131,128;floats=;events=0,0,0",
    );
    // East before north, a hole's own room, the closing vertex not counted.
    let both: Ring = &[[0.0, 0.0], [3e9, 2e9], [0.0, 1.0]];
    assert_eq!(refusal(&inset(nan, &[both])).floats, [3e9]);
    let hole: Vec<[f64; 2]> = (0..33).map(|k| [f64::from(k), f64::from(k * k)]).collect();
    refused(
        &inset(nan, &[S, &hole]),
        "no,6;ring=1;wholes=33,32;floats=;events=0,0,0",
    );
    let mut closed = hole[..32].to_vec();
    closed.push(hole[0]);
    assert_eq!(refusal(&inset(nan, &[S, &closed])).number, 11);
    // One closing vertex is dropped, never two.
    let twice: Ring = &[S[0], S[1], S[2], S[3], S[0], S[0]];
    refused(
        &inset(nan, &[twice]),
        "no,7;ring=0;wholes=;floats=;events=0,0,0",
    );
    // Every ring before the number of holes, that before where they lie, that
    // before the distance.
    let small: Ring = &[[1.0, 1.0], [2.0, 1.0], [1.0, 2.0]];
    let mut rings = vec![S];
    rings.extend([small; 9]);
    refused(
        &inset(nan, &rings),
        "no,10;ring=;wholes=9;floats=;events=0,0,0",
    );
    let flat: Ring = &[[0.0, 0.0], [1.0, 1.0], [2.0, 2.0]];
    rings.push(flat);
    refused(
        &inset(nan, &rings),
        "no,8;ring=10;wholes=;floats=;events=0,0,0",
    );
    refused(
        &inset(nan, &[S, small, S]),
        "no,11;ring=;wholes=1;floats=;events=0,0,0",
    );
    refused(
        &inset(nan, &[S, small, small]),
        "no,12;ring=;wholes=0,1;floats=;events=0,0,0",
    );
    assert_eq!(refusal(&inset(nan, &[S, small])).number, 13);
    assert_eq!(refusal(&inset(-1.0, &[S, small])).number, 14);
}

#[test]
fn clockwise_edges_keep_their_numbers() {
    let mut ring = vec![[0.0, 0.0], [4.0, 0.0], [4.0, 4.0], [4.0, 2.0], [0.0, 2.0]];
    ring.reverse();
    // Edges 1 and 2 of the other order.
    let carried = refusal(&inset(0.0, &[&ring])).wholes.clone();
    assert_eq!(carried, [1, 2]);
    // Stored from (4, 2) to (0, 2) first: that edge, the last of the input,
    // meets the second.
    ring.rotate_left(1);
    assert_eq!(refusal(&inset(0.0, &[&ring])).wholes, [1, 4]);
}

#[test]
fn rare_refusals() {
    // Two notches whose tips meet.
    let hourglass: Ring = &[
        [0.0, 0.0],
        [1.0, 1.0],
        [2.0, 0.0],
        [2.0, 4.0],
        [1.0, 2.0],
        [0.0, 4.0],
    ];
    refused(
        &inset(0.5, &[hourglass]),
        "no,18;ring=;wholes=387;floats=3fccef287e28dbfa;events=0,194,193",
    );
    // A piece whose ends are one point.
    let triangle: Ring = &[[3.0, 0.0], [0.0, 4.0], [0.0, 0.0]];
    refused(
        &inset(1.0, &[triangle]),
        "no,4;ring=0;wholes=2;floats=;events=0,0,0",
    );
    // The pocket's ring is gone, the outline's is the second.
    let pocket: Vec<[f64; 2]> = [
        [4.0, 3.0],
        [2.0, 3.0],
        [0.0, 6.0],
        [0.0, 0.0],
        [5.0, 0.0],
        [4.0, 6.0],
        [3.5, 5.0],
        [4.0, 5.0],
    ]
    .map(|[east, north]| [east + 1e9 - 6.0, north])
    .to_vec();
    let answer = outset(1.0, &pocket);
    assert_eq!(
        (refusal(&answer).number, refusal(&answer).ring),
        (5, Some(1))
    );
    // While loading: nothing is counted, no ring is visited. As a job it is 27,
    // so the region is handed in.
    let outer: Ring = &[[-5e8, -5e8], [5e8, -5e8], [5e8, 5e8], [-5e8, 5e8]];
    let hole: Ring = &[[0.0, 0.0], [1e-9, 0.0], [0.0, 1e-9]];
    refused(
        &inset(1.0, &[outer, hole]),
        "no,27;ring=1;wholes=;floats=;events=0,0,0",
    );
    let text = line(false, 1.0, &[outer, hole]);
    let job = Job::read(text.as_bytes()).expect("a job");
    let handed = Question::of_given(&job).expect("a region").answer();
    assert_eq!(handed[..5], [16, 0, 0, 0, 1.0_f64.to_bits()]);
    assert_eq!(handed[5..], [0; 13]);
    // 128 and the edges of that ring still to load.
    let round = |count: u32, radius: f64| -> Vec<[f64; 2]> {
        let at = |k| f64::from(k) / f64::from(count) * core::f64::consts::TAU;
        (0..count)
            .map(|k| [radius * at(k).cos(), radius * at(k).sin()])
            .collect()
    };
    let (large, small) = (round(100, 90.0), round(30, 9.0));
    refused(
        &inset(1.0, &[&large, &small]),
        "no,15;ring=;wholes=130;floats=;events=0,0,0",
    );
    // From tidying, before an event.
    let needle: Ring = &[[0.0, 0.0], [1e6, 0.0], [2e6, 1.0]];
    let answer = inset(1.0, &[needle]);
    assert_eq!((refusal(&answer).number, answer.rings), (17, 0));
}

#[test]
fn one_ring_as_a_region() {
    // A ring that rounding turned round is a hole to a region.
    let ring: Ring = &[[5.5, 3.5], [1.5, 6.5], [2.0, 5.5], [0.5, 3.5]];
    let text = line(false, 1.0, &[ring]);
    assert_eq!(number(text.as_bytes()), 17);
    let answer = answer_line_by(text.as_bytes(), Single::Region);
    assert_eq!(refusal(&answer).number, 16);
    // An outset stays an outline's.
    let text = line(true, 1.0, &[S]);
    let answer = answer_line_by(text.as_bytes(), Single::Region);
    assert_eq!(answer.line(), answer_line(text.as_bytes()).line());
}

fn split(input: &[u8], block: usize) -> Vec<Vec<u8>> {
    let mut reader = BufReader::with_capacity(block, input);
    let (mut line, mut lines) = (Vec::new(), Vec::new());
    while next_line(&mut reader, &mut line).unwrap() {
        lines.push(line.clone());
    }
    lines
}

#[test]
fn a_stream_of_lines() {
    for block in [1, 2, 3, 7, 64, 1 << 16] {
        assert!(split(b"", block).is_empty());
        assert_eq!(split(b"\n", block), [b""]);
        assert_eq!(split(b"a", block), [b"a"]);
        assert_eq!(split(b"a\n", block), [b"a"]);
        assert_eq!(split(b"a\n\n", block), [&b"a"[..], b""]);
        assert_eq!(
            split(b"\r\na\0b\n\xff", block),
            [&b"\r"[..], b"a\0b", b"\xff"]
        );
        let long = vec![b'x'; 3 * LONGEST];
        let input = [&long[..], b"\nb\n", &long[..LONGEST], b"\n", &long].concat();
        let lines = split(&input, block);
        let lengths: Vec<usize> = lines.iter().map(Vec::len).collect();
        assert_eq!(lengths, [LONGEST + 1, 1, LONGEST, LONGEST + 1]);
    }
}

#[test]
fn a_written_job_is_read_back() {
    let mut draw = Draw::new(5);
    for _ in 0..1000 {
        let rings = draw.below(12);
        let job = Job {
            outset: rings == 1,
            distance: f64::from_bits(draw.bits() >> draw.below(64)),
            counts: (0..rings).map(|_| draw.below(1000)).collect(),
            numbers: (0..draw.below(40)).map(|_| draw.unit()).collect(),
        };
        let line = job.line();
        let read = Job::read(line.as_bytes()).unwrap();
        assert_eq!(read.line(), line);
        assert_eq!(read.counts, job.counts);
    }
}

fn tally(seed: u64, count: u64, small: bool) -> Tally {
    let mut tally = Tally::default();
    for index in 0..count {
        let line = generate::line(seed, index, small, None).unwrap();
        tally.add(&answer_line(&line));
    }
    tally
}

#[test]
fn the_load_reaches_every_number() {
    for seed in [1, 20_261_115] {
        let tally = tally(seed, 5000, false);
        for number in (1..=19).chain([22, 27]) {
            assert!(tally.refused[number] > 4, "seed {seed}, {number}\n{tally}");
        }
        let outer = tally.refused[27] - tally.of_holes;
        assert!(outer > 50 && tally.of_holes > 20, "seed {seed}\n{tally}");
        for piece in tally.pieces {
            assert!(piece > 4, "seed {seed}\n{tally}");
        }
        assert!(
            tally.walk > 20 && tally.accepted > 1500,
            "seed {seed}\n{tally}"
        );
        for kind in 0..3 {
            assert!(tally.with[kind] > 100, "seed {seed}\n{tally}");
            assert!(tally.most[kind] > 2, "seed {seed}\n{tally}");
        }
    }
}

/// 15 while loading and at a split, a piece refused after a ring that
/// vanished.
#[test]
fn the_load_reaches_rare_places() {
    let (mut loading, mut splitting, mut second) = (0, 0, 0);
    for index in 0..5000 {
        let line = generate::line(3, index, false, None).unwrap();
        let Some(job) = Job::read(&line) else {
            continue;
        };
        let answer = answer_line(&line);
        match &answer.result {
            Err(refusal) if refusal.number == 15 => {
                if job.numbers.len() > 2 * 140 {
                    loading += 1;
                } else if job.numbers.len() <= 2 * 128 {
                    splitting += 1;
                }
            }
            Err(refusal) if answer.rings > 1 && refusal.ring == Some(1) => second += 1,
            _ => {}
        }
    }
    assert!(
        loading > 4 && splitting > 4 && second > 4,
        "{loading} {splitting} {second}"
    );
}

#[test]
fn the_small_load() {
    let tally = tally(7, 5000, true);
    for number in [1, 2, 3, 4, 5, 7, 8, 9, 11, 12, 13, 14, 16, 17, 18, 22, 27] {
        assert!(tally.refused[number] > 4, "{number}\n{tally}");
    }
    // These need more vertices.
    for number in [6, 10, 15, 19] {
        assert_eq!(tally.refused[number], 0, "{number}\n{tally}");
    }
    assert!(
        tally.pieces[0] > 4 && tally.pieces[1] > 4 && tally.walk > 20,
        "{tally}"
    );
    assert!(tally.with.iter().all(|count| *count > 50), "{tally}");
    for index in 0..5000 {
        let line = generate::line(7, index, true, None).unwrap();
        if let Some(job) = Job::read(&line) {
            assert!(job.numbers.len() <= 25);
        }
    }
}

/// The same lines everywhere.
#[test]
fn the_load_is_fixed() {
    let mut sum = 0xcbf2_9ce4_8422_2325_u64;
    for index in 0..2000 {
        let line = generate::line(1, index, false, None).unwrap();
        assert!(!line.contains(&b'\n'));
        for byte in line.iter().chain(b"\n") {
            sum = (sum ^ u64::from(*byte)).wrapping_mul(0x100_0000_01b3);
        }
    }
    assert_eq!(format!("{sum:016x}"), "74a1cc357e3d41d2");
    assert!(generate::line(1, 0, true, Some("corridor")).is_none());
}
