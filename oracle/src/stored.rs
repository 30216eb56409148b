//! The stored lists: the job lines that the program `lizardwire` answers in
//! the gate, and the questions that the program `replay` asks.

use std::collections::BTreeMap;

use crate::answer::{answer_line, Answer};
use crate::generate::{self, again, clearance, offset, pair, question, region, turning};
use crate::job::{Job, LONGEST};
use crate::outlines::{handed_outline, Question, Shape};
use crate::regions::{Changed, Given};

/// Job lines for places that few drawn jobs reach, with words about them.
const CHOSEN: &str = include_str!("../chosen.jobs");

/// What stands before a job of `chosen.jobs` whose shape is handed in.
pub const GIVEN: &str = "given ";

/// The lines of `chosen.jobs`.
fn chosen_lines() -> impl Iterator<Item = &'static str> {
    let lines = CHOSEN.lines();
    lines.filter(|line| !line.is_empty() && !line.starts_with('#'))
}

/// The job lines of `chosen.jobs`.
pub fn chosen() -> impl Iterator<Item = &'static [u8]> {
    let lines = chosen_lines().filter(|line| !line.starts_with(GIVEN));
    lines.map(str::as_bytes)
}

/// Those whose shape is handed in: as a job 27 refuses each.
pub fn chosen_given() -> impl Iterator<Item = &'static [u8]> {
    let lines = chosen_lines().filter_map(|line| line.strip_prefix(GIVEN));
    lines.map(str::as_bytes)
}

/// Bytes that the program reads at once, and that it writes at once.
pub const BLOCK: usize = 65_536;
/// Where a job line lies across the end of a block.
pub const CUT: usize = 6 * BLOCK;
/// Drawn jobs of each answer.
const EACH: usize = 12;
/// Bytes of the line across `CUT` that come before it.
const BEFORE: usize = 80;
/// Empty lines: their answers fill the block that is written twice, and are
/// all in one block that is read.
pub const EMPTY: usize = 24_000;

/// E8.
const SQUARE: &[u8] = b"inset,3ff0000000000000,1,4,\
    0000000000000000,0000000000000000,4010000000000000,0000000000000000,\
    4010000000000000,4010000000000000,0000000000000000,4010000000000000";

/// Of each answer, the refusal's number or 0 where it is accepted, the first
/// drawn jobs; line by line from the start of the load.
fn each() -> Vec<Vec<u8>> {
    let mut counts = BTreeMap::new();
    let mut lines = Vec::new();
    for index in 0..5_000 {
        let line = generate::line(1, index, false, None).expect("a line");
        let count = counts.entry(number(&answer_line(&line))).or_insert(0);
        if *count < EACH && line.len() < 8_000 {
            *count += 1;
            lines.push(line);
        }
    }
    lines
}

/// The refusal's number, 0 where there is none.
fn number(answer: &Answer) -> u32 {
    answer
        .result
        .as_ref()
        .map_or_else(|refusal| refusal.number, |_| 0)
}

/// A line of the longest that is allowed, well formed, and one a byte longer.
fn longest() -> Vec<Vec<u8>> {
    let drawn = (0..).map(|index| generate::line(1, index, false, Some("longest")));
    let mut drawn = drawn.map(|line| line.expect("a line"));
    let mut of = |length| {
        let sought = |line: &Vec<u8>| line.len() == length && line.starts_with(b"inset");
        drawn.find(sought).expect("a line of this length")
    };
    vec![of(LONGEST), of(LONGEST + 1)]
}

/// Accepted jobs of another seed, as many as there is room for.
fn accepted(mut room: usize) -> Vec<Vec<u8>> {
    let mut lines = Vec::new();
    for index in 0..2_000 {
        let line = generate::line(2, index, false, None).expect("a line");
        if line.len() < room.min(1_000) && number(&answer_line(&line)) == 0 {
            room -= line.len() + 1;
            lines.push(line);
        }
    }
    lines
}

/// crates/lizardwire/stdin: the chosen jobs, drawn ones of every answer, the
/// longest lines, accepted ones up to the end of a block, a line across that
/// end, empty lines, and a last line without LF.
pub fn jobs() -> Vec<u8> {
    let mut lines: Vec<Vec<u8>> = chosen().map(<[u8]>::to_vec).collect();
    lines.extend(each());
    lines.extend(longest());
    let size = |lines: &[Vec<u8>]| lines.iter().map(|line| line.len() + 1).sum::<usize>();
    lines.extend(accepted(CUT - BEFORE - 1 - size(&lines)));
    // No job, but of the length that is wanted.
    let length = CUT - BEFORE - 1 - size(&lines);
    lines.push(vec![b'0'; length]);
    lines.push(SQUARE.to_vec());
    lines.extend(vec![Vec::new(); EMPTY]);
    lines.push(SQUARE.to_vec());
    lines.join(&b'\n')
}

/// crates/lizardwire/stdout: an answer line for each.
pub fn answers() -> String {
    let jobs = jobs();
    let lines = jobs.split(|byte| *byte == b'\n');
    lines.map(|line| answer_line(line).line() + "\n").collect()
}

/// A shape as it is stored.
fn shape(numbers: &[f64]) -> Shape {
    Shape::new(&handed_outline(numbers).expect("an outline"))
}

/// A collar, and a sleeve with a spike toward its upper edge; as they are
/// stored.
pub const COLLAR: &[f64] = &[-3.0, 0.0, -3.0, -2.0, 3.0, -2.0, 3.0, 0.0];
pub const SLEEVE: &[f64] = &[-5.0, 10.0, -1.0, 6.0, 0.0, 0.2, 1.0, 6.0, 5.0, 10.0];

/// Questions that no job asks, as docs/DIFFERENCES.md has them.
pub fn chosen_questions() -> Vec<Question> {
    // Rounded turns tell all of these points otherwise: inside, outside, twice
    // on the boundary.
    let place = |ring: [f64; 6], point| Question::Contains(shape(&ring), point);
    let clear = |a: &[f64], b: &[f64]| Question::Clearance(shape(a), shape(b));
    let either = |a: &[f64], b: &[f64]| [clear(a, b), clear(b, a)];
    // The middle of the hole's first edge, on it exactly, is told outside.
    let given = Given {
        lengths: vec![3, 3],
        numbers: vec![
            0.825897065619964,
            0.8562508352412294,
            15.39124853793309,
            5.264144826356171,
            -2.174102934380036,
            25.264144826356173,
            10.20842615453086,
            3.6956738090765153,
            11.850205399363,
            4.192523396385756,
            10.72931577694693,
            6.9440986027311355,
        ],
    };
    let middle = [11.02931577694693, 3.9440986027311355];
    let mut asked = vec![
        place([0.1, 0.4, 0.2, 0.4, 0.3, 0.2], [0.2, 0.3]),
        place([0.0, 0.4, 0.3, 0.1, 0.3, 0.0], [0.2, 0.2]),
        place([0.1, 0.2, 0.1, 0.4, 0.4, 0.7], [0.2, 0.5]),
        place([0.1, 0.2, 0.0, 0.2, 0.7, 0.6], [0.4, 0.4]),
    ];
    // And the first two of these pairs: apart, and together. Of the third, apart
    // as well, a gap rounds to 0.
    asked.extend(either(
        &[0.0, 0.0, 0.2, 0.1, 0.0, 0.1],
        &[0.1, 0.0, 0.2, 0.0, 0.4, 0.3],
    ));
    asked.extend(either(
        &[0.0, 0.0, 0.3, 0.4, 0.0, 0.1],
        &[0.0, 0.2, 0.1, 0.2, 0.0, 0.3],
    ));
    asked.extend(either(
        &[0.2, 0.2, 0.2, 0.3, 0.0, 0.2],
        &[0.3, 0.4, 0.1, 0.4, 0.3, 0.2],
    ));
    asked.extend(either(COLLAR, SLEEVE));
    let whole = Changed { place: 0, value: 0 };
    asked.push(Question::RegionPoint(given, middle, whole));
    asked
}

/// The questions of the stored list: 700 of each of the seeds 41, 42 and 43, 700
/// offsets of seed 27, 500 questions about regions of seed 207, 450 about
/// points of seed 1, 400 about pairs of rings of seed 1, 400 about clearances of
/// seed 1, 320 about regions handed in of seed 6, the chosen jobs: of one ring as
/// an offset, or as an outline where that is refused, of more as an inset of a
/// region; those with shapes handed in; and the chosen questions.
pub fn questions() -> impl Iterator<Item = Question> {
    let asked = (41..=43).flat_map(|seed| (0..700).map(move |index| question(seed, index)));
    let asked = asked.chain((0..700).map(|index| offset(27, index)));
    let asked = asked.chain((0..500).map(|index| region(207, index)));
    let asked = asked.chain((0..450).map(|index| turning(1, index)));
    let asked = asked.chain((0..400).map(|index| pair(1, index)));
    let asked = asked.chain((0..400).map(|index| clearance(1, index)));
    let asked = asked.chain((0..320).map(|index| again(6, index)));
    let read = |line| Job::read(line).expect("a chosen job");
    let asked = asked.chain(chosen().map(move |line| Question::of_job(&read(line))));
    let given = move |line| Question::of_given(&read(line)).expect("a shape");
    let asked = asked.chain(chosen_given().map(given));
    asked.chain(chosen_questions())
}

/// crates/replay/stdin: the questions with their answers, then those with
/// wrong ones.
pub fn replayed() -> Vec<String> {
    let lines = questions().map(|question| question.line());
    let wrong = crate::wrong::lines();
    lines
        .chain(wrong.into_iter().map(|(_, line)| line))
        .collect()
}

/// crates/replay/stdout: how many lines of each kind there are, and how many of
/// them have a wrong answer.
pub fn counts() -> String {
    use crate::outlines::{KINDS, NAMES};
    let (mut compared, mut differ) = ([0; KINDS + 2], [0; KINDS + 2]);
    for question in questions() {
        compared[question.kind()] += 1;
    }
    for (kind, _) in crate::wrong::lines() {
        let place = kind.unwrap_or(KINDS);
        compared[place] += 1;
        differ[place] += 1;
    }
    compared[KINDS + 1] = compared.iter().sum();
    differ[KINDS + 1] = differ.iter().sum();
    let names = NAMES.into_iter().chain(["unread", "total"]);
    let rows = names.zip(compared.into_iter().zip(differ));
    rows.map(|(name, (all, wrong))| format!("{name:<9} {all} compared, {wrong} differ\n"))
        .collect()
}
