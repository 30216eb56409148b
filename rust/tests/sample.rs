//! The jobs of docs/sample.jobs, asked of outlines and regions, have the answers of docs/sample.answers.

use lizardwire::{words, Outline, Refusal, Region};

/// A job line, taken apart.
struct Job {
    inward: bool,
    distance: f64,
    lengths: Vec<usize>,
    numbers: Vec<f64>,
}

fn float(digits: &str) -> f64 {
    f64::from_bits(u64::from_str_radix(digits, 16).unwrap())
}

/// Sixteen digits; a zero has no sign.
fn digits(number: &f64) -> String {
    format!("{:016x}", (number + 0.0).to_bits())
}

fn job(line: &str) -> Job {
    let fields: Vec<&str> = line.split(',').collect();
    let rings: usize = fields[2].parse().unwrap();
    let (lengths, numbers) = fields[3..].split_at(rings);
    Job {
        inward: fields[0] == "inset",
        distance: float(fields[1]),
        lengths: lengths.iter().map(|count| count.parse().unwrap()).collect(),
        numbers: numbers.iter().map(|number| float(number)).collect(),
    }
}

/// The answer's vertex counts and numbers.
fn cage(job: &Job) -> Result<(Vec<usize>, Vec<f64>), Refusal> {
    if job.lengths.len() > 1 {
        let cage = Region::from_numbers(&job.numbers, &job.lengths)?.inset(job.distance)?;
        return Ok((cage.counts().to_vec(), cage.numbers().to_vec()));
    }
    let outline = Outline::from_numbers(&job.numbers)?;
    let cage = if job.inward {
        outline.inset(job.distance)?
    } else {
        outline.outset(job.distance)?
    };
    Ok((vec![cage.vertices().len()], cage.numbers().to_vec()))
}

fn answer(job: &Job) -> String {
    match cage(job) {
        Err(refusal) => format!("no,{}", refusal.number()),
        Ok((counts, numbers)) => {
            let counts: Vec<String> = counts.iter().map(usize::to_string).collect();
            let numbers: Vec<String> = numbers.iter().map(digits).collect();
            let parts = [counts.join(","), numbers.join(",")];
            format!("ok,{},{}", counts.len(), parts.join(","))
        }
    }
}

fn paper(name: &str) -> String {
    let path = format!("{}/../docs/{name}", env!("CARGO_MANIFEST_DIR"));
    std::fs::read_to_string(path).unwrap()
}

#[test]
fn the_sample() {
    let (jobs, answers) = (paper("sample.jobs"), paper("sample.answers"));
    let lines: Vec<(&str, &str)> = jobs.lines().zip(answers.lines()).collect();
    assert_eq!((lines.len(), answers.lines().count()), (8, 8));
    for (line, expected) in lines {
        assert_eq!(answer(&job(line)), expected, "{line}");
    }
}

#[test]
fn the_events() {
    let jobs = paper("sample.jobs");
    let jobs: Vec<Job> = jobs.lines().map(job).collect();
    let hand = Outline::from_numbers(&jobs[3].numbers).unwrap();
    let events = hand.inset_counted(jobs[3].distance).1;
    assert_eq!((events.collapses, events.divides, events.joins), (5, 0, 0));
    let waist = Outline::from_numbers(&jobs[4].numbers).unwrap();
    let events = waist.inset_counted(jobs[4].distance).1;
    assert_eq!((events.collapses, events.divides, events.joins), (0, 2, 0));
    let mask = Region::from_numbers(&jobs[7].numbers, &jobs[7].lengths).unwrap();
    let events = mask.inset_counted(jobs[7].distance).1;
    assert_eq!((events.collapses, events.divides, events.joins), (0, 1, 1));
}

/// A region of one ring has the inset of its outline.
#[test]
fn regions_of_one_ring() {
    let mut tried = 0;
    for line in paper("sample.jobs").lines() {
        let job = job(line);
        let alone = job.lengths.len() == 1 && job.inward;
        if let (true, Ok(outline)) = (alone, Outline::from_numbers(&job.numbers)) {
            let region = Region::without_holes(&outline);
            assert_eq!(
                Region::from_numbers(&job.numbers, &job.lengths).as_ref(),
                Ok(&region)
            );
            let (cage, events) = outline.inset_counted(job.distance);
            let (inset, counted) = region.inset_counted(job.distance);
            assert_eq!((inset.map(|cage| cage.outer()), counted), (cage, events));
            tried += 1;
        }
    }
    assert_eq!(tried, 3);
}

#[test]
fn an_answer_in_words() {
    let refused = paper("sample.answers");
    let numbers = refused.lines().filter_map(|line| line.strip_prefix("no,"));
    let said: Vec<&str> = numbers
        .map(|number| words(number.parse().unwrap()))
        .collect();
    assert_eq!(
        said,
        [
            "the cage falls apart or meets the outline",
            "two edges cross"
        ]
    );
}
