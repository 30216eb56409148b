//! Questions about outlines, regions, points or pairs of rings from a seed, each
//! with the reference's answer.
//!
//! `outlines SEED COUNT [--offsets | --regions | --again | --turns | --pairs | --clearances]
//! [--tally]`

use std::io::{self, BufWriter, Write};
use std::process::ExitCode;

use oracle::generate::{again, clearance, offset, pair, question, region, turning};
use oracle::outlines::{Question, Tally};

const USAGE: &str = "usage: outlines SEED COUNT \
    [--offsets | --regions | --again | --turns | --pairs | --clearances] [--tally]";

struct Load {
    seed: u64,
    count: u64,
    draw: fn(u64, u64) -> Question,
    tally: bool,
}

fn load() -> Option<Load> {
    let mut numbers = Vec::new();
    let mut draw: fn(u64, u64) -> Question = question;
    let mut tally = false;
    for word in std::env::args().skip(1) {
        match word.as_str() {
            "--offsets" => draw = offset,
            "--regions" => draw = region,
            "--again" => draw = again,
            "--turns" => draw = turning,
            "--pairs" => draw = pair,
            "--clearances" => draw = clearance,
            "--tally" => tally = true,
            _ => numbers.push(word.parse().ok()?),
        }
    }
    let [seed, count] = numbers[..] else {
        return None;
    };
    Some(Load {
        seed,
        count,
        draw,
        tally,
    })
}

fn run(load: &Load) -> io::Result<()> {
    let mut output = BufWriter::with_capacity(1 << 16, io::stdout().lock());
    let mut tally = Tally::default();
    for index in 0..load.count {
        let question = (load.draw)(load.seed, index);
        if load.tally {
            tally.add(&question);
        } else {
            writeln!(output, "{}", question.line())?;
        }
    }
    if load.tally {
        write!(output, "{tally}")?;
    }
    output.flush()
}

fn main() -> ExitCode {
    let Some(load) = load() else {
        eprintln!("{USAGE}");
        return ExitCode::from(2);
    };
    match run(&load) {
        Ok(()) => ExitCode::SUCCESS,
        // A reader that wants no more.
        Err(error) if error.kind() == io::ErrorKind::BrokenPipe => ExitCode::SUCCESS,
        Err(error) => {
            eprintln!("outlines: {error}");
            ExitCode::FAILURE
        }
    }
}
