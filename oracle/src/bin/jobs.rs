//! Job lines from a seed.
//!
//! `jobs SEED COUNT [--small] [--family NAME]`; `jobs --families` names them.

use std::io::{self, BufWriter, Write};
use std::process::ExitCode;

use oracle::generate;

const USAGE: &str = "usage: jobs SEED COUNT [--small] [--family NAME] | jobs --families";

struct Load {
    seed: u64,
    count: u64,
    small: bool,
    family: Option<String>,
}

fn load() -> Option<Load> {
    let mut numbers = Vec::new();
    let (mut small, mut family) = (false, None);
    let mut words = std::env::args().skip(1);
    while let Some(word) = words.next() {
        match word.as_str() {
            "--small" => small = true,
            "--family" => family = Some(words.next()?),
            _ => numbers.push(word.parse().ok()?),
        }
    }
    let [seed, count] = numbers[..] else {
        return None;
    };
    let load = Load {
        seed,
        count,
        small,
        family,
    };
    generate::line(seed, 0, small, load.family.as_deref())?;
    Some(load)
}

fn run(load: &Load) -> io::Result<()> {
    let mut output = BufWriter::with_capacity(1 << 16, io::stdout().lock());
    let family = load.family.as_deref();
    for index in 0..load.count {
        let line = generate::line(load.seed, index, load.small, family);
        output.write_all(&line.unwrap_or_default())?;
        output.write_all(b"\n")?;
    }
    output.flush()
}

fn main() -> ExitCode {
    if std::env::args().skip(1).eq(["--families".to_string()]) {
        for name in generate::names() {
            println!("{name}");
        }
        return ExitCode::SUCCESS;
    }
    let Some(load) = load() else {
        eprintln!("{USAGE}");
        return ExitCode::from(2);
    };
    match run(&load) {
        Ok(()) => ExitCode::SUCCESS,
        // A reader that wants no more.
        Err(error) if error.kind() == io::ErrorKind::BrokenPipe => ExitCode::SUCCESS,
        Err(error) => {
            eprintln!("jobs: {error}");
            ExitCode::FAILURE
        }
    }
}
