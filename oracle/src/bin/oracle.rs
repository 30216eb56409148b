//! Job lines on standard input, answer lines on standard output.
//!
//! `oracle [--hypot exact|std] [--turns exact|rounded] [--hairlines refuse|pass] [--region]
//! [--full | --tally]`

use std::io::{self, BufWriter, Write};
use std::process::ExitCode;

use oracle::answer::{answer_line_by, pass_hairlines, Single};
use oracle::hypot;
use oracle::lines::next_line;
use oracle::tally::Tally;
use oracle::turns;

const USAGE: &str = "usage: oracle [--hypot exact|std] [--turns exact|rounded] \
    [--hairlines refuse|pass] [--region] [--full | --tally]";

enum Mode {
    Plain,
    Full,
    Tally,
}

fn choice() -> Option<(Mode, Single)> {
    let (mut mode, mut single) = (Mode::Plain, Single::Outline);
    let mut words = std::env::args().skip(1);
    while let Some(word) = words.next() {
        match word.as_str() {
            "--full" => mode = Mode::Full,
            "--tally" => mode = Mode::Tally,
            "--region" => single = Single::Region,
            "--hypot" => hypot::use_library(match words.next()?.as_str() {
                "exact" => false,
                "std" => true,
                _ => return None,
            }),
            "--turns" => turns::use_rounded(match words.next()?.as_str() {
                "exact" => false,
                "rounded" => true,
                _ => return None,
            }),
            "--hairlines" => pass_hairlines(match words.next()?.as_str() {
                "refuse" => false,
                "pass" => true,
                _ => return None,
            }),
            _ => return None,
        }
    }
    Some((mode, single))
}

fn run(mode: &Mode, single: Single) -> io::Result<()> {
    let mut input = io::stdin().lock();
    let mut output = BufWriter::with_capacity(1 << 16, io::stdout().lock());
    let mut tally = Tally::default();
    let mut line = Vec::new();
    while next_line(&mut input, &mut line)? {
        let answer = answer_line_by(&line, single);
        match mode {
            Mode::Plain => writeln!(output, "{}", answer.line())?,
            Mode::Full => writeln!(output, "{}", answer.full_line())?,
            Mode::Tally => tally.add(&answer),
        }
    }
    if let Mode::Tally = mode {
        write!(output, "{tally}")?;
    }
    output.flush()
}

fn main() -> ExitCode {
    let Some((mode, single)) = choice() else {
        eprintln!("{USAGE}");
        return ExitCode::from(2);
    };
    match run(&mode, single) {
        Ok(()) => ExitCode::SUCCESS,
        Err(error) => {
            eprintln!("oracle: {error}");
            ExitCode::FAILURE
        }
    }
}
