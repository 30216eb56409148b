//! The stored lists of the programs `lizardwire` and `replay`.
//!
//! `stored jobs | answers | questions | counts | tally`

use std::io::{self, Write};
use std::process::ExitCode;

use oracle::outlines::Tally;
use oracle::stored;

const USAGE: &str = "usage: stored jobs | answers | questions | counts | tally";

fn list(name: &str) -> Option<Vec<u8>> {
    Some(match name {
        "jobs" => stored::jobs(),
        "answers" => stored::answers().into_bytes(),
        "questions" => (stored::replayed().join("\n") + "\n").into_bytes(),
        "counts" => stored::counts().into_bytes(),
        "tally" => {
            let mut tally = Tally::default();
            for question in stored::questions() {
                tally.add(&question);
            }
            tally.to_string().into_bytes()
        }
        _ => return None,
    })
}

fn main() -> ExitCode {
    let mut words = std::env::args().skip(1);
    let Some(list) = words.next().and_then(|name| list(&name)) else {
        eprintln!("{USAGE}");
        return ExitCode::from(2);
    };
    match io::stdout().lock().write_all(&list) {
        Ok(()) => ExitCode::SUCCESS,
        Err(error) => {
            eprintln!("stored: {error}");
            ExitCode::FAILURE
        }
    }
}
