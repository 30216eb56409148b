//! The numbers and the words of include/lizardwire.h are those of this crate.

use lizardwire::{version, words};

fn header() -> String {
    let path = concat!(env!("CARGO_MANIFEST_DIR"), "/../include/lizardwire.h");
    std::fs::read_to_string(path).unwrap()
}

/// What follows the words in a line, up to its next blank.
fn after<'a>(line: &'a str, words: &str) -> Option<&'a str> {
    line.trim().strip_prefix(words)?.split_whitespace().next()
}

#[test]
fn room() {
    let rows = [
        ("VERSION", lizardwire::VERSION),
        ("VERTICES", lizardwire::VERTICES),
        ("HOLES", lizardwire::HOLES),
        ("HOLE_VERTICES", lizardwire::HOLE_VERTICES),
        ("OUTLINE_NUMBERS", lizardwire::OUTLINE_NUMBERS),
        ("REGION_NUMBERS", lizardwire::REGION_NUMBERS),
        ("LINE_BYTES", lizardwire::LINE_BYTES),
        ("STREAM_BYTES", lizardwire::STREAM_BYTES),
        ("STREAM_OUTPUT", lizardwire::STREAM_OUTPUT),
    ];
    for (name, number) in rows {
        let defined = format!("#define LW_{name} ");
        let found: Vec<String> = header()
            .lines()
            .filter_map(|line| after(line, &defined).map(str::to_string))
            .collect();
        assert_eq!(found, [number.to_string()], "{name}");
    }
}

#[test]
fn the_library_is_of_this_version() {
    assert_eq!(version(), lizardwire::VERSION);
}

#[test]
fn words_for_each_number() {
    let header = header();
    let said = |name: &str| {
        let case = format!("    case {name}: return \"");
        let line = header.lines().find_map(|line| line.strip_prefix(&case));
        line.and_then(|rest| rest.strip_suffix("\";"))
    };
    let (mut count, mut last) = (0, 0);
    for line in header.lines() {
        let Some((name, number)) = line.trim().split_once(" = ") else {
            continue;
        };
        if name.starts_with("LW_REFUSED_") {
            let number: usize = number.trim_end_matches(',').parse().unwrap();
            assert_eq!(said(name), Some(words(number)), "{name}");
            count += 1;
            last = number;
        }
    }
    assert!(count >= 23);
    assert!(header.contains("refusal ? \"refused\" : \"granted\""));
    assert_eq!((words(0), words(last + 1)), ("granted", "refused"));
    assert_eq!(words(usize::MAX), "refused");
}
