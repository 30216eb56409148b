//! What README.md shows of this crate is what its documentation runs.

fn text(path: &str) -> String {
    std::fs::read_to_string(format!("{}/{path}", env!("CARGO_MANIFEST_DIR"))).unwrap()
}

#[test]
fn the_example() {
    let (readme, source) = (text("../README.md"), text("src/lib.rs"));
    let run: Vec<&str> = (source.lines())
        .filter_map(|line| line.strip_prefix("//! "))
        .collect();
    let shown: Vec<&str> = (readme.lines())
        .skip_while(|line| !line.starts_with("**Rust.**"))
        .skip(1)
        .take_while(|line| line.is_empty() || line.starts_with("    "))
        .map(str::trim)
        .filter(|line| !line.is_empty())
        .collect();
    assert!(shown.len() >= 3);
    for line in shown {
        assert!(run.contains(&line), "{line}");
    }
}
