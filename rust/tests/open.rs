//! What may grow is open: every public enum, and every public struct with a public field, is `#[non_exhaustive]`.

use std::fs;
use std::path::Path;

/// The sources of a folder, one after the other.
fn text(folder: &Path) -> String {
    let paths = fs::read_dir(folder)
        .unwrap()
        .map(|file| file.unwrap().path());
    let read = |path: std::path::PathBuf| match path.is_dir() {
        true => text(&path),
        false => fs::read_to_string(path).unwrap(),
    };
    paths.map(read).collect()
}

/// The name of a type that an item declares.
fn declared<'a>(item: &'a str, kind: &str) -> Option<&'a str> {
    item.split(kind).nth(1)?.split_whitespace().next()
}

#[test]
fn all_that_may_grow() {
    let text = text(&Path::new(env!("CARGO_MANIFEST_DIR")).join("src"));
    let mut open = Vec::new();
    for item in text.split("\n}\n") {
        let has_public = item.contains("\n    pub ");
        let of_fields = declared(item, "\npub struct ").filter(|_| has_public);
        if let Some(name) = declared(item, "\npub enum ").or(of_fields) {
            assert!(item.contains("\n#[non_exhaustive]\npub "), "{name}");
            open.push(name);
        }
    }
    open.sort_unstable();
    let known = [
        "Events",
        "Fed",
        "Meeting",
        "Nearest",
        "NearestPoints",
        "NotFed",
        "Place",
        "Refusal",
    ];
    assert!(known.iter().all(|name| open.contains(name)), "{open:?}");
}
