//! One version: that of the header, of the Rust crates and of the newest entry in the list of changes.

use std::fs;
use std::path::Path;

/// The root of the repository.
const ROOT: &str = concat!(env!("CARGO_MANIFEST_DIR"), "/../..");

const HEADER: &str = include_str!("../../../../include/wadroles.h");

fn number(name: &str) -> &'static str {
    let define = format!("\n#define WADROLES_VERSION_{name} ");
    let (_, after) = HEADER.split_once(&define).expect("the header defines it");
    after.lines().next().expect("the line ends").trim()
}

/// The version of the first heading of the second level, such as `## 0.1.0`, whatever follows it.
fn newest(changes: &str) -> &str {
    let heading = changes.lines().find_map(|line| line.strip_prefix("## "));
    let heading = heading.expect("the list of changes has a heading for each version");
    let mut words = heading.split(|c: char| c != '.' && !c.is_ascii_digit());
    words.next().unwrap_or_default()
}

#[test]
fn the_header_has_the_version_of_the_crates() {
    let in_header = ["MAJOR", "MINOR", "PATCH"].map(number).join(".");
    assert_eq!(in_header, env!("CARGO_PKG_VERSION"));
}

#[test]
fn the_newest_change_has_the_version_of_the_crates() {
    let path = Path::new(ROOT).join("CHANGELOG.md");
    let changes =
        fs::read_to_string(&path).unwrap_or_else(|error| panic!("{}: {error}", path.display()));
    assert_eq!(newest(&changes), env!("CARGO_PKG_VERSION"));
}

#[test]
fn the_newest_version_stands_first() {
    assert_eq!(
        newest("# Changes\n\nWords.\n\n## 0.2.0\n\n- A.\n\n## 0.1.0\n"),
        "0.2.0"
    );
    assert_eq!(newest("## 1.0.0, 2030-01-01\n\n## 0.9.0\n"), "1.0.0");
    assert_eq!(newest("## Unreleased\n\n## 0.9.0\n"), "");
}
