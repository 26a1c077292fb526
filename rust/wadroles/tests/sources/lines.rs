//! No line of the sources is too long to be read.

use crate::tree;

const MOST_CHARACTERS: usize = 160;

/// The lines of a text that are too long, each with its length.
fn long_lines(text: &str) -> Vec<(usize, usize)> {
    (1..)
        .zip(text.lines().map(|line| line.chars().count()))
        .filter(|&(_, length)| MOST_CHARACTERS < length)
        .collect()
}

#[test]
fn no_line_is_too_long() {
    let mut faults = Vec::new();
    for path in [tree::files(".antt"), tree::files(".rt")].concat() {
        for (line, length) in long_lines(&tree::read(&path)) {
            faults.push(format!("{path}:{line}: {length} characters"));
        }
    }
    tree::assert_none(&faults);
}

#[test]
fn a_long_line_is_seen_and_characters_are_counted() {
    let text = format!("short\n{}\n{}\n", "◌".repeat(160), "a".repeat(161));
    assert_eq!(long_lines(&text), [(3, 161)]);
}
