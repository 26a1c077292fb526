//! Modules and constants: a function that asks something of its caller stands in a module named
//! `unchecked` or `unchecked_` and a topic, each promise has a name, and a number that has a name
//! is written by it.

use crate::tree;

/// Numbers that have names: limits, the largest 32-bit number, and that of a ring entry.
const NAMED: [&str; 5] = ["4294967295", "1048576", "196608", "98304", "4096"];

/// The lines of a text that are not comments.
fn code(text: &str) -> impl Iterator<Item = (usize, &str)> {
    (1..)
        .zip(text.lines())
        .filter(|(_, line)| !line.trim_start().starts_with("//"))
}

fn says_unchecked(path: &str) -> bool {
    let module = path.rsplit('/').next().expect("a name");
    module == "unchecked.rt" || module.starts_with("unchecked_")
}

/// The lines at which a module asks something of a caller, unless its name says so.
fn unsaid_requirements(path: &str, text: &str) -> Vec<usize> {
    code(text)
        .filter(|(_, line)| !says_unchecked(path) && line.trim_start().starts_with("requires"))
        .map(|(at, _)| at)
        .collect()
}

/// The lines of promises without a name.
fn nameless_promises(text: &str) -> Vec<usize> {
    code(text)
        .filter(|(_, line)| line.trim_start().starts_with("ensures {"))
        .map(|(at, _)| at)
        .collect()
}

/// The lines at which a number that has a name is written out, but for the constants themselves and
/// what a program prints.
fn bare_numbers(text: &str) -> Vec<usize> {
    code(text)
        .filter(|(_, line)| !line.contains("const ") && !line.contains("b\""))
        .filter(|(_, line)| {
            line.split(|c: char| !c.is_ascii_alphanumeric() && c != '_')
                .any(|word| NAMED.contains(&word))
        })
        .map(|(at, _)| at)
        .collect()
}

fn assert_no_line(lines: impl Fn(&str, &str) -> Vec<usize>) {
    let mut faults = Vec::new();
    for path in tree::files(".rt") {
        for line in lines(&path, &tree::read(&path)) {
            faults.push(format!("{path}:{line}"));
        }
    }
    tree::assert_none(&faults);
}

#[test]
fn what_a_caller_owes_is_said_by_the_module() {
    assert_no_line(unsaid_requirements);
}

#[test]
fn every_promise_has_a_name() {
    assert_no_line(|_, text| nameless_promises(text));
}

#[test]
fn numbers_are_written_by_their_names() {
    let is_run = |path: &str| path.starts_with("crates/worked_run/");
    assert_no_line(|path, text| {
        if is_run(path) {
            Vec::new()
        } else {
            bare_numbers(text)
        }
    });
}

#[test]
fn each_fault_is_seen() {
    let text = "\
// requires { nothing } of 98304
pub const MOST_POINTS: usize = 98304;
fn few(n: usize) -> bool
    requires few { n < 196608 }
    ensures { result ≡ leb n 98304 }
    ensures value { result ≡ leb n most_points }
{
    n <= 983040
}
";
    assert_eq!(unsaid_requirements("crates/mesh/src/tests.rt", text), [4]);
    assert_eq!(
        unsaid_requirements("crates/mesh/src/unchecked_sort.rt", text),
        [0; 0]
    );
    assert_eq!(nameless_promises(text), [5]);
    assert_eq!(bare_numbers(text), [4, 5]);
}
