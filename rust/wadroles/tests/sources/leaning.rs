//! The cutting crates lean on nothing that checks a mesh. They test what they are handed.

use crate::tree;
use std::collections::{BTreeMap, BTreeSet};

const CUTTING: [&str; 22] = [
    "section",
    "cut_trace",
    "cut_points",
    "cut",
    "area_sum",
    "contours",
    "preview_floats",
    "preview",
    "cleaning",
    "clean_contour",
    "clean_layers",
    "clean",
    "inside",
    "nesting",
    "ink",
    "sweep",
    "sweep_layer",
    "all_active",
    "all_contours",
    "all_sweep",
    "all_output",
    "all_layers",
];
const CHECKING: [&str; 3] = ["check_mesh", "check_pairing", "check_order"];

type Leaning<'a> = BTreeMap<&'a str, Vec<&'a str>>;

/// What each crate leans on directly, by `crates.txt`: its name, maybe a word for what it is made into,
/// a colon and the names of others.
fn leaning(text: &str) -> Leaning<'_> {
    text.lines()
        .filter_map(|line| line.split('#').next()?.split_once(':'))
        .filter_map(|(name, others)| Some((name.split_whitespace().next()?, others)))
        .map(|(name, others)| (name, others.split_whitespace().collect()))
        .collect()
}

/// What a crate leans on, directly or through others.
fn all_below<'a>(leaning: &Leaning<'a>, name: &'a str) -> BTreeSet<&'a str> {
    let mut below = BTreeSet::new();
    let mut open = vec![name];
    while let Some(next) = open.pop() {
        for other in leaning.get(next).into_iter().flatten() {
            if below.insert(*other) {
                open.push(*other);
            }
        }
    }
    below
}

/// The cutting crates that lean on a checking one.
fn faults(text: &str) -> Vec<String> {
    let leaning = leaning(text);
    let mut faults = Vec::new();
    for name in CUTTING
        .into_iter()
        .filter(|name| leaning.contains_key(name))
    {
        let below = all_below(&leaning, name);
        for other in CHECKING.into_iter().filter(|other| below.contains(other)) {
            faults.push(format!("{name} leans on {other}"));
        }
    }
    faults
}

#[test]
fn cutting_leans_on_no_checking() {
    let text = tree::read("crates.txt");
    for name in CUTTING.iter().chain(&CHECKING) {
        assert!(leaning(&text).contains_key(name), "no crate {name}");
    }
    tree::assert_none(&faults(&text));
}

#[test]
fn leaning_through_another_is_seen() {
    let text = "# names\nmesh:\ncheck_order: mesh\ncheck_mesh: mesh check_order\ncut_trace: mesh check_order\n\
                section: mesh # check_mesh\nall_layers staticlib: section cut_trace\n";
    assert_eq!(
        faults(text),
        [
            "cut_trace leans on check_order",
            "all_layers leans on check_order"
        ]
    );
}
