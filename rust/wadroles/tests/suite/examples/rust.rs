//! The Rust examples, which `cargo test` builds beside the tests where it is given no filter.

use super::part_file::{changed_p, path_of_p};
use super::programs::{lend_file, Run};
use super::NESTED_RINGS;
use crate::inputs::LAYER_FILE_P;
use oracle::{encode_layers, FileLayer};
use std::env;
use std::path::Path;
use std::process::Command;

/// The command of an example, which stands in the directory above that of the tests.
fn example(name: &str) -> Command {
    let tests = env::current_exe().expect("a test knows its path");
    let profile = tests.ancestors().nth(2).expect("it is in `deps`");
    let program = profile.join("examples").join(name);
    assert!(
        program.is_file(),
        "there is no {program:?}: `cargo test` builds it where it is given no filter"
    );
    Command::new(program)
}

#[track_caller]
fn assert_writes(name: &str, output: &str) {
    assert_eq!(Run::of(&mut example(name)), Run::content(output), "{name}");
}

#[test]
fn check() {
    assert_writes(
        "check",
        "P: closed, pairing [8, 9, 3, 2, 11, 6, 5, 10, 0, 1, 7, 4], order [0, 1, 2, 3]\n\
         P without triangle 3: refused 6 1\n",
    );
}

#[test]
fn cut() {
    assert_writes(
        "cut",
        "height 0: names [], ends []\n\
         height 5: names [4, 10, 6], ends [3]\n  \
           contour 0: points [5, 0, 0, 5, 0, 0], doubled area 25\n\
         height 10: names [4, 10, 6], ends [3]\n  \
           contour 0: points [0, 0, 0, 0, 0, 0], doubled area 0\n\
         height 11: names [], ends []\n",
    );
}

#[test]
fn sweep() {
    assert_writes(
        "sweep",
        "1 passed: 0 to 6, 3 to 0, 6 to 3\n\
         2 passed: 0 to 6, 4 to 9, 6 to 4, 9 to 0\n\
         3 passed: 4 to 10, 6 to 4, 10 to 6\n\
         4 passed: \n\
         23 bytes: [04, 00, 00, 0A, 01, 03, 0A, 00, 09, 0A, 00, 09, 14, 01, 03, 00, 00, 00, 00, 00, \
         00, 16, 00]\n",
    );
}

#[test]
fn read() {
    assert_writes(
        "read",
        "PartCounts { vertices: 4, triangles: 4, heights: 4 }: \
         Part { coords: [0, 0, 0, 10, 0, 0, 0, 10, 0, 0, 0, 10], \
         corners: [0, 2, 1, 0, 1, 3, 0, 3, 2, 1, 2, 3], heights: [0, 5, 10, 11] }\n\
         layer 0 of 4: height 0\n\
         layer 1 of 4: height 5\n  \
           contour 0: points [5, 0, 0, 5, 0, 0]\n\
         layer 2 of 4: height 10\n  \
           contour 0: points [0, 0, 0, 0, 0, 0]\n\
         layer 3 of 4: height 11\n",
    );
}

#[test]
fn part() {
    let lines = "\
layer 0 0 0 0
layer 5 1 3 25
layer 10 1 3 0
layer 11 0 0 0
layers 4, bytes 23
";
    assert_writes("part", lines);
    let run = |path: &Path| Run::of(example("part").arg(path));
    assert_eq!(run(&path_of_p()), Run::content(lines));

    let open = changed_p(|part| part.corners.truncate(9));
    let refused = run(&lend_file("open for Rust.part", &open));
    assert_eq!((refused.status, refused.output.as_str()), (1, ""));
    assert_eq!(
        refused.errors, "Error: Refusal { number: 6, place: 1 }\n",
        "a refusal by its number and place"
    );
}

#[test]
fn ink() {
    assert_writes("ink", "ink 1\n");
    let run = |path: &Path, thickness: &str| Run::of(example("ink").arg(path).arg(thickness));
    let file = lend_file("for ink.layers", &LAYER_FILE_P);
    assert_eq!(run(&file, "40"), Run::content("ink 1\n"));
    // Round the square of all coordinates, of the doubled area 2^43.
    const M: i32 = 1_048_576;
    let square = FileLayer {
        height: 0,
        contours: vec![vec![[M, M], [-M, M], [-M, -M], [M, -M]]],
    };
    let square = lend_file("square for ink.layers", &encode_layers(&[square]));
    assert_eq!(run(&square, "1000"), Run::content("ink 4398046512\n"));

    let refused = |path: &Path, thickness: &str, refusal: &str| {
        let refused = run(path, thickness);
        assert_eq!((refused.status, refused.output.as_str()), (1, ""));
        assert_eq!(refused.errors, format!("Error: Refusal {{ {refusal} }}\n"));
    };
    refused(&file, "0", "number: 19, place: 0");
    refused(&file, "1001", "number: 19, place: 0");
    let short = lend_file("short for ink.layers", &LAYER_FILE_P[..22]);
    refused(&short, "1001", "number: 13, place: 22");
    assert_eq!(Run::of(example("ink").arg(&file)).status, 1);
}

#[test]
fn nesting() {
    assert_writes("nesting", NESTED_RINGS);
}
