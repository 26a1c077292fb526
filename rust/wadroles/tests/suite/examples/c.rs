//! The C examples, `examples/c/sweep.c`, `examples/c/preview.c`, `examples/c/ink.c` and
//! `examples/c/nesting.c`, as strict C99 with every warning an error.
//!
//! They are compiled by `cc`, which rustc itself links with on this target, or by the compiler that the
//! environment variable `CC` names. Where there is none the tests fail: without it there would be no
//! test to run.

use super::part_file::{changed_p, path_of_p, ROOT};
use super::programs::{lend_file, work_directory, Run};
use super::NESTED_RINGS;
use crate::all_layers::file;
use crate::inputs::LAYER_FILE_P;
use crate::operations::Given;
use meshes::shapes::{tetrahedron, torus};
use meshes::Mesh;
use oracle::{decode_layers, encode_part, FileLayer, Part};
use std::env;
use std::fs;
use std::path::{Path, PathBuf};
use std::process::Command;
use std::sync::OnceLock;

/// What the specification says of part P: a line for each layer as in its listing, and the count of layers
/// and bytes of its layer file.
const LINES_P: &str = "\
layer 0 0 0 0
layer 5 1 3 25
layer 10 1 3 0
layer 11 0 0 0
layers 4, bytes 23
";

/// The example of the sweep, compiled once.
fn example() -> &'static Path {
    static EXAMPLE: OnceLock<PathBuf> = OnceLock::new();
    EXAMPLE.get_or_init(|| compile("sweep"))
}

/// The example of ink, compiled once.
fn ink_example() -> &'static Path {
    static EXAMPLE: OnceLock<PathBuf> = OnceLock::new();
    EXAMPLE.get_or_init(|| compile("ink"))
}

fn compile(name: &str) -> PathBuf {
    let root = Path::new(ROOT);
    let program = work_directory().join(name);
    let compiler = env::var("CC").unwrap_or_else(|_| "cc".to_owned());
    let mut command = Command::new(&compiler);
    command
        .args([
            "-std=c99",
            "-Wall",
            "-Wextra",
            "-Werror",
            "-pedantic",
            "-O2",
        ])
        .arg("-I")
        .arg(root.join("include"))
        .arg(root.join(format!("examples/c/{name}.c")))
        .arg(env!("WADROLES_ARCHIVE"))
        .arg("-o")
        .arg(&program);
    if Command::new(&compiler).arg("--version").output().is_err() {
        panic!("there is no C compiler {compiler:?} (rustc links with `cc`): name one in CC");
    }
    assert_eq!(Run::of(&mut command), Run::content(""), "{command:?}");
    program
}

fn run(part: &Path) -> Run {
    Run::of(Command::new(example()).arg(part))
}

/// Asserts that the example refuses a part file, in the words of `operation`.
#[track_caller]
fn assert_refused(name: &str, part: &[u8], operation: &str, number: u32, place: u64) {
    let expected = Run {
        status: 1,
        output: String::new(),
        errors: format!("{operation}: refused {number} {place}\n"),
    };
    assert_eq!(run(&lend_file(name, part)), expected, "{name}");
}

#[test]
fn part_p() {
    let layers = work_directory().join("p.layers");
    let run = Run::of(Command::new(example()).arg(path_of_p()).arg(&layers));
    assert_eq!(run, Run::content(LINES_P));
    assert_eq!(fs::read(layers).unwrap(), LAYER_FILE_P);
}

#[test]
fn without_an_argument_it_takes_part_p() {
    let run = Run::of(Command::new(example()).current_dir(ROOT));
    assert_eq!(run, Run::content(LINES_P));
}

#[test]
fn files_that_are_no_part_files_are_refused() {
    let part_p = changed_p(|_| ());
    assert_refused("empty.part", &[], "read part", 13, 0);
    assert_refused("needless.part", &[0x80, 0x00], "read part", 13, 0);
    assert_refused("short.part", &part_p[..30], "read part", 13, 30);
    let longer = [&part_p[..], &[0]].concat();
    assert_refused("longer.part", &longer, "read part", 13, 31);
}

#[test]
fn meshes_that_are_not_closed_are_refused() {
    let open = changed_p(|part| part.corners.truncate(9));
    assert_refused("open.part", &open, "check", 6, 1);
    let far = changed_p(|part| part.coords[3] = 1_048_577);
    assert_refused("far.part", &far, "check", 2, 3);
    let stray = changed_p(|part| part.corners[7] = 4);
    assert_refused("stray.part", &stray, "check", 3, 7);
    let twice = changed_p(|part| part.corners[8] = 0);
    assert_refused("twice.part", &twice, "check", 4, 6);
    let doubled = changed_p(|part| part.corners.extend([1, 2, 3]));
    assert_refused("doubled.part", &doubled, "check", 6, 12);
}

#[test]
fn heights_that_do_not_rise_or_are_too_many_are_refused() {
    let equal = changed_p(|part| part.heights[2] = 5);
    assert_refused("equal.part", &equal, "all layers", 12, 2);
    let many = changed_p(|part| part.heights = (0..4_097).collect());
    assert_refused("many.part", &many, "all layers", 1, 0);
}

#[test]
fn the_limits_pass() {
    let far = changed_p(|part| part.coords[3] = 1_048_576);
    assert_eq!(run(&lend_file("limit.part", &far)).status, 0);
    let many = changed_p(|part| part.heights = (0..4_096).collect());
    let run = run(&lend_file("limits.part", &many));
    assert_eq!(run.status, 0);
    assert_eq!(run.output.lines().count(), 4_097);
    // The count; 64 heights of one byte and 4,032 of two; contour counts; three points at 1 to 10.
    let bytes = 2 + 64 + 2 * 4_032 + 4_096 + 10 * 7;
    let last = format!("\nlayer 4095 0 0 0\nlayers 4096, bytes {bytes}\n");
    assert!(run.output.ends_with(&last), "{}", run.output);
}

#[test]
fn a_part_without_vertices_has_no_layer() {
    let run = run(&lend_file("none.part", &[0, 0, 0]));
    assert_eq!(run, Run::content("layers 0, bytes 1\n"));
}

#[test]
fn larger_parts_at_their_default_heights() {
    let torus = torus(24, 40, 9_000, 4_000);
    let file = assert_as_the_oracle("torus", torus);
    assert!(file.len() > 10_000);
    // Of few corners and with many layers, so that the first guess at the room is too small.
    let file = assert_as_the_oracle("high", tetrahedron(200_000));
    assert!(file.len() > 4 * (4_096 + 16 * 12));
}

/// Runs a part without heights, and gives its layer file.
#[track_caller]
fn assert_as_the_oracle(name: &str, mesh: Mesh) -> Vec<u8> {
    let file = file(Given::new(mesh.clone()));
    let layers = decode_layers(&file).unwrap();
    let lines: String = layers.iter().map(line).collect();
    let last = format!("layers {}, bytes {}\n", layers.len(), file.len());

    let part = Part {
        coords: mesh.coords,
        corners: mesh.corners,
        heights: Vec::new(),
    };
    let part = lend_file(&format!("{name}.part"), &encode_part(&part));
    let saved = work_directory().join(format!("{name}.layers"));
    let run = Run::of(Command::new(example()).arg(part).arg(&saved));
    assert_eq!(run, Run::content(&(lines + &last)));
    assert_eq!(fs::read(saved).unwrap(), file);
    file
}

/// The line of a layer.
fn line(layer: &FileLayer) -> String {
    let (height, contours) = (layer.height, layer.contours.len());
    let points: usize = layer.contours.iter().map(Vec::len).sum();
    let areas = layer
        .contours
        .iter()
        .map(|c| oracle::area(c.as_flattened()));
    let doubled: i64 = areas.map(Result::unwrap).sum();
    format!("layer {height} {contours} {points} {doubled}\n")
}

#[test]
fn the_preview_of_part_p() {
    let program = compile("preview");
    let drawn = |origin: &[&str]| Run::of(Command::new(&program).args(origin));
    let at_zero = "move 5 0\nline 0 5\nline 0 0\nclose\ncalls 4\n";
    assert_eq!(drawn(&[]), Run::content(at_zero));
    let moved = "move 105 -20\nline 100 -15\nline 100 -20\nclose\ncalls 4\n";
    assert_eq!(drawn(&["100", "-20"]), Run::content(moved));
    for origin in [["0.5", "0"], ["0", "nan"], ["-1048577", "0"]] {
        let refused = Run {
            status: 1,
            output: String::new(),
            errors: "preview: refused 17 0\n".to_owned(),
        };
        assert_eq!(drawn(&origin), refused, "{origin:?}");
    }
}

#[test]
fn a_missing_file_is_told_from_a_refusal() {
    let run = run(Path::new("no such file"));
    assert_eq!((run.status, run.output.as_str()), (2, ""));
    assert!(run.errors.starts_with("no such file: "), "{}", run.errors);
}

#[test]
fn ink_of_part_p() {
    let run = |name: &str, file: &[u8], thickness: &str| {
        let path = lend_file(name, file);
        Run::of(Command::new(ink_example()).arg(path).arg(thickness))
    };
    let refused = |number: u32, place: u64| Run {
        status: 1,
        output: String::new(),
        errors: format!("ink: refused {number} {place}\n"),
    };
    assert_eq!(run("ink_p", &LAYER_FILE_P, "1000"), Run::content("ink 1\n"));
    assert_eq!(run("ink_thick", &LAYER_FILE_P, "1001"), refused(19, 0));
    assert_eq!(run("ink_thin", &LAYER_FILE_P, "0"), refused(19, 0));
    assert_eq!(run("ink_short", &LAYER_FILE_P[..22], "0"), refused(13, 22));
    assert_eq!(run("ink_none", &[], "50"), refused(13, 0));

    // Longer than the first part that the example reads.
    let long = [&LAYER_FILE_P[..], &[0; 20_000]].concat();
    assert_eq!(run("ink_long", &long, "50"), refused(13, 23));
}

#[test]
fn ink_without_a_file() {
    let expected = Run {
        status: 2,
        output: String::new(),
        errors: "ink: give a layer file and a thickness\n".to_owned(),
    };
    assert_eq!(Run::of(&mut Command::new(ink_example())), expected);
}

#[test]
fn nesting_of_rings() {
    let program = compile("nesting");
    let run = |arguments: &[&str]| Run::of(Command::new(&program).args(arguments));
    assert_eq!(run(&[]), Run::content(NESTED_RINGS));
    assert_eq!(run(&["4"]), Run::content(NESTED_RINGS));
    for short in ["0", "3"] {
        let refused = Run {
            status: 1,
            output: String::new(),
            errors: "nesting: refused 9 0\n".to_owned(),
        };
        assert_eq!(run(&[short]), refused, "{short}");
    }
}
