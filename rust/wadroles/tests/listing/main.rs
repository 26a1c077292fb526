//! Tests of the listing program, `crates/listing/out/listing`, against the oracle and against worked
//! cases.
//!
//! `rt ci` makes the program, and so does `rt run` in `crates/listing`. The random test prints its seed, and a failure names seed
//! and round. The environment variable `WADROLES_SEED` gives another seed.

mod program;

use files::Damage as FileDamage;
use meshes::shapes::{cuboid, tetrahedron, torus};
use meshes::sheets::two_cubes;
use meshes::{closed_mesh, rising_heights, shared_edges, Damage, Mesh, Random};
use oracle::{encode_part, listing, Part};
use program::{fails_without_input, run};
use std::collections::BTreeMap;
use std::env;
use std::io::{self, Write};

const DEFAULT_SEED: u64 = 20_250_101;
const ROUNDS: u64 = 600;

fn part(mesh: Mesh, heights: &[i32]) -> Part {
    Part {
        coords: mesh.coords,
        corners: mesh.corners,
        heights: heights.to_vec(),
    }
}

fn part_p() -> Part {
    part(tetrahedron(10), &[0, 5, 10, 11])
}

/// What the program prints for a part.
fn printed(part: &Part) -> String {
    run(&encode_part(part))
}

/// A part of so many vertices that no triangle uses, and so many heights.
fn vertices(count: usize, top: i32, heights: &[i32]) -> Part {
    let mut coords = vec![0; 3 * count];
    if let Some(z) = coords.last_mut() {
        *z = top;
    }
    Part {
        coords,
        corners: Vec::new(),
        heights: heights.to_vec(),
    }
}

fn heights(count: i32) -> Vec<i32> {
    (0..count).collect()
}

#[test]
fn part_p_has_the_five_lines_of_the_document() {
    let lines = "layers 4\nlayer 0 0 0 0\nlayer 5 1 3 25\nlayer 10 1 3 0\nlayer 11 0 0 0\n";
    assert_eq!(printed(&part_p()), lines);
}

#[test]
fn a_part_without_anything_has_no_layers() {
    assert_eq!(printed(&Part::default()), "layers 0\n");
}

#[test]
fn numbers_have_their_sign() {
    let mut mesh = cuboid([-3, -5, -7], [4, 6, 8]);
    assert_eq!(
        printed(&part(mesh.clone(), &[-7, -6])),
        "layers 2\nlayer -7 0 0 0\nlayer -6 1 8 154\n"
    );
    for triangle in 0..mesh.triangle_count() {
        mesh.flip_triangle(triangle);
    }
    assert_eq!(printed(&part(mesh, &[-6])), "layers 1\nlayer -6 1 8 -154\n");
}

#[test]
fn cubes_that_share_an_edge_are_two_contours_or_one() {
    let mut mesh = two_cubes(10);
    assert_eq!(
        printed(&part(mesh.clone(), &[5])),
        "layers 1\nlayer 5 2 16 400\n"
    );
    // Two triangles with the edge change places, one of each cube.
    let (first, second) = mesh.corners.split_at_mut(36);
    first[21..24].swap_with_slice(&mut second[15..18]);
    assert_eq!(printed(&part(mesh, &[5])), "layers 1\nlayer 5 1 16 400\n");
}

#[test]
fn default_heights_are_taken() {
    let mesh = cuboid([0, 0, -20], [10, 10, 130]);
    assert_eq!(
        printed(&part(mesh, &[])),
        "layers 2\nlayer 30 1 8 200\nlayer 130 1 8 200\n"
    );
}

#[test]
fn an_input_of_8193_bytes_is_too_long() {
    assert_eq!(run(&[0; 8_193]), "refused 1 0\n");
    assert_eq!(run(&[0; 20_000]), "refused 1 0\n");
    assert_eq!(run(&[0; 8_192]), "refused 13 3\n");
}

#[test]
fn a_broken_part_is_refused_with_13() {
    assert_eq!(run(&[0x80, 0x00]), "refused 13 0\n");
    assert_eq!(run(&[]), "refused 13 0\n");
    let mut file = encode_part(&part_p());
    file.push(0);
    assert_eq!(run(&file), "refused 13 31\n");
    file.truncate(30);
    assert_eq!(run(&file), "refused 13 30\n");
}

#[test]
fn the_limits_pass_and_more_is_refused_with_1() {
    assert_eq!(printed(&vertices(128, 10, &[])), "layers 0\n");
    assert_eq!(printed(&vertices(129, 10, &[])), "refused 1 0\n");
    assert_eq!(printed(&vertices(257, 10, &[])), "refused 1 0\n");
    assert_eq!(
        printed(&part(torus(8, 16, 900, 300), &[])).lines().count(),
        1 + 6
    );
    let mut wide = torus(8, 16, 900, 300);
    wide.insert_triangle(256, [0, 1, 2]);
    assert_eq!(printed(&part(wide, &[])), "refused 1 0\n");
    assert_eq!(printed(&vertices(1, 0, &heights(256))).lines().count(), 257);
    assert_eq!(printed(&vertices(1, 0, &heights(257))), "refused 1 0\n");
    assert_eq!(printed(&vertices(1, 0, &heights(900))), "refused 1 0\n");
    assert_eq!(printed(&vertices(2, 25_550, &[])).lines().count(), 257);
    assert_eq!(printed(&vertices(2, 25_650, &[])), "refused 1 0\n");
    assert_eq!(printed(&vertices(2, i32::MAX, &[])), "refused 1 0\n");
}

#[test]
fn the_check_refuses_with_its_numbers() {
    let changed = |change: fn(&mut Part)| {
        let mut part = part_p();
        change(&mut part);
        printed(&part)
    };
    assert_eq!(changed(|p| p.coords[4] = 1_048_577), "refused 2 4\n");
    assert_eq!(changed(|p| p.corners[7] = 4), "refused 3 7\n");
    assert_eq!(changed(|p| p.corners[8] = 0), "refused 4 6\n");
    assert_eq!(
        changed(|p| p.corners[9..].copy_from_slice(&[0, 2, 1])),
        "refused 6 1\n"
    );
    assert_eq!(changed(|p| p.corners.truncate(9)), "refused 6 1\n");
}

#[test]
fn heights_must_rise() {
    assert_eq!(
        printed(&part(tetrahedron(10), &[0, 5, 5])),
        "refused 12 2\n"
    );
    assert_eq!(
        printed(&part(tetrahedron(10), &[9, 5, 4])),
        "refused 12 1\n"
    );
}

#[test]
fn the_earlier_refusal_wins() {
    let mut part = part(tetrahedron(10), &[5, 5]);
    part.coords[0] = i32::MAX;
    assert_eq!(printed(&part), "refused 2 0\n");
    part.heights = heights(257);
    assert_eq!(printed(&part), "refused 1 0\n");
    let mut file = encode_part(&part);
    file.push(0);
    assert_eq!(run(&file), format!("refused 13 {}\n", file.len() - 1));
}

#[test]
fn it_says_where_reading_fails() {
    let text = fails_without_input();
    assert!(text.starts_with("standard input"), "{text}");
}

/// A part file: of a small mesh, damaged or not, with heights that rise, or not, or are not given.
fn random_file(random: &mut Random) -> Vec<u8> {
    let mut mesh = match random.below(3) {
        0 => shared_edges(random),
        _ => closed_mesh(random),
    };
    if random.one_in(4) {
        Damage::any(random).apply(&mut mesh, random);
    }
    let mut heights = match random.below(3) {
        0 => Vec::new(),
        _ => rising_heights(&mesh, random),
    };
    heights.truncate(random.choose(&[4, 40, 300]));
    if random.one_in(8) && !heights.is_empty() {
        let i = random.below(heights.len());
        heights[i] = heights[random.below(heights.len())];
    }
    let mut file = encode_part(&part(mesh, &heights));
    if random.one_in(8) {
        FileDamage::any(random).apply(&mut file, random);
    }
    file
}

/// Prints a line past the capture of test output, so that the log of every run has it.
fn report(line: &str) {
    writeln!(io::stderr(), "{line}").expect("the error output takes a line");
}

#[test]
fn random_parts_are_listed_as_the_oracle_lists_them() {
    let seed = env::var("WADROLES_SEED").map_or(DEFAULT_SEED, |text| text.parse().expect("a seed"));
    report(&format!("listing: seed {seed}, {ROUNDS} rounds"));
    let mut met: BTreeMap<String, u64> = BTreeMap::new();
    for round in 0..ROUNDS {
        let file = random_file(&mut Random::of_round(seed, round));
        let text = run(&file);
        assert_eq!(text, listing(&file), "seed {seed}, round {round}");
        let key = text
            .split(' ')
            .take(if text.starts_with('r') { 2 } else { 1 });
        *met.entry(key.collect::<Vec<_>>().join(" ")).or_default() += 1;
    }
    report(&format!("listing: {met:?}"));
    for answer in ["layers", "refused 1", "refused 12", "refused 13"] {
        assert!(
            met.get(answer).is_some_and(|&count| count > 5),
            "{answer}: {met:?}"
        );
    }
}
