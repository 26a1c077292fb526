//! Parts as large as a mesh may be, and larger.

use super::{assert_broken, of};
use crate::harness::assert_answer;
use meshes::shapes::{bipyramid, torus};
use meshes::Mesh;
use oracle::{encode_part, Part};

fn part(mesh: Mesh, heights: usize) -> Part {
    Part {
        coords: mesh.coords,
        corners: mesh.corners,
        heights: (0..heights as i32).map(|k| 1000 - k).collect(),
    }
}

#[test]
fn parts_at_the_limits_of_a_mesh_are_read() {
    let largest = part(torus(128, 256, 700_000, 300_000), 4_096);
    assert_answer(&of(&largest), Ok((32_768, 65_536, 4_096)));
    let cone = part(bipyramid(32_766, 1_048_576, 1_048_576), 1);
    assert_answer(&of(&cone), Ok((32_768, 65_532, 1)));
}

#[test]
fn parts_above_the_limits_of_a_mesh_are_read_too() {
    let larger = part(torus(200, 200, 700_000, 300_000), 5_000);
    assert_answer(&of(&larger), Ok((40_000, 80_000, 5_000)));
}

#[test]
fn tables_one_too_short_for_the_largest_part_are_refused() {
    let largest = part(torus(128, 256, 700_000, 300_000), 4_096);
    for table in 0..3 {
        assert_answer(&of(&largest).lacking(table, 1), Err((9, 0)));
    }
}

#[test]
fn the_last_values_of_the_largest_part_are_tested() {
    let mut largest = part(torus(128, 256, 700_000, 300_000), 4_096);
    largest.heights[4_095] = 7;
    let file = encode_part(&largest);
    let last = file.len() - 1;
    assert_broken(&file[..last], last as u64);
    assert_broken(&[&file[..], &[7]].concat(), file.len() as u64);
    assert_broken(&[&file[..last], &[0x87, 0x00]].concat(), last as u64);
    assert_broken(&[&file[..last], &[0x87]].concat(), last as u64);
}
