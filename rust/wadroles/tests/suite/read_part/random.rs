//! Random files, right, broken and meaningless, against the oracle.

use crate::harness::{test_product, test_threads};
use crate::operations::ReadPart;
use files::{random_bytes, random_part, Damage};
use meshes::{large_mesh, Random};
use oracle::{encode_part, Part};

/// The file of some part.
fn right(random: &mut Random) -> Vec<u8> {
    encode_part(&random_part(random))
}

/// A file some of whose bytes are wrong, as a rule.
pub fn perhaps_broken(random: &mut Random) -> Vec<u8> {
    let mut file = right(random);
    for _ in 0..random.choose(&[0, 1, 1, 2]) {
        Damage::any(random).apply(&mut file, random);
    }
    file
}

/// Bytes that look like a file at most for a while.
fn meaningless(random: &mut Random) -> Vec<u8> {
    let mut file = random_bytes(random);
    for count in file.iter_mut().take(2) {
        *count %= 3;
    }
    file
}

/// A part near the limits of a mesh, right or not.
fn near_the_limits(random: &mut Random) -> Vec<u8> {
    let mesh = large_mesh(random);
    let heights = (0..4_090 + random.below(10)).map(|_| random.word() as i32);
    let mut file = encode_part(&Part {
        heights: heights.collect(),
        coords: mesh.coords,
        corners: mesh.corners,
    });
    if random.one_in(2) {
        Damage::any(random).apply(&mut file, random);
    }
    file
}

#[test]
fn right_files() {
    let tally = test_product::<ReadPart>("right files", 8, right);
    tally.require(&[0, 9], 100);
    assert_eq!(tally.count(13), 0);
}

#[test]
fn files_with_wrong_bytes() {
    let tally = test_product::<ReadPart>("files with wrong bytes", 8, perhaps_broken);
    tally.require(&[0, 13, 9], 100);
}

#[test]
fn meaningless_bytes() {
    let tally = test_product::<ReadPart>("meaningless bytes", 1, meaningless);
    tally.require(&[0, 13], 100);
}

#[test]
fn files_near_the_limits() {
    test_product::<ReadPart>("near the limits", 16_000, near_the_limits);
}

#[test]
fn several_threads_at_once() {
    test_threads::<ReadPart>(250, perhaps_broken);
}
