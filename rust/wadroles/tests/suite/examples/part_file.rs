//! The part file `examples/p.part`, and part files that differ from it.

use crate::inputs::PART_FILE_P;
use oracle::{decode_part, encode_part, Part};
use std::fs;
use std::path::{Path, PathBuf};

/// The root of the repository.
pub const ROOT: &str = concat!(env!("CARGO_MANIFEST_DIR"), "/../..");

/// Where the part file of part P is.
pub fn path_of_p() -> PathBuf {
    Path::new(ROOT).join("examples").join("p.part")
}

/// Part P with its heights 0, 5, 10 and 11, changed.
pub fn changed_p(change: impl FnOnce(&mut Part)) -> Vec<u8> {
    let mut part = decode_part(&PART_FILE_P).unwrap();
    change(&mut part);
    encode_part(&part)
}

#[test]
fn the_file_holds_part_p() {
    let file = fs::read(path_of_p()).unwrap();
    assert_eq!(file, PART_FILE_P);
    let part = Part {
        coords: vec![0, 0, 0, 10, 0, 0, 0, 10, 0, 0, 0, 10],
        corners: vec![0, 2, 1, 0, 1, 3, 0, 3, 2, 1, 2, 3],
        heights: vec![0, 5, 10, 11],
    };
    assert_eq!(decode_part(&file), Ok(part));
}
