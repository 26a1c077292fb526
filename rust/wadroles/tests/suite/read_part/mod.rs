mod every_small;
mod faults;
mod forms;
mod limits;
mod promises;
mod random;
mod worked;

use crate::harness::{agree, Case};
use crate::operations::ReadPart;
use oracle::{encode_part, Part};

/// A file, with tables as long as its part needs.
fn exact(file: &[u8]) -> Case<ReadPart> {
    Case::exact(file.to_vec())
}

/// The file of a part, with tables as long as it needs.
fn of(part: &Part) -> Case<ReadPart> {
    exact(&encode_part(part))
}

/// Asserts refusal 13 at this place.
#[track_caller]
fn assert_broken(file: &[u8], place: u64) {
    let answer = agree(&mut exact(file));
    assert_eq!(answer, Err((13, place)), "{file:?}");
}
