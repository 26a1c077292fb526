mod every_small;
mod faults;
mod forms;
mod limits;
mod promises;
mod random;
mod refusal_order;
mod rules;
mod worked;

pub use promises::{layers_by, product_layers, spoiled};
pub use random::{against_the_rules, meaningless, near_the_limits, of_layers, right};

use crate::harness::{agree, Case};
use crate::operations::{LayerFile, ReadLayer};

/// A layer of a file, with tables as long as it needs.
fn exact(file: &[u8], i: usize) -> Case<ReadLayer> {
    Case::exact(LayerFile::new(file, i))
}

/// Asserts refusal 13 at this place, whichever layer is read.
#[track_caller]
fn assert_broken(file: &[u8], place: u64) {
    for i in [0, 1, usize::MAX] {
        let answer = agree(&mut exact(file, i));
        assert_eq!(answer, Err((13, place)), "layer {i} of {file:?}");
    }
}
