mod bound;
mod faults;
mod heights;
mod limits;
mod output;
mod promises;
mod random;
mod shared;
mod worked;

pub use promises::{heights_taken, product_file, random_given, single_cuts};
pub use random::{near_the_limits, perhaps_damaged};

use crate::harness::{agree, Case, Lent};
use crate::operations::{AllLayersIn, Given};
use meshes::Random;

/// The file that the product writes, on which the oracle agrees.
#[track_caller]
pub fn file(given: Given) -> Vec<u8> {
    file_in::<false>(given)
}

/// The same in one of the profiles.
#[track_caller]
pub fn file_in<const CLEAN: bool>(given: Given) -> Vec<u8> {
    let mut case = Case::<AllLayersIn<CLEAN>>::exact(given);
    let length = agree(&mut case).unwrap();
    case.tables.output.view()[..length].to_vec()
}

/// A case with an output of another length.
pub fn with_output<const CLEAN: bool>(
    mut case: Case<AllLayersIn<CLEAN>>,
    length: usize,
) -> Case<AllLayersIn<CLEAN>> {
    case.tables.output = Lent::new(length, &mut Random::new(4));
    case
}
