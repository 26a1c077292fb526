//! The C functions themselves, worked by hand: the number returned, the words of output, and null for
//! empty tables. The harness compares all of them on every other case too.

mod cleaning;
mod files;
mod inks;
mod meshes;
mod nestings;
mod previews;

use crate::harness::{written, Case, Operation};

type Output = (u32, [u64; 4]);

/// With tables as long as they need be.
fn exact<O: Operation>(input: O::Input) -> Output {
    Case::<O>::exact(input).call_c()
}

/// With tables of these lengths.
fn lent<O: Operation>(input: O::Input, lengths: &[usize]) -> Output {
    Case::<O>::lent(input, lengths).call_c()
}

/// Success with these words.
fn gives(words: &[u64]) -> Output {
    (0, written(words))
}

/// A refusal with its place.
fn refuses(number: u32, place: u64) -> Output {
    (number, written(&[place]))
}
