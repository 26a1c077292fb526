//! What all operations on a mesh test alike, asked of each of them.

mod entries;
mod limits;
mod order;
mod refusals;

use crate::harness::{Case, Operation};
use crate::inputs::part_p;
use crate::operations::{AllLayersIn, Check, Cut, Given, Layer, Start, Step};

/// An operation on a mesh.
trait OnMesh: Operation<Input = Given> {
    /// Number and place of the refusal where a table has so few entries.
    fn short(_table: usize, _length: usize) -> (u32, u64) {
        (9, 0)
    }
}

impl OnMesh for Check {}

impl OnMesh for Cut {}

impl OnMesh for Start {}

impl OnMesh for Step {
    fn short(_ring: usize, length: usize) -> (u32, u64) {
        (11, length as u64)
    }
}

impl OnMesh for Layer {
    fn short(table: usize, length: usize) -> (u32, u64) {
        match table {
            4 => (11, length as u64),
            _ => (9, 0),
        }
    }
}

impl<const CLEAN: bool> OnMesh for AllLayersIn<CLEAN> {
    fn short(table: usize, _length: usize) -> (u32, u64) {
        match table {
            5 => (14, 0),
            _ => (9, 0),
        }
    }
}

/// Asks a question of several operations.
macro_rules! of_each {
    ($question:ident: $($Operation:ident),+) => {
        $($question::<$Operation>();)+
    };
}

use of_each;

/// Part P after a change, with tables as long as needed.
fn changed_p<O: OnMesh>(change: impl FnOnce(&mut Given)) -> Case<O> {
    let mut given = part_p();
    change(&mut given);
    Case::exact(given)
}
