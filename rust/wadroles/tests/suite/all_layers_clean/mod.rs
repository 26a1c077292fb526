//! All layers clean. What it shares with All layers is asked of both: outputs of every length in
//! `all_layers/output.rs`, meshes, tables and refusals in `mesh_operations`.

mod faults;
mod limits;
mod promises;
mod random;
mod worked;

use crate::all_layers::file_in;
use crate::operations::Given;

/// The file that the product writes, on which the oracle agrees.
#[track_caller]
fn file(given: Given) -> Vec<u8> {
    file_in::<true>(given)
}
