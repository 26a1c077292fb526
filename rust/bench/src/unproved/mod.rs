//! The operations as one would write them in Rust without proofs. Each does what the function of
//! the same name in `wadroles` does; of Check there is another version, by sorting, and of All layers
//! there are more, by a section of the whole mesh at each height, and by the library's Cut at each
//! height.

mod all_layers;
mod area;
mod by_cut;
mod by_section;
mod by_sorting;
mod check;
mod clean;
mod cut;
mod ink;
mod layer;
mod layer_file;
mod nesting;
mod numbers;
mod preview;
mod read_layer;
mod read_part;
mod tables;

pub use all_layers::all_layers;
pub use area::area;
pub use by_cut::all_layers as all_layers_by_cut;
pub use by_cut::all_layers_and_zeros as all_layers_by_cut_and_zeros;
pub use by_section::all_layers as all_layers_by_section;
pub use check::{check, check_by_sorting};
pub use clean::clean;
pub use cut::cut;
pub use ink::ink;
pub use layer::layer;
pub use nesting::nesting;
pub use preview::{preview, preview_run};
pub use read_layer::read_layer;
pub use read_part::read_part;

use wadroles::{CheckTables, Mesh, OrderedMesh, Refusal, WorkTables};

/// A version of Check.
pub type Check = fn(Mesh<'_>, &mut CheckTables<'_>) -> Result<(), Refusal>;

/// A version of All layers.
pub type AllLayers = fn(OrderedMesh, &[i32], &mut WorkTables, &mut [u8]) -> Result<usize, Refusal>;
