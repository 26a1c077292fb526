//! An independent slicer, to compare the proved library with.
//!
//! It is written from the specification alone, for clarity and not for speed. Its functions leave the
//! result, the place and every entry of the lent tables as the document says. Both files can also
//! be written.

#![forbid(unsafe_code)]

mod all_layers;
mod area;
mod check;
mod clean;
mod contour;
mod cut;
mod given;
mod ink;
mod layer_file;
mod listing;
mod mesh;
mod nesting;
mod numbers;
mod part_file;
mod preview;
mod refusal;
mod section;
mod sweep;

pub use all_layers::{all_layers, all_layers_clean};
pub use area::area;
pub use check::check;
pub use clean::{clean, clean_layer, is_clean};
pub use contour::contour;
pub use cut::{cut, Layer, Tables};
pub use ink::ink;
pub use layer_file::{
    decode_layers, encode_layers, read_layer, read_layer_clean, FileLayer, LayerRead,
};
pub use listing::listing;
pub use nesting::nesting;
pub use numbers::{encode_plain, encode_signed};
pub use part_file::{decode_part, encode_part, read_part, Part, PartRead};
pub use preview::{drawn, preview, preview_run, PathCall};
pub use refusal::Refusal;
pub use section::section_area;
pub use sweep::{fresh_ring, layer, start, step, Sweep};
