//! Tests of the library through its Rust wrapper and its C functions, against the oracle and against
//! worked cases. All operations are tested by one [`harness`].
//!
//! Run them by `cargo test --release`. The random tests print their seed, and a failure names seed
//! and round. The environment variable `WADROLES_SEED` gives another seed, and `WADROLES_ROUNDS`
//! another number of rounds.

mod all_layers;
mod all_layers_clean;
mod archive;
mod area;
mod c_functions;
mod chains;
mod check;
mod clean;
mod contour;
mod cut;
mod examples;
mod harness;
mod header;
mod ink;
mod inputs;
mod mesh_operations;
mod nesting;
mod operations;
mod preview;
mod read_layer;
mod read_layer_clean;
mod read_part;
mod sweep;
mod version;
