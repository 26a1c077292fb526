//! Inputs that several tests share: worked parts, random meshes, and files that differ little.

mod parts;
mod random;
mod variants;

pub use parts::{
    boxes_touching_along_an_edge, checked, joined, largest_torus, octahedra, part_p,
    solids_sharing_edges, two_cubes_crossed, two_on_an_edge, CLEAN_FILE_P, LAYER_FILE_P, PAIRING_P,
    PART_FILE_P,
};
pub use random::{by_default, damage_mesh, paired, random_mesh, right, shared, shrunk, uneven};
pub use variants::{
    sequences, shortened, with_a_byte_changed, with_a_byte_inserted, with_a_byte_removed,
    with_a_wrong_form, with_value,
};
