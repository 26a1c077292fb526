//! Layer files and part files for tests and benchmarks: [layers](random_layers), few or
//! [many](large_layers), and [parts](random_part) to write them from, [contours](repeating_contours)
//! to clean and [clean layers](random_clean_layers), [`LayerDamage`] that breaks the rules of a layer
//! file, [`ContourDamage`] that makes a contour unclean, [`Damage`] that spoils the bytes of any file,
//! and [bytes](random_bytes) that are no file.

#![forbid(unsafe_code)]

mod bytes;
mod contours;
mod damage;
mod layer_damage;
mod layers;
mod parts;

pub use bytes::{random_bytes, values};
pub use contours::{random_clean_layers, repeating_contours, ContourDamage};
pub use damage::Damage;
pub use layer_damage::LayerDamage;
pub use layers::{large_layers, random_layers};
pub use parts::random_part;
