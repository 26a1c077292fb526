//! Triangle meshes for tests and benchmarks: [`shapes`], random meshes that are [closed](closed_mesh),
//! [large](large_mesh) or have [shared edges](shared_edges), also [unevenly](uneven_edges),
//! [pairings](random_pairing), [orders](vertex_order) and [heights](random_height) for them, and
//! [`Damage`], [`PairingDamage`], [`OrderDamage`] and [`RingDamage`] that spoil them.

#![forbid(unsafe_code)]

mod closed;
mod damage;
mod heights;
#[cfg(test)]
mod measure;
mod mesh;
mod order;
mod pairing;
mod random;
mod ring;
pub mod shapes;
mod shared;
pub mod sheets;
mod uneven;

pub use closed::{closed_mesh, large_mesh};
pub use damage::Damage;
pub use heights::{random_height, rising_heights};
pub use mesh::{Mesh, Triangle, MAX_COORDINATE, MAX_TRIANGLES, MAX_VERTICES};
pub use order::{vertex_order, OrderDamage};
pub use pairing::{random_pairing, PairingDamage};
pub use random::Random;
pub use ring::RingDamage;
pub use shared::shared_edges;
pub use uneven::uneven_edges;
