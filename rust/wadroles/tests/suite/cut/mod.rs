mod apart;
mod areas;
mod every_small;
mod faults;
mod layer;
mod limits;
mod moved;
mod promises;
mod random;
mod shared;
mod worked;

pub use layer::contours;
