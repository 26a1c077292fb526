mod calls;
mod faults;
mod limits;
mod list;
mod lists;
mod promises;
mod random;
mod rings;
mod shared;
mod swept;
mod worked;

pub use calls::{random_cut_tables, spoil, Call};
pub use swept::Swept;
