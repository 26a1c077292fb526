mod every_small;
mod faults;
mod limits;
mod promises;
mod random;
mod shared;
mod worked;
mod wrong_pairing;
