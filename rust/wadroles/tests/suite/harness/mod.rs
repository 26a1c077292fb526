//! One harness for the tests of every operation.
//!
//! An [`Operation`] says what it reads, which tables it is lent, and how the product, its C function
//! and the oracle are called. A [`Case`] is an input with tables full of junk. [`agree`] runs all
//! three on a case, and compares number, place, values, every word of the C function's output and
//! every entry of every lent table, also past what is asked for. The others build on it: random
//! [`Rounds`] that print their seed, a [`Tally`] of the answers met, faults that the comparison must
//! notice, and tables of refusals.

mod c;
mod case;
mod compare;
mod faults;
mod lengths;
mod lent;
mod operation;
mod refusals;
mod rounds;
mod tables;
mod tally;

pub use c::{pointer, pointer_mut, written, UNTOUCHED};
pub use case::Case;
pub use compare::{agree, assert_answer, compare, compare_version, number, Version};
pub use faults::{assert_common_faults_noticed, assert_noticed, assert_told, Fault};
pub use lengths::{long, mostly_long};
pub use lent::{Entry, Lent};
pub use operation::{refused, Answer, Implementation, Operation};
pub use refusals::{assert_earlier_wins, assert_least_named, assert_refusals, Refused};
pub use rounds::{
    in_threads, report, test_product, test_threads, RandomInput, Rounds, DEFAULT_ROUNDS,
};
pub use tables::Tables;
pub use tally::{Tallies, Tally};

pub(crate) use c::call_c;
pub(crate) use tables::lent_tables;
