use super::lengths::mostly_long;
use super::Tables;
use meshes::Random;
use std::fmt::Debug;

/// The values of a call, or the number and the place of its refusal.
pub type Answer<V> = Result<V, (u32, u64)>;

/// Does what an operation does: the product, the oracle, or one with a fault.
pub type Implementation<O> =
    fn(&<O as Operation>::Input, &mut <O as Operation>::Tables) -> Answer<<O as Operation>::Values>;

/// An operation of the specification.
pub trait Operation: Sized {
    /// What the specification calls it.
    const NAME: &'static str;

    /// Its refusals in the order of the specification, but for 16: that one never arises, since the
    /// pairing is tested before, and with a right one no walk meets a used crossing.
    const REFUSALS: &'static [u32];

    /// What it reads.
    type Input: Clone + Debug + PartialEq;

    /// The tables that it is lent.
    type Tables: Tables;

    /// What an unrefused call returns.
    type Values: Copy + Debug + PartialEq;

    /// The lengths of tables that are just long enough.
    fn lengths(input: &Self::Input) -> Vec<usize>;

    /// Lengths for a random case.
    fn random_lengths(input: &Self::Input, random: &mut Random) -> Vec<usize> {
        mostly_long(&Self::lengths(input), random)
    }

    /// Tables of these lengths: junk, but for what it reads in them.
    fn lend(_input: &Self::Input, lengths: &[usize], random: &mut Random) -> Self::Tables {
        Self::Tables::filled(lengths, random)
    }

    /// The function of the Rust wrapper.
    fn product(input: &Self::Input, tables: &mut Self::Tables) -> Answer<Self::Values>;

    /// The C function, with null for empty tables. It returns 0 or the number of the refusal.
    fn call_c(input: &Self::Input, tables: &mut Self::Tables, out: &mut [u64; 4]) -> u32;

    /// The oracle's reading of the specification.
    fn oracle(input: &Self::Input, tables: &mut Self::Tables) -> Answer<Self::Values>;

    /// The values as the C function writes them, into the first words of its output.
    fn words(input: &Self::Input, values: Self::Values) -> Vec<u64>;
}

/// The number and the place of a refusal of the product.
pub fn refused(refusal: wadroles::Refusal) -> (u32, u64) {
    (refusal.number, refusal.place)
}
