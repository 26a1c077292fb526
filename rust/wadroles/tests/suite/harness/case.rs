use super::{long, Answer, Implementation, Operation, Tables};
use meshes::Random;
use std::fmt;

/// An input of an operation with the tables lent to it, or what a call left of them.
pub struct Case<O: Operation> {
    pub input: O::Input,
    pub tables: O::Tables,
}

impl<O: Operation> Case<O> {
    /// With tables of these lengths.
    pub fn lent(input: O::Input, lengths: impl AsRef<[usize]>) -> Self {
        Case {
            tables: O::lend(&input, lengths.as_ref(), &mut Random::new(1)),
            input,
        }
    }

    /// With tables as long as they need be.
    pub fn exact(input: O::Input) -> Self {
        let lengths = O::lengths(&input);
        Case::lent(input, lengths)
    }

    /// With tables that are long enough, most times.
    pub fn random(input: O::Input, random: &mut Random) -> Self {
        let lengths = O::random_lengths(&input, random);
        Case {
            tables: O::lend(&input, &lengths, random),
            input,
        }
    }

    /// With tables as long as they need be, or somewhat longer.
    pub fn long(input: O::Input, random: &mut Random) -> Self {
        let needed = O::lengths(&input).into_iter();
        let lengths: Vec<usize> = needed.map(|needed| long(needed, random)).collect();
        Case {
            tables: O::lend(&input, &lengths, random),
            input,
        }
    }

    /// With a table that is too short by so many entries.
    pub fn lacking(mut self, table: usize, entries: usize) -> Self {
        let length = self.tables.lengths()[table];
        self.tables.shorten(table, length - entries);
        self
    }

    /// After a change.
    pub fn changed(mut self, change: impl FnOnce(&mut Self)) -> Self {
        change(&mut self);
        self
    }

    /// Makes a call, and leaves here what it leaves in the tables.
    pub fn run(&mut self, implementation: Implementation<O>) -> Answer<O::Values> {
        implementation(&self.input, &mut self.tables)
    }
}

impl<O: Operation> Clone for Case<O> {
    fn clone(&self) -> Self {
        Case {
            input: self.input.clone(),
            tables: self.tables.clone(),
        }
    }
}

impl<O: Operation> fmt::Debug for Case<O> {
    fn fmt(&self, f: &mut fmt::Formatter<'_>) -> fmt::Result {
        write!(f, "{} of {:?} into {:?}", O::NAME, self.input, self.tables)
    }
}
