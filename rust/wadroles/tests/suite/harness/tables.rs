use super::{Entry, Lent};
use meshes::Random;
use std::fmt::Debug;

/// The tables that an operation is lent, in the order of the C function's parameters.
pub trait Tables: Clone + Debug {
    /// How many there are.
    const COUNT: usize;

    /// Of these lengths, filled with junk.
    fn filled(lengths: &[usize], random: &mut Random) -> Self;

    /// Their lengths.
    fn lengths(&self) -> Vec<usize>;

    /// The first entry of a table that is not as expected, with the name of its table.
    fn difference(&self, expected: &Self) -> Option<String>;

    /// Takes the last entries off the table of a number.
    fn shorten(&mut self, table: usize, length: usize);

    /// Writes something else into an entry of the table of a number.
    fn change(&mut self, table: usize, entry: usize);
}

/// Of an operation that writes nothing.
impl Tables for () {
    const COUNT: usize = 0;

    fn filled(lengths: &[usize], _random: &mut Random) {
        assert_eq!(lengths, [0; 0], "there are no tables");
    }

    fn lengths(&self) -> Vec<usize> {
        Vec::new()
    }

    fn difference(&self, _expected: &()) -> Option<String> {
        None
    }

    fn shorten(&mut self, table: usize, _length: usize) {
        panic!("there is no table {table}");
    }

    fn change(&mut self, table: usize, _entry: usize) {
        panic!("there is no table {table}");
    }
}

impl<T: Entry> Tables for Lent<T> {
    const COUNT: usize = 1;

    fn filled(lengths: &[usize], random: &mut Random) -> Self {
        Lent::new(lengths[0], random)
    }

    fn lengths(&self) -> Vec<usize> {
        vec![self.length()]
    }

    fn difference(&self, expected: &Self) -> Option<String> {
        Lent::difference(self, expected)
    }

    fn shorten(&mut self, _table: usize, length: usize) {
        *self = self.shortened(length);
    }

    fn change(&mut self, _table: usize, entry: usize) {
        let entry = &mut self.table()[entry];
        *entry = entry.other();
    }
}

/// Declares a struct of lent tables, or of such structs.
macro_rules! lent_tables {
    ($(#[$doc:meta])* $Name:ident { $($table:ident: $Type:ty),+ $(,)? }) => {
        $(#[$doc])*
        #[derive(Clone, Debug)]
        pub struct $Name {
            $(pub $table: $Type),+
        }

        const _: () = {
            use $crate::harness::Tables;

            impl Tables for $Name {
                const COUNT: usize = 0 $(+ <$Type>::COUNT)+;

                fn filled(lengths: &[usize], random: &mut meshes::Random) -> Self {
                    assert_eq!(lengths.len(), Self::COUNT, "a length for each table");
                    let mut rest = lengths.iter().copied();
                    $(
                        let here: Vec<usize> = rest.by_ref().take(<$Type>::COUNT).collect();
                        let $table = <$Type>::filled(&here, random);
                    )+
                    $Name { $($table),+ }
                }

                fn lengths(&self) -> Vec<usize> {
                    [$(self.$table.lengths()),+].concat()
                }

                fn difference(&self, expected: &Self) -> Option<String> {
                    None$(.or_else(|| {
                        let difference = self.$table.difference(&expected.$table)?;
                        Some(format!("{} {difference}", stringify!($table)))
                    }))+
                }

                fn shorten(&mut self, mut table: usize, length: usize) {
                    $(
                        if table < <$Type>::COUNT {
                            return self.$table.shorten(table, length);
                        }
                        table -= <$Type>::COUNT;
                    )+
                    panic!("there are {table} tables too few");
                }

                fn change(&mut self, mut table: usize, entry: usize) {
                    $(
                        if table < <$Type>::COUNT {
                            return self.$table.change(table, entry);
                        }
                        table -= <$Type>::COUNT;
                    )+
                    panic!("there are {table} tables too few");
                }
            }
        };
    };
}

pub(crate) use lent_tables;

#[cfg(test)]
mod tests {
    use super::*;

    lent_tables! { Pair { first: Lent<u32>, second: Lent<i32> } }
    lent_tables! { Three { pair: Pair, third: Lent<u8> } }

    #[test]
    fn every_entry_of_every_table_is_compared() {
        let before = Three::filled(&[4, 3, 2], &mut Random::new(1));
        assert_eq!(before.lengths(), [4, 3, 2]);
        assert_eq!(before.difference(&before), None);
        for (table, name, length) in [(0, "pair first", 4), (1, "pair second", 3), (2, "third", 2)]
        {
            for entry in 0..length {
                let mut after = before.clone();
                after.change(table, entry);
                let expected = format!("{name} entry {entry} of {length} is ");
                assert!(after.difference(&before).unwrap().starts_with(&expected));
            }
        }
    }

    #[test]
    fn one_table_is_shortened_and_the_others_stay() {
        for (table, lengths) in [(0, [1, 3, 2]), (1, [4, 1, 2]), (2, [4, 3, 1])] {
            let mut tables = Three::filled(&[4, 3, 2], &mut Random::new(1));
            tables.shorten(table, 1);
            assert_eq!(tables.lengths(), lengths);
        }
    }
}
