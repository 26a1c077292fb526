use super::GivenLayer;
use crate::harness::{call_c, lent_tables, refused, Answer, Lent, Operation};
use wadroles::raw::wadroles_nesting;

/// The operation "Nesting".
pub struct Nesting;

lent_tables! {
    /// The tables lent to Nesting.
    NestTables { depths: Lent<u32>, parents: Lent<u32> }
}

impl Operation for Nesting {
    const NAME: &'static str = "nesting";
    const REFUSALS: &'static [u32] = &[1, 2, 9];
    type Input = GivenLayer;
    type Tables = NestTables;
    type Values = ();

    fn lengths(input: &GivenLayer) -> Vec<usize> {
        vec![input.ends.len(); 2]
    }

    fn product(input: &GivenLayer, tables: &mut NestTables) -> Answer<()> {
        let layer = wadroles::GivenLayer {
            points: &input.points,
            ends: &input.ends,
        };
        let mut lent = wadroles::NestTables {
            depths: tables.depths.table(),
            parents: tables.parents.table(),
        };
        wadroles::nesting(layer, &mut lent).map_err(refused)
    }

    fn call_c(input: &GivenLayer, tables: &mut NestTables, out: &mut [u64; 4]) -> u32 {
        call_c!(wadroles_nesting(
            read input.points,
            read input.ends,
            lend tables.depths,
            lend tables.parents,
        ), out)
    }

    fn oracle(input: &GivenLayer, tables: &mut NestTables) -> Answer<()> {
        let (depths, parents) = (tables.depths.table(), tables.parents.table());
        oracle::nesting(&input.points, &input.ends, depths, parents)
            .map_err(|r| (r.number, r.place))
    }

    fn words(_input: &GivenLayer, (): ()) -> Vec<u64> {
        Vec::new()
    }
}
