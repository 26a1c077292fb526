use super::Given;
use crate::harness::{call_c, lent_tables, refused, Answer, Lent, Operation};
use meshes::Mesh;
use wadroles::raw::wadroles_check;

/// The operation "Check".
pub struct Check;

lent_tables! { CheckTables { pairing: Lent<u32>, order: Lent<u32> } }

impl Operation for Check {
    const NAME: &'static str = "check";
    const REFUSALS: &'static [u32] = &[1, 9, 2, 3, 4, 6];
    type Input = Given;
    type Tables = CheckTables;
    type Values = ();

    fn lengths(given: &Given) -> Vec<usize> {
        vec![given.corners(), given.mesh.vertex_count()]
    }

    fn product(given: &Given, tables: &mut CheckTables) -> Answer<()> {
        let mut lent = wadroles::CheckTables {
            pairing: tables.pairing.table(),
            order: tables.order.table(),
        };
        wadroles::check(given.lend_mesh(), &mut lent).map_err(refused)
    }

    fn call_c(given: &Given, tables: &mut CheckTables, out: &mut [u64; 4]) -> u32 {
        call_c!(wadroles_check(
            read given.mesh.coords,
            read given.mesh.corners,
            lend tables.pairing,
            lend tables.order,
        ), out)
    }

    fn oracle(given: &Given, tables: &mut CheckTables) -> Answer<()> {
        let Mesh { coords, corners } = &given.mesh;
        oracle::check(
            coords,
            corners,
            tables.pairing.table(),
            tables.order.table(),
        )
        .map_err(|r| (r.number, r.place))
    }

    fn words(_given: &Given, (): ()) -> Vec<u64> {
        Vec::new()
    }
}
