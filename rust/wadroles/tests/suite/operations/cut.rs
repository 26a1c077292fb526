use super::Given;
use crate::harness::{call_c, lent_tables, refused, Answer, Lent, Operation};
use meshes::Mesh;
use wadroles::raw::wadroles_cut;

/// The operation "Cut".
pub struct Cut;

lent_tables! {
    /// The tables lent for a layer.
    CutTables { names: Lent<u32>, points: Lent<i32>, ends: Lent<u32>, marks: Lent<u32> }
}

impl CutTables {
    /// The lengths that so many corners need.
    pub fn needed(corners: usize) -> Vec<usize> {
        vec![corners, 2 * corners, corners, corners]
    }

    pub fn lend(&mut self) -> wadroles::CutTables<'_> {
        wadroles::CutTables {
            names: self.names.table(),
            points: self.points.table(),
            ends: self.ends.table(),
            marks: self.marks.table(),
        }
    }

    pub fn for_oracle(&mut self) -> oracle::Tables<'_> {
        oracle::Tables {
            names: self.names.table(),
            points: self.points.table(),
            ends: self.ends.table(),
            marks: self.marks.table(),
        }
    }
}

impl Operation for Cut {
    const NAME: &'static str = "cut";
    const REFUSALS: &'static [u32] = &[1, 9, 2, 3, 4, 7];
    type Input = Given;
    type Tables = CutTables;
    /// The counts of contours and points.
    type Values = (usize, usize);

    fn lengths(given: &Given) -> Vec<usize> {
        CutTables::needed(given.corners())
    }

    fn product(given: &Given, tables: &mut CutTables) -> Answer<(usize, usize)> {
        wadroles::cut(given.lend_paired(), given.height, &mut tables.lend())
            .map(|counts| (counts.contours, counts.points))
            .map_err(refused)
    }

    fn call_c(given: &Given, tables: &mut CutTables, out: &mut [u64; 4]) -> u32 {
        call_c!(wadroles_cut(
            read given.mesh.coords,
            read given.mesh.corners,
            read given.pairing,
            number given.height,
            lend tables.names,
            lend tables.points,
            lend tables.ends,
            lend tables.marks,
        ), out)
    }

    fn oracle(given: &Given, tables: &mut CutTables) -> Answer<(usize, usize)> {
        let Mesh { coords, corners } = &given.mesh;
        let lent = tables.for_oracle();
        oracle::cut(coords, corners, &given.pairing, given.height, lent)
            .map(|layer| (layer.contours, layer.points))
            .map_err(|r| (r.number, r.place))
    }

    fn words(_given: &Given, (contours, points): (usize, usize)) -> Vec<u64> {
        vec![contours as u64, points as u64]
    }
}
