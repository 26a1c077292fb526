use super::{CutTables, Given};
use crate::harness::{call_c, lent_tables, refused, Answer, Lent, Operation, Tables};
use meshes::{Mesh, Random};
use wadroles::raw::{wadroles_layer, wadroles_start, wadroles_step};
use wadroles::{Stepping, Sweep};

/// The operation "Start".
pub struct Start;

/// The operation "Step".
pub struct Step;

/// The operation "Layer at h".
pub struct Layer;

lent_tables! { Ring { ring: Lent<u32> } }

lent_tables! {
    /// The tables of a layer and the ring table.
    WorkTables { cut: CutTables, ring: Lent<u32> }
}

impl WorkTables {
    /// The lengths that so many corners need.
    pub fn needed(corners: usize) -> Vec<usize> {
        [CutTables::needed(corners), vec![corners]].concat()
    }
}

impl Operation for Start {
    const NAME: &'static str = "start";
    const REFUSALS: &'static [u32] = &[1, 9];
    type Input = Given;
    type Tables = Ring;
    /// The number of passed vertices.
    type Values = usize;

    fn lengths(given: &Given) -> Vec<usize> {
        vec![given.corners()]
    }

    fn product(given: &Given, tables: &mut Ring) -> Answer<usize> {
        wadroles::start(given.lend_mesh(), tables.ring.table()).map_err(refused)
    }

    fn call_c(given: &Given, tables: &mut Ring, out: &mut [u64; 4]) -> u32 {
        call_c!(wadroles_start(
            read given.mesh.coords,
            read given.mesh.corners,
            lend tables.ring,
        ), out)
    }

    fn oracle(given: &Given, tables: &mut Ring) -> Answer<usize> {
        let Mesh { coords, corners } = &given.mesh;
        oracle::start(coords, corners, tables.ring.table()).map_err(|r| (r.number, r.place))
    }

    fn words(_given: &Given, passed: usize) -> Vec<u64> {
        vec![passed as u64]
    }
}

/// Writes the ring entries that belong to the passed vertices, where mesh, pairing and order are right
/// and the table has room for them.
fn write_ring(given: &Given, ring: &mut Lent<u32>) {
    if let Some(fresh) = given.fresh_ring() {
        let ring = ring.table();
        let length = ring.len().min(fresh.len());
        ring[..length].copy_from_slice(&fresh[..length]);
    }
}

impl Operation for Step {
    const NAME: &'static str = "step";
    const REFUSALS: &'static [u32] = &[1, 2, 3, 4, 7, 8, 10, 11];
    type Input = Given;
    type Tables = Ring;
    /// The number of passed vertices then, or none at the top.
    type Values = Option<usize>;

    fn lengths(given: &Given) -> Vec<usize> {
        vec![given.corners()]
    }

    fn lend(given: &Given, lengths: &[usize], random: &mut Random) -> Ring {
        let mut tables = Ring::filled(lengths, random);
        write_ring(given, &mut tables.ring);
        tables
    }

    fn product(given: &Given, tables: &mut Ring) -> Answer<Option<usize>> {
        let mut sweep = Sweep {
            ordered: given.lend_ordered(),
            ring: tables.ring.table(),
            passed: given.passed,
        };
        let stepping = wadroles::step(&mut sweep);
        let stays = given.passed == sweep.passed;
        match stepping.map_err(refused) {
            Ok(Stepping::Stepped) => Ok(Some(sweep.passed)),
            Ok(Stepping::Top) if stays => Ok(None),
            Err(refusal) if stays => Err(refusal),
            answer => panic!("{answer:?}, but {} are passed then", sweep.passed),
        }
    }

    fn call_c(given: &Given, tables: &mut Ring, out: &mut [u64; 4]) -> u32 {
        call_c!(wadroles_step(
            read given.mesh.coords,
            read given.mesh.corners,
            read given.pairing,
            read given.order,
            lend tables.ring,
            number given.passed,
        ), out)
    }

    fn oracle(given: &Given, tables: &mut Ring) -> Answer<Option<usize>> {
        oracle::step(given.for_oracle(), tables.ring.table(), given.passed)
            .map_err(|r| (r.number, r.place))
    }

    fn words(given: &Given, stepped: Option<usize>) -> Vec<u64> {
        match stepped {
            Some(passed) => vec![passed as u64, 0],
            None => vec![given.passed as u64, 1],
        }
    }
}

impl Operation for Layer {
    const NAME: &'static str = "layer";
    const REFUSALS: &'static [u32] = &[1, 9, 2, 3, 4, 7, 8, 10, 11, 12];
    type Input = Given;
    type Tables = WorkTables;
    /// The number of passed vertices then, and the counts of contours and points.
    type Values = (usize, usize, usize);

    fn lengths(given: &Given) -> Vec<usize> {
        WorkTables::needed(given.corners())
    }

    fn lend(given: &Given, lengths: &[usize], random: &mut Random) -> WorkTables {
        let mut tables = WorkTables::filled(lengths, random);
        write_ring(given, &mut tables.ring);
        tables
    }

    fn product(given: &Given, tables: &mut WorkTables) -> Answer<Self::Values> {
        let mut sweep = Sweep {
            ordered: given.lend_ordered(),
            ring: tables.ring.table(),
            passed: given.passed,
        };
        let layer = wadroles::layer(&mut sweep, given.height, &mut tables.cut.lend());
        let stays = given.passed == sweep.passed;
        match layer.map_err(refused) {
            Ok(counts) => Ok((sweep.passed, counts.contours, counts.points)),
            Err(refusal) if stays => Err(refusal),
            answer => panic!("{answer:?}, but {} are passed then", sweep.passed),
        }
    }

    fn call_c(given: &Given, tables: &mut WorkTables, out: &mut [u64; 4]) -> u32 {
        call_c!(wadroles_layer(
            read given.mesh.coords,
            read given.mesh.corners,
            read given.pairing,
            read given.order,
            lend tables.ring,
            number given.passed,
            number given.height,
            lend tables.cut.names,
            lend tables.cut.points,
            lend tables.cut.ends,
            lend tables.cut.marks,
        ), out)
    }

    fn oracle(given: &Given, tables: &mut WorkTables) -> Answer<Self::Values> {
        let (ring, lent) = (tables.ring.table(), tables.cut.for_oracle());
        oracle::layer(given.for_oracle(), ring, given.passed, given.height, lent)
            .map(|(passed, layer)| (passed, layer.contours, layer.points))
            .map_err(|r| (r.number, r.place))
    }

    fn words(_given: &Given, (passed, contours, points): Self::Values) -> Vec<u64> {
        vec![passed as u64, contours as u64, points as u64]
    }
}
