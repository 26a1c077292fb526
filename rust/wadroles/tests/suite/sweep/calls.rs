//! Calls of a sweep, right and wrong.

use super::Swept;
use crate::harness::{mostly_long, Operation, Tables, Tallies};
use crate::inputs::damage_mesh;
use crate::operations::{CutTables, Layer, Start, Step, Versions};
use meshes::{OrderDamage, PairingDamage, Random, RingDamage};

/// What is counted besides the answers: steps at the top.
pub const TOP: &str = "step at the top";

/// A call of the sweep.
#[derive(Clone, Copy, Debug, PartialEq, Eq)]
pub enum Call {
    Start,
    Step,
    /// A rise to a height.
    Layer(i32),
}

impl Swept {
    /// Makes a call, notes its answer, and says whether it was refused; or how a version of it
    /// differs from the oracle's.
    pub fn call(
        &mut self,
        call: Call,
        versions: &Versions,
        tallies: &mut Tallies,
    ) -> Result<bool, String> {
        match call {
            Call::Start => {
                let answer = self.start_by(versions.start)?;
                tallies.add(Start::NAME, &answer);
                Ok(answer.is_err())
            }
            Call::Step => {
                let answer = self.step_by(versions.step)?;
                tallies.add(Step::NAME, &answer);
                if answer == Ok(None) {
                    tallies.add(TOP, &answer);
                }
                Ok(answer.is_err())
            }
            Call::Layer(h) => {
                let answer = self.layer_by(versions.layer, h)?;
                tallies.add(Layer::NAME, &answer);
                Ok(answer.is_err())
            }
        }
    }
}

/// Tables of a layer, long enough for so many corners most times.
pub fn random_cut_tables(corners: usize, random: &mut Random) -> CutTables {
    let lengths = mostly_long(&CutTables::needed(corners), random);
    CutTables::filled(&lengths, random)
}

/// Does something to a sweep that mostly makes it wrong.
pub fn spoil(sweep: &mut Swept, random: &mut Random) {
    let Swept { given, work } = sweep;
    let vertices = given.mesh.vertex_count();
    match random.below(7) {
        0 => damage_mesh(given, random),
        1 => PairingDamage::any(random).apply(&given.mesh, &mut given.pairing, random),
        2 => OrderDamage::any(random).apply(&given.mesh, &mut given.order, random),
        3 => RingDamage::any(random).apply(work.ring.table(), random),
        4 => {
            given.passed = match random.below(4) {
                0 => random.below(vertices + 1),
                1 => vertices + 1 + random.below(3),
                2 => random.choose(&[usize::MAX, 1 << 32, 1 << 63]),
                _ => given.passed.saturating_add(1),
            }
        }
        5 => sweep.shorten_ring(random.below(sweep.ring().len() + 1)),
        _ => work.cut = random_cut_tables(random.below(1 + given.corners()), random),
    }
}
