//! A random list of calls.

use super::calls::{random_cut_tables, spoil, Call};
use super::Swept;
use crate::harness::{Answer, Case, Lent, Tallies};
use crate::inputs::paired;
use crate::operations::Versions;
use meshes::{random_height, Mesh, Random, RingDamage};

/// What is counted besides the answers: unrefused steps that got a ring table spoiled before and not
/// mended.
pub const SPOILED: &str = "step on a spoiled ring table";

/// A sweep under way, whose mesh, pairing and order are right.
pub struct List {
    sweep: Swept,
    /// Whether somebody spoiled the ring table and nobody mended it since.
    is_spoiled: bool,
}

impl List {
    /// Of long tables full of junk, that of the rings too.
    pub fn new(mesh: Mesh, random: &mut Random) -> Self {
        let mut sweep = Swept::of(Case::long(paired(mesh, random), random));
        sweep.work.ring = Lent::new(sweep.ring().len(), random);
        List {
            sweep,
            is_spoiled: false,
        }
    }

    /// Makes a random call, right or wrong.
    pub fn next_call(
        &mut self,
        versions: &Versions,
        tallies: &mut Tallies,
        random: &mut Random,
    ) -> Result<(), String> {
        self.spoil_or_mend(random);
        let call = self.random_call(random);
        let corners = self.sweep.given.corners();
        self.sweep.work.cut = random_cut_tables(corners, random);
        if random.one_in(3) {
            self.wrong_call(call, versions, tallies, random)
        } else {
            self.call(call, versions, tallies)
        }
    }

    fn random_call(&self, random: &mut Random) -> Call {
        match random.below(20) {
            0 => Call::Start,
            1..=9 => Call::Step,
            _ => Call::Layer(self.random_height(random)),
        }
    }

    /// Any height, or a low one that passes few vertices, most times not below those passed.
    fn random_height(&self, random: &mut Random) -> i32 {
        let given = &self.sweep.given;
        let vertices = given.mesh.vertex_count();
        if random.one_in(3) || vertices == 0 {
            return random_height(&given.mesh, random);
        }
        let next = (given.passed + random.below(6)).saturating_sub(1);
        let vertex = given.order[next.min(vertices - 1)];
        given.mesh.point(vertex)[2] + random.within(-1..=2)
    }

    /// Spoils the ring table, or mends it, now and then.
    fn spoil_or_mend(&mut self, random: &mut Random) {
        let Swept { given, work } = &mut self.sweep;
        let ring = &mut work.ring.table()[..given.corners()];
        if self.is_spoiled && random.one_in(3) {
            let fresh = given
                .fresh_ring()
                .expect("mesh, pairing and order are right");
            ring.copy_from_slice(&fresh);
            self.is_spoiled = false;
        } else if random.one_in(10) {
            RingDamage::any(random).apply(ring, random);
            self.is_spoiled = true;
        }
    }

    /// Makes a call with nothing wrong about it but perhaps the ring table.
    pub fn call(
        &mut self,
        call: Call,
        versions: &Versions,
        tallies: &mut Tallies,
    ) -> Result<(), String> {
        let is_refused = self.sweep.call(call, versions, tallies)?;
        if self.is_spoiled && call == Call::Step && !is_refused {
            tallies.add(SPOILED, &Answer::Ok(()));
        }
        // Start writes the table anew, and Layer refuses a wrong one.
        if !is_refused && call != Call::Step {
            self.is_spoiled = false;
        }
        Ok(())
    }

    /// Makes a call with something wrong about it, on a copy: it may get anything, and the list
    /// goes on without it.
    fn wrong_call(
        &self,
        call: Call,
        versions: &Versions,
        tallies: &mut Tallies,
        random: &mut Random,
    ) -> Result<(), String> {
        let mut copy = self.sweep.clone();
        for _ in 0..random.choose(&[1, 1, 2]) {
            spoil(&mut copy, random);
        }
        copy.call(call, versions, tallies)?;
        Ok(())
    }
}
