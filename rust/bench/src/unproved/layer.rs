//! Layer by a ring table that is made anew at each height and copied into the marks.

use super::cut::{below, mark_successors, outline, rising_corner, NONE};
use super::tables::{front, refuse, test_order, test_pairing, test_room, test_sizes, test_values};
use wadroles::{Counts, CutTables, PairedMesh, Refusal, Sweep};

/// Does what `wadroles::layer` does.
pub fn layer(sweep: &mut Sweep<'_>, h: i32, tables: &mut CutTables<'_>) -> Result<Counts, Refusal> {
    let (ordered, passed) = (sweep.ordered, sweep.passed);
    let (paired, order) = (ordered.paired, ordered.order);
    let mesh = paired.mesh;
    let (n, vertices) = (mesh.corners.len(), mesh.vertices());
    test_sizes(mesh)?;
    test_room(tables, n)?;
    test_values(mesh)?;
    test_pairing(paired)?;
    test_order(ordered)?;
    if passed > vertices {
        return refuse(Refusal::PASSED, 0);
    }
    let z = |vertex: u32| mesh.coords[3 * vertex as usize + 2];
    let (last_z, after) = match passed.checked_sub(1).map(|last| order[last]) {
        Some(last) => (z(last), last + 1),
        None => (i32::MIN, 0),
    };
    test_ring(paired, sweep.ring, before(mesh.coords, last_z, after))?;
    if passed > 0 && last_z >= h {
        return refuse(Refusal::HEIGHT, 0);
    }

    let unpassed = &order[passed..vertices];
    let risen = unpassed.iter().take_while(|&&v| z(v) < h).count();
    let ring = &mut sweep.ring[..n];
    mark_successors(paired, below(mesh.coords, h), ring);
    let mut tables = front(tables, n);
    tables.marks.copy_from_slice(ring);
    match outline(mesh, h, &mut tables) {
        Ok(counts) => {
            sweep.passed += risen;
            Ok(counts)
        }
        Err(refusal) => {
            mark_successors(paired, before(mesh.coords, last_z, after), ring);
            Err(refusal)
        }
    }
}

/// The set of vertices with z below `h`, or at it and a number below `k`.
fn before(coords: &[i32], h: i32, k: u32) -> impl Fn(u32) -> bool + Copy + '_ {
    move |vertex| {
        let z = coords[3 * vertex as usize + 2];
        z < h || z == h && vertex < k
    }
}

fn test_ring(
    paired: PairedMesh<'_>,
    ring: &[u32],
    passed: impl Fn(u32) -> bool + Copy,
) -> Result<(), Refusal> {
    let (corners, pairing) = (paired.mesh.corners, paired.pairing);
    for triangle in 0..corners.len() / 3 {
        let mut entries = [NONE; 3];
        if let Some(corner) = rising_corner(corners, passed, triangle) {
            let across = pairing[corner] as usize / 3;
            let after = rising_corner(corners, passed, across);
            entries[corner - 3 * triangle] = after.map_or(NONE, |corner| corner as u32);
        }
        for (corner, entry) in (3 * triangle..).zip(entries) {
            if ring.get(corner) != Some(&entry) {
                return refuse(Refusal::RING, corner);
            }
        }
    }
    Ok(())
}

#[cfg(test)]
mod tests {
    use super::*;
    use crate::owned::{Ordered, Work};
    use meshes::{
        closed_mesh, random_height, random_pairing, shared_edges, Damage, OrderDamage,
        PairingDamage, Random, RingDamage,
    };
    use std::collections::BTreeSet;

    const ROOM: usize = 400;

    type Layer = fn(&mut Sweep, i32, &mut CutTables) -> Result<Counts, Refusal>;

    /// A sweep under way.
    #[derive(Clone)]
    struct Under {
        input: Ordered,
        ring: Vec<u32>,
        passed: usize,
    }

    impl Under {
        fn new(mesh: meshes::Mesh, random: &mut Random) -> Self {
            let ring = vec![NONE; ROOM.max(mesh.corners.len())];
            let mut input = Ordered::new(mesh);
            input.pairing = random_pairing(&input.mesh, random);
            Under {
                input,
                ring,
                passed: 0,
            }
        }

        /// The answer; what it leaves in the ring table and as the count; and in the other tables.
        fn run(&self, layer: Layer, h: i32) -> (Result<Counts, Refusal>, Vec<u32>, usize, Work) {
            let (mut ring, mut left) = (self.ring.clone(), Work::new(ROOM));
            let mut sweep = Sweep {
                ordered: self.input.lend(),
                ring: &mut ring,
                passed: self.passed,
            };
            let answer = layer(&mut sweep, h, &mut left.lend().cut);
            let passed = sweep.passed;
            (answer, ring, passed, left)
        }

        fn spoil(&mut self, random: &mut Random) {
            let Ordered {
                mesh,
                pairing,
                order,
            } = &mut self.input;
            match random.below(6) {
                0 => Damage::any(random).apply(mesh, random),
                1 => PairingDamage::any(random).apply(mesh, pairing, random),
                2 => OrderDamage::any(random).apply(mesh, order, random),
                3 => RingDamage::any(random).apply(&mut self.ring, random),
                4 => self.passed += random.choose(&[1, 2, 100]),
                _ => self.ring.truncate(random.below(400)),
            }
        }
    }

    #[test]
    fn it_does_what_the_library_does() {
        let mut met = BTreeSet::new();
        for round in 0..3000 {
            let mut random = Random::of_round(1, round);
            let mesh = match random.below(2) {
                0 => closed_mesh(&mut random),
                _ => shared_edges(&mut random),
            };
            let mut under = Under::new(mesh, &mut random);
            for _ in 0..4 {
                let h = random_height(&under.input.mesh, &mut random);
                let mut perhaps_spoiled = under.clone();
                if random.one_in(2) {
                    perhaps_spoiled.spoil(&mut random);
                }
                let expected = perhaps_spoiled.run(wadroles::layer, h);
                let met_here = perhaps_spoiled.run(layer, h);
                assert!(met_here == expected, "round {round}");
                met.insert(expected.0.map_or_else(|refusal| refusal.number, |_| 0));

                if let (Ok(_), ring, passed, _) = under.run(layer, h) {
                    (under.ring, under.passed) = (ring, passed);
                }
            }
        }
        assert!(met.into_iter().eq([0, 1, 2, 3, 4, 7, 8, 9, 10, 11, 12]));
    }
}
