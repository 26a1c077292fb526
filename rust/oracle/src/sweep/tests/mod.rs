mod refusals;

use super::*;
use crate::{check, cut};
use meshes::shapes::tetrahedron;
use meshes::{closed_mesh, random_height, Mesh, Random};

const NONE: u32 = u32::MAX;
const JUNK: u32 = 77;
const PAIRING: [u32; 12] = [8, 9, 3, 2, 11, 6, 5, 10, 0, 1, 7, 4];

/// A mesh with its pairing and order.
#[derive(Clone)]
struct Owned {
    mesh: Mesh,
    pairing: Vec<u32>,
    order: Vec<u32>,
}

impl Owned {
    fn new(mesh: Mesh) -> Self {
        let mut pairing = vec![0; mesh.corners.len()];
        let mut order = vec![0; mesh.vertex_count()];
        check(&mesh.coords, &mesh.corners, &mut pairing, &mut order).unwrap();
        Owned {
            mesh,
            pairing,
            order,
        }
    }

    fn part_p() -> Self {
        Owned::new(tetrahedron(10))
    }

    fn sweep(&self) -> Sweep<'_> {
        Sweep {
            coords: &self.mesh.coords,
            corners: &self.mesh.corners,
            pairing: &self.pairing,
            order: &self.order,
        }
    }

    /// A ring table after so many steps, with an entry more than needed.
    fn ring_after(&self, steps: usize) -> Vec<u32> {
        let mut ring = vec![JUNK; self.mesh.corners.len() + 1];
        start(&self.mesh.coords, &self.mesh.corners, &mut ring).unwrap();
        for passed in 0..steps {
            let answer = step(self.sweep(), &mut ring, passed);
            assert_eq!(answer, Ok(Some(passed + 1)));
        }
        ring
    }
}

/// A ring table of part P in which these corners follow each other.
fn ring_of(corners: &[u32]) -> Vec<u32> {
    let mut ring = vec![NONE; 12];
    ring.push(JUNK);
    let followers = corners.iter().cycle().skip(1);
    for (&corner, &follower) in corners.iter().zip(followers) {
        ring[corner as usize] = follower;
    }
    ring
}

struct LayerTables {
    names: Vec<u32>,
    points: Vec<i32>,
    ends: Vec<u32>,
    marks: Vec<u32>,
}

impl LayerTables {
    fn new(corners: usize) -> Self {
        LayerTables {
            names: vec![JUNK; corners],
            points: vec![JUNK as i32; 2 * corners],
            ends: vec![JUNK; corners],
            marks: vec![JUNK; corners],
        }
    }

    fn lend(&mut self) -> Tables<'_> {
        Tables {
            names: &mut self.names,
            points: &mut self.points,
            ends: &mut self.ends,
            marks: &mut self.marks,
        }
    }

    fn all(self) -> (Vec<u32>, Vec<i32>, Vec<u32>, Vec<u32>) {
        (self.names, self.points, self.ends, self.marks)
    }
}

#[test]
fn part_p_has_the_rings_of_the_document() {
    let part_p = Owned::part_p();
    assert_eq!(part_p.pairing, PAIRING);
    assert_eq!(part_p.ring_after(0), ring_of(&[]));
    assert_eq!(part_p.ring_after(1), ring_of(&[0, 6, 3]));
    assert_eq!(part_p.ring_after(2), ring_of(&[0, 6, 4, 9]));
    assert_eq!(part_p.ring_after(3), ring_of(&[4, 10, 6]));
    assert_eq!(part_p.ring_after(4), ring_of(&[]));

    let mut ring = part_p.ring_after(4);
    assert_eq!(step(part_p.sweep(), &mut ring, 4), Ok(None));
    assert_eq!(ring, part_p.ring_after(4));
}

#[test]
fn start_tests_sizes_and_room_only() {
    let part_p = tetrahedron(10);
    let mut ring = vec![JUNK; 11];
    let mut number = |coords| {
        let refusal = start(coords, &part_p.corners, &mut ring).unwrap_err();
        assert_eq!(refusal.place, 0);
        refusal.number
    };
    assert_eq!(number(&part_p.coords), 9);
    assert_eq!(number(&part_p.coords[..11]), 1);
    assert_eq!(ring, [JUNK; 11]);
    assert_eq!(start(&[i32::MIN; 3], &[9; 9], &mut ring), Ok(0));
    assert_eq!(ring[..9], [NONE; 9]);
    assert_eq!(ring[9..], [JUNK; 2]);
}

#[test]
fn steps_rewrite_what_the_definition_says() {
    for round in 0..200 {
        let mut random = Random::of_round(1, round);
        let owned = Owned::new(closed_mesh(&mut random));
        let sweep = owned.sweep();
        // A table that is wrong all over, so that it shows which entries are rewritten.
        let mut ring = vec![JUNK; owned.mesh.corners.len()];
        for passed in 0..owned.mesh.vertex_count() {
            let before = ring.clone();
            step(sweep, &mut ring, passed).unwrap();
            let vertex = owned.order[passed];
            let fresh = fresh_ring(sweep, passed + 1);
            for (corner, &entry) in ring.iter().enumerate() {
                let paired = owned.pairing[corner] as usize;
                let touched = triangle(sweep.corners, paired).contains(&vertex);
                let expected = if touched { &fresh } else { &before }[corner];
                assert_eq!(entry, expected, "round {round}");
            }
        }
    }
}

#[test]
fn steps_from_the_start_leave_the_rings_of_a_fresh_cut() {
    for round in 0..100 {
        let owned = Owned::new(closed_mesh(&mut Random::of_round(1, round)));
        let corners = owned.mesh.corners.len();
        let mut ring = owned.ring_after(0);
        for passed in 0..owned.mesh.vertex_count() {
            step(owned.sweep(), &mut ring, passed).unwrap();
            let fresh = fresh_ring(owned.sweep(), passed + 1);
            assert_eq!(ring[..corners], fresh, "round {round}");
        }
        assert_eq!(ring[corners], JUNK, "round {round}");
    }
}

#[test]
fn rises_give_what_steps_and_cuts_give() {
    for round in 0..500 {
        let mut random = Random::of_round(1, round);
        let owned = Owned::new(closed_mesh(&mut random));
        let Mesh { coords, corners } = &owned.mesh;
        let mut heights = [(); 4].map(|()| random_height(&owned.mesh, &mut random));
        heights.sort();
        let (mut ring, mut passed) = (owned.ring_after(0), 0);
        for h in heights {
            let mut tables = LayerTables::new(corners.len());
            let rise = layer(owned.sweep(), &mut ring, passed, h, tables.lend());
            let (risen, layer) = rise.unwrap();
            let below = coords.chunks(3).filter(|point| point[2] < h).count();
            assert_eq!(risen, below, "round {round}");
            assert_eq!(ring, owned.ring_after(risen), "round {round}");

            let mut cut_tables = LayerTables::new(corners.len());
            let cut = cut(coords, corners, &owned.pairing, h, cut_tables.lend());
            assert_eq!(cut, Ok(layer), "round {round}");
            assert_eq!(tables.all(), cut_tables.all(), "round {round}");
            passed = risen;
        }
    }
}

#[test]
fn entries_beyond_those_needed_are_ignored() {
    let mut owned = Owned::part_p();
    owned.pairing.push(99);
    owned.order.extend([0, 7]);
    assert_eq!(owned.ring_after(2), ring_of(&[0, 6, 4, 9]));
    let mut ring = owned.ring_after(4);
    assert_eq!(step(owned.sweep(), &mut ring, 4), Ok(None));
    assert_eq!(ring, owned.ring_after(4));
}
