//! What the operations read and are lent, as the benchmark owns it.

use meshes::{random_pairing, vertex_order, Mesh, Random};
use wadroles::{CutTables, OrderedMesh, PairedMesh, WorkTables};

/// What tables hold before a call.
pub const JUNK: u32 = 0xDEAD_BEEF;

/// The tables of a mesh, for an operation to read.
pub fn lend(mesh: &Mesh) -> wadroles::Mesh<'_> {
    wadroles::Mesh {
        coords: &mesh.coords,
        corners: &mesh.corners,
    }
}

/// A mesh with its pairing and order.
#[derive(Clone)]
pub struct Ordered {
    pub mesh: Mesh,
    pub pairing: Vec<u32>,
    pub order: Vec<u32>,
}

impl Ordered {
    pub fn new(mesh: Mesh) -> Self {
        Ordered {
            pairing: random_pairing(&mesh, &mut Random::new(1)),
            order: vertex_order(&mesh),
            mesh,
        }
    }

    pub fn lend_paired(&self) -> PairedMesh<'_> {
        PairedMesh {
            mesh: lend(&self.mesh),
            pairing: &self.pairing,
        }
    }

    pub fn lend(&self) -> OrderedMesh<'_> {
        OrderedMesh {
            paired: self.lend_paired(),
            order: &self.order,
        }
    }
}

/// The tables of a layer and the ring table, as long as so many corners need them.
#[derive(Clone, PartialEq)]
pub struct Work {
    names: Vec<u32>,
    points: Vec<i32>,
    ends: Vec<u32>,
    marks: Vec<u32>,
    ring: Vec<u32>,
}

impl Work {
    pub fn new(corners: usize) -> Self {
        Work {
            names: vec![JUNK; corners],
            points: vec![JUNK as i32; 2 * corners],
            ends: vec![JUNK; corners],
            marks: vec![JUNK; corners],
            ring: vec![JUNK; corners],
        }
    }

    pub fn refill(&mut self) {
        self.points.fill(JUNK as i32);
        for table in [
            &mut self.names,
            &mut self.ends,
            &mut self.marks,
            &mut self.ring,
        ] {
            table.fill(JUNK);
        }
    }

    pub fn lend(&mut self) -> WorkTables<'_> {
        WorkTables {
            cut: CutTables {
                names: &mut self.names,
                points: &mut self.points,
                ends: &mut self.ends,
                marks: &mut self.marks,
            },
            ring: &mut self.ring,
        }
    }
}
