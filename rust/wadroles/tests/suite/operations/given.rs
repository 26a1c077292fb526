use meshes::{random_pairing, vertex_order, Mesh, Random};
use wadroles::{OrderedMesh, PairedMesh};

/// What the operations on a mesh are given. Each reads its own part of it.
#[derive(Clone, Debug, Default, PartialEq, Eq)]
pub struct Given {
    pub mesh: Mesh,
    pub pairing: Vec<u32>,
    pub order: Vec<u32>,
    /// The number of passed vertices, for Step and Layer.
    pub passed: usize,
    /// The height of Cut and Layer.
    pub height: i32,
    /// The heights of All layers.
    pub heights: Vec<i32>,
}

impl Given {
    /// A mesh alone, for Check and Start.
    pub fn bare(mesh: Mesh) -> Self {
        Given {
            mesh,
            ..Given::default()
        }
    }

    /// With the right order, and a right pairing as far as the mesh has one.
    pub fn new(mesh: Mesh) -> Self {
        Given::paired(mesh, &mut Random::new(1))
    }

    /// With the right order, and any right pairing as far as the mesh has one.
    pub fn paired(mesh: Mesh, random: &mut Random) -> Self {
        Given {
            pairing: random_pairing(&mesh, random),
            order: vertex_order(&mesh),
            ..Given::bare(mesh)
        }
    }

    /// At a height.
    pub fn at(mut self, height: i32) -> Self {
        self.height = height;
        self
    }

    /// With these heights.
    pub fn over(mut self, heights: &[i32]) -> Self {
        self.heights = heights.to_vec();
        self
    }

    /// With so many vertices passed.
    pub fn with_passed(mut self, passed: usize) -> Self {
        self.passed = passed;
        self
    }

    pub fn corners(&self) -> usize {
        self.mesh.corners.len()
    }

    pub fn lend_mesh(&self) -> wadroles::Mesh<'_> {
        wadroles::Mesh {
            coords: &self.mesh.coords,
            corners: &self.mesh.corners,
        }
    }

    pub fn lend_paired(&self) -> PairedMesh<'_> {
        PairedMesh {
            mesh: self.lend_mesh(),
            pairing: &self.pairing,
        }
    }

    pub fn lend_ordered(&self) -> OrderedMesh<'_> {
        OrderedMesh {
            paired: self.lend_paired(),
            order: &self.order,
        }
    }

    pub fn for_oracle(&self) -> oracle::Sweep<'_> {
        oracle::Sweep {
            coords: &self.mesh.coords,
            corners: &self.mesh.corners,
            pairing: &self.pairing,
            order: &self.order,
        }
    }

    /// The ring table for the passed vertices, as a cut made afresh has it; none where mesh, pairing
    /// or order is wrong, or more are passed than there are.
    pub fn fresh_ring(&self) -> Option<Vec<u32>> {
        let mut ring = vec![0; self.corners()];
        oracle::step(self.for_oracle(), &mut ring, self.passed).ok()?;
        Some(oracle::fresh_ring(self.for_oracle(), self.passed))
    }
}
