use crate::comparison::{Bench, Comparison};
use crate::inputs::{heights, torus_kinds};
use crate::owned::{lend, Ordered, Work};
use crate::unproved;
use crate::versions::{Subject, Version};
use meshes::Mesh;
use std::hint::black_box;
use wadroles::{start, Counts, Sweep, WorkTables};

const HEIGHTS: i32 = 100;

/// Layer.
pub fn benches() -> Vec<Box<dyn Bench>> {
    let heading = format!("layer, a sweep over {HEIGHTS} heights");
    let table = Comparison::new(heading, "triangles", torus_kinds(Swept::new));
    vec![Box::new(table)]
}

/// A mesh with its pairing and order, heights to rise to, and the tables lent to layer.
struct Swept {
    input: Ordered,
    heights: Vec<i32>,
    tables: Work,
}

impl Swept {
    fn new(mesh: Mesh) -> Self {
        Swept {
            heights: heights(&mesh, HEIGHTS),
            tables: Work::new(mesh.corners.len()),
            input: Ordered::new(mesh),
        }
    }
}

impl Subject for Swept {
    /// The passed vertices and the counts at each height.
    type Answer = Vec<(usize, Counts)>;
    type Left = Work;

    fn size(&self) -> usize {
        self.input.mesh.triangle_count()
    }

    fn calls(&self) -> usize {
        1
    }

    /// Starts a sweep with fresh tables.
    fn refill(&mut self) {
        self.tables = Work::new(self.input.mesh.corners.len());
        let started = start(lend(&self.input.mesh), self.tables.lend().ring);
        assert_eq!(started, Ok(0), "the table is long enough");
    }

    /// Rises over all heights.
    fn call(&mut self, version: Version, _call: usize) -> Self::Answer {
        let layer = black_box(match version {
            Version::Library => wadroles::layer,
            Version::Unproved => unproved::layer,
        });
        let WorkTables { mut cut, ring } = self.tables.lend();
        let mut sweep = Sweep {
            ordered: black_box(self.input.lend()),
            ring,
            passed: 0,
        };
        let mut answers = Vec::with_capacity(self.heights.len());
        for &h in &self.heights {
            let counts = layer(&mut sweep, h, &mut cut).expect("the mesh is closed");
            answers.push((sweep.passed, counts));
        }
        answers
    }

    fn left(&self) -> Work {
        self.tables.clone()
    }
}
