use crate::comparison::{Bench, Comparison, Figure, Kind, Row};
use crate::inputs::{cone_point_count, heights, kinds, largest_cone, largest_torus, point_count};
use crate::owned::{Ordered, Work};
use crate::unproved;
use crate::versions::{Subject, Version};
use meshes::Mesh;
use std::hint::black_box;
use wadroles::Counts;

const HEIGHTS: i32 = 20;

/// Cut: by size, and for each point.
pub fn benches() -> Vec<Box<dyn Bench>> {
    vec![Box::new(by_size()), Box::new(by_points())]
}

fn by_size() -> Comparison<Cuts> {
    let heading = format!("cut at {HEIGHTS} heights");
    Comparison::new(heading, "triangles", kinds(Cuts::new))
}

/// The largest torus, whose layers have few points, and the largest double cone, whose every layer
/// has half as many as the mesh has triangles. Growth is from torus to cone.
fn by_points() -> Comparison<Cuts> {
    let rows = vec![
        Row::new("largest torus", || {
            Cuts::new(largest_torus()).by(point_count)
        }),
        Row::new("largest double cone", || {
            Cuts::new(largest_cone()).by(cone_point_count)
        }),
    ];
    Comparison {
        figure: Figure::Each,
        ..Comparison::new("cut for each point", "points", vec![Kind { rows }])
    }
}

/// A mesh with its pairing, heights to cut it at, and the tables lent to cut.
struct Cuts {
    size: usize,
    input: Ordered,
    heights: Vec<i32>,
    tables: Work,
}

impl Cuts {
    /// The size is that of the mesh.
    fn new(mesh: Mesh) -> Self {
        Cuts {
            size: mesh.triangle_count(),
            heights: heights(&mesh, HEIGHTS),
            tables: Work::new(mesh.corners.len()),
            input: Ordered::new(mesh),
        }
    }

    /// With the points of all its layers as its size.
    fn by(self, count: fn(&Mesh, &[i32]) -> usize) -> Self {
        let size = count(&self.input.mesh, &self.heights);
        Cuts { size, ..self }
    }
}

impl Subject for Cuts {
    type Answer = Counts;
    type Left = Work;

    fn size(&self) -> usize {
        self.size
    }

    fn calls(&self) -> usize {
        self.heights.len()
    }

    fn refill(&mut self) {
        self.tables.refill();
    }

    fn call(&mut self, version: Version, call: usize) -> Counts {
        let cut = black_box(match version {
            Version::Library => wadroles::cut,
            Version::Unproved => unproved::cut,
        });
        let paired = black_box(self.input.lend_paired());
        let mut tables = self.tables.lend().cut;
        cut(paired, self.heights[call], &mut tables).expect("the mesh is closed")
    }

    fn left(&self) -> Work {
        self.tables.clone()
    }
}
