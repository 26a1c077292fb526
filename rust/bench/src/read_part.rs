use crate::comparison::{Bench, Comparison, Kind};
use crate::owned::JUNK;
use crate::unproved;
use crate::versions::{Subject, Version};
use meshes::shapes::torus;
use meshes::{Mesh, Random};
use oracle::encode_part;
use std::hint::black_box;
use wadroles::{Part, PartCounts};

const HEIGHTS: i32 = 1000;

/// Read part.
pub fn benches() -> Vec<Box<dyn Bench>> {
    let tori = [100, 200, 400].map(|q| torus(256, q, 700_000, 300_000));
    let shuffled = tori.clone().map(|mut mesh| {
        mesh.shuffle(&mut Random::new(1));
        mesh
    });
    let kinds = [("torus", tori), ("torus, shuffled", shuffled)]
        .map(|(name, meshes)| Kind::new(name, meshes, PartFile::new));
    vec![Box::new(Comparison::new(
        "read part",
        "bytes",
        kinds.into(),
    ))]
}

/// A part file, with the tables lent to Read part.
struct PartFile {
    file: Vec<u8>,
    tables: oracle::Part,
}

impl PartFile {
    fn new(mesh: Mesh) -> Self {
        let part = oracle::Part {
            coords: mesh.coords,
            corners: mesh.corners,
            heights: (0..HEIGHTS).map(|k| 600 * k - 300_000).collect(),
        };
        PartFile {
            file: encode_part(&part),
            tables: part,
        }
    }
}

impl Subject for PartFile {
    type Answer = PartCounts;
    type Left = oracle::Part;

    fn size(&self) -> usize {
        self.file.len()
    }

    fn calls(&self) -> usize {
        1
    }

    fn refill(&mut self) {
        self.tables.coords.fill(JUNK as i32);
        self.tables.corners.fill(JUNK);
        self.tables.heights.fill(JUNK as i32);
    }

    fn call(&mut self, version: Version, _call: usize) -> PartCounts {
        let read_part = black_box(match version {
            Version::Library => wadroles::read_part,
            Version::Unproved => unproved::read_part,
        });
        let mut part = Part {
            coords: &mut self.tables.coords,
            corners: &mut self.tables.corners,
            heights: &mut self.tables.heights,
        };
        read_part(black_box(&self.file), &mut part).expect("the file is right")
    }

    fn left(&self) -> oracle::Part {
        self.tables.clone()
    }
}
