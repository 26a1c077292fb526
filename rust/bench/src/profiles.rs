//! The clean profile against the full one. Both versions are the library here: the ratio is that of the
//! clean function to the full one.

use crate::all_layers::{cone_file, room, torus_file};
use crate::comparison::{Bench, Comparison, Kind};
use crate::inputs::{cones, heights, tori};
use crate::owned::{Ordered, Work, JUNK};
use crate::read_layer::LayerFile;
use crate::versions::{Subject, Version};
use meshes::Mesh;
use oracle::{clean_layer, decode_layers, encode_layers, FileLayer};
use std::hint::black_box;

const HEIGHTS: i32 = 1000;
const CONE_HEIGHTS: i32 = 20;
const RUNS: usize = 11;

/// So much smaller in x and y, many points of a torus equal the one before.
const SMALLER: i32 = 20_000;

/// All layers clean against All layers.
pub fn all_layers() -> Vec<Box<dyn Bench>> {
    let small_tori = tori().map(|mesh| mesh.smaller(SMALLER));
    let kinds = vec![
        Kind::new("torus, clean", tori(), |mesh| Swept::new(mesh, HEIGHTS)),
        Kind::new("small torus, clean", small_tori, |mesh| {
            Swept::new(mesh, HEIGHTS)
        }),
        Kind::new("double cone, clean", cones(), |mesh| {
            Swept::new(mesh, CONE_HEIGHTS)
        }),
    ];
    let heading = format!(
        "all layers clean at {HEIGHTS} heights, of cones at {CONE_HEIGHTS} \
         (unproved: the full profile)"
    );
    vec![Box::new(Comparison {
        runs: RUNS,
        ..Comparison::new(heading, "triangles", kinds)
    })]
}

/// Read layer clean against Read layer, on clean files.
pub fn read_layer() -> Vec<Box<dyn Bench>> {
    let file = |file: Vec<u8>, count| {
        let versions = [wadroles::read_layer_clean, wadroles::read_layer];
        LayerFile::new(cleaned(&file), count, versions)
    };
    let kinds = vec![
        Kind::new("clean, of a torus", [300, 600, 1200], move |count| {
            file(torus_file(count), count)
        }),
        Kind::new("clean, of a double cone", [10, 20, 40], move |count| {
            file(cone_file(count), count)
        }),
    ];
    let heading = "read layer clean, a middle one and the last (unproved: the full profile)";
    vec![Box::new(Comparison::new(heading, "bytes", kinds))]
}

/// The file of the cleaned layers.
fn cleaned(file: &[u8]) -> Vec<u8> {
    let layers = decode_layers(file).expect("it is a file");
    let layers: Vec<FileLayer> = layers.iter().map(clean_layer).collect();
    encode_layers(&layers)
}

/// A mesh with its pairing and order, the heights, and the tables lent to both.
struct Swept {
    input: Ordered,
    heights: Vec<i32>,
    tables: Work,
    output: Vec<u8>,
    /// What the last call was, and the length of its file.
    written: (Version, usize),
}

impl Swept {
    fn new(mesh: Mesh, count: i32) -> Self {
        let heights = heights(&mesh, count);
        Swept {
            tables: Work::new(mesh.corners.len()),
            output: vec![JUNK as u8; room(&mesh, &heights)],
            heights,
            input: Ordered::new(mesh),
            written: (Version::Unproved, 0),
        }
    }
}

impl Subject for Swept {
    type Answer = ();
    type Left = Vec<u8>;

    fn size(&self) -> usize {
        self.input.mesh.triangle_count()
    }

    fn calls(&self) -> usize {
        1
    }

    fn refill(&mut self) {
        self.tables.refill();
        self.output.fill(JUNK as u8);
    }

    fn call(&mut self, version: Version, _call: usize) {
        let all_layers = black_box(match version {
            Version::Library => wadroles::all_layers_clean,
            Version::Unproved => wadroles::all_layers,
        });
        let ordered = black_box(self.input.lend());
        let heights = black_box(&self.heights);
        let length = all_layers(ordered, heights, &mut self.tables.lend(), &mut self.output);
        self.written = (version, length.expect("the mesh is closed"));
    }

    /// The file, and of a full one that of its cleaned layers: they must be the same.
    fn left(&self) -> Vec<u8> {
        let (version, length) = self.written;
        match version {
            Version::Library => self.output[..length].to_vec(),
            Version::Unproved => cleaned(&self.output[..length]),
        }
    }
}
