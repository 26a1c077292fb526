use crate::all_layers::torus_file;
use crate::comparison::{Bench, Comparison, Kind};
use crate::owned::JUNK;
use crate::unproved;
use crate::versions::{Subject, Version};
use meshes::{Random, MAX_COORDINATE};
use oracle::{encode_layers, FileLayer};
use std::hint::black_box;
use wadroles::{FlatLayer, Reading, Refusal, MAX_POINTS};

/// A version of Read layer.
pub type Read = fn(&[u8], usize, &mut FlatLayer) -> Result<Reading, Refusal>;

/// Read layer.
pub fn benches() -> Vec<Box<dyn Bench>> {
    let versions: [Read; 2] = [wadroles::read_layer, unproved::read_layer];
    let kinds = vec![
        Kind::new("sections of a torus", [300, 600, 1200], move |count| {
            LayerFile::new(torus_file(count), count, versions)
        }),
        Kind::new("random points", [100, 200, 400], move |count| {
            LayerFile::new(encode_layers(&random_layers(count)), count, versions)
        }),
    ];
    let heading = "read layer, a middle one and the last";
    vec![Box::new(Comparison::new(heading, "bytes", kinds))]
}

/// A layer file, with the tables lent to Read layer.
pub struct LayerFile {
    /// The library's version, and the one that it is compared with.
    versions: [Read; 2],
    file: Vec<u8>,
    layers: [usize; 2],
    points: Vec<i32>,
    ends: Vec<u32>,
}

impl LayerFile {
    pub fn new(file: Vec<u8>, layer_count: i32, versions: [Read; 2]) -> Self {
        let count = layer_count as usize;
        LayerFile {
            versions,
            file,
            layers: [count / 2, count - 1],
            points: vec![JUNK as i32; 2 * MAX_POINTS],
            ends: vec![JUNK; MAX_POINTS / 2],
        }
    }
}

impl Subject for LayerFile {
    type Answer = Reading;
    type Left = (Vec<i32>, Vec<u32>);

    fn size(&self) -> usize {
        self.file.len()
    }

    fn calls(&self) -> usize {
        self.layers.len()
    }

    fn refill(&mut self) {
        self.points.fill(JUNK as i32);
        self.ends.fill(JUNK);
    }

    fn call(&mut self, version: Version, call: usize) -> Reading {
        let [library, unproved] = self.versions;
        let read_layer = black_box(match version {
            Version::Library => library,
            Version::Unproved => unproved,
        });
        let mut layer = FlatLayer {
            points: &mut self.points,
            ends: &mut self.ends,
        };
        let file = black_box(&self.file);
        read_layer(file, self.layers[call], &mut layer).expect("the file is right")
    }

    fn left(&self) -> Self::Left {
        (self.points.clone(), self.ends.clone())
    }
}

/// So many layers of ten contours of random points all over the range.
pub fn random_layers(count: i32) -> Vec<FileLayer> {
    let mut random = Random::new(1);
    let mut point = || [(); 2].map(|()| random.within(-MAX_COORDINATE..=MAX_COORDINATE));
    let mut contour = || (0..110).map(|_| point()).collect();
    (0..count)
        .map(|height| FileLayer {
            height,
            contours: (0..10).map(|_| contour()).collect(),
        })
        .collect()
}
