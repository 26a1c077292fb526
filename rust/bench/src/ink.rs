use crate::all_layers::torus_file;
use crate::comparison::{Bench, Comparison, Kind};
use crate::read_layer::random_layers;
use crate::unproved;
use crate::versions::{Subject, Version};
use oracle::encode_layers;
use std::hint::black_box;
use wadroles::{FlatLayer, Refusal};

const THICKNESS: u32 = 40;

/// Ink against the unproved version.
pub fn benches() -> Vec<Box<dyn Bench>> {
    let kinds = vec![
        Kind::new("sections of a torus", [300, 600, 1200], |count| {
            Charged(torus_file(count))
        }),
        Kind::new("random points", [100, 200, 400], |count| {
            Charged(encode_layers(&random_layers(count)))
        }),
    ];
    vec![Box::new(Comparison::new("ink", "bytes", kinds))]
}

/// Ink against the check of the same file by Read layer. Both versions are the library here: the ratio
/// is that of Ink to the check.
pub fn over_check() -> Vec<Box<dyn Bench>> {
    let kinds = vec![
        Kind::new("checked, of a torus", [300, 600, 1200], |count| {
            Checked(torus_file(count))
        }),
        Kind::new("checked, random points", [100, 200, 400], |count| {
            Checked(encode_layers(&random_layers(count)))
        }),
    ];
    let heading = "ink over the check of its file (unproved: read layer of none)";
    vec![Box::new(Comparison::new(heading, "bytes", kinds))]
}

/// A layer file to be charged.
struct Charged(Vec<u8>);

impl Subject for Charged {
    type Answer = u64;
    type Left = ();

    fn size(&self) -> usize {
        self.0.len()
    }

    fn calls(&self) -> usize {
        1
    }

    fn refill(&mut self) {}

    fn call(&mut self, version: Version, _call: usize) -> u64 {
        let ink = black_box(match version {
            Version::Library => wadroles::ink,
            Version::Unproved => unproved::ink,
        });
        ink(black_box(&self.0), black_box(THICKNESS)).expect("the file is right")
    }

    fn left(&self) {}
}

/// A layer file to be charged, or else read as a whole: it has no layer of the number asked for, so
/// nothing is filled.
struct Checked(Vec<u8>);

impl Subject for Checked {
    type Answer = ();
    type Left = ();

    fn size(&self) -> usize {
        self.0.len()
    }

    fn calls(&self) -> usize {
        1
    }

    fn refill(&mut self) {}

    fn call(&mut self, version: Version, _call: usize) {
        let file = black_box(&self.0);
        match version {
            Version::Library => {
                let ink = black_box(wadroles::ink);
                black_box(ink(file, black_box(THICKNESS)).expect("the file is right"));
            }
            Version::Unproved => {
                let read_layer = black_box(wadroles::read_layer);
                let mut layer = FlatLayer {
                    points: &mut [],
                    ends: &mut [],
                };
                let refusal = read_layer(file, usize::MAX, &mut layer).expect_err("there is none");
                assert_eq!(refusal.number, Refusal::LAYER);
            }
        }
    }

    fn left(&self) {}
}
