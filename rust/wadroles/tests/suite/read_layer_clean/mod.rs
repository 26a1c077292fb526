//! Read layer clean: files in the clean profile, in the full one, and damaged ones.

mod every_small;
mod faults;
mod limits;
mod places;
mod promises;
mod random;
mod refusal_order;
mod worked;

pub use promises::clean_layers;

use crate::harness::{agree, Case};
use crate::operations::{LayerFile, ReadLayerClean};
use oracle::FileLayer;

/// A clean contour of three points, of seven bytes in a file.
const TRIANGLE: [[i32; 2]; 3] = [[5, 0], [0, 5], [0, 0]];

/// Contours that are not clean.
fn unclean_contours() -> Vec<Vec<[i32; 2]>> {
    let [a, b, c] = TRIANGLE;
    vec![
        vec![a, a, b, c],
        vec![a, b, b, c],
        vec![a, b, c, c],
        vec![a, b, c, a],
        vec![a, b, c, a, a, a],
        vec![a, b],
        vec![a, b, a],
        vec![a, b, a, b],
        vec![a, b, a, b, a, b, a],
        vec![a, a],
        vec![a; 9],
    ]
}

fn layer(height: i32, contours: &[&[[i32; 2]]]) -> FileLayer {
    FileLayer {
        height,
        contours: contours.iter().map(|contour| contour.to_vec()).collect(),
    }
}

/// A layer of a file, with tables as long as it needs.
fn exact(file: &[u8], i: usize) -> Case<ReadLayerClean> {
    Case::exact(LayerFile::new(file, i))
}

/// Asserts a refusal, whichever layer is read and into whatever tables.
#[track_caller]
fn assert_refused(file: &[u8], number: u32, place: u64) {
    for i in [0, 1, 2, usize::MAX] {
        for lengths in [[0, 0], [5, 1], [40, 10]] {
            let mut case = Case::<ReadLayerClean>::lent(LayerFile::new(file, i), lengths);
            let answer = agree(&mut case);
            assert_eq!(answer, Err((number, place)), "layer {i} of {file:?}");
        }
    }
}
