//! Two or three faults at once: the earlier refusal wins wherever the faults lie.

use crate::harness::{assert_answer, Case};
use crate::operations::{LayerFile, ReadLayer};
use oracle::{encode_layers, FileLayer};

/// Three layers, of one contour each.
fn layers() -> Vec<FileLayer> {
    (0..3)
        .map(|k| FileLayer {
            height: k,
            contours: vec![vec![[k, 1]; 3]],
        })
        .collect()
}

/// A layer of a file, with tables of these lengths.
fn lent(file: &[u8], i: usize, lengths: [usize; 2]) -> Case<ReadLayer> {
    Case::lent(LayerFile::new(file, i), lengths)
}

/// Tables that are too short for each of the layers.
const SHORT: [[usize; 2]; 4] = [[5, 1], [6, 0], [0, 0], [5, 9]];

#[test]
fn a_broken_file_is_refused_before_a_missing_layer_and_short_tables() {
    let right = encode_layers(&layers());
    let length = right.len() as u64;
    let mut broken = vec![
        (right[..right.len() - 1].to_vec(), length - 1),
        ([&right[..], &[0]].concat(), length),
    ];
    for k in 0..3 {
        let mut one_point = layers();
        one_point[k].contours[0].truncate(1);
        broken.push((encode_layers(&one_point), 9 * k as u64 + 3));
    }
    for (file, place) in broken {
        for i in [0, 1, 2, 3, usize::MAX] {
            for lengths in SHORT.into_iter().chain([[6, 1], [20, 20]]) {
                assert_answer(&lent(&file, i, lengths), Err((13, place)));
            }
        }
    }
}

#[test]
fn a_missing_layer_is_refused_before_short_tables() {
    for i in [3, 4, 1 << 32, usize::MAX] {
        for lengths in SHORT.into_iter().chain([[6, 1], [20, 20]]) {
            let file = encode_layers(&layers());
            assert_answer(&lent(&file, i, lengths), Err((15, 0)));
        }
    }
}

#[test]
fn short_tables_are_refused_last() {
    let file = encode_layers(&layers());
    for i in 0..3 {
        for lengths in SHORT {
            assert_answer(&lent(&file, i, lengths), Err((9, 0)));
        }
        assert_answer(&lent(&file, i, [6, 1]), Ok((3, i as i32, 1, 3)));
    }
}

#[test]
fn tables_are_measured_by_the_layer_that_is_read() {
    let mut layers = layers();
    layers[1].contours = vec![vec![[0, 0]; 10]; 5];
    let file = encode_layers(&layers);
    for (i, [points, ends]) in [(0, [6, 1]), (1, [100, 5]), (2, [6, 1])] {
        assert_answer(&lent(&file, i, [points - 1, ends]), Err((9, 0)));
        assert_answer(&lent(&file, i, [points, ends - 1]), Err((9, 0)));
        let answer = Ok((3, i as i32, ends, points / 2));
        assert_answer(&lent(&file, i, [points, ends]), answer);
    }
}
