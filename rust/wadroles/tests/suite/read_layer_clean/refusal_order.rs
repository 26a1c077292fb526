//! Two or three faults at once: the earlier refusal wins wherever the faults lie.

use super::{layer, unclean_contours, TRIANGLE};
use crate::harness::{assert_answer, assert_earlier_wins, assert_refusals, Case, Refused, Tables};
use crate::operations::{LayerFile, ReadLayerClean};
use oracle::{encode_layers, FileLayer};

/// Three layers, of two clean contours each, of which every one takes seven bytes.
fn layers() -> Vec<FileLayer> {
    (0..3).map(|k| layer(k, &[&TRIANGLE[..]; 2])).collect()
}

fn right() -> Case<ReadLayerClean> {
    Case::exact(LayerFile::of(&layers(), 1))
}

fn lent(file: &[u8], i: usize, lengths: [usize; 2]) -> Case<ReadLayerClean> {
    Case::lent(LayerFile::new(file, i), lengths)
}

/// Tables that are too short for each of the layers, and some that are not.
const LENGTHS: [[usize; 2]; 6] = [[11, 2], [12, 1], [0, 0], [11, 9], [12, 2], [40, 9]];

#[test]
fn a_broken_file_is_refused_before_an_unclean_contour() {
    for unclean in unclean_contours() {
        for k in 0..3 {
            let mut layers = layers();
            layers[k].contours[1] = unclean.clone();
            let file = encode_layers(&layers);
            let length = file.len() as u64;
            let short = file[..file.len() - 1].to_vec();
            let longer = [&file[..], &[0]].concat();
            layers[2].contours.push(vec![[0, 0]]);
            let one_point = encode_layers(&layers);
            for (file, place) in [(short, length - 1), (longer, length), (one_point, length)] {
                for i in [0, k, 3] {
                    let case = lent(&file, i, [40, 9]);
                    assert_answer(&case, Err((13, place)));
                }
            }
        }
    }
}

#[test]
fn an_unclean_contour_is_refused_before_a_missing_layer_and_short_tables() {
    for unclean in unclean_contours() {
        for k in 0..3 {
            let mut layers = layers();
            layers[k].contours[1] = unclean.clone();
            let place = 1 + 16 * k as u64 + 2 + 7;
            for i in [0, 1, 2, 3, 1 << 32, usize::MAX] {
                for lengths in LENGTHS {
                    let case = lent(&encode_layers(&layers), i, lengths);
                    assert_answer(&case, Err((18, place)));
                }
            }
        }
    }
}

#[test]
fn a_missing_layer_is_refused_before_short_tables() {
    let file = encode_layers(&layers());
    for lengths in LENGTHS {
        for i in [3, 4, 1 << 32, usize::MAX] {
            assert_answer(&lent(&file, i, lengths), Err((15, 0)));
        }
        let answer = match lengths {
            [12 | 40, 2 | 9] => Ok((3, 1, 2, 6)),
            _ => Err((9, 0)),
        };
        assert_answer(&lent(&file, 1, lengths), answer);
    }
}

/// Puts the fault of a refusal into a case, in one of three ways.
fn spoil(case: &mut Case<ReadLayerClean>, number: u32, way: usize) {
    let file = &mut case.input.file;
    match (number, way) {
        (13, 0) => file.push(0),
        (13, 1) => drop(file.pop()),
        // The first height, which is then above the second.
        (13, _) => file[1] = 4,
        // A point twice, the first one at the end, and all points equal.
        (18, 0) => file[3 + 3..3 + 5].fill(0),
        (18, 1) => file[26 + 5] = 10,
        (18, _) => file[35 + 3..35 + 7].fill(0),
        (15, _) => case.input.i = [3, 4, usize::MAX][way],
        (9, 0) => case.tables.shorten(0, 11),
        (9, 1) => case.tables.shorten(1, 1),
        (9, _) => case.tables.shorten(0, 0),
        _ => panic!("there is no refusal {number}"),
    }
}

const WAYS: usize = 3;

#[test]
fn the_earlier_refusal_wins() {
    assert_earlier_wins(right, WAYS, spoil);
}

#[test]
fn every_refusal_by_number_and_place() {
    let mut refused: Vec<Refused<ReadLayerClean>> = Vec::new();
    for (number, places) in [
        (13, [49, 48, 17]),
        (18, [3, 26, 35]),
        (15, [0; 3]),
        (9, [0; 3]),
    ] {
        for (way, place) in places.into_iter().enumerate() {
            let change = move |case: &mut Case<_>| spoil(case, number, way);
            refused.push((Box::new(change), number, place));
        }
    }
    assert_refusals(right, &refused);
}
