//! Refusals by number and place, and which of two is answered.

use super::{assert_ink, contours_of, layers, layers_of, WRONG};
use crate::harness::{assert_earlier_wins, assert_refusals, Case, Refused};
use crate::inputs::{shortened, with_a_wrong_form, CLEAN_FILE_P, LAYER_FILE_P};
use crate::operations::{Ink, Job};
use oracle::{encode_layers, FileLayer};

/// Three layers, of two contours each, of which every one takes seven bytes.
fn right_layers() -> Vec<FileLayer> {
    let triangle = vec![[5, 0], [0, 5], [0, 0]];
    let contours = vec![triangle; 2];
    layers(&[&contours, &contours, &contours])
}

fn right() -> Case<Ink> {
    Case::exact(Job::of(&right_layers(), 1_000))
}

/// Files that Read layer refuses, each with the place.
fn broken() -> Vec<(Vec<u8>, u64)> {
    let file = encode_layers(&right_layers());
    let length = file.len() as u64;
    let mut broken = vec![
        (Vec::new(), 0),
        (vec![0x80, 0x00], 0),
        (file[..file.len() - 1].to_vec(), length - 1),
        ([&file[..], &[0]].concat(), length),
        ([&file[..], &[0x80]].concat(), length),
    ];
    for k in 0..3 {
        let mut one_point = right_layers();
        one_point[k].contours[1].truncate(1);
        broken.push((encode_layers(&one_point), 16 * k as u64 + 10));
        let mut far = right_layers();
        far[k].contours[0][0][0] = 1_048_577;
        broken.push((encode_layers(&far), 16 * k as u64 + 4));
    }
    for k in 1..3 {
        let mut equal = right_layers();
        equal[k].height = equal[k - 1].height;
        broken.push((encode_layers(&equal), 16 * k as u64 + 1));
    }
    broken
}

#[test]
fn a_broken_file_is_refused_before_a_wrong_thickness() {
    for (file, place) in broken() {
        for thickness in [1, 40, 1_000].into_iter().chain(WRONG) {
            assert_ink(&file, thickness, Err((13, place)));
        }
    }
}

#[test]
fn a_wrong_thickness_is_refused_at_place_0_whatever_the_file() {
    let clean_and_not = [contours_of(7), vec![vec![[3, 3]; 5]]].concat();
    for file in [
        vec![0],
        vec![1, 0, 0],
        LAYER_FILE_P.to_vec(),
        CLEAN_FILE_P.to_vec(),
        encode_layers(&right_layers()),
        encode_layers(&layers_of(&[-5, 0, 1 << 50])),
        encode_layers(&layers(&[&clean_and_not])),
    ] {
        for thickness in WRONG {
            assert_ink(&file, thickness, Err((19, 0)));
        }
    }
}

#[test]
fn every_file_cut_short_is_refused() {
    let several_bytes = encode_layers(&layers_of(&[3 << 42, -1, 300, 1 << 40]));
    for file in [LAYER_FILE_P.to_vec(), CLEAN_FILE_P.to_vec(), several_bytes] {
        let values = files::values(&file);
        for short in shortened(&file) {
            // The value that the end cuts, or that is missing.
            let cut = values.iter().find(|value| value.end > short.len());
            let place = cut.unwrap().start as u64;
            for thickness in [1, 1_000, 0, 1_001] {
                assert_ink(&short, thickness, Err((13, place)));
            }
        }
    }
}

#[test]
fn every_byte_left_over_is_refused() {
    for file in [LAYER_FILE_P.to_vec(), CLEAN_FILE_P.to_vec(), vec![0]] {
        let place = file.len() as u64;
        for byte in 0..=255 {
            for thickness in [1, 1_000, 1_001] {
                assert_ink(&[&file[..], &[byte]].concat(), thickness, Err((13, place)));
            }
            let three = [&file[..], &[byte, byte, 0]].concat();
            assert_ink(&three, 1_000, Err((13, place)));
        }
    }
}

#[test]
fn every_value_must_be_in_its_right_form() {
    for (file, place) in with_a_wrong_form(&LAYER_FILE_P) {
        for thickness in [1_000, 1_001] {
            assert_ink(&file, thickness, Err((13, place)));
        }
    }
}

/// Puts the fault of a refusal into a case, in one of four ways.
fn spoil(case: &mut Case<Ink>, number: u32, way: usize) {
    let Job { file, thickness } = &mut case.input;
    match (number, way) {
        (13, 0) => file.push(0),
        (13, 1) => drop(file.pop()),
        // The first height, which is then above the second.
        (13, 2) => file[1] = 4,
        // One point of the last contour of all.
        (13, _) => file[42] = 1,
        (19, _) => *thickness = [0, 1_001, 66_536, u32::MAX][way],
        _ => panic!("there is no refusal {number}"),
    }
}

const WAYS: usize = 4;

#[test]
fn the_earlier_refusal_wins() {
    assert_earlier_wins(right, WAYS, spoil);
}

#[test]
fn every_refusal_by_number_and_place() {
    let mut refused: Vec<Refused<Ink>> = Vec::new();
    for (number, places) in [(13, [49, 48, 17, 42]), (19, [0; WAYS])] {
        for (way, place) in places.into_iter().enumerate() {
            let change = move |case: &mut Case<_>| spoil(case, number, way);
            refused.push((Box::new(change), number, place));
        }
    }
    assert_refusals(right, &refused);
}
