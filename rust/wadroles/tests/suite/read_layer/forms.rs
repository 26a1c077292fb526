//! The form of values: groups that are needless, too many or over 32 bits, and counts that lie.

use super::{assert_broken, exact};
use crate::harness::{agree, assert_answer, Tally};
use crate::inputs::{with_a_wrong_form, with_value};
use files::values;
use oracle::{encode_layers, encode_plain, FileLayer};

/// A file whose values take one byte to five, the largest of their kind among them.
fn sample() -> Vec<u8> {
    let far = [[1_048_576, -1_048_576], [-1_048_576, 1_048_576]];
    encode_layers(&[
        FileLayer {
            height: i32::MIN,
            contours: vec![vec![[0, -1], [64, 300]], vec![[7, 7]; 130]],
        },
        FileLayer {
            height: -3,
            contours: vec![],
        },
        FileLayer {
            height: i32::MAX,
            contours: vec![far.to_vec(), vec![[0, 0]; 2]],
        },
    ])
}

#[test]
fn the_sample_is_right_and_has_values_of_all_lengths() {
    let file = sample();
    for length in 1..=5 {
        assert!(values(&file).iter().any(|value| value.len() == length));
    }
    assert_answer(&exact(&file, 0), Ok((3, i32::MIN, 2, 132)));
}

#[test]
fn every_value_must_be_in_its_right_form() {
    for (file, place) in with_a_wrong_form(&sample()) {
        assert_broken(&file, place);
    }
}

#[test]
fn every_value_may_be_cut_short_only_by_the_end_of_the_file() {
    let file = sample();
    for value in values(&file) {
        for length in value.clone() {
            assert_broken(&file[..length], value.start as u64);
        }
    }
}

/// The counts of a file of one layer: of layers, contours and points.
const ONE_LAYER: [u8; 8] = [1, 0, 1, 2, 0, 0, 0, 0];

/// Numbers up to the largest of 32 bits.
fn large_numbers() -> impl Iterator<Item = u64> {
    let powers = (2..=32).map(|bits| 1 << bits);
    powers.flat_map(|power| [power - 1, power, power + 1])
}

#[test]
fn a_layer_count_that_lies_is_refused_at_once() {
    for count in large_numbers() {
        let file = with_value(&ONE_LAYER, 0..1, &encode_plain(count));
        let place = if count <= 4_096 { file.len() } else { 0 };
        assert_broken(&file, place as u64);
    }
}

#[test]
fn a_contour_count_that_lies_is_refused_at_once() {
    for count in large_numbers() {
        let file = with_value(&ONE_LAYER, 2..3, &encode_plain(count));
        let place = if count < 1 << 32 { file.len() } else { 2 };
        assert_broken(&file, place as u64);
    }
}

#[test]
fn a_point_count_that_lies_is_refused_at_once() {
    for count in large_numbers() {
        let file = with_value(&ONE_LAYER, 3..4, &encode_plain(count));
        let place = if count <= 98_304 { file.len() } else { 3 };
        assert_broken(&file, place as u64);
    }
}

#[test]
fn every_value_replaced_by_a_small_or_large_number() {
    let file = sample();
    let mut met = Tally::default();
    for value in values(&file) {
        for number in (0..=4).chain(large_numbers()) {
            let changed = with_value(&file, value.clone(), &encode_plain(number));
            met.add(&agree(&mut exact(&changed, 1)));
        }
    }
    met.require(&[0, 13], 100);
}
