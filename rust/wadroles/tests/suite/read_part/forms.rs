//! The form of values: groups that are needless, too many or over 32 bits, and counts that lie.

use super::{assert_broken, exact, of};
use crate::harness::{agree, assert_answer, Tally};
use crate::inputs::{with_a_wrong_form, with_value};
use files::values;
use oracle::{encode_part, encode_plain, Part};

/// A part whose values take one byte to five, the largest of their kind among them.
fn sample() -> Part {
    Part {
        coords: vec![i32::MIN, i32::MAX, 0, -1, 64, 8_192],
        corners: vec![u32::MAX, 0, 127, 128, 16_384, 2_097_152],
        heights: vec![i32::MIN, -300, i32::MAX],
    }
}

#[test]
fn the_sample_is_right_and_has_values_of_all_lengths() {
    let file = encode_part(&sample());
    for length in 1..=5 {
        assert!(values(&file).iter().any(|value| value.len() == length));
    }
    assert_answer(&of(&sample()), Ok((2, 2, 3)));
}

#[test]
fn every_value_must_be_in_its_right_form() {
    for (file, place) in with_a_wrong_form(&encode_part(&sample())) {
        assert_broken(&file, place);
    }
}

#[test]
fn every_value_may_be_cut_short_only_by_the_end_of_the_file() {
    let file = encode_part(&sample());
    for value in values(&file) {
        for length in value.clone() {
            assert_broken(&file[..length], value.start as u64);
        }
    }
}

/// Numbers up to the largest of 32 bits, and those whose triple is small in its lowest 32 bits.
fn large_numbers() -> impl Iterator<Item = u64> {
    let powers = (2..=32).map(|bits| 1 << bits);
    let thirds = (1..=2).map(|times| (times << 32) / 3);
    let near = powers.flat_map(|power| [power - 1, power, power + 1]);
    near.chain(thirds.flat_map(|third| [third - 1, third, third + 1, third + 2]))
}

#[test]
fn counts_that_lie_are_refused_at_once() {
    let mut met = Tally::default();
    for count in large_numbers() {
        for place in 0..3 {
            // None of any kind but for the count, and so many zeros.
            for zeros in 0..9 {
                let mut file = with_value(&[0, 0, 0], place..place + 1, &encode_plain(count));
                file.extend(vec![0; zeros]);
                met.add(&agree(&mut exact(&file)));
            }
        }
    }
    met.require(&[13], 1_000);
    // Read with 32 bits, three times the count would be 2.
    let count = encode_plain((1 << 32) / 3 + 1);
    assert_broken(&[&count[..], &[0, 0, 0, 0]].concat(), 9);
    assert_broken(&[&[0], &count[..], &[0, 0, 0]].concat(), 9);
    assert_broken(&[255, 255, 255, 255, 15, 0], 6);
    assert_broken(&[0, 255, 255, 255, 255, 15], 6);
    assert_broken(&[0, 0, 255, 255, 255, 255, 15], 7);
}

#[test]
fn every_value_replaced_by_a_small_or_large_number() {
    let file = encode_part(&sample());
    let mut met = Tally::default();
    for value in values(&file) {
        for number in (0..=4).chain(large_numbers()) {
            let changed = with_value(&file, value.clone(), &encode_plain(number));
            met.add(&agree(&mut exact(&changed)));
        }
    }
    met.require(&[0, 13], 100);
}
