//! Rounding: exact multiples of a nanolitre, one more and one less, and what is rounded by itself.

use super::{assert_charge, contours_of, layers, layers_of, least_exact, DOUBLED_NANOLITRE};

#[test]
fn every_thickness_at_exact_multiples_and_next_to_them() {
    for thickness in 1..=1_000 {
        let step = least_exact(thickness);
        let each = step * i64::from(thickness);
        assert_eq!(each % DOUBLED_NANOLITRE, 0);
        for times in [1, 2, 3, 1_000, 123_457, 1 << 30] {
            let charge = (each / DOUBLED_NANOLITRE * times) as u64;
            let sum = step * times;
            assert_charge(&layers_of(&[sum - 1]), thickness, charge);
            assert_charge(&layers_of(&[sum]), thickness, charge);
            assert_charge(&layers_of(&[sum + 1]), thickness, charge + 1);
        }
    }
}

#[test]
fn sums_near_zero() {
    for thickness in [1, 2, 3, 999, 1_000] {
        for sum in -4..=4 {
            let charge = u64::from(sum > 0);
            assert_charge(&layers_of(&[sum]), thickness, charge);
        }
        for sum in [1_999, 2_000, 2_001, 1_999_999, 2_000_000, 2_000_001] {
            assert_charge(&layers_of(&[-sum]), thickness, 0);
        }
    }
}

#[test]
fn every_small_sum_at_the_greatest_thickness() {
    let charge = |sum: i64| sum.max(0).unsigned_abs().div_ceil(2_000);
    for sum in -100..=10_000 {
        assert_charge(&layers_of(&[sum]), 1_000, charge(sum));
    }
}

#[test]
fn areas_are_not_halved_before_the_product() {
    // With halves rounded down these would be charged one less.
    assert_charge(&layers_of(&[1]), 1_000, 1);
    assert_charge(&layers_of(&[2_000_001]), 1, 2);
    assert_charge(&layers_of(&[2_000_001]), 1_000, 1_001);
    assert_charge(&layers_of(&[4_000_001]), 1, 3);
    // 15,625 × 128 is 2,000,000: with halves rounded up these would be charged one more.
    assert_charge(&layers_of(&[15_625]), 128, 1);
    assert_charge(&layers_of(&[15_625 * 3]), 128, 3);
    assert_charge(&layers_of(&[15_625 * 5]), 128, 5);
}

#[test]
fn areas_are_not_rounded_before_the_product() {
    // A thousandth of a nanolitre for each micrometre.
    assert_charge(&layers_of(&[2_000]), 1_000, 1);
    assert_charge(&layers_of(&[2_000]), 1, 1);
    assert_charge(&layers_of(&[3_000_000]), 2, 3);
    assert_charge(&layers_of(&[3_000_000]), 3, 5);
}

#[test]
fn each_layer_is_rounded_up_by_itself() {
    for (sums, thickness, charge) in [
        (&[1, 1][..], 1, 2),
        (&[1, 1, 1, 1, 1], 1_000, 5),
        (&[1_000_000, 1_000_000], 1, 2),
        (&[1_000_000, 1_000_000], 2, 2),
        (&[2_000_001, 2_000_001], 1, 4),
        (&[2_000_001, 1_999_999], 1, 3),
        (&[1_999_999, 2_000_001], 1_000, 2_001),
        (&[25, 0, 25, 0, 0, 25], 1_000, 3),
        (&[1, -1], 1, 1),
        (&[-1, 1], 1, 1),
        (&[2_000_000, -1, -2_000_000, -2_000_001, 1], 1, 2),
        (&[2_001, -2_001, 2_001], 1_000, 4),
    ] {
        assert_charge(&layers_of(sums), thickness, charge);
    }
}

#[test]
fn many_layers_of_a_little_each() {
    for count in [2, 100, 4_096] {
        for (sum, charge) in [(1, 1), (2_000, 1), (2_001, 2), (0, 0), (-1, 0), (-2_001, 0)] {
            let job = layers_of(&vec![sum; count]);
            assert_charge(&job, 1_000, count as u64 * charge);
        }
    }
}

#[test]
fn the_contours_of_a_layer_are_rounded_together() {
    for count in [2, 100, 2_000] {
        let little: Vec<_> = vec![contours_of(1); count].concat();
        assert_charge(&layers(&[&little]), 1_000, 1);
        let less: Vec<_> = vec![contours_of(-1); count].concat();
        assert_charge(&layers(&[&less]), 1_000, 0);
        let both = [little, less, contours_of(2_001)].concat();
        assert_charge(&layers(&[&both]), 1_000, 2);
    }
    let one_more: Vec<_> = vec![contours_of(1); 2_001].concat();
    assert_charge(&layers(&[&one_more]), 1_000, 2);
}
