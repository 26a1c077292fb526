//! Origins by their bits: which are refused, on either side, and which pass.

use super::{assert_answers, assert_refused, triangle, M};
use crate::operations::Drawing;

/// Floats that are no whole numbers, or are out of range, each with its negative.
fn bad_floats() -> Vec<u32> {
    let farthest = (M as f32).to_bits();
    let mut bad = vec![
        // No numbers: quiet and signalling, with the least and the most of the fraction.
        0x7FC0_0000,
        0x7FC0_0001,
        0x7FFF_FFFF,
        0x7F80_0001,
        0x7FA0_0000,
        0x7FBF_FFFF,
        // Infinity.
        0x7F80_0000,
        // The least and the largest subnormal, and the least normal number.
        0x0000_0001,
        0x0000_0002,
        0x007F_FFFF,
        0x0080_0000,
        // Just above the farthest, and 2^21 to 2^32 and the largest of all.
        farthest + 1,
        farthest + 2,
        (M as f32 + 0.5).to_bits(),
        (M as f32 + 1.0).to_bits(),
        0x4A00_0000,
        0x4B00_0000,
        0x4B80_0000,
        0x4F00_0000,
        0x4F80_0000,
        0x5F00_0000,
        0x5F80_0000,
        0x7F7F_FFFF,
        // Just below the farthest, and the float below it that has a fraction.
        farthest - 1,
        farthest - 15,
    ];
    let fractions = [
        0.5,
        0.25,
        0.1,
        0.999_999_94,
        1.000_000_1,
        1.5,
        2.5,
        3.999_999_8,
        1_000.001,
        65_535.996,
        524_287.97,
        524_288.06,
        1_048_575.5,
        1_048_575.9,
    ];
    bad.extend(fractions.map(f32::to_bits));
    let negative: Vec<u32> = bad.iter().map(|bits| bits | 1 << 31).collect();
    [bad, negative].concat()
}

/// Floats that are whole numbers in range, with their numbers.
fn good_floats() -> Vec<(u32, i32)> {
    let mut numbers: Vec<i32> = (0..=70).collect();
    numbers.extend((6..=20).flat_map(|power| [(1 << power) - 1, 1 << power]));
    numbers.extend([65_537, 524_289, 999_999, M - 2, M - 1, M]);
    let both = numbers.into_iter().flat_map(|number| [number, -number]);
    let mut good: Vec<_> = both
        .map(|number| ((number as f32).to_bits(), number))
        .collect();
    good.push((0x8000_0000, 0));
    good
}

fn with_origin(origin: [u32; 2]) -> Drawing {
    Drawing {
        origin,
        ..triangle([0.0; 2])
    }
}

#[test]
fn bad_floats_are_refused_on_either_side() {
    for bad in bad_floats() {
        for good in [0x0000_0000, 0x8000_0000, (M as f32).to_bits(), bad] {
            assert_refused(&with_origin([bad, good]), 17, 0);
            assert_refused(&with_origin([good, bad]), 17, 0);
        }
    }
}

#[test]
fn whole_floats_in_range_pass_on_either_side() {
    for (bits, number) in good_floats() {
        assert_eq!(f64::from(f32::from_bits(bits)), f64::from(number));
        for other in [0x0000_0000, 0x8000_0000, (-M as f32).to_bits()] {
            assert_answers(&with_origin([bits, other]), 0, 4);
            assert_answers(&with_origin([other, bits]).from(2), 1, 2);
        }
    }
}

#[test]
fn a_bad_origin_is_refused_without_a_layer_too() {
    for bad in bad_floats() {
        let empty = Drawing {
            origin: [0, bad],
            ..Drawing::new(&[], &[], [0.0; 2])
        };
        assert_refused(&empty, 17, 0);
    }
}

#[test]
fn every_exponent_and_both_signs() {
    for high in 0..=0x1FF {
        for fraction in [0, 1, 1 << 22, (1 << 23) - 1] {
            let bits = high << 23 | fraction;
            let wide = f64::from(f32::from_bits(bits));
            let good = wide.trunc() == wide && wide.abs() <= f64::from(M);
            for origin in [[bits, 0], [0, bits]] {
                let drawing = with_origin(origin);
                match good {
                    true => assert_answers(&drawing, 0, 4),
                    false => assert_refused(&drawing, 17, 0),
                }
            }
        }
    }
}
