use crate::given::given_contours;
use crate::mesh::COORDINATES;
use crate::refusal::Refusal;

/// A call of a screen, with the bits of its floats.
#[derive(Clone, Copy, Debug, PartialEq, Eq)]
pub enum PathCall {
    /// Move to a point.
    Move([u32; 2]),
    /// Line to a point.
    Line([u32; 2]),
    /// Close.
    Close,
}

/// The operation "Preview" of the specification. Floats are given by their bits, also those of the
/// origin.
pub fn preview(
    points: &[i32],
    ends: &[u32],
    origin: [u32; 2],
    number: usize,
) -> Result<Option<PathCall>, Refusal> {
    let calls = calls(points, ends, origin)?;
    Ok(calls.get(number).copied())
}

/// The operation "Preview of a run" of the specification: how many calls were filled.
pub fn preview_run(
    points: &[i32],
    ends: &[u32],
    origin: [u32; 2],
    number: usize,
    kinds: &mut [u8],
    xy: &mut [f32],
) -> Result<usize, Refusal> {
    let calls = calls(points, ends, origin)?;
    let places = kinds.iter_mut().zip(xy.chunks_exact_mut(2));
    let mut filled = 0;
    for (&call, (kind, floats)) in calls.iter().skip(number).zip(places) {
        let (its_kind, carried) = match call {
            PathCall::Move(point) => (0, Some(point)),
            PathCall::Line(point) => (1, Some(point)),
            PathCall::Close => (2, None),
        };
        *kind = its_kind;
        if let Some(point) = carried {
            floats.copy_from_slice(&point.map(f32::from_bits));
        }
        filled += 1;
    }
    Ok(filled)
}

/// All calls of a layer, contour by contour.
fn calls(points: &[i32], ends: &[u32], origin: [u32; 2]) -> Result<Vec<PathCall>, Refusal> {
    let [Some(x), Some(y)] = origin.map(whole) else {
        return Err(Refusal {
            number: 17,
            place: 0,
        });
    };
    let contours = given_contours(points, ends)?;

    let mut calls = Vec::new();
    for contour in contours {
        let mut drawn_points = contour
            .iter()
            .map(|&[px, py]| [drawn(x + i64::from(px)), drawn(y + i64::from(py))]);
        calls.extend(drawn_points.next().map(PathCall::Move));
        calls.extend(drawn_points.map(PathCall::Line));
        calls.push(PathCall::Close);
    }
    Ok(calls)
}

/// The number that a float of 32 bits is, if it is whole and in the range of an origin.
fn whole(bits: u32) -> Option<i64> {
    let (exponent, fraction) = (bits >> 23 & 0xFF, i64::from(bits & 0x7F_FFFF));
    // The number is the significand times 2 to the power of the exponent less 150; the least exponent
    // stands for the one above it, without the leading bit.
    let significand = match exponent {
        0 => fraction,
        _ => 1 << 23 | fraction,
    };
    let size = match exponent.max(1) {
        // So many halvings of so small a significand leave a fraction, unless it is 0.
        1..=126 => (significand == 0).then_some(0),
        halved @ 127..=150 => {
            let unit = 1 << (150 - halved);
            (significand % unit == 0).then_some(significand / unit)
        }
        // 2^24 or more, an infinity, or no number.
        _ => None,
    }?;
    let number = if bits >> 31 == 1 { -size } else { size };
    let in_range = i32::try_from(number).is_ok_and(|number| COORDINATES.contains(&number));
    in_range.then_some(number)
}

/// The bits of the float of 32 bits that is exactly this number, which takes 24 bits at most. Zero has
/// no sign.
pub fn drawn(number: i64) -> u32 {
    let size = number.unsigned_abs();
    assert!(size < 1 << 24, "{number} takes more than 24 bits");
    if size == 0 {
        return 0;
    }
    let leading = size.ilog2();
    let fraction = (size << (23 - leading)) as u32 & 0x7F_FFFF;
    let sign = u32::from(number < 0);
    sign << 31 | (127 + leading) << 23 | fraction
}

#[cfg(test)]
mod tests {
    use super::*;
    use meshes::Random;

    const P: ([i32; 6], [u32; 1]) = ([5, 0, 0, 5, 0, 0], [3]);

    fn refused(points: &[i32], ends: &[u32], origin: [f32; 2]) -> (u32, u64) {
        let refusal = preview(points, ends, origin.map(f32::to_bits), 0).unwrap_err();
        (refusal.number, refusal.place)
    }

    #[test]
    fn the_calls_of_part_p_at_height_5() {
        let origin = [100.0, -20.0].map(f32::to_bits);
        let at = |point: [f32; 2]| point.map(f32::to_bits);
        let calls = [
            Some(PathCall::Move(at([105.0, -20.0]))),
            Some(PathCall::Line(at([100.0, -15.0]))),
            Some(PathCall::Line(at([100.0, -20.0]))),
            Some(PathCall::Close),
            None,
        ];
        for (number, call) in calls.into_iter().enumerate() {
            assert_eq!(preview(&P.0, &P.1, origin, number), Ok(call));
        }
        assert_eq!(preview(&P.0, &P.1, origin, usize::MAX), Ok(None));
        assert_eq!(preview(&[], &[], origin, 0), Ok(None));
    }

    #[test]
    fn runs_are_filled_as_far_as_the_shorter_table_goes() {
        let origin = [100.0, -20.0].map(f32::to_bits);
        let (mut kinds, mut xy) = ([9; 6], [0.5; 11]);
        let filled = preview_run(&P.0, &P.1, origin, 1, &mut kinds, &mut xy);
        assert_eq!(filled, Ok(3));
        assert_eq!(kinds, [1, 1, 2, 9, 9, 9]);
        let (drawn, stay) = xy.split_at(4);
        assert_eq!(drawn, [100.0, -15.0, 100.0, -20.0]);
        assert_eq!(stay, [0.5; 7]);

        let (mut kinds, mut xy) = ([9; 6], [0.5; 3]);
        let filled = preview_run(&P.0, &P.1, origin, 0, &mut kinds, &mut xy);
        assert_eq!(filled, Ok(1));
        assert_eq!((kinds, xy), ([0, 9, 9, 9, 9, 9], [105.0, -20.0, 0.5]));
    }

    #[test]
    fn refusals_stand_in_order() {
        let far = 1_048_577;
        assert_eq!(refused(&[far], &[], [0.5, 0.0]), (17, 0));
        assert_eq!(refused(&[far], &[], [0.0, f32::NAN]), (17, 0));
        assert_eq!(refused(&[far], &[], [0.0, -0.0]), (1, 0));
        assert_eq!(refused(&[0, 0, 0, far], &[1], [0.0; 2]), (1, 0));
        assert_eq!(refused(&[0, 0, 0, far], &[2], [0.0; 2]), (2, 3));
    }

    #[test]
    fn ends_that_are_not_those_of_the_points_are_refused() {
        let points = [0; 12];
        for ends in [
            &[][..],
            &[5],
            &[7],
            &[0, 6],
            &[1, 6],
            &[2, 2, 6],
            &[4, 2, 6],
            &[5, 6],
            &[2, 4],
            &[u32::MAX],
            &[2, u32::MAX, 6],
        ] {
            assert_eq!(refused(&points, ends, [0.0; 2]), (1, 0), "{ends:?}");
        }
        for ends in [&[6][..], &[2, 6], &[4, 6], &[2, 4, 6], &[3, 6]] {
            assert!(preview(&points, ends, [0; 2], 0).is_ok(), "{ends:?}");
        }
        assert_eq!(refused(&[0; 2 * 98_305], &[98_305], [0.0; 2]), (1, 0));
    }

    #[test]
    fn whole_floats_are_those_without_a_fraction_in_range() {
        for (float, number) in [
            (0.0, Some(0)),
            (-0.0, Some(0)),
            (1.0, Some(1)),
            (-3.0, Some(-3)),
            (0.5, None),
            (1.5, None),
            (f32::from_bits(1), None),
            (f32::MIN_POSITIVE, None),
            (1_048_575.9, None),
            (1_048_576.0, Some(1_048_576)),
            (-1_048_576.0, Some(-1_048_576)),
            (1_048_576.1, None),
            (1_048_577.0, None),
            (16_777_216.0, None),
            (f32::MAX, None),
            (f32::INFINITY, None),
            (f32::NEG_INFINITY, None),
            (f32::NAN, None),
            (-f32::NAN, None),
        ] {
            assert_eq!(whole(f32::to_bits(float)), number, "{float}");
        }
    }

    #[test]
    fn other_ways_to_see_whole_floats_agree() {
        for round in 0..100_000 {
            let mut random = Random::of_round(1, round);
            let near = random.choose(&[0, 1, 2, 3, 1 << 20]) as f32;
            let bits = match random.below(3) {
                0 => random.word() as u32,
                1 => near.to_bits().wrapping_add(random.below(9) as u32),
                _ => (random.within(-2_200_000..=2_200_000) as f32 / 2.0).to_bits(),
            };
            let float = f32::from_bits(bits);
            let wide = f64::from(float);
            let expected = (wide.fract() == 0.0 && wide.abs() <= 1_048_576.0).then_some(wide);
            assert_eq!(whole(bits).map(|n| n as f64), expected, "{bits:#x}");
        }
    }

    #[test]
    fn numbers_of_24_bits_are_drawn_as_they_are() {
        assert_eq!(drawn(0), 0);
        for size in 0..1 << 24 {
            if size < 5_000 || size % 997 == 0 || (1 << 24) - size < 9 {
                assert_eq!(f32::from_bits(drawn(size)), size as f32);
                assert_eq!(f32::from_bits(drawn(-size)), -(size as f32));
            }
        }
    }
}
