//! The largest areas, products past 64 bits, the most layers and contours, and every thickness.

use super::{assert_charge, assert_ink, contours_of, layers, layers_of, round_the_square, turned};
use super::{M, WRONG};
use crate::inputs::LAYER_FILE_P;
use oracle::{encode_layers, FileLayer};
use wadroles::MAX_THICKNESS;

/// The largest sum of doubled areas that a layer can have.
const LARGEST: i128 = 98_304 << 41;

/// The charge of one layer with this sum.
fn charge(sum: i128, thickness: u32) -> u64 {
    let product = sum.max(0) * i128::from(thickness);
    let charge = (product + 1_999_999) / 2_000_000;
    charge.try_into().unwrap()
}

#[test]
fn thicknesses_pass_from_1_to_1000() {
    assert_eq!(MAX_THICKNESS, 1_000);
    for thickness in 0..=1_100 {
        let right = (1..=1_000).contains(&thickness);
        let answer = if right { Ok(1) } else { Err((19, 0)) };
        assert_ink(&LAYER_FILE_P, thickness, answer);
    }
    for thickness in WRONG {
        assert_ink(&LAYER_FILE_P, thickness, Err((19, 0)));
        assert_ink(&[0], thickness, Err((19, 0)));
    }
}

#[test]
fn the_largest_area_of_a_layer() {
    let round = [round_the_square(98_304)];
    let back = [turned(&round[0])];
    assert_eq!(
        wadroles::area(round[0].as_flattened()).map(i128::from),
        Ok(LARGEST)
    );
    // A thousand times that is 216,172,782,113,783,808,000, which has 68 bits.
    assert_eq!(charge(LARGEST, 1_000), 108_086_391_056_892);
    for thickness in [1, 2, 85, 86, 512, 999, 1_000] {
        assert_charge(&layers(&[&round]), thickness, charge(LARGEST, thickness));
        assert_charge(&layers(&[&back]), thickness, 0);
    }
    let job = layers(&[&back, &round, &back, &round]);
    assert_charge(&job, 1_000, 2 * 108_086_391_056_892);
}

#[test]
fn the_largest_area_with_two_corners_cut_off() {
    let mut points = round_the_square(98_304);
    // Two corners cut off by one unit: three sides give M, 2M − 1 and M less.
    points[98_302] = [1 - M, -M];
    points[98_303] = [M, 1 - M];
    let sum = LARGEST - 4 * i128::from(M) + 1;
    assert_eq!(
        wadroles::area(points.as_flattened()).map(i128::from),
        Ok(sum)
    );
    for thickness in [1, 999, 1_000] {
        let charge = charge(sum, thickness);
        assert_charge(&layers(&[&[points.clone()]]), thickness, charge);
    }
}

#[test]
fn many_layers_of_the_largest_area() {
    let count = 24;
    let round = [round_the_square(98_304)];
    let job = layers(&vec![&round[..]; count]);
    assert_charge(&job, 1_000, count as u64 * 108_086_391_056_892);
    assert_charge(&job, 1, count as u64 * charge(LARGEST, 1));
}

#[test]
fn products_on_both_sides_of_powers_of_two() {
    for thickness in [1, 2, 3, 128, 512, 999, 1_000] {
        for bits in [31, 32, 33, 52, 53, 54, 62, 63, 64, 65, 66] {
            let about = (1i128 << bits) / i128::from(thickness);
            // A layer has at most some more.
            if about + 2 > 1 << 57 {
                continue;
            }
            for sum in about - 2..=about + 2 {
                let job = layers_of(&[sum as i64]);
                assert_charge(&job, thickness, charge(sum, thickness));
            }
        }
    }
}

#[test]
fn large_areas_are_charged_to_the_last_unit() {
    // A float of 64 bits has 53 for the number, and these have more.
    for times in [4_503_599_627_371, 72_057_594_037_926] {
        let charge = times as u64;
        assert_charge(&layers_of(&[2_000 * times - 1]), 1_000, charge);
        assert_charge(&layers_of(&[2_000 * times]), 1_000, charge);
        assert_charge(&layers_of(&[2_000 * times + 1]), 1_000, charge + 1);
        assert_charge(&layers_of(&[-2_000 * times]), 1_000, 0);
    }
}

#[test]
fn a_large_area_and_a_hole_nearly_as_large() {
    let (round, back) = (round_the_square(49_148), turned(&round_the_square(49_148)));
    for left in [-2_001, -1, 0, 1, 2_000, 2_001] {
        let contours = [vec![round.clone(), back.clone()], contours_of(left)].concat();
        assert_charge(&layers(&[&contours]), 1_000, charge(left.into(), 1_000));
        let contours = [vec![back.clone()], contours_of(left), vec![round.clone()]].concat();
        assert_charge(&layers(&[&contours]), 1_000, charge(left.into(), 1_000));
    }
}

#[test]
fn as_many_layers_as_a_file_may_have() {
    let layer = |k: i32| FileLayer {
        height: k - 2_000,
        contours: vec![round_the_square(4 * (1 + k as usize % 30))],
    };
    let layers: Vec<FileLayer> = (0..4_096).map(layer).collect();
    let areas = (0..4_096).map(|k| i128::from(4 * (1 + k % 30)) << 41);
    let charges: u64 = areas.map(|sum| charge(sum, 1_000)).sum();
    assert!(charges > u64::from(u32::MAX));
    assert_charge(&layers, 1_000, charges);
    assert_charge(&layers[..4_095], 1_000, charges - charge(64 << 41, 1_000));

    let mut more = layers;
    more.push(layer(4_096));
    assert_ink(&encode_layers(&more), 1_000, Err((13, 0)));
    assert_ink(&encode_layers(&more), 1_001, Err((13, 0)));
}

#[test]
fn as_many_contours_as_a_layer_may_have() {
    let pairs = vec![vec![[M, -M], [-M, M]]; 49_152];
    assert_charge(&layers(&[&pairs]), 1_000, 0);
    let triangles: Vec<_> = vec![contours_of(1 << 42); 32_768].concat();
    assert_eq!(triangles.len(), 32_768);
    assert_charge(&layers(&[&triangles]), 1_000, charge(1 << 57, 1_000));
    let turned: Vec<_> = triangles.iter().map(|triangle| turned(triangle)).collect();
    assert_charge(&layers(&[&turned]), 1_000, 0);
}

#[test]
fn more_points_than_a_layer_may_have_are_refused() {
    for thickness in [1, 1_000, 1_001] {
        let long = encode_layers(&layers(&[&[round_the_square(98_305)]]));
        assert_ink(&long, thickness, Err((13, 3)));
        let full = layers(&[&[round_the_square(98_304)]]);
        let place = encode_layers(&full).len() as u64;
        let more = [round_the_square(98_304), vec![[0, 0]; 2]];
        assert_ink(
            &encode_layers(&layers(&[&more])),
            thickness,
            Err((13, place)),
        );
    }
}

#[test]
fn points_out_of_range_are_refused() {
    for at in 0..8 {
        for number in [i32::MIN, -M - 1, M + 1, i32::MAX] {
            let mut points = round_the_square(4);
            points[at / 2][at % 2] = number;
            let file = encode_layers(&layers(&[&[points]]));
            // Before the points stand three counts and the height.
            let place = files::values(&file)[4 + at].start as u64;
            assert_ink(&file, 1_000, Err((13, place)));
        }
    }
}
