//! Counts at their limits and one above.

use super::assert_broken;
use crate::harness::{assert_answer, Case, Operation};
use crate::operations::{LayerFile, ReadLayer};
use meshes::Random;
use oracle::{encode_layers, encode_plain, FileLayer};
use wadroles::{MAX_LAYERS, MAX_POINTS};

/// Layers without contours.
fn empty_layers(count: usize) -> Vec<FileLayer> {
    (0..count as i32)
        .map(|k| FileLayer {
            height: k - 2000,
            contours: vec![],
        })
        .collect()
}

/// A layer of contours of so many points.
fn layer(counts: &[usize]) -> FileLayer {
    let mut random = Random::new(1);
    let mut point = || [(); 2].map(|()| random.within(-1_048_576..=1_048_576));
    let mut contour = |&count: &usize| (0..count).map(|_| point()).collect();
    FileLayer {
        height: 7,
        contours: counts.iter().map(&mut contour).collect(),
    }
}

/// A layer of a file, with tables as long as it needs.
fn exact(layers: &[FileLayer], i: usize) -> Case<ReadLayer> {
    Case::exact(LayerFile::of(layers, i))
}

/// Asserts the counts of contours and points, or the place of refusal 13.
#[track_caller]
fn assert_points(counts: &[usize], answer: Result<(usize, usize), usize>) {
    let case = exact(&[layer(counts)], 0);
    let values = answer.map(|(contours, points)| (1, 7, contours, points));
    assert_answer(&case, values.map_err(|place| (13, place as u64)));
}

#[test]
fn layers_pass_up_to_the_limit() {
    assert_eq!(MAX_LAYERS, 4_096);
    for count in [4_095, 4_096] {
        let layers = empty_layers(count);
        for i in [0, 1, 2000, count - 1] {
            let answer = Ok((count, i as i32 - 2000, 0, 0));
            assert_answer(&exact(&layers, i), answer);
        }
        assert_answer(&exact(&layers, count), Err((15, 0)));
    }
    for count in [4_097, 4_098, 5_000] {
        assert_broken(&encode_layers(&empty_layers(count)), 0);
    }
}

#[test]
fn the_last_layer_may_be_missing_or_wrong() {
    let mut layers = empty_layers(4_096);
    let file = encode_layers(&layers);
    let length = file.len() as u64;
    assert_broken(&file[..file.len() - 1], length - 1);
    assert_broken(&[&file[..], &[0]].concat(), length);
    layers[4_095].height = layers[4_094].height;
    // The last height takes two bytes, and the contour count after it one.
    assert_broken(&encode_layers(&layers), length - 3);
}

#[test]
fn points_of_one_contour_pass_up_to_the_limit() {
    assert_eq!(MAX_POINTS, 98_304);
    assert_points(&[98_303], Ok((1, 98_303)));
    assert_points(&[98_304], Ok((1, 98_304)));
    assert_points(&[98_305], Err(3));
    assert_points(&[100_000], Err(3));
}

#[test]
fn points_of_several_contours_pass_up_to_the_limit() {
    assert_points(&[98_302, 2], Ok((2, 98_304)));
    assert_points(&[2, 98_302], Ok((2, 98_304)));
    assert_points(&[32_768; 3], Ok((3, 98_304)));
    assert_points(&[2; 49_152], Ok((49_152, 98_304)));

    let place = |counts: &[usize]| encode_layers(&[layer(counts)]).len();
    assert_points(&[98_302, 3], Err(place(&[98_302])));
    assert_points(&[98_303, 2], Err(place(&[98_303])));
    assert_points(&[98_304, 2], Err(place(&[98_304])));
    assert_points(&[3, 98_302], Err(place(&[3])));
    assert_points(&[50_000, 40_000, 10_000], Err(place(&[50_000, 40_000])));
    // Both contour counts take three bytes.
    assert_points(&[2; 49_153], Err(place(&[2; 49_152])));
}

#[test]
fn a_point_count_may_not_wrap_the_sum() {
    // Two points, and then so many that the sum has 2 or 3 in its lowest 32 bits.
    for count in [u32::MAX, u32::MAX - 1, u32::MAX - 98_301] {
        let mut file = vec![1, 0, 2, 2, 0, 0, 0, 0];
        file.extend(encode_plain(count.into()));
        assert_broken(&file, 8);
        file.extend([0; 8]);
        assert_broken(&file, 8);
    }
}

#[test]
fn the_limit_is_on_each_layer() {
    let layers: Vec<FileLayer> = (0..3)
        .map(|k| FileLayer {
            height: 10 * k,
            ..layer(&[98_304 - 500, 500])
        })
        .collect();
    for i in 0..3 {
        let answer = Ok((3, 10 * i as i32, 2, 98_304));
        assert_answer(&exact(&layers, i), answer);
    }
}

#[test]
fn tables_one_too_short_for_the_largest_layer_are_refused() {
    for counts in [&[98_304][..], &[2; 49_152]] {
        let input = LayerFile::of(&[layer(counts)], 0);
        let (points, ends) = (196_608, counts.len());
        assert_eq!(ReadLayer::lengths(&input), [points, ends]);
        let lent = |lengths| Case::<ReadLayer>::lent(input.clone(), lengths);
        for lengths in [[points - 1, ends], [points, ends - 1], [points - 2, ends]] {
            assert_answer(&lent(lengths), Err((9, 0)));
        }
        let answer = Ok((1, 7, counts.len(), 98_304));
        assert_answer(&lent([points + 9, ends + 5]), answer);
    }
}

#[test]
fn the_last_point_of_the_largest_layer_is_tested() {
    let mut largest = layer(&[98_304]);
    largest.contours[0][98_303] = [0, 0];
    let right = encode_layers(&[largest.clone()]);
    let case = exact(std::slice::from_ref(&largest), 0);
    assert_answer(&case, Ok((1, 7, 1, 98_304)));
    for axis in 0..2 {
        let mut wrong = largest.clone();
        wrong.contours[0][98_303][axis] = 1_048_577;
        let file = encode_layers(&[wrong]);
        let place = right.iter().zip(&file).position(|(a, b)| a != b).unwrap();
        assert_broken(&file, place as u64);
    }
    assert_broken(&right[..right.len() - 1], last_value(&right) as u64);
}

/// The place of a file's last value.
fn last_value(file: &[u8]) -> usize {
    files::values(file).last().unwrap().start
}
