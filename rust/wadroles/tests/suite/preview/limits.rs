//! As many points as a layer may have, and more.

use super::{agree_on_run, assert_answers, assert_refused, M};
use crate::operations::Drawing;
use meshes::Random;
use wadroles::MAX_POINTS;

/// So many points, in contours of so many each, the last with what is left.
fn contours_of(points: usize, each: usize) -> Drawing {
    let mut random = Random::new(1);
    let numbers: Vec<i32> = (0..2 * points).map(|_| random.within(-M..=M)).collect();
    let mut ends: Vec<u32> = (1..points / each).map(|j| (j * each) as u32).collect();
    ends.push(points as u32);
    Drawing::new(&numbers, &ends, [M as f32, -M as f32])
}

#[test]
fn points_pass_up_to_the_limit() {
    assert_eq!(MAX_POINTS, 98_304);
    for (points, each, contours) in [
        (98_303, 98_303, 1),
        (98_304, 98_304, 1),
        (98_304, 2, 49_152),
        (98_304, 3, 32_768),
        (98_304, 1_000, 98),
        (98_304, 49_152, 2),
    ] {
        let drawing = contours_of(points, each);
        assert_eq!(drawing.ends.len(), contours);
        let calls = points + contours;
        assert_answers(&drawing, 0, calls);
        assert_answers(&drawing.clone().from(calls - 2), 1, 2);
        assert_answers(&drawing.clone().from(calls - 1), 2, 1);
        assert_answers(&drawing.from(calls), 3, 0);
    }
    for points in [98_305, 98_306, 131_072, 200_000] {
        assert_refused(&contours_of(points, points), 1, 0);
        assert_refused(&contours_of(points, 2), 1, 0);
        assert_refused(&contours_of(points, 32_768), 1, 0);
    }
}

#[test]
fn the_last_places_of_the_longest_layer_are_tested() {
    for each in [2, 98_304] {
        for position in [0, 1, 98_304, 196_606, 196_607] {
            let mut drawing = contours_of(98_304, each);
            drawing.points[position] = -M - 1;
            assert_refused(&drawing, 2, position as u64);
        }
    }
}

#[test]
fn the_last_ends_of_the_longest_layer_are_tested() {
    let right = contours_of(98_304, 2);
    for end in [0, 1, 24_576, 49_150, 49_151] {
        for change in [u32::MAX, 1] {
            let mut drawing = right.clone();
            drawing.ends[end] = drawing.ends[end].wrapping_add(change);
            assert_refused(&drawing, 1, 0);
        }
    }
}

#[test]
fn more_ends_than_points_are_refused() {
    let rising: Vec<u32> = (1..=100_000).map(|j| 2 * j).collect();
    assert_refused(&Drawing::new(&[0; 4], &rising, [0.0; 2]), 1, 0);
    assert_refused(&Drawing::new(&[0; 200_000], &rising, [0.0; 2]), 1, 0);
    assert_refused(&Drawing::new(&[], &rising, [0.0; 2]), 1, 0);
}

#[test]
fn runs_from_every_part_of_the_longest_layer() {
    for each in [2, 7, 98_304] {
        let drawing = contours_of(98_304, each);
        for part in 0..=8 {
            let number = drawing.calls() * part / 8;
            let answer = agree_on_run(&drawing.clone().from(number));
            assert_eq!(answer, Ok(drawing.calls() - number));
        }
    }
}
