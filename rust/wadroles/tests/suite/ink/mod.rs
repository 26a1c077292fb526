//! Ink: charges worked by hand, rounding, limits, refusals, promises, and random files.

mod every_small;
mod faults;
mod limits;
mod promises;
mod random;
mod refusals;
mod rounding;
mod worked;

pub use random::random_thickness;

use crate::harness::{assert_answer, Answer, Case};
use crate::operations::{Ink, Job};
use oracle::FileLayer;

/// The farthest a coordinate may be from zero.
const M: i32 = 1_048_576;

/// A nanolitre in cubic micrometres, doubled as areas are.
const DOUBLED_NANOLITRE: i64 = 2_000_000;

/// Thicknesses that are refused. Some have a right one in their lowest bits.
const WRONG: [u32; 11] = [
    0,
    1_001,
    1_002,
    1_024,
    65_535,
    65_536,
    65_537,
    66_536,
    1 << 31,
    (1 << 31) + 1,
    u32::MAX,
];

/// A layer of each of these lists of contours, at rising heights.
fn layers(contours: &[&[Vec<[i32; 2]>]]) -> Vec<FileLayer> {
    (-1..)
        .zip(contours)
        .map(|(height, contours)| FileLayer {
            height,
            contours: contours.to_vec(),
        })
        .collect()
}

/// Layers of which each has this sum of doubled areas.
fn layers_of(sums: &[i64]) -> Vec<FileLayer> {
    let contours: Vec<_> = sums.iter().map(|&sum| contours_of(sum)).collect();
    let contours: Vec<_> = contours.iter().map(Vec::as_slice).collect();
    layers(&contours)
}

/// Contours whose doubled areas add up to this, up to 2^57 on either side of zero: one round the square
/// of all coordinates, and triangles.
fn contours_of(sum: i64) -> Vec<Vec<[i32; 2]>> {
    const SIDE: u64 = 2 * M as u64;
    const TURN: u64 = 2 * SIDE * SIDE;
    let mut left = sum.unsigned_abs();
    let mut contours = Vec::new();
    if left >= TURN {
        contours.push(round_the_square((4 * (left / TURN)) as usize));
        left %= TURN;
    }
    while left > 0 {
        let width = left.min(SIDE);
        let height = (left / width).min(SIDE);
        left -= width * height;
        let [right, top] = [width, height].map(|length| length as i32 - M);
        contours.push(vec![[-M, -M], [right, -M], [-M, top]]);
    }
    if sum < 0 {
        contours.iter_mut().for_each(|contour| contour.reverse());
    }
    contours
}

/// The least sum of doubled areas above zero that is charged exactly.
fn least_exact(thickness: u32) -> i64 {
    let mut step = DOUBLED_NANOLITRE;
    for prime in [2, 5] {
        let mut left = i64::from(thickness);
        while left > 0 && left % prime == 0 && step % prime == 0 {
            left /= prime;
            step /= prime;
        }
    }
    step
}

/// A contour of so many points round the square of all coordinates, counterclockwise: each point adds
/// 2^41 to the doubled area if they are a multiple of four.
fn round_the_square(points: usize) -> Vec<[i32; 2]> {
    let square = [[M, M], [-M, M], [-M, -M], [M, -M]];
    square.into_iter().cycle().take(points).collect()
}

/// The same contour the other way round.
fn turned(contour: &[[i32; 2]]) -> Vec<[i32; 2]> {
    contour.iter().rev().copied().collect()
}

#[track_caller]
fn assert_ink(file: &[u8], thickness: u32, answer: Answer<u64>) {
    assert_answer(&Case::<Ink>::exact(Job::new(file, thickness)), answer);
}

#[track_caller]
fn assert_charge(layers: &[FileLayer], thickness: u32, charge: u64) {
    assert_answer(&Case::<Ink>::exact(Job::of(layers, thickness)), Ok(charge));
}

#[test]
fn contours_have_the_areas_asked_for() {
    let area = |contour: &Vec<[i32; 2]>| wadroles::area(contour.as_flattened()).unwrap();
    for bits in 0..=57 {
        for sum in [(1 << bits) - 1, 1 << bits, 1 - (1 << bits), -(1 << bits)] {
            let contours = contours_of(sum);
            assert_eq!(contours.iter().map(area).sum::<i64>(), sum);
            assert!(contours.concat().len() <= wadroles::MAX_POINTS);
        }
    }
    for points in [4, 8_400, 98_304] {
        let round = round_the_square(points);
        assert_eq!(area(&round), points as i64 * (1 << 41));
        assert_eq!(area(&turned(&round)), -area(&round));
    }
    for (thickness, step) in [
        (1, 2_000_000),
        (3, 2_000_000),
        (1_000, 2_000),
        (128, 15_625),
    ] {
        assert_eq!(least_exact(thickness), step);
    }
}
