//! Every contour of a few points, and every pair of small ones.

use super::cleaned;
use crate::harness::{agree, Case};
use crate::inputs::sequences;
use crate::operations::{Clean, GivenLayer};
use oracle::is_clean;

/// Points of which some share x and some y.
const POINTS: [[i32; 2]; 4] = [[0, 0], [0, 1], [1, 0], [1, 1]];

/// All contours of so many points, each of the first so many.
fn all(different: usize, length: u32) -> impl Iterator<Item = Vec<[i32; 2]>> {
    let numbers: Vec<u8> = (0..different as u8).collect();
    let sequences: Vec<Vec<u8>> = sequences(&numbers, length).collect();
    sequences.into_iter().map(|sequence| {
        let points = sequence.iter().map(|&number| POINTS[usize::from(number)]);
        points.collect()
    })
}

#[track_caller]
fn agree_on(contours: &[Vec<[i32; 2]>]) -> (usize, usize) {
    agree(&mut Case::<Clean>::exact(GivenLayer::of(contours))).unwrap()
}

#[test]
fn every_small_contour() {
    for length in 2..=6 {
        let (mut clean, mut gone) = (0, 0);
        for contour in all(4, length) {
            let counts = agree_on(std::slice::from_ref(&contour));
            let stays = counts == (1, contour.len());
            assert_eq!(stays, is_clean(&contour), "{contour:?}");
            clean += usize::from(stays);
            gone += usize::from(counts == (0, 0));
        }
        // Of two different points in turn, and one of them again and again.
        let two: usize = 6 * ((1 << length) - 2);
        assert_eq!(gone, two + 4, "{length}");
        // Colourings of a ring in four colours, but for those in two.
        let ring = 3i32.pow(length) + if length % 2 == 0 { 3 } else { -3 };
        let in_two = if length % 2 == 0 { 12 } else { 0 };
        assert_eq!(clean as i32, ring - in_two, "{length}");
    }
}

#[test]
fn every_pair_of_smaller_contours() {
    for (first, second) in [(2, 2), (2, 4), (4, 2), (3, 3), (3, 4), (4, 3)] {
        for contour in all(3, first) {
            for other in all(3, second) {
                let each = [&contour, &other].map(|c| cleaned(std::slice::from_ref(c)));
                let both = cleaned(&[contour.clone(), other.clone()]);
                assert_eq!(both, each.concat());
                let points = both.iter().map(Vec::len).sum();
                assert_eq!(agree_on(&[contour.clone(), other]), (both.len(), points));
            }
        }
    }
}
