//! As many points as a layer may have, and more.

use super::{assert_leaves, assert_refused, M};
use crate::operations::GivenLayer;
use wadroles::MAX_POINTS;

const MOST: usize = 98_304;

/// So many points, no two of them equal.
fn different(count: usize) -> Vec<[i32; 2]> {
    (0..count as i32).map(|k| [M - k, k % 7 - M]).collect()
}

/// So many points of two in turn.
fn in_turn(count: usize) -> Vec<[i32; 2]> {
    let both = [[1, 2], [2, 1]].into_iter().cycle();
    both.take(count).collect()
}

#[track_caller]
fn assert_left(contours: &[Vec<[i32; 2]>], left: &[Vec<[i32; 2]>]) {
    assert_leaves(GivenLayer::of(contours), &GivenLayer::of(left));
}

#[test]
fn one_contour_of_as_many_points_as_there_may_be() {
    assert_eq!(MAX_POINTS, MOST);
    let clean = [different(MOST)];
    assert_left(&clean, &clean);
    assert_left(&[vec![[7, -7]; MOST]], &[]);
    assert_left(&[in_turn(MOST)], &[]);
    assert_left(&[in_turn(MOST - 1)], &[]);
    let half = different(MOST / 2);
    let twice = half.iter().flat_map(|&point| [point; 2]).collect();
    assert_left(&[twice], &[half]);
}

#[test]
fn a_third_point_anywhere_keeps_the_longest_contour() {
    for place in [1, 2, 3, 1_000, MOST / 2, MOST - 2, MOST - 1] {
        let mut contour = in_turn(MOST);
        contour[place] = [5, 5];
        assert_left(&[contour.clone()], &[contour]);
    }
}

#[test]
fn a_long_tail_equal_to_the_first_goes() {
    for head in [3, 100, MOST - 1] {
        let kept = different(head);
        let mut contour = kept.clone();
        contour.resize(MOST, kept[0]);
        assert_left(&[contour], &[kept]);
    }
}

#[test]
fn as_many_contours_as_there_may_be() {
    assert_left(&vec![in_turn(2); MOST / 2], &[]);
    let triangles = vec![different(3); MOST / 3];
    assert_left(&triangles, &triangles);
    let mut mixed = vec![in_turn(2); MOST / 4];
    mixed.extend(vec![different(4); MOST / 8]);
    assert_left(&mixed, &vec![different(4); MOST / 8]);
}

#[test]
fn more_points_are_refused() {
    for count in [MOST + 1, MOST + 2, 131_072, 200_000] {
        for contour in [vec![[0, 0]; count], different(count)] {
            assert_refused(&GivenLayer::of(&[contour]), 1, 0);
        }
    }
    let pairs = vec![in_turn(2); MOST / 2 + 1];
    assert_refused(&GivenLayer::of(&pairs), 1, 0);
    let rising: Vec<u32> = (1..=100_000).map(|j| 2 * j).collect();
    assert_refused(&GivenLayer::new(&[0; 4], &rising), 1, 0);
    assert_refused(&GivenLayer::new(&[], &rising), 1, 0);
}

#[test]
fn the_last_places_of_the_longest_layer_are_tested() {
    for contours in [vec![different(MOST)], vec![in_turn(2); MOST / 2]] {
        for position in [0, 1, 98_304, 196_606, 196_607] {
            let mut layer = GivenLayer::of(&contours);
            layer.points[position] = -M - 1;
            assert_refused(&layer, 2, position as u64);
        }
    }
}
