//! Counts at their limits.

use super::{assert_refused, exact};
use crate::harness::assert_answer;
use oracle::{encode_layers, FileLayer};

const MOST: usize = 98_304;

/// So many points, no two of them equal.
fn different(count: usize) -> Vec<[i32; 2]> {
    (0..count as i32).map(|k| [k - 50_000, k % 7]).collect()
}

fn file(contours: Vec<Vec<[i32; 2]>>) -> Vec<u8> {
    encode_layers(&[FileLayer {
        height: 7,
        contours,
    }])
}

#[test]
fn the_longest_contour_is_read_and_its_last_points_are_compared() {
    let clean = different(MOST);
    let right = file(vec![clean.clone()]);
    assert_answer(&exact(&right, 0), Ok((1, 7, 1, MOST)));
    for place in [1, MOST / 2, MOST - 1] {
        let mut repeated = clean.clone();
        repeated[place] = repeated[place - 1];
        assert_refused(&file(vec![repeated]), 18, 3);
    }
    let mut closed = clean;
    closed[MOST - 1] = closed[0];
    assert_refused(&file(vec![closed]), 18, 3);
}

#[test]
fn two_points_in_turn_are_refused_until_a_third_comes() {
    let in_turn: Vec<[i32; 2]> = (0..MOST as i32).map(|k| [k % 2, 0]).collect();
    assert_refused(&file(vec![in_turn.clone()]), 18, 3);
    for place in [2, MOST / 2, MOST - 1] {
        let mut third = in_turn.clone();
        third[place] = [9, 9];
        assert_answer(&exact(&file(vec![third]), 0), Ok((1, 7, 1, MOST)));
    }
}

#[test]
fn the_last_of_the_most_contours_is_tested() {
    let triangles = vec![different(3); MOST / 3];
    let right = file(triangles.clone());
    assert_answer(&exact(&right, 0), Ok((1, 7, MOST / 3, MOST)));
    let mut last = triangles;
    let place = file(last[1..].to_vec()).len();
    last[MOST / 3 - 1] = vec![[4, 4]; 3];
    assert_refused(&file(last), 18, place as u64);
    assert_refused(&file(vec![vec![[4, 4]; 2]; MOST / 2]), 18, 5);
}

#[test]
fn the_last_of_the_most_layers_is_tested() {
    let mut layers: Vec<FileLayer> = (0..4_096)
        .map(|height| FileLayer {
            height,
            contours: vec![different(3)],
        })
        .collect();
    let right = encode_layers(&layers);
    for i in [0, 4_095] {
        assert_answer(&exact(&right, i), Ok((4_096, i as i32, 1, 3)));
    }
    let before = encode_layers(&layers[..4_095]).len() as u64;
    layers[4_095].contours[0] = vec![[1, 2]; 5];
    // The last height takes two bytes, and the contour count one.
    assert_refused(&encode_layers(&layers), 18, before + 3);
}
