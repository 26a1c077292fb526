//! Refusals: their numbers, their places and their order.

use super::{assert_leaves, assert_refused, layer, M};
use crate::harness::{
    agree, assert_answer, assert_earlier_wins, assert_least_named, assert_refusals, Case, Refused,
    Tables,
};
use crate::operations::{Clean, GivenLayer};

/// Three contours, of three points, of two and of four: eighteen numbers, of which one contour goes.
fn right() -> GivenLayer {
    layer(&["ABC", "DE", "FGHF"])
}

#[test]
fn ends_must_be_those_of_the_points() {
    for ends in [
        &[][..],
        &[3],
        &[3, 5],
        &[3, 5, 8],
        &[3, 5, 10],
        &[3, 5, u32::MAX],
        &[3, 5, 9 + (1 << 31)],
        &[3, 5, 9, 11],
        &[0, 9],
        &[1, 9],
        &[3, 4, 9],
        &[3, 5, 8, 9],
        &[8, 9],
        &[9, 9],
        &[3, 3, 9],
        &[3, 5, 9, 9],
        &[5, 3, 9],
        &[9, 5, 3],
        &[u32::MAX, 9],
        &[3, u32::MAX, 9],
        &[1 << 31, 9],
        &[3, 2, 4],
    ] {
        let ends = ends.to_vec();
        assert_refused(&GivenLayer { ends, ..right() }, 1, 0);
    }
}

#[test]
fn every_two_small_ends() {
    for first in 0..=7 {
        for second in 0..=7 {
            let same = GivenLayer::new(&[4; 10], &[first, second]);
            match (first >= 2, second >= first + 2, second == 5) {
                (true, true, true) => assert_leaves(same, &GivenLayer::new(&[], &[])),
                _ => assert_refused(&same, 1, 0),
            }
        }
    }
}

#[test]
fn odd_tables_of_points_are_refused() {
    for (length, ends) in [
        (1, &[][..]),
        (1, &[1]),
        (3, &[]),
        (3, &[2]),
        (5, &[2]),
        (5, &[3]),
        (17, &[3, 5, 8]),
        (19, &[3, 5, 9]),
        (196_607, &[98_303]),
        (196_609, &[98_304]),
    ] {
        assert_refused(&GivenLayer::new(&vec![0; length], ends), 1, 0);
    }
}

#[test]
fn one_point_is_no_contour() {
    for ends in [&[][..], &[0], &[1], &[2], &[0, 1]] {
        assert_refused(&GivenLayer::new(&[1, 2], ends), 1, 0);
    }
    for ends in [&[0][..], &[1], &[2], &[0, 0], &[u32::MAX]] {
        assert_refused(&GivenLayer::new(&[], ends), 1, 0);
    }
}

#[test]
fn numbers_out_of_range_are_refused_at_every_position() {
    for position in 0..18 {
        for value in [i32::MIN, -M - 1, M + 1, i32::MAX] {
            let mut far = right();
            far.points[position] = value;
            assert_refused(&far, 2, position as u64);
        }
    }
    // The least of several places is named, though the points there would be dropped.
    let mut far = right();
    for position in (0..18).rev() {
        far.points[position] = M + 1;
        assert_refused(&far, 2, position as u64);
    }
}

#[test]
fn tables_shorter_than_the_layers_own_are_refused() {
    // Nothing is left of the second layer, and of the third all.
    for layer in [right(), layer(&["AAAA", "BCBC"]), layer(&["ABC", "DEF"])] {
        let (points, ends) = (layer.points.len(), layer.ends.len());
        for points_length in 0..points + 3 {
            for ends_length in 0..ends + 3 {
                let lengths = [points_length, ends_length];
                let mut case = Case::<Clean>::lent(layer.clone(), lengths);
                let before = case.tables.clone();
                let answer = agree(&mut case);
                let is_short = points_length < points || ends_length < ends;
                assert_eq!(answer == Err((9, 0)), is_short, "{lengths:?}");
                assert!(!is_short || case.tables.difference(&before).is_none());
            }
        }
    }
    let empty = Case::<Clean>::lent(layer(&[]), [0, 0]);
    assert_answer(&empty, Ok((0, 0)));
}

/// Puts the fault of a refusal into a case, in one of four ways.
fn spoil(case: &mut Case<Clean>, number: u32, way: usize) {
    let GivenLayer { points, ends } = &mut case.input;
    match (number, way) {
        (1, 0) => points.push(0),
        (1, 1) => ends.clear(),
        (1, 2) => ends[0] = 1,
        (1, _) => *ends.last_mut().expect("it has ends") += 1,
        (2, 0) => points[7] = M + 1,
        (2, 1) => points[3] = -M - 1,
        (2, 2) => points[0] = i32::MIN,
        (2, _) => points[17] = i32::MAX,
        (9, 0) => case.tables.shorten(0, 17),
        (9, 1) => case.tables.shorten(1, 2),
        (9, 2) => case.tables.shorten(0, 0),
        (9, _) => case.tables.shorten(1, 0),
        _ => panic!("there is no refusal {number}"),
    }
}

const WAYS: usize = 4;

#[test]
fn the_earlier_refusal_wins() {
    assert_earlier_wins(|| Case::exact(right()), WAYS, spoil);
    assert_least_named(|| Case::exact(right()), &[(2, 3)], spoil);
}

#[test]
fn every_refusal_by_number_and_place() {
    let mut refused: Vec<Refused<Clean>> = Vec::new();
    for way in 0..WAYS {
        for (number, places) in [(1, [0; 4]), (2, [7, 3, 0, 17]), (9, [0; 4])] {
            let change = move |case: &mut Case<Clean>| spoil(case, number, way);
            refused.push((Box::new(change), number, places[way]));
        }
    }
    assert_refusals(|| Case::exact(right()), &refused);
}
