//! Refusals: their numbers, their places and their order.

use super::{assert_nested, assert_refused, rectangle, spot, square, Contour, M, NONE};
use crate::harness::{
    agree, assert_answer, assert_earlier_wins, assert_least_named, assert_refusals, Case, Refused,
    Tables,
};
use crate::operations::{GivenLayer, Nesting};

/// Three contours, of four points, of two and of three: eighteen numbers.
fn contours() -> Vec<Contour> {
    vec![
        square(0, 0, 9),
        spot([3, 3]),
        rectangle(1, 1, 5, 5)[..3].to_vec(),
    ]
}

fn right() -> GivenLayer {
    GivenLayer::of(&contours())
}

#[test]
fn the_layer_itself_is_right() {
    assert_eq!(right().points.len(), 18);
    assert_eq!(right().ends, [4, 6, 9]);
    assert_nested(&contours(), &[(0, NONE), (2, 2), (1, 0)]);
}

#[test]
fn ends_must_be_those_of_the_points() {
    for ends in [
        &[][..],
        &[4],
        &[4, 6],
        &[4, 6, 8],
        &[4, 6, 10],
        &[4, 6, u32::MAX],
        &[4, 6, 9 + (1 << 31)],
        &[4, 6, 9, 11],
        &[0, 9],
        &[1, 9],
        &[4, 5, 9],
        &[4, 6, 8, 9],
        &[8, 9],
        &[9, 9],
        &[4, 4, 9],
        &[4, 6, 9, 9],
        &[6, 4, 9],
        &[9, 6, 4],
        &[u32::MAX, 9],
        &[4, u32::MAX, 9],
        &[1 << 31, 9],
        &[4, 3, 5],
    ] {
        let ends = ends.to_vec();
        assert_refused(&GivenLayer { ends, ..right() }, 1, 0);
    }
}

#[test]
fn every_two_small_ends() {
    for first in 0..=7 {
        for second in 0..=7 {
            let same = GivenLayer::new(&[4; 10], &[first, second]);
            match (first >= 2, second >= first + 2, second == 5) {
                (true, true, true) => assert_answer(&Case::<Nesting>::exact(same), Ok(())),
                _ => assert_refused(&same, 1, 0),
            }
        }
    }
}

#[test]
fn odd_tables_of_points_are_refused() {
    for (length, ends) in [
        (1, &[][..]),
        (1, &[1]),
        (3, &[]),
        (3, &[2]),
        (5, &[2]),
        (5, &[3]),
        (17, &[4, 6, 8]),
        (19, &[4, 6, 9]),
        (196_607, &[98_303]),
        (196_609, &[98_304]),
    ] {
        assert_refused(&GivenLayer::new(&vec![0; length], ends), 1, 0);
    }
}

#[test]
fn one_point_is_no_contour() {
    for ends in [&[][..], &[0], &[1], &[2], &[0, 1]] {
        assert_refused(&GivenLayer::new(&[1, 2], ends), 1, 0);
    }
    for ends in [&[0][..], &[1], &[2], &[0, 0], &[u32::MAX]] {
        assert_refused(&GivenLayer::new(&[], ends), 1, 0);
    }
}

#[test]
fn numbers_out_of_range_are_refused_at_every_position() {
    for position in 0..18 {
        for value in [i32::MIN, -M - 1, M + 1, i32::MAX] {
            let mut far = right();
            far.points[position] = value;
            assert_refused(&far, 2, position as u64);
        }
    }
    // The least of several places is named.
    let mut far = right();
    for position in (0..18).rev() {
        far.points[position] = M + 1;
        assert_refused(&far, 2, position as u64);
    }
}

#[test]
fn tables_of_fewer_entries_than_contours_are_refused() {
    for depths_length in 0..=5 {
        for parents_length in 0..=5 {
            let lengths = [depths_length, parents_length];
            let mut case = Case::<Nesting>::lent(right(), lengths);
            let before = case.tables.clone();
            let answer = agree(&mut case);
            let is_short = depths_length < 3 || parents_length < 3;
            let expected = if is_short { Err((9, 0)) } else { Ok(()) };
            assert_eq!(answer, expected, "{lengths:?}");
            let is_left = case.tables.difference(&before).is_none();
            assert_eq!(is_left, is_short, "{lengths:?}");
        }
    }
    let empty = Case::<Nesting>::lent(GivenLayer::new(&[], &[]), [0, 0]);
    assert_answer(&empty, Ok(()));
}

/// Puts the fault of a refusal into a case, in one of four ways.
fn spoil(case: &mut Case<Nesting>, number: u32, way: usize) {
    let GivenLayer { points, ends } = &mut case.input;
    match (number, way) {
        (1, 0) => points.push(0),
        (1, 1) => ends.clear(),
        (1, 2) => ends[0] = 1,
        (1, _) => *ends.last_mut().expect("it has ends") += 1,
        (2, 0) => points[7] = M + 1,
        (2, 1) => points[3] = -M - 1,
        (2, 2) => points[0] = i32::MIN,
        (2, _) => points[17] = i32::MAX,
        (9, 0) => case.tables.shorten(0, 2),
        (9, 1) => case.tables.shorten(1, 2),
        (9, 2) => case.tables.shorten(0, 0),
        (9, _) => case.tables.shorten(1, 0),
        _ => panic!("there is no refusal {number}"),
    }
}

const WAYS: usize = 4;

#[test]
fn the_earlier_refusal_wins() {
    assert_earlier_wins(|| Case::exact(right()), WAYS, spoil);
    assert_least_named(|| Case::exact(right()), &[(2, 3)], spoil);
}

#[test]
fn every_refusal_by_number_and_place() {
    let mut refused: Vec<Refused<Nesting>> = Vec::new();
    for way in 0..WAYS {
        for (number, places) in [(1, [0; 4]), (2, [7, 3, 0, 17]), (9, [0; 4])] {
            let change = move |case: &mut Case<Nesting>| spoil(case, number, way);
            refused.push((Box::new(change), number, places[way]));
        }
    }
    assert_refusals(|| Case::exact(right()), &refused);
}
