//! Refusals one by one, with their places, and in their order.

use super::{assert_answers, assert_refused, three_contours, M};
use crate::harness::{assert_earlier_wins, assert_least_named, assert_refusals, Case, Refused};
use crate::operations::{Drawing, Preview, PreviewRun};

/// Ends that are not those of nine points.
fn wrong_ends() -> Vec<Vec<u32>> {
    vec![
        // None, though there are points; and the last too small, or too large.
        vec![],
        vec![0],
        vec![8],
        vec![10],
        vec![3, 5, 8],
        vec![3, 5, 10],
        vec![3, 5, 7],
        vec![3, 5, u32::MAX],
        vec![3, 5, 9 + (1 << 31)],
        // One more than there is.
        vec![3, 5, 9, 11],
        vec![9, 11],
        // The first by one, or by none.
        vec![1, 9],
        vec![0, 9],
        vec![1],
        // Later ones by one, by none, and falling.
        vec![3, 4, 9],
        vec![3, 5, 8, 9],
        vec![8, 9],
        vec![3, 3, 9],
        vec![9, 9],
        vec![3, 5, 9, 9],
        vec![5, 3, 9],
        vec![5, 0, 9],
        vec![3, 11, 9],
        vec![u32::MAX, 9],
        vec![3, u32::MAX, 9],
        vec![1 << 31, 9],
        vec![9, 5, 3],
        // Counts instead of ends.
        vec![3, 2, 4],
        vec![2; 5],
    ]
}

fn with_ends(ends: Vec<u32>) -> Drawing {
    Drawing {
        ends,
        ..three_contours([5.0, 6.0])
    }
}

#[test]
fn ends_must_be_those_of_the_points() {
    for ends in wrong_ends() {
        assert_refused(&with_ends(ends), 1, 0);
    }
}

#[test]
fn all_ends_that_are_those_of_the_points_pass() {
    for ends in [
        &[9][..],
        &[2, 9],
        &[7, 9],
        &[3, 5, 9],
        &[2, 4, 9],
        &[2, 4, 6, 9],
        &[2, 4, 7, 9],
        &[2, 5, 7, 9],
        &[3, 5, 7, 9],
    ] {
        assert_answers(&with_ends(ends.to_vec()), 0, 9 + ends.len());
    }
}

#[test]
fn every_two_small_ends() {
    for first in 0..=7 {
        for second in 0..=7 {
            let drawing = Drawing::new(&[4; 10], &[first, second], [0.0; 2]);
            match (first >= 2, second >= first + 2, second == 5) {
                (true, true, true) => assert_answers(&drawing, 0, 7),
                _ => assert_refused(&drawing, 1, 0),
            }
        }
    }
}

#[test]
fn odd_tables_of_points_are_refused() {
    for (length, ends) in [
        (1, &[][..]),
        (1, &[1]),
        (3, &[]),
        (3, &[2]),
        (5, &[2]),
        (5, &[3]),
        (17, &[3, 5, 8]),
        (19, &[3, 5, 9]),
        (196_607, &[98_303]),
        (196_607, &[98_304]),
        (196_609, &[98_304]),
    ] {
        let drawing = Drawing::new(&vec![0; length], ends, [0.0; 2]);
        assert_refused(&drawing, 1, 0);
    }
}

#[test]
fn one_point_is_no_contour() {
    for ends in [&[][..], &[0], &[1], &[2], &[0, 1]] {
        assert_refused(&Drawing::new(&[1, 2], ends, [0.0; 2]), 1, 0);
    }
    for ends in [&[0][..], &[1], &[2], &[0, 0], &[u32::MAX]] {
        assert_refused(&Drawing::new(&[], ends, [0.0; 2]), 1, 0);
    }
}

#[test]
fn numbers_out_of_range_are_refused_at_every_position() {
    for position in 0..18 {
        for value in [i32::MIN, -M - 1, M + 1, i32::MAX] {
            let mut drawing = three_contours([5.0, 6.0]);
            drawing.points[position] = value;
            assert_refused(&drawing, 2, position as u64);
        }
        for value in [-M, M] {
            let mut drawing = three_contours([5.0, 6.0]);
            drawing.points[position] = value;
            assert_answers(&drawing, 0, 12);
        }
    }
}

#[test]
fn the_least_of_several_places_is_named() {
    let mut drawing = three_contours([0.0; 2]);
    for position in (4..18).rev() {
        drawing.points[position] = if position % 3 == 0 { M + 1 } else { i32::MIN };
        assert_refused(&drawing, 2, position as u64);
    }
}

/// Puts the fault of a refusal into a layer, in one of four ways.
fn spoil(drawing: &mut Drawing, number: u32, way: usize) {
    match (number, way) {
        (17, 0) => drawing.origin[0] = 0.5f32.to_bits(),
        (17, 1) => drawing.origin[1] = f32::NAN.to_bits(),
        (17, 2) => drawing.origin = [f32::NEG_INFINITY.to_bits(); 2],
        (17, _) => drawing.origin[1] = (M as f32 + 1.0).to_bits(),
        (1, 0) => drawing.points.push(0),
        (1, 1) => drawing.ends.clear(),
        (1, 2) => drawing.ends[0] = 1,
        (1, _) => *drawing.ends.last_mut().expect("it has ends") += 1,
        (2, 0) => drawing.points[7] = M + 1,
        (2, 1) => drawing.points[3] = -M - 1,
        (2, 2) => drawing.points[0] = i32::MIN,
        (2, _) => drawing.points[17] = i32::MAX,
        _ => panic!("there is no refusal {number}"),
    }
}

const WAYS: usize = 4;

#[test]
fn the_earlier_refusal_wins() {
    let right = || three_contours([5.0, 6.0]);
    assert_earlier_wins::<Preview>(
        || Case::exact(right()),
        WAYS,
        |case, number, way| spoil(&mut case.input, number, way),
    );
    assert_earlier_wins::<PreviewRun>(
        || Case::exact(right()),
        WAYS,
        |case, number, way| spoil(&mut case.input, number, way),
    );
    assert_least_named::<PreviewRun>(
        || Case::exact(right()),
        &[(2, 3)],
        |case, number, way| spoil(&mut case.input, number, way),
    );
}

#[test]
fn three_faults_at_once() {
    for way in 0..WAYS {
        let mut drawing = three_contours([5.0, 6.0]);
        for number in [2, 1, 17] {
            spoil(&mut drawing, number, way);
        }
        assert_refused(&drawing, 17, 0);
    }
}

/// Changes of a right layer with the refusals that they bring about.
fn refused<O>() -> Vec<Refused<O>>
where
    O: crate::harness::Operation<Input = Drawing>,
{
    let mut refused: Vec<Refused<O>> = Vec::new();
    for way in 0..WAYS {
        for (number, places) in [(17, [0; 4]), (1, [0; 4]), (2, [7, 3, 0, 17])] {
            let change = move |case: &mut Case<O>| spoil(&mut case.input, number, way);
            refused.push((Box::new(change), number, places[way]));
        }
    }
    refused
}

#[test]
fn every_refusal_by_number_and_place() {
    let right = || three_contours([5.0, 6.0]);
    assert_refusals::<Preview>(|| Case::exact(right()), &refused());
    assert_refusals::<PreviewRun>(|| Case::exact(right()), &refused());
    // Tables without an entry are no reason to refuse, nor to answer before the tests.
    assert_refusals::<PreviewRun>(|| Case::lent(right(), [0, 0]), &refused());
}
