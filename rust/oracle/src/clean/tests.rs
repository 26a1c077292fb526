use super::*;
use meshes::Random;

const JUNK: i32 = 77;
const FAR: i32 = 1_048_577;

const A: [i32; 2] = [5, 0];
const B: [i32; 2] = [0, 5];
const C: [i32; 2] = [0, 0];
const D: [i32; 2] = [5, 5];

/// What is left of a contour, none where it goes whole.
fn left(contour: &[[i32; 2]]) -> Option<Vec<[i32; 2]>> {
    let layer = FileLayer {
        height: 7,
        contours: vec![contour.to_vec()],
    };
    let cleaned = clean_layer(&layer);
    assert_eq!(cleaned.height, 7);
    cleaned.contours.into_iter().next()
}

#[track_caller]
fn assert_left(contour: &[[i32; 2]], expected: &[[i32; 2]]) {
    assert_eq!(left(contour).as_deref(), Some(expected));
    assert_eq!(is_clean(contour), contour == expected);
    assert!(is_clean(expected));
}

#[test]
fn clean_contours_stay() {
    assert_left(&[A, B, C], &[A, B, C]);
    assert_left(&[A, B, C, D], &[A, B, C, D]);
    assert_left(&[A, B, A, C], &[A, B, A, C]);
    assert_left(&[A, B, C, B], &[A, B, C, B]);
    assert_left(&[A, B, A, B, A, C], &[A, B, A, B, A, C]);
}

#[test]
fn points_equal_to_the_one_before_are_dropped() {
    assert_left(&[A, A, B, C], &[A, B, C]);
    assert_left(&[A, B, B, C], &[A, B, C]);
    assert_left(&[A, B, C, C], &[A, B, C]);
    assert_left(&[A, A, A, B, B, C, C, C, B, B], &[A, B, C, B]);
}

#[test]
fn points_at_the_end_equal_to_the_first_are_dropped() {
    assert_left(&[A, B, C, A], &[A, B, C]);
    assert_left(&[A, B, C, A, A, A], &[A, B, C]);
    assert_left(&[A, A, B, C, C, A, A], &[A, B, C]);
    assert_left(&[A, B, A, C, A], &[A, B, A, C]);
}

#[test]
fn contours_of_fewer_than_three_different_points_go() {
    for contour in [
        &[][..],
        &[A],
        &[A; 2],
        &[A; 9],
        &[A, B],
        &[A, B, A],
        &[A, B, A, B],
        &[A, A, B, B, A, A, B],
        &[A, B, B, B],
    ] {
        assert_eq!(left(contour), None, "{contour:?}");
        assert!(!is_clean(contour), "{contour:?}");
    }
}

/// The answer for tables of the given lengths, filled with junk, and what it leaves in them.
fn cleaned(
    points: &[i32],
    ends: &[u32],
    lengths: [usize; 2],
) -> (Result<Layer, Refusal>, Vec<i32>, Vec<u32>) {
    let mut clean_points = vec![JUNK; lengths[0]];
    let mut clean_ends = vec![JUNK as u32; lengths[1]];
    let answer = clean(points, ends, &mut clean_points, &mut clean_ends);
    (answer, clean_points, clean_ends)
}

#[test]
fn a_layer_fills_the_first_entries() {
    let contours = [[A, A, B, C], [D, D, A, A], [B, C, D, B]];
    let points = contours.concat().concat();
    let (answer, points, ends) = cleaned(&points, &[4, 8, 12], [25, 4]);
    let counts = Layer {
        contours: 2,
        points: 6,
    };
    assert_eq!(answer, Ok(counts));
    assert_eq!(points[..12], [A, B, C, B, C, D].concat());
    assert_eq!(points[12..], [JUNK; 13]);
    assert_eq!(ends, [3, 6, 77, 77]);
}

#[test]
fn a_layer_may_be_empty_and_may_go_whole() {
    let none = Layer {
        contours: 0,
        points: 0,
    };
    assert_eq!(cleaned(&[], &[], [0, 0]).0, Ok(none));
    let (answer, points, ends) = cleaned(&[3; 8], &[2, 4], [8, 2]);
    assert_eq!(answer, Ok(none));
    assert_eq!((points, ends), (vec![JUNK; 8], vec![77; 2]));
}

#[test]
fn refusals_stand_in_order_and_leave_the_tables() {
    for (points, ends, lengths, refusal) in [
        (&[FAR][..], &[][..], [0, 0], (1, 0)),
        (&[0, 0, 0, FAR], &[1], [0, 0], (1, 0)),
        (&[0, 0, 0, FAR], &[2], [0, 0], (2, 3)),
        (&[0, -FAR, 0, FAR], &[2], [4, 1], (2, 1)),
        (&[0; 4], &[2], [3, 1], (9, 0)),
        (&[0; 4], &[2], [4, 0], (9, 0)),
        (&[0; 4], &[2], [0, 9], (9, 0)),
    ] {
        let (answer, left_points, left_ends) = cleaned(points, ends, lengths);
        let (number, place) = refusal;
        assert_eq!(answer, Err(Refusal { number, place }));
        assert_eq!(left_points, vec![JUNK; lengths[0]]);
        assert_eq!(left_ends, vec![JUNK as u32; lengths[1]]);
    }
    assert!(cleaned(&[0; 4], &[2], [4, 1]).0.is_ok());
}

/// The same by one point after another: whole passes that drop the first point that is too much.
fn one_by_one(mut contour: Vec<[i32; 2]>) -> Option<Vec<[i32; 2]>> {
    while let Some(i) = (1..contour.len()).find(|&i| contour[i] == contour[i - 1]) {
        contour.remove(i);
    }
    while contour.len() > 1 && contour.last() == contour.first() {
        contour.pop();
    }
    let mut different = contour.clone();
    different.sort();
    different.dedup();
    (different.len() > 2).then_some(contour)
}

#[test]
fn every_small_contour_is_cleaned_as_point_by_point() {
    let all = [A, B, C, D];
    for length in 0..=6 {
        for number in 0..4usize.pow(length) {
            let digits = (0..length).map(|k| number / 4usize.pow(k) % 4);
            let contour: Vec<[i32; 2]> = digits.map(|digit| all[digit]).collect();
            let expected = one_by_one(contour.clone());
            assert_eq!(left(&contour), expected, "{contour:?}");
            assert_eq!(is_clean(&contour), expected == Some(contour));
        }
    }
}

#[test]
fn longer_contours_are_cleaned_as_point_by_point() {
    for round in 0..2_000 {
        let mut random = Random::of_round(1, round);
        let reach = random.choose(&[0, 1, 1, 5, 1_000]);
        let count = 2 + random.below(60);
        let mut point = || [(); 2].map(|()| random.within(-reach..=reach));
        let contour: Vec<[i32; 2]> = (0..count).map(|_| point()).collect();
        assert_eq!(left(&contour), one_by_one(contour), "round {round}");
    }
}
