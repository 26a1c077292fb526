//! Contour j: cases worked by hand, and random ends against the oracle.

use crate::harness::{
    assert_answer, assert_noticed, test_product, Answer, Case, Fault, Operation, Rounds,
};
use crate::operations::{Contour, Ends};
use meshes::Random;
use wadroles::contour;

/// Points that differ everywhere, so that a part shows where it comes from.
fn points(length: usize) -> Vec<i32> {
    (0..length as i32).map(|i| 100 - i).collect()
}

/// Asserts that the product gives these elements of the points, and the oracle too.
#[track_caller]
fn assert_part(length: usize, ends: &[u32], j: usize, part: std::ops::Range<usize>) {
    let case = Case::<Contour>::exact(Ends::new(&points(length), ends, j));
    assert_answer(&case, Ok((part.start, part.len())));
}

#[test]
fn a_contour_goes_from_the_previous_end_to_its_own() {
    let ends = [3, 7, 7, 10];
    assert_part(20, &ends, 0, 0..6);
    assert_part(20, &ends, 1, 6..14);
    assert_part(20, &ends, 2, 0..0);
    assert_part(20, &ends, 3, 14..20);
}

#[test]
fn it_is_a_part_of_the_lent_points() {
    let points = [5; 20];
    let part = contour(&points, &[3, 7], 1);
    assert_eq!(part.as_ptr(), points[6..].as_ptr());
}

#[test]
fn without_an_end_it_is_empty() {
    for j in [2, 3, 20, 1 << 31, 1 << 32, usize::MAX - 1, usize::MAX] {
        assert_part(20, &[3, 7], j, 0..0);
    }
    assert_part(20, &[], 0, 0..0);
    assert_part(0, &[], 0, 0..0);
}

#[test]
fn where_the_ends_fall_it_is_empty() {
    let ends = [7, 3, 5, 4, 10];
    assert_part(20, &ends, 0, 0..14);
    assert_part(20, &ends, 1, 0..0);
    assert_part(20, &ends, 2, 6..10);
    assert_part(20, &ends, 3, 0..0);
    assert_part(20, &ends, 4, 8..20);
}

#[test]
fn where_an_end_passes_the_table_it_is_empty() {
    for past in [11, 12, 20, 1 << 30, 1 << 31, u32::MAX - 1, u32::MAX] {
        assert_part(20, &[past], 0, 0..0);
        assert_part(20, &[3, past], 1, 0..0);
        assert_part(20, &[past, past], 1, 0..0);
        assert_part(20, &[past, 10], 1, 0..0);
        assert_part(20, &[past, 10, 10], 2, 0..0);
        assert_part(20, &[past, 4, 10], 2, 8..20);
    }
    assert_part(20, &[10], 0, 0..20);
    assert_part(20, &[10, 10], 1, 0..0);
    assert_part(0, &[0], 0, 0..0);
    assert_part(0, &[1], 0, 0..0);
}

#[test]
fn ends_that_wrap_when_doubled_pass_the_table() {
    // Twice this is 8 more than 32 bits hold.
    let wrapped = (1 << 31) + 4;
    assert_part(20, &[wrapped], 0, 0..0);
    assert_part(20, &[2, wrapped], 1, 0..0);
    assert_part(20, &[1 << 31, wrapped], 1, 0..0);
}

#[test]
fn half_a_point_at_the_end_of_the_table_is_not_reached() {
    assert_part(19, &[9], 0, 0..18);
    assert_part(19, &[10], 0, 0..0);
    assert_part(1, &[1], 0, 0..0);
}

/// An end in the table as a rule; at times just past it, or far.
fn random_end(most: usize, random: &mut Random) -> u32 {
    match random.below(8) {
        0 => random.choose(&[u32::MAX, 1 << 31, most as u32 + 1]),
        1 => random.word() as u32,
        2 => (1 << 31) + random.below(most + 1) as u32,
        _ => random.below(most + 2) as u32,
    }
}

/// Points, with ends that rise half of the times, and mostly the number of one of them.
fn random_ends(random: &mut Random) -> Ends {
    let points = points(random.below(30));
    let mut ends: Vec<u32> = (0..random.below(8))
        .map(|_| random_end(points.len() / 2, random))
        .collect();
    if random.one_in(2) {
        ends.sort();
    }
    let j = match random.below(16) {
        0 => random.word() as usize,
        _ => random.below(ends.len() + 2),
    };
    Ends { points, ends, j }
}

#[test]
fn random_ends_against_the_oracle() {
    test_product::<Contour>("random ends", 1, random_ends).require(&[0], 100);
    let share = Rounds::one_in(100, "contour, with points").share(|random| {
        let Ends { points, ends, j } = random_ends(random);
        !contour(&points, &ends, j).is_empty()
    });
    assert!(share > 0.1, "too few contours have points");
}

type Part = Answer<(usize, usize)>;

fn last_point_dropped(input: &Ends, (): &mut ()) -> Part {
    let (first, length) = Contour::oracle(input, &mut ())?;
    Ok((first, length.saturating_sub(2)))
}

fn last_end_of_all_taken(input: &Ends, (): &mut ()) -> Part {
    let last = input.ends.len().saturating_sub(1);
    let within = Ends {
        j: input.j.min(last),
        ..input.clone()
    };
    Contour::oracle(&within, &mut ())
}

fn falling_ends_exchanged(input: &Ends, (): &mut ()) -> Part {
    let mut sorted = input.clone();
    sorted.ends.sort();
    Contour::oracle(&sorted, &mut ())
}

#[test]
fn faults_are_noticed() {
    let faults: [Fault<Contour>; 3] = [
        ("last point", last_point_dropped, "contour: answer Ok(("),
        ("last end", last_end_of_all_taken, "not Ok((0, 0))"),
        ("falling ends", falling_ends_exchanged, "answer Ok(("),
    ];
    assert_noticed::<Contour>(1_000, random_ends, &faults);
}
