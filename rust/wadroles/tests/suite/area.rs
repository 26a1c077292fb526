//! Area: cases worked by hand, limits, and random points against the oracle.

use crate::harness::{
    assert_answer, assert_common_faults_noticed, assert_noticed, test_product, Answer, Case, Fault,
    Operation, Rounds,
};
use crate::operations::Area;
use meshes::Random;
use wadroles::{contour, MAX_POINTS};

/// The farthest a coordinate may be from zero.
const M: i32 = 1_048_576;

/// Asserts that product and oracle agree on this answer.
#[track_caller]
fn assert_area(points: &[i32], answer: Answer<i64>) {
    assert_answer(&Case::<Area>::exact(points.to_vec()), answer);
}

#[test]
fn areas_are_doubled_and_above_zero_counterclockwise() {
    assert_area(&[5, 0, 0, 5, 0, 0], Ok(25));
    assert_area(&[0, 0, 0, 5, 5, 0], Ok(-25));
    assert_area(&[-3, -3, 4, -3, 4, 4, -3, 4], Ok(98));
    assert_area(&[-30, -40, -20, -40, -20, -30], Ok(100));
}

#[test]
fn fewer_than_three_points_have_no_area() {
    assert_area(&[], Ok(0));
    assert_area(&[7, -9], Ok(0));
    assert_area(&[-M, M], Ok(0));
    assert_area(&[7, -9, 3, 4], Ok(0));
    assert_area(&[M, -M, M, M], Ok(0));
}

#[test]
fn equal_neighbours_and_the_start_do_not_matter() {
    assert_area(&[5, 0, 5, 0, 0, 5, 0, 5, 0, 5, 0, 0], Ok(25));
    assert_area(&[0, 5, 0, 0, 5, 0], Ok(25));
    assert_area(&[0, 0, 5, 0, 0, 5], Ok(25));
    assert_area(&[8, 8, 8, 8, 8, 8], Ok(0));
}

#[test]
fn a_part_from_the_middle_of_a_table_is_taken() {
    let points = [9, 9, 1, 1, 3, 1, 3, 2, 1, 2, -7, -7];
    for (j, doubled) in [(1, 4), (0, 0), (3, 0)] {
        assert_eq!(wadroles::area(contour(&points, &[1, 5, 6], j)), Ok(doubled));
    }
}

#[test]
fn odd_lengths_are_refused() {
    for length in [1, 3, 5, 7, 99, 196_607, 196_609] {
        assert_area(&vec![0; length], Err((1, 0)));
    }
}

#[test]
fn points_pass_up_to_the_limit() {
    assert_eq!(MAX_POINTS, 98_304);
    assert_area(&vec![0; 2 * 98_304], Ok(0));
    for count in [98_305, 98_306, 200_000] {
        assert_area(&vec![0; 2 * count], Err((1, 0)));
    }
}

#[test]
fn numbers_pass_up_to_the_limit_at_every_position() {
    for count in [1, 2, 3, 5] {
        for position in 0..2 * count {
            for value in [-M, M] {
                let mut points = vec![0; 2 * count];
                points[position] = value;
                assert_area(&points, Ok(0));
            }
            for value in [i32::MIN, -M - 1, M + 1, i32::MAX] {
                let mut points = vec![1; 2 * count];
                points[position] = value;
                assert_area(&points, Err((2, position as u64)));
            }
        }
    }
}

#[test]
fn the_last_places_of_the_longest_run_are_tested() {
    for position in [0, 1, 98_304, 196_606, 196_607] {
        let mut points = vec![0; 2 * 98_304];
        points[position] = M + 1;
        assert_area(&points, Err((2, position as u64)));
    }
}

#[test]
fn the_least_of_several_places_is_named() {
    assert_area(&[0, 0, 0, M + 1, -M - 1, 0], Err((2, 3)));
    assert_area(&[i32::MIN; 8], Err((2, 0)));
}

#[test]
fn size_is_tested_before_range() {
    assert_area(&[M + 1], Err((1, 0)));
    assert_area(&[0, 0, i32::MAX], Err((1, 0)));
    assert_area(&vec![i32::MAX; 2 * 98_305], Err((1, 0)));
}

#[test]
fn the_extreme_values_are_exact() {
    // Round the square of all coordinates, each side of which gives 2 × 2^40.
    let square = [[M, M], [-M, M], [-M, -M], [M, -M]];
    let doubled = 98_304 * (1i64 << 41);
    assert_eq!(doubled, 216_172_782_113_783_808);
    let round = |square: [[i32; 2]; 4]| square.concat().repeat(98_304 / 4);
    assert_area(&round(square), Ok(doubled));
    let mut clockwise = square;
    clockwise.reverse();
    assert_area(&round(clockwise), Ok(-doubled));

    // Two corners cut off by one unit: three sides give M, 2M − 1 and M less.
    let mut points = round(square);
    points[196_604..].copy_from_slice(&[1 - M, -M, M, 1 - M]);
    assert_area(&points, Ok(doubled - 4 * i64::from(M) + 1));

    // To and fro along the top: the largest terms, of both signs.
    assert_area(&[M, M, -M, M].repeat(98_304 / 2), Ok(0));
    assert_area(&[-M, M, M, M].repeat(98_304 / 2), Ok(0));
}

/// A number in range, or anything.
fn random_number(wild: bool, random: &mut Random) -> i32 {
    match random.below(16) {
        0 if wild => random.choose(&[i32::MIN, -M - 1, M + 1, i32::MAX]),
        1 if wild => random.word() as i32,
        2 | 3 => random.choose(&[-M, M]),
        4 | 5 => random.within(-2..=2),
        _ => random.within(-M..=M),
    }
}

/// Points that are in range as a rule.
fn random_points(random: &mut Random) -> Vec<i32> {
    let wild = random.one_in(4);
    let length = match random.below(16) {
        0 => random.below(40),
        _ => 2 * random.below(20),
    };
    (0..length).map(|_| random_number(wild, random)).collect()
}

#[test]
fn random_points_against_the_oracle() {
    let tally = test_product::<Area>("random points", 1, random_points);
    tally.require(&[0], 100);
    tally.require_refusals(Area::REFUSALS, 100);
}

#[test]
fn most_random_points_have_an_area() {
    let share = Rounds::one_in(100, "area, of random points").share(|random| {
        let points = random_points(random);
        wadroles::area(&points).is_ok_and(|doubled| doubled != 0)
    });
    assert!(share > 0.5, "too few areas");
}

/// As many points as there may be, or nearly so, or too many.
fn long_run(random: &mut Random) -> Vec<i32> {
    let wild = random.one_in(2);
    let length = 2 * (MAX_POINTS - random.below(3)) + random.choose(&[0, 0, 0, 1, 2, 4]);
    let mut points: Vec<i32> = (0..length).map(|_| random.within(-M..=M)).collect();
    if wild {
        let position = random.below(points.len());
        points[position] = random.choose(&[i32::MIN, -M - 1, M + 1]);
    }
    points
}

#[test]
fn long_runs_of_random_points_against_the_oracle() {
    let tally = test_product::<Area>("long runs", 5_000, long_run);
    assert!(tally.share(0) > 0.1, "too few areas");
}

fn turned_round(points: &Vec<i32>, (): &mut ()) -> Answer<i64> {
    Area::oracle(points, &mut ()).map(|doubled| -doubled)
}

fn not_closed(points: &Vec<i32>, (): &mut ()) -> Answer<i64> {
    let doubled = Area::oracle(points, &mut ())?;
    match points[..] {
        [x, y, .., last_x, last_y] => {
            let [x, y, last_x, last_y] = [x, y, last_x, last_y].map(i64::from);
            Ok(doubled - (last_x * y - x * last_y))
        }
        _ => Ok(doubled),
    }
}

#[test]
fn faults_are_noticed() {
    let faults: [Fault<Area>; 2] = [
        ("turned round", turned_round, "answer Ok("),
        ("not closed", not_closed, "answer Ok("),
    ];
    assert_noticed::<Area>(1_000, random_points, &faults);
    assert_common_faults_noticed::<Area>(1_000, random_points);
}
