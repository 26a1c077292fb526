//! Which points lie in a contour, worked by hand.

use super::{assert_nested, spot, square, started, turned, Contour, NONE};

/// A contour, points that lie in it, and points that do not.
pub struct Lying {
    contour: Contour,
    in_it: Vec<[i32; 2]>,
    not_in_it: Vec<[i32; 2]>,
}

impl Lying {
    fn of(contour: &[[i32; 2]]) -> Self {
        Lying {
            contour: contour.to_vec(),
            in_it: Vec::new(),
            not_in_it: Vec::new(),
        }
    }

    /// These points lie in it.
    fn has(mut self, points: &[[i32; 2]]) -> Self {
        self.in_it.extend(points);
        self
    }

    /// These points do not.
    fn lacks(mut self, points: &[[i32; 2]]) -> Self {
        self.not_in_it.extend(points);
        self
    }
}

/// The contour, then the points that lie in it, then those that do not.
pub fn with_spots(lying: &Lying) -> Vec<Contour> {
    let points = lying.in_it.iter().chain(&lying.not_in_it);
    let spots = points.map(|&point| spot(point));
    [lying.contour.clone()].into_iter().chain(spots).collect()
}

/// All contours of this file.
pub fn all() -> Vec<Lying> {
    let mut all = vec![a_square(), diamond(), gap_above(), gap_below()];
    all.extend(thirds());
    all.extend(crossed());
    all.extend(of_no_extent());
    all
}

fn a_square() -> Lying {
    Lying::of(&square(0, 0, 4))
        // Inside, on the left side, on the lower side, and the corner between them.
        .has(&[[1, 3], [0, 2], [2, 0], [0, 0]])
        // On the right side, on the upper side, and the other corners.
        .lacks(&[[4, 2], [2, 4], [4, 0], [4, 4], [0, 4]])
        // Left of it and right, level with both sides and between; below it, and above.
        .lacks(&[[-1, 0], [-1, 2], [-1, 4]])
        .lacks(&[[5, 0], [5, 2], [5, 4]])
        .lacks(&[[2, -1], [2, 5]])
}

fn diamond() -> Lying {
    Lying::of(&[[2, 0], [4, 2], [2, 4], [0, 2]])
        // Level with two corners, the left corner, on both edges on the left, and inside.
        .has(&[[2, 2], [0, 2], [1, 1], [1, 3], [2, 3]])
        // The other corners, and on both edges on the right.
        .lacks(&[[4, 2], [2, 0], [2, 4], [3, 1], [3, 3]])
        // Level with each corner, outside.
        .lacks(&[[-1, 2], [5, 2], [-1, 0], [5, 0], [-1, 4], [5, 4]])
}

/// Edges that meet levels at thirds, above zero and below.
fn thirds() -> [Lying; 2] {
    [
        // At y = 1 from −5/3 to 1/3, at y = 2 from −10/3 to 2/3.
        Lying::of(&[[0, 0], [1, 3], [-5, 3]])
            .has(&[[0, 1], [-1, 1], [0, 2], [-3, 2]])
            .lacks(&[[1, 1], [-2, 1], [1, 2], [-4, 2], [0, 0], [0, 3]]),
        // At y = −1 from −1/3 to 5/3, at y = −2 from −2/3 to 10/3.
        Lying::of(&[[0, 0], [-1, -3], [5, -3]])
            .has(&[[0, -1], [1, -1], [0, -2], [3, -2], [0, -3]])
            .lacks(&[[-1, -1], [2, -1], [-1, -2], [4, -2], [5, -3], [0, 0]]),
    ]
}

/// Two arms with a gap between them, whose floor is level.
fn gap_above() -> Lying {
    let (arms, floor) = ([[0, 0], [9, 0], [9, 9], [6, 9]], [[6, 3], [3, 3]]);
    Lying::of(&[&arms[..], &floor, &[[3, 9], [0, 9]]].concat())
        // Left of the floor and right of it, below it, its right end, and in each arm.
        .has(&[[2, 3], [0, 3], [7, 3], [4, 2], [6, 3], [2, 5], [6, 5]])
        // On the floor, its left end, in the gap, and on the side left of it.
        .lacks(&[[4, 3], [3, 3], [4, 5], [3, 5]])
        // Level with the floor and with the other level sides.
        .lacks(&[[-1, 3], [9, 3], [-1, 0], [-1, 9], [4, 9], [1, 9]])
}

/// Two legs with a gap between them, whose ceiling is level.
fn gap_below() -> Lying {
    let (legs, ceiling) = ([[6, 0], [9, 0], [9, 9], [0, 9]], [[3, 6], [6, 6]]);
    Lying::of(&[&[[0, 0], [3, 0]][..], &ceiling, &legs].concat())
        // On the ceiling, its ends, left of it and right, above it, and the feet.
        .has(&[[4, 6], [3, 6], [6, 6], [1, 6], [7, 6], [4, 7]])
        .has(&[[1, 0], [6, 0], [7, 0]])
        // In the gap, level with the feet, and on the side left of it.
        .lacks(&[[4, 5], [4, 0], [3, 0], [3, 3]])
        // Level with the ceiling and with the other level sides.
        .lacks(&[[-1, 6], [9, 6], [-1, 0], [9, 0], [4, 9]])
}

/// Contours that cross themselves or go round several times.
fn crossed() -> [Lying; 5] {
    let round = square(0, 0, 4);
    let there_and_back = [round.clone(), turned(round.clone())].concat();
    // Five points, each joined with the next but one: the middle is gone round twice.
    let star = [[0, 40], [-24, -32], [38, 12], [-38, 12], [24, -32]];
    [
        Lying::of(&round.repeat(2)).lacks(&[[1, 3], [0, 0], [2, 2], [5, 2]]),
        Lying::of(&round.repeat(3))
            .has(&[[1, 3], [0, 0]])
            .lacks(&[[4, 2], [-1, 2]]),
        Lying::of(&there_and_back).lacks(&[[1, 3], [0, 0], [-1, 2]]),
        Lying::of(&[[0, 0], [4, 4], [4, 0], [0, 4]])
            .has(&[[1, 2], [0, 2], [3, 2], [2, 2], [0, 1]])
            .lacks(&[[2, 1], [2, 3], [4, 2], [-1, 2]]),
        Lying::of(&star)
            .has(&[[0, 30], [-20, -25], [30, 11], [-30, 11], [20, -25]])
            .lacks(&[[0, 0], [0, -20], [5, 5], [-40, 12], [30, 30]]),
    ]
}

/// Contours whose points are all equal or on a line, or that go back the way they came: nothing lies in
/// them.
fn of_no_extent() -> [Lying; 8] {
    let by = |contour: &[[i32; 2]], [x, y]: [i32; 2]| {
        let places = (-1..=1).flat_map(|i| (-1..=1).map(move |j| [x + i, y + j]));
        Lying::of(contour).lacks(&places.collect::<Vec<_>>())
    };
    [
        by(&[[3, 3]; 2], [3, 3]),
        by(&[[3, 3]; 5], [3, 3]),
        by(&[[1, 0], [3, 4]], [2, 2]),
        by(&[[3, 4], [1, 0]], [1, 1]),
        by(&[[0, 0], [4, 0]], [2, 0]),
        by(&[[0, 0], [0, 4]], [0, 2]),
        by(&[[0, 0], [1, 2], [2, 4], [1, 2]], [1, 2]),
        by(&[[0, 0], [3, 1], [4, 5], [3, 1]], [3, 2]),
    ]
}

/// Asserts it of the contour from every start and both ways.
#[track_caller]
fn assert_lying(lying: &Lying) {
    let mut expected = vec![(0, NONE)];
    expected.extend(vec![(1, 0); lying.in_it.len()]);
    expected.extend(vec![(0, NONE); lying.not_in_it.len()]);
    let mut contours = with_spots(lying);
    for start in 0..lying.contour.len() {
        let contour = started(lying.contour.clone(), start);
        for contour in [turned(contour.clone()), contour] {
            contours[0] = contour;
            assert_nested(&contours, &expected);
        }
    }
}

#[test]
fn of_a_square_the_left_and_the_lower_side() {
    assert_lying(&a_square());
}

#[test]
fn points_level_with_corners() {
    assert_lying(&diamond());
}

#[test]
fn edges_that_meet_levels_between_whole_numbers() {
    thirds().iter().for_each(assert_lying);
}

#[test]
fn points_level_with_level_edges() {
    assert_lying(&gap_above());
    assert_lying(&gap_below());
}

#[test]
fn contours_that_cross_themselves() {
    crossed().iter().for_each(assert_lying);
}

#[test]
fn nothing_lies_in_a_point_or_a_line() {
    of_no_extent().iter().for_each(assert_lying);
}
