//! Depths and parents worked by hand.

use super::{
    assert_all_nested, rectangle, spot, square, started, turned, Contour, Worked, M, NONE,
};
use crate::harness::{agree, Case};
use crate::inputs::{part_p, LAYER_FILE_P};
use crate::nesting::found;
use crate::operations::{Cut, GivenLayer, LayerFile, Nesting, ReadLayer};

/// All layers of this file.
pub fn all() -> Vec<Worked> {
    let all = [within(), equal(), touching(), crossing(), ties(), sizes()];
    all.concat()
}

/// Not in any other.
const OUTSIDE: (u32, u32) = (0, NONE);

fn within() -> Vec<Worked> {
    let [large, middle, small] = [square(0, 0, 9), square(2, 2, 5), square(3, 3, 3)];
    let beside = square(20, 0, 5);
    vec![
        (vec![], vec![]),
        (vec![large.clone()], vec![OUTSIDE]),
        (
            vec![large.clone(), small.clone(), beside, turned(middle.clone())],
            vec![OUTSIDE, (2, 3), OUTSIDE, (1, 0)],
        ),
        // From inside out.
        (
            vec![small.clone(), middle.clone(), large.clone()],
            vec![(2, 1), (1, 2), OUTSIDE],
        ),
        // Two in one, of which each holds another.
        (
            vec![
                square(1, 1, 3),
                square(5, 5, 3),
                spot([2, 2]),
                spot([6, 6]),
                large,
            ],
            vec![(1, 4), (1, 4), (2, 0), (2, 1), OUTSIDE],
        ),
    ]
}

fn equal() -> Vec<Worked> {
    let twin = || square(0, 0, 9);
    let other = |start| started(twin(), start);
    let diamond = |start| started(vec![[0, 5], [5, 0], [10, 5], [5, 10]], start);
    let mut worked = vec![
        (vec![twin(); 2], vec![(1, 1), (1, 0)]),
        (vec![twin(), turned(twin())], vec![(1, 1), (1, 0)]),
        (vec![twin(); 3], vec![(2, 1), (2, 0), (2, 0)]),
        // One in both: the parent is the lower number.
        (
            vec![twin(), twin(), square(3, 3, 3)],
            vec![(1, 1), (1, 0), (2, 0)],
        ),
        // Of a diamond the left corner lies in it.
        (vec![diamond(0); 2], vec![(1, 1), (1, 0)]),
    ];
    for start in 1..4 {
        worked.extend([
            (vec![other(start); 2], vec![OUTSIDE; 2]),
            (vec![twin(), other(start)], vec![(1, 1), OUTSIDE]),
            (vec![other(start), twin()], vec![OUTSIDE, (1, 0)]),
            (vec![diamond(start); 2], vec![OUTSIDE; 2]),
        ]);
    }
    worked
}

fn touching() -> Vec<Worked> {
    let large = || square(0, 0, 9);
    let from_within = [square(6, 3, 3), square(3, 6, 3), square(0, 3, 3)];
    let mut worked = vec![
        // Side by side, one above the other, and corner to corner.
        (vec![large(), square(9, 0, 9)], vec![OUTSIDE; 2]),
        (vec![large(), square(0, 9, 9)], vec![OUTSIDE; 2]),
        (vec![large(), square(9, 9, 9)], vec![OUTSIDE; 2]),
        (vec![large(), square(-9, -9, 9)], vec![OUTSIDE; 2]),
        (
            vec![started(large(), 2), square(9, 9, 9)],
            vec![(1, 1), OUTSIDE],
        ),
        // Both start at the corner that they share.
        (vec![large(), square(0, 0, 3)], vec![(1, 1), (1, 0)]),
        (
            vec![started(large(), 1), square(0, 0, 3)],
            vec![OUTSIDE, (1, 0)],
        ),
        // From outside, but it starts on the left side, and on the lower one.
        (
            vec![large(), started(square(-3, 3, 3), 1)],
            vec![OUTSIDE, (1, 0)],
        ),
        (
            vec![large(), started(square(3, -3, 3), 3)],
            vec![OUTSIDE, (1, 0)],
        ),
        // From within, but it starts on the right side, and on the upper one.
        (vec![large(), started(square(6, 3, 3), 1)], vec![OUTSIDE; 2]),
        (vec![large(), started(square(3, 6, 3), 3)], vec![OUTSIDE; 2]),
    ];
    worked.extend(from_within.map(|inner| (vec![large(), inner], vec![OUTSIDE, (1, 0)])));
    worked
}

fn crossing() -> Vec<Worked> {
    let [first, second] = [square(0, 0, 6), square(3, 3, 6)];
    vec![
        (vec![first.clone(), second.clone()], vec![OUTSIDE, (1, 0)]),
        (vec![second, first], vec![(1, 1), OUTSIDE]),
        (
            vec![rectangle(0, 3, 9, 3), started(rectangle(3, -5, 3, 10), 3)],
            vec![OUTSIDE, (1, 0)],
        ),
        // Each starts in the other.
        (
            vec![square(0, 0, 6), started(square(-3, -3, 6), 2)],
            vec![(1, 1), (1, 0)],
        ),
    ]
}

/// Of areas that are equal the lower number, whichever way the contours run.
fn ties() -> Vec<Worked> {
    let [wide, tall] = [rectangle(-8, -2, 16, 4), rectangle(-2, -8, 4, 16)];
    let (even, smaller, held) = (square(-4, -4, 8), square(-1, -1, 7), spot([0, 0]));
    let ways = [
        (wide.clone(), tall.clone()),
        (turned(wide.clone()), tall.clone()),
        (wide.clone(), turned(tall.clone())),
        (turned(wide), turned(tall)),
    ];
    let mut worked = Vec::new();
    for (wide, tall) in &ways {
        let layer = |letters: &str| {
            let contours = letters.chars().map(|letter| match letter {
                'w' => wide,
                't' => tall,
                'e' => &even,
                's' => &smaller,
                _ => &held,
            });
            contours.cloned().collect()
        };
        worked.extend([
            (layer("wth"), vec![OUTSIDE, OUTSIDE, (2, 0)]),
            (layer("thw"), vec![OUTSIDE, (2, 0), OUTSIDE]),
            (layer("htw"), vec![(2, 1), OUTSIDE, OUTSIDE]),
            (layer("hetw"), vec![(3, 1), OUTSIDE, OUTSIDE, OUTSIDE]),
            (
                layer("whtse"),
                vec![OUTSIDE, (4, 3), OUTSIDE, (3, 0), OUTSIDE],
            ),
        ]);
    }
    worked
}

/// The parent is the smallest, whatever holds it or runs nearest.
fn sizes() -> Vec<Worked> {
    let held = spot([20, 20]);
    let (outer, ring) = (square(0, 0, 100), square(10, 10, 30));
    // Long and thin, it crosses both and lies in neither.
    let thin = rectangle(-200, 20, 400, 2);
    // It crosses itself: it has no area, and holds points on both sides.
    let crossed: Contour = vec![[0, 0], [4, 4], [4, 0], [0, 4]];
    let whole = square(-M, -M, 2 * M);
    vec![
        (
            vec![outer.clone(), held.clone(), ring.clone(), thin.clone()],
            vec![OUTSIDE, (3, 3), (1, 0), OUTSIDE],
        ),
        (
            vec![turned(thin), ring.clone(), held.clone(), outer.clone()],
            vec![OUTSIDE, (1, 3), (3, 0), OUTSIDE],
        ),
        // Areas below zero.
        (
            vec![turned(outer.clone()), ring.clone(), held.clone()],
            vec![OUTSIDE, (1, 0), (2, 1)],
        ),
        (
            vec![outer, turned(ring), held],
            vec![OUTSIDE, (1, 0), (2, 1)],
        ),
        (
            vec![square(-9, -9, 30), square(0, 1, 3), crossed, spot([1, 2])],
            vec![OUTSIDE, (2, 2), (1, 0), (3, 2)],
        ),
        // The doubled area of the whole range is 2^43: its low 32 bits are 0.
        (
            vec![whole, square(-9, -9, 30), spot([0, 0])],
            vec![OUTSIDE, (1, 0), (2, 1)],
        ),
    ]
}

#[test]
fn squares_within_squares() {
    assert_all_nested(within());
}

#[test]
fn equal_contours_lie_in_each_other_by_where_they_start() {
    assert_all_nested(equal());
}

#[test]
fn contours_that_touch() {
    assert_all_nested(touching());
}

#[test]
fn contours_that_cross() {
    assert_all_nested(crossing());
}

#[test]
fn of_equal_areas_the_lower_number_is_the_parent() {
    assert_all_nested(ties());
}

#[test]
fn the_parent_is_the_smallest() {
    assert_all_nested(sizes());
}

#[test]
fn part_p_has_nothing_within() {
    for height in [0, 5, 10, 11] {
        let mut cut = Case::<Cut>::exact(part_p().at(height));
        let (contours, points) = agree(&mut cut).unwrap();
        let points = &cut.tables.points.view()[..2 * points];
        let ends = &cut.tables.ends.view()[..contours];
        let mut case = Case::<Nesting>::exact(GivenLayer::new(points, ends));
        assert_eq!(agree(&mut case), Ok(()));
        let expected = vec![OUTSIDE; contours];
        assert_eq!(found(&case.input, &case.tables), expected, "{height}");
    }
}

#[test]
fn a_layer_that_was_read_is_nested_as_one_that_was_cut() {
    let mut read = Case::<ReadLayer>::exact(LayerFile::new(&LAYER_FILE_P, 1));
    agree(&mut read).unwrap();
    let (points, ends) = (read.tables.points.view(), read.tables.ends.view());
    let mut case = Case::<Nesting>::exact(GivenLayer::new(points, ends));
    assert_eq!(agree(&mut case), Ok(()));
    assert_eq!(found(&case.input, &case.tables), [OUTSIDE]);
}
