//! The largest coordinates, products and areas; as many points as a layer may have, and more.

use super::{assert_nested, assert_refused, nested, spot, square, turned, Contour, M, NONE};
use crate::operations::GivenLayer;
use wadroles::MAX_POINTS;

const MOST: usize = 98_304;

/// The whole range of coordinates.
fn whole() -> Contour {
    square(-M, -M, 2 * M)
}

/// What is above an edge from corner to corner, but for a unit. Where y is k − M, the edge is right of
/// x = k − M by k / (2 M − 1).
fn long_edge() -> Contour {
    vec![[-M, -M], [M, M - 1], [-M, M]]
}

/// Points by that edge, and whether they lie in the contour: those that the edge is right of.
fn by_the_edge() -> Vec<([i32; 2], bool)> {
    let at = |k: i32, left: i32| [-M + k - left, -M + k];
    vec![
        (at(1, 0), true),
        (at(1, -1), false),
        (at(2, 0), true),
        (at(2, -1), false),
        (at(M, 0), true),
        (at(M, -1), false),
        (at(2 * M - 2, 0), true),
        (at(2 * M - 2, -1), false),
        (at(2 * M - 3, 0), true),
        (at(2 * M - 3, -1), false),
    ]
}

/// The contour with a spot at each of the points, and the same with x for y and y for x.
pub fn exact() -> Vec<Vec<Contour>> {
    let spots = by_the_edge().into_iter().map(|(point, _)| spot(point));
    let flat: Vec<Contour> = [long_edge()].into_iter().chain(spots).collect();
    let exchanged = |contour: &Contour| contour.iter().map(|&[x, y]| [y, x]).collect();
    let steep = flat.iter().map(exchanged).collect();
    vec![flat, steep]
}

#[test]
fn the_largest_products_are_exact() {
    let mut expected = vec![(0, NONE)];
    expected.extend(by_the_edge().into_iter().map(|(_, is_held)| match is_held {
        true => (1, 0),
        false => (0, NONE),
    }));
    for contours in exact() {
        assert_nested(&contours, &expected);
    }
}

#[test]
fn the_corners_of_the_range() {
    let corners = [[-M, -M], [M, -M], [M, M], [-M, M]];
    let near = [
        [M - 1, M - 1],
        [-M, M - 1],
        [M - 1, -M],
        [1 - M, 1 - M],
        [0, 0],
    ];
    let spots = |points: &[[i32; 2]]| points.iter().map(|&point| spot(point)).collect::<Vec<_>>();
    for whole in [whole(), turned(whole())] {
        let contours = [vec![whole], spots(&corners), spots(&near)].concat();
        let mut expected = vec![(0, NONE), (1, 0), (0, NONE), (0, NONE), (0, NONE)];
        expected.extend([(1, 0); 5]);
        assert_nested(&contours, &expected);
    }
    // Of the triangles on both sides of a diagonal the lower right one has it, with the corner that both
    // start at.
    let halves = [[0, 1, 2], [0, 2, 3]].map(|triangle| triangle.map(|k| corners[k]).to_vec());
    let diagonal = [-M + 1, -7, 0, 1, M - 1].map(|x| [x, x]);
    let mut expected = vec![(0, NONE)];
    expected.extend([(1, 0); 6]);
    assert_nested(&[halves.to_vec(), spots(&diagonal)].concat(), &expected);
}

#[test]
fn the_largest_areas_are_compared() {
    // Round the whole range so often that the doubled area passes 2^56; an odd number of times, so that
    // points lie in it.
    let often = |times: usize| whole().repeat(times);
    let (more, fewer) = (often(12_287), often(12_285));
    let held = spot([5, 5]);
    for (first, second, parent) in [
        (more.clone(), fewer.clone(), 1),
        (fewer.clone(), more.clone(), 0),
        (turned(more.clone()), fewer.clone(), 1),
        (turned(fewer.clone()), turned(more.clone()), 0),
        (fewer.clone(), turned(fewer), 0),
    ] {
        let expected = [(1, 1), (1, 0), (2, parent)];
        assert_nested(&[first, second, held.clone()], &expected);
    }
    // Nothing lies in what is gone round an even number of times.
    assert_nested(&[often(24_574), held], &[(0, NONE); 2]);
}

#[test]
fn as_many_points_as_there_may_be() {
    assert_eq!(MAX_POINTS, MOST);
    // A comb, whose edge goes up where x is odd and down where it is even.
    let width = MOST as i32 / 2 - 6;
    let teeth = (0..width).map(|k| [width - k, 10 * (k % 2) + 5]);
    let comb: Contour = [[0, 0], [width, 0]].into_iter().chain(teeth).collect();
    let rest = MOST - comb.len();
    let in_it = [[7, 1], [7, 2], [101, 10]];
    let not_in_it = [[100, 10], [-1, 5], [100, 16], [9, -1]];
    let mut contours = vec![comb, vec![[7, 1]; rest - 14]];
    contours.extend(in_it.into_iter().chain(not_in_it).map(spot));
    let points: usize = contours.iter().map(Vec::len).sum();
    assert_eq!(points, MOST);
    let expected = [vec![(0, NONE)], vec![(1, 0); 4], vec![(0, NONE); 4]];
    assert_nested(&contours, &expected.concat());
    // One contour of all points.
    assert_nested(&[whole().repeat(MOST / 4)], &[(0, NONE)]);
}

#[test]
fn many_contours_of_as_many_points_as_there_may_be() {
    // Squares in 32 rows, each point of them six times; then one in each.
    let repeated = |contour: Contour| contour.iter().flat_map(|&p| [p; 6]).collect();
    let in_rows = |at: i32, side: i32| {
        let places = (0..2_048).map(move |k| [100 * (k % 64) + at, 100 * (k / 64) + at]);
        places.map(move |[x, y]| repeated(square(x, y, side)))
    };
    let contours: Vec<Contour> = in_rows(0, 90).chain(in_rows(10, 20)).collect();
    let points: usize = contours.iter().map(Vec::len).sum();
    assert_eq!(points, MOST);
    let inner = (0..2_048).map(|k| (1, k));
    let expected: Vec<_> = [(0, NONE); 2_048].into_iter().chain(inner).collect();
    assert_nested(&contours, &expected);
}

#[test]
fn contours_of_two_points() {
    // By the product alone: the oracle takes long. All but one are as small as can be.
    const COUNT: i32 = 24_576;
    let around = square(-5, -5, COUNT);
    let mut contours = vec![around];
    contours.extend((0..COUNT).map(|k| spot([k, k])));
    let mut expected = vec![(0, NONE)];
    expected.extend((0..COUNT).map(|k| match k < COUNT - 5 {
        true => (1, 0),
        false => (0, NONE),
    }));
    assert!(nested(&contours) == expected);
}

#[test]
fn more_points_are_refused() {
    for count in [MOST + 1, MOST + 2, 131_072, 200_000] {
        assert_refused(&GivenLayer::of(&[vec![[0, 0]; count]]), 1, 0);
    }
    let pairs = vec![spot([1, 1]); MOST / 2 + 1];
    assert_refused(&GivenLayer::of(&pairs), 1, 0);
    let rising: Vec<u32> = (1..=100_000).map(|j| 2 * j).collect();
    assert_refused(&GivenLayer::new(&[0; 4], &rising), 1, 0);
    assert_refused(&GivenLayer::new(&[], &rising), 1, 0);
}

#[test]
fn the_last_places_of_the_longest_layer_are_tested() {
    for contours in [vec![whole().repeat(MOST / 4)], vec![spot([1, 2]); MOST / 2]] {
        for position in [0, 1, 98_304, 196_606, 196_607] {
            let mut layer = GivenLayer::of(&contours);
            layer.points[position] = -M - 1;
            assert_refused(&layer, 2, position as u64);
        }
    }
}
