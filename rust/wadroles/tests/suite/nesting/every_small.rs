//! Every small triangle with every point by it, every two small contours, and every three small
//! rectangles.

use super::{assert_nested, found, rectangle, spot, started, Contour, NONE};
use crate::harness::{agree, Case};
use crate::inputs::sequences;
use crate::operations::{GivenLayer, Nesting};

/// The points of a square grid.
fn grid(from: i32, to: i32) -> Vec<[i32; 2]> {
    let points = (from..=to).flat_map(|x| (from..=to).map(move |y| [x, y]));
    points.collect()
}

/// All contours of so many points of these.
fn all(points: &[[i32; 2]], length: u32) -> Vec<Contour> {
    let numbers: Vec<u8> = (0..points.len() as u8).collect();
    let contours = sequences(&numbers, length).map(|sequence| {
        let points = sequence.iter().map(|&number| points[usize::from(number)]);
        points.collect()
    });
    contours.collect()
}

/// Depths and parents on which product and oracle agree.
#[track_caller]
fn agree_on(contours: &[Contour]) -> Vec<(u32, u32)> {
    let mut case = Case::<Nesting>::exact(GivenLayer::of(contours));
    agree(&mut case).unwrap();
    found(&case.input, &case.tables)
}

/// On which side of each edge of a triangle a point is, as signs.
fn sides([x, y]: [i32; 2], triangle: &[[i32; 2]]) -> [i32; 3] {
    [0, 1, 2].map(|k| {
        let ([ax, ay], [bx, by]) = (triangle[k], triangle[(k + 1) % 3]);
        ((ax - x) * (by - y) - (bx - x) * (ay - y)).signum()
    })
}

#[test]
fn every_small_triangle() {
    let mut met = [0; 3];
    for triangle in all(&grid(0, 2), 3) {
        let places = grid(-1, 3);
        let mut contours = vec![triangle.clone()];
        contours.extend(places.iter().map(|&place| spot(place)));
        let found = agree_on(&contours).split_off(1);
        for (&place, (depth, parent)) in places.iter().zip(found) {
            assert_eq!(parent == 0, depth == 1);
            match sides(place, &triangle) {
                [1, 1, 1] | [-1, -1, -1] => {
                    assert_eq!(depth, 1, "{place:?} {triangle:?}");
                    met[0] += 1;
                }
                // On an edge, or on the line of one.
                on if on.contains(&0) => met[1] += 1,
                _ => {
                    assert_eq!(depth, 0, "{place:?} {triangle:?}");
                    met[2] += 1;
                }
            }
        }
    }
    assert!(met.iter().all(|&count| count > 20), "{met:?}");
}

#[test]
fn every_two_small_contours() {
    let points = grid(0, 1);
    let contours = [all(&points, 2), all(&points, 3)].concat();
    assert_eq!(contours.len(), 80);
    let mut held = 0;
    for first in &contours {
        for second in &contours {
            let found = agree_on(&[first.clone(), second.clone()]);
            assert!([(0, NONE), (1, 1)].contains(&found[0]));
            assert!([(0, NONE), (1, 0)].contains(&found[1]));
            held += found.iter().filter(|&&(depth, _)| depth > 0).count();
        }
    }
    // Of the triangles on a unit square two hold a corner of it, the lower left: those below a diagonal.
    // Each occurs in six orders, and 20 of the contours start at that corner.
    assert_eq!(held, 2 * 20 * 2 * 6);
}

/// Whether a point lies in a rectangle: from the least x and y to below the greatest.
fn has(place: [i32; 2], contour: &Contour) -> bool {
    (0..2).all(|axis| {
        let values = || contour.iter().map(|point| point[axis]);
        let (least, greatest) = (values().min().unwrap(), values().max().unwrap());
        (least..greatest).contains(&place[axis])
    })
}

#[test]
fn every_three_small_rectangles() {
    let pairs = [(0, 1), (0, 2), (1, 1)];
    let shapes = pairs.iter().flat_map(|&(x, width)| {
        let heights = pairs.iter();
        heights.map(move |&(y, height)| rectangle(x, y, width, height))
    });
    let starts = shapes.flat_map(|shape| (0..4).map(move |start| started(shape.clone(), start)));
    let contours: Vec<Contour> = starts.collect();
    let size = |contour: &Contour| {
        let sides = [0, 1].map(|axis| contour[2][axis] - contour[0][axis]);
        (sides[0] * sides[1]).abs()
    };
    for first in &contours {
        for second in &contours {
            for third in &contours {
                let three = [first, second, third];
                let expected = (0..3).map(|i| {
                    let others = (0..3).filter(|&j| j != i && has(three[i][0], three[j]));
                    let others: Vec<usize> = others.collect();
                    let parent = others.iter().min_by_key(|&&j| (size(three[j]), j));
                    (others.len() as u32, parent.map_or(NONE, |&j| j as u32))
                });
                let expected: Vec<_> = expected.collect();
                let three: Vec<Contour> = three.into_iter().cloned().collect();
                assert_eq!(agree_on(&three), expected, "{three:?}");
            }
        }
    }
    assert_nested(&contours[..2], &[(1, 1), (0, NONE)]);
}
