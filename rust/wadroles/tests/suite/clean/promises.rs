//! What the specification says of every cleaning, asked of the product. The oracle is not asked.

use super::random::repeating;
use crate::cut;
use crate::harness::{Case, Operation, Rounds};
use crate::inputs::{random_mesh, shrunk};
use crate::operations::{Clean, Given, GivenLayer};
use files::repeating_contours;
use meshes::random_height;
use std::collections::BTreeSet;
use wadroles::{area, contour};

/// The contours that the product leaves of these.
#[track_caller]
pub fn cleaned(contours: &[Vec<[i32; 2]>]) -> Vec<Vec<[i32; 2]>> {
    let mut case = Case::<Clean>::exact(GivenLayer::of(contours));
    let (count, points) = case.run(Clean::product).unwrap();
    let points = &case.tables.points.view()[..2 * points];
    let ends = &case.tables.ends.view()[..count];
    assert_eq!(ends.last().copied().unwrap_or(0) as usize, points.len() / 2);
    (0..count)
        .map(|j| contour(points, ends, j).chunks(2))
        .map(|part| part.map(|p| [p[0], p[1]]).collect())
        .collect()
}

/// The sum of the doubled areas.
fn area_of(contours: &[Vec<[i32; 2]>]) -> i64 {
    let areas = contours
        .iter()
        .map(|contour| area(contour.as_flattened()).unwrap());
    areas.sum()
}

/// The contours with every point taken out that stands before an equal one, the last before the first.
/// What is left of each, and that it has three different points, says what cleaning leaves but for the
/// starts.
fn rings(contours: &[Vec<[i32; 2]>]) -> Vec<BTreeSet<Vec<[i32; 2]>>> {
    let turned = contours.iter().map(|contour| {
        let next = contour.iter().cycle().skip(1);
        let pairs = contour.iter().zip(next);
        let ring: Vec<[i32; 2]> = pairs.filter(|(a, b)| a != b).map(|(a, _)| *a).collect();
        (0..ring.len())
            .map(|k| [&ring[k..], &ring[..k]].concat())
            .collect()
    });
    let three = |ring: &BTreeSet<Vec<[i32; 2]>>| {
        let points = ring.iter().flatten();
        points.collect::<BTreeSet<_>>().len() > 2
    };
    turned.filter(three).collect()
}

/// Asserts what holds for every cleaning, and gives what is left.
#[track_caller]
fn assert_promises(contours: &[Vec<[i32; 2]>]) -> Vec<Vec<[i32; 2]>> {
    let left = cleaned(contours);
    assert_eq!(cleaned(&left), left, "twice is once");
    assert_eq!(area_of(&left), area_of(contours), "areas");
    for contour in &left {
        assert!(contour.windows(2).all(|pair| pair[0] != pair[1]));
        assert_ne!(contour.first(), contour.last());
        let different: BTreeSet<&[i32; 2]> = contour.iter().collect();
        assert!(different.len() > 2);
    }
    let starts = |contours: &[Vec<[i32; 2]>]| -> Vec<[i32; 2]> {
        let of_three = |contour: &&Vec<[i32; 2]>| contour.iter().collect::<BTreeSet<_>>().len() > 2;
        contours.iter().filter(of_three).map(|c| c[0]).collect()
    };
    assert_eq!(starts(&left), starts(contours), "starts");
    assert_eq!(rings(&left), rings(contours), "rings");
    left
}

#[test]
fn of_repeating_contours() {
    let [altered, gone, stays] = Rounds::one_in(10, "clean, promises").shares(|random| {
        let contours = repeating_contours(random);
        let left = assert_promises(&contours);
        let is_gone = left.is_empty() && !contours.is_empty();
        [left != contours, is_gone, left == contours]
    });
    assert!(altered > 0.3 && gone > 0.05 && stays > 0.05);
}

#[test]
fn of_the_layers_of_meshes() {
    let [altered, left] = Rounds::one_in(50, "clean, layers of meshes").shares(|random| {
        let mesh = match random.one_in(2) {
            true => random_mesh(random),
            false => shrunk(random),
        };
        let height = random_height(&mesh, random);
        let contours = cut::contours(&Given::paired(mesh, random), height);
        let left = assert_promises(&contours);
        [left != contours, !left.is_empty()]
    });
    assert!(altered > 0.2 && left > 0.1, "{altered}, {left}");
}

#[test]
fn what_is_not_filled_stays() {
    let share = Rounds::one_in(10, "clean, unfilled").share(|random| {
        let mut case = Case::<Clean>::long(repeating(random), random);
        let before = case.tables.clone();
        let (contours, points) = case.run(Clean::product).unwrap();
        let after = &case.tables;
        assert_eq!(
            after.points.view()[2 * points..],
            before.points.view()[2 * points..]
        );
        assert_eq!(
            after.ends.view()[contours..],
            before.ends.view()[contours..]
        );
        contours > 0 && contours < case.input.ends.len()
    });
    assert!(share > 0.2, "too few layers lose a contour and keep one");
}
