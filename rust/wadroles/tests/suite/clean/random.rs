//! Random layers, right, broken and large, against the oracle.

use super::M;
use crate::harness::{test_product, test_threads, Operation};
use crate::operations::{Clean, GivenLayer};
use crate::preview::{random_end, spoil_layer};
use files::{large_layers, random_layers, repeating_contours};
use meshes::Random;

/// A layer in which points occur again and again.
pub fn repeating(random: &mut Random) -> GivenLayer {
    GivenLayer::of(&repeating_contours(random))
}

/// A layer of a file; of no layers none.
fn of_a_file(random: &mut Random) -> GivenLayer {
    let layer = random_layers(random).into_iter().next();
    GivenLayer::of(&layer.unwrap_or_default().contours)
}

/// One of the two with something wrong.
fn spoiled(random: &mut Random) -> GivenLayer {
    let mut layer = match random.one_in(3) {
        true => of_a_file(random),
        false => repeating(random),
    };
    for _ in 0..random.choose(&[1, 1, 2]) {
        spoil_layer(&mut layer.points, &mut layer.ends, random);
    }
    layer
}

/// A layer of one of these kinds.
pub fn perhaps_spoiled(random: &mut Random) -> GivenLayer {
    let kinds = [repeating, repeating, spoiled];
    random.choose(&kinds)(random)
}

/// Numbers that are a layer seldom or never.
pub fn meaningless(random: &mut Random) -> GivenLayer {
    let reach = random.choose(&[0, 1, M, M + 1, i32::MAX]);
    let points = (0..random.below(14)).map(|_| random.within(-reach..=reach));
    let points: Vec<i32> = points.collect();
    let ends = (0..random.below(4)).map(|_| random_end(points.len(), random));
    let mut ends: Vec<u32> = ends.collect();
    if random.one_in(2) {
        ends.sort();
        ends.pop();
        ends.push(points.len() as u32 / 2);
    }
    GivenLayer { points, ends }
}

/// As many points as there may be, nearly so or too many, right or not; often with few different ones.
fn near_the_limit(random: &mut Random) -> GivenLayer {
    let layer = large_layers(random).pop().expect("there are some");
    let mut layer = GivenLayer::of(&layer.contours);
    if random.one_in(2) {
        let most = random.choose(&[1, 2, 3, 100]);
        layer.points.iter_mut().for_each(|x| *x %= most);
    }
    match random.below(4) {
        0 => spoil_layer(&mut layer.points, &mut layer.ends, random),
        1 => {
            // One contour more.
            layer.points.extend([0; 6]);
            layer.ends.push(layer.points.len() as u32 / 2);
        }
        _ => {}
    }
    layer
}

#[test]
fn layers_with_equal_points() {
    let tally = test_product::<Clean>("equal points", 1, repeating);
    tally.require(&[0, 9], 100);
    assert_eq!(tally.count(1) + tally.count(2), 0);
}

#[test]
fn layers_of_files() {
    let tally = test_product::<Clean>("layers of files", 2, of_a_file);
    tally.require(&[0, 9], 100);
}

#[test]
fn layers_with_something_wrong() {
    let tally = test_product::<Clean>("something wrong", 2, spoiled);
    tally.require(&[0], 100);
    tally.require_refusals(Clean::REFUSALS, 100);
}

#[test]
fn meaningless_numbers() {
    let tally = test_product::<Clean>("meaningless numbers", 2, meaningless);
    tally.require(&[0, 1, 2, 9], 20);
}

#[test]
fn layers_near_the_limit() {
    test_product::<Clean>("near the limit", 2_000, near_the_limit);
}

#[test]
fn several_threads_at_once() {
    test_threads::<Clean>(250, perhaps_spoiled);
}
