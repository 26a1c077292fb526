//! Random layers and origins, right, broken and large, against the oracle.

use super::M;
use crate::harness::{test_product, test_threads, Operation};
use crate::operations::{Drawing, Preview, PreviewRun};
use files::{large_layers, random_layers};
use meshes::Random;

/// Contours as a layer of a file has them; of no layers none.
pub fn random_contours(random: &mut Random) -> Vec<Vec<[i32; 2]>> {
    let layer = random_layers(random).into_iter().next();
    layer.unwrap_or_default().contours
}

/// A whole number in the range of an origin.
pub fn random_whole(random: &mut Random) -> f32 {
    match random.below(8) {
        0 => random.choose(&[-0.0, 0.0]),
        1 => random.choose(&[-M, 1 - M, M - 1, M]) as f32,
        2 => random.within(-2..=2) as f32,
        _ => random.within(-M..=M) as f32,
    }
}

/// A float that is no such number as a rule, by its bits.
fn random_bad(random: &mut Random) -> u32 {
    let sign = (random.below(2) as u32) << 31;
    let number = random_whole(random);
    sign ^ match random.below(6) {
        0 => random.word() as u32,
        1 => random.choose(&[0x7FC0_0000, 0x7F80_0001, 0x7F80_0000, 0x0000_0001]),
        2 => (number + random.choose(&[0.5, 0.25, 0.125])).to_bits(),
        3 => number.to_bits().wrapping_add(random.choose(&[1, u32::MAX])),
        4 => (M as f32 + 0.125 * random.within(1..=9) as f32).to_bits(),
        _ => ((random.word() as i32) as f32).to_bits(),
    }
}

/// The bits of an origin, which is right but for once in eight times.
pub fn random_origin(random: &mut Random) -> [u32; 2] {
    let mut origin = [(); 2].map(|()| random_whole(random).to_bits());
    if random.one_in(8) {
        let side = random.below(2);
        origin[side] = random_bad(random);
    }
    origin
}

/// A call as a rule, at times past the last.
pub fn random_number(calls: usize, random: &mut Random) -> usize {
    match random.below(16) {
        0 => random.word() as usize,
        1 => random.choose(&[calls, calls + 1, 1 << 32, usize::MAX]),
        2..6 => 0,
        _ => random.below(calls.max(1)),
    }
}

/// Breaks a rule of a layer at a random place, if it has one.
pub fn spoil_layer(points: &mut Vec<i32>, ends: &mut Vec<u32>, random: &mut Random) {
    match random.below(6) {
        0 => points.truncate(points.len().saturating_sub(1 + random.below(2))),
        1 => points.extend(vec![0; 1 + random.below(3)]),
        2 => ends.truncate(ends.len().saturating_sub(1)),
        3 => ends.push(random_end(points.len(), random)),
        4 if !ends.is_empty() => {
            let place = random.below(ends.len());
            ends[place] = random_end(points.len(), random);
        }
        5 if !points.is_empty() => {
            let place = random.below(points.len());
            points[place] = random.choose(&[i32::MIN, -M - 1, M + 1, i32::MAX]);
        }
        _ => {}
    }
}

/// An end near those of a small layer as a rule.
pub fn random_end(numbers: usize, random: &mut Random) -> u32 {
    match random.below(6) {
        0 => random.word() as u32,
        1 => random.choose(&[u32::MAX, 1 << 31, 0, 1]),
        2 => numbers as u32 / 2,
        _ => random.below(numbers / 2 + 4) as u32,
    }
}

fn of_contours(contours: &[Vec<[i32; 2]>], random: &mut Random) -> Drawing {
    let mut drawing = Drawing::of(contours, [0.0; 2]);
    drawing.origin = random_origin(random);
    drawing.number = random_number(drawing.calls(), random);
    drawing
}

/// A right layer round an origin that is right as a rule.
fn right(random: &mut Random) -> Drawing {
    of_contours(&random_contours(random), random)
}

/// The same with something wrong.
fn spoiled(random: &mut Random) -> Drawing {
    let mut drawing = right(random);
    for _ in 0..random.choose(&[1, 1, 2]) {
        spoil_layer(&mut drawing.points, &mut drawing.ends, random);
    }
    drawing
}

/// One of the two.
pub fn perhaps_spoiled(random: &mut Random) -> Drawing {
    random.choose(&[right as fn(&mut Random) -> Drawing, spoiled])(random)
}

/// Numbers that are a layer seldom or never.
fn meaningless(random: &mut Random) -> Drawing {
    let points = (0..random.below(12)).map(|_| random.word() as i32 >> random.below(32));
    let points: Vec<i32> = points.collect();
    let mut ends: Vec<u32> = (0..random.below(4))
        .map(|_| random_end(points.len(), random))
        .collect();
    if random.one_in(2) {
        ends.sort();
        ends.pop();
        ends.push(points.len() as u32 / 2);
    }
    let mut drawing = Drawing::new(&points, &ends, [0.0; 2]);
    drawing.origin = match random.below(3) {
        0 => [(); 2].map(|()| random.word() as u32),
        _ => random_origin(random),
    };
    drawing.number = random_number(drawing.calls(), random);
    drawing
}

/// A layer with as many points as there may be, nearly so or too many, right or not.
fn near_the_limit(random: &mut Random) -> Drawing {
    let layer = large_layers(random).pop().expect("there are some");
    let mut drawing = of_contours(&layer.contours, random);
    match random.below(4) {
        0 => spoil_layer(&mut drawing.points, &mut drawing.ends, random),
        1 => {
            // One contour more.
            drawing.points.extend([0; 6]);
            drawing.ends.push(drawing.points.len() as u32 / 2);
        }
        _ => {}
    }
    drawing
}

#[test]
fn right_layers() {
    let tally = test_product::<Preview>("right layers", 2, right);
    tally.require(&[0, 17], 100);
    assert_eq!(tally.count(1) + tally.count(2), 0);
    let tally = test_product::<PreviewRun>("right layers", 2, right);
    tally.require(&[0, 17], 100);
    assert_eq!(tally.count(1) + tally.count(2), 0);
}

#[test]
fn layers_with_something_wrong() {
    let tally = test_product::<Preview>("something wrong", 2, spoiled);
    tally.require(&[0], 100);
    tally.require_refusals(Preview::REFUSALS, 100);
    let tally = test_product::<PreviewRun>("something wrong", 2, spoiled);
    tally.require(&[0], 100);
    tally.require_refusals(PreviewRun::REFUSALS, 100);
}

#[test]
fn meaningless_numbers() {
    let tally = test_product::<Preview>("meaningless numbers", 2, meaningless);
    tally.require(&[0, 17, 1, 2], 20);
    let tally = test_product::<PreviewRun>("meaningless numbers", 2, meaningless);
    tally.require(&[0, 17, 1, 2], 20);
}

#[test]
fn layers_near_the_limit() {
    test_product::<Preview>("near the limit", 4_000, near_the_limit);
    test_product::<PreviewRun>("near the limit", 4_000, near_the_limit);
}

#[test]
fn several_threads_at_once() {
    test_threads::<Preview>(250, perhaps_spoiled);
    test_threads::<PreviewRun>(250, perhaps_spoiled);
}
