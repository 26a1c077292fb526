//! Rings within rings and boxes within boxes: who holds whom is known from how they are made.

use super::random::altered;
use super::{assert_nested, square, Contour, Worked, NONE};
use crate::harness::Rounds;
use meshes::Random;
use std::f64::consts::TAU;

/// Contours, each with the one that holds it most closely, if one does.
#[derive(Default)]
struct Held {
    contours: Vec<Contour>,
    holders: Vec<Option<usize>>,
}

impl Held {
    /// Adds a contour and gives its number.
    fn add(&mut self, contour: Contour, holder: Option<usize>) -> usize {
        self.contours.push(contour);
        self.holders.push(holder);
        self.contours.len() - 1
    }

    fn depth(&self, i: usize) -> u32 {
        self.holders[i].map_or(0, |holder| 1 + self.depth(holder))
    }

    /// In any order, from any start and either way round.
    fn shuffled(&self, random: &mut Random) -> Worked {
        let mut order: Vec<usize> = (0..self.contours.len()).collect();
        random.shuffle(&mut order);
        let place = |i: usize| order.iter().position(|&old| old == i).expect("all are");
        let contours = order.iter().map(|&i| self.contours[i].clone());
        let contours = contours.map(|contour| altered(contour, random)).collect();
        let parent = |i: usize| self.holders[i].map_or(NONE, |holder| place(holder) as u32);
        let found = order.iter().map(|&i| (self.depth(i), parent(i))).collect();
        (contours, found)
    }

    /// Asserts it in the order in which they were made, and in others.
    #[track_caller]
    fn assert_found(&self, random: &mut Random) {
        let parents = self.holders.iter();
        let parents = parents.map(|holder| holder.map_or(NONE, |holder| holder as u32));
        let found: Vec<_> = (0..).map(|i| self.depth(i)).zip(parents).collect();
        assert_nested(&self.contours, &found);
        let (contours, found) = self.shuffled(random);
        assert_nested(&contours, &found);
    }
}

/// So many points round a place, the first on its right.
fn ring([x, y]: [i32; 2], radius: i32, points: u32) -> Contour {
    let around = (0..points).map(|k| TAU * f64::from(k) / f64::from(points));
    let at = |along: f64| (f64::from(radius) * along).round() as i32;
    around
        .map(|angle| [x + at(angle.cos()), y + at(angle.sin())])
        .collect()
}

/// Adds rings from outside in.
fn add_rings(held: &mut Held, centre: [i32; 2], count: i32, points: u32, outside: Option<usize>) {
    let mut holder = outside;
    for k in (1..=count).rev() {
        holder = Some(held.add(ring(centre, 100 * k, points), holder));
    }
}

/// Adds a box and, with gaps between them, boxes in its quarters, which have others in theirs.
fn add_boxes(held: &mut Held, [x, y, side]: [i32; 3], holder: Option<usize>, random: &mut Random) {
    let this = held.add(square(x, y, side), holder);
    let quarter = (side - 3) / 2;
    if quarter < 1 {
        return;
    }
    for [right, up] in [[0, 0], [1, 0], [0, 1], [1, 1]] {
        if random.one_in(2) {
            let side = quarter - random.below(quarter.min(3) as usize) as i32;
            let corner = [right, up].map(|step| 1 + step * (quarter + 1));
            let place = [x + corner[0], y + corner[1], side];
            add_boxes(held, place, Some(this), random);
        }
    }
}

#[test]
fn rings_within_rings() {
    for (count, points) in [
        (1, 3),
        (2, 4),
        (9, 4),
        (5, 5),
        (30, 8),
        (12, 31),
        (100, 900),
    ] {
        let mut held = Held::default();
        add_rings(&mut held, [0, 0], count, points, None);
        assert_eq!(held.depth(count as usize - 1), count as u32 - 1);
        held.assert_found(&mut Random::new(1));
    }
}

#[test]
fn rings_beside_rings() {
    for seed in 0..20 {
        let mut random = Random::new(seed);
        let mut held = Held::default();
        let plate = held.add(square(-10_000, -10_000, 30_000), None);
        for k in 0..5 {
            let centre = [-7_000 + 4_000 * k, 3_000 * (k % 3)];
            let count = 1 + random.below(9) as i32;
            add_rings(&mut held, centre, count, 12, Some(plate));
        }
        held.assert_found(&mut random);
    }
}

#[test]
fn boxes_within_boxes() {
    let [deep, many] = Rounds::one_in(250, "nesting, boxes").shares(|random| {
        let mut held = Held::default();
        let sides = [20, 60, 100];
        for k in 0..3 {
            let side = random.choose(&sides);
            add_boxes(&mut held, [200 * k, -50, side], None, random);
        }
        held.assert_found(random);
        let count = held.contours.len();
        [(0..count).any(|i| held.depth(i) > 3), count > 20]
    });
    assert!(deep > 0.3 && many > 0.1, "{deep}, {many}");
}
