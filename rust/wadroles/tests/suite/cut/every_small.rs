//! Everything small: each pairing table of the least mesh, and each edge over a few units.

use super::layer::product_layer;
use crate::harness::{agree, Answer, Case, Tally};
use crate::operations::{Cut, Given};
use meshes::shapes::{pillow, tetrahedron};
use meshes::Mesh;

#[track_caller]
fn answer(given: Given) -> Answer<(usize, usize)> {
    agree(&mut Case::<Cut>::exact(given))
}

#[test]
fn every_pairing_of_the_least_mesh() {
    let mut tally = Tally::default();
    for table in 0..7u32.pow(6) {
        let pairing = (0..6).map(|digit| table / 7u32.pow(digit) % 7).collect();
        tally.add(&answer(Given {
            pairing,
            ..Given::bare(pillow(10)).at(5)
        }));
    }
    assert_eq!(tally.count(0), 1);
    assert_eq!(tally.count(7), 7u64.pow(6) - 1);
}

#[test]
fn every_pairing_of_two_corners_of_a_doubled_mesh() {
    // The least mesh twice over the same vertices, so that each edge has two right partners.
    let mut mesh = pillow(10);
    mesh.corners.extend(pillow(10).corners);
    let right = Given::new(mesh).at(5);
    let mut tally = Tally::default();
    for first in 0..12 {
        for second in 0..first {
            for entries in 0..13 * 13 {
                let mut given = right.clone();
                given.pairing[first] = entries / 13;
                given.pairing[second] = entries % 13;
                tally.add(&answer(given));
            }
        }
    }
    // Each two corners have one right choice if the others stay.
    assert_eq!(tally.count(0), 12 * 11 / 2);
    tally.require(&[7], 10_000);
}

#[test]
fn every_right_pairing_of_a_doubled_mesh() {
    // Three edges, each with two corners up and two down: two ways to pair each.
    let mut mesh = pillow(10);
    mesh.corners.extend(pillow(10).corners);
    let corners_of = |edge| {
        let mut corners = mesh.edges().zip(0u32..).filter(move |(e, _)| *e == edge);
        [(); 2].map(|()| corners.next().unwrap().1)
    };
    let mut contours = Vec::new();
    for ways in 0..8 {
        let mut given = Given::new(mesh.clone()).at(5);
        for (i, (from, to)) in [(0, 1), (1, 2), (2, 0)].into_iter().enumerate() {
            let (there, mut back) = (corners_of((from, to)), corners_of((to, from)));
            if ways >> i & 1 == 1 {
                back.reverse();
            }
            for (a, b) in there.into_iter().zip(back) {
                given.pairing[a as usize] = b;
                given.pairing[b as usize] = a;
            }
        }
        answer(given.clone()).unwrap();
        contours.push(product_layer(given).contours());
    }
    // Two edges are crossed, 1 to 2 and 2 to 0: paired alike, they give two contours of two
    // points, and else one of four.
    assert_eq!(contours, [2, 2, 1, 1, 1, 1, 2, 2]);
}

#[test]
fn every_short_edge_at_every_height() {
    for x in -3..=3 {
        for y in -3..=3 {
            for rise in 1..=6 {
                for height in 0..=rise + 1 {
                    let to = [x, y, rise];
                    let mesh = Mesh {
                        coords: [[-1, 1, 0], to, to, to].concat(),
                        ..tetrahedron(1)
                    };
                    answer(Given::new(mesh).at(height)).unwrap();
                }
            }
        }
    }
}

#[test]
fn every_tetrahedron_of_few_heights_at_every_height() {
    let mut with_contours = [0; 2];
    for heights in 0..4i32.pow(4) {
        let z = |vertex: u32| heights / 4i32.pow(vertex) % 4 - 2;
        let points = [[0, 0, z(0)], [5, 0, z(1)], [0, 5, z(2)], [-3, -4, z(3)]];
        for height in -3..=2 {
            let mesh = Mesh {
                coords: points.concat(),
                ..tetrahedron(1)
            };
            let (contours, _) = answer(Given::new(mesh).at(height)).unwrap();
            with_contours[contours] += 1;
        }
    }
    // Some vertex lies below the height and some does not: then there is one contour, never more.
    let crossed: u64 = (1..=4u64).map(|k| 256 - k.pow(4) - (4 - k).pow(4)).sum();
    assert_eq!(with_contours, [256 * 6 - crossed, crossed]);
}
