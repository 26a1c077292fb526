//! Heights given and by default: how many pass, which are taken, where they fail to rise.

use super::file;
use crate::harness::{agree, assert_answer, Case, Tally};
use crate::operations::{AllLayers, Given};
use meshes::shapes::tetrahedron;
use meshes::{Mesh, Random, MAX_COORDINATE};
use wadroles::MAX_LAYERS;

/// Part P with its top at another height, and no heights given.
fn up_to(z: i32) -> Given {
    let mut mesh = tetrahedron(10);
    mesh.coords[11] = z;
    Given::new(mesh)
}

/// Vertices alone, at these heights, and no heights given.
fn vertices(z: &[i32]) -> Given {
    let coords = z.iter().flat_map(|&z| [0, 0, z]).collect();
    let corners = Vec::new();
    Given::new(Mesh { coords, corners })
}

/// Asserts number and place of a refusal.
#[track_caller]
fn assert_refused(given: Given, refusal: (u32, u64)) {
    assert_answer(&Case::<AllLayers>::exact(given), Err(refusal));
}

/// Asserts that the default is these heights.
#[track_caller]
fn assert_default(given: Given, heights: &[i32]) {
    assert!(given.heights.is_empty());
    let expected = match heights {
        [] => vec![0],
        _ => file(given.clone().over(heights)),
    };
    assert_eq!(file(given), expected);
}

#[test]
fn the_default_is_every_100_from_50_above_the_lowest_vertex() {
    for (top, heights) in [
        (10, &[][..]),
        (49, &[]),
        (50, &[50]),
        (51, &[50]),
        (149, &[50]),
        (150, &[50, 150]),
        (249, &[50, 150]),
        (250, &[50, 150, 250]),
        (1_000, &[50, 150, 250, 350, 450, 550, 650, 750, 850, 950]),
    ] {
        assert_default(up_to(top), heights);
    }
}

#[test]
fn the_default_is_counted_from_the_lowest_vertex_wherever_it_lies() {
    for lowest in [
        -MAX_COORDINATE,
        -1_051,
        -50,
        -1,
        1,
        49,
        MAX_COORDINATE - 250,
    ] {
        let mut given = up_to(250);
        given.mesh.move_by([0, 0, lowest]);
        given.mesh.shuffle(&mut Random::new(1));
        let given = Given::new(given.mesh);
        assert_default(given, &[50, 150, 250].map(|h| lowest + h));
    }
}

#[test]
fn without_vertices_or_at_one_height_there_is_no_default() {
    assert_default(vertices(&[]), &[]);
    assert_default(vertices(&[7]), &[]);
    assert_default(vertices(&[-9; 5]), &[]);
    assert_default(vertices(&[-9, 40]), &[]);
    assert_default(vertices(&[41, -9]), &[41]);
}

#[test]
fn given_heights_are_taken_and_no_others() {
    let alone = file(up_to(1_000).over(&[50]));
    assert_eq!(alone[0], 1);
    assert_default(up_to(100), &[50]);
    assert_ne!(file(up_to(1_000).over(&[51])), alone);
}

#[test]
fn at_most_4096_heights_may_be_given() {
    let most = MAX_LAYERS as i32;
    assert_eq!(most, 4_096);
    for first in [-2_000, i32::MIN, i32::MAX - most + 1] {
        let heights: Vec<i32> = (0..most).map(|k| first + k).collect();
        let given = Given::new(tetrahedron(1_000)).over(&heights);
        assert_eq!(file(given)[..2], [0x80, 0x20]);
    }
    for count in [4_097, 4_098, 5_000, 65_536, 100_000] {
        let heights: Vec<i32> = (-9..count - 9).collect();
        let given = Given::new(tetrahedron(1_000)).over(&heights);
        assert_refused(given, (1, 0));
    }
    // Too many is refused before they fail to rise.
    let given = Given::new(tetrahedron(1_000));
    assert_refused(given.clone().over(&[5; 4_097]), (1, 0));
    assert_refused(given.over(&[5; 4_096]), (12, 1));
}

#[test]
fn default_heights_are_counted_too() {
    // The last of 4,096 lies at 50 + 409,500.
    for (top, count) in [(409_549, 4_095), (409_550, 4_096), (409_649, 4_096)] {
        let by_default = file(up_to(top));
        assert_eq!(by_default[..2], oracle::encode_plain(count)[..]);
        let heights: Vec<i32> = (0..count as i32).map(|k| 50 + 100 * k).collect();
        assert_eq!(by_default, file(up_to(top).over(&heights)));
    }
    for top in [409_650, 409_651, 500_000, MAX_COORDINATE] {
        assert_refused(up_to(top), (1, 0));
    }
    // A mesh as tall as coordinates allow may be cut at heights that are given.
    let tall = up_to(MAX_COORDINATE).over(&[7]);
    assert_eq!(file(tall)[..3], [1, 14, 1]);
}

#[test]
fn a_default_of_too_many_is_refused_before_all_else() {
    let mut given = up_to(409_650);
    given.mesh.coords[0] = i32::MAX;
    given.mesh.corners[0] = 99;
    given.pairing.clear();
    given.order.clear();
    let mut case = Case::<AllLayers>::exact(given);
    case.tables.work.ring = case.tables.work.ring.shortened(0);
    assert_answer(&case, Err((1, 0)));
    case.input.mesh.coords[11] = 409_649;
    assert_answer(&case, Err((9, 0)));
}

#[test]
fn coordinates_of_32_bits_are_refused_whatever_the_default() {
    const LEAST: i32 = i32::MIN;
    const MOST: i32 = i32::MAX;
    // Heights of vertices, and the answer without heights and with some.
    for (z, by_default, given_heights) in [
        (&[LEAST, MOST][..], (1, 0), (2, 2)),
        (&[MOST, LEAST], (1, 0), (2, 2)),
        (&[LEAST, 0], (1, 0), (2, 2)),
        (&[0, MOST], (1, 0), (2, 5)),
        (&[-1_048_577, 1_048_577], (1, 0), (2, 2)),
        (&[LEAST], (2, 2), (2, 2)),
        (&[MOST], (2, 2), (2, 2)),
        (&[MOST; 4], (2, 2), (2, 2)),
        (&[MOST - 49, MOST], (2, 2), (2, 2)),
        (&[MOST - 50, MOST], (2, 2), (2, 2)),
        (&[MOST, MOST - 51], (2, 2), (2, 2)),
        (&[MOST - 409_649, MOST], (2, 2), (2, 2)),
        (&[MOST - 409_650, MOST], (1, 0), (2, 2)),
        (&[LEAST, LEAST + 49], (2, 2), (2, 2)),
        (&[LEAST, LEAST + 409_649], (2, 2), (2, 2)),
        (&[LEAST, LEAST + 409_650], (1, 0), (2, 2)),
        (&[1_048_576, 1_048_577], (2, 5), (2, 5)),
    ] {
        assert_refused(vertices(z), by_default);
        for heights in [&[0][..], &[LEAST, 0, MOST], &[MOST], &[7, 7]] {
            assert_refused(vertices(z).over(heights), given_heights);
        }
    }
}

#[test]
fn any_32_bits_may_stand_for_coordinates() {
    let mut tally = Tally::default();
    for round in 0..500 {
        let mut random = Random::of_round(1, round);
        let anchor = random.choose(&[i32::MIN, -1_048_577, -1, 0, 1_048_577, i32::MAX]);
        let reach = random.choose(&[0, 49, 50, 100, 409_649, 409_650, i32::MAX]);
        let mut mesh = tetrahedron(10);
        mesh.coords.fill_with(|| {
            let distance = random.within(-reach..=reach);
            anchor.saturating_add(random.choose(&[0, -reach, reach, distance]))
        });
        tally.add(&agree(&mut Case::<AllLayers>::exact(Given::new(mesh))));
    }
    tally.require(&[0, 1, 2], 20);
}

#[test]
fn every_height_must_lie_above_its_forerunner() {
    let rising = [-7, 0, 3, 5, 6, 10, 11, 400];
    for place in 1..rising.len() {
        let before = rising[place - 1];
        for height in [before, before - 1, -8, i32::MIN] {
            let mut heights = rising;
            heights[place] = height;
            let given = Given::new(tetrahedron(10)).over(&heights);
            assert_refused(given, (12, place as u64));
        }
    }
    // The first of several falls is named.
    for (heights, place) in [
        (&[1, 1][..], 1),
        (&[2, 1], 1),
        (&[i32::MAX, i32::MIN], 1),
        (&[i32::MIN, i32::MAX, i32::MIN], 2),
        (&[1, 2, 2, 1], 2),
        (&[1, 5, 3, 4, 6], 2),
        (&[3, 2, 1], 1),
    ] {
        assert_refused(Given::new(tetrahedron(10)).over(heights), (12, place));
    }
}

#[test]
fn the_last_of_4096_heights_must_rise_too() {
    for place in [1, 127, 128, 2_048, 4_094, 4_095] {
        let mut heights: Vec<i32> = (0..4_096).collect();
        heights[place] = heights[place - 1];
        let given = Given::new(tetrahedron(10)).over(&heights);
        assert_refused(given, (12, place as u64));
    }
}
