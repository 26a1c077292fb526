//! Layers of meshes, as they are cut and as they are read back from a layer file.

use super::{assert_nested, found, nested, Contour, NONE};
use crate::all_layers::file;
use crate::cut;
use crate::harness::{agree, report, test_product, Case, Rounds};
use crate::inputs::{
    boxes_touching_along_an_edge, joined, octahedra, random_mesh, solids_sharing_edges,
};
use crate::operations::{Cut, Given, GivenLayer, LayerFile, Nesting, ReadLayer};
use meshes::shapes::{ball, cuboid, torus};
use meshes::{random_height, Mesh, Random};
use oracle::decode_layers;
use wadroles::area;

fn inside_out(mut mesh: Mesh) -> Mesh {
    (0..mesh.triangle_count()).for_each(|t| mesh.flip_triangle(t));
    mesh
}

/// Solids within the gaps of others, from outside in: every second is a gap.
fn shells(shapes: impl IntoIterator<Item = Mesh>) -> Mesh {
    let alternating = shapes
        .into_iter()
        .enumerate()
        .map(|(k, shape)| match k % 2 {
            0 => shape,
            _ => inside_out(shape),
        });
    alternating.fold(Mesh::default(), |all, shape| joined(all, &shape))
}

/// Tori in the tube of the largest.
fn tori() -> Mesh {
    shells([3_000, 2_000, 1_000].map(|tube| torus(40, 24, 7_000, tube)))
}

fn balls() -> Mesh {
    shells([9_000, 7_000, 5_000, 3_000].map(|radius| ball(3, radius)))
}

/// The mesh with its names and triangles shuffled, so that contours stand and start elsewhere.
fn shuffled(mut mesh: Mesh, seed: u64) -> Given {
    mesh.shuffle(&mut Random::new(seed));
    Given::new(mesh)
}

fn doubled_area(contour: &Contour) -> i64 {
    area(contour.as_flattened()).unwrap()
}

/// What is found for contours of which each lies in all that are larger.
fn one_in_the_other(contours: &[Contour]) -> Vec<(u32, u32)> {
    let mut by_size: Vec<usize> = (0..contours.len()).collect();
    by_size.sort_by_key(|&i| -doubled_area(&contours[i]).abs());
    let mut expected = vec![(0, NONE); contours.len()];
    for (depth, pair) in (1..).zip(by_size.windows(2)) {
        expected[pair[1]] = (depth, pair[0] as u32);
    }
    expected
}

/// Asserts it of a cut, and that it has so many contours, every second of them a hole.
#[track_caller]
fn assert_one_in_the_other(given: &Given, height: i32, count: usize) {
    let contours = cut::contours(given, height);
    assert_eq!(contours.len(), count, "{height}");
    assert_nested(&contours, &one_in_the_other(&contours));
    for (contour, (depth, _)) in contours.iter().zip(nested(&contours)) {
        assert_eq!(doubled_area(contour) > 0, depth % 2 == 0, "{height}");
    }
}

#[test]
fn a_torus_is_a_ring_with_a_hole() {
    for seed in 0..4 {
        let given = shuffled(torus(30, 16, 9_000, 4_000), seed);
        for height in [-3_990, -3_000, -7, 0, 1, 2_001, 3_990] {
            assert_one_in_the_other(&given, height, 2);
        }
    }
}

#[test]
fn a_torus_on_its_side_is_two_rings_beside_each_other() {
    let mut mesh = torus(30, 16, 9_000, 4_000);
    for point in mesh.coords.chunks_exact_mut(3) {
        point.rotate_left(1);
    }
    for seed in 0..4 {
        let given = shuffled(mesh.clone(), seed);
        for (height, count) in [(-9_000, 1), (-3_000, 2), (0, 2), (4_000, 2), (8_000, 1)] {
            let contours = cut::contours(&given, height);
            assert_eq!(contours.len(), count, "{height}");
            assert_nested(&contours, &vec![(0, NONE); count]);
        }
    }
}

#[test]
fn shells_within_shells() {
    for seed in 0..4 {
        let given = shuffled(tori(), seed);
        for (height, count) in [(-2_900, 2), (-1_500, 4), (-50, 6), (0, 6), (900, 6)] {
            assert_one_in_the_other(&given, height, count);
        }
        let given = shuffled(balls(), seed);
        for (height, count) in [(-8_000, 1), (-6_000, 2), (-4_000, 3), (0, 4), (2_000, 4)] {
            assert_one_in_the_other(&given, height, count);
        }
        let given = shuffled(octahedra(1_000, 900), seed);
        assert_eq!(cut::contours(&given, 0).len(), 2);
    }
}

#[test]
fn parts_in_the_gap_of_a_box() {
    let size = |side: i32| cuboid([-side; 3], [side; 3]);
    let mut mesh = shells([size(1_000), size(900)]);
    for [x, y] in [[-400, -400], [400, -400], [-400, 400], [400, 400]] {
        let mut part = torus(20, 12, 200, 80);
        part.move_by([x, y, 0]);
        mesh.join(&part);
    }
    for seed in 0..4 {
        let contours = cut::contours(&shuffled(mesh.clone(), seed), 5);
        let sizes: Vec<i64> = contours.iter().map(doubled_area).collect();
        let number = |size: i64| sizes.iter().position(|&s| s == size).unwrap() as u32;
        let (around, gap) = (number(8_000_000), number(-6_480_000));
        let found = nested(&contours);
        assert_eq!(found[around as usize], (0, NONE));
        assert_eq!(found[gap as usize], (1, around));
        let count = |kind: &dyn Fn(usize) -> bool| (0..10).filter(|&i| kind(i)).count();
        assert_eq!(found.len(), 10);
        assert_eq!(count(&|i| found[i] == (2, gap) && sizes[i] > 0), 4);
        let is_hole = |i: usize| found[i].0 == 3 && sizes[i] < 0;
        let holes: Vec<usize> = (0..10).filter(|&i| is_hole(i)).collect();
        assert_eq!(holes.len(), 4);
        for hole in holes {
            let ring = found[hole].1 as usize;
            assert_eq!(found[ring], (2, gap));
            // Both are of the part in the same quarter.
            let signs = [hole, ring].map(|i| contours[i][0].map(i32::signum));
            assert_eq!(signs[0], signs[1]);
        }
    }
}

/// Asserts that product and oracle agree on the layers of a file of the mesh and on its cuts, which are
/// nested alike. Gives the deepest contour's depth.
#[track_caller]
fn assert_read_as_cut(given: &Given, heights: &[i32]) -> u32 {
    let file = file(given.clone().over(heights));
    let mut deepest = 0;
    for (i, &height) in heights.iter().enumerate() {
        let mut read = Case::<ReadLayer>::exact(LayerFile::new(&file, i));
        agree(&mut read).unwrap();
        let (points, ends) = (read.tables.points.view(), read.tables.ends.view());
        let mut case = Case::<Nesting>::exact(GivenLayer::new(points, ends));
        assert_eq!(agree(&mut case), Ok(()));
        let of_read = found(&case.input, &case.tables);
        assert_eq!(of_read, nested(&cut::contours(given, height)), "{height}");
        let depths = of_read.iter().map(|&(depth, _)| depth);
        deepest = deepest.max(depths.max().unwrap_or(0));
    }
    assert_eq!(decode_layers(&file).unwrap().len(), heights.len());
    deepest
}

#[test]
fn layers_that_were_read_back() {
    let heights: Vec<i32> = (-10..=10).map(|k| 450 * k).collect();
    assert_eq!(assert_read_as_cut(&shuffled(tori(), 1), &heights), 5);
    assert_eq!(assert_read_as_cut(&shuffled(balls(), 2), &heights), 3);
    let touching = shuffled(boxes_touching_along_an_edge(), 3);
    for given in [solids_sharing_edges(), vec![touching]].concat() {
        assert_read_as_cut(&given, &[-5, 0, 1, 5, 10, 15, 25]);
    }
}

/// The layer of a random mesh, or of one within another.
fn of_a_mesh(random: &mut Random) -> GivenLayer {
    let mut mesh = random_mesh(random);
    if random.one_in(3) {
        let times = random.choose(&[2, 3]);
        let smaller = mesh.clone().smaller(times);
        mesh.join(&smaller);
    }
    let height = random_height(&mesh, random);
    let mut cut = Case::<Cut>::exact(Given::paired(mesh, random).at(height));
    let (contours, points) = agree(&mut cut).unwrap();
    let points = &cut.tables.points.view()[..2 * points];
    GivenLayer::new(points, &cut.tables.ends.view()[..contours])
}

#[test]
fn layers_of_random_meshes() {
    let tally = test_product::<Nesting>("layers of meshes", 25, of_a_mesh);
    tally.require(&[0, 9], 20);
    let [several, held] = Rounds::fixed(1, 2_000).shares(|random| {
        let layer = of_a_mesh(random);
        let mut case = Case::<Nesting>::exact(layer);
        agree(&mut case).unwrap();
        let found = found(&case.input, &case.tables);
        [found.len() > 1, found.iter().any(|&(depth, _)| depth > 0)]
    });
    report(format!(
        "nesting, of meshes: several {several}, held {held}"
    ));
    assert!(several > 0.1 && held > 0.05, "{several}, {held}");
}
