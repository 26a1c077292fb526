//! What the specification says of every file, asked of the product: it holds, byte by byte, the layers
//! that single cuts give, and they are read back. Of the oracle only its encoder has a part in it.

use crate::cut::contours;
use crate::harness::{Case, Operation, Rounds};
use crate::inputs::random_mesh;
use crate::operations::{AllLayersIn, Given};
use meshes::{rising_heights, Random};
use oracle::{encode_layers, FileLayer};
use wadroles::{contour, read_layer, FlatLayer};

/// The heights that All layers takes by default, one by one.
fn default_heights(z: &[i32]) -> Vec<i32> {
    let (Some(lowest), Some(highest)) = (z.iter().min(), z.iter().max()) else {
        return Vec::new();
    };
    let mut heights = Vec::new();
    let mut height = lowest + 50;
    while height <= *highest {
        heights.push(height);
        height += 100;
    }
    heights
}

/// The layers that the product cuts at each height by itself.
pub fn single_cuts(given: &Given, heights: &[i32]) -> Vec<FileLayer> {
    heights
        .iter()
        .map(|&height| FileLayer {
            height,
            contours: contours(given, height),
        })
        .collect()
}

/// The file that the product writes in one of the profiles.
pub fn product_file<const CLEAN: bool>(given: &Given) -> Vec<u8> {
    let mut case = Case::<AllLayersIn<CLEAN>>::exact(given.clone());
    let length = case.run(AllLayersIn::<CLEAN>::product).unwrap();
    assert_eq!(length, case.tables.output.view().len());
    case.tables.output.view().to_vec()
}

/// A mesh of small height, with a right pairing and heights that rise, or none.
pub fn random_given(random: &mut Random) -> Given {
    let mut mesh = random_mesh(random);
    if random.one_in(2) {
        let heights = mesh.coords.iter_mut().skip(2).step_by(3);
        heights.for_each(|z| *z %= 1_000);
    }
    let mut heights = rising_heights(&mesh, random);
    let z: Vec<i32> = mesh.coords.iter().skip(2).step_by(3).copied().collect();
    if heights.is_empty() && default_heights(&z).len() > 100 {
        heights.push(z[0]);
    }
    Given::paired(mesh, random).over(&heights)
}

/// The heights that All layers takes, given or by default.
pub fn heights_taken(given: &Given) -> Vec<i32> {
    let coords = given.mesh.coords.iter();
    let z: Vec<i32> = coords.skip(2).step_by(3).copied().collect();
    match given.heights.as_slice() {
        [] => default_heights(&z),
        heights => heights.to_vec(),
    }
}

#[test]
fn the_file_is_that_of_single_cuts() {
    let share = Rounds::one_in(50, "all layers, single cuts").share(|random| {
        let given = random_given(random);
        let layers = single_cuts(&given, &heights_taken(&given));
        assert_eq!(product_file::<false>(&given), encode_layers(&layers));
        layers.iter().any(|layer| !layer.contours.is_empty())
    });
    assert!(share > 0.4, "too few files have a contour: {share}");
}

#[test]
fn the_layers_are_read_back() {
    let share = Rounds::one_in(250, "all layers, read back").share(|random| {
        let given = random_given(random);
        let heights = heights_taken(&given);
        let layers = single_cuts(&given, &heights);
        let file = product_file::<false>(&given);
        let room = given.corners();
        for (i, layer) in layers.iter().enumerate() {
            let (mut points, mut ends) = (vec![0; 2 * room], vec![0; room]);
            let mut tables = FlatLayer {
                points: &mut points,
                ends: &mut ends,
            };
            let read = read_layer(&file, i, &mut tables).unwrap();
            assert_eq!((read.layers, read.height), (heights.len(), heights[i]));
            let ends = &ends[..read.counts.contours];
            let contours = (0..ends.len()).map(|j| {
                let part = contour(&points, ends, j).chunks(2);
                part.map(|p| [p[0], p[1]]).collect::<Vec<_>>()
            });
            assert!(contours.eq(layer.contours.iter().cloned()));
        }
        !layers.is_empty()
    });
    assert!(share > 0.5, "too few files have a layer: {share}");
}

#[test]
fn defaults_are_taken_often_enough() {
    let taken = (0..1_000).filter(|&round| {
        let given = random_given(&mut Random::of_round(1, round));
        given.heights.is_empty() && heights_taken(&given).len() > 2
    });
    assert!(taken.count() > 30);
}
