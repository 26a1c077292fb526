//! What the specification says of every layer file, asked of the product. The oracle only writes files.

use crate::cut::contours;
use crate::harness::{refused, Answer, Case, Operation, Rounds, Tables};
use crate::inputs::random_mesh;
use crate::operations::{Given, LayerFile, ReadLayer};
use files::{random_layers, Damage};
use meshes::{random_height, Random};
use oracle::{encode_layers, FileLayer};
use std::collections::BTreeSet;
use wadroles::{Reading, Refusal};

/// The layers that the product reads out of a file, or a refusal's number and place.
pub fn product_layers(file: &[u8]) -> Answer<Vec<FileLayer>> {
    layers_by(wadroles::read_layer, file)
}

/// A reading of the product.
type Read = fn(&[u8], usize, &mut wadroles::FlatLayer) -> Result<Reading, Refusal>;

/// The same by one of the readings.
pub fn layers_by(read: Read, file: &[u8]) -> Answer<Vec<FileLayer>> {
    let mut layers = Vec::new();
    loop {
        let i = layers.len();
        match layer_by(read, file, i) {
            Ok((layer, count)) if i + 1 < count => layers.push(layer),
            Ok((layer, _)) => {
                layers.push(layer);
                return Ok(layers);
            }
            // Only a file without layers has no layer 0.
            Err((15, 0)) if i == 0 => return Ok(layers),
            Err(refusal) => return Err(refusal),
        }
    }
}

/// A layer that the product reads, and the number of layers in the file.
fn layer_by(read: Read, file: &[u8], i: usize) -> Answer<(FileLayer, usize)> {
    // Each value takes a byte at least.
    let (mut points, mut ends) = (vec![0; file.len()], vec![0; file.len()]);
    let mut tables = wadroles::FlatLayer {
        points: &mut points,
        ends: &mut ends,
    };
    let reading = read(file, i, &mut tables).map_err(refused)?;
    let counts = reading.counts;
    let ends = &ends[..counts.contours];
    assert_eq!(ends.last().map_or(0, |&end| end as usize), counts.points);
    let contours = (0..counts.contours)
        .map(|j| wadroles::contour(&points, ends, j))
        .map(|part| part.chunks(2).map(|p| [p[0], p[1]]).collect());
    let layer = FileLayer {
        height: reading.height,
        contours: contours.collect(),
    };
    Ok((layer, reading.layers))
}

/// The file of random layers after some damage.
pub fn spoiled(random: &mut Random) -> Vec<u8> {
    let mut file = encode_layers(&random_layers(random));
    for _ in 0..random.choose(&[1, 1, 2]) {
        Damage::any(random).apply(&mut file, random);
    }
    file
}

#[test]
fn layers_are_read_back_into_the_first_entries() {
    let share = Rounds::one_in(10, "layer files, read back").share(|random| {
        let layers = random_layers(random);
        for (i, layer) in layers.iter().enumerate() {
            let (points, ends) = entries(layer);
            let mut case = Case::<ReadLayer>::long(LayerFile::of(&layers, i), random);
            let mut filled = case.tables.clone();
            filled.points.table()[..points.len()].copy_from_slice(&points);
            filled.ends.table()[..ends.len()].copy_from_slice(&ends);
            let answer = (layers.len(), layer.height, ends.len(), points.len() / 2);
            assert_eq!(case.run(ReadLayer::product), Ok(answer));
            assert_eq!(case.tables.difference(&filled), None);
        }
        layers.iter().any(|layer| !layer.contours.is_empty())
    });
    assert!(share > 0.3, "too few files have a contour");
}

/// The points and the ends of a layer.
fn entries(layer: &FileLayer) -> (Vec<i32>, Vec<u32>) {
    let (mut points, mut ends) = (Vec::new(), Vec::new());
    for contour in &layer.contours {
        points.extend(contour.concat());
        ends.push(points.len() as u32 / 2);
    }
    (points, ends)
}

#[test]
fn what_is_accepted_is_the_file_of_its_layers() {
    let share = Rounds::one_in(5, "layer files, accepted").share(|random| {
        let file = spoiled(random);
        match product_layers(&file) {
            Ok(layers) => {
                assert_eq!(encode_layers(&layers), file);
                true
            }
            Err((number, _)) => {
                assert_eq!(number, 13);
                false
            }
        }
    });
    assert!(share > 0.1, "too few files are accepted");
}

#[test]
fn the_bytes_before_the_place_are_right() {
    let share = Rounds::one_in(5, "layer files, places").share(|random| {
        let file = spoiled(random);
        let Err((13, place)) = product_layers(&file) else {
            return false;
        };
        // Up to the place it is a whole file, or one that lacks the next value.
        match product_layers(&file[..place as usize]) {
            Ok(_) => assert!(file.len() as u64 > place),
            Err(refusal) => assert_eq!(refusal, (13, place)),
        }
        true
    });
    assert!(share > 0.3, "too few files are refused");
}

#[test]
fn the_layers_of_a_mesh_are_read_back() {
    let share = Rounds::one_in(100, "layer files, of cuts").share(|random| {
        let given = Given::paired(random_mesh(random), random);
        let heights: BTreeSet<i32> = (0..5).map(|_| random_height(&given.mesh, random)).collect();
        let layers: Vec<FileLayer> = heights
            .into_iter()
            .map(|height| FileLayer {
                height,
                contours: contours(&given, height),
            })
            .collect();
        assert_eq!(
            product_layers(&encode_layers(&layers)).as_ref(),
            Ok(&layers)
        );
        layers.iter().any(|layer| !layer.contours.is_empty())
    });
    assert!(share > 0.3, "too few files have a contour");
}
