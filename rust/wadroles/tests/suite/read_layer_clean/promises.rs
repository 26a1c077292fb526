//! What the specification says of every clean reading, asked of the product. The oracle only writes
//! files, and cleans where that is said.

use crate::clean::cleaned;
use crate::harness::{Answer, Case, Operation, Rounds, Tables};
use crate::operations::{LayerFile, ReadLayer, ReadLayerClean};
use crate::read_layer::{layers_by, product_layers, spoiled};
use files::{random_clean_layers, random_layers, ContourDamage};
use oracle::{clean_layer, encode_layers, FileLayer};

/// The layers that the clean reading takes out of a file, or a refusal's number and place.
pub fn clean_layers(file: &[u8]) -> Answer<Vec<FileLayer>> {
    layers_by(wadroles::read_layer_clean, file)
}

#[test]
fn clean_files_are_read_as_the_full_reading_reads_them() {
    let share = Rounds::one_in(10, "clean files, read").share(|random| {
        let layers = random_clean_layers(random);
        for i in 0..=layers.len() {
            let input = LayerFile::of(&layers, i);
            let mut clean = Case::<ReadLayerClean>::random(input.clone(), random);
            let mut full = Case::<ReadLayer>::exact(input);
            full.tables = clean.tables.clone();
            let answer = full.run(ReadLayer::product);
            assert_eq!(clean.run(ReadLayerClean::product), answer);
            assert_eq!(clean.tables.difference(&full.tables), None);
        }
        layers.iter().any(|layer| !layer.contours.is_empty())
    });
    assert!(share > 0.3, "too few files have a contour: {share}");
}

#[test]
fn what_is_read_is_left_by_cleaning_as_it_is() {
    let [taken, refused] = Rounds::one_in(10, "clean files, of any layers").shares(|random| {
        let mut layers = random_layers(random);
        if random.one_in(2) {
            layers = layers.iter().map(clean_layer).collect();
        }
        let unaltered = layers
            .iter()
            .all(|layer| cleaned(&layer.contours) == layer.contours);
        match clean_layers(&encode_layers(&layers)) {
            Ok(read) => assert!(unaltered && read == layers),
            Err((number, _)) => assert!(!unaltered && number == 18),
        }
        [unaltered, !unaltered]
    });
    assert!(taken > 0.3 && refused > 0.2, "{taken}, {refused}");
}

#[test]
fn the_contours_before_the_place_are_clean_and_the_one_there_is_not() {
    let share = Rounds::one_in(10, "clean files, places").share(|random| {
        let mut layers = random_clean_layers(random);
        let mut contours: Vec<_> = layers.iter_mut().flat_map(|l| &mut l.contours).collect();
        if contours.is_empty() {
            return false;
        }
        for _ in 0..1 + random.below(2) {
            let chosen = random.below(contours.len());
            ContourDamage::any(random).apply(contours[chosen], random);
        }
        let file = encode_layers(&layers);
        let Err((18, place)) = clean_layers(&file) else {
            panic!("an unclean contour was read: {layers:?}");
        };
        assert_eq!(Some(place), first_altered(&layers));
        true
    });
    assert!(share > 0.5, "too few files have a contour: {share}");
}

/// The place of the first contour that cleaning by the product alters: the length of a file that ends
/// before it.
fn first_altered(layers: &[FileLayer]) -> Option<u64> {
    let alters =
        |contour: &Vec<[i32; 2]>| cleaned(std::slice::from_ref(contour)) != [contour.clone()];
    for (k, layer) in layers.iter().enumerate() {
        if let Some(j) = layer.contours.iter().position(alters) {
            let mut before = layers[..=k].to_vec();
            before[k].contours.truncate(j);
            let count = |n: usize| oracle::encode_plain(n as u64).len();
            let longer_count = count(layer.contours.len()) - count(j);
            assert_eq!(count(layers.len()), count(k + 1));
            return Some((encode_layers(&before).len() + longer_count) as u64);
        }
    }
    None
}

#[test]
fn whatever_the_full_reading_refuses_the_clean_one_refuses_so() {
    let [broken, read] = Rounds::one_in(10, "clean files, broken").shares(|random| {
        let file = spoiled(random);
        let full = product_layers(&file);
        match (&full, clean_layers(&file)) {
            (Err(refusal), clean) => assert_eq!(clean, Err(*refusal)),
            (Ok(_), Ok(clean)) => assert_eq!(full.as_ref(), Ok(&clean)),
            (Ok(_), Err((number, _))) => assert_eq!(number, 18),
        }
        [full.is_err(), full.is_ok()]
    });
    assert!(broken > 0.3 && read > 0.1, "{broken}, {read}");
}
