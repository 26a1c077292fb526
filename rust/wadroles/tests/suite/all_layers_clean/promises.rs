//! What the specification says of every clean file, asked of the product: it holds, byte by byte, the
//! cleaned layers of single cuts, and they are read back. Of the oracle only its encoder has a part in
//! it, and its cleaning where that is said.

use super::random::small;
use crate::all_layers::{heights_taken, product_file, random_given, single_cuts};
use crate::clean::cleaned;
use crate::harness::Rounds;
use crate::operations::Given;
use crate::read_layer::product_layers;
use crate::read_layer_clean::clean_layers;
use meshes::Random;
use oracle::{clean_layer, encode_layers, FileLayer};

/// A mesh at heights that rise, often one of many edges shorter than a unit. There are few layers.
fn given(random: &mut Random) -> Given {
    let given = match random.one_in(2) {
        true => random_given(random),
        false => small(random),
    };
    match given.heights.is_empty() && heights_taken(&given).len() > 100 {
        true => given.over(&[-3, 0, 40]),
        false => given,
    }
}

/// What the product leaves of the layers that it cuts at each height by itself.
fn cleaned_cuts(given: &Given) -> Vec<FileLayer> {
    let cuts = single_cuts(given, &heights_taken(given)).into_iter();
    cuts.map(|layer| FileLayer {
        height: layer.height,
        contours: cleaned(&layer.contours),
    })
    .collect()
}

#[test]
fn the_file_is_that_of_cleaned_single_cuts() {
    let name = "all layers clean, single cuts";
    let [left, altered, gone] = Rounds::one_in(50, name).shares(|random| {
        let given = given(random);
        let cuts = single_cuts(&given, &heights_taken(&given));
        let layers = cleaned_cuts(&given);
        let by_oracle: Vec<FileLayer> = cuts.iter().map(clean_layer).collect();
        assert_eq!(layers, by_oracle);
        assert_eq!(product_file::<true>(&given), encode_layers(&layers));
        let mut both = cuts.iter().zip(&layers);
        let goes = |(cut, layer): (&FileLayer, &FileLayer)| {
            layer.contours.is_empty() && !cut.contours.is_empty()
        };
        [
            layers.iter().any(|layer| !layer.contours.is_empty()),
            layers != cuts,
            both.any(goes),
        ]
    });
    assert!(left > 0.3, "too few files have a contour: {left}");
    assert!(altered > 0.3, "too few files lose a point: {altered}");
    assert!(gone > 0.1, "too few layers lose all contours: {gone}");
}

#[test]
fn both_readings_read_the_layers_back() {
    let share = Rounds::one_in(250, "all layers clean, read back").share(|random| {
        let given = given(random);
        let layers = cleaned_cuts(&given);
        let file = product_file::<true>(&given);
        assert_eq!(product_layers(&file).as_ref(), Ok(&layers));
        assert_eq!(clean_layers(&file).as_ref(), Ok(&layers));
        layers.iter().any(|layer| !layer.contours.is_empty())
    });
    assert!(share > 0.3, "too few files have a contour: {share}");
}

#[test]
fn the_clean_reading_takes_a_full_file_only_where_it_is_the_clean_one() {
    let [taken, refused] = Rounds::one_in(250, "all layers clean, full files").shares(|random| {
        let given = given(random);
        let full = product_file::<false>(&given);
        let clean = product_file::<true>(&given);
        assert!(clean.len() <= full.len());
        let read = clean_layers(&full);
        match full == clean {
            true => assert_eq!(read, product_layers(&full)),
            false => assert_eq!(read.map_err(|(number, _)| number), Err(18)),
        }
        [full == clean, full != clean]
    });
    assert!(taken > 0.1 && refused > 0.3, "{taken}, {refused}");
}
