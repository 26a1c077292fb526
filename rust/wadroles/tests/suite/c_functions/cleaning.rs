use super::{exact, gives, lent, refuses};
use crate::inputs::{part_p, CLEAN_FILE_P, LAYER_FILE_P};
use crate::operations::{AllLayersClean, Clean, Given, GivenLayer, LayerFile, ReadLayerClean};

fn of(points: &[i32], ends: &[u32]) -> GivenLayer {
    GivenLayer::new(points, ends)
}

/// A triangle with a point twice and closed, and a contour of two points.
fn two_contours() -> GivenLayer {
    of(&[5, 0, 5, 0, 0, 5, 0, 0, 5, 0, 1, 1, 2, 2], &[5, 7])
}

#[test]
fn clean_gives_contours_and_points() {
    assert_eq!(exact::<Clean>(two_contours()), gives(&[1, 3]));
    assert_eq!(lent::<Clean>(two_contours(), &[99, 99]), gives(&[1, 3]));
    let triangle = of(&[5, 0, 0, 5, 0, 0], &[3]);
    assert_eq!(exact::<Clean>(triangle), gives(&[1, 3]));
    assert_eq!(exact::<Clean>(of(&[7; 8], &[2, 4])), gives(&[0, 0]));
}

#[test]
fn clean_takes_null_for_empty_tables() {
    assert_eq!(exact::<Clean>(of(&[], &[])), gives(&[0, 0]));
    assert_eq!(lent::<Clean>(of(&[], &[]), &[5, 5]), gives(&[0, 0]));
    assert_eq!(lent::<Clean>(two_contours(), &[0, 0]), refuses(9, 0));
    assert_eq!(exact::<Clean>(of(&[], &[0])), refuses(1, 0));
    assert_eq!(exact::<Clean>(of(&[1, 2], &[])), refuses(1, 0));
}

#[test]
fn clean_writes_the_place_of_a_refusal() {
    for (layer, lengths, number, place) in [
        (of(&[1], &[]), [0, 0], 1, 0),
        (of(&[1, 2, 3, 4], &[1, 2]), [4, 2], 1, 0),
        (of(&[1, 2, 1_048_577, 4], &[2]), [4, 1], 2, 2),
        (of(&[1, 2, 3, i32::MIN], &[2]), [0, 0], 2, 3),
        (two_contours(), [13, 2], 9, 0),
        (two_contours(), [14, 1], 9, 0),
        (two_contours(), [6, 1], 9, 0),
    ] {
        let output = lent::<Clean>(layer.clone(), &lengths);
        assert_eq!(output, refuses(number, place), "{layer:?}");
    }
}

#[test]
fn all_layers_clean_gives_the_length() {
    assert_eq!(exact::<AllLayersClean>(part_p()), gives(&[16]));
    let longer = [12, 24, 12, 12, 12, 99];
    assert_eq!(lent::<AllLayersClean>(part_p(), &longer), gives(&[16]));
    let shorter = [12, 24, 12, 12, 12, 15];
    assert_eq!(lent::<AllLayersClean>(part_p(), &shorter), refuses(14, 0));
    assert_eq!(exact::<AllLayersClean>(part_p().over(&[10])), gives(&[3]));
}

#[test]
fn all_layers_clean_takes_null_for_empty_tables() {
    assert_eq!(exact::<AllLayersClean>(Given::default()), gives(&[1]));
    let nothing = lent::<AllLayersClean>(Given::default(), &[0; 6]);
    assert_eq!(nothing, refuses(14, 0));
    for (missing, number) in [(0, 9), (1, 9), (2, 9), (3, 9), (4, 9), (5, 14)] {
        let mut lengths = [12, 24, 12, 12, 12, 16];
        lengths[missing] = 0;
        let output = lent::<AllLayersClean>(part_p(), &lengths);
        assert_eq!(output, refuses(number, 0));
    }
}

#[test]
fn read_layer_clean_gives_all_four_words() {
    for (i, words) in [
        (0, [4, 0, 0, 0]),
        (1, [4, 5, 1, 3]),
        (2, [4, 10, 0, 0]),
        (3, [4, 11, 0, 0]),
    ] {
        let input = LayerFile::new(&CLEAN_FILE_P, i);
        assert_eq!(exact::<ReadLayerClean>(input), (0, words));
    }
    let below = LayerFile::new(&[1, 9, 0], 0);
    let words = [1, u64::MAX - 4, 0, 0];
    assert_eq!(lent::<ReadLayerClean>(below, &[0, 0]), (0, words));
}

#[test]
fn read_layer_clean_writes_the_place_of_a_refusal_and_takes_null() {
    for (file, i, lengths, number, place) in [
        (&[][..], 0, [0, 0], 13, 0),
        (&CLEAN_FILE_P[..15], 0, [6, 1], 13, 15),
        (&LAYER_FILE_P, 1, [6, 1], 18, 14),
        (&LAYER_FILE_P, 9, [0, 0], 18, 14),
        (&[1, 9, 1, 2, 0, 0, 2, 2], 0, [4, 1], 18, 3),
        (&CLEAN_FILE_P, 4, [0, 0], 15, 0),
        (&CLEAN_FILE_P, 1, [5, 1], 9, 0),
        (&CLEAN_FILE_P, 1, [6, 0], 9, 0),
    ] {
        let output = lent::<ReadLayerClean>(LayerFile::new(file, i), &lengths);
        assert_eq!(output, refuses(number, place), "layer {i} of {file:?}");
    }
}
