//! Faults that the random rounds notice.

use super::random::any;
use crate::harness::{assert_common_faults_noticed, assert_noticed, Fault, Operation};
use crate::operations::{FlatLayer, LayerFile, ReadLayer, ReadLayerClean};
use oracle::{decode_layers, encode_layers, is_clean, FileLayer};
use std::collections::BTreeSet;

type Answer = crate::harness::Answer<(usize, i32, usize, usize)>;

fn oracle(input: &LayerFile, tables: &mut FlatLayer) -> Answer {
    ReadLayerClean::oracle(input, tables)
}

/// Does what the oracle does, but reads on where these layers are taken for clean.
fn taking(
    input: &LayerFile,
    tables: &mut FlatLayer,
    are_clean: impl Fn(&[FileLayer]) -> bool,
) -> Answer {
    match oracle(input, tables) {
        Err((18, place)) => {
            let layers = decode_layers(&input.file).expect("18 comes after 13");
            match are_clean(&layers) {
                true => ReadLayer::oracle(input, tables),
                false => Err((18, place)),
            }
        }
        answer => answer,
    }
}

fn all_of(layers: &[FileLayer], is_clean: impl Fn(&[[i32; 2]]) -> bool) -> bool {
    let mut contours = layers.iter().flat_map(|layer| &layer.contours);
    contours.all(|contour| is_clean(contour))
}

fn variety(contour: &[[i32; 2]]) -> usize {
    contour.iter().collect::<BTreeSet<_>>().len()
}

fn repeats(contour: &[[i32; 2]]) -> bool {
    contour.windows(2).any(|pair| pair[0] == pair[1])
}

fn not_tested(input: &LayerFile, tables: &mut FlatLayer) -> Answer {
    taking(input, tables, |_| true)
}

fn only_its_layer_tested(input: &LayerFile, tables: &mut FlatLayer) -> Answer {
    let i = input.i;
    taking(input, tables, |layers| match layers.get(i) {
        Some(layer) => all_of(std::slice::from_ref(layer), is_clean),
        None => false,
    })
}

fn last_layer_not_tested(input: &LayerFile, tables: &mut FlatLayer) -> Answer {
    taking(input, tables, |layers| {
        all_of(&layers[..layers.len() - 1], is_clean)
    })
}

fn repeats_taken(input: &LayerFile, tables: &mut FlatLayer) -> Answer {
    taking(input, tables, |layers| {
        all_of(layers, |c| c.first() != c.last() && variety(c) > 2)
    })
}

fn closed_taken(input: &LayerFile, tables: &mut FlatLayer) -> Answer {
    taking(input, tables, |layers| {
        all_of(layers, |c| !repeats(c) && variety(c) > 2)
    })
}

fn two_points_taken(input: &LayerFile, tables: &mut FlatLayer) -> Answer {
    taking(input, tables, |layers| {
        all_of(layers, |c| !repeats(c) && c.first() != c.last())
    })
}

fn three_points_taken(input: &LayerFile, tables: &mut FlatLayer) -> Answer {
    taking(input, tables, |layers| {
        all_of(layers, |c| {
            !repeats(c) && c.first() != c.last() && c.len() > 2
        })
    })
}

/// A contour in which a point occurs again anywhere is refused.
fn points_used_again_refused(input: &LayerFile, tables: &mut FlatLayer) -> Answer {
    let before = tables.clone();
    let answer = oracle(input, tables)?;
    let layers = decode_layers(&input.file).expect("it was read");
    if !all_of(&layers, |c| variety(c) == c.len()) {
        *tables = before;
        return Err((18, 3));
    }
    Ok(answer)
}

fn missing_layer_before_18(input: &LayerFile, tables: &mut FlatLayer) -> Answer {
    let mut copy = tables.clone();
    match (oracle(input, tables), ReadLayer::oracle(input, &mut copy)) {
        (Err((18, _)), Err((15, _))) => Err((15, 0)),
        (answer, _) => answer,
    }
}

fn room_before_18(input: &LayerFile, tables: &mut FlatLayer) -> Answer {
    let mut copy = tables.clone();
    match (oracle(input, tables), ReadLayer::oracle(input, &mut copy)) {
        (Err((18, _)), Err((9, _))) => Err((9, 0)),
        (answer, _) => answer,
    }
}

/// The unclean contour is met before what is wrong after it.
fn unclean_before_13(input: &LayerFile, tables: &mut FlatLayer) -> Answer {
    let answer = oracle(input, tables);
    let without = |length: usize| {
        let shorter = LayerFile::new(&input.file[..length], input.i);
        oracle(&shorter, &mut tables.clone())
    };
    match answer {
        Err((13, place)) => match without(place as usize) {
            Err((18, place)) => Err((18, place)),
            _ => answer,
        },
        _ => answer,
    }
}

fn place_of_the_first_point(input: &LayerFile, tables: &mut FlatLayer) -> Answer {
    match oracle(input, tables) {
        Err((18, place)) => Err((18, place + 1)),
        answer => answer,
    }
}

/// The last unclean contour is named: the place is that of the first in what is left of the file.
fn last_one_named(input: &LayerFile, tables: &mut FlatLayer) -> Answer {
    let answer = oracle(input, tables);
    let Err((18, _)) = answer else {
        return answer;
    };
    let mut layers = decode_layers(&input.file).expect("18 comes after 13");
    let [k, j] = last_unclean(&layers);
    let before = encode_layers(&layers).len();
    let rest = layers[k].contours.split_off(j);
    let after: usize = rest.iter().map(|contour| contour_length(contour)).sum();
    let later: usize = layers[k + 1..].iter().map(layer_length).sum();
    Err((18, (before - later - after) as u64))
}

fn last_unclean(layers: &[FileLayer]) -> [usize; 2] {
    let mut contours = layers.iter().enumerate().flat_map(|(k, layer)| {
        let here = layer.contours.iter().enumerate();
        here.map(move |(j, contour)| ([k, j], contour))
    });
    let unclean = contours.rfind(|(_, contour)| !is_clean(contour));
    unclean.expect("there is one").0
}

/// The bytes of a contour: those of a file of it alone, but for three counts and a height.
fn contour_length(contour: &[[i32; 2]]) -> usize {
    let contours = vec![contour.to_vec()];
    let height = 0;
    encode_layers(&[FileLayer { height, contours }]).len() - 3
}

fn layer_length(layer: &FileLayer) -> usize {
    encode_layers(std::slice::from_ref(layer)).len() - 1
}

#[test]
fn faults_are_noticed() {
    let faults: [Fault<ReadLayerClean>; 13] = [
        ("not tested", not_tested, "not Err((18, "),
        ("only its layer", only_its_layer_tested, "not Err((18, "),
        ("last layer", last_layer_not_tested, "not Err((18, "),
        ("repeats", repeats_taken, "not Err((18, "),
        ("closed", closed_taken, "not Err((18, "),
        ("two points", two_points_taken, "not Err((18, "),
        ("three points", three_points_taken, "not Err((18, "),
        ("used again", points_used_again_refused, "not Ok("),
        ("15 before 18", missing_layer_before_18, "not Err((18, "),
        ("9 before 18", room_before_18, "not Err((18, "),
        ("18 before 13", unclean_before_13, "not Err((13, "),
        ("first point", place_of_the_first_point, "not Err((18, "),
        ("last one", last_one_named, "not Err((18, "),
    ];
    assert_noticed::<ReadLayerClean>(4_000, any, &faults);
    assert_common_faults_noticed::<ReadLayerClean>(4_000, any);
}
