//! Faults that the random rounds notice.

use super::random::any;
use crate::all_layers::perhaps_damaged;
use crate::harness::{assert_common_faults_noticed, assert_noticed, Fault, Lent, Operation};
use crate::operations::{AllLayers, AllLayersClean, FileTables, Given};
use meshes::Random;
use oracle::{clean_layer, decode_layers, encode_layers, FileLayer};
use std::collections::BTreeSet;

type Answer = crate::harness::Answer<usize>;

/// The layers of the full file, of a case that is not refused but for its output.
fn layers(given: &Given, tables: &FileTables) -> Vec<FileLayer> {
    let mut long = tables.clone();
    long.output = Lent::new(AllLayers::lengths(given)[5], &mut Random::new(1));
    AllLayers::oracle(given, &mut long).expect("it is not refused");
    decode_layers(long.output.view()).expect("it is a file")
}

/// Does what the oracle does, but writes the file of these layers.
fn writing(
    given: &Given,
    tables: &mut FileTables,
    written: impl Fn(Vec<FileLayer>) -> Vec<FileLayer>,
) -> Answer {
    let output = tables.output.clone();
    match AllLayersClean::oracle(given, tables) {
        Ok(_) | Err((14, _)) => {}
        refused => return refused,
    }
    tables.output = output;
    let file = encode_layers(&written(layers(given, tables)));
    if tables.output.length() < file.len() {
        return Err((14, 0));
    }
    tables.output.table()[..file.len()].copy_from_slice(&file);
    Ok(file.len())
}

/// With each layer cleaned in another way.
fn cleaning(
    given: &Given,
    tables: &mut FileTables,
    clean: impl Fn(&mut Vec<[i32; 2]>) -> bool,
) -> Answer {
    writing(given, tables, |mut layers| {
        let contours = layers.iter_mut().map(|layer| &mut layer.contours);
        contours.for_each(|contours| contours.retain_mut(&clean));
        layers
    })
}

fn variety(contour: &[[i32; 2]]) -> usize {
    contour.iter().collect::<BTreeSet<_>>().len()
}

fn not_cleaned(given: &Given, tables: &mut FileTables) -> Answer {
    writing(given, tables, |layers| layers)
}

fn empty_layers_dropped(given: &Given, tables: &mut FileTables) -> Answer {
    writing(given, tables, |layers| {
        let has_a_contour = |layer: &FileLayer| !layer.contours.is_empty();
        let gone = |layer: &FileLayer| has_a_contour(layer) && !has_a_contour(&clean_layer(layer));
        let left = layers.iter().filter(|layer| !gone(layer));
        left.map(clean_layer).collect()
    })
}

fn last_layer_not_cleaned(given: &Given, tables: &mut FileTables) -> Answer {
    writing(given, tables, |mut layers| {
        let last = layers.pop();
        let mut cleaned: Vec<FileLayer> = layers.iter().map(clean_layer).collect();
        cleaned.extend(last);
        cleaned
    })
}

fn tail_kept(given: &Given, tables: &mut FileTables) -> Answer {
    cleaning(given, tables, |contour| {
        contour.dedup();
        variety(contour) > 2
    })
}

fn repeats_kept(given: &Given, tables: &mut FileTables) -> Answer {
    cleaning(given, tables, |contour| {
        while contour.len() > 1 && contour.first() == contour.last() {
            contour.pop();
        }
        variety(contour) > 2
    })
}

fn few_points_kept(given: &Given, tables: &mut FileTables) -> Answer {
    cleaning(given, tables, |contour| {
        contour.dedup();
        if contour.len() > 1 && contour.first() == contour.last() {
            contour.pop();
        }
        contour.len() > 1
    })
}

fn three_points_are_enough(given: &Given, tables: &mut FileTables) -> Answer {
    cleaning(given, tables, |contour| {
        contour.dedup();
        if contour.len() > 1 && contour.first() == contour.last() {
            contour.pop();
        }
        contour.len() > 2
    })
}

fn room_for_the_full_file(given: &Given, tables: &mut FileTables) -> Answer {
    let before = tables.output.clone();
    let length = AllLayersClean::oracle(given, tables)?;
    if tables.output.length() < encode_layers(&layers(given, tables)).len() {
        tables.output = before;
        return Err((14, 0));
    }
    Ok(length)
}

fn output_past_the_file_written(given: &Given, tables: &mut FileTables) -> Answer {
    let length = AllLayersClean::oracle(given, tables)?;
    let full = encode_layers(&layers(given, tables)).len();
    let output = tables.output.table();
    let end = full.min(output.len());
    output[length..end].fill(0);
    Ok(length)
}

fn points_left(given: &Given, tables: &mut FileTables) -> Answer {
    let before = tables.work.cut.points.clone();
    let answer = AllLayersClean::oracle(given, tables);
    if answer.is_ok() {
        tables.work.cut.points = before;
    }
    answer
}

fn work_left_after_14(given: &Given, tables: &mut FileTables) -> Answer {
    let before = tables.clone();
    let answer = AllLayersClean::oracle(given, tables);
    if answer == Err((14, 0)) {
        *tables = before;
    }
    answer
}

#[test]
fn faults_are_noticed() {
    let faults: [Fault<AllLayersClean>; 11] = [
        ("not cleaned", not_cleaned, "answer "),
        ("empty layers", empty_layers_dropped, "answer Ok("),
        ("last layer", last_layer_not_cleaned, "answer "),
        ("tail", tail_kept, "answer "),
        ("repeats", repeats_kept, "answer "),
        ("few points", few_points_kept, "answer "),
        ("three points", three_points_are_enough, "answer "),
        ("room", room_for_the_full_file, "answer Err((14, 0)), not"),
        ("past the file", output_past_the_file_written, "but output"),
        ("points left", points_left, "points entry"),
        ("work left", work_left_after_14, "answer Err((14, 0)), but"),
    ];
    assert_noticed::<AllLayersClean>(2_000, any, &faults);
    assert_common_faults_noticed::<AllLayersClean>(2_000, perhaps_damaged);
}
