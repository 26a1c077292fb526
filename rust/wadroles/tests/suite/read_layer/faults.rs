//! Faults that the random rounds notice.

use super::random::perhaps_broken;
use crate::harness::{assert_common_faults_noticed, assert_noticed, Fault, Operation};
use crate::operations::{FlatLayer, LayerFile, ReadLayer};
use files::values;

type Answer = crate::harness::Answer<(usize, i32, usize, usize)>;

fn oracle(input: &LayerFile, tables: &mut FlatLayer) -> Answer {
    ReadLayer::oracle(input, tables)
}

fn missing_layer_first(input: &LayerFile, tables: &mut FlatLayer) -> Answer {
    if input.i > 4_096 {
        return Err((15, 0));
    }
    oracle(input, tables)
}

fn room_before_missing_layer(input: &LayerFile, tables: &mut FlatLayer) -> Answer {
    let answer = oracle(input, tables);
    if answer == Err((15, 0)) && tables.ends.view().is_empty() {
        return Err((9, 0));
    }
    answer
}

fn left_over_byte_ignored(input: &LayerFile, tables: &mut FlatLayer) -> Answer {
    let answer = oracle(input, tables);
    match input.file.split_last() {
        Some((_, file)) if answer == Err((13, file.len() as u64)) => {
            let without = LayerFile::new(file, input.i);
            oracle(&without, tables).or(answer)
        }
        _ => answer,
    }
}

/// Takes out the last byte of a value where it is 0 and not the only one.
fn needless_group_accepted(input: &LayerFile, tables: &mut FlatLayer) -> Answer {
    let mut shorter = input.clone();
    for value in values(&input.file).into_iter().rev() {
        if value.len() > 1 && input.file[value.end - 1] == 0 {
            shorter.file.remove(value.end - 1);
            shorter.file[value.end - 2] &= 127;
        }
    }
    match oracle(input, tables) {
        Err((13, place)) => oracle(&shorter, tables).or(Err((13, place))),
        answer => answer,
    }
}

fn next_layer_read(input: &LayerFile, tables: &mut FlatLayer) -> Answer {
    let before = tables.clone();
    let answer = oracle(input, tables)?;
    *tables = before.clone();
    let next = LayerFile::new(&input.file, input.i + 1);
    oracle(&next, tables).or_else(|_| {
        *tables = before;
        oracle(input, tables).or(Ok(answer))
    })
}

fn ends_not_added_up(input: &LayerFile, tables: &mut FlatLayer) -> Answer {
    let answer = oracle(input, tables)?;
    let ends = &mut tables.ends.table()[..answer.2];
    for j in (1..ends.len()).rev() {
        ends[j] -= ends[j - 1];
    }
    Ok(answer)
}

fn differences_not_added_up(input: &LayerFile, tables: &mut FlatLayer) -> Answer {
    let answer = oracle(input, tables)?;
    let points = &mut tables.points.table()[..2 * answer.3];
    for position in (2..points.len().min(4)).rev() {
        points[position] -= points[position - 2];
    }
    Ok(answer)
}

fn x_and_y_exchanged(input: &LayerFile, tables: &mut FlatLayer) -> Answer {
    let answer = oracle(input, tables)?;
    let points = &mut tables.points.table()[..2 * answer.3];
    points.chunks_exact_mut(2).for_each(|p| p.swap(0, 1));
    Ok(answer)
}

fn last_point_left(input: &LayerFile, tables: &mut FlatLayer) -> Answer {
    let before = tables.clone();
    let answer = oracle(input, tables)?;
    if let Some(last) = (2 * answer.3).checked_sub(1) {
        tables.points.table()[last] = before.points.view()[last];
    }
    Ok(answer)
}

fn last_end_left(input: &LayerFile, tables: &mut FlatLayer) -> Answer {
    let before = tables.clone();
    let answer = oracle(input, tables)?;
    if let Some(last) = answer.2.checked_sub(1) {
        tables.ends.table()[last] = before.ends.view()[last];
    }
    Ok(answer)
}

fn height_without_sign(input: &LayerFile, tables: &mut FlatLayer) -> Answer {
    let (layers, height, contours, points) = oracle(input, tables)?;
    Ok((layers, height.wrapping_abs(), contours, points))
}

fn always_empty(input: &LayerFile, tables: &mut FlatLayer) -> Answer {
    let before = tables.clone();
    let (layers, height, _, _) = oracle(input, tables)?;
    *tables = before;
    Ok((layers, height, 0, 0))
}

#[test]
fn faults_are_noticed() {
    let faults: [Fault<ReadLayer>; 12] = [
        ("15 first", missing_layer_first, "answer Err((15, 0)), not"),
        ("9 before 15", room_before_missing_layer, "not Err((15, 0))"),
        ("left over", left_over_byte_ignored, "not Err((13, "),
        ("needless group", needless_group_accepted, "not Err((13, "),
        ("next layer", next_layer_read, "answer Ok("),
        ("ends", ends_not_added_up, "ends entry"),
        ("differences", differences_not_added_up, "points entry"),
        ("x and y", x_and_y_exchanged, "points entry"),
        ("last point", last_point_left, "points entry"),
        ("last end", last_end_left, "ends entry"),
        ("without sign", height_without_sign, "answer Ok("),
        ("always empty", always_empty, "answer Ok("),
    ];
    assert_noticed::<ReadLayer>(2_000, perhaps_broken, &faults);
    assert_common_faults_noticed::<ReadLayer>(2_000, perhaps_broken);
}
