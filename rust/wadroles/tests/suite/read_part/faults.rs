//! Faults that the random rounds notice.

use super::random::perhaps_broken;
use crate::harness::{assert_common_faults_noticed, assert_noticed, Fault, Operation};
use crate::operations::{Part, ReadPart};

type Answer = crate::harness::Answer<(usize, usize, usize)>;

fn oracle(file: &Vec<u8>, tables: &mut Part) -> Answer {
    ReadPart::oracle(file, tables)
}

fn room_first(file: &Vec<u8>, tables: &mut Part) -> Answer {
    let answer = oracle(file, tables);
    if answer.is_err() && tables.heights.view().is_empty() {
        return Err((9, 0));
    }
    answer
}

fn left_over_byte_ignored(file: &Vec<u8>, tables: &mut Part) -> Answer {
    let answer = oracle(file, tables);
    match file.split_last() {
        Some((_, without)) if answer == Err((13, without.len() as u64)) => {
            oracle(&without.to_vec(), tables).or(answer)
        }
        _ => answer,
    }
}

fn coordinates_in_range_only(file: &Vec<u8>, tables: &mut Part) -> Answer {
    let before = tables.clone();
    let answer = oracle(file, tables)?;
    let coords = &tables.coords.view()[..3 * answer.0];
    if coords.iter().any(|x| x.unsigned_abs() > 1_048_576) {
        *tables = before;
        return Err((13, 2));
    }
    Ok(answer)
}

fn corners_signed(file: &Vec<u8>, tables: &mut Part) -> Answer {
    let answer = oracle(file, tables)?;
    for corner in &mut tables.corners.table()[..3 * answer.1] {
        *corner = (*corner / 2) ^ 0u32.wrapping_sub(*corner % 2);
    }
    Ok(answer)
}

fn heights_sorted(file: &Vec<u8>, tables: &mut Part) -> Answer {
    let answer = oracle(file, tables)?;
    tables.heights.table()[..answer.2].sort();
    Ok(answer)
}

fn last_coordinate_left(file: &Vec<u8>, tables: &mut Part) -> Answer {
    let before = tables.clone();
    let answer = oracle(file, tables)?;
    if let Some(last) = (3 * answer.0).checked_sub(1) {
        tables.coords.table()[last] = before.coords.view()[last];
    }
    Ok(answer)
}

fn counts_exchanged(file: &Vec<u8>, tables: &mut Part) -> Answer {
    oracle(file, tables).map(|(vertices, triangles, heights)| (triangles, vertices, heights))
}

#[test]
fn faults_are_noticed() {
    let faults: [Fault<ReadPart>; 7] = [
        ("9 first", room_first, "answer Err((9, 0)), not Err((13"),
        ("left over", left_over_byte_ignored, "not Err((13, "),
        (
            "range",
            coordinates_in_range_only,
            "answer Err((13, 2)), not",
        ),
        ("corners signed", corners_signed, "corners entry"),
        ("heights sorted", heights_sorted, "heights entry"),
        ("last coordinate", last_coordinate_left, "coords entry"),
        ("counts", counts_exchanged, "answer Ok("),
    ];
    assert_noticed::<ReadPart>(2_000, perhaps_broken, &faults);
    assert_common_faults_noticed::<ReadPart>(2_000, perhaps_broken);
}
