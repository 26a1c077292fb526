//! Faults that the random rounds notice.

use super::random::perhaps_spoiled;
use crate::harness::{assert_common_faults_noticed, assert_noticed, Answer, Fault, Operation};
use crate::operations::{CallTables, Drawing, Preview, PreviewRun, Xy};

/// An implementation of Preview with other tables or another input.
fn call(input: &Drawing, tables: &mut Xy) -> Answer<u64> {
    Preview::oracle(input, tables)
}

fn run(input: &Drawing, tables: &mut CallTables) -> Answer<usize> {
    PreviewRun::oracle(input, tables)
}

fn with_origin(input: &Drawing, change: impl Fn(f32) -> f32) -> Drawing {
    let origin = input.origin.map(|bits| change(f32::from_bits(bits)));
    Drawing {
        origin: origin.map(f32::to_bits),
        ..input.clone()
    }
}

fn origin_cut(input: &Drawing, tables: &mut Xy) -> Answer<u64> {
    call(&with_origin(input, f32::trunc), tables)
}

fn origin_clamped(input: &Drawing, tables: &mut Xy) -> Answer<u64> {
    let farthest = super::M as f32;
    call(
        &with_origin(input, |x| x.clamp(-farthest, farthest)),
        tables,
    )
}

fn no_number_is_zero(input: &Drawing, tables: &mut Xy) -> Answer<u64> {
    let zero = |x: f32| if x.is_nan() { 0.0 } else { x };
    call(&with_origin(input, zero), tables)
}

fn minus_zero_refused(input: &Drawing, tables: &mut Xy) -> Answer<u64> {
    match input.origin.contains(&0x8000_0000) {
        true => Err((17, 0)),
        false => call(input, tables),
    }
}

fn origin_not_added(input: &Drawing, tables: &mut Xy) -> Answer<u64> {
    call(input, &mut tables.clone())?;
    call(&with_origin(input, |_| 0.0), tables)
}

fn zero_with_a_sign(input: &Drawing, tables: &mut Xy) -> Answer<u64> {
    let kind = call(input, tables)?;
    if kind < 2 {
        for float in &mut tables.xy.table()[..2] {
            *float = if *float == 0.0 { -0.0 } else { *float };
        }
    }
    Ok(kind)
}

fn origin_tested_last(input: &Drawing, tables: &mut Xy) -> Answer<u64> {
    call(&with_origin(input, |_| 0.0), &mut tables.clone())?;
    call(input, tables)
}

fn x_and_y_exchanged(input: &Drawing, tables: &mut Xy) -> Answer<u64> {
    let kind = call(input, tables)?;
    if kind < 2 {
        tables.xy.table().swap(0, 1);
    }
    Ok(kind)
}

fn close_writes_zeros(input: &Drawing, tables: &mut Xy) -> Answer<u64> {
    let kind = call(input, tables)?;
    if kind == 2 {
        tables.xy.table()[..2].fill(0.0);
    }
    Ok(kind)
}

fn past_the_last_is_a_close(input: &Drawing, tables: &mut Xy) -> Answer<u64> {
    call(input, tables).map(|kind| kind.min(2))
}

fn only_the_first_moves(input: &Drawing, tables: &mut Xy) -> Answer<u64> {
    let kind = call(input, tables)?;
    Ok(if kind == 0 && input.number > 0 {
        1
    } else {
        kind
    })
}

/// Ends that rise by one are taken where the last is right.
fn ends_by_one_taken(input: &Drawing, tables: &mut Xy) -> Answer<u64> {
    let ends = &input.ends;
    let rise = std::iter::zip([0].iter().chain(ends), ends).all(|(before, end)| before < end);
    match call(input, tables) {
        Err((1, 0)) if rise => Ok(0),
        answer => answer,
    }
}

fn last_end_not_tested(input: &Drawing, tables: &mut Xy) -> Answer<u64> {
    let last = input.ends.last().map_or(0, |&end| 2 * end as usize);
    match call(input, tables) {
        Err((1, 0)) if last < input.points.len() => {
            let mut shorter = input.clone();
            shorter.points.truncate(last);
            call(&shorter, tables)
        }
        answer => answer,
    }
}

#[test]
fn faults_of_a_call_are_noticed() {
    let faults: [Fault<Preview>; 13] = [
        ("origin cut", origin_cut, "not Err((17, 0))"),
        ("origin clamped", origin_clamped, "not Err((17, 0))"),
        ("no number", no_number_is_zero, "not Err((17, 0))"),
        ("minus zero", minus_zero_refused, "answer Err((17, 0)), not"),
        ("not added", origin_not_added, "xy entry"),
        ("zero with a sign", zero_with_a_sign, "is -0 (80000000)"),
        ("17 last", origin_tested_last, "not Err((17, 0))"),
        ("x and y", x_and_y_exchanged, "xy entry"),
        ("close writes", close_writes_zeros, "xy entry"),
        ("past the last", past_the_last_is_a_close, "not Ok(3)"),
        (
            "first moves",
            only_the_first_moves,
            "answer Ok(1), not Ok(0)",
        ),
        ("by one", ends_by_one_taken, "not Err((1, 0))"),
        ("last end", last_end_not_tested, "not Err((1, 0))"),
    ];
    assert_noticed::<Preview>(4_000, perhaps_spoiled, &faults);
    assert_common_faults_noticed::<Preview>(4_000, perhaps_spoiled);
}

fn one_too_few(input: &Drawing, tables: &mut CallTables) -> Answer<usize> {
    run(input, tables).map(|filled| filled.saturating_sub(1))
}

fn short_tables_refused(input: &Drawing, tables: &mut CallTables) -> Answer<usize> {
    let before = tables.clone();
    let filled = run(input, tables)?;
    if filled < input.left() {
        *tables = before;
        return Err((9, 0));
    }
    Ok(filled)
}

fn half_a_pair_is_filled(input: &Drawing, tables: &mut CallTables) -> Answer<usize> {
    let filled = run(input, tables)?;
    let (kinds, xy) = (tables.kinds.table(), tables.xy.table());
    if filled < input.left() && filled < kinds.len() && xy.len() == 2 * filled + 1 {
        xy[2 * filled] = 0.0;
    }
    Ok(filled)
}

fn floats_of_a_close_zeroed(input: &Drawing, tables: &mut CallTables) -> Answer<usize> {
    let filled = run(input, tables)?;
    let xy = tables.xy.table().chunks_exact_mut(2);
    for (kind, pair) in tables.kinds.view()[..filled].iter().zip(xy) {
        if *kind == 2 {
            pair.fill(0.0);
        }
    }
    Ok(filled)
}

/// The floats of a close are taken by the next call.
fn closes_take_no_floats(input: &Drawing, tables: &mut CallTables) -> Answer<usize> {
    let filled = run(input, tables)?;
    let kinds = tables.kinds.view();
    if let Some(close) = kinds[..filled].iter().position(|&kind| kind == 2) {
        tables.xy.table()[2 * close..2 * filled].rotate_left(2);
    }
    Ok(filled)
}

fn always_from_the_start(input: &Drawing, tables: &mut CallTables) -> Answer<usize> {
    let before = tables.clone();
    let filled = run(input, tables)?;
    *tables = before;
    let mut kinds = tables.clone();
    run(&input.clone().from(0), &mut kinds)?;
    tables.kinds.table()[..filled].copy_from_slice(&kinds.kinds.view()[..filled]);
    tables.xy.table()[..2 * filled].copy_from_slice(&kinds.xy.view()[..2 * filled]);
    Ok(filled)
}

fn last_call_left(input: &Drawing, tables: &mut CallTables) -> Answer<usize> {
    let before = tables.clone();
    let filled = run(input, tables)?;
    if let Some(last) = filled.checked_sub(1) {
        tables.kinds.table()[last] = before.kinds.view()[last];
    }
    Ok(filled)
}

#[test]
fn faults_of_a_run_are_noticed() {
    let faults: [Fault<PreviewRun>; 7] = [
        ("one too few", one_too_few, "answer Ok("),
        (
            "short tables",
            short_tables_refused,
            "answer Err((9, 0)), not",
        ),
        ("half a pair", half_a_pair_is_filled, "xy entry"),
        ("floats of a close", floats_of_a_close_zeroed, "xy entry"),
        ("no floats", closes_take_no_floats, "xy entry"),
        ("from the start", always_from_the_start, " entry "),
        ("last call", last_call_left, "kinds entry"),
    ];
    assert_noticed::<PreviewRun>(4_000, perhaps_spoiled, &faults);
    assert_common_faults_noticed::<PreviewRun>(4_000, perhaps_spoiled);
}
