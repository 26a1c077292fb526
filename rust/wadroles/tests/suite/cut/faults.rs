//! Faults that the random rounds notice.

use super::random::perhaps_damaged;
use crate::harness::{assert_common_faults_noticed, assert_noticed, Fault, Operation};
use crate::operations::{Cut, CutTables, Given};

type Answer = crate::harness::Answer<(usize, usize)>;

fn oracle(given: &Given, tables: &mut CutTables) -> Answer {
    Cut::oracle(given, tables)
}

/// The names and points of a contour, first and last included.
fn last_contour(tables: &CutTables, contours: usize) -> std::ops::Range<usize> {
    let ends = tables.ends.view();
    let start = if contours == 1 { 0 } else { ends[contours - 2] };
    start as usize..ends[contours - 1] as usize
}

fn contour_reversed(given: &Given, tables: &mut CutTables) -> Answer {
    let (contours, points) = oracle(given, tables)?;
    if contours > 0 {
        let contour = last_contour(tables, contours);
        tables.names.table()[contour.clone()][1..].reverse();
        let pairs = &mut tables.points.table()[2 * contour.start + 2..2 * contour.end];
        pairs.reverse();
        pairs.chunks_exact_mut(2).for_each(<[i32]>::reverse);
    }
    Ok((contours, points))
}

fn start_elsewhere(given: &Given, tables: &mut CutTables) -> Answer {
    let (contours, points) = oracle(given, tables)?;
    if contours > 0 {
        let contour = last_contour(tables, contours);
        tables.names.table()[contour.clone()].rotate_left(1);
        tables.points.table()[2 * contour.start..2 * contour.end].rotate_left(2);
    }
    Ok((contours, points))
}

fn vertex_on_the_plane_passed(given: &Given, tables: &mut CutTables) -> Answer {
    let above = Given {
        height: given.height.saturating_add(1),
        ..given.clone()
    };
    oracle(&above, tables)
}

fn last_point_dropped(given: &Given, tables: &mut CutTables) -> Answer {
    let before = tables.clone();
    let (contours, points) = oracle(given, tables)?;
    if contours == 0 {
        return Ok((contours, points));
    }
    let last = points - 1;
    tables.names.table()[last] = before.names.view()[last];
    tables.points.table()[2 * last..2 * points]
        .copy_from_slice(&before.points.view()[2 * last..2 * points]);
    tables.ends.table()[contours - 1] -= 1;
    Ok((contours, last))
}

fn last_two_contours_joined(given: &Given, tables: &mut CutTables) -> Answer {
    let before = tables.clone();
    let (contours, points) = oracle(given, tables)?;
    if contours < 2 {
        return Ok((contours, points));
    }
    tables.ends.table()[contours - 2] = points as u32;
    tables.ends.table()[contours - 1] = before.ends.view()[contours - 1];
    Ok((contours - 1, points))
}

fn marks_left_set(given: &Given, tables: &mut CutTables) -> Answer {
    let (contours, points) = oracle(given, tables)?;
    for &name in &tables.names.view()[..points] {
        tables.marks.table()[name as usize] = u32::MAX;
    }
    Ok((contours, points))
}

fn marks_unwritten(given: &Given, tables: &mut CutTables) -> Answer {
    let before = tables.marks.clone();
    let answer = oracle(given, tables)?;
    tables.marks = before;
    Ok(answer)
}

/// Writes the points anew, of which `round` is told where the edge starts, the offset from there
/// times the rise, and the rise.
fn rounded(given: &Given, tables: &mut CutTables, round: fn(i64, i64, i64) -> i64) -> Answer {
    let (contours, points) = oracle(given, tables)?;
    for i in 0..points {
        let corner = tables.names.view()[i] as usize;
        let (from, to) = given.mesh.edges().nth(corner).unwrap();
        let (low, high) = (given.mesh.point(from), given.mesh.point(to));
        let rise = i64::from(high[2] - low[2]);
        let part = i64::from(given.height - low[2]);
        for axis in 0..2 {
            let offset = i64::from(high[axis] - low[axis]) * part;
            let point = round(low[axis].into(), offset, rise);
            tables.points.table()[2 * i + axis] = point as i32;
        }
    }
    Ok((contours, points))
}

fn rounded_down(given: &Given, tables: &mut CutTables) -> Answer {
    rounded(given, tables, |x, offset, rise| x + offset.div_euclid(rise))
}

fn rounded_toward_zero(given: &Given, tables: &mut CutTables) -> Answer {
    rounded(given, tables, |x, offset, rise| (x * rise + offset) / rise)
}

fn rounded_away_from_zero(given: &Given, tables: &mut CutTables) -> Answer {
    rounded(given, tables, |x, offset, rise| {
        let exact = x * rise + offset;
        (exact + exact.signum() * (rise - 1)) / rise
    })
}

fn rounded_halves_to_the_larger(given: &Given, tables: &mut CutTables) -> Answer {
    rounded(given, tables, |x, offset, rise| {
        x + (2 * offset + rise).div_euclid(2 * rise)
    })
}

fn rounded_halves_toward_zero(given: &Given, tables: &mut CutTables) -> Answer {
    rounded(given, tables, |x, offset, rise| {
        let exact = x * rise + offset;
        (2 * exact + exact.signum() * (rise - 1)) / (2 * rise)
    })
}

/// The sign that counts is the offset's, and not that of the sum.
fn rounded_halves_by_the_offset(given: &Given, tables: &mut CutTables) -> Answer {
    rounded(given, tables, |x, offset, rise| {
        x + (2 * offset + offset.signum() * rise) / (2 * rise)
    })
}

fn entry_beyond_overwritten(given: &Given, tables: &mut CutTables) -> Answer {
    let (contours, points) = oracle(given, tables)?;
    if let Some(entry) = tables.ends.table().get_mut(contours) {
        *entry = 0;
    }
    Ok((contours, points))
}

fn always_empty(given: &Given, tables: &mut CutTables) -> Answer {
    let before = tables.clone();
    oracle(given, tables)?;
    let marks = tables.marks.clone();
    *tables = CutTables { marks, ..before };
    Ok((0, 0))
}

#[test]
fn faults_are_noticed() {
    let faults: [Fault<Cut>; 15] = [
        ("contour reversed", contour_reversed, "names entry"),
        ("start elsewhere", start_elsewhere, "names entry"),
        ("on the plane", vertex_on_the_plane_passed, "answer Ok("),
        ("last point dropped", last_point_dropped, "answer Ok("),
        ("contours joined", last_two_contours_joined, "answer Ok("),
        ("marks left set", marks_left_set, "marks entry"),
        ("marks unwritten", marks_unwritten, "marks entry"),
        ("rounded down", rounded_down, "points entry"),
        ("toward zero", rounded_toward_zero, "points entry"),
        ("away from zero", rounded_away_from_zero, "points entry"),
        ("halves up", rounded_halves_to_the_larger, "points entry"),
        ("halves to zero", rounded_halves_toward_zero, "points entry"),
        ("by offset", rounded_halves_by_the_offset, "points entry"),
        ("entry beyond", entry_beyond_overwritten, "ends entry"),
        ("always empty", always_empty, "answer Ok((0, 0)), not"),
    ];
    assert_noticed::<Cut>(1_000, perhaps_damaged, &faults);
    assert_common_faults_noticed::<Cut>(1_000, perhaps_damaged);
}
