//! Faults in what is refused and what is written, which the random rounds notice. Wrong ways to find
//! depths and parents stand in `wrong_nesting`.

use super::random::perhaps_spoiled;
use super::{M, NONE};
use crate::harness::{assert_common_faults_noticed, assert_noticed, Answer, Fault, Operation};
use crate::operations::{GivenLayer, NestTables, Nesting};

fn room_tested_first(layer: &GivenLayer, tables: &mut NestTables) -> Answer<()> {
    let lengths = [tables.depths.length(), tables.parents.length()];
    if lengths.iter().any(|&length| length < layer.ends.len()) {
        return Err((9, 0));
    }
    Nesting::oracle(layer, tables)
}

fn range_tested_first(layer: &GivenLayer, tables: &mut NestTables) -> Answer<()> {
    let far = |x: &i32| x.unsigned_abs() > M as u32;
    match layer.points.iter().position(far) {
        Some(position) => Err((2, position as u64)),
        None => Nesting::oracle(layer, tables),
    }
}

fn last_place_named(layer: &GivenLayer, tables: &mut NestTables) -> Answer<()> {
    let far = |x: &i32| x.unsigned_abs() > M as u32;
    match Nesting::oracle(layer, tables) {
        Err((2, _)) => Err((2, layer.points.iter().rposition(far).unwrap() as u64)),
        answer => answer,
    }
}

/// The table of a number is filled as far as it goes.
fn short_table_filled(layer: &GivenLayer, tables: &mut NestTables, short: usize) -> Answer<()> {
    let count = layer.ends.len();
    let lengths = [tables.depths.length(), tables.parents.length()];
    if lengths[short] >= count || lengths[1 - short] < count {
        return Nesting::oracle(layer, tables);
    }
    let [mut depths, mut parents] = [vec![0; count], vec![0; count]];
    oracle::nesting(&layer.points, &layer.ends, &mut depths, &mut parents)
        .map_err(|r| (r.number, r.place))?;
    let both = [(&mut tables.depths, depths), (&mut tables.parents, parents)];
    for (table, found) in both {
        let filled = table.table().iter_mut().zip(found);
        filled.for_each(|(entry, found)| *entry = found);
    }
    Ok(())
}

fn short_depths_filled(layer: &GivenLayer, tables: &mut NestTables) -> Answer<()> {
    short_table_filled(layer, tables, 0)
}

fn short_parents_filled(layer: &GivenLayer, tables: &mut NestTables) -> Answer<()> {
    short_table_filled(layer, tables, 1)
}

/// Room for an entry more is asked for.
fn more_room_asked_for(layer: &GivenLayer, tables: &mut NestTables) -> Answer<()> {
    if tables.depths.length() == layer.ends.len() {
        Nesting::oracle(layer, &mut tables.clone())?;
        return Err((9, 0));
    }
    Nesting::oracle(layer, tables)
}

/// Does what the oracle does, and then something with the filled entries.
fn after(
    layer: &GivenLayer,
    tables: &mut NestTables,
    change: impl Fn(&mut [u32], &mut [u32]),
) -> Answer<()> {
    Nesting::oracle(layer, tables)?;
    let count = layer.ends.len();
    let (depths, parents) = (tables.depths.table(), tables.parents.table());
    change(&mut depths[..count], &mut parents[..count]);
    Ok(())
}

fn tables_exchanged(layer: &GivenLayer, tables: &mut NestTables) -> Answer<()> {
    after(layer, tables, |depths, parents| {
        depths.swap_with_slice(parents);
    })
}

fn no_parent_written_as_zero(layer: &GivenLayer, tables: &mut NestTables) -> Answer<()> {
    after(layer, tables, |_, parents| {
        parents
            .iter_mut()
            .filter(|p| **p == NONE)
            .for_each(|p| *p = 0);
    })
}

fn itself_written_without_a_parent(layer: &GivenLayer, tables: &mut NestTables) -> Answer<()> {
    after(layer, tables, |_, parents| {
        let alone = parents.iter_mut().zip(0..).filter(|(p, _)| **p == NONE);
        alone.for_each(|(p, i)| *p = i);
    })
}

fn parents_counted_from_one(layer: &GivenLayer, tables: &mut NestTables) -> Answer<()> {
    after(layer, tables, |_, parents| {
        parents
            .iter_mut()
            .filter(|p| **p != NONE)
            .for_each(|p| *p += 1);
    })
}

fn depths_counted_from_one(layer: &GivenLayer, tables: &mut NestTables) -> Answer<()> {
    after(layer, tables, |depths, _| {
        depths.iter_mut().for_each(|depth| *depth += 1);
    })
}

/// The depth is one more than that of the parent, which holds only of contours that do not cross.
fn depths_by_parents(layer: &GivenLayer, tables: &mut NestTables) -> Answer<()> {
    after(layer, tables, |depths, parents| {
        let before = depths.to_vec();
        for (depth, &parent) in depths.iter_mut().zip(&*parents) {
            if parent != NONE {
                *depth = before[parent as usize] + 1;
            }
        }
    })
}

fn old_depths_added(layer: &GivenLayer, tables: &mut NestTables) -> Answer<()> {
    let before = tables.depths.clone();
    after(layer, tables, |depths, _| {
        let both = depths.iter_mut().zip(before.view());
        both.for_each(|(depth, &old)| *depth = depth.wrapping_add(old));
    })
}

fn the_rest_zeroed(layer: &GivenLayer, tables: &mut NestTables) -> Answer<()> {
    Nesting::oracle(layer, tables)?;
    tables.depths.table()[layer.ends.len()..].fill(0);
    Ok(())
}

fn the_rest_without_a_parent(layer: &GivenLayer, tables: &mut NestTables) -> Answer<()> {
    Nesting::oracle(layer, tables)?;
    tables.parents.table()[layer.ends.len()..].fill(NONE);
    Ok(())
}

fn last_contour_left_out(layer: &GivenLayer, tables: &mut NestTables) -> Answer<()> {
    let before = tables.clone();
    after(layer, tables, |depths, parents| {
        if let Some(last) = depths.len().checked_sub(1) {
            depths[last] = before.depths.view()[last];
            parents[last] = before.parents.view()[last];
        }
    })
}

#[test]
fn faults_are_noticed() {
    let faults: [Fault<Nesting>; 16] = [
        ("9 first", room_tested_first, "answer Err((9, 0)), not"),
        ("2 first", range_tested_first, "not Err((1, 0))"),
        ("last place", last_place_named, "not Err((2, "),
        ("short depths", short_depths_filled, "not Err((9, 0))"),
        ("short parents", short_parents_filled, "not Err((9, 0))"),
        ("more room", more_room_asked_for, "answer Err((9, 0)), not"),
        ("exchanged", tables_exchanged, "depths entry"),
        ("zero", no_parent_written_as_zero, "parents entry"),
        ("itself", itself_written_without_a_parent, "parents entry"),
        ("parents from 1", parents_counted_from_one, "parents entry"),
        ("depths from 1", depths_counted_from_one, "depths entry"),
        ("by parents", depths_by_parents, "depths entry"),
        ("old depths", old_depths_added, "depths entry"),
        ("rest zeroed", the_rest_zeroed, "depths entry"),
        ("rest", the_rest_without_a_parent, "parents entry"),
        ("last contour", last_contour_left_out, "depths entry"),
    ];
    assert_noticed::<Nesting>(2_000, perhaps_spoiled, &faults);
    assert_common_faults_noticed::<Nesting>(2_000, perhaps_spoiled);
}
