//! Faults that the random rounds notice.

use super::random::perhaps_spoiled;
use crate::harness::{assert_common_faults_noticed, assert_noticed, Fault, Operation};
use crate::operations::{Clean, FlatLayer, GivenLayer};
use oracle::{clean_layer, FileLayer};
use std::collections::BTreeSet;

type Answer = crate::harness::Answer<(usize, usize)>;
type Contour = Vec<[i32; 2]>;

/// The contours of a layer that is not refused.
fn contours(layer: &GivenLayer) -> Vec<Contour> {
    let points: Contour = layer.points.chunks(2).map(|p| [p[0], p[1]]).collect();
    let starts = [0].into_iter().chain(layer.ends.iter().copied());
    let parts = starts.zip(&layer.ends);
    parts
        .map(|(start, &end)| points[start as usize..end as usize].to_vec())
        .collect()
}

/// Does what the oracle does, but leaves these contours of those that are given.
fn leaving(
    layer: &GivenLayer,
    tables: &mut FlatLayer,
    left: impl Fn(Vec<Contour>) -> Vec<Contour>,
) -> Answer {
    Clean::oracle(layer, &mut tables.clone())?;
    let GivenLayer { points, ends } = GivenLayer::of(&left(contours(layer)));
    tables.points.table()[..points.len()].copy_from_slice(&points);
    tables.ends.table()[..ends.len()].copy_from_slice(&ends);
    Ok((ends.len(), points.len() / 2))
}

/// The right way for contours that were changed.
fn right(contours: Vec<Contour>) -> Vec<Contour> {
    let height = 0;
    clean_layer(&FileLayer { height, contours }).contours
}

fn variety(contour: &Contour) -> usize {
    contour.iter().collect::<BTreeSet<_>>().len()
}

fn without_repeats(mut contour: Contour) -> Contour {
    contour.dedup();
    contour
}

fn without_tail(mut contour: Contour) -> Contour {
    while contour.len() > 1 && contour.first() == contour.last() {
        contour.pop();
    }
    contour
}

fn repeats_kept(layer: &GivenLayer, tables: &mut FlatLayer) -> Answer {
    leaving(layer, tables, |contours| {
        let left = contours.into_iter().map(without_tail);
        left.filter(|contour| variety(contour) > 2).collect()
    })
}

fn tail_kept(layer: &GivenLayer, tables: &mut FlatLayer) -> Answer {
    leaving(layer, tables, |contours| {
        let left = contours.into_iter().map(without_repeats);
        left.filter(|contour| variety(contour) > 2).collect()
    })
}

/// The first point goes instead of those at the end.
fn start_moved(layer: &GivenLayer, tables: &mut FlatLayer) -> Answer {
    leaving(layer, tables, |contours| {
        let left = contours.into_iter().map(|contour| {
            let mut contour = without_repeats(contour);
            if contour.len() > 1 && contour.first() == contour.last() {
                contour.remove(0);
            }
            contour
        });
        left.filter(|contour| variety(contour) > 2).collect()
    })
}

fn kept_by(
    layer: &GivenLayer,
    tables: &mut FlatLayer,
    is_kept: impl Fn(&Contour) -> bool,
) -> Answer {
    leaving(layer, tables, |contours| {
        let left = contours.into_iter().map(without_repeats).map(without_tail);
        left.filter(&is_kept).collect()
    })
}

fn three_points_are_enough(layer: &GivenLayer, tables: &mut FlatLayer) -> Answer {
    kept_by(layer, tables, |contour| contour.len() > 2)
}

fn two_different_are_enough(layer: &GivenLayer, tables: &mut FlatLayer) -> Answer {
    kept_by(layer, tables, |contour| variety(contour) > 1)
}

fn four_different_asked_for(layer: &GivenLayer, tables: &mut FlatLayer) -> Answer {
    kept_by(layer, tables, |contour| variety(contour) > 3)
}

/// Every point that occurred before is dropped, not only neighbours.
fn all_repeats_dropped(layer: &GivenLayer, tables: &mut FlatLayer) -> Answer {
    leaving(layer, tables, |contours| {
        let left = contours.into_iter().map(|contour| {
            let mut seen = BTreeSet::new();
            contour.into_iter().filter(|&p| seen.insert(p)).collect()
        });
        left.filter(|contour| variety(contour) > 2).collect()
    })
}

fn only_x_compared(layer: &GivenLayer, tables: &mut FlatLayer) -> Answer {
    leaving(layer, tables, |contours| {
        let left = contours.into_iter().map(|mut contour| {
            contour.dedup_by_key(|point| point[0]);
            contour
        });
        right(left.collect())
    })
}

fn contours_turned_round(layer: &GivenLayer, tables: &mut FlatLayer) -> Answer {
    leaving(layer, tables, |contours| {
        let mut left = right(contours);
        left.reverse();
        left
    })
}

fn last_contour_not_cleaned(layer: &GivenLayer, tables: &mut FlatLayer) -> Answer {
    leaving(layer, tables, |mut contours| {
        let last = contours.pop();
        let mut left = right(contours);
        left.extend(last);
        left
    })
}

fn gone_contours_counted(layer: &GivenLayer, tables: &mut FlatLayer) -> Answer {
    let (_, points) = Clean::oracle(layer, tables)?;
    Ok((layer.ends.len(), points))
}

fn ends_not_added_up(layer: &GivenLayer, tables: &mut FlatLayer) -> Answer {
    let (contours, points) = Clean::oracle(layer, tables)?;
    let ends = &mut tables.ends.table()[..contours];
    for j in (1..contours).rev() {
        ends[j] -= ends[j - 1];
    }
    Ok((contours, points))
}

fn the_rest_zeroed(layer: &GivenLayer, tables: &mut FlatLayer) -> Answer {
    let (contours, points) = Clean::oracle(layer, tables)?;
    tables.points.table()[2 * points..layer.points.len()].fill(0);
    Ok((contours, points))
}

/// The table of ends is written where a contour goes.
fn an_end_too_many(layer: &GivenLayer, tables: &mut FlatLayer) -> Answer {
    let (contours, points) = Clean::oracle(layer, tables)?;
    if contours < layer.ends.len() {
        tables.ends.table()[contours] = points as u32;
    }
    Ok((contours, points))
}

fn room_for_what_is_left(layer: &GivenLayer, tables: &mut FlatLayer) -> Answer {
    let answer = Clean::oracle(layer, tables);
    let left = GivenLayer::of(&match answer {
        Err((9, 0)) => right(contours(layer)),
        _ => return answer,
    });
    let (points, ends) = (tables.points.table(), tables.ends.table());
    if points.len() < left.points.len() || ends.len() < left.ends.len() {
        return answer;
    }
    points[..left.points.len()].copy_from_slice(&left.points);
    ends[..left.ends.len()].copy_from_slice(&left.ends);
    Ok((left.ends.len(), left.points.len() / 2))
}

fn room_tested_first(layer: &GivenLayer, tables: &mut FlatLayer) -> Answer {
    let lengths = (tables.points.length(), tables.ends.length());
    if lengths.0 < layer.points.len() || lengths.1 < layer.ends.len() {
        return Err((9, 0));
    }
    Clean::oracle(layer, tables)
}

fn range_tested_first(layer: &GivenLayer, tables: &mut FlatLayer) -> Answer {
    let far = |x: &i32| x.unsigned_abs() > super::M as u32;
    match layer.points.iter().position(far) {
        Some(position) => Err((2, position as u64)),
        None => Clean::oracle(layer, tables),
    }
}

#[test]
fn faults_are_noticed() {
    let faults: [Fault<Clean>; 17] = [
        ("repeats kept", repeats_kept, "answer Ok("),
        ("tail kept", tail_kept, "answer Ok("),
        ("start moved", start_moved, "points entry"),
        ("three points", three_points_are_enough, "answer Ok("),
        ("two different", two_different_are_enough, "answer Ok("),
        ("four different", four_different_asked_for, "answer Ok("),
        ("all repeats", all_repeats_dropped, "answer Ok("),
        ("only x", only_x_compared, "answer Ok("),
        ("turned round", contours_turned_round, " entry "),
        ("last contour", last_contour_not_cleaned, "answer Ok("),
        ("gone counted", gone_contours_counted, "answer Ok("),
        ("ends", ends_not_added_up, "ends entry"),
        ("rest zeroed", the_rest_zeroed, "points entry"),
        ("an end too many", an_end_too_many, "ends entry"),
        ("room", room_for_what_is_left, "not Err((9, 0))"),
        ("9 first", room_tested_first, "answer Err((9, 0)), not"),
        ("2 first", range_tested_first, "not Err((1, 0))"),
    ];
    assert_noticed::<Clean>(4_000, perhaps_spoiled, &faults);
    assert_common_faults_noticed::<Clean>(4_000, perhaps_spoiled);
}
