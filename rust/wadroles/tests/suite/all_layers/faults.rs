//! Faults that the random rounds notice.

use super::random::perhaps_damaged;
use crate::harness::{assert_common_faults_noticed, assert_noticed, Fault, Lent, Operation};
use crate::operations::{AllLayers, FileTables, Given};
use meshes::{vertex_order, Random};

type Answer = crate::harness::Answer<usize>;

fn oracle(given: &Given, tables: &mut FileTables) -> Answer {
    AllLayers::oracle(given, tables)
}

/// With heights given where none are: the lowest z and a distance, and every so many after it.
fn other_default(given: &Given, tables: &mut FileTables, from: i64, each: usize) -> Answer {
    let coords = given.mesh.coords.iter();
    let z: Vec<i32> = coords.skip(2).step_by(3).copied().collect();
    let (Some(&low), Some(&high)) = (z.iter().min(), z.iter().max()) else {
        return oracle(given, tables);
    };
    let heights = (i64::from(low) + from..=i64::from(high)).step_by(each);
    let heights: Vec<i32> = heights.map(|h| h as i32).take(5_000).collect();
    if !given.heights.is_empty() || heights.is_empty() {
        return oracle(given, tables);
    }
    oracle(&given.clone().over(&heights), tables)
}

fn default_from_the_lowest(given: &Given, tables: &mut FileTables) -> Answer {
    other_default(given, tables, 0, 100)
}

fn default_each_50(given: &Given, tables: &mut FileTables) -> Answer {
    other_default(given, tables, 50, 50)
}

fn order_not_tested(given: &Given, tables: &mut FileTables) -> Answer {
    let ordered = Given {
        order: vertex_order(&given.mesh),
        ..given.clone()
    };
    oracle(&ordered, tables)
}

fn equal_heights_taken_once(given: &Given, tables: &mut FileTables) -> Answer {
    let mut heights = given.heights.clone();
    heights.dedup();
    let other = given.clone().over(&heights);
    let before = tables.clone();
    match oracle(given, tables) {
        Err((12, place)) => oracle(&other, tables).map_err(|_| {
            *tables = before;
            (12, place)
        }),
        answer => answer,
    }
}

fn vertex_on_the_plane_passed(given: &Given, tables: &mut FileTables) -> Answer {
    let before = tables.clone();
    let length = oracle(given, tables)?;
    let mut other = given.clone();
    let heights = other.mesh.coords.iter_mut().skip(2).step_by(3);
    heights.for_each(|z| *z -= i32::from(given.heights.contains(z)));
    other.order = vertex_order(&other.mesh);
    let (right, after) = (tables.clone(), tables);
    *after = before;
    oracle(&other, after).or_else(|_| {
        *after = right;
        Ok(length)
    })
}

fn last_byte_left(given: &Given, tables: &mut FileTables) -> Answer {
    let before = tables.output.clone();
    let length = oracle(given, tables)?;
    tables.output.table()[length - 1] = before.view()[length - 1];
    Ok(length)
}

fn output_cleared_past_the_file(given: &Given, tables: &mut FileTables) -> Answer {
    let length = oracle(given, tables)?;
    tables.output.table()[length..].fill(0);
    Ok(length)
}

fn length_of_the_output(given: &Given, tables: &mut FileTables) -> Answer {
    oracle(given, tables)?;
    Ok(tables.output.view().len())
}

fn written_before_14(given: &Given, tables: &mut FileTables) -> Answer {
    let answer = oracle(given, tables);
    if answer == Err((14, 0)) {
        if let Some(first) = tables.output.table().first_mut() {
            *first = given.heights.len() as u8;
        }
    }
    answer
}

fn one_byte_more_asked_for(given: &Given, tables: &mut FileTables) -> Answer {
    let before = tables.output.clone();
    let length = oracle(given, tables)?;
    if length == tables.output.view().len() {
        tables.output = before;
        return Err((14, 0));
    }
    Ok(length)
}

fn ring_left_at_the_top(given: &Given, tables: &mut FileTables) -> Answer {
    let length = oracle(given, tables)?;
    tables.work.ring.table()[..given.corners()].fill(u32::MAX);
    Ok(length)
}

fn work_left_after_14(given: &Given, tables: &mut FileTables) -> Answer {
    let before = tables.clone();
    let answer = oracle(given, tables);
    if answer == Err((14, 0)) {
        *tables = before;
    }
    answer
}

fn half_of_points_cleared(given: &Given, tables: &mut FileTables) -> Answer {
    let before = tables.work.cut.points.clone();
    let length = oracle(given, tables)?;
    let corners = given.corners();
    let kept = &before.view()[corners..2 * corners];
    tables.work.cut.points.table()[corners..2 * corners].copy_from_slice(kept);
    Ok(length)
}

fn ring_not_asked_for(given: &Given, tables: &mut FileTables) -> Answer {
    let answer = oracle(given, tables);
    let short = tables.work.ring.view().len() < given.corners();
    if answer == Err((9, 0)) && short {
        let ring = tables.work.ring.clone();
        tables.work.ring = Lent::new(given.corners(), &mut Random::new(1));
        let answer = oracle(given, tables);
        tables.work.ring = ring;
        return answer;
    }
    answer
}

fn most_heights_lowered(given: &Given, tables: &mut FileTables) -> Answer {
    let before = tables.clone();
    let answer = oracle(given, tables);
    if given.heights.len() > 40 && given.heights.len() <= 4_096 {
        *tables = before;
        return Err((1, 0));
    }
    answer
}

fn most_heights_raised(given: &Given, tables: &mut FileTables) -> Answer {
    let answer = oracle(given, tables);
    if answer == Err((1, 0)) && given.heights.len() > 4_096 {
        let fewer = &given.heights[..4_096];
        return oracle(&given.clone().over(fewer), tables);
    }
    answer
}

#[test]
fn faults_are_noticed() {
    let faults: [Fault<AllLayers>; 16] = [
        ("from the lowest", default_from_the_lowest, "answer Ok("),
        ("each 50", default_each_50, "answer "),
        ("order", order_not_tested, "not Err((8, "),
        ("equal heights", equal_heights_taken_once, "not Err((12, "),
        ("plane", vertex_on_the_plane_passed, "answer "),
        ("last byte", last_byte_left, "but output entry"),
        ("past", output_cleared_past_the_file, "output entry"),
        ("length", length_of_the_output, "answer Ok("),
        ("before 14", written_before_14, "but output entry"),
        ("byte more", one_byte_more_asked_for, "answer Err((14, 0))"),
        ("ring left", ring_left_at_the_top, "ring entry"),
        ("work left", work_left_after_14, "answer Err((14, 0)), but"),
        ("half of points", half_of_points_cleared, "points entry"),
        ("ring not asked", ring_not_asked_for, "not Err((9, 0))"),
        ("lowered", most_heights_lowered, "answer Err((1, 0)), not"),
        ("raised", most_heights_raised, "not Err((1, 0))"),
    ];
    assert_noticed::<AllLayers>(2_000, perhaps_damaged, &faults);
    assert_common_faults_noticed::<AllLayers>(2_000, perhaps_damaged);
}
