use crate::harness::{Fault, Operation};
use crate::operations::{Given, Ring, Step};
use meshes::vertex_order;
use wadroles::NO_CORNER;

type Answer = crate::harness::Answer<Option<usize>>;

pub const FAULTS: [Fault<Step>; 11] = [
    ("unwritten", leaves_the_rings, "step: answer Ok("),
    ("first only", links_at_first_only, "step: answer Ok("),
    ("all mended", mends_all_entries, "step: answer Ok("),
    ("own", rewrites_its_own_triangles, "step: answer Ok("),
    ("top early", top_early, "step: answer Ok(None), not"),
    ("top first", top_before_a_short_table, "not Err((11, "),
    ("top, too many", top_for_too_many, "not Err((10, 0))"),
    ("all passed", all_passed_is_too_many, "not Ok(None)"),
    ("place", names_the_first_corner, "step: answer Err((11"),
    ("order", order_not_tested, "not Err((8, "),
    ("surplus", surplus_overwritten, "ring entry"),
];

fn oracle(given: &Given, tables: &mut Ring) -> Answer {
    Step::oracle(given, tables)
}

/// The ring table of a cut made afresh with so many passed.
fn fresh(given: &Given, passed: usize) -> Vec<u32> {
    let given = given.clone().with_passed(passed);
    given.fresh_ring().expect("it was not refused")
}

fn leaves_the_rings(given: &Given, tables: &mut Ring) -> Answer {
    oracle(given, &mut tables.clone())
}

fn links_at_first_only(given: &Given, tables: &mut Ring) -> Answer {
    match given.passed {
        0 => oracle(given, tables),
        _ => leaves_the_rings(given, tables),
    }
}

fn mends_all_entries(given: &Given, tables: &mut Ring) -> Answer {
    let stepped = oracle(given, tables)?;
    if let Some(passed) = stepped {
        tables.ring.table()[..given.corners()].copy_from_slice(&fresh(given, passed));
    }
    Ok(stepped)
}

fn rewrites_its_own_triangles(given: &Given, tables: &mut Ring) -> Answer {
    let stepped = oracle(given, &mut tables.clone())?;
    if let Some(passed) = stepped {
        let right = fresh(given, passed);
        let vertex = given.order[given.passed];
        for (corner, entry) in right.into_iter().enumerate() {
            let first = corner / 3 * 3;
            if given.mesh.corners[first..first + 3].contains(&vertex) {
                tables.ring.table()[corner] = entry;
            }
        }
    }
    Ok(stepped)
}

fn top_early(given: &Given, tables: &mut Ring) -> Answer {
    let before = tables.clone();
    let stepped = oracle(given, tables)?;
    if stepped == Some(given.mesh.vertex_count()) {
        *tables = before;
        return Ok(None);
    }
    Ok(stepped)
}

fn top_before_a_short_table(given: &Given, tables: &mut Ring) -> Answer {
    match oracle(given, tables) {
        Err((11, _)) if given.passed == given.mesh.vertex_count() => Ok(None),
        answer => answer,
    }
}

fn top_for_too_many(given: &Given, tables: &mut Ring) -> Answer {
    match oracle(given, tables) {
        Err((10, _)) => Ok(None),
        answer => answer,
    }
}

fn all_passed_is_too_many(given: &Given, tables: &mut Ring) -> Answer {
    match oracle(given, tables) {
        Ok(None) => Err((10, 0)),
        answer => answer,
    }
}

fn names_the_first_corner(given: &Given, tables: &mut Ring) -> Answer {
    match oracle(given, tables) {
        Err((11, _)) => Err((11, 0)),
        answer => answer,
    }
}

fn order_not_tested(given: &Given, tables: &mut Ring) -> Answer {
    let ordered = Given {
        order: vertex_order(&given.mesh),
        ..given.clone()
    };
    oracle(&ordered, tables)
}

fn surplus_overwritten(given: &Given, tables: &mut Ring) -> Answer {
    let stepped = oracle(given, tables)?;
    if let Some(entry) = tables.ring.table().get_mut(given.corners()) {
        *entry = NO_CORNER;
    }
    Ok(stepped)
}
