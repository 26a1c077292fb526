use crate::harness::{Fault, Operation};
use crate::operations::{Given, Layer, WorkTables};
use meshes::vertex_order;
use wadroles::NO_CORNER;

type Answer = crate::harness::Answer<(usize, usize, usize)>;

pub const FAULTS: [Fault<Layer>; 15] = [
    ("marks", marks_left_as_links, "but cut marks entry"),
    ("unwritten", leaves_the_rings, "ring entry"),
    ("count", leaves_the_count, "answer Ok(("),
    ("plane", vertex_on_the_plane_passed, "layer: "),
    ("empty", always_empty, "answer Ok(("),
    ("mended", wrong_rings_mended, "not Err((11, "),
    ("crossings", crossings_alone_compared, "not Err((11, "),
    ("last", last_wrong_entry_named, "answer Err((11, "),
    ("12 first", height_before_rings, "answer Err((12, 0)), not"),
    ("low", low_height_taken, "not Err((12, 0))"),
    ("same", same_height_refused, "answer Err((12, 0)), not Ok("),
    ("rings at 12", rings_changed_before_12, "but ring entry"),
    ("surplus", surplus_overwritten, "ring entry"),
    ("order", order_not_tested, "not Err((8, "),
    ("counts", counts_exchanged, "answer Ok(("),
];

fn oracle(given: &Given, tables: &mut WorkTables) -> Answer {
    Layer::oracle(given, tables)
}

/// The ring table of a cut made afresh with so many passed.
fn fresh(given: &Given, passed: usize) -> Vec<u32> {
    let given = given.clone().with_passed(passed);
    given.fresh_ring().expect("it was refused later, if at all")
}

fn write_ring(given: &Given, passed: usize, tables: &mut WorkTables) {
    tables.ring.table()[..given.corners()].copy_from_slice(&fresh(given, passed));
}

fn has_room(given: &Given, tables: &WorkTables) -> bool {
    tables.ring.view().len() >= given.corners()
}

fn marks_left_as_links(given: &Given, tables: &mut WorkTables) -> Answer {
    let values = oracle(given, tables)?;
    if values.2 > 0 {
        let marks = &mut tables.cut.marks.table()[..given.corners()];
        marks.copy_from_slice(&tables.ring.view()[..given.corners()]);
    }
    Ok(values)
}

fn leaves_the_rings(given: &Given, tables: &mut WorkTables) -> Answer {
    let before = tables.ring.clone();
    let values = oracle(given, tables)?;
    tables.ring = before;
    Ok(values)
}

fn leaves_the_count(given: &Given, tables: &mut WorkTables) -> Answer {
    let (_, contours, points) = oracle(given, tables)?;
    Ok((given.passed, contours, points))
}

fn vertex_on_the_plane_passed(given: &Given, tables: &mut WorkTables) -> Answer {
    let above = given.height.saturating_add(1);
    oracle(&given.clone().at(above), tables)
}

fn always_empty(given: &Given, tables: &mut WorkTables) -> Answer {
    let before = tables.cut.clone();
    let (passed, _, _) = oracle(given, tables)?;
    let marks = tables.cut.marks.clone();
    tables.cut = before;
    tables.cut.marks = marks;
    Ok((passed, 0, 0))
}

fn wrong_rings_mended(given: &Given, tables: &mut WorkTables) -> Answer {
    let before = tables.clone();
    match oracle(given, tables) {
        Err((11, place)) if has_room(given, tables) => {
            write_ring(given, given.passed, tables);
            oracle(given, tables).map_err(|_| {
                *tables = before;
                (11, place)
            })
        }
        answer => answer,
    }
}

fn crossings_alone_compared(given: &Given, tables: &mut WorkTables) -> Answer {
    let before = tables.clone();
    match oracle(given, tables) {
        Err((11, place)) if has_room(given, tables) => {
            write_ring(given, given.passed, tables);
            let is_crossing = |entry: &u32| *entry != NO_CORNER;
            let kept = before.ring.view().iter().map(is_crossing);
            if kept.eq(tables.ring.view().iter().map(is_crossing)) {
                return oracle(given, tables);
            }
            *tables = before;
            Err((11, place))
        }
        answer => answer,
    }
}

fn last_wrong_entry_named(given: &Given, tables: &mut WorkTables) -> Answer {
    match oracle(given, tables) {
        Err((11, _)) if has_room(given, tables) => {
            let right = fresh(given, given.passed);
            let pairs = right.iter().zip(tables.ring.view());
            let mut differ = pairs.map(|(right, entry)| right != entry);
            let last = differ.rposition(|differs| differs);
            Err((11, last.expect("an entry is wrong") as u64))
        }
        answer => answer,
    }
}

fn height_before_rings(given: &Given, tables: &mut WorkTables) -> Answer {
    let z = |vertex: &u32| given.mesh.point(*vertex)[2];
    match oracle(given, tables) {
        Err((11, _))
            if given.order[..given.passed]
                .iter()
                .any(|v| z(v) >= given.height) =>
        {
            Err((12, 0))
        }
        answer => answer,
    }
}

fn low_height_taken(given: &Given, tables: &mut WorkTables) -> Answer {
    match oracle(given, tables) {
        Err((12, 0)) => oracle(&given.clone().at(i32::MAX), tables),
        answer => answer,
    }
}

fn same_height_refused(given: &Given, tables: &mut WorkTables) -> Answer {
    let before = tables.clone();
    let values = oracle(given, tables)?;
    if values.0 == given.passed && given.passed > 0 {
        *tables = before;
        return Err((12, 0));
    }
    Ok(values)
}

fn rings_changed_before_12(given: &Given, tables: &mut WorkTables) -> Answer {
    let answer = oracle(given, tables);
    if answer == Err((12, 0)) {
        write_ring(given, given.mesh.vertex_count(), tables);
    }
    answer
}

fn surplus_overwritten(given: &Given, tables: &mut WorkTables) -> Answer {
    let values = oracle(given, tables)?;
    if let Some(entry) = tables.ring.table().get_mut(given.corners()) {
        *entry = NO_CORNER;
    }
    Ok(values)
}

fn order_not_tested(given: &Given, tables: &mut WorkTables) -> Answer {
    let ordered = Given {
        order: vertex_order(&given.mesh),
        ..given.clone()
    };
    oracle(&ordered, tables)
}

fn counts_exchanged(given: &Given, tables: &mut WorkTables) -> Answer {
    let (passed, contours, points) = oracle(given, tables)?;
    Ok((passed, points, contours))
}
