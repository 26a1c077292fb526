//! Faults that the random rounds notice.

use super::random::perhaps_damaged;
use crate::harness::{assert_common_faults_noticed, assert_noticed, Answer, Fault, Operation};
use crate::operations::{Check, CheckTables, Given};

fn pairing_left_after_6(given: &Given, tables: &mut CheckTables) -> Answer<()> {
    let before = tables.clone();
    let answer = Check::oracle(given, tables);
    if matches!(answer, Err((6, _))) {
        tables.pairing = before.pairing;
    }
    answer
}

fn order_left_after_6(given: &Given, tables: &mut CheckTables) -> Answer<()> {
    let before = tables.clone();
    let answer = Check::oracle(given, tables);
    if matches!(answer, Err((6, _))) {
        tables.order = before.order;
    }
    answer
}

fn ties_by_larger_number(given: &Given, tables: &mut CheckTables) -> Answer<()> {
    Check::oracle(given, tables)?;
    let z = |vertex: u32| given.mesh.point(vertex)[2];
    let order = &mut tables.order.table()[..given.mesh.vertex_count()];
    order.sort_by(|&a, &b| z(a).cmp(&z(b)).then(b.cmp(&a)));
    Ok(())
}

fn cleared_too_early(given: &Given, tables: &mut CheckTables) -> Answer<()> {
    let answer = Check::oracle(given, tables);
    if matches!(answer, Err((4, _))) {
        tables.order.table().fill(0);
    }
    answer
}

#[test]
fn faults_are_noticed() {
    let faults: [Fault<Check>; 4] = [
        ("pairing left", pairing_left_after_6, "pairing entry"),
        ("order left", order_left_after_6, "order entry"),
        ("ties", ties_by_larger_number, "order entry"),
        ("cleared early", cleared_too_early, "order entry"),
    ];
    assert_noticed::<Check>(1_000, perhaps_damaged, &faults);
    assert_common_faults_noticed::<Check>(1_000, perhaps_damaged);
}
