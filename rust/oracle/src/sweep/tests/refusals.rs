use super::*;

/// The refusal of a step, which must leave the ring table.
fn step_refused(owned: &Owned, ring: &[u32], passed: usize) -> (u32, u64) {
    let mut after = ring.to_vec();
    let refusal = step(owned.sweep(), &mut after, passed).unwrap_err();
    assert_eq!(after, ring);
    (refusal.number, refusal.place)
}

/// The refusal of a rise, which must leave all tables.
fn layer_refused(owned: &Owned, ring: &[u32], passed: usize, h: i32) -> (u32, u64) {
    let room = owned.mesh.corners.len();
    let (mut after, mut tables) = (ring.to_vec(), LayerTables::new(room));
    let refusal = layer(owned.sweep(), &mut after, passed, h, tables.lend()).unwrap_err();
    assert_eq!(after, ring);
    assert_eq!(tables.all(), LayerTables::new(room).all());
    (refusal.number, refusal.place)
}

#[test]
fn both_refuse_wrong_tables() {
    let refused = |change: fn(&mut Owned), answer| {
        let mut owned = Owned::part_p();
        change(&mut owned);
        let ring = vec![NONE; owned.mesh.corners.len()];
        assert_eq!(step_refused(&owned, &ring, 0), answer);
        assert_eq!(layer_refused(&owned, &ring, 0, 5), answer);
    };
    refused(|p| p.mesh.coords.push(0), (1, 0));
    refused(|p| p.mesh.corners.push(0), (1, 0));
    refused(|p| p.mesh.coords[5] = 1_048_577, (2, 5));
    refused(|p| p.mesh.corners[4] = 4, (3, 4));
    refused(|p| p.mesh.corners[8] = 0, (4, 6));
    refused(|p| p.pairing[11] = 11, (7, 4));
    refused(|p| p.pairing.clear(), (7, 0));
    refused(|p| p.order.swap(1, 2), (8, 1));
    refused(|p| p.order[2] = 0, (8, 2));
    refused(|p| p.order[3] = 4, (8, 3));
    refused(|p| p.order.truncate(2), (8, 2));
    refused(|p| p.order.clear(), (8, 0));
    // By z and then by vertex number.
    refused(|p| p.mesh.coords[5] = 1, (8, 1));
}

#[test]
fn wrong_states_are_refused() {
    let part_p = Owned::part_p();
    for passed in [5, 6, usize::MAX] {
        assert_eq!(step_refused(&part_p, &[], passed), (10, 0));
        assert_eq!(layer_refused(&part_p, &[], passed, 5), (10, 0));
    }
    let ring = part_p.ring_after(1);
    assert_eq!(step_refused(&part_p, &ring[..11], 1), (11, 11));
    assert_eq!(step_refused(&part_p, &[], 4), (11, 0));
    assert_eq!(layer_refused(&part_p, &ring[..11], 1, 5), (11, 11));
    assert_eq!(layer_refused(&part_p, &[], 0, 5), (11, 0));
    // Of another state, a wrong follower, a missing one, one too many.
    assert_eq!(layer_refused(&part_p, &ring, 0, 5), (11, 0));
    assert_eq!(layer_refused(&part_p, &ring, 2, 5), (11, 3));
    let changed = |corner: usize, entry| {
        let mut ring = ring.clone();
        ring[corner] = entry;
        ring
    };
    assert_eq!(layer_refused(&part_p, &changed(3, 6), 1, 5), (11, 3));
    assert_eq!(layer_refused(&part_p, &changed(6, NONE), 1, 5), (11, 6));
    assert_eq!(layer_refused(&part_p, &changed(11, 0), 1, 5), (11, 11));
    let short = &changed(6, NONE)[..9];
    assert_eq!(layer_refused(&part_p, short, 1, 5), (11, 6));
}

#[test]
fn a_height_must_lie_above_the_passed_vertices() {
    let part_p = Owned::part_p();
    for (passed, lowest) in [(1, 1), (3, 1), (4, 11)] {
        let ring = part_p.ring_after(passed);
        for h in [i32::MIN, lowest - 1] {
            assert_eq!(layer_refused(&part_p, &ring, passed, h), (12, 0));
        }
        for h in [lowest, i32::MAX] {
            let (mut ring, mut tables) = (ring.clone(), LayerTables::new(12));
            let rise = layer(part_p.sweep(), &mut ring, passed, h, tables.lend());
            assert!(rise.is_ok());
        }
    }
}

#[test]
fn short_tables_are_refused_before_wrong_entries() {
    let mut owned = Owned::part_p();
    owned.mesh.coords[0] = i32::MAX;
    let (mut ring, mut tables) = (vec![NONE; 12], LayerTables::new(11));
    let refusal = layer(owned.sweep(), &mut ring, 0, 5, tables.lend()).unwrap_err();
    assert_eq!((refusal.number, refusal.place), (9, 0));
    assert_eq!(tables.all(), LayerTables::new(11).all());
}
