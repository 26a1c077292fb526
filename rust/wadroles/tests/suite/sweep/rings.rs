//! Ring tables that are wrong, short or of another state, worked by hand.

use super::Swept;
use meshes::shapes::tetrahedron;
use wadroles::NO_CORNER;

/// Part P of the specification, with so many vertices passed.
pub fn part_p(passed: usize) -> Swept {
    Swept::at(tetrahedron(10), passed)
}

/// A ring table in which these corners follow each other.
pub fn ring_of(corners: usize, ring: &[u32]) -> Vec<u32> {
    let mut table = vec![NO_CORNER; corners];
    let followers = ring.iter().cycle().skip(1);
    for (&corner, &follower) in ring.iter().zip(followers) {
        table[corner as usize] = follower;
    }
    table
}

/// The rings of part P, by the number of passed vertices.
pub const RINGS_P: [&[u32]; 5] = [&[], &[0, 6, 3], &[0, 6, 4, 9], &[4, 10, 6], &[]];

#[test]
fn a_step_leaves_wrong_entries_that_are_not_its_own() {
    // Triangle 3 is the only one that vertex 0 is not a corner of. Corners 4, 7 and 1 are paired
    // with its corners.
    let mut sweep = part_p(0);
    sweep.work.ring.table().fill(5);
    assert_eq!(sweep.step(), Ok(Some(1)));
    let mut expected = ring_of(12, RINGS_P[1]);
    for corner in [4, 7, 1] {
        expected[corner] = 5;
    }
    assert_eq!(sweep.ring(), expected);
    assert_eq!(sweep.layer(5), Err((11, 1)));
    // Vertices 1 and 2 are corners of triangle 3, so that their steps rewrite the rest.
    assert_eq!(sweep.step(), Ok(Some(2)));
    assert_eq!(sweep.ring(), ring_of(12, RINGS_P[2]));
    assert_eq!(sweep.layer(5), Ok((3, 1, 3)));
}

#[test]
fn a_ring_table_must_be_that_of_the_state() {
    // The table of one state handed in with another: the least corner where they differ.
    for (table, passed, place) in [
        (0, 1, 0),
        (0, 2, 0),
        (1, 0, 0),
        (1, 2, 3),
        (2, 1, 3),
        (2, 3, 0),
        (3, 2, 0),
        (3, 4, 4),
        (4, 3, 4),
    ] {
        let mut sweep = part_p(table);
        sweep.given.passed = passed;
        assert_eq!(sweep.layer(i32::MAX), Err((11, place)));
    }
    // Part P has no ring at either end.
    let mut sweep = part_p(0);
    sweep.given.passed = 4;
    assert_eq!(sweep.layer(11), Ok((4, 0, 0)));
}

#[test]
fn every_entry_of_the_ring_table_is_tested_by_layer_only() {
    for passed in 0..=4 {
        for corner in 0..12 {
            let right = part_p(passed).ring()[corner];
            let others = (0..14).chain([u32::MAX - 1, u32::MAX]);
            for wrong in others.filter(|&entry| entry != right) {
                let mut sweep = part_p(passed);
                sweep.work.ring.table()[corner] = wrong;
                assert_eq!(sweep.layer(11), Err((11, corner as u64)));
                let stepped = (passed < 4).then_some(passed + 1);
                assert_eq!(sweep.step(), Ok(stepped));
            }
        }
    }
}

#[test]
fn a_short_ring_table_is_refused_by_each_in_its_own_way() {
    for length in 0..12 {
        let short = |passed| {
            let mut sweep = part_p(passed);
            sweep.shorten_ring(length);
            sweep
        };
        assert_eq!(short(0).start(), Err((9, 0)));
        for passed in 0..=4 {
            assert_eq!(short(passed).step(), Err((11, length as u64)));
            assert_eq!(short(passed).layer(11), Err((11, length as u64)));
        }
        // Step names the length, Layer a wrong entry that is there.
        if length > 3 {
            let mut sweep = short(1);
            sweep.work.ring.table()[3] = 7;
            assert_eq!(sweep.step(), Err((11, length as u64)));
            assert_eq!(sweep.layer(11), Err((11, 3)));
        }
    }
}

#[test]
fn more_passed_than_vertices_is_refused() {
    for passed in [5, 6, 12, 1 << 32, usize::MAX] {
        for ring in [0, 12] {
            let mut sweep = part_p(4);
            sweep.given.passed = passed;
            sweep.shorten_ring(ring);
            assert_eq!(sweep.step(), Err((10, 0)));
            assert_eq!(sweep.layer(11), Err((10, 0)));
        }
    }
}

#[test]
fn start_tests_sizes_and_the_ring_table_only() {
    let mut sweep = part_p(2);
    sweep.given.mesh.coords[5] = i32::MAX;
    sweep.given.mesh.corners[4] = u32::MAX;
    sweep.given.pairing.clear();
    sweep.given.order.clear();
    sweep.given.passed = usize::MAX;
    assert_eq!(sweep.start(), Ok(0));
    assert_eq!(sweep.ring(), [NO_CORNER; 12]);
    assert_eq!(sweep.step(), Err((2, 5)));
    assert_eq!(sweep.ring(), [NO_CORNER; 12]);
}

#[test]
fn a_sweep_may_be_started_again() {
    let mut sweep = part_p(3);
    assert_eq!(sweep.start(), Ok(0));
    assert_eq!(sweep.ring(), ring_of(12, &[]));
    assert_eq!(sweep.layer(0), Ok((0, 0, 0)));
}
