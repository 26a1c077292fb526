//! Cases worked by hand.

use super::rings::{part_p, ring_of, RINGS_P};
use super::Swept;
use crate::harness::Lent;
use meshes::shapes::{pillow, tetrahedron};
use meshes::{Mesh, Random};

#[test]
fn part_p_is_passed_vertex_by_vertex() {
    let mut sweep = part_p(0);
    sweep.work.ring = Lent::new(13, &mut Random::new(1));
    let surplus = sweep.ring()[12];
    assert_eq!(sweep.start(), Ok(0));
    for (passed, ring) in RINGS_P.into_iter().enumerate() {
        assert_eq!(sweep.ring()[..12], ring_of(12, ring));
        assert_eq!(sweep.ring()[12], surplus);
        if passed < 4 {
            assert_eq!(sweep.step(), Ok(Some(passed + 1)));
        }
    }
    for _ in 0..3 {
        assert_eq!(sweep.step(), Ok(None));
        assert_eq!(sweep.ring()[..12], ring_of(12, &[]));
    }
}

#[test]
fn part_p_is_swept_over_its_heights() {
    let mut sweep = part_p(0);
    for (h, risen, ring, points) in [
        (0, (0, 0, 0), RINGS_P[0], &[][..]),
        (5, (3, 1, 3), RINGS_P[3], &[5, 0, 0, 5, 0, 0]),
        (10, (3, 1, 3), RINGS_P[3], &[0; 6]),
        (11, (4, 0, 0), RINGS_P[4], &[]),
    ] {
        assert_eq!(sweep.layer(h), Ok(risen));
        assert_eq!(sweep.ring(), ring_of(12, ring));
        assert_eq!(sweep.work.cut.points.view()[..points.len()], *points);
        assert_eq!(sweep.work.cut.marks.view(), [0; 12]);
    }
    assert_eq!(sweep.work.cut.names.view()[..3], [4, 10, 6]);
    assert_eq!(sweep.work.cut.ends.view()[0], 3);
}

#[test]
fn the_same_height_may_be_asked_twice() {
    let mut sweep = part_p(0);
    for h in [5, 5, 5, 10, 10, i32::MAX, i32::MAX] {
        let first = sweep.layer(h);
        assert!(first.is_ok());
        assert_eq!(sweep.layer(h), first);
    }
}

#[test]
fn a_rise_from_any_position_leads_to_the_same_place() {
    for passed in 0..=3 {
        let mut sweep = part_p(passed);
        assert_eq!(sweep.layer(10), Ok((3, 1, 3)));
        assert_eq!(sweep.ring(), ring_of(12, RINGS_P[3]));
    }
    for passed in 0..=4 {
        assert_eq!(part_p(passed).layer(11), Ok((4, 0, 0)));
    }
}

#[test]
fn a_height_that_passes_no_vertex_changes_no_ring() {
    for h in [i32::MIN, -1_048_576, -1, 0] {
        assert_eq!(part_p(0).layer(h), Ok((0, 0, 0)));
    }
    // Above the three vertices at 0, up to that at 10.
    for h in 1..=10 {
        assert_eq!(part_p(3).layer(h), Ok((3, 1, 3)));
    }
}

#[test]
fn a_height_must_lie_above_every_passed_vertex() {
    for passed in 1..=3 {
        for h in [i32::MIN, -5, -1, 0] {
            assert_eq!(part_p(passed).layer(h), Err((12, 0)));
        }
        assert_eq!(part_p(passed).layer(1), Ok((3, 1, 3)));
    }
    for h in [i32::MIN, 0, 5, 9, 10] {
        assert_eq!(part_p(4).layer(h), Err((12, 0)));
    }
}

#[test]
fn a_refusal_changes_neither_state_nor_rings() {
    let mut sweep = part_p(0);
    assert_eq!(sweep.step(), Ok(Some(1)));
    assert_eq!(sweep.layer(0), Err((12, 0)));
    sweep.given.order.swap(2, 3);
    assert_eq!(sweep.step(), Err((8, 2)));
    sweep.given.order.swap(2, 3);
    assert_eq!(sweep.step(), Ok(Some(2)));
    assert_eq!(sweep.ring(), ring_of(12, RINGS_P[2]));
}

#[test]
fn without_vertices_the_top_is_the_bottom() {
    let mut sweep = Swept::at(Mesh::default(), 0);
    assert_eq!(sweep.start(), Ok(0));
    assert_eq!(sweep.step(), Ok(None));
    for h in [i32::MIN, 0, i32::MAX] {
        assert_eq!(sweep.layer(h), Ok((0, 0, 0)));
    }
    sweep.given.passed = 1;
    assert_eq!(sweep.step(), Err((10, 0)));
    assert_eq!(sweep.layer(0), Err((10, 0)));
}

#[test]
fn vertices_are_passed_by_z_and_then_by_number() {
    let points = [[0, 0, 4], [9, 0, -4], [0, 9, 4], [0, 0, -4], [5, 5, 4]];
    let mesh = Mesh {
        coords: points.concat(),
        ..tetrahedron(1)
    };
    let mut sweep = Swept::at(mesh, 0);
    assert_eq!(sweep.given.order, [1, 3, 0, 2, 4]);
    assert_eq!(sweep.layer(-4), Ok((0, 0, 0)));
    assert_eq!(sweep.layer(4), Ok((2, 1, 4)));
    // Vertex 4 is unused: its step changes no ring.
    assert_eq!(sweep.step(), Ok(Some(3)));
    assert_eq!(sweep.step(), Ok(Some(4)));
    let before = sweep.work.ring.clone();
    assert_eq!(sweep.step(), Ok(Some(5)));
    assert_eq!(sweep.work.ring, before);
    assert_eq!(sweep.step(), Ok(None));
}

#[test]
fn the_least_closed_mesh_has_the_least_ring() {
    let mut sweep = Swept::at(pillow(10), 0);
    for (passed, ring) in [(1, &[0, 3][..]), (2, &[1, 3]), (3, &[])] {
        assert_eq!(sweep.step(), Ok(Some(passed)));
        assert_eq!(sweep.ring(), ring_of(6, ring));
    }
}
