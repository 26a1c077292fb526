//! The largest meshes: apexes of the greatest degree, and rises that pass all vertices at once.

use super::Swept;
use crate::inputs::largest_torus;
use meshes::shapes::bipyramid;
use meshes::{Mesh, Random, MAX_VERTICES};

/// A sweep that has started.
fn started(mesh: Mesh) -> Swept {
    let mut sweep = Swept::at(mesh, 0);
    sweep.work.ring.table().fill(7);
    assert_eq!(sweep.start(), Ok(0));
    sweep
}

#[test]
fn the_largest_mesh_is_swept() {
    let mut mesh = largest_torus();
    mesh.shuffle(&mut Random::new(1));
    let mut sweep = started(mesh);
    for passed in 1..=3 {
        assert_eq!(sweep.step(), Ok(Some(passed)));
    }
    // Round the tube lie 256 vertices, none of them at these heights; each contour crosses 128
    // edges round the tube and as many diagonals.
    let mut before = 3;
    for h in [-299_000, -5, 5, 200_000] {
        let answer = sweep.layer(h);
        let Ok((passed, 2, 512)) = answer else {
            panic!("at {h}: {answer:?}");
        };
        assert!(passed > before || h == 5);
        before = passed;
        assert_eq!(sweep.step(), Ok(Some(passed + 1)));
    }
    assert_eq!(sweep.layer(300_001), Ok((MAX_VERTICES, 0, 0)));
    assert_eq!(sweep.step(), Ok(None));
}

#[test]
fn one_rise_passes_all_vertices() {
    let mut sweep = started(largest_torus());
    let risen = Ok((MAX_VERTICES, 0, 0));
    assert_eq!(sweep.layer(i32::MAX), risen);
    assert_eq!(sweep.layer(i32::MAX), risen);
    assert_eq!(sweep.layer(300_000), Err((12, 0)));
}

#[test]
fn an_apex_of_the_greatest_degree_is_passed_by_one_step() {
    let mut sweep = started(bipyramid(32_766, 1_000_000, 1_000_000));
    assert_eq!(sweep.given.order[0], 32_766);
    assert_eq!(sweep.step(), Ok(Some(1)));
    assert_eq!(sweep.layer(0), Ok((1, 1, 32_766)));
    assert_eq!(sweep.layer(1), Ok((32_767, 1, 32_766)));
    assert_eq!(sweep.step(), Ok(Some(MAX_VERTICES)));
    assert_eq!(sweep.step(), Ok(None));
}
