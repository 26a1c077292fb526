use super::{exact, gives, lent, refuses};
use crate::harness::UNTOUCHED;
use crate::inputs::{octahedra, part_p, two_on_an_edge};
use crate::operations::{AllLayers, Area, Check, Contour, Cut, Ends, Given, Layer, Start, Step};
use meshes::shapes::tetrahedron;
use meshes::Mesh;

/// Part P after a change.
fn changed(change: impl FnOnce(&mut Given)) -> Given {
    let mut given = part_p();
    change(&mut given);
    given
}

#[test]
fn check_has_no_values() {
    assert_eq!(exact::<Check>(part_p()), (0, UNTOUCHED));
    assert_eq!(lent::<Check>(part_p(), &[20, 20]), (0, UNTOUCHED));
    assert_eq!(exact::<Check>(Given::default()), (0, UNTOUCHED));
    let no_triangles = changed(|p| p.mesh.corners.clear());
    assert_eq!(exact::<Check>(no_triangles), (0, UNTOUCHED));
    let no_vertices = changed(|p| p.mesh.coords.clear());
    assert_eq!(exact::<Check>(no_vertices), refuses(3, 0));
    assert_eq!(lent::<Check>(part_p(), &[0, 4]), refuses(9, 0));
    assert_eq!(lent::<Check>(part_p(), &[12, 0]), refuses(9, 0));
    let sharing_an_edge = Given::bare(two_on_an_edge());
    assert_eq!(exact::<Check>(sharing_an_edge), (0, UNTOUCHED));
    let one_sheet_more = changed(|p| p.mesh.corners.extend([2, 3, 1]));
    assert_eq!(exact::<Check>(one_sheet_more), refuses(6, 12));
}

#[test]
fn cut_gives_contours_and_points() {
    assert_eq!(exact::<Cut>(part_p()), gives(&[1, 3]));
    assert_eq!(exact::<Cut>(part_p().at(11)), gives(&[0, 0]));
    let two = Given::new(octahedra(10, 10)).at(-3);
    assert_eq!(exact::<Cut>(two.clone()), gives(&[2, 8]));
    assert_eq!(lent::<Cut>(two, &[99; 4]), gives(&[2, 8]));
}

#[test]
fn cut_takes_null_for_empty_tables() {
    assert_eq!(exact::<Cut>(Given::default()), gives(&[0, 0]));
    let no_triangles = changed(|p| {
        p.mesh.corners.clear();
        p.pairing.clear();
    });
    assert_eq!(exact::<Cut>(no_triangles), gives(&[0, 0]));
    let no_vertices = changed(|p| p.mesh.coords.clear());
    assert_eq!(exact::<Cut>(no_vertices), refuses(3, 0));
    let no_pairing = changed(|p| p.pairing.clear());
    assert_eq!(exact::<Cut>(no_pairing), refuses(7, 0));
    for missing in 0..4 {
        let mut lengths = [12, 24, 12, 12];
        lengths[missing] = 0;
        assert_eq!(lent::<Cut>(part_p(), &lengths), refuses(9, 0));
    }
}

#[test]
fn contour_gives_position_and_length() {
    let points: Vec<i32> = (0..20).collect();
    for (j, words) in [
        (0, [0, 6]),
        (1, [6, 8]),
        (2, [0, 0]),
        (3, [0, 0]),
        (4, [4, 16]),
        (5, [0, 0]),
        (usize::MAX, [0, 0]),
    ] {
        let input = Ends::new(&points, &[3, 7, 7, 2, 10], j);
        assert_eq!(exact::<Contour>(input), gives(&words), "{j}");
    }
    for (points, ends, j) in [
        (&[][..], &[][..], 0),
        (&[1, 2], &[], 0),
        (&[], &[0, 1], 0),
        (&[], &[0, 1], 1),
    ] {
        let input = Ends::new(points, ends, j);
        assert_eq!(exact::<Contour>(input), gives(&[0, 0]));
    }
}

#[test]
fn area_gives_twos_complement() {
    assert_eq!(exact::<Area>(vec![5, 0, 0, 5, 0, 0]), gives(&[25]));
    let negative = u64::MAX - 24;
    assert_eq!(exact::<Area>(vec![0, 0, 0, 5, 5, 0]), gives(&[negative]));
    assert_eq!(exact::<Area>(vec![]), gives(&[0]));
    assert_eq!(exact::<Area>(vec![1, 2, 3]), refuses(1, 0));
    assert_eq!(exact::<Area>(vec![1, 2, 3, 1_048_577]), refuses(2, 3));
}

#[test]
fn the_sweep_gives_the_passed_vertices() {
    for passed in 0..=4 {
        let given = part_p().with_passed(passed);
        assert_eq!(exact::<Start>(given.clone()), gives(&[0]));
        let stepped = match passed {
            4 => [4, 1],
            _ => [passed as u64 + 1, 0],
        };
        assert_eq!(exact::<Step>(given.clone()), gives(&stepped));
        assert_eq!(exact::<Layer>(given.at(11)), gives(&[4, 0, 0]));
    }
    assert_eq!(exact::<Layer>(part_p().at(0)), gives(&[0, 0, 0]));
    assert_eq!(exact::<Layer>(part_p().at(5)), gives(&[3, 1, 3]));
    let two = Given::new(octahedra(10, 10)).at(-3);
    assert_eq!(exact::<Layer>(two), gives(&[2, 2, 8]));
}

#[test]
fn the_sweep_takes_null_for_empty_tables() {
    assert_eq!(exact::<Start>(Given::default()), gives(&[0]));
    assert_eq!(exact::<Step>(Given::default()), gives(&[0, 1]));
    assert_eq!(exact::<Layer>(Given::default()), gives(&[0, 0, 0]));

    let points_alone = Given::new(Mesh::new(&[[0, 0, 4], [0, 0, 3]], &[]));
    assert_eq!(exact::<Step>(points_alone.clone()), gives(&[1, 0]));
    assert_eq!(exact::<Layer>(points_alone.at(4)), gives(&[1, 0, 0]));

    let no_pairing = changed(|p| p.pairing.clear());
    assert_eq!(exact::<Step>(no_pairing.clone()), refuses(7, 0));
    assert_eq!(exact::<Layer>(no_pairing), refuses(7, 0));
    let no_order = changed(|p| p.order.clear());
    assert_eq!(exact::<Step>(no_order.clone()), refuses(8, 0));
    assert_eq!(exact::<Layer>(no_order), refuses(8, 0));
    assert_eq!(lent::<Start>(part_p(), &[0]), refuses(9, 0));
    assert_eq!(lent::<Step>(part_p(), &[0]), refuses(11, 0));
    let no_ring = [12, 24, 12, 12, 0];
    assert_eq!(lent::<Layer>(part_p(), &no_ring), refuses(11, 0));
}

#[test]
fn all_layers_gives_the_length() {
    assert_eq!(exact::<AllLayers>(part_p()), gives(&[23]));
    let longer = [12, 24, 12, 12, 12, 99];
    assert_eq!(lent::<AllLayers>(part_p(), &longer), gives(&[23]));
    assert_eq!(exact::<AllLayers>(part_p().over(&[0])), gives(&[3]));
}

#[test]
fn all_layers_takes_null_for_empty_tables() {
    assert_eq!(exact::<AllLayers>(Given::default()), gives(&[1]));
    let nothing = lent::<AllLayers>(Given::default(), &[0; 6]);
    assert_eq!(nothing, refuses(14, 0));
    let by_default = Given::new(tetrahedron(60));
    assert_eq!(exact::<AllLayers>(by_default).0, 0);
    let no_pairing = changed(|p| p.pairing.clear());
    assert_eq!(exact::<AllLayers>(no_pairing), refuses(7, 0));
    let no_order = changed(|p| p.order.clear());
    assert_eq!(exact::<AllLayers>(no_order), refuses(8, 0));
    for (missing, number) in [(0, 9), (1, 9), (2, 9), (3, 9), (4, 9), (5, 14)] {
        let mut lengths = [12, 24, 12, 12, 12, 23];
        lengths[missing] = 0;
        assert_eq!(lent::<AllLayers>(part_p(), &lengths), refuses(number, 0));
    }
}
