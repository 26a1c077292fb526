use crate::harness::{Case, Operation};
use crate::operations::{Check, Given};
use meshes::shapes::{cuboid, octahedron, tetrahedron, torus};
use meshes::sheets::{chessboard, fan, flaps, stack, two_cubes};
use meshes::{Mesh, Random};

/// The pairing of part P in the specification.
pub const PAIRING_P: [u32; 12] = [8, 9, 3, 2, 11, 6, 5, 10, 0, 1, 7, 4];

/// The part file of part P, with its heights 0, 5, 10 and 11.
pub const PART_FILE_P: [u8; 31] = [
    0x04, 0x04, 0x00, 0x00, 0x00, 0x14, 0x00, 0x00, 0x00, 0x14, 0x00, 0x00, 0x00, 0x14, 0x00, 0x02,
    0x01, 0x00, 0x01, 0x03, 0x00, 0x03, 0x02, 0x01, 0x02, 0x03, 0x04, 0x00, 0x0A, 0x14, 0x16,
];

/// The layer file of part P in the specification.
pub const LAYER_FILE_P: [u8; 23] = [
    0x04, 0x00, 0x00, 0x0A, 0x01, 0x03, 0x0A, 0x00, 0x09, 0x0A, 0x00, 0x09, 0x14, 0x01, 0x03, 0x00,
    0x00, 0x00, 0x00, 0x00, 0x00, 0x16, 0x00,
];

/// The layer file of part P in the clean profile: at height 10 no contour is left.
pub const CLEAN_FILE_P: [u8; 16] = [
    0x04, 0x00, 0x00, 0x0A, 0x01, 0x03, 0x0A, 0x00, 0x09, 0x0A, 0x00, 0x09, 0x14, 0x00, 0x16, 0x00,
];

/// Part P of the specification with its heights, of which 5 is the one to cut at.
pub fn part_p() -> Given {
    let given = Given::new(tetrahedron(10)).at(5).over(&[0, 5, 10, 11]);
    assert_eq!(given.pairing, PAIRING_P);
    given
}

/// Two meshes as one.
pub fn joined(mut mesh: Mesh, other: &Mesh) -> Mesh {
    mesh.join(other);
    mesh
}

/// Two octahedra round the same place, of these sizes.
pub fn octahedra(size: i32, other: i32) -> Mesh {
    joined(octahedron(size), &octahedron(other))
}

/// They touch along the edge from vertex 3 of the first, which is 8 of the second, to 7, which is
/// 12.
pub fn boxes_touching_along_an_edge() -> Mesh {
    joined(
        cuboid([0, 0, 0], [10, 10, 10]),
        &cuboid([10, 10, 0], [20, 20, 10]),
    )
}

/// Part P and a second tetrahedron on its edge from 0 to 1.
pub fn two_on_an_edge() -> Mesh {
    let mut mesh = tetrahedron(10);
    mesh.coords.extend([0, -10, 0, 0, 0, -10]);
    mesh.corners.extend([0, 4, 1, 0, 1, 5, 0, 5, 4, 1, 4, 5]);
    mesh
}

/// Two cubes that share an edge, of which two triangles with that edge have changed places, one of each,
/// so that partners there are of different cubes.
pub fn two_cubes_crossed() -> Mesh {
    let mut mesh = two_cubes(10);
    let (first, second) = mesh.corners.split_at_mut(36);
    first[21..24].swap_with_slice(&mut second[15..18]);
    mesh
}

/// A mesh with the pairing and the order that the product makes.
#[track_caller]
pub fn checked(mesh: Mesh) -> Given {
    let mut case = Case::<Check>::exact(Given::bare(mesh));
    case.run(Check::product).unwrap();
    Given {
        pairing: case.tables.pairing.view().to_vec(),
        order: case.tables.order.view().to_vec(),
        ..case.input
    }
}

/// Boards and stacks of cubes that share edges, tetrahedra and flaps round an edge, each as it is and
/// with names and triangles shuffled, and paired by the product.
pub fn solids_sharing_edges() -> Vec<Given> {
    let solids = [
        two_on_an_edge(),
        two_cubes(10),
        two_cubes_crossed(),
        chessboard([4, 3, 1], 10),
        chessboard([3, 3, 3], 10),
        stack(6, 10),
        fan(9, 20),
        flaps(9, 20),
    ];
    let orders = solids.into_iter().flat_map(|solid| {
        (0..4).map(move |seed| {
            let mut mesh = solid.clone();
            if seed > 0 {
                mesh.shuffle(&mut Random::new(seed));
            }
            mesh
        })
    });
    orders.map(checked).collect()
}

/// A torus with as many vertices and triangles as a mesh may have.
pub fn largest_torus() -> Mesh {
    torus(128, 256, 700_000, 300_000)
}
