//! Checks part P of the specification, and then P without its last triangle.

use wadroles::{check, CheckTables, Mesh};

const PART_P: Mesh = Mesh {
    coords: &[0, 0, 0, 10, 0, 0, 0, 10, 0, 0, 0, 10],
    corners: &[0, 2, 1, 0, 1, 3, 0, 3, 2, 1, 2, 3],
};

fn main() {
    print_check("P", PART_P);
    let open = Mesh {
        corners: &PART_P.corners[..9],
        ..PART_P
    };
    print_check("P without triangle 3", open);
}

fn print_check(name: &str, mesh: Mesh) {
    let mut pairing = vec![0; mesh.corners.len()];
    let mut order = vec![0; mesh.vertices()];
    let mut tables = CheckTables {
        pairing: &mut pairing,
        order: &mut order,
    };
    match check(mesh, &mut tables) {
        Ok(()) => println!("{name}: closed, pairing {pairing:?}, order {order:?}"),
        Err(refusal) => println!("{name}: refused {} {}", refusal.number, refusal.place),
    }
}
