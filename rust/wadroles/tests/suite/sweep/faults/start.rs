use crate::harness::{Answer, Fault, Operation};
use crate::operations::{Given, Ring, Start};
use wadroles::NO_CORNER;

pub const FAULTS: [Fault<Start>; 4] = [
    ("surplus filled", fills_the_surplus, "ring entry"),
    ("zero", fills_with_zero, "ring entry"),
    ("coordinates", tests_coordinates, "start: answer Err((2"),
    ("long ring", refuses_a_long_ring, "start: answer Err((9"),
];

fn fills_the_surplus(given: &Given, tables: &mut Ring) -> Answer<usize> {
    let passed = Start::oracle(given, tables)?;
    tables.ring.table().fill(NO_CORNER);
    Ok(passed)
}

fn fills_with_zero(given: &Given, tables: &mut Ring) -> Answer<usize> {
    let passed = Start::oracle(given, tables)?;
    tables.ring.table()[..given.corners()].fill(0);
    Ok(passed)
}

fn tests_coordinates(given: &Given, tables: &mut Ring) -> Answer<usize> {
    let coords = &given.mesh.coords;
    let out_of_range = coords.iter().position(|x| x.unsigned_abs() > 1_048_576);
    let before = tables.clone();
    let passed = Start::oracle(given, tables)?;
    match out_of_range {
        Some(place) => {
            *tables = before;
            Err((2, place as u64))
        }
        None => Ok(passed),
    }
}

fn refuses_a_long_ring(given: &Given, tables: &mut Ring) -> Answer<usize> {
    let before = tables.clone();
    let passed = Start::oracle(given, tables)?;
    if tables.ring.view().len() == given.corners() && given.corners() > 0 {
        *tables = before;
        return Err((9, 0));
    }
    Ok(passed)
}
