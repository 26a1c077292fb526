//! Outputs of every length around that of the file, and what is left in the work tables.

use super::with_output;
use crate::harness::{agree, assert_answer, number, Case, Entry, Lent, Operation, Rounds, Tables};
use crate::inputs::{part_p, random_mesh, shrunk, CLEAN_FILE_P, LAYER_FILE_P};
use crate::operations::{AllLayersIn, Given, WorkTables};
use meshes::shapes::torus;
use meshes::{rising_heights, Mesh, Random};

/// Whether a table is zero in so many entries, and all else in it is as before.
fn is_zero<T: Entry + From<u8>>(after: &Lent<T>, before: &Lent<T>, needed: usize) -> bool {
    let mut expected = before.clone();
    expected.table()[..needed].fill(T::from(0));
    after.difference(&expected).is_none()
}

/// Asserts that the work tables are zero in exactly the entries asked for.
#[track_caller]
fn assert_work_is_zero(after: &WorkTables, before: &WorkTables, corners: usize) {
    let (cut, old) = (&after.cut, &before.cut);
    assert!(is_zero(&cut.names, &old.names, corners), "names");
    assert!(is_zero(&cut.points, &old.points, 2 * corners), "points");
    assert!(is_zero(&cut.ends, &old.ends, corners), "ends");
    assert!(is_zero(&cut.marks, &old.marks, corners), "marks");
    assert!(is_zero(&after.ring, &before.ring, corners), "ring");
}

/// Runs the product over an output of so many bytes, and asks of the whole output and of the work
/// tables what the specification says of them, without the oracle.
#[track_caller]
fn assert_output<const CLEAN: bool>(case: &Case<AllLayersIn<CLEAN>>, length: usize, file: &[u8]) {
    let before = with_output(case.clone(), length);
    let mut after = before.clone();
    let answer = after.run(AllLayersIn::<CLEAN>::product);
    let mut output = before.tables.output.clone();
    if length < file.len() {
        assert_eq!(answer, Err((14, 0)), "length {length}");
    } else {
        assert_eq!(answer, Ok(file.len()), "length {length}");
        output.table()[..file.len()].copy_from_slice(file);
    }
    assert_eq!(after.tables.output.difference(&output), None);
    let corners = case.input.corners();
    assert_work_is_zero(&after.tables.work, &before.tables.work, corners);
}

/// Every length up to some more than that of the file of part P.
fn lengths_for_part_p<const CLEAN: bool>(file: &[u8]) {
    let case = Case::<AllLayersIn<CLEAN>>::exact(part_p());
    for length in 0..60 {
        assert_output(&case, length, file);
        let answer = match length < file.len() {
            true => Err((14, 0)),
            false => Ok(file.len()),
        };
        assert_answer(&with_output(case.clone(), length), answer);
    }
}

#[test]
fn every_length_of_output_for_part_p() {
    lengths_for_part_p::<false>(&LAYER_FILE_P);
    lengths_for_part_p::<true>(&CLEAN_FILE_P);
}

/// Lengths around that of the file of a random mesh. Gives the share of longer files.
fn lengths_around<const CLEAN: bool>(name: &str, mesh: fn(&mut Random) -> Mesh) -> f64 {
    Rounds::one_in(250, name).share(|random| {
        let mesh = mesh(random);
        let heights = rising_heights(&mesh, random);
        let mut case = Case::<AllLayersIn<CLEAN>>::exact(Given::new(mesh).over(&heights));
        if let Err(refusal) = case.run(AllLayersIn::<CLEAN>::product) {
            assert_eq!(refusal, (1, 0), "the default of a tall mesh");
            return false;
        }
        let file = case.tables.output.view().to_vec();
        let length = file.len();
        let case = Case::<AllLayersIn<CLEAN>>::long(case.input, random);
        let near = [length.saturating_sub(2), length - 1, length, length + 1];
        let between = [(); 3].map(|()| random.below(length));
        for length in near.into_iter().chain(between).chain([0, 1, length + 2]) {
            assert_output(&case, length, &file);
        }
        length > 20
    })
}

#[test]
fn lengths_of_output_around_that_of_any_file() {
    let share = lengths_around::<false>("all layers, output", random_mesh);
    assert!(share > 0.5, "too few files are long: {share}");
    let share = lengths_around::<true>("all layers clean, output", random_mesh);
    assert!(share > 0.3, "too few clean files are long: {share}");
    let share = lengths_around::<true>("all layers clean, output of small ones", shrunk);
    assert!(share > 0.2, "too few clean files are long: {share}");
}

fn written_whole_or_not_at_all<const CLEAN: bool>(mesh: Mesh, least: usize) {
    let heights: Vec<i32> = (-30..30).map(|k| 10_007 * k).collect();
    let case = Case::<AllLayersIn<CLEAN>>::exact(Given::new(mesh).over(&heights));
    let mut written = case.clone();
    let length = agree(&mut written).unwrap();
    assert!(length > least, "{length}");
    let file = written.tables.output.view();
    for length in [0, 1, 2, length / 2, length - 2, length - 1, length] {
        assert_output(&case, length, file);
    }
    for more in [1, 2, 5_000] {
        assert_output(&case, length + more, file);
    }
}

#[test]
fn a_longer_file_is_written_whole_or_not_at_all() {
    let mesh = torus(24, 18, 700_000, 300_000);
    written_whole_or_not_at_all::<false>(mesh.clone(), 10_000);
    written_whole_or_not_at_all::<true>(mesh.clone(), 10_000);
    written_whole_or_not_at_all::<true>(mesh.smaller(50_000), 3_000);
}

fn refusals_leave_the_work_tables<const CLEAN: bool>() {
    let refusals: [fn(&mut Case<AllLayersIn<CLEAN>>); 10] = [
        |case| case.input.mesh.coords.push(0),
        |case| case.input.heights = (0..4_097).collect(),
        |case| case.tables.shorten(4, 11),
        |case| case.tables.shorten(2, 11),
        |case| case.input.mesh.coords[5] = 1_048_577,
        |case| case.input.mesh.corners[4] = 4,
        |case| case.input.mesh.corners[8] = 0,
        |case| case.input.pairing[11] = 11,
        |case| case.input.order.swap(1, 2),
        |case| case.input.heights[3] = 10,
    ];
    for spoil in refusals {
        for output in [0, 15, 16, 22, 23, 30] {
            let lengths = [12, 24, 12, 12, 15, output];
            let mut before = Case::<AllLayersIn<CLEAN>>::lent(part_p(), lengths);
            spoil(&mut before);
            let mut after = before.clone();
            let number = number(&agree(&mut after));
            assert!(number != 0 && number != 14, "{number}");
            assert_eq!(after.tables.difference(&before.tables), None);
        }
    }
}

#[test]
fn refusals_but_14_leave_the_work_tables() {
    refusals_leave_the_work_tables::<false>();
    refusals_leave_the_work_tables::<true>();
}
