//! What the specification says of every part file, asked of the product. The oracle only writes files.

use crate::harness::{refused, Answer, Case, Operation, Rounds, Tables};
use crate::operations::ReadPart;
use files::{random_part, Damage};
use meshes::Random;
use oracle::{encode_part, Part};

/// The part that the product reads out of a file, or a refusal's number and place.
fn product_part(file: &[u8]) -> Answer<Part> {
    // Each value takes a byte at least.
    let mut part = Part {
        coords: vec![0; file.len()],
        corners: vec![0; file.len()],
        heights: vec![0; file.len()],
    };
    let mut tables = wadroles::Part {
        coords: &mut part.coords,
        corners: &mut part.corners,
        heights: &mut part.heights,
    };
    let counts = wadroles::read_part(file, &mut tables).map_err(refused)?;
    part.coords.truncate(3 * counts.vertices);
    part.corners.truncate(3 * counts.triangles);
    part.heights.truncate(counts.heights);
    Ok(part)
}

/// The file of a random part after some damage.
fn spoiled(random: &mut Random) -> Vec<u8> {
    let mut file = encode_part(&random_part(random));
    for _ in 0..random.choose(&[1, 1, 2]) {
        Damage::any(random).apply(&mut file, random);
    }
    file
}

#[test]
fn parts_are_read_back_into_the_first_entries() {
    let share = Rounds::one_in(10, "part files, read back").share(|random| {
        let part = random_part(random);
        let Part {
            coords,
            corners,
            heights,
        } = &part;
        let mut case = Case::<ReadPart>::long(encode_part(&part), random);
        let mut filled = case.tables.clone();
        filled.coords.table()[..coords.len()].copy_from_slice(coords);
        filled.corners.table()[..corners.len()].copy_from_slice(corners);
        filled.heights.table()[..heights.len()].copy_from_slice(heights);
        let answer = Ok((coords.len() / 3, corners.len() / 3, heights.len()));
        assert_eq!(case.run(ReadPart::product), answer);
        assert_eq!(case.tables.difference(&filled), None);
        !part.corners.is_empty()
    });
    assert!(share > 0.3, "too few parts have triangles");
}

#[test]
fn what_is_accepted_is_the_file_of_its_part() {
    let share = Rounds::one_in(10, "part files, accepted").share(|random| {
        let file = spoiled(random);
        match product_part(&file) {
            Ok(part) => {
                assert_eq!(encode_part(&part), file);
                true
            }
            Err((number, _)) => {
                assert_eq!(number, 13);
                false
            }
        }
    });
    assert!(share > 0.1, "too few files are accepted");
}

#[test]
fn the_bytes_before_the_place_are_right() {
    let share = Rounds::one_in(10, "part files, places").share(|random| {
        let file = spoiled(random);
        let Err((13, place)) = product_part(&file) else {
            return false;
        };
        // Up to the place it is a whole file, or one that lacks the next value.
        match product_part(&file[..place as usize]) {
            Ok(_) => assert!(file.len() as u64 > place),
            Err(refusal) => assert_eq!(refusal, (13, place)),
        }
        true
    });
    assert!(share > 0.3, "too few files are refused");
}
