//! The part file of the specification.

use crate::numbers::{encode_plain, encode_signed, Values};
use crate::refusal::{refuse_if, Refusal};

/// What a part file holds.
#[derive(Clone, Debug, Default, PartialEq, Eq)]
pub struct Part {
    /// Three for each vertex.
    pub coords: Vec<i32>,
    /// Three for each triangle.
    pub corners: Vec<u32>,
    /// The heights to cut at.
    pub heights: Vec<i32>,
}

/// The counts that Read part returns.
#[derive(Clone, Copy, Debug, PartialEq, Eq)]
pub struct PartRead {
    /// The number of vertices.
    pub vertices: usize,
    /// The number of triangles.
    pub triangles: usize,
    /// The number of heights.
    pub heights: usize,
}

/// The operation "Read part" of the specification.
pub fn read_part(
    file: &[u8],
    coords: &mut [i32],
    corners: &mut [u32],
    heights: &mut [i32],
) -> Result<PartRead, Refusal> {
    let part = decode_part(file)?;
    refuse_if(9, coords.len() < part.coords.len())?;
    refuse_if(9, corners.len() < part.corners.len())?;
    refuse_if(9, heights.len() < part.heights.len())?;

    coords[..part.coords.len()].copy_from_slice(&part.coords);
    corners[..part.corners.len()].copy_from_slice(&part.corners);
    heights[..part.heights.len()].copy_from_slice(&part.heights);
    Ok(PartRead {
        vertices: part.coords.len() / 3,
        triangles: part.corners.len() / 3,
        heights: part.heights.len(),
    })
}

/// The part of a file, or refusal 13.
pub fn decode_part(file: &[u8]) -> Result<Part, Refusal> {
    let mut values = Values::of(file);
    let mut part = Part::default();
    let vertices = values.plain()?;
    let triangles = values.plain()?;
    for _ in 0..3 * vertices.number {
        part.coords.push(values.signed()?.number as i32);
    }
    for _ in 0..3 * triangles.number {
        part.corners.push(values.plain()?.number as u32);
    }
    let heights = values.plain()?;
    for _ in 0..heights.number {
        part.heights.push(values.signed()?.number as i32);
    }
    values.end()?;
    Ok(part)
}

/// The file of a part. Coordinates and corners that make no whole vertex or triangle are written
/// without being counted.
pub fn encode_part(part: &Part) -> Vec<u8> {
    let count = |entries: usize| encode_plain(entries as u64);
    let signed = |entries: &[i32]| -> Vec<u8> {
        entries
            .iter()
            .flat_map(|&n| encode_signed(n.into()))
            .collect()
    };
    let plain = |entries: &[u32]| -> Vec<u8> {
        entries
            .iter()
            .flat_map(|&n| encode_plain(n.into()))
            .collect()
    };
    [
        count(part.coords.len() / 3),
        count(part.corners.len() / 3),
        signed(&part.coords),
        plain(&part.corners),
        count(part.heights.len()),
        signed(&part.heights),
    ]
    .concat()
}

#[cfg(test)]
mod tests {
    use super::*;
    use meshes::shapes::tetrahedron;
    use meshes::Random;

    const JUNK: i32 = 77;

    /// The file of part P.
    const FILE_P: [u8; 31] = [
        4, 4, 0, 0, 0, 20, 0, 0, 0, 20, 0, 0, 0, 20, 0, 2, 1, 0, 1, 3, 0, 3, 2, 1, 2, 3, 4, 0, 10,
        20, 22,
    ];

    fn part_p() -> Part {
        let mesh = tetrahedron(10);
        Part {
            coords: mesh.coords,
            corners: mesh.corners,
            heights: vec![0, 5, 10, 11],
        }
    }

    /// The answer for tables of the given lengths, filled with junk, and what it leaves in them.
    fn read(file: &[u8], lengths: [usize; 3]) -> (Result<PartRead, Refusal>, Part) {
        let mut tables = Part {
            coords: vec![JUNK; lengths[0]],
            corners: vec![JUNK as u32; lengths[1]],
            heights: vec![JUNK; lengths[2]],
        };
        let Part {
            coords,
            corners,
            heights,
        } = &mut tables;
        let answer = read_part(file, coords, corners, heights);
        (answer, tables)
    }

    /// The place of refusal 13.
    fn broken(file: &[u8]) -> u64 {
        let refusal = decode_part(file).unwrap_err();
        assert_eq!(refusal.number, 13);
        refusal.place
    }

    #[test]
    fn part_p_is_written_and_read_back() {
        assert_eq!(encode_part(&part_p()), FILE_P);
        assert_eq!(decode_part(&FILE_P), Ok(part_p()));
    }

    #[test]
    fn a_part_fills_the_first_entries() {
        let (answer, tables) = read(&FILE_P, [13, 14, 6]);
        let expected = PartRead {
            vertices: 4,
            triangles: 4,
            heights: 4,
        };
        assert_eq!(answer, Ok(expected));
        let mut filled = part_p();
        filled.coords.push(JUNK);
        filled.corners.extend([77; 2]);
        filled.heights.extend([JUNK; 2]);
        assert_eq!(tables, filled);
    }

    #[test]
    fn refusals_stand_in_order_and_leave_the_tables() {
        for (file, lengths, answer) in [
            (&FILE_P[..30], [0, 0, 0], (13, 30)),
            (&FILE_P, [11, 12, 4], (9, 0)),
            (&FILE_P, [12, 11, 4], (9, 0)),
            (&FILE_P, [12, 12, 3], (9, 0)),
        ] {
            let (refusal, tables) = read(file, lengths);
            let refusal = refusal.unwrap_err();
            assert_eq!((refusal.number, refusal.place), answer);
            assert_eq!(tables, read(&[], lengths).1);
            assert!(tables.coords.iter().all(|&entry| entry == JUNK));
        }
        assert!(read(&FILE_P, [12, 12, 4]).0.is_ok());
        assert!(read(&[0, 0, 0], [0, 0, 0]).0.is_ok());
    }

    #[test]
    fn only_the_form_of_values_is_ruled() {
        let part = Part {
            coords: vec![i32::MIN, i32::MAX, -1_048_577],
            corners: vec![u32::MAX, 7, 7],
            heights: vec![5, 5, i32::MAX, i32::MIN],
        };
        assert_eq!(decode_part(&encode_part(&part)), Ok(part));
    }

    #[test]
    fn missing_values_are_refused_at_the_end_of_the_file() {
        for length in 0..31 {
            assert_eq!(broken(&FILE_P[..length]), length as u64);
        }
        assert_eq!(broken(&[&FILE_P, [0].as_slice()].concat()), 31);
        assert_eq!(broken(&[255, 255, 255, 255, 15, 0]), 6);
        assert_eq!(broken(&[0, 255, 255, 255, 255, 15]), 6);
        assert_eq!(broken(&[0, 0, 255, 255, 255, 255, 15]), 7);
        assert_eq!(broken(&[0, 0, 255, 255, 255, 255, 16]), 2);
    }

    #[test]
    fn parts_are_read_back() {
        for round in 0..500 {
            let mut random = Random::of_round(1, round);
            let part = Part {
                coords: (0..3 * random.below(5))
                    .map(|_| random.word() as i32 >> random.below(32))
                    .collect(),
                corners: (0..3 * random.below(5))
                    .map(|_| random.word() as u32 >> random.below(32))
                    .collect(),
                heights: (0..random.below(5))
                    .map(|_| random.word() as i32 >> random.below(32))
                    .collect(),
            };
            let file = encode_part(&part);
            assert_eq!(decode_part(&file), Ok(part), "round {round}");
        }
    }
}
