//! Read part in two passes: one that checks the file and finds its tables, and one that fills.

use super::numbers::Reader;
use super::tables::refuse;
use wadroles::{Part, PartCounts, Refusal};

/// Does what `wadroles::read_part` does.
pub fn read_part(file: &[u8], part: &mut Part<'_>) -> Result<PartCounts, Refusal> {
    let Part {
        coords,
        corners,
        heights,
    } = part;
    let mut reader = Reader::new(file);
    let vertices = reader.plain()? as usize;
    let triangles = reader.plain()? as usize;
    let first_coordinate = reader;
    check_values(&mut reader, 3 * vertices)?;
    let first_corner = reader;
    check_values(&mut reader, 3 * triangles)?;
    let height_count = reader.plain()? as usize;
    let first_height = reader;
    check_values(&mut reader, height_count)?;
    reader.end()?;

    let short = coords.len() < 3 * vertices || corners.len() < 3 * triangles;
    if short || heights.len() < height_count {
        return refuse(Refusal::ROOM, 0);
    }
    fill(
        first_coordinate,
        &mut coords[..3 * vertices],
        Reader::signed,
    )?;
    fill(first_corner, &mut corners[..3 * triangles], Reader::plain)?;
    fill(first_height, &mut heights[..height_count], Reader::signed)?;
    Ok(PartCounts {
        vertices,
        triangles,
        heights: height_count,
    })
}

fn check_values(reader: &mut Reader, count: usize) -> Result<(), Refusal> {
    for _ in 0..count {
        reader.plain()?;
    }
    Ok(())
}

/// Fills a table with the values at a position of a file that was checked.
fn fill<'a, T>(
    mut reader: Reader<'a>,
    table: &mut [T],
    next: impl Fn(&mut Reader<'a>) -> Result<T, Refusal>,
) -> Result<(), Refusal> {
    for entry in table {
        *entry = next(&mut reader)?;
    }
    Ok(())
}

#[cfg(test)]
mod tests {
    use super::*;
    use files::{random_part, Damage};
    use meshes::Random;
    use oracle::encode_part;
    use std::collections::BTreeSet;

    type Read = fn(&[u8], &mut Part) -> Result<PartCounts, Refusal>;

    /// The answer, and what it leaves in coords, corners and heights.
    type Outcome = (Result<PartCounts, Refusal>, Vec<i32>, Vec<u32>, Vec<i32>);

    fn run(read: Read, file: &[u8]) -> Outcome {
        let (mut coords, mut corners) = (vec![-7; 300], vec![7; 600]);
        let mut heights = vec![-9; 5];
        let mut part = Part {
            coords: &mut coords,
            corners: &mut corners,
            heights: &mut heights,
        };
        let answer = read(file, &mut part);
        (answer, coords, corners, heights)
    }

    #[test]
    fn it_does_what_the_library_does() {
        let mut met = BTreeSet::new();
        for round in 0..5000 {
            let mut random = Random::of_round(1, round);
            let mut file = encode_part(&random_part(&mut random));
            if random.one_in(2) {
                Damage::any(&mut random).apply(&mut file, &mut random);
            }
            let expected = run(wadroles::read_part, &file);
            assert_eq!(run(read_part, &file), expected, "round {round}");
            met.insert(expected.0.map_or_else(|refusal| refusal.number, |_| 0));
        }
        assert!(met.into_iter().eq([0, 9, 13]));
    }
}
