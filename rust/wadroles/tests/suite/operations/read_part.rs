use crate::harness::{call_c, lent_tables, refused, Answer, Lent, Operation};
use wadroles::raw::wadroles_read_part;

/// The operation "Read part".
pub struct ReadPart;

lent_tables! {
    /// The tables lent to Read part.
    Part { coords: Lent<i32>, corners: Lent<u32>, heights: Lent<i32> }
}

impl Operation for ReadPart {
    const NAME: &'static str = "read part";
    const REFUSALS: &'static [u32] = &[13, 9];
    /// The file.
    type Input = Vec<u8>;
    type Tables = Part;
    /// The counts of vertices, triangles and heights.
    type Values = (usize, usize, usize);

    /// Those that the part needs; where none is read, those of a small one.
    fn lengths(file: &Vec<u8>) -> Vec<usize> {
        match oracle::decode_part(file) {
            Ok(part) => vec![part.coords.len(), part.corners.len(), part.heights.len()],
            Err(_) => vec![6, 3, 2],
        }
    }

    fn product(file: &Vec<u8>, tables: &mut Part) -> Answer<Self::Values> {
        let mut lent = wadroles::Part {
            coords: tables.coords.table(),
            corners: tables.corners.table(),
            heights: tables.heights.table(),
        };
        wadroles::read_part(file, &mut lent)
            .map(|counts| (counts.vertices, counts.triangles, counts.heights))
            .map_err(refused)
    }

    fn call_c(file: &Vec<u8>, tables: &mut Part, out: &mut [u64; 4]) -> u32 {
        call_c!(wadroles_read_part(
            read file,
            lend tables.coords,
            lend tables.corners,
            lend tables.heights,
        ), out)
    }

    fn oracle(file: &Vec<u8>, tables: &mut Part) -> Answer<Self::Values> {
        let (coords, corners) = (tables.coords.table(), tables.corners.table());
        oracle::read_part(file, coords, corners, tables.heights.table())
            .map(|read| (read.vertices, read.triangles, read.heights))
            .map_err(|r| (r.number, r.place))
    }

    fn words(_file: &Vec<u8>, (vertices, triangles, heights): Self::Values) -> Vec<u64> {
        vec![vertices as u64, triangles as u64, heights as u64]
    }
}
