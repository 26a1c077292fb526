//! What several versions of All layers share: the tests and heights, the bytes of a layer, the zeros.

use super::numbers::{plain_length, sent, Writer};
use super::tables::{refuse, test_order, test_pairing, test_room, test_sizes, test_values};
use wadroles::{Counts, CutTables, OrderedMesh, Refusal, WorkTables, MAX_LAYERS};

/// From the lowest z to the first default height.
const FIRST_HEIGHT: i64 = 50;

/// From a default height to the next.
const NEXT_HEIGHT: usize = 100;

/// Makes the tests, and gives the heights.
pub fn test(
    ordered: OrderedMesh<'_>,
    heights: &[i32],
    work: &WorkTables<'_>,
) -> Result<Vec<i32>, Refusal> {
    let mesh = ordered.paired.mesh;
    test_sizes(mesh)?;
    let heights = match heights {
        [] => default_heights(mesh.coords),
        given => given.to_vec(),
    };
    if heights.len() > MAX_LAYERS {
        return refuse(Refusal::SIZE, 0);
    }
    test_room(&work.cut, mesh.corners.len())?;
    if work.ring.len() < mesh.corners.len() {
        return refuse(Refusal::ROOM, 0);
    }
    test_values(mesh)?;
    test_pairing(ordered.paired)?;
    test_order(ordered)?;
    match heights.windows(2).position(|pair| pair[1] <= pair[0]) {
        Some(before) => refuse(Refusal::HEIGHT, before + 1),
        None => Ok(heights),
    }
}

/// The default, or one more than there may be.
fn default_heights(coords: &[i32]) -> Vec<i32> {
    let z = || coords.iter().skip(2).step_by(3).map(|&z| i64::from(z));
    let (Some(low), Some(high)) = (z().min(), z().max()) else {
        return Vec::new();
    };
    let heights = (low + FIRST_HEIGHT..=high).step_by(NEXT_HEIGHT);
    heights.take(MAX_LAYERS + 1).map(|h| h as i32).collect()
}

/// The points of each contour, x and y of each.
fn contours<'a>(
    counts: Counts,
    tables: &'a CutTables<'_>,
) -> impl Iterator<Item = &'a [[i32; 2]]> + 'a {
    let (points, _) = tables.points.as_chunks::<2>();
    let mut start = 0;
    tables.ends[..counts.contours].iter().map(move |&end| {
        let contour = &points[start..end as usize];
        start = end as usize;
        contour
    })
}

/// The bytes that a layer takes.
pub fn layer_length(h: i32, counts: Counts, tables: &CutTables<'_>) -> usize {
    let mut length = plain_length(sent(h)) + plain_length(counts.contours as u32);
    for contour in contours(counts, tables) {
        length += plain_length(contour.len() as u32);
        let mut before = [0; 2];
        for &[x, y] in contour {
            length += plain_length(sent(x - before[0])) + plain_length(sent(y - before[1]));
            before = [x, y];
        }
    }
    length
}

pub fn write_layer(h: i32, counts: Counts, tables: &CutTables<'_>, writer: &mut Writer<'_>) {
    writer.signed(h);
    writer.plain(counts.contours as u32);
    for contour in contours(counts, tables) {
        writer.plain(contour.len() as u32);
        let mut before = [0; 2];
        for &[x, y] in contour {
            writer.signed(x - before[0]);
            writer.signed(y - before[1]);
            before = [x, y];
        }
    }
}

/// Zeroes the work tables, which are as long as they need be.
pub fn clear(work: &mut WorkTables<'_>) {
    work.cut.names.fill(0);
    work.cut.points.fill(0);
    work.cut.ends.fill(0);
    work.cut.marks.fill(0);
    work.ring.fill(0);
}

#[cfg(test)]
mod tests {
    use super::*;

    #[test]
    fn lengths_are_those_of_the_bytes_written() {
        let mut output = [0; 8];
        for bits in 0..=32 {
            let power = 1u64 << bits;
            for number in [power.saturating_sub(1), power, power + 1] {
                let Ok(number) = u32::try_from(number) else {
                    continue;
                };
                let mut writer = Writer::new(&mut output);
                writer.plain(number);
                assert_eq!(writer.position(), plain_length(number), "{number}");
            }
        }
    }
}
