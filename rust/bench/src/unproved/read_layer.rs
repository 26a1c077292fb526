//! Read layer in two passes: one that checks the file and finds the layer, and one that fills.

use super::numbers::Reader;
use super::tables::refuse;
use wadroles::{Counts, FlatLayer, Reading, Refusal, MAX_COORDINATE, MAX_LAYERS, MAX_POINTS};

/// Does what `wadroles::read_layer` does.
pub fn read_layer(file: &[u8], i: usize, layer: &mut FlatLayer<'_>) -> Result<Reading, Refusal> {
    let FlatLayer { points, ends } = layer;
    let Some((reading, first)) = find(file, i)? else {
        return refuse(Refusal::LAYER, 0);
    };
    let counts = reading.counts;
    if points.len() < 2 * counts.points || ends.len() < counts.contours {
        return refuse(Refusal::ROOM, 0);
    }
    let points = &mut points[..2 * counts.points];
    fill(first, points, &mut ends[..counts.contours])?;
    Ok(reading)
}

/// Checks the file, and gives layer `i` with the position of its first contour.
fn find(file: &[u8], i: usize) -> Result<Option<(Reading, Reader<'_>)>, Refusal> {
    let mut reader = Reader::new(file);
    let layers = reader.plain()? as usize;
    if layers > MAX_LAYERS {
        return refuse(Refusal::FILE, 0);
    }
    let mut found = None;
    let mut below = i64::MIN;
    for layer in 0..layers {
        let place = reader.position();
        let height = reader.signed()?;
        if i64::from(height) <= below {
            return refuse(Refusal::FILE, place);
        }
        below = height.into();
        let contours = reader.plain()?;
        let first = reader;
        let points = check_contours(&mut reader, contours)?;
        if layer == i {
            let counts = Counts {
                contours: contours as usize,
                points,
            };
            let reading = Reading {
                layers,
                height,
                counts,
            };
            found = Some((reading, first));
        }
    }
    reader.end()?;
    Ok(found)
}

/// Checks so many contours, and gives the number of their points.
fn check_contours(reader: &mut Reader, contours: u32) -> Result<usize, Refusal> {
    let mut points = 0;
    for _ in 0..contours {
        let place = reader.position();
        let count = reader.plain()? as usize;
        points += count;
        if count < 2 || points > MAX_POINTS {
            return refuse(Refusal::FILE, place);
        }
        let (mut x, mut y) = (0, 0);
        for _ in 0..count {
            x = coordinate(reader, x)?;
            y = coordinate(reader, y)?;
        }
    }
    Ok(points)
}

/// The next coordinate, by its difference to the one before.
pub(super) fn coordinate(reader: &mut Reader, before: i32) -> Result<i32, Refusal> {
    let place = reader.position();
    let coordinate = i64::from(before) + i64::from(reader.signed()?);
    if coordinate.unsigned_abs() > MAX_COORDINATE as u64 {
        return refuse(Refusal::FILE, place);
    }
    Ok(coordinate as i32)
}

/// Fills the tables with the contours at a position of a file that was checked.
fn fill(mut reader: Reader, mut points: &mut [i32], ends: &mut [u32]) -> Result<(), Refusal> {
    let mut end_before = 0;
    for end in ends {
        let count = reader.plain()?;
        end_before += count;
        *end = end_before;
        let (contour, later) = points.split_at_mut(2 * count as usize);
        points = later;
        let (mut x, mut y) = (0, 0);
        for point in contour.chunks_exact_mut(2) {
            x += reader.signed()?;
            y += reader.signed()?;
            point.copy_from_slice(&[x, y]);
        }
    }
    Ok(())
}

#[cfg(test)]
mod tests {
    use super::*;
    use files::{random_layers, Damage, LayerDamage};
    use meshes::Random;
    use oracle::encode_layers;
    use std::collections::BTreeSet;

    type Read = fn(&[u8], usize, &mut FlatLayer) -> Result<Reading, Refusal>;

    /// The answer, and what it leaves in points and ends.
    type Outcome = (Result<Reading, Refusal>, Vec<i32>, Vec<u32>);

    fn run(read: Read, file: &[u8], i: usize) -> Outcome {
        let (mut points, mut ends) = (vec![-7; 60], vec![7; 20]);
        let mut layer = FlatLayer {
            points: &mut points,
            ends: &mut ends,
        };
        let answer = read(file, i, &mut layer);
        (answer, points, ends)
    }

    #[test]
    fn it_does_what_the_library_does() {
        let mut met = BTreeSet::new();
        for round in 0..5000 {
            let mut random = Random::of_round(1, round);
            let mut layers = random_layers(&mut random);
            if random.one_in(3) {
                LayerDamage::any(&mut random).apply(&mut layers, &mut random);
            }
            let mut file = encode_layers(&layers);
            if random.one_in(3) {
                Damage::any(&mut random).apply(&mut file, &mut random);
            }
            let i = random.below(layers.len() + 2);
            let expected = run(wadroles::read_layer, &file, i);
            assert_eq!(run(read_layer, &file, i), expected, "round {round}");
            met.insert(expected.0.map_or_else(|refusal| refusal.number, |_| 0));
        }
        assert!(met.into_iter().eq([0, 9, 13, 15]));
    }
}
