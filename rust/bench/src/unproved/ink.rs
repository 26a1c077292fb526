//! Ink in one pass over the file.

use super::numbers::Reader;
use super::read_layer::coordinate;
use super::tables::refuse;
use wadroles::{Refusal, MAX_LAYERS, MAX_POINTS, MAX_THICKNESS};

const DOUBLED_NANOLITRE: u128 = 2_000_000;

/// Does what `wadroles::ink` does.
pub fn ink(file: &[u8], thickness: u32) -> Result<u64, Refusal> {
    let mut reader = Reader::new(file);
    let layers = reader.plain()? as usize;
    if layers > MAX_LAYERS {
        return refuse(Refusal::FILE, 0);
    }
    let mut charge = 0;
    let mut below = i64::MIN;
    for _ in 0..layers {
        let place = reader.position();
        let height = i64::from(reader.signed()?);
        if height <= below {
            return refuse(Refusal::FILE, place);
        }
        below = height;
        let doubled_area = layer_area(&mut reader)?.max(0) as u128;
        let product = doubled_area * u128::from(thickness);
        charge += product.div_ceil(DOUBLED_NANOLITRE) as u64;
    }
    reader.end()?;
    if !(1..=MAX_THICKNESS).contains(&thickness) {
        return refuse(Refusal::THICKNESS, 0);
    }
    Ok(charge)
}

/// The sum of the doubled areas of a layer's contours, whose count is next.
fn layer_area(reader: &mut Reader) -> Result<i64, Refusal> {
    let contours = reader.plain()?;
    let mut points = 0;
    let mut doubled_area = 0;
    for _ in 0..contours {
        let place = reader.position();
        let count = reader.plain()? as usize;
        points += count;
        if count < 2 || points > MAX_POINTS {
            return refuse(Refusal::FILE, place);
        }
        let first = [coordinate(reader, 0)?, coordinate(reader, 0)?];
        let mut before = first;
        for _ in 1..count {
            let point = [
                coordinate(reader, before[0])?,
                coordinate(reader, before[1])?,
            ];
            doubled_area += cross(before, point);
            before = point;
        }
        doubled_area += cross(before, first);
    }
    Ok(doubled_area)
}

fn cross(point: [i32; 2], next: [i32; 2]) -> i64 {
    let ([x, y], [next_x, next_y]) = (point.map(i64::from), next.map(i64::from));
    x * next_y - next_x * y
}

#[cfg(test)]
mod tests {
    use super::*;
    use files::{large_layers, random_layers, Damage, LayerDamage};
    use meshes::Random;
    use oracle::encode_layers;
    use std::collections::BTreeSet;

    #[test]
    fn it_does_what_the_library_does() {
        let mut met = BTreeSet::new();
        for round in 0..5000 {
            let mut random = Random::of_round(1, round);
            let mut layers = match round % 1000 {
                0 => large_layers(&mut random),
                _ => random_layers(&mut random),
            };
            if random.one_in(4) {
                LayerDamage::any(&mut random).apply(&mut layers, &mut random);
            }
            let mut file = encode_layers(&layers);
            if random.one_in(4) {
                Damage::any(&mut random).apply(&mut file, &mut random);
            }
            let thickness = random.below(1_200) as u32;
            let expected = wadroles::ink(&file, thickness);
            assert_eq!(ink(&file, thickness), expected, "round {round}");
            met.insert(expected.map_or_else(|refusal| refusal.number, |_| 0));
        }
        assert!(met.into_iter().eq([0, 13, 19]));
    }
}
