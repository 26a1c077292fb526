//! The layer file of the specification.

use crate::clean::is_clean;
use crate::cut::Layer;
use crate::mesh::COORDINATES;
use crate::numbers::{encode_plain, encode_signed, Values};
use crate::refusal::{refuse_at, refuse_if, Refusal};

const MOST_LAYERS: i128 = 4_096;
const FEWEST_POINTS: i128 = 2;
const MOST_POINTS: i128 = 98_304;

/// A layer of a file.
#[derive(Clone, Debug, Default, PartialEq, Eq)]
pub struct FileLayer {
    /// Its height.
    pub height: i32,
    /// Its contours, x and y of each point.
    pub contours: Vec<Vec<[i32; 2]>>,
}

/// The numbers that Read layer returns.
#[derive(Clone, Copy, Debug, PartialEq, Eq)]
pub struct LayerRead {
    /// The number of layers in the file.
    pub layers: usize,
    /// The height of the layer.
    pub height: i32,
    /// The number of its contours.
    pub contours: usize,
    /// The number of its points.
    pub points: usize,
}

/// The operation "Read layer i" of the specification.
pub fn read_layer(
    file: &[u8],
    i: usize,
    points: &mut [i32],
    ends: &mut [u32],
) -> Result<LayerRead, Refusal> {
    take_out(&decode_layers(file)?, i, points, ends)
}

/// The operation "Read layer clean" of the specification.
pub fn read_layer_clean(
    file: &[u8],
    i: usize,
    points: &mut [i32],
    ends: &mut [u32],
) -> Result<LayerRead, Refusal> {
    let (layers, places) = decode_placed(file)?;
    let contours = layers.iter().flat_map(|layer| &layer.contours);
    for (contour, place) in contours.zip(places) {
        refuse_at(18, place, !is_clean(contour))?;
    }
    take_out(&layers, i, points, ends)
}

/// Takes one of the layers out, or refusal 15 or 9.
fn take_out(
    layers: &[FileLayer],
    i: usize,
    points: &mut [i32],
    ends: &mut [u32],
) -> Result<LayerRead, Refusal> {
    refuse_if(15, i >= layers.len())?;
    let FileLayer { height, contours } = &layers[i];
    let count: usize = contours.iter().map(Vec::len).sum();
    refuse_if(9, points.len() < 2 * count)?;
    refuse_if(9, ends.len() < contours.len())?;
    let counts = write_contours(contours, points, ends);
    Ok(LayerRead {
        layers: layers.len(),
        height: *height,
        contours: counts.contours,
        points: counts.points,
    })
}

/// Fills the first entries of tables that are long enough.
pub(crate) fn write_contours(
    contours: &[Vec<[i32; 2]>],
    points: &mut [i32],
    ends: &mut [u32],
) -> Layer {
    let numbers: Vec<i32> = contours.iter().flatten().flatten().copied().collect();
    points[..numbers.len()].copy_from_slice(&numbers);
    let mut up_to_its_end = 0;
    for (end, contour) in ends.iter_mut().zip(contours) {
        up_to_its_end += contour.len();
        *end = up_to_its_end as u32;
    }
    Layer {
        contours: contours.len(),
        points: up_to_its_end,
    }
}

/// The layers of a file, or refusal 13.
pub fn decode_layers(file: &[u8]) -> Result<Vec<FileLayer>, Refusal> {
    decode_placed(file).map(|(layers, _places)| layers)
}

/// The layers of a file with the places of the point counts, one for each contour, or refusal 13.
fn decode_placed(file: &[u8]) -> Result<(Vec<FileLayer>, Vec<usize>), Refusal> {
    let mut values = Values::of(file);
    let mut layers: Vec<FileLayer> = Vec::new();
    let mut places = Vec::new();
    let count = values.plain()?;
    count.must(count.number <= MOST_LAYERS)?;
    for _ in 0..count.number {
        let height = values.signed()?;
        if let Some(forerunner) = layers.last() {
            height.must(height.number > forerunner.height.into())?;
        }
        layers.push(FileLayer {
            height: height.number as i32,
            contours: decode_contours(&mut values, &mut places)?,
        });
    }
    values.end()?;
    Ok((layers, places))
}

fn decode_contours(
    values: &mut Values,
    places: &mut Vec<usize>,
) -> Result<Vec<Vec<[i32; 2]>>, Refusal> {
    let mut contours = Vec::new();
    let mut in_all = 0;
    let count = values.plain()?;
    for _ in 0..count.number {
        let points = values.plain()?;
        points.must(points.number >= FEWEST_POINTS)?;
        in_all += points.number;
        points.must(in_all <= MOST_POINTS)?;
        places.push(points.place);
        contours.push(decode_points(values, points.number)?);
    }
    Ok(contours)
}

fn decode_points(values: &mut Values, count: i128) -> Result<Vec<[i32; 2]>, Refusal> {
    let mut points: Vec<[i32; 2]> = Vec::new();
    for _ in 0..count {
        let mut point = [0; 2];
        for axis in 0..2 {
            let value = values.signed()?;
            let coordinate = match points.last() {
                None => value.number,
                Some(before) => i128::from(before[axis]) + value.number,
            };
            let in_range = i32::try_from(coordinate).is_ok_and(|x| COORDINATES.contains(&x));
            value.must(in_range)?;
            point[axis] = coordinate as i32;
        }
        points.push(point);
    }
    Ok(points)
}

/// The file of these layers, whether or not they keep its rules.
pub fn encode_layers(layers: &[FileLayer]) -> Vec<u8> {
    let mut file = encode_plain(layers.len() as u64);
    for layer in layers {
        file.extend(encode_signed(layer.height.into()));
        file.extend(encode_plain(layer.contours.len() as u64));
        for contour in &layer.contours {
            file.extend(encode_plain(contour.len() as u64));
            let mut before = [0; 2];
            for &point in contour {
                let [x, y] = point.map(i64::from);
                file.extend(encode_signed(x - before[0]));
                file.extend(encode_signed(y - before[1]));
                before = [x, y];
            }
        }
    }
    file
}

#[cfg(test)]
mod tests;
