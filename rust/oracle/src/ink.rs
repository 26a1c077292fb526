//! The operation "Ink" of the specification.

use crate::area::doubled_area;
use crate::layer_file::{decode_layers, FileLayer};
use crate::refusal::{refuse_if, Refusal};
use std::ops::RangeInclusive;

/// In cubic micrometres.
const NANOLITRE: i128 = 1_000_000;

/// In micrometres.
const THICKNESSES: RangeInclusive<u32> = 1..=1_000;

/// The operation "Ink" of the specification: the charge of a job in nanolitres.
pub fn ink(file: &[u8], thickness: u32) -> Result<u64, Refusal> {
    let layers = decode_layers(file)?;
    refuse_if(19, !THICKNESSES.contains(&thickness))?;
    let charges = layers.iter().map(|layer| charge(layer, thickness));
    let in_all: i128 = charges.sum();
    Ok(u64::try_from(in_all).expect("4,096 charges, of which each is below 2^47"))
}

/// The charge of a layer: of as many nanolitres as its volume fills, the last perhaps in part.
fn charge(layer: &FileLayer, thickness: u32) -> i128 {
    let areas = layer.contours.iter().map(|contour| doubled_area(contour));
    let doubled_volume = areas.sum::<i128>() * i128::from(thickness);
    let filled = doubled_volume.div_euclid(2 * NANOLITRE);
    let rest = doubled_volume.rem_euclid(2 * NANOLITRE);
    match doubled_volume {
        ..0 => 0,
        _ => filled + i128::from(rest > 0),
    }
}

#[cfg(test)]
mod tests;
