//! The operations "All layers" and "All layers clean" of the specification.

use crate::clean::clean_layer;
use crate::cut::Tables;
use crate::layer_file::{encode_layers, FileLayer};
use crate::mesh::refuse_sizes;
use crate::refusal::{refuse_if, refuse_least, Refusal};
use crate::section::rings;
use crate::sweep::Sweep;

const MOST_HEIGHTS: usize = 4_096;

/// From the lowest z to the first default height.
const FIRST_HEIGHT: i64 = 50;

/// From a default height to the next.
const NEXT_HEIGHT: usize = 100;

/// The operation "All layers" of the specification: the length of the file.
pub fn all_layers(
    sweep: Sweep,
    heights: &[i32],
    tables: Tables<'_>,
    ring: &mut [u32],
    output: &mut [u8],
) -> Result<usize, Refusal> {
    let as_cut = |height| file_layer(sweep, height);
    write_file(sweep, heights, tables, ring, output, as_cut)
}

/// The operation "All layers clean" of the specification: the length of the file.
pub fn all_layers_clean(
    sweep: Sweep,
    heights: &[i32],
    tables: Tables<'_>,
    ring: &mut [u32],
    output: &mut [u8],
) -> Result<usize, Refusal> {
    let cleaned = |height| file_layer(sweep, height).map(|layer| clean_layer(&layer));
    write_file(sweep, heights, tables, ring, output, cleaned)
}

/// Writes the file of these layers.
fn write_file(
    sweep: Sweep,
    heights: &[i32],
    mut tables: Tables<'_>,
    ring: &mut [u32],
    output: &mut [u8],
    layer: impl Fn(i32) -> Result<FileLayer, Refusal>,
) -> Result<usize, Refusal> {
    let corners = sweep.corners.len();
    refuse_sizes(sweep.coords, sweep.corners)?;
    let heights = match heights {
        [] => default_heights(sweep.coords),
        given => given.to_vec(),
    };
    refuse_if(1, heights.len() > MOST_HEIGHTS)?;
    refuse_if(9, !tables.have_room_for(corners) || ring.len() < corners)?;
    sweep.refuse_tables()?;
    refuse_least(12, 1..heights.len(), |i| heights[i] <= heights[i - 1])?;

    tables.clear(corners);
    ring[..corners].fill(0);
    let layers: Result<Vec<FileLayer>, Refusal> = heights.iter().map(|&h| layer(h)).collect();
    let file = encode_layers(&layers?);
    refuse_if(14, output.len() < file.len())?;
    output[..file.len()].copy_from_slice(&file);
    Ok(file.len())
}

/// The lowest z + 50 and every 100 after it, not above the highest z: all of them, or so many that
/// they are too many.
pub(crate) fn default_heights(coords: &[i32]) -> Vec<i32> {
    let z = || coords.chunks(3).map(|point| i64::from(point[2]));
    let (Some(lowest), Some(highest)) = (z().min(), z().max()) else {
        return Vec::new();
    };
    let heights = (lowest + FIRST_HEIGHT..=highest).step_by(NEXT_HEIGHT);
    let heights = heights.map(|h| i32::try_from(h).expect("it lies between two coordinates"));
    heights.take(MOST_HEIGHTS + 1).collect()
}

/// The layer that a cut at this height gives, or refusal 16.
fn file_layer(sweep: Sweep, height: i32) -> Result<FileLayer, Refusal> {
    let plane = sweep.plane(height);
    match rings(&plane.successors(sweep.pairing)) {
        Ok(rings) => Ok(FileLayer {
            height,
            contours: rings
                .iter()
                .map(|ring| ring.iter().map(|&c| plane.point(c)).collect())
                .collect(),
        }),
        Err(crossing) => Err(Refusal {
            number: 16,
            place: crossing as u64,
        }),
    }
}

#[cfg(test)]
mod tests;
