//! Cleaning, as the specification defines it: of a contour, of a layer, and the operation "Clean".

use crate::cut::Layer;
use crate::given::given_contours;
use crate::layer_file::{write_contours, FileLayer};
use crate::refusal::{refuse_if, Refusal};
use std::collections::HashSet;

const FEWEST_DIFFERENT: usize = 3;

/// The operation "Clean" of the specification: the counts of what is left.
pub fn clean(
    points: &[i32],
    ends: &[u32],
    clean_points: &mut [i32],
    clean_ends: &mut [u32],
) -> Result<Layer, Refusal> {
    let contours = given_contours(points, ends)?;
    refuse_if(9, clean_points.len() < points.len())?;
    refuse_if(9, clean_ends.len() < ends.len())?;
    Ok(write_contours(
        &clean_contours(&contours),
        clean_points,
        clean_ends,
    ))
}

/// What cleaning leaves of a layer, at its height.
pub fn clean_layer(layer: &FileLayer) -> FileLayer {
    FileLayer {
        height: layer.height,
        contours: clean_contours(&layer.contours),
    }
}

fn clean_contours(contours: &[Vec<[i32; 2]>]) -> Vec<Vec<[i32; 2]>> {
    let mut left = contours.to_vec();
    left.retain_mut(tidy);
    left
}

/// Whether cleaning leaves the contour as it is.
pub fn is_clean(contour: &[[i32; 2]]) -> bool {
    let mut left = contour.to_vec();
    tidy(&mut left) && left == contour
}

/// Drops points of a contour, and says whether it stays.
fn tidy(contour: &mut Vec<[i32; 2]>) -> bool {
    // Of each run of equal points the first.
    let runs = contour.chunk_by(|point, next| point == next);
    *contour = runs.map(|run| run[0]).collect();
    if let Some(first) = contour.first().copied() {
        let others = contour.iter().rposition(|&point| point != first);
        contour.truncate(others.map_or(1, |last| last + 1));
    }
    let different: HashSet<[i32; 2]> = contour.iter().copied().collect();
    different.len() >= FEWEST_DIFFERENT
}

#[cfg(test)]
mod tests;
