//! A layer that is handed in, and the refusals that operations on one begin with.

use crate::mesh::refuse_out_of_range;
use crate::refusal::{refuse_if, Refusal};

const FEWEST_POINTS: usize = 2;
const MOST_POINTS: usize = 98_304;

/// The contours of the tables, or refusal 1 or 2.
pub(crate) fn given_contours(points: &[i32], ends: &[u32]) -> Result<Vec<Vec<[i32; 2]>>, Refusal> {
    refuse_if(1, !points.len().is_multiple_of(2))?;
    refuse_if(1, points.len() / 2 > MOST_POINTS)?;
    let mut left: Vec<[i32; 2]> = points.chunks_exact(2).map(|p| [p[0], p[1]]).collect();
    let mut contours = Vec::new();
    // From the last contour to the first, so that each is what is left above the end before it.
    for (j, &end) in ends.iter().enumerate().rev() {
        refuse_if(1, end as usize != left.len())?;
        let previous_end = if j == 0 { 0 } else { ends[j - 1] as usize };
        refuse_if(1, left.len() < previous_end)?;
        let contour = left.split_off(previous_end);
        refuse_if(1, contour.len() < FEWEST_POINTS)?;
        contours.push(contour);
    }
    refuse_if(1, !left.is_empty())?;
    refuse_out_of_range(points)?;
    contours.reverse();
    Ok(contours)
}
