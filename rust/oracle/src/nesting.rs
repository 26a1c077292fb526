//! The operation "Nesting" of the specification.

use crate::area::doubled_area;
use crate::given::given_contours;
use crate::refusal::{refuse_if, Refusal};

/// What is written where there is no parent.
const NO_PARENT: u32 = 4_294_967_295;

/// The operation "Nesting" of the specification.
pub fn nesting(
    points: &[i32],
    ends: &[u32],
    depths: &mut [u32],
    parents: &mut [u32],
) -> Result<(), Refusal> {
    let contours = given_contours(points, ends)?;
    refuse_if(9, depths.len() < contours.len())?;
    refuse_if(9, parents.len() < contours.len())?;
    let areas = contours.iter().map(|contour| doubled_area(contour).abs());
    let areas: Vec<i128> = areas.collect();
    for (i, contour) in contours.iter().enumerate() {
        let others = (0..contours.len()).filter(|&j| j != i);
        let holders = others.filter(|&j| lies_in(contour[0], &contours[j]));
        let mut holders: Vec<usize> = holders.collect();
        holders.sort_by_key(|&j| (areas[j], j));
        depths[i] = holders.len() as u32;
        parents[i] = holders.first().map_or(NO_PARENT, |&j| j as u32);
    }
    Ok(())
}

/// Whether an odd number of the contour's edges count for the point.
fn lies_in(point: [i32; 2], contour: &[[i32; 2]]) -> bool {
    let followers = contour.iter().cycle().skip(1);
    let edges = contour.iter().zip(followers);
    let counting = edges.filter(|&(&from, &to)| counts(point, from, to));
    counting.count() % 2 == 1
}

/// Whether the edge between two points counts for another.
fn counts(point: [i32; 2], from: [i32; 2], to: [i32; 2]) -> bool {
    let [x, level] = point;
    let low_ends = [from, to].iter().filter(|end| end[1] <= level).count();
    low_ends == 1 && meeting(from, to, level).is_above(x)
}

/// A number as one over another, which is not 0.
struct Fraction {
    over: i128,
    under: i128,
}

impl Fraction {
    fn is_above(&self, whole: i32) -> bool {
        let more = self.over - i128::from(whole) * self.under;
        more.signum() * self.under.signum() == 1
    }
}

/// The x at which the line through two points of different y has this y: where the first point's x has
/// the weight of the second's distance, and the second's that of the first's.
fn meeting(from: [i32; 2], to: [i32; 2], level: i32) -> Fraction {
    let ([from_x, from_y], [to_x, to_y]) = (from.map(i128::from), to.map(i128::from));
    let level = i128::from(level);
    Fraction {
        over: from_x * (to_y - level) + to_x * (level - from_y),
        under: to_y - from_y,
    }
}

#[cfg(test)]
mod tests;
