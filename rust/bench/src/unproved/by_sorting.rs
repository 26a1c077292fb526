//! Pairs found by sorting packed keys of the corners.

use super::tables::next;
use wadroles::{MAX_TRIANGLES, MAX_VERTICES};

const VERTEX_BITS: u32 = MAX_VERTICES.ilog2();
const CORNER_BITS: u32 = (3 * MAX_TRIANGLES).next_power_of_two().ilog2();
const CORNER_MASK: u64 = (1 << CORNER_BITS) - 1;

/// Fills the pairing, or gives the least corner without a partner.
pub fn pair(corners: &[u32], pairing: &mut [u32], _order: &mut [u32]) -> Option<usize> {
    let mut keys: Vec<u64> = (0..corners.len()).map(|c| key(corners, c)).collect();
    keys.sort_unstable();
    let mut open = None;
    for same_edge in keys.chunk_by(|&a, &b| edge(a) == edge(b)) {
        let (there, back) = same_edge.split_at(same_edge.partition_point(|&key| !leads_back(key)));
        for (&a, &b) in there.iter().zip(back) {
            pairing[corner(a)] = corner(b) as u32;
            pairing[corner(b)] = corner(a) as u32;
        }
        let paired = there.len().min(back.len());
        let left_over = there
            .get(paired)
            .or(back.get(paired))
            .map(|&key| corner(key));
        open = open.into_iter().chain(left_over).min();
    }
    open
}

/// The lower and the higher vertex of a corner's edge, the direction, the corner.
fn key(corners: &[u32], c: usize) -> u64 {
    let (from, to) = (corners[c], corners[next(c)]);
    let (low, high) = (u64::from(from.min(to)), u64::from(from.max(to)));
    let edge = low << VERTEX_BITS | high;
    (edge << 1 | u64::from(from > to)) << CORNER_BITS | c as u64
}

fn corner(key: u64) -> usize {
    (key & CORNER_MASK) as usize
}

fn leads_back(key: u64) -> bool {
    key >> CORNER_BITS & 1 == 1
}

fn edge(key: u64) -> u64 {
    key >> CORNER_BITS >> 1
}
