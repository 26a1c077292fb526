//! The sweep of the specification: Start, Step and Layer.

use crate::cut::{is_paired, Layer, Tables};
use crate::mesh::{edge, refuse_entries, refuse_sizes};
use crate::refusal::{refuse_at, refuse_if, refuse_least, Refusal};
use crate::section::{rings, Plane};

/// The ring entry of a corner that is no crossing.
const NO_SUCCESSOR: u32 = 4_294_967_295;

/// What a sweep reads.
#[derive(Clone, Copy, Debug)]
pub struct Sweep<'a> {
    /// Three coordinates per vertex.
    pub coords: &'a [i32],
    /// Three corners per triangle.
    pub corners: &'a [u32],
    /// For each corner, the corner with the reverse edge.
    pub pairing: &'a [u32],
    /// Each vertex once, by z and then by vertex number.
    pub order: &'a [u32],
}

/// The operation "Start" of the specification: the number of passed vertices.
pub fn start(coords: &[i32], corners: &[u32], ring: &mut [u32]) -> Result<usize, Refusal> {
    refuse_sizes(coords, corners)?;
    refuse_if(9, ring.len() < corners.len())?;
    ring[..corners.len()].fill(NO_SUCCESSOR);
    Ok(0)
}

/// The operation "Step" of the specification: the number of passed vertices then, or none at the top.
pub fn step(sweep: Sweep, ring: &mut [u32], passed: usize) -> Result<Option<usize>, Refusal> {
    let corners = sweep.corners.len();
    refuse_sizes(sweep.coords, sweep.corners)?;
    sweep.refuse_tables()?;
    refuse_if(10, passed > sweep.vertices())?;
    refuse_at(11, ring.len(), ring.len() < corners)?;

    if passed == sweep.vertices() {
        return Ok(None);
    }
    Passed::first(sweep, passed).step(ring);
    Ok(Some(passed + 1))
}

/// The operation "Layer at h" of the specification: the number of passed vertices then, and the layer.
pub fn layer(
    sweep: Sweep,
    ring: &mut [u32],
    passed: usize,
    h: i32,
    mut tables: Tables<'_>,
) -> Result<(usize, Layer), Refusal> {
    let corners = sweep.corners.len();
    refuse_sizes(sweep.coords, sweep.corners)?;
    refuse_if(9, !tables.have_room_for(corners))?;
    sweep.refuse_tables()?;
    refuse_if(10, passed > sweep.vertices())?;
    let mut position = Passed::first(sweep, passed);
    refuse_least(11, 0..corners, |c| ring.get(c) != Some(&position.entry(c)))?;
    let passed_vertices = &sweep.order[..passed];
    refuse_if(12, passed_vertices.iter().any(|&v| sweep.z(v) >= h))?;

    let mut risen = ring[..corners].to_vec();
    while position.next().is_some_and(|vertex| sweep.z(vertex) < h) {
        position.step(&mut risen);
    }
    let crossings = (0..corners).filter(|&c| risen[c] != NO_SUCCESSOR);
    let successors = crossings.map(|c| (c, risen[c] as usize)).collect();
    let layer = tables.write(sweep.plane(h), rings(&successors))?;
    ring[..corners].copy_from_slice(&risen);
    Ok((position.count, layer))
}

/// The rings of a cut made afresh with the first so many of the order passed: an entry per corner.
///
/// The tables must pass the tests 1 to 4, 7 and 8, and have so many vertices.
pub fn fresh_ring(sweep: Sweep, passed: usize) -> Vec<u32> {
    let position = Passed::first(sweep, passed);
    let corners = 0..sweep.corners.len();
    corners.map(|corner| position.entry(corner)).collect()
}

impl<'a> Sweep<'a> {
    fn vertices(&self) -> usize {
        self.coords.len() / 3
    }

    fn z(&self, vertex: u32) -> i32 {
        self.coords[3 * vertex as usize + 2]
    }

    /// The plane at a height.
    pub(crate) fn plane(&self, height: i32) -> Plane<'a> {
        Plane {
            coords: self.coords,
            corners: self.corners,
            height,
        }
    }

    /// Refusals 2, 3, 4, 7 and 8.
    pub(crate) fn refuse_tables(&self) -> Result<(), Refusal> {
        refuse_entries(self.coords, self.corners)?;
        refuse_least(7, 0..self.corners.len(), |c| {
            !is_paired(self.corners, self.pairing, c)
        })?;
        let ranks = self.ranks();
        refuse_least(8, 0..self.vertices(), |position| {
            let vertex = self.order.get(position);
            vertex.and_then(|&v| ranks.get(v as usize)) != Some(&position)
        })
    }

    /// The position of each vertex in the order: how many stand before it.
    fn ranks(&self) -> Vec<usize> {
        let mut sorted: Vec<(i32, usize)> = (0..self.vertices())
            .map(|vertex| (self.z(vertex as u32), vertex))
            .collect();
        sorted.sort();
        let mut ranks = vec![0; sorted.len()];
        for (position, &(_, vertex)) in sorted.iter().enumerate() {
            ranks[vertex] = position;
        }
        ranks
    }
}

/// The vertices that are passed, of tables that pass the tests 1 to 4, 7 and 8.
struct Passed<'a> {
    sweep: Sweep<'a>,
    /// How many they are: the first so many of the order.
    count: usize,
    /// Whether each vertex is among them.
    is_passed: Vec<bool>,
    /// For each vertex, the corners whose paired corner belongs to a triangle touching it.
    opposite: Vec<Vec<usize>>,
}

impl<'a> Passed<'a> {
    fn first(sweep: Sweep<'a>, count: usize) -> Self {
        let mut is_passed = vec![false; sweep.vertices()];
        for &vertex in &sweep.order[..count] {
            is_passed[vertex as usize] = true;
        }
        let mut opposite = vec![Vec::new(); sweep.vertices()];
        for (corner, &paired) in sweep.pairing[..sweep.corners.len()].iter().enumerate() {
            for &vertex in triangle(sweep.corners, paired as usize) {
                opposite[vertex as usize].push(corner);
            }
        }
        Passed {
            sweep,
            count,
            is_passed,
            opposite,
        }
    }

    /// The next vertex of the order.
    fn next(&self) -> Option<u32> {
        self.sweep.order[..self.sweep.vertices()]
            .get(self.count)
            .copied()
    }

    fn is_rising(&self, corner: usize) -> bool {
        let (start, end) = edge(self.sweep.corners, corner);
        self.is_passed[start as usize] && !self.is_passed[end as usize]
    }

    /// The ring entry of a corner: the successor of a crossing is the rising corner of the triangle
    /// of its paired corner.
    fn entry(&self, corner: usize) -> u32 {
        if !self.is_rising(corner) {
            return NO_SUCCESSOR;
        }
        let first = self.sweep.pairing[corner] as usize / 3 * 3;
        let rising: Vec<usize> = (first..first + 3).filter(|&c| self.is_rising(c)).collect();
        assert_eq!(rising.len(), 1, "a triangle with a falling corner has one");
        rising[0] as u32
    }

    /// Passes the next vertex, of which there must be one, and rewrites the entries of the corners
    /// whose paired corner belongs to a triangle touching it.
    fn step(&mut self, ring: &mut [u32]) {
        let vertex = self.next().expect("a vertex is left") as usize;
        self.is_passed[vertex] = true;
        self.count += 1;
        for &corner in &self.opposite[vertex] {
            ring[corner] = self.entry(corner);
        }
    }
}

/// The vertices of a corner's triangle.
fn triangle(corners: &[u32], corner: usize) -> &[u32] {
    let first = corner / 3 * 3;
    &corners[first..first + 3]
}

#[cfg(test)]
mod tests;
