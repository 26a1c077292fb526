//! All layers by a list of the corners that cross the present height, so that a height costs its
//! points and not the mesh.

use super::cut::{below, rising_corner, write_point, NONE};
use super::layer_file::{clear, layer_length, test, write_layer};
use super::numbers::{plain_length, Writer};
use super::tables::{front, next, refuse};
use wadroles::{Counts, CutTables, OrderedMesh, PairedMesh, Refusal, WorkTables};

/// The most bytes that x and y of a point take: differences are at most 2^21 from zero.
const POINT_BYTES: usize = 8;

/// The most bytes that the point count of a contour takes, for each of its points: it has two.
const COUNT_BYTES: usize = 2;

/// The most bytes that a height and a contour count take.
const LAYER_BYTES: usize = 8;

/// Does what `wadroles::all_layers` does.
pub fn all_layers(
    ordered: OrderedMesh<'_>,
    heights: &[i32],
    work: &mut WorkTables<'_>,
    output: &mut [u8],
) -> Result<usize, Refusal> {
    let heights = test(ordered, heights, work)?;
    let n = ordered.paired.mesh.corners.len();
    let mut climb = Climb {
        paired: ordered.paired,
        heights: &heights,
        work: WorkTables {
            cut: front(&mut work.cut, n),
            ring: &mut work.ring[..n],
        },
    };
    let answer = climb.write(output);
    clear(&mut climb.work);
    answer
}

/// A climb over all heights. Corners that rise at the same height for the first time are linked in
/// ascending sequence by the ring table, and so are those that cross the present height. The marks
/// have the number of the last height, from 1, at which each corner was visited.
struct Climb<'a> {
    paired: PairedMesh<'a>,
    heights: &'a [i32],
    work: WorkTables<'a>,
}

impl Climb<'_> {
    /// Writes the file in one pass where the output is long enough for any, else in two.
    fn write(&mut self, output: &mut [u8]) -> Result<usize, Refusal> {
        let count = self.heights.len();
        let (mut heads, points) = self.link_by_height();
        let most = LAYER_BYTES * (count + 1) + (POINT_BYTES + COUNT_BYTES) * points;
        if output.len() < most {
            let mut length = plain_length(count as u32);
            self.for_each_layer(heads, |h, counts, tables| {
                length += layer_length(h, counts, tables)
            })?;
            if output.len() < length {
                return refuse(Refusal::OUTPUT, 0);
            }
            heads = self.link_by_height().0;
        }
        let mut writer = Writer::new(output);
        writer.plain(count as u32);
        self.for_each_layer(heads, |h, counts, tables| {
            write_layer(h, counts, tables, &mut writer)
        })?;
        Ok(writer.position())
    }

    fn z(&self, corner: usize) -> i32 {
        let mesh = self.paired.mesh;
        mesh.coords[3 * mesh.corners[corner] as usize + 2]
    }

    /// Links the corners by the first height at which each rises, and counts the points of all
    /// layers.
    fn link_by_height(&mut self) -> (Vec<u32>, usize) {
        let mut heads = vec![NONE; self.heights.len()];
        let mut points = 0;
        for corner in (0..self.work.ring.len()).rev() {
            let (start, end) = (self.z(corner), self.z(next(corner)));
            if start >= end {
                continue;
            }
            let first = self.heights.partition_point(|&h| h <= start);
            let past = self.heights.partition_point(|&h| h <= end);
            if first < past {
                points += past - first;
                self.work.ring[corner] = heads[first];
                heads[first] = corner as u32;
            }
        }
        (heads, points)
    }

    fn for_each_layer(
        &mut self,
        heads: Vec<u32>,
        mut visit: impl FnMut(i32, Counts, &CutTables<'_>),
    ) -> Result<(), Refusal> {
        self.work.cut.marks.fill(0);
        let mut active = NONE;
        for (i, fresh) in heads.into_iter().enumerate() {
            let h = self.heights[i];
            active = self.merge(active, fresh, h);
            let counts = self.section(active, h, i as u32 + 1)?;
            visit(h, counts, &self.work.cut);
        }
        Ok(())
    }

    /// Takes those out of the list whose end is passed, and merges it with the fresh ones.
    fn merge(&mut self, mut active: u32, mut fresh: u32, h: i32) -> u32 {
        let mut head = NONE;
        let mut last = None;
        loop {
            while active != NONE && self.z(next(active as usize)) < h {
                active = self.work.ring[active as usize];
            }
            // The sentinel is above every corner.
            let least = active.min(fresh);
            match last {
                None => head = least,
                Some(last) => self.work.ring[last] = least,
            }
            if least == NONE {
                return head;
            }
            last = Some(least as usize);
            let after = self.work.ring[least as usize];
            if least == active {
                active = after;
            } else {
                fresh = after;
            }
        }
    }

    /// Writes points and ends of the layer whose crossings the list has.
    fn section(&mut self, active: u32, h: i32, number: u32) -> Result<Counts, Refusal> {
        let mut counts = Counts::default();
        let mut least = active;
        while least != NONE {
            let start = least as usize;
            least = self.work.ring[start];
            if self.work.cut.marks[start] != number {
                counts.points = self.contour(start, h, number, counts.points)?;
                self.work.cut.ends[counts.contours] = counts.points as u32;
                counts.contours += 1;
            }
        }
        Ok(counts)
    }

    /// Writes the points of the contour from a crossing on, behind so many others, and gives the
    /// number of points then.
    fn contour(&mut self, start: usize, h: i32, number: u32, at: usize) -> Result<usize, Refusal> {
        let PairedMesh { mesh, pairing } = self.paired;
        let (marks, passed) = (&mut *self.work.cut.marks, below(mesh.coords, h));
        let mut points = at;
        let mut corner = start;
        loop {
            // It never does: the pairing is right.
            if marks[corner] == number {
                return refuse(Refusal::USED, corner);
            }
            marks[corner] = number;
            let point = &mut self.work.cut.points[2 * points..2 * points + 2];
            write_point(mesh, h, corner, point);
            points += 1;
            let across = pairing[corner] as usize / 3;
            corner = rising_corner(mesh.corners, passed, across).expect("an edge leads out of it");
            if corner == start {
                return Ok(points);
            }
        }
    }
}

#[cfg(test)]
mod tests;
