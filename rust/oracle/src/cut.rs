use crate::mesh::{edge, refuse_entries, refuse_sizes, reverse};
use crate::refusal::{refuse_if, refuse_least, Refusal};
use crate::section::{rings, Plane, Ring};

/// The four tables that cut is lent.
#[derive(Debug)]
pub struct Tables<'a> {
    /// The corners of the contours.
    pub names: &'a mut [u32],
    /// Two numbers per point, x and y.
    pub points: &'a mut [i32],
    /// For each contour, the number of points up to its end.
    pub ends: &'a mut [u32],
    /// Room for marks.
    pub marks: &'a mut [u32],
}

/// The counts that cut returns.
#[derive(Clone, Copy, Debug, PartialEq, Eq)]
pub struct Layer {
    /// The number of contours.
    pub contours: usize,
    /// The number of points.
    pub points: usize,
}

/// The operation "Cut" of the specification.
pub fn cut(
    coords: &[i32],
    corners: &[u32],
    pairing: &[u32],
    height: i32,
    mut tables: Tables<'_>,
) -> Result<Layer, Refusal> {
    let all_corners = 0..corners.len();

    refuse_sizes(coords, corners)?;
    refuse_if(9, !tables.have_room_for(corners.len()))?;
    refuse_entries(coords, corners)?;
    refuse_least(7, all_corners, |c| !is_paired(corners, pairing, c))?;

    let plane = Plane {
        coords,
        corners,
        height,
    };
    tables.write(plane, rings(&plane.successors(pairing)))
}

/// Whether the corner's entry is there, is a corner, has the reverse edge and is paired back.
pub(crate) fn is_paired(corners: &[u32], pairing: &[u32], corner: usize) -> bool {
    let Some(&pair) = pairing.get(corner) else {
        return false;
    };
    let pair = pair as usize;
    pair < corners.len()
        && edge(corners, pair) == reverse(edge(corners, corner))
        && pairing.get(pair) == Some(&(corner as u32))
}

impl Tables<'_> {
    pub(crate) fn have_room_for(&self, corners: usize) -> bool {
        self.names.len() >= corners
            && self.points.len() >= 2 * corners
            && self.ends.len() >= corners
            && self.marks.len() >= corners
    }

    /// Fills the tables with these rings; or zeroes them, where a walk met a used crossing.
    pub(crate) fn write(
        &mut self,
        plane: Plane,
        rings: Result<Vec<Ring>, usize>,
    ) -> Result<Layer, Refusal> {
        let corners = plane.corners.len();
        self.marks[..corners].fill(0);
        match rings {
            Ok(rings) => Ok(self.fill(plane, &rings)),
            Err(crossing) => {
                self.clear(corners);
                Err(Refusal {
                    number: 16,
                    place: crossing as u64,
                })
            }
        }
    }

    /// Zeroes the entries that a mesh of so many corners asks for.
    pub(crate) fn clear(&mut self, corners: usize) {
        self.names[..corners].fill(0);
        self.points[..2 * corners].fill(0);
        self.ends[..corners].fill(0);
        self.marks[..corners].fill(0);
    }

    fn fill(&mut self, plane: Plane, rings: &[Ring]) -> Layer {
        let mut points = 0;
        for (contour, ring) in rings.iter().enumerate() {
            for &crossing in ring {
                self.names[points] = crossing as u32;
                self.points[2 * points..2 * points + 2].copy_from_slice(&plane.point(crossing));
                points += 1;
            }
            self.ends[contour] = points as u32;
        }
        Layer {
            contours: rings.len(),
            points,
        }
    }
}

#[cfg(test)]
mod tests;
