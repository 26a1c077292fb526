//! Cut by successors that are written into the table of marks and wiped as they are walked.

use super::tables::{front, next, refuse, test_pairing, test_room, test_sizes, test_values};
use wadroles::{Counts, CutTables, Mesh, PairedMesh, Refusal};

/// The mark of a corner that is no crossing, or one already used.
pub(super) const NONE: u32 = u32::MAX;

/// Does what `wadroles::cut` does.
pub fn cut(paired: PairedMesh<'_>, h: i32, tables: &mut CutTables<'_>) -> Result<Counts, Refusal> {
    let mesh = paired.mesh;
    let n = mesh.corners.len();
    test_sizes(mesh)?;
    test_room(tables, n)?;
    test_values(mesh)?;
    test_pairing(paired)?;

    let mut layer = front(tables, n);
    mark_successors(paired, below(mesh.coords, h), layer.marks);
    outline(mesh, h, &mut layer)
}

/// The set of vertices with z < h.
pub(super) fn below(coords: &[i32], h: i32) -> impl Fn(u32) -> bool + Copy + '_ {
    move |vertex| coords[3 * vertex as usize + 2] < h
}

/// Takes the contours out of the marks, of tables that are as long as they need be.
pub(super) fn outline(
    mesh: Mesh<'_>,
    h: i32,
    tables: &mut CutTables<'_>,
) -> Result<Counts, Refusal> {
    let walked = walk(tables.marks, tables.names, tables.ends);
    tables.marks.fill(0);
    match walked {
        Ok(counts) => {
            let names = &tables.names[..counts.points];
            write_points(mesh, h, names, tables.points);
            Ok(counts)
        }
        Err(crossing) => {
            tables.names.fill(0);
            tables.points.fill(0);
            tables.ends.fill(0);
            refuse(Refusal::USED, crossing)
        }
    }
}

/// Writes the successor of each crossing.
pub(super) fn mark_successors(
    paired: PairedMesh<'_>,
    passed: impl Fn(u32) -> bool + Copy,
    marks: &mut [u32],
) {
    let (corners, pairing) = (paired.mesh.corners, paired.pairing);
    for triangle in 0..corners.len() / 3 {
        marks[3 * triangle..3 * triangle + 3].fill(NONE);
        if let Some(corner) = rising_corner(corners, passed, triangle) {
            let after = rising_corner(corners, passed, pairing[corner] as usize / 3);
            marks[corner] = after.map_or(NONE, |corner| corner as u32);
        }
    }
}

pub(super) fn rising_corner(
    corners: &[u32],
    passed: impl Fn(u32) -> bool,
    triangle: usize,
) -> Option<usize> {
    let first = 3 * triangle;
    let [a, b, c] = [0, 1, 2].map(|k| passed(corners[first + k]));
    match (a, b, c) {
        (true, false, _) => Some(first),
        (_, true, false) => Some(first + 1),
        (false, _, true) => Some(first + 2),
        _ => None,
    }
}

/// Writes the names and ends of all contours; or gives the crossing where a walk meets one already
/// used that is not its start.
fn walk(marks: &mut [u32], names: &mut [u32], ends: &mut [u32]) -> Result<Counts, usize> {
    let mut counts = Counts::default();
    for start in 0..marks.len() {
        if marks[start] == NONE {
            continue;
        }
        let mut corner = start;
        loop {
            if marks[corner] == NONE {
                return Err(corner);
            }
            names[counts.points] = corner as u32;
            counts.points += 1;
            corner = std::mem::replace(&mut marks[corner], NONE) as usize;
            if corner == start {
                break;
            }
        }
        ends[counts.contours] = counts.points as u32;
        counts.contours += 1;
    }
    Ok(counts)
}

fn write_points(mesh: Mesh<'_>, h: i32, names: &[u32], points: &mut [i32]) {
    for (&name, point) in names.iter().zip(points.chunks_exact_mut(2)) {
        write_point(mesh, h, name as usize, point);
    }
}

/// Writes the point of a crossing.
pub(super) fn write_point(mesh: Mesh<'_>, h: i32, corner: usize, point: &mut [i32]) {
    let Mesh { coords, corners } = mesh;
    let [low, high] = [corner, next(corner)].map(|c| &coords[3 * corners[c] as usize..][..3]);
    let (part, rise) = (i64::from(h - low[2]), i64::from(high[2] - low[2]));
    for axis in 0..2 {
        let offset = i64::from(high[axis] - low[axis]) * part;
        let is_below = i64::from(low[axis]) * rise + offset < 0;
        // A half goes up, and below zero, where the dividend is one less, down.
        let dividend = 2 * offset + rise - i64::from(is_below);
        point[axis] = low[axis] + dividend.div_euclid(2 * rise) as i32;
    }
}

#[cfg(test)]
mod tests {
    use super::*;
    use crate::owned::{lend, Work};
    use meshes::{
        closed_mesh, random_height, random_pairing, shared_edges, Damage, PairingDamage, Random,
    };
    use std::collections::BTreeSet;

    type Cut = fn(PairedMesh, i32, &mut CutTables) -> Result<Counts, Refusal>;

    #[test]
    fn it_does_what_the_library_does() {
        let mut met = BTreeSet::new();
        for round in 0..5000 {
            let mut random = Random::of_round(1, round);
            let mut mesh = if random.one_in(2) {
                closed_mesh(&mut random)
            } else {
                shared_edges(&mut random)
            };
            if random.one_in(4) {
                Damage::any(&mut random).apply(&mut mesh, &mut random);
            }
            let mut pairing = random_pairing(&mesh, &mut random);
            if random.one_in(4) {
                PairingDamage::any(&mut random).apply(&mesh, &mut pairing, &mut random);
            }
            let h = random_height(&mesh, &mut random);
            let run = |cut: Cut| {
                let mut left = Work::new(400);
                let paired = PairedMesh {
                    mesh: lend(&mesh),
                    pairing: &pairing,
                };
                (cut(paired, h, &mut left.lend().cut), left)
            };
            let expected = run(wadroles::cut);
            assert!(run(cut) == expected, "round {round}");
            met.insert(expected.0.map_or_else(|refusal| refusal.number, |_| 0));
        }
        assert!(met.into_iter().eq([0, 1, 2, 3, 4, 7, 9]));
    }

    #[test]
    fn a_walk_into_a_used_crossing_names_it() {
        let walk = |marks: [u32; 5]| walk(&mut marks.clone(), &mut [0; 5], &mut [0; 5]);
        let closed = Counts {
            contours: 2,
            points: 4,
        };
        assert_eq!(walk([2, 4, 0, NONE, 1]), Ok(closed));
        assert_eq!(walk([2, NONE, 4, NONE, 2]), Err(2));
        assert_eq!(walk([2, NONE, 0, 2, NONE]), Err(2));
    }
}
