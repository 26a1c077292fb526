use crate::mesh::{edge, refuse_entries, refuse_sizes, reverse, Edge};
use crate::refusal::{refuse_if, refuse_least, Refusal};
use std::collections::BTreeMap;

/// The operation "Check" of the specification.
pub fn check(
    coords: &[i32],
    corners: &[u32],
    pairing: &mut [u32],
    order: &mut [u32],
) -> Result<(), Refusal> {
    let vertices = coords.len() / 3;
    let all_corners = 0..corners.len();

    refuse_sizes(coords, corners)?;
    refuse_if(9, pairing.len() < corners.len() || order.len() < vertices)?;
    refuse_entries(coords, corners)?;

    let pairing = &mut pairing[..corners.len()];
    let order = &mut order[..vertices];
    pairing.fill(0);
    order.fill(0);

    let partners = partners(corners);
    refuse_least(6, all_corners, |c| !partners.contains_key(&c))?;
    for (c, partner) in partners {
        pairing[c] = partner as u32;
    }
    order.copy_from_slice(&vertices_by_height(coords));
    Ok(())
}

/// The corners that find a partner, each with it: of the corners with an edge and those with its
/// reverse the first are partners, the second, and so on.
fn partners(corners: &[u32]) -> BTreeMap<usize, usize> {
    let places = corners_by_edge(corners);
    let mut partners = BTreeMap::new();
    for (&edge, there) in &places {
        if let Some(back) = places.get(&reverse(edge)) {
            partners.extend(there.iter().copied().zip(back.iter().copied()));
        }
    }
    partners
}

/// For each directed edge its corners, in corner order.
fn corners_by_edge(corners: &[u32]) -> BTreeMap<Edge, Vec<usize>> {
    let mut places: BTreeMap<Edge, Vec<usize>> = BTreeMap::new();
    for c in 0..corners.len() {
        places.entry(edge(corners, c)).or_default().push(c);
    }
    places
}

fn vertices_by_height(coords: &[i32]) -> Vec<u32> {
    let mut vertices: Vec<u32> = (0..coords.len() as u32 / 3).collect();
    vertices.sort_by_key(|&v| (coords[3 * v as usize + 2], v));
    vertices
}

#[cfg(test)]
mod tests {
    use super::*;
    use meshes::{closed_mesh, shapes::tetrahedron, shared_edges, Mesh, Random};

    const JUNK: u32 = 77;

    type Answer = Result<(), (u32, u64)>;

    /// The answer for tables of the given lengths, filled with junk, and what it leaves in them.
    fn run(mesh: &Mesh, lengths: [usize; 2]) -> (Answer, Vec<u32>, Vec<u32>) {
        let [mut pairing, mut order] = lengths.map(|length| vec![JUNK; length]);
        let answer = check(&mesh.coords, &mesh.corners, &mut pairing, &mut order);
        let answer = answer.map_err(|refusal| (refusal.number, refusal.place));
        (answer, pairing, order)
    }

    fn assert_refused(mesh: &Mesh, number: u32, place: u64) {
        let (answer, pairing, order) = run(mesh, [mesh.corners.len() + 1, mesh.vertex_count() + 1]);
        assert_eq!(answer, Err((number, place)));
        let left = if number == 6 { 0 } else { JUNK };
        for table in [pairing, order] {
            let (last, used) = table.split_last().unwrap();
            assert!(used.iter().all(|&entry| entry == left));
            assert_eq!(*last, JUNK);
        }
    }

    /// Part P of the specification after a change.
    fn changed(change: impl FnOnce(&mut Mesh)) -> Mesh {
        let mut mesh = tetrahedron(10);
        change(&mut mesh);
        mesh
    }

    #[test]
    fn part_p_is_paired_as_in_the_document() {
        let (answer, pairing, order) = run(&tetrahedron(10), [13, 5]);
        assert_eq!(answer, Ok(()));
        assert_eq!(pairing, [8, 9, 3, 2, 11, 6, 5, 10, 0, 1, 7, 4, JUNK]);
        assert_eq!(order, [0, 1, 2, 3, JUNK]);
    }

    #[test]
    fn refusals_name_the_least_place() {
        assert_refused(&changed(|p| p.coords.push(0)), 1, 0);
        assert_refused(&changed(|p| p.corners.push(0)), 1, 0);
        assert_refused(&changed(|p| p.coords[5] = 1_048_577), 2, 5);
        assert_refused(&changed(|p| p.coords[7] = -1_048_577), 2, 7);
        assert_refused(&changed(|p| p.corners[4] = 4), 3, 4);
        assert_refused(&changed(|p| p.corners[8] = 0), 4, 6);
        assert_refused(&changed(|p| p.flip_triangle(1)), 6, 2);
        assert_refused(&changed(|p| p.insert_triangle(4, [3, 1, 2])), 6, 12);
        assert_refused(&changed(|p| p.remove_triangle(3)), 6, 1);
    }

    /// Part P and a second tetrahedron on its edge from 0 to 1.
    fn two_on_an_edge() -> Mesh {
        changed(|p| {
            p.coords.extend([0, -10, 0, 0, 0, -10]);
            p.corners.extend([0, 4, 1, 0, 1, 5, 0, 5, 4, 1, 4, 5]);
        })
    }

    #[test]
    fn the_first_are_partners_and_the_second() {
        let (answer, pairing, _) = run(&two_on_an_edge(), [24, 6]);
        assert_eq!(answer, Ok(()));
        assert_eq!(pairing[..12], [8, 9, 3, 2, 11, 6, 5, 10, 0, 1, 7, 4]);
        assert_eq!(
            pairing[12..],
            [20, 21, 15, 14, 23, 18, 17, 22, 12, 13, 19, 16]
        );
        // Two triangles change places, one of each: then partners are of different ones.
        let mut mesh = two_on_an_edge();
        mesh.triangle_mut(1).copy_from_slice(&[0, 1, 5]);
        mesh.triangle_mut(5).copy_from_slice(&[0, 1, 3]);
        let (answer, pairing, _) = run(&mesh, [24, 6]);
        assert_eq!(answer, Ok(()));
        assert_eq!([2, 3, 14, 15].map(|c| pairing[c]), [3, 2, 15, 14]);
        assert_eq!([4, 16].map(|c| pairing[c]), [23, 11]);
    }

    #[test]
    fn the_second_finds_no_partner_where_there_is_one_reverse() {
        let twice_and_once = changed(|p| {
            p.coords.extend([0, 0, -10]);
            p.corners.extend([1, 0, 4]);
        });
        assert_refused(&twice_and_once, 6, 12);
    }

    #[test]
    fn coordinates_at_the_limit_pass() {
        let mesh = changed(|p| {
            p.coords[3] = 1_048_576;
            p.coords[4] = -1_048_576;
        });
        assert_eq!(run(&mesh, [12, 4]).0, Ok(()));
    }

    #[test]
    fn counts_pass_up_to_their_limits() {
        let vertices = |n: usize| Mesh {
            coords: vec![0; 3 * n],
            corners: Vec::new(),
        };
        assert_eq!(run(&vertices(32_768), [0, 32_768]).0, Ok(()));
        assert_eq!(run(&vertices(32_769), [0, 32_769]).0, Err((1, 0)));
        let triangles = |n: usize| Mesh {
            coords: Vec::new(),
            corners: vec![0; 3 * n],
        };
        assert_eq!(run(&triangles(65_536), [3 * 65_536, 0]).0, Err((3, 0)));
        assert_eq!(run(&triangles(65_537), [3 * 65_537, 0]).0, Err((1, 0)));
    }

    #[test]
    fn short_tables_are_refused_and_stay() {
        for lengths in [[11, 4], [12, 3], [0, 0]] {
            let (answer, pairing, order) = run(&tetrahedron(10), lengths);
            assert_eq!(answer, Err((9, 0)));
            assert!(pairing.iter().chain(&order).all(|&entry| entry == JUNK));
        }
    }

    #[test]
    fn meshes_are_paired_and_ordered_by_the_definitions() {
        for round in 0..500 {
            let mut random = Random::of_round(1, round);
            let mesh = match random.below(2) {
                0 => closed_mesh(&mut random),
                _ => shared_edges(&mut random),
            };
            let (answer, pairing, order) = run(&mesh, [mesh.corners.len(), mesh.vertex_count()]);
            assert_eq!(answer, Ok(()), "round {round}");

            let edges: Vec<Edge> = mesh.edges().collect();
            for (corner, &pair) in pairing.iter().enumerate() {
                let pair = pair as usize;
                assert_ne!(pair, corner, "round {round}");
                assert_eq!(pairing[pair] as usize, corner, "round {round}");
                assert_eq!(edges[pair], reverse(edges[corner]), "round {round}");
                let before = |c: usize| edges[..c].iter().filter(|&&e| e == edges[c]).count();
                assert_eq!(before(pair), before(corner), "round {round}");
            }
            let rank = |vertex: u32| (mesh.point(vertex)[2], vertex);
            assert_eq!(order.len(), mesh.vertex_count(), "round {round}");
            assert!(
                order.is_sorted_by(|&a, &b| rank(a) < rank(b)),
                "round {round}"
            );
        }
    }
}
