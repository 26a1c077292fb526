use crate::{Mesh, Random};
use std::collections::BTreeMap;

/// A pairing of the corners: each has one with the reverse edge, and the pair of the pair is the
/// corner itself. Where an edge occurs several times, its corners are paired at random.
///
/// A corner for which none is left is paired with itself, which is wrong.
pub fn random_pairing(mesh: &Mesh, random: &mut Random) -> Vec<u32> {
    let mut pairing: Vec<u32> = (0..mesh.corners.len() as u32).collect();
    let mut edges: Vec<_> = mesh.edges().zip(0u32..).collect();
    random.shuffle(&mut edges);
    edges.sort_by_key(ends_of_edge);
    for edge in edges.chunk_by(|a, b| ends_of_edge(a) == ends_of_edge(b)) {
        let upward = edge.iter().filter(|((from, to), _)| from < to);
        let downward = edge.iter().filter(|((from, to), _)| from > to);
        for (&(_, a), &(_, b)) in upward.zip(downward) {
            pairing[a as usize] = b;
            pairing[b as usize] = a;
        }
    }
    pairing
}

/// The lower and the higher vertex.
fn ends_of_edge(&((from, to), _): &((u32, u32), u32)) -> (u32, u32) {
    (from.min(to), from.max(to))
}

/// A way to spoil a pairing.
#[derive(Clone, Copy, Debug, PartialEq, Eq)]
pub enum PairingDamage {
    /// Entries are missing at the end.
    Missing,
    /// An entry is no corner.
    NoCorner,
    /// An entry is another corner than before.
    OtherCorner,
    /// An entry is the corner itself.
    Itself,
    /// An entry is another corner with the reverse edge, which is not paired back.
    OtherReverse,
    /// Two entries are exchanged.
    Exchanged,
    /// Two pairs exchange their partners, so that all are paired back.
    ExchangedPartners,
}

impl PairingDamage {
    const ALL: [PairingDamage; 7] = [
        PairingDamage::Missing,
        PairingDamage::NoCorner,
        PairingDamage::OtherCorner,
        PairingDamage::Itself,
        PairingDamage::OtherReverse,
        PairingDamage::Exchanged,
        PairingDamage::ExchangedPartners,
    ];

    /// A random kind.
    pub fn any(random: &mut Random) -> PairingDamage {
        random.choose(&PairingDamage::ALL)
    }

    /// Spoils the pairing of the mesh at a random place, if it has one. A place may stay right by
    /// chance.
    pub fn apply(self, mesh: &Mesh, pairing: &mut Vec<u32>, random: &mut Random) {
        if pairing.is_empty() {
            return;
        }
        let length = pairing.len();
        let corner = random.below(length);
        let other = random.below(length);
        match self {
            PairingDamage::Missing if random.one_in(2) => pairing.truncate(length - 1),
            PairingDamage::Missing => pairing.truncate(corner),
            PairingDamage::NoCorner => pairing[corner] = no_corner(length, random),
            PairingDamage::OtherCorner => pairing[corner] = other as u32,
            PairingDamage::Itself => pairing[corner] = corner as u32,
            PairingDamage::OtherReverse => spoil_with_reverse(mesh, pairing, random),
            PairingDamage::Exchanged => pairing.swap(corner, other),
            PairingDamage::ExchangedPartners => exchange_partners(pairing, corner, other),
        }
    }
}

fn no_corner(length: usize, random: &mut Random) -> u32 {
    match random.below(4) {
        0 => length as u32,
        1 => (length + random.below(10)) as u32,
        2 => u32::MAX,
        _ => random.within(i32::MIN..=-1) as u32,
    }
}

/// Gives a corner another partner with the reverse edge, if an edge occurs several times.
fn spoil_with_reverse(mesh: &Mesh, pairing: &mut [u32], random: &mut Random) {
    let mut places: BTreeMap<(u32, u32), Vec<usize>> = BTreeMap::new();
    for (corner, edge) in mesh.edges().enumerate() {
        places.entry(edge).or_default().push(corner);
    }
    let shared: Vec<_> = places.iter().filter(|(_, few)| few.len() > 1).collect();
    if shared.is_empty() {
        return;
    }
    let (&(from, to), partners) = random.choose(&shared);
    if let Some(corners) = places.get(&(to, from)) {
        let corner = random.choose(corners);
        if let Some(entry) = pairing.get_mut(corner) {
            *entry = random.choose(partners) as u32;
        }
    }
}

fn exchange_partners(pairing: &mut [u32], a: usize, b: usize) {
    pairing.swap(a, b);
    for corner in [a, b] {
        let pair = pairing[corner] as usize;
        if let Some(entry) = pairing.get_mut(pair) {
            *entry = corner as u32;
        }
    }
}

#[cfg(test)]
mod tests {
    use super::*;
    use crate::shapes::{octahedron, tetrahedron};
    use crate::{closed_mesh, shared_edges};
    use std::collections::BTreeSet;

    fn is_right(mesh: &Mesh, pairing: &[u32]) -> bool {
        let edges: Vec<_> = mesh.edges().collect();
        pairing.len() == edges.len()
            && (0..edges.len()).all(|corner| {
                let (from, to) = edges[corner];
                let pair = pairing[corner] as usize;
                edges.get(pair) == Some(&(to, from)) && pairing[pair] as usize == corner
            })
    }

    fn is_paired_back(pairing: &[u32]) -> bool {
        let back = |corner: usize| pairing.get(pairing[corner] as usize);
        (0..pairing.len()).all(|corner| back(corner) == Some(&(corner as u32)))
    }

    fn lacks_no_reverse(mesh: &Mesh, pairing: &[u32]) -> bool {
        let edges: Vec<_> = mesh.edges().collect();
        (0..edges.len()).all(|corner| {
            let (from, to) = edges[corner];
            edges.get(pairing[corner] as usize) == Some(&(to, from))
        })
    }

    /// An octahedron twice over the same vertices.
    fn doubled_octahedron() -> Mesh {
        let mut mesh = octahedron(10);
        mesh.corners.extend(octahedron(10).corners);
        mesh
    }

    /// What the damage does to a right pairing of the mesh, many times over.
    fn spoiled(damage: PairingDamage, mesh: &Mesh) -> Vec<Vec<u32>> {
        (0..200)
            .map(|round| {
                let mut random = Random::of_round(1, round);
                let mut pairing = random_pairing(mesh, &mut random);
                damage.apply(mesh, &mut pairing, &mut random);
                pairing
            })
            .collect()
    }

    #[test]
    fn part_p_has_one_right_pairing() {
        for round in 0..20 {
            let pairing = random_pairing(&tetrahedron(10), &mut Random::of_round(1, round));
            assert_eq!(pairing, [8, 9, 3, 2, 11, 6, 5, 10, 0, 1, 7, 4]);
        }
    }

    #[test]
    fn pairings_are_right_where_edges_occur_equally_often_both_ways() {
        for round in 0..1000 {
            let mut random = Random::of_round(1, round);
            let mesh = match random.below(2) {
                0 => closed_mesh(&mut random),
                _ => shared_edges(&mut random),
            };
            let pairing = random_pairing(&mesh, &mut random);
            assert!(is_right(&mesh, &pairing), "round {round}");
        }
    }

    #[test]
    fn corners_of_shared_edges_are_paired_in_every_way() {
        let mesh = doubled_octahedron();
        let pairs: BTreeSet<u32> = (0..50)
            .map(|round| random_pairing(&mesh, &mut Random::of_round(1, round))[0])
            .collect();
        assert_eq!(pairs.len(), 2);
    }

    #[test]
    fn open_edges_are_left_with_a_wrong_pairing() {
        let mut mesh = tetrahedron(10);
        mesh.remove_triangle(3);
        let pairing = random_pairing(&mesh, &mut Random::new(1));
        assert_eq!(pairing, [8, 1, 3, 2, 4, 6, 5, 7, 0]);
    }

    #[test]
    fn damage_mostly_spoils_the_pairing() {
        let mesh = doubled_octahedron();
        for damage in PairingDamage::ALL {
            let pairings = spoiled(damage, &mesh);
            let wrong = pairings.iter().filter(|p| !is_right(&mesh, p)).count();
            assert!(wrong > 80, "{damage:?}: {wrong}");
        }
    }

    #[test]
    fn each_kind_spoils_in_its_own_way() {
        let mesh = doubled_octahedron();
        let is_corner = |pair: &u32| (*pair as usize) < mesh.corners.len();
        for pairing in spoiled(PairingDamage::Missing, &mesh) {
            assert!(pairing.len() < mesh.corners.len());
        }
        for pairing in spoiled(PairingDamage::NoCorner, &mesh) {
            assert!(!pairing.iter().all(is_corner));
        }
        for pairing in spoiled(PairingDamage::Itself, &mesh) {
            assert!(!lacks_no_reverse(&mesh, &pairing));
        }
        for pairing in spoiled(PairingDamage::OtherReverse, &mesh) {
            assert!(lacks_no_reverse(&mesh, &pairing));
        }
        for pairing in spoiled(PairingDamage::ExchangedPartners, &mesh) {
            assert!(is_paired_back(&pairing));
        }
        let no_corners = spoiled(PairingDamage::NoCorner, &mesh).concat();
        assert!(no_corners.contains(&(mesh.corners.len() as u32)));
        assert!(no_corners.contains(&u32::MAX));
    }

    #[test]
    fn pairings_that_are_empty_or_wrong_already_can_be_damaged() {
        for round in 0..2000 {
            let mut random = Random::of_round(1, round);
            let mesh = shared_edges(&mut random);
            let mut pairing = random_pairing(&mesh, &mut random);
            for _ in 0..4 {
                PairingDamage::any(&mut random).apply(&mesh, &mut pairing, &mut random);
            }
        }
    }
}
