use crate::{Mesh, Random};

/// Each vertex once, by z and then by vertex number.
pub fn vertex_order(mesh: &Mesh) -> Vec<u32> {
    let mut order: Vec<u32> = (0..mesh.vertex_count() as u32).collect();
    order.sort_by_key(|&vertex| (mesh.point(vertex)[2], vertex));
    order
}

/// A way to spoil an order.
#[derive(Clone, Copy, Debug, PartialEq, Eq)]
pub enum OrderDamage {
    /// Entries are missing at the end.
    Missing,
    /// An entry is no vertex.
    NoVertex,
    /// An entry is another vertex than before.
    OtherVertex,
    /// Two entries are exchanged.
    Exchanged,
    /// Two neighbours are exchanged.
    ExchangedNeighbours,
    /// All vertices of equal z stand by falling number.
    TiesTurnedRound,
}

impl OrderDamage {
    const ALL: [OrderDamage; 6] = [
        OrderDamage::Missing,
        OrderDamage::NoVertex,
        OrderDamage::OtherVertex,
        OrderDamage::Exchanged,
        OrderDamage::ExchangedNeighbours,
        OrderDamage::TiesTurnedRound,
    ];

    /// A random kind.
    pub fn any(random: &mut Random) -> OrderDamage {
        random.choose(&OrderDamage::ALL)
    }

    /// Spoils the order of the mesh at a random place, if it has one. A place may stay right by
    /// chance.
    pub fn apply(self, mesh: &Mesh, order: &mut Vec<u32>, random: &mut Random) {
        if order.is_empty() {
            return;
        }
        let length = order.len();
        let position = random.below(length);
        let other = random.below(length);
        match self {
            OrderDamage::Missing if random.one_in(2) => order.truncate(length - 1),
            OrderDamage::Missing => order.truncate(position),
            OrderDamage::NoVertex => order[position] = no_vertex(mesh, random),
            OrderDamage::OtherVertex => order[position] = order[other],
            OrderDamage::Exchanged => order.swap(position, other),
            OrderDamage::ExchangedNeighbours => order.swap(position, (position + 1) % length),
            OrderDamage::TiesTurnedRound => turn_ties_round(mesh, order),
        }
    }
}

fn no_vertex(mesh: &Mesh, random: &mut Random) -> u32 {
    let first_missing = mesh.vertex_count() as u32;
    match random.below(4) {
        0 => first_missing,
        1 => first_missing + random.below(10) as u32,
        2 => u32::MAX,
        _ => random.within(i32::MIN..=-1) as u32,
    }
}

fn turn_ties_round(mesh: &Mesh, order: &mut [u32]) {
    let z = |vertex: u32| mesh.coords.get(3 * vertex as usize + 2);
    order
        .chunk_by_mut(|&a, &b| z(a) == z(b))
        .for_each(<[u32]>::reverse);
}

#[cfg(test)]
mod tests {
    use super::*;
    use crate::closed_mesh;
    use crate::shapes::{octahedron, tetrahedron};

    /// What the damage does to the order of an octahedron, many times over.
    fn spoiled(damage: OrderDamage) -> Vec<Vec<u32>> {
        (0..200)
            .map(|round| {
                let mesh = octahedron(10);
                let mut order = vertex_order(&mesh);
                damage.apply(&mesh, &mut order, &mut Random::of_round(1, round));
                order
            })
            .collect()
    }

    #[test]
    fn vertices_stand_by_height_and_number() {
        assert_eq!(vertex_order(&tetrahedron(10)), [0, 1, 2, 3]);
        assert_eq!(vertex_order(&octahedron(10)), [4, 0, 1, 2, 3, 5]);
        let mesh = Mesh::new(&[[0, 0, 5], [9, 9, -5], [0, 1, 5], [3, 3, 0]], &[]);
        assert_eq!(vertex_order(&mesh), [1, 3, 0, 2]);
    }

    #[test]
    fn damage_mostly_spoils_the_order() {
        let right = vertex_order(&octahedron(10));
        for damage in OrderDamage::ALL {
            let wrong = spoiled(damage).iter().filter(|o| **o != right).count();
            assert!(wrong > 100, "{damage:?}: {wrong}");
        }
    }

    #[test]
    fn each_kind_spoils_in_its_own_way() {
        assert!(spoiled(OrderDamage::Missing).iter().all(|o| o.len() < 6));
        let no_vertices = spoiled(OrderDamage::NoVertex).concat();
        assert!(no_vertices.contains(&6) && no_vertices.contains(&u32::MAX));
        for kind in [OrderDamage::Exchanged, OrderDamage::ExchangedNeighbours] {
            for mut order in spoiled(kind) {
                order.sort();
                assert_eq!(order, [0, 1, 2, 3, 4, 5]);
            }
        }
        assert_eq!(spoiled(OrderDamage::TiesTurnedRound)[0], [4, 3, 2, 1, 0, 5]);
    }

    #[test]
    fn orders_that_are_empty_or_wrong_already_can_be_damaged() {
        for round in 0..2000 {
            let mut random = Random::of_round(1, round);
            let mesh = closed_mesh(&mut random);
            let mut order = vertex_order(&mesh);
            for _ in 0..4 {
                OrderDamage::any(&mut random).apply(&mesh, &mut order, &mut random);
            }
        }
    }
}
