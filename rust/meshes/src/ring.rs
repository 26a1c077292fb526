use crate::Random;

/// The ring entry of a corner that is no crossing.
const NO_CORNER: u32 = u32::MAX;

/// A way to spoil a ring table.
#[derive(Clone, Copy, Debug, PartialEq, Eq)]
pub enum RingDamage {
    /// A corner has no successor.
    Cleared,
    /// A corner has a successor, or another one than before.
    OtherSuccessor,
    /// An entry is no corner.
    NoCorner,
    /// Two entries are exchanged.
    Exchanged,
    /// Two crossings exchange their successors, so that rings are joined or split.
    ExchangedSuccessors,
    /// An entry and all after it have no successor.
    ClearedFrom,
}

impl RingDamage {
    const ALL: [RingDamage; 6] = [
        RingDamage::Cleared,
        RingDamage::OtherSuccessor,
        RingDamage::NoCorner,
        RingDamage::Exchanged,
        RingDamage::ExchangedSuccessors,
        RingDamage::ClearedFrom,
    ];

    /// A random kind.
    pub fn any(random: &mut Random) -> RingDamage {
        random.choose(&RingDamage::ALL)
    }

    /// Spoils the table, which has an entry per corner, at a random place if it has one. A place
    /// may stay right by chance.
    pub fn apply(self, ring: &mut [u32], random: &mut Random) {
        if ring.is_empty() {
            return;
        }
        let length = ring.len();
        let crossings: Vec<usize> = (0..length).filter(|&c| ring[c] != NO_CORNER).collect();
        let corner = random.below(length);
        let other = random.below(length);
        let one_of = |random: &mut Random| match crossings.as_slice() {
            [] => corner,
            crossings => random.choose(crossings),
        };
        match self {
            RingDamage::Cleared => ring[one_of(random)] = NO_CORNER,
            RingDamage::OtherSuccessor => ring[corner] = one_of(random) as u32,
            RingDamage::NoCorner => ring[corner] = (length + random.below(10)) as u32,
            RingDamage::Exchanged => ring.swap(corner, other),
            RingDamage::ExchangedSuccessors => ring.swap(one_of(random), one_of(random)),
            RingDamage::ClearedFrom => ring[corner..].fill(NO_CORNER),
        }
    }
}

#[cfg(test)]
mod tests {
    use super::*;

    const N: u32 = NO_CORNER;
    const RIGHT: [u32; 8] = [6, N, 5, 0, N, 2, 3, N];

    /// What the damage does, many times over.
    fn spoiled(damage: RingDamage) -> Vec<[u32; 8]> {
        (0..200)
            .map(|round| {
                let mut ring = RIGHT;
                damage.apply(&mut ring, &mut Random::of_round(1, round));
                ring
            })
            .collect()
    }

    #[test]
    fn damage_mostly_spoils_the_table() {
        for damage in RingDamage::ALL {
            let wrong = spoiled(damage).iter().filter(|r| **r != RIGHT).count();
            assert!(wrong > 100, "{damage:?}: {wrong}");
        }
    }

    #[test]
    fn each_kind_spoils_in_its_own_way() {
        let none = |ring: &[u32; 8]| ring.iter().filter(|&&entry| entry == N).count();
        assert!(spoiled(RingDamage::Cleared).iter().all(|r| none(r) == 4));
        let sets = |ring: &[u32; 8]| none(ring) == 2;
        assert!(spoiled(RingDamage::OtherSuccessor).iter().any(sets));
        let strays = |ring: &[u32; 8]| ring.iter().any(|&entry| (8..18).contains(&entry));
        assert!(spoiled(RingDamage::NoCorner).iter().all(strays));
        for ring in spoiled(RingDamage::ExchangedSuccessors) {
            assert!((0..8).all(|c| (ring[c] == N) == (RIGHT[c] == N)));
        }
        assert!(spoiled(RingDamage::ClearedFrom).contains(&[N; 8]));
    }

    #[test]
    fn tables_without_crossings_or_entries_can_be_damaged() {
        for round in 0..200 {
            let mut random = Random::of_round(1, round);
            let damage = RingDamage::any(&mut random);
            damage.apply(&mut [], &mut random);
            damage.apply(&mut [N; 3], &mut random);
        }
    }
}
