use meshes::{Random, MAX_COORDINATE};
use oracle::{clean_layer, FileLayer};

/// Contours in which points occur again and again, so that cleaning has something to drop: few as a
/// rule, at times none, and at times long ones.
pub fn repeating_contours(random: &mut Random) -> Vec<Vec<[i32; 2]>> {
    (0..random.below(6))
        .map(|_| repeating_contour(random))
        .collect()
}

/// Layers that are clean, made of such contours; at times one of them has none left.
pub fn random_clean_layers(random: &mut Random) -> Vec<FileLayer> {
    let mut height = random.choose(&[i32::MIN, -70, 0, 1_000]);
    (0..random.below(5))
        .map(|_| {
            height += random.within(1..=200);
            let contours = repeating_contours(random);
            clean_layer(&FileLayer { height, contours })
        })
        .collect()
}

fn repeating_contour(random: &mut Random) -> Vec<[i32; 2]> {
    let most = random.choose(&[1, 2, 2, 3, 3, 4, 8]);
    let different: Vec<[i32; 2]> = (0..most).map(|_| random_point(random)).collect();
    let more = if random.one_in(50) { 200 } else { 9 };
    let mut contour = Vec::new();
    // Points in their order or in any, each once or several times in a row.
    let in_order = random.one_in(2);
    let run = random.choose(&[1, 1, 2, 5]);
    let count = 1 + random.below(more);
    for i in 0..count {
        let point = match in_order {
            true => different[i % most],
            false => random.choose(&different),
        };
        contour.extend(vec![point; 1 + random.below(run)]);
    }
    if random.one_in(3) {
        contour.extend(vec![contour[0]; 1 + random.below(3)]);
    }
    if contour.len() < 2 {
        contour.push(random.choose(&different));
    }
    contour
}

fn random_point(random: &mut Random) -> [i32; 2] {
    let reach = random.choose(&[1, 3, 100, MAX_COORDINATE]);
    [(); 2].map(|()| random.within(-reach..=reach))
}

/// A way to make a clean contour unclean.
#[derive(Clone, Copy, Debug, PartialEq, Eq)]
pub enum ContourDamage {
    /// A point stands twice.
    Repeated,
    /// The first point stands at the end too, once or several times.
    Closed,
    /// There are two different points, in turn.
    TwoPoints,
    /// All points are equal.
    OnePoint,
}

impl ContourDamage {
    /// All of them.
    pub const ALL: [ContourDamage; 4] = [
        ContourDamage::Repeated,
        ContourDamage::Closed,
        ContourDamage::TwoPoints,
        ContourDamage::OnePoint,
    ];

    /// A random kind.
    pub fn any(random: &mut Random) -> ContourDamage {
        random.choose(&ContourDamage::ALL)
    }

    /// Makes a clean contour unclean.
    pub fn apply(self, contour: &mut Vec<[i32; 2]>, random: &mut Random) {
        let (first, length) = (contour[0], contour.len());
        match self {
            ContourDamage::Repeated => {
                let place = random.below(length);
                contour.insert(place, contour[place]);
            }
            ContourDamage::Closed => contour.extend(vec![first; 1 + random.below(3)]),
            ContourDamage::TwoPoints => {
                let both = [first, contour[1]];
                let points = both.into_iter().cycle();
                *contour = points.take(2 + random.below(length)).collect();
            }
            ContourDamage::OnePoint => *contour = vec![first; 2 + random.below(length)],
        }
    }
}

#[cfg(test)]
mod tests {
    use super::*;
    use oracle::{decode_layers, encode_layers, is_clean};
    use std::collections::BTreeSet;

    fn many() -> Vec<Vec<[i32; 2]>> {
        let rounds = 0..3000;
        rounds
            .flat_map(|round| repeating_contours(&mut Random::of_round(1, round)))
            .collect()
    }

    fn different(contour: &[[i32; 2]]) -> usize {
        contour.iter().collect::<BTreeSet<_>>().len()
    }

    fn repeats(contour: &[[i32; 2]]) -> bool {
        contour.windows(2).any(|pair| pair[0] == pair[1])
    }

    #[test]
    fn some_contours_are_of_each_special_kind() {
        let contours = many();
        assert!(contours.iter().all(|contour| contour.len() >= 2));
        let count = |kind: fn(&[[i32; 2]]) -> bool| contours.iter().filter(|c| kind(c)).count();
        assert!(count(is_clean) > 300);
        assert!(count(repeats) > 300);
        assert!(count(|contour| contour.len() == 2) > 100);
        assert!(count(|contour| contour.len() > 100) > 30);
        assert!(count(|contour| different(contour) == 1) > 300);
        assert!(count(|contour| different(contour) == 2 && !repeats(contour)) > 100);
        assert!(count(|contour| different(contour) > 2 && contour.ends_with(&contour[..1])) > 300);
        let closed_twice = |contour: &[[i32; 2]]| contour.ends_with(&[contour[0]; 2]);
        assert!(count(closed_twice) > 300);
    }

    #[test]
    fn clean_layers_are_clean_and_keep_the_rules() {
        let mut met = [0; 3];
        for round in 0..2000 {
            let layers = random_clean_layers(&mut Random::of_round(1, round));
            let contours: Vec<_> = layers.iter().flat_map(|layer| &layer.contours).collect();
            assert!(contours.iter().all(|contour| is_clean(contour)));
            met[0] += usize::from(layers.is_empty());
            met[1] += layers.iter().filter(|l| l.contours.is_empty()).count();
            met[2] += contours.len();
            assert_eq!(decode_layers(&encode_layers(&layers)), Ok(layers));
        }
        assert!(met.iter().all(|&count| count > 200), "{met:?}");
    }

    #[test]
    fn each_kind_of_damage_makes_a_contour_unclean() {
        for damage in ContourDamage::ALL {
            let clean = many().into_iter().filter(|contour| is_clean(contour));
            for (round, mut contour) in clean.enumerate() {
                damage.apply(&mut contour, &mut Random::of_round(2, round as u64));
                assert!(contour.len() >= 2 && !is_clean(&contour), "{damage:?}");
            }
        }
    }
}
