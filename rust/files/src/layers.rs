use meshes::{Random, MAX_COORDINATE};
use oracle::FileLayer;
use std::collections::BTreeSet;

pub(crate) const MOST_LAYERS: usize = 4_096;
pub(crate) const MOST_POINTS: usize = 98_304;

/// Random layers that keep the rules of a layer file: few and small as a rule, at times none, or
/// with so many contours or points that their count takes two bytes.
pub fn random_layers(random: &mut Random) -> Vec<FileLayer> {
    random_heights(random)
        .into_iter()
        .map(|height| FileLayer {
            height,
            contours: random_contours(random),
        })
        .collect()
}

/// Layers that keep the rules of a layer file, as many as it may have or with as many points as a
/// layer may have, or somewhat fewer.
pub fn large_layers(random: &mut Random) -> Vec<FileLayer> {
    let fewer = random.choose(&[0, 0, 1, 5]);
    if random.one_in(2) {
        many_layers(MOST_LAYERS - fewer, random)
    } else {
        many_points(MOST_POINTS - fewer, random)
    }
}

fn many_layers(count: usize, random: &mut Random) -> Vec<FileLayer> {
    let count = count as i32;
    let first = random.choose(&[i32::MIN, -2000, i32::MAX - count + 1]);
    (0..count)
        .map(|k| FileLayer {
            height: first + k,
            contours: random_contours(random),
        })
        .collect()
}

/// Random layers, the last with so many points.
fn many_points(count: usize, random: &mut Random) -> Vec<FileLayer> {
    let contour = random.choose(&[2, 3, 1000, 40_000, MOST_POINTS]);
    let mut points: Vec<[i32; 2]> = (0..count).map(|_| random_point(random)).collect();
    let mut contours = Vec::new();
    while points.len() >= contour + 2 {
        contours.push(points.split_off(points.len() - contour));
    }
    contours.push(points);

    let mut layers = random_layers(random);
    if layers.is_empty() {
        layers.push(FileLayer::default());
    }
    let last = layers.len() - 1;
    layers[last].contours = contours;
    layers
}

fn random_point(random: &mut Random) -> [i32; 2] {
    [(); 2].map(|()| random.within(-MAX_COORDINATE..=MAX_COORDINATE))
}

/// Heights that rise.
fn random_heights(random: &mut Random) -> BTreeSet<i32> {
    let height: fn(&mut Random) -> i32 = match random.below(4) {
        0 => |random| random.within(-3..=3),
        1 => |random| random.within(-100..=100),
        2 => |random| random.word() as i32,
        _ => |random| random.choose(&[i32::MIN, i32::MIN + 1, -1, 0, 1, i32::MAX - 1, i32::MAX]),
    };
    let count = match random.below(40) {
        0 | 1 => 0,
        2 => random.below(20),
        _ => 1 + random.below(4),
    };
    (0..count).map(|_| height(random)).collect()
}

fn random_contours(random: &mut Random) -> Vec<Vec<[i32; 2]>> {
    let most = if random.one_in(100) { 150 } else { 4 };
    (0..random.below(most))
        .map(|_| random_contour(random))
        .collect()
}

fn random_contour(random: &mut Random) -> Vec<[i32; 2]> {
    let number: fn(&mut Random) -> i32 = match random.below(5) {
        0 => |_| -7,
        1 => |random| random.within(-2..=2),
        2 => |random| random.within(-200..=200),
        3 => |random| random.within(-MAX_COORDINATE..=MAX_COORDINATE),
        _ => |random| random.choose(&[-MAX_COORDINATE, 1 - MAX_COORDINATE, 0, MAX_COORDINATE]),
    };
    let more = if random.one_in(100) { 200 } else { 4 };
    (0..2 + random.below(more))
        .map(|_| [number(random), number(random)])
        .collect()
}

#[cfg(test)]
mod tests {
    use super::*;
    use oracle::{decode_layers, encode_layers};

    fn many() -> Vec<Vec<FileLayer>> {
        (0..3000)
            .map(|round| random_layers(&mut Random::of_round(1, round)))
            .collect()
    }

    #[test]
    fn all_keep_the_rules() {
        for layers in many() {
            assert_eq!(decode_layers(&encode_layers(&layers)), Ok(layers));
        }
    }

    #[test]
    fn large_ones_keep_the_rules_up_to_the_limits() {
        let mut most = (0, 0);
        for round in 0..20 {
            let layers = large_layers(&mut Random::of_round(1, round));
            let points = |layer: &FileLayer| layer.contours.iter().map(Vec::len).sum();
            most.0 = most.0.max(layers.len());
            most.1 = most.1.max(layers.iter().map(points).max().unwrap());
            assert_eq!(decode_layers(&encode_layers(&layers)), Ok(layers));
        }
        assert_eq!(most, (MOST_LAYERS, MOST_POINTS));
    }

    #[test]
    fn some_are_of_each_special_kind() {
        let all = many();
        assert!(all.iter().filter(|layers| layers.is_empty()).count() > 100);
        let layers: Vec<FileLayer> = all.concat();
        let count = |kind: fn(&FileLayer) -> bool| layers.iter().filter(|l| kind(l)).count();
        assert!(count(|layer| layer.height == i32::MIN) > 100);
        assert!(count(|layer| layer.height == i32::MAX) > 100);
        assert!(count(|layer| layer.contours.is_empty()) > 100);
        assert!(count(|layer| layer.contours.len() > 127) > 5);
        assert!(count(|layer| layer.contours.iter().any(|contour| contour.len() == 2)) > 100);
        assert!(count(|layer| layer.contours.iter().any(|contour| contour.len() > 127)) > 10);
        let far = [[-MAX_COORDINATE; 2], [MAX_COORDINATE; 2]];
        let contours: Vec<_> = layers.iter().flat_map(|layer| &layer.contours).collect();
        let crosses = |contour: &&&Vec<[i32; 2]>| contour.windows(2).any(|pair| pair == far);
        assert!(contours.iter().filter(crosses).count() > 10);
    }
}
