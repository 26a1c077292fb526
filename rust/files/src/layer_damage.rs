use crate::layers::{MOST_LAYERS, MOST_POINTS};
use meshes::{Random, MAX_COORDINATE};
use oracle::FileLayer;

/// A way to break a rule of the layer file, but for the form of its values.
#[derive(Clone, Copy, Debug, PartialEq, Eq)]
pub enum LayerDamage {
    /// A layer is not above the one before it.
    Height,
    /// A contour has fewer than two points.
    ShortContour,
    /// A point is out of range.
    Point,
    /// There are more layers than a file may have.
    LayerCount,
    /// There are more points than a layer may have.
    PointCount,
}

impl LayerDamage {
    /// The kinds that keep a small file small.
    const SMALL: [LayerDamage; 3] = [
        LayerDamage::Height,
        LayerDamage::ShortContour,
        LayerDamage::Point,
    ];

    /// The kinds that make a file as large as the limits.
    const LARGE: [LayerDamage; 2] = [LayerDamage::LayerCount, LayerDamage::PointCount];

    /// A random kind, seldom one that makes the file large.
    pub fn any(random: &mut Random) -> LayerDamage {
        if random.one_in(1000) {
            random.choose(&LayerDamage::LARGE)
        } else {
            random.choose(&LayerDamage::SMALL)
        }
    }

    /// Breaks the rule at a random place, if the layers have one.
    pub fn apply(self, layers: &mut Vec<FileLayer>, random: &mut Random) {
        match self {
            LayerDamage::LayerCount => add_layers(layers),
            LayerDamage::Height if layers.len() >= 2 => lower_height(layers, random),
            LayerDamage::PointCount if !layers.is_empty() => {
                let layer = random.below(layers.len());
                add_points(&mut layers[layer], random);
            }
            LayerDamage::ShortContour => {
                if let Some(contour) = random_contour(layers, random) {
                    contour.truncate(random.below(2));
                }
            }
            LayerDamage::Point => {
                if let Some(contour) = random_contour(layers, random) {
                    let point = random.below(contour.len());
                    contour[point][random.below(2)] = out_of_range(random);
                }
            }
            _ => {}
        }
    }
}

fn lower_height(layers: &mut [FileLayer], random: &mut Random) {
    let above = 1 + random.below(layers.len() - 1);
    let low = layers[above - 1].height;
    layers[above].height = match random.below(3) {
        0 => low,
        1 => low.saturating_sub(1),
        _ => random.within(i32::MIN..=low),
    };
}

fn add_layers(layers: &mut Vec<FileLayer>) {
    let highest = layers.last().map_or(0, |layer| layer.height);
    let first = highest.min(i32::MAX - MOST_LAYERS as i32);
    let missing = (MOST_LAYERS + 1).saturating_sub(layers.len());
    layers.extend((1..=missing as i32).map(|k| FileLayer {
        height: first + k,
        contours: Vec::new(),
    }));
}

fn add_points(layer: &mut FileLayer, random: &mut Random) {
    let points: usize = layer.contours.iter().map(Vec::len).sum();
    let missing = (MOST_POINTS + 1).saturating_sub(points);
    let first = random.choose(&[missing, missing.saturating_sub(2), missing / 2]);
    layer.contours.push(vec![[0, 0]; first]);
    if first < missing {
        layer.contours.push(vec![[0, 0]; missing - first]);
    }
}

/// A contour that has points.
fn random_contour<'a>(
    layers: &'a mut [FileLayer],
    random: &mut Random,
) -> Option<&'a mut Vec<[i32; 2]>> {
    let contours = layers.iter_mut().flat_map(|layer| &mut layer.contours);
    let mut contours: Vec<_> = contours.filter(|contour| !contour.is_empty()).collect();
    if contours.is_empty() {
        return None;
    }
    let chosen = random.below(contours.len());
    Some(contours.swap_remove(chosen))
}

fn out_of_range(random: &mut Random) -> i32 {
    match random.below(3) {
        0 => random.choose(&[-MAX_COORDINATE - 1, MAX_COORDINATE + 1]),
        1 => random.choose(&[i32::MIN, i32::MAX]),
        _ => random.choose(&[-1, 1]) * random.within(MAX_COORDINATE + 1..=i32::MAX),
    }
}

#[cfg(test)]
mod tests {
    use super::*;
    use crate::random_layers;
    use oracle::{decode_layers, encode_layers};

    #[test]
    fn each_kind_mostly_breaks_a_rule() {
        for damage in [&LayerDamage::SMALL[..], &LayerDamage::LARGE].concat() {
            let rounds = 30;
            let broken = (0..rounds).filter(|&round| {
                let mut random = Random::of_round(1, round);
                let mut layers = random_layers(&mut random);
                damage.apply(&mut layers, &mut random);
                decode_layers(&encode_layers(&layers)).is_err()
            });
            let broken = broken.count();
            assert!(broken > 12, "{damage:?}: {broken}");
        }
    }

    #[test]
    fn no_layers_have_no_place_to_spoil() {
        for damage in LayerDamage::SMALL {
            let mut layers = Vec::new();
            damage.apply(&mut layers, &mut Random::new(1));
            assert_eq!(layers, [], "{damage:?}");
        }
    }
}
