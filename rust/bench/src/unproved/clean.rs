//! Clean in one pass, which writes each contour where it may stay.

use super::tables::{refuse, test_layer};
use wadroles::{Counts, FlatLayer, GivenLayer, Refusal};

/// Does what `wadroles::clean` does.
pub fn clean(layer: GivenLayer<'_>, cleaned: &mut FlatLayer<'_>) -> Result<Counts, Refusal> {
    let GivenLayer { points, ends } = layer;
    test_layer(layer)?;
    if cleaned.points.len() < points.len() || cleaned.ends.len() < ends.len() {
        return refuse(Refusal::ROOM, 0);
    }
    let (mut points, _) = points.as_chunks::<2>();
    let (left, _) = cleaned.points.as_chunks_mut::<2>();
    let mut counts = Counts::default();
    let mut before = 0;
    for &end in ends {
        let (contour, later) = points.split_at((end - before) as usize);
        (points, before) = (later, end);
        let room = &mut left[counts.points..counts.points + contour.len()];
        let kept = clean_contour(contour, room);
        if kept > 0 {
            counts.points += kept;
            cleaned.ends[counts.contours] = counts.points as u32;
            counts.contours += 1;
        }
    }
    Ok(counts)
}

/// Writes what is left of a contour, and gives the number of its points; 0 if it goes. What is dropped
/// is never written, since entries that are not filled stay.
fn clean_contour(contour: &[[i32; 2]], left: &mut [[i32; 2]]) -> usize {
    let first = contour[0];
    let Some(last) = contour.iter().rposition(|&point| point != first) else {
        return 0;
    };
    let contour = &contour[..=last];
    let others = || contour.iter().filter(|&&point| point != first);
    let second = others().next();
    if others().all(|point| Some(point) == second) {
        return 0;
    }
    left[0] = first;
    let (mut kept, mut before) = (1, first);
    for &point in &contour[1..] {
        if point != before {
            left[kept] = point;
            kept += 1;
            before = point;
        }
    }
    kept
}

#[cfg(test)]
mod tests {
    use super::*;
    use files::{random_layers, repeating_contours, LayerDamage};
    use meshes::Random;
    use std::collections::BTreeSet;

    /// The points and ends of a random layer, now and then of one that breaks a rule.
    fn random_tables(random: &mut Random) -> (Vec<i32>, Vec<u32>) {
        let contours = if random.one_in(3) {
            let mut layers = random_layers(random);
            LayerDamage::any(random).apply(&mut layers, random);
            layers.pop().unwrap_or_default().contours
        } else {
            repeating_contours(random)
        };
        let (mut points, mut ends) = (Vec::new(), Vec::new());
        for contour in contours {
            points.extend(contour.concat());
            ends.push(points.len() as u32 / 2);
        }
        (points, ends)
    }

    type Clean = fn(GivenLayer, &mut FlatLayer) -> Result<Counts, Refusal>;

    /// The answer, and what it leaves in both tables.
    fn run(
        clean: Clean,
        layer: GivenLayer,
        lengths: [usize; 2],
    ) -> (Result<Counts, Refusal>, Vec<i32>, Vec<u32>) {
        let (mut points, mut ends) = (vec![-7; lengths[0]], vec![7; lengths[1]]);
        let mut cleaned = FlatLayer {
            points: &mut points,
            ends: &mut ends,
        };
        let answer = clean(layer, &mut cleaned);
        (answer, points, ends)
    }

    #[test]
    fn it_does_what_the_library_does() {
        let mut met = BTreeSet::new();
        for round in 0..5000 {
            let mut random = Random::of_round(1, round);
            let (points, ends) = random_tables(&mut random);
            let layer = GivenLayer {
                points: &points,
                ends: &ends,
            };
            let mut lengths = [points.len(), ends.len()].map(|length| length + random.below(3));
            if random.one_in(8) {
                lengths[random.below(2)] /= 2;
            }
            let expected = run(wadroles::clean, layer, lengths);
            assert_eq!(run(clean, layer, lengths), expected, "round {round}");
            met.insert(expected.0.map_or_else(|refusal| refusal.number, |_| 0));
        }
        assert!(met.into_iter().eq([0, 1, 2, 9]));
    }
}
