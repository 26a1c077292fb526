//! Nesting by a loop over the contours, each with its extent, and for each a loop over the others.

use super::tables::{refuse, test_layer};
use wadroles::{GivenLayer, NestTables, Refusal, NO_PARENT};

/// Does what `wadroles::nesting` does.
pub fn nesting(layer: GivenLayer<'_>, tables: &mut NestTables<'_>) -> Result<(), Refusal> {
    test_layer(layer)?;
    let count = layer.ends.len();
    if tables.depths.len() < count || tables.parents.len() < count {
        return refuse(Refusal::ROOM, 0);
    }
    let (depths, parents) = (&mut tables.depths[..count], &mut tables.parents[..count]);
    depths.fill(0);
    parents.fill(NO_PARENT);
    let (points, _) = layer.points.as_chunks::<2>();
    for j in 0..count {
        let holder = contour(points, layer.ends, j);
        let (extent, size) = (Extent::of(holder), absolute_area(holder));
        let mut start = 0;
        for (i, &end) in layer.ends.iter().enumerate() {
            let point = points[start];
            start = end as usize;
            if i == j || !extent.has(point) || !lies_in(point, holder) {
                continue;
            }
            depths[i] += 1;
            let parent = parents[i];
            if parent == NO_PARENT
                || size < absolute_area(contour(points, layer.ends, parent as usize))
            {
                parents[i] = j as u32;
            }
        }
    }
    Ok(())
}

fn contour<'a>(points: &'a [[i32; 2]], ends: &[u32], j: usize) -> &'a [[i32; 2]] {
    let start = if j == 0 { 0 } else { ends[j - 1] };
    &points[start as usize..ends[j] as usize]
}

/// The least and the greatest x and y of a contour.
struct Extent {
    low: [i32; 2],
    high: [i32; 2],
}

impl Extent {
    fn of(contour: &[[i32; 2]]) -> Self {
        let mut extent = Extent {
            low: contour[0],
            high: contour[0],
        };
        for point in contour {
            for axis in 0..2 {
                extent.low[axis] = extent.low[axis].min(point[axis]);
                extent.high[axis] = extent.high[axis].max(point[axis]);
            }
        }
        extent
    }

    /// Whether a point may lie in the contour.
    fn has(&self, point: [i32; 2]) -> bool {
        let [x, y] = point;
        let ([left, low], [right, high]) = (self.low, self.high);
        left <= x && x < right && low <= y && y < high
    }
}

fn lies_in(point: [i32; 2], contour: &[[i32; 2]]) -> bool {
    let mut inside = false;
    let mut before = contour[contour.len() - 1];
    for &next in contour {
        inside ^= counts(point, before, next);
        before = next;
    }
    inside
}

/// Whether the edge between two points counts for another.
fn counts(point: [i32; 2], from: [i32; 2], to: [i32; 2]) -> bool {
    let is_upward = from[1] <= point[1];
    if is_upward == (to[1] <= point[1]) {
        return false;
    }
    let [[x, y], [from_x, from_y], [to_x, to_y]] = [point, from, to].map(|p| p.map(i64::from));
    let here = (x - from_x) * (to_y - from_y);
    let there = (to_x - from_x) * (y - from_y);
    match is_upward {
        true => here < there,
        false => there < here,
    }
}

fn absolute_area(contour: &[[i32; 2]]) -> u64 {
    let mut doubled_area = 0;
    let mut before = contour[contour.len() - 1].map(i64::from);
    for point in contour {
        let next = point.map(i64::from);
        doubled_area += (before[0] - next[0]) * (before[1] + next[1]);
        before = next;
    }
    doubled_area.unsigned_abs()
}

#[cfg(test)]
mod tests {
    use super::*;
    use files::{random_layers, LayerDamage};
    use meshes::{Random, MAX_COORDINATE};
    use std::collections::BTreeSet;

    /// Contours on a small grid or all over the range.
    fn random_contours(random: &mut Random) -> Vec<Vec<[i32; 2]>> {
        let reach = random.choose(&[2, 3, 9, MAX_COORDINATE]);
        let point = |random: &mut Random| [(); 2].map(|()| random.within(-reach..=reach));
        (0..random.below(9))
            .map(|_| {
                let count = 2 + random.below(5);
                (0..count).map(|_| point(random)).collect()
            })
            .collect()
    }

    /// The points and ends of a random layer, now and then of one that breaks a rule.
    fn random_tables(random: &mut Random) -> (Vec<i32>, Vec<u32>) {
        let contours = if random.one_in(3) {
            let mut layers = random_layers(random);
            LayerDamage::any(random).apply(&mut layers, random);
            layers.pop().unwrap_or_default().contours
        } else {
            random_contours(random)
        };
        let (mut points, mut ends) = (Vec::new(), Vec::new());
        for contour in contours {
            points.extend(contour.concat());
            ends.push(points.len() as u32 / 2);
        }
        (points, ends)
    }

    type Nesting = fn(GivenLayer, &mut NestTables) -> Result<(), Refusal>;

    /// The answer, and what it leaves in both tables.
    fn run(
        nesting: Nesting,
        layer: GivenLayer,
        lengths: [usize; 2],
    ) -> (Result<(), Refusal>, [Vec<u32>; 2]) {
        let [mut depths, mut parents] = lengths.map(|length| vec![7; length]);
        let mut tables = NestTables {
            depths: &mut depths,
            parents: &mut parents,
        };
        let answer = nesting(layer, &mut tables);
        (answer, [depths, parents])
    }

    #[test]
    fn it_does_what_the_library_does() {
        let mut met = BTreeSet::new();
        let mut deepest = 0;
        for round in 0..5000 {
            let mut random = Random::of_round(1, round);
            let (points, ends) = random_tables(&mut random);
            let layer = GivenLayer {
                points: &points,
                ends: &ends,
            };
            let mut lengths = [ends.len(); 2].map(|length| length + random.below(3));
            if random.one_in(8) {
                lengths[random.below(2)] /= 2;
            }
            let expected = run(wadroles::nesting, layer, lengths);
            assert_eq!(run(nesting, layer, lengths), expected, "round {round}");
            if expected.0.is_ok() {
                let depths = expected.1[0].iter().take(ends.len());
                deepest = deepest.max(depths.max().copied().unwrap_or(0));
            }
            met.insert(expected.0.map_or_else(|refusal| refusal.number, |()| 0));
        }
        assert!(met.into_iter().eq([0, 1, 2, 9]));
        assert!(deepest > 2, "{deepest}");
    }
}
