//! Preview by the ends alone: the contour of a call is found by halves, and a run goes on from there.

use super::tables::{refuse, test_layer};
use wadroles::{CallTables, GivenLayer, Origin, PathCall, Refusal, MAX_COORDINATE};

/// Does what `wadroles::preview` does.
pub fn preview(
    layer: GivenLayer<'_>,
    origin: Origin,
    number: usize,
) -> Result<Option<PathCall>, Refusal> {
    test(layer, origin)?;
    let contour = contour_with(layer.ends, number);
    let Some(&end) = layer.ends.get(contour) else {
        return Ok(None);
    };
    let point = number - contour;
    if point == end as usize {
        return Ok(Some(PathCall::Close));
    }
    let (points, _) = layer.points.as_chunks::<2>();
    let [x, y] = points[point];
    let (x, y) = (x as f32 + origin.x, y as f32 + origin.y);
    Ok(Some(if point == start(layer.ends, contour) {
        PathCall::Move(x, y)
    } else {
        PathCall::Line(x, y)
    }))
}

/// Does what `wadroles::preview_run` does.
pub fn preview_run(
    layer: GivenLayer<'_>,
    origin: Origin,
    number: usize,
    tables: &mut CallTables<'_>,
) -> Result<usize, Refusal> {
    test(layer, origin)?;
    let (points, _) = layer.points.as_chunks::<2>();
    let (xy, _) = tables.xy.as_chunks_mut::<2>();
    let room = xy.len().min(tables.kinds.len());
    let (kinds, xy) = (&mut tables.kinds[..room], &mut xy[..room]);
    let mut filled = 0;
    let first = contour_with(layer.ends, number);
    let mut point = number.saturating_sub(first);
    for contour in first..layer.ends.len() {
        let (start, end) = (start(layer.ends, contour), layer.ends[contour] as usize);
        let count = (end - point).min(room - filled);
        let drawn = &points[point..point + count];
        for (pair, [x, y]) in xy[filled..filled + count].iter_mut().zip(drawn) {
            *pair = [*x as f32 + origin.x, *y as f32 + origin.y];
        }
        kinds[filled..filled + count].fill(1);
        if count > 0 && point == start {
            kinds[filled] = 0;
        }
        filled += count;
        if filled == room {
            break;
        }
        kinds[filled] = 2;
        filled += 1;
        point = end;
    }
    Ok(filled)
}

/// The contour that has a call; past the last call the number of contours.
fn contour_with(ends: &[u32], number: usize) -> usize {
    let (mut low, mut high) = (0, ends.len());
    while low < high {
        let middle = low + (high - low) / 2;
        // A contour's last call is its close.
        if ends[middle] as usize + middle < number {
            low = middle + 1;
        } else {
            high = middle;
        }
    }
    low
}

/// The first point of a contour.
fn start(ends: &[u32], contour: usize) -> usize {
    match contour {
        0 => 0,
        _ => ends[contour - 1] as usize,
    }
}

fn test(layer: GivenLayer<'_>, origin: Origin) -> Result<(), Refusal> {
    if !is_whole(origin.x) || !is_whole(origin.y) {
        return refuse(Refusal::ORIGIN, 0);
    }
    test_layer(layer)
}

/// Whether a float is a whole number in the range of coordinates. −0.0 is one, and adds as 0.0 does.
fn is_whole(x: f32) -> bool {
    x.abs() <= MAX_COORDINATE as f32 && x.trunc() == x
}

#[cfg(test)]
mod tests {
    use super::*;
    use files::{random_layers, LayerDamage};
    use meshes::Random;
    use std::collections::BTreeSet;

    /// The points and ends of a random layer, now and then of one that breaks a rule.
    fn random_tables(random: &mut Random) -> (Vec<i32>, Vec<u32>) {
        let mut layers = random_layers(random);
        if random.one_in(3) {
            LayerDamage::any(random).apply(&mut layers, random);
        }
        let contours = layers.pop().unwrap_or_default().contours;
        let (mut points, mut ends) = (Vec::new(), Vec::new());
        for contour in contours {
            points.extend(contour.concat());
            ends.push(points.len() as u32 / 2);
        }
        (points, ends)
    }

    fn random_origin(random: &mut Random) -> Origin {
        let mut side = || {
            let whole = random.within(-MAX_COORDINATE..=MAX_COORDINATE) as f32;
            match random.below(12) {
                0 => whole + 0.5,
                1 => f32::from_bits(random.word() as u32),
                2 => random.choose(&[-0.0, f32::NAN, -(MAX_COORDINATE as f32)]),
                _ => whole,
            }
        };
        Origin {
            x: side(),
            y: side(),
        }
    }

    type Run = fn(GivenLayer, Origin, usize, &mut CallTables) -> Result<usize, Refusal>;

    /// The answer, and what it leaves in both tables, floats by their bits.
    fn run(
        run: Run,
        layer: GivenLayer,
        origin: Origin,
        number: usize,
        lengths: [usize; 2],
    ) -> (Result<usize, Refusal>, Vec<u8>, Vec<u32>) {
        let (mut kinds, mut xy) = (vec![7; lengths[0]], vec![0.25; lengths[1]]);
        let mut tables = CallTables {
            kinds: &mut kinds,
            xy: &mut xy,
        };
        let answer = run(layer, origin, number, &mut tables);
        (answer, kinds, xy.into_iter().map(f32::to_bits).collect())
    }

    #[test]
    fn it_does_what_the_library_does() {
        let mut met = BTreeSet::new();
        for round in 0..5000 {
            let mut random = Random::of_round(1, round);
            let (points, ends) = random_tables(&mut random);
            let layer = GivenLayer {
                points: &points,
                ends: &ends,
            };
            let origin = random_origin(&mut random);
            let calls = points.len() / 2 + ends.len();
            let number = match random.below(8) {
                0 => usize::MAX,
                1 | 2 => 0,
                _ => random.below(calls + 3),
            };
            let expected = wadroles::preview(layer, origin, number);
            let bits = |call: Option<PathCall>| match call {
                Some(PathCall::Move(x, y)) => (0, x.to_bits(), y.to_bits()),
                Some(PathCall::Line(x, y)) => (1, x.to_bits(), y.to_bits()),
                Some(PathCall::Close) => (2, 0, 0),
                None => (3, 0, 0),
            };
            let met_here = preview(layer, origin, number).map(bits);
            assert_eq!(met_here, expected.map(bits), "round {round}");
            met.insert(expected.map_or_else(|refusal| refusal.number, |_| 0));

            let lengths = [random.below(calls + 4), random.below(2 * calls + 9)];
            let expected = run(wadroles::preview_run, layer, origin, number, lengths);
            let met_here = run(preview_run, layer, origin, number, lengths);
            assert_eq!(met_here, expected, "round {round}");
        }
        assert!(met.into_iter().eq([0, 1, 2, 17]));
    }
}
