//! Area by a plain loop.

use super::tables::{refuse, test_range};
use wadroles::{Refusal, MAX_POINTS};

/// Does what `wadroles::area` does.
pub fn area(points: &[i32]) -> Result<i64, Refusal> {
    if !points.len().is_multiple_of(2) || points.len() / 2 > MAX_POINTS {
        return refuse(Refusal::SIZE, 0);
    }
    test_range(points)?;
    let (points, _) = points.as_chunks::<2>();
    let Some(last) = points.last() else {
        return Ok(0);
    };
    let mut doubled_area = 0;
    let mut before = last;
    for point in points {
        let [(x, y), (next_x, next_y)] =
            [before, point].map(|[x, y]| (i64::from(*x), i64::from(*y)));
        doubled_area += x * next_y - next_x * y;
        before = point;
    }
    Ok(doubled_area)
}

#[cfg(test)]
mod tests {
    use super::*;
    use meshes::{Random, MAX_COORDINATE};
    use std::collections::BTreeSet;

    #[test]
    fn it_does_what_the_library_does() {
        let mut met = BTreeSet::new();
        for round in 0..5000 {
            let mut random = Random::of_round(1, round);
            let reach = MAX_COORDINATE + random.choose(&[0, 0, 100_000]);
            let points: Vec<i32> = (0..random.below(20))
                .map(|_| random.within(-reach..=reach))
                .collect();
            let expected = wadroles::area(&points);
            assert_eq!(area(&points), expected, "round {round}");
            met.insert(expected.map_or_else(|refusal| refusal.number, |_| 0));
        }
        assert!(met.into_iter().eq([0, 1, 2]));
    }
}
