use crate::mesh::refuse_out_of_range;
use crate::refusal::{refuse_if, Refusal};

const MOST_POINTS: usize = 98_304;

/// The operation "Area" of the specification.
pub fn area(points: &[i32]) -> Result<i64, Refusal> {
    refuse_if(1, !points.len().is_multiple_of(2))?;
    refuse_if(1, points.len() / 2 > MOST_POINTS)?;
    refuse_out_of_range(points)?;

    let points: Vec<[i32; 2]> = points.chunks_exact(2).map(|p| [p[0], p[1]]).collect();
    Ok(i64::try_from(doubled_area(&points)).expect("98,304 terms of at most 2^41"))
}

/// The doubled signed area of a run of points.
pub(crate) fn doubled_area(points: &[[i32; 2]]) -> i128 {
    let followers = points.iter().cycle().skip(1);
    points
        .iter()
        .zip(followers)
        .map(|(&point, &follower)| cross(point, follower))
        .sum()
}

/// The term x × y′ − x′ × y of a point and the next.
pub(crate) fn cross(point: [i32; 2], next: [i32; 2]) -> i128 {
    let ([x, y], [next_x, next_y]) = (point.map(i128::from), next.map(i128::from));
    x * next_y - next_x * y
}

#[cfg(test)]
mod tests {
    use super::*;
    use crate::mesh::COORDINATES;
    use meshes::Random;

    fn refused(points: &[i32]) -> (u32, u64) {
        let refusal = area(points).unwrap_err();
        (refusal.number, refusal.place)
    }

    #[test]
    fn areas_are_doubled_and_signed() {
        assert_eq!(area(&[5, 0, 0, 5, 0, 0]), Ok(25));
        assert_eq!(area(&[0, 0, 0, 5, 5, 0]), Ok(-25));
        assert_eq!(area(&[-3, -3, 4, -3, 4, 4, -3, 4]), Ok(98));
    }

    #[test]
    fn fewer_than_three_points_have_no_area() {
        assert_eq!(area(&[]), Ok(0));
        assert_eq!(area(&[7, -9]), Ok(0));
        assert_eq!(area(&[7, -9, 3, 4]), Ok(0));
    }

    #[test]
    fn refusals_name_the_least_place() {
        assert_eq!(refused(&[1]), (1, 0));
        assert_eq!(refused(&[0; 2 * 98_304 + 1]), (1, 0));
        assert_eq!(refused(&[0; 2 * 98_305]), (1, 0));
        assert_eq!(area(&[0; 2 * 98_304]), Ok(0));
        assert_eq!(refused(&[0, 1_048_577, -1_048_577, 0]), (2, 1));
        assert_eq!(refused(&[0, 1_048_576, -1_048_577, 0]), (2, 2));
    }

    #[test]
    fn the_triangles_at_the_first_point_have_the_same_sum() {
        for round in 0..1000 {
            let mut random = Random::of_round(1, round);
            let points: Vec<i32> = (0..2 * random.below(20))
                .map(|_| random.within(COORDINATES))
                .collect();
            let from_first = |i: usize| {
                [0, 1].map(|axis| i128::from(points[2 * i + axis]) - i128::from(points[axis]))
            };
            let triangles = (2..points.len() / 2).map(|i| {
                let ([x, y], [next_x, next_y]) = (from_first(i - 1), from_first(i));
                x * next_y - next_x * y
            });
            assert_eq!(area(&points).map(i128::from), Ok(triangles.sum()));
        }
    }
}
