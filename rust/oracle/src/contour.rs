/// The operation "Contour j" of the specification.
pub fn contour<'a>(points: &'a [i32], ends: &[u32], j: usize) -> &'a [i32] {
    let Some(&end) = ends.get(j) else {
        return &[];
    };
    let previous_end = if j == 0 { 0 } else { ends[j - 1] };
    let part = 2 * previous_end as usize..2 * end as usize;
    points.get(part).unwrap_or_default()
}

#[cfg(test)]
mod tests {
    use super::*;

    const POINTS: [i32; 10] = [10, 11, 20, 21, 30, 31, 40, 41, 50, 51];

    #[test]
    fn contours_lie_between_their_ends() {
        let ends = [2, 2, 5];
        assert_eq!(contour(&POINTS, &ends, 0), [10, 11, 20, 21]);
        assert_eq!(contour(&POINTS, &ends, 1), []);
        assert_eq!(contour(&POINTS, &ends, 2), [30, 31, 40, 41, 50, 51]);
    }

    #[test]
    fn without_an_end_the_part_is_empty() {
        assert_eq!(contour(&POINTS, &[2, 5], 2), []);
        assert_eq!(contour(&POINTS, &[2, 5], usize::MAX), []);
        assert_eq!(contour(&POINTS, &[], 0), []);
    }

    #[test]
    fn where_ends_fall_the_part_is_empty() {
        let ends = [4, 1, 3];
        assert_eq!(contour(&POINTS, &ends, 1), []);
        assert_eq!(contour(&POINTS, &ends, 2), [20, 21, 30, 31]);
    }

    #[test]
    fn where_an_end_passes_the_table_the_part_is_empty() {
        for past in [6, 7, u32::MAX] {
            assert_eq!(contour(&POINTS, &[1, past], 1), []);
            assert_eq!(contour(&POINTS, &[past, past], 1), []);
            assert_eq!(contour(&POINTS, &[past, 3], 1), []);
        }
        assert_eq!(contour(&POINTS[..9], &[5], 0), []);
        assert_eq!(contour(&POINTS[..9], &[4], 0), &POINTS[..8]);
    }
}
