use crate::answer::answer;
use crate::raw::wadroles_contour;

/// The points of contour `j`, x and y of each: the part of `points` from the previous end (0 for
/// the first contour) to its own.
///
/// `ends` are counts of points, as [`cut`](crate::cut()) writes them; lend it the filled part, so
/// that old entries are not taken for ends. Where `j` has no end, or the two ends fall or pass the
/// table, the part is empty. It is never refused.
///
/// # Example
///
/// ```
/// use wadroles::contour;
///
/// let points = [5, 0, 0, 5, 0, 0, 7, 7, 9, 9];
/// assert_eq!(contour(&points, &[3, 5], 0), [5, 0, 0, 5, 0, 0]);
/// assert_eq!(contour(&points, &[3, 5], 1), [7, 7, 9, 9]);
/// assert!(contour(&points, &[3, 5], 2).is_empty());
/// assert!(contour(&points, &[3, 6], 1).is_empty());
/// ```
pub fn contour<'a>(points: &'a [i32], ends: &[u32], j: usize) -> &'a [i32] {
    // SAFETY: the pointers and lengths are those of slices, and `out` points to four words.
    let answer = answer(|out| unsafe {
        wadroles_contour(
            points.as_ptr(),
            points.len(),
            ends.as_ptr(),
            ends.len(),
            j,
            out,
        )
    });
    let [first, length, ..] = answer.expect("contour has no refusals");
    let first = first as usize;
    &points[first..first + length as usize]
}
