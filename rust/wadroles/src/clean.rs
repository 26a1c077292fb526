use crate::answer::answer;
use crate::raw::wadroles_clean;
use crate::{Counts, FlatLayer, GivenLayer, Refusal};

/// Cleans a layer, and returns how much of the lent tables the cleaned one fills.
///
/// Its contours are cleaned in their order, each so:
///
/// - Every point equal to the one before it is dropped, and the first is kept.
/// - Then the points at the end that equal the first are dropped.
/// - If fewer than three different points are left, the contour is dropped whole. They are counted
///   over all of it: A B A B has two.
///
/// A contour that this leaves as it is, is clean. A cleaned layer is clean, and the sum of the areas
/// of its contours is that of the layer.
///
/// Both tables are filled as far as the counts say; all other entries stay.
///
/// # Errors
///
/// The layer is refused for the first of these reasons that applies, at the least place that fits:
///
/// | number | reason | place |
/// |--------|--------|-------|
/// | 1 | the length of the points is odd, there are more than [`MAX_POINTS`](crate::MAX_POINTS) points, the ends do not rise from 0 by two or more, or the last (0 if there is none) is not the number of points | 0 |
/// | 2 | a number is out of the range of coordinates | its position |
/// | 9 | a table to be filled is shorter than that of the layer, however little is left | 0 |
///
/// After a refusal both tables are as before.
///
/// # Example
///
/// ```
/// use wadroles::{clean, Counts, FlatLayer, GivenLayer, Refusal};
///
/// // A point twice, and the first again at the end; then a contour of two points, there and back.
/// let points = [5, 0, 5, 0, 0, 5, 0, 0, 5, 0, 7, 7, 9, 9, 7, 7, 9, 9];
/// let layer = GivenLayer { points: &points, ends: &[5, 9] };
/// let mut cleaned = FlatLayer { points: &mut [-1; 18], ends: &mut [77; 2] };
///
/// assert_eq!(clean(layer, &mut cleaned)?, Counts { contours: 1, points: 3 });
/// assert_eq!(cleaned.points[..7], [5, 0, 0, 5, 0, 0, -1]);
/// assert_eq!(cleaned.ends, [3, 77]);
///
/// let mut short = FlatLayer { points: &mut [-1; 17], ends: &mut [77; 2] };
/// let refusal = clean(layer, &mut short).unwrap_err();
/// assert_eq!((refusal.number, refusal.place), (Refusal::ROOM, 0));
/// # Ok::<(), Refusal>(())
/// ```
pub fn clean(layer: GivenLayer<'_>, cleaned: &mut FlatLayer<'_>) -> Result<Counts, Refusal> {
    // SAFETY: the pointers and lengths are those of slices, the two written ones are borrowed
    // exclusively, and `out` points to four words.
    answer(|out| unsafe {
        wadroles_clean(
            layer.points.as_ptr(),
            layer.points.len(),
            layer.ends.as_ptr(),
            layer.ends.len(),
            cleaned.points.as_mut_ptr(),
            cleaned.points.len(),
            cleaned.ends.as_mut_ptr(),
            cleaned.ends.len(),
            out,
        )
    })
    .map(|[contours, points, ..]| Counts::of_words(contours, points))
}
