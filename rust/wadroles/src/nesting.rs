use crate::answer::answer;
use crate::raw::wadroles_nesting;
use crate::{GivenLayer, Refusal};

/// The tables that [`nesting`] writes. They cannot overlap, which the library asks of its callers: they
/// are borrowed exclusively.
#[derive(Debug)]
pub struct NestTables<'a> {
    /// For each contour, the number of other contours that it lies in. Needs one entry per contour.
    pub depths: &'a mut [u32],
    /// For each contour, the smallest of those, or [`NO_PARENT`](crate::NO_PARENT). Needs one entry
    /// per contour.
    pub parents: &'a mut [u32],
}

/// Finds for each contour of a layer its depth and its parent, and writes them into the first entries
/// of two lent tables.
///
/// An edge of a contour goes from a point to the next, the last to the first. It counts for a point p
/// if exactly one of its ends has y not above that of p, and the exact place where it meets the level
/// of p is right of p: its x is above that of p, not equal. p lies in the contour if an odd number of
/// its edges count.
///
/// The depth of a contour is the number of other contours that its first point lies in. Its parent is
/// the one of these with the smallest absolute area, at a tie the one of the lower number, and
/// [`NO_PARENT`](crate::NO_PARENT) where there is none.
///
/// Contours may cross, touch and be equal. Two equal squares that start at their lower left corners lie
/// in each other, and each is the parent of the other. Later entries of both tables stay.
///
/// # Errors
///
/// The layer is refused for the first of these reasons that applies, at the least place that fits:
///
/// | number | reason | place |
/// |--------|--------|-------|
/// | 1 | the length of the points is odd, there are more than [`MAX_POINTS`](crate::MAX_POINTS) points, the ends do not rise from 0 by two or more, or the last (0 if there is none) is not the number of points | 0 |
/// | 2 | a number is out of the range of coordinates | its position |
/// | 9 | a table to be filled has fewer entries than there are contours | 0 |
///
/// After a refusal both tables are as before.
///
/// # Example
///
/// ```
/// use wadroles::{nesting, GivenLayer, NestTables, Refusal, NO_PARENT};
///
/// // A square, a triangle in it, and another square beside them.
/// let points = [0, 0, 9, 0, 9, 9, 0, 9, 2, 2, 5, 2, 2, 5, 20, 0, 25, 0, 25, 5, 20, 5];
/// let layer = GivenLayer { points: &points, ends: &[4, 7, 11] };
/// let mut tables = NestTables { depths: &mut [77; 4], parents: &mut [77; 4] };
///
/// nesting(layer, &mut tables)?;
/// assert_eq!(tables.depths, [0, 1, 0, 77]);
/// assert_eq!(tables.parents, [NO_PARENT, 0, NO_PARENT, 77]);
///
/// let mut short = NestTables { depths: &mut [77; 3], parents: &mut [77; 2] };
/// let refusal = nesting(layer, &mut short).unwrap_err();
/// assert_eq!((refusal.number, refusal.place), (Refusal::ROOM, 0));
/// assert_eq!(short.depths, [77; 3]);
/// # Ok::<(), Refusal>(())
/// ```
pub fn nesting(layer: GivenLayer<'_>, tables: &mut NestTables<'_>) -> Result<(), Refusal> {
    // SAFETY: the pointers and lengths are those of slices, the two written ones are borrowed
    // exclusively, and `out` points to four words.
    answer(|out| unsafe {
        wadroles_nesting(
            layer.points.as_ptr(),
            layer.points.len(),
            layer.ends.as_ptr(),
            layer.ends.len(),
            tables.depths.as_mut_ptr(),
            tables.depths.len(),
            tables.parents.as_mut_ptr(),
            tables.parents.len(),
            out,
        )
    })
    .map(|_no_values| ())
}
