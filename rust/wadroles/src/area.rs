use crate::answer::answer;
use crate::raw::wadroles_area;
use crate::Refusal;

/// The doubled signed area of a run of points, x and y of each: the sum of x × y′ − x′ × y over
/// each point and the next, closed round. It is above zero for a run that goes round
/// counterclockwise.
///
/// # Errors
///
/// The run is refused for the first of these reasons that applies, at the least place that fits:
///
/// | number | reason | place |
/// |--------|--------|-------|
/// | 1 | the length is odd, or there are more than [`MAX_POINTS`](crate::MAX_POINTS) points | 0 |
/// | 2 | a number is out of the range of coordinates | its position |
///
/// # Example
///
/// ```
/// use wadroles::{area, Refusal};
///
/// assert_eq!(area(&[5, 0, 0, 5, 0, 0]), Ok(25));
/// assert_eq!(area(&[0, 0, 0, 5, 5, 0]), Ok(-25));
///
/// let refusal = area(&[5, 0, 0, 2_000_000]).unwrap_err();
/// assert_eq!((refusal.number, refusal.place), (Refusal::RANGE, 3));
/// ```
pub fn area(points: &[i32]) -> Result<i64, Refusal> {
    // SAFETY: pointer and length are those of a slice, and `out` points to four words.
    answer(|out| unsafe { wadroles_area(points.as_ptr(), points.len(), out) })
        .map(|[doubled_area, ..]| doubled_area as i64)
}
