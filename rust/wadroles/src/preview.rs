use crate::answer::answer;
use crate::raw::{wadroles_preview, wadroles_preview_run};
use crate::Refusal;

/// The points and ends of a layer, as [`cut`](crate::cut()), [`layer`](crate::layer()) and
/// [`read_layer`](crate::read_layer()) write them. Lend the filled parts of both tables, so that old
/// entries are not taken for the layer's.
#[derive(Clone, Copy, Debug, Default, PartialEq, Eq, Hash)]
pub struct GivenLayer<'a> {
    /// The points of the contours, x and y of each.
    pub points: &'a [i32],
    /// For each contour, the number of points up to its end.
    pub ends: &'a [u32],
}

/// Where the origin of the plate is drawn. Both coordinates are whole numbers, and not farther than
/// [`MAX_COORDINATE`](crate::MAX_COORDINATE) from zero; −0.0 is 0.
#[derive(Clone, Copy, Debug, Default, PartialEq)]
pub struct Origin {
    /// What is added to the x of each point.
    pub x: f32,
    /// What is added to the y of each point.
    pub y: f32,
}

/// A call with which a screen draws.
#[derive(Clone, Copy, Debug, PartialEq)]
pub enum PathCall {
    /// Move to the point x and y.
    Move(f32, f32),
    /// Draw a line to the point x and y.
    Line(f32, f32),
    /// Close the contour.
    Close,
}

/// The tables that a run of calls is written into. They cannot overlap, which the library asks of its
/// callers: they are borrowed exclusively.
#[derive(Debug)]
pub struct CallTables<'a> {
    /// The kinds of the calls: 0 for a move, 1 for a line, 2 for a close. Takes one entry per call.
    pub kinds: &'a mut [u8],
    /// x and y of the moves and lines. Takes two entries per call; those of a close stay.
    pub xy: &'a mut [f32],
}

/// Call `number` (from 0) of those that draw a layer, or none past the last.
///
/// Each contour, in the order of the ends, is a move to its first point, a line to each later point
/// and a close. Moves and lines carry x and y of their point after the origin's have been added.
/// Every sum is exact, and the origin taken off again gives back the point. A sum of 0 is 0.0, never
/// −0.0.
///
/// The whole layer is tested each time, so to fetch every call singly takes time by calls times
/// points: take runs, with [`preview_run`].
///
/// # Errors
///
/// The call is refused for the first of these reasons that applies, at the least place that fits:
///
/// | number | reason | place |
/// |--------|--------|-------|
/// | 17 | a coordinate of the origin is not a whole number, or out of range | 0 |
/// | 1 | the length of the points is odd, there are more than [`MAX_POINTS`](crate::MAX_POINTS) points, the ends do not rise from 0 by two or more, or the last (0 if there is none) is not the number of points | 0 |
/// | 2 | a number is out of the range of coordinates | its position |
///
/// # Example
///
/// ```
/// use wadroles::{preview, GivenLayer, Origin, PathCall, Refusal};
///
/// let layer = GivenLayer { points: &[5, 0, 0, 5, 0, 0], ends: &[3] };
/// let origin = Origin { x: 100.0, y: -20.0 };
/// assert_eq!(preview(layer, origin, 0), Ok(Some(PathCall::Move(105.0, -20.0))));
/// assert_eq!(preview(layer, origin, 1), Ok(Some(PathCall::Line(100.0, -15.0))));
/// assert_eq!(preview(layer, origin, 3), Ok(Some(PathCall::Close)));
/// assert_eq!(preview(layer, origin, 4), Ok(None));
///
/// let refusal = preview(layer, Origin { x: 0.5, y: 0.0 }, 0).unwrap_err();
/// assert_eq!((refusal.number, refusal.place), (Refusal::ORIGIN, 0));
/// ```
pub fn preview(
    layer: GivenLayer<'_>,
    origin: Origin,
    number: usize,
) -> Result<Option<PathCall>, Refusal> {
    let mut xy = [0.0; 2];
    // SAFETY: the pointers and lengths are those of slices, `xy` has two entries of its own, and
    // `out` points to four words.
    let [kind, ..] = answer(|out| unsafe {
        wadroles_preview(
            layer.points.as_ptr(),
            layer.points.len(),
            layer.ends.as_ptr(),
            layer.ends.len(),
            origin.x,
            origin.y,
            number,
            xy.as_mut_ptr(),
            out,
        )
    })?;
    let [x, y] = xy;
    Ok(match kind {
        0 => Some(PathCall::Move(x, y)),
        1 => Some(PathCall::Line(x, y)),
        2 => Some(PathCall::Close),
        _ => None,
    })
}

/// A run of the calls that [`preview`] gives, from call `number` on: how many of them it filled into
/// the first entries of the tables.
///
/// It fills as many calls as are left, as `kinds` has entries, and as `xy` has pairs of entries,
/// whichever is least: a short table is not refused. The two floats of a close stay, and so do later
/// entries of both tables and an odd last one of `xy`.
///
/// Each run tests the whole layer once, so the fewer runs the better: 147,456 entries of `kinds`, and
/// twice as many of `xy`, hold all calls of any layer.
///
/// # Errors
///
/// The call is refused for the first of these reasons that applies, at the least place that fits:
///
/// | number | reason | place |
/// |--------|--------|-------|
/// | 17 | a coordinate of the origin is not a whole number, or out of range | 0 |
/// | 1 | the length of the points is odd, there are more than [`MAX_POINTS`](crate::MAX_POINTS) points, the ends do not rise from 0 by two or more, or the last (0 if there is none) is not the number of points | 0 |
/// | 2 | a number is out of the range of coordinates | its position |
///
/// After a refusal both tables are as before.
///
/// # Example
///
/// ```
/// use wadroles::{preview_run, CallTables, GivenLayer, Origin, Refusal};
///
/// let layer = GivenLayer { points: &[5, 0, 0, 5, 0, 0], ends: &[3] };
/// let origin = Origin { x: 100.0, y: -20.0 };
/// let (mut kinds, mut xy) = ([9; 3], [0.0; 6]);
/// let mut tables = CallTables { kinds: &mut kinds, xy: &mut xy };
///
/// // Of four calls the tables hold three, and then the one that is left.
/// assert_eq!(preview_run(layer, origin, 0, &mut tables)?, 3);
/// assert_eq!(tables.kinds, [0, 1, 1]);
/// assert_eq!(tables.xy, [105.0, -20.0, 100.0, -15.0, 100.0, -20.0]);
/// assert_eq!(preview_run(layer, origin, 3, &mut tables)?, 1);
/// assert_eq!(tables.kinds, [2, 1, 1]);
/// # Ok::<(), Refusal>(())
/// ```
pub fn preview_run(
    layer: GivenLayer<'_>,
    origin: Origin,
    number: usize,
    tables: &mut CallTables<'_>,
) -> Result<usize, Refusal> {
    // SAFETY: the pointers and lengths are those of slices, the two written ones are borrowed
    // exclusively, and `out` points to four words.
    answer(|out| unsafe {
        wadroles_preview_run(
            layer.points.as_ptr(),
            layer.points.len(),
            layer.ends.as_ptr(),
            layer.ends.len(),
            origin.x,
            origin.y,
            number,
            tables.kinds.as_mut_ptr(),
            tables.kinds.len(),
            tables.xy.as_mut_ptr(),
            tables.xy.len(),
            out,
        )
    })
    .map(|[filled, ..]| filled as usize)
}
