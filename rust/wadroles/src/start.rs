use crate::answer::answer;
use crate::raw::wadroles_start;
use crate::{Mesh, Refusal};

/// Starts a sweep: a plane below the mesh, which [`step`](crate::step()) and
/// [`layer`](crate::layer()) raise. Returns the number of passed vertices, 0, for the
/// [`Sweep`](crate::Sweep).
///
/// With no vertex passed there is no crossing, so the ring table gets
/// [`NO_CORNER`](crate::NO_CORNER) in one entry per corner. Later entries stay.
///
/// Of the mesh only the sizes are tested.
///
/// # Errors
///
/// The start is refused for the first of these reasons that applies:
///
/// | number | reason | place |
/// |--------|--------|-------|
/// | 1 | a table length of the mesh is not a multiple of three, or a count is above its limit | 0 |
/// | 9 | `ring` has fewer entries than there are corners | 0 |
///
/// After a refusal the ring table is as before.
///
/// # Example
///
/// ```
/// use wadroles::{start, Mesh, Refusal, NO_CORNER};
///
/// let mesh = Mesh {
///     coords: &[0, 0, 0, 10, 0, 0, 0, 10, 0, 0, 0, 10],
///     corners: &[0, 2, 1, 0, 1, 3, 0, 3, 2, 1, 2, 3],
/// };
/// let mut ring = [7; 13];
///
/// assert_eq!(start(mesh, &mut ring)?, 0);
/// assert_eq!(ring[..12], [NO_CORNER; 12]);
/// assert_eq!(ring[12], 7);
///
/// let refusal = start(mesh, &mut ring[..11]).unwrap_err();
/// assert_eq!((refusal.number, refusal.place), (Refusal::ROOM, 0));
/// # Ok::<(), Refusal>(())
/// ```
pub fn start(mesh: Mesh<'_>, ring: &mut [u32]) -> Result<usize, Refusal> {
    // SAFETY: the pointers and lengths are those of slices, the written one is borrowed
    // exclusively, and `out` points to four words.
    answer(|out| unsafe {
        wadroles_start(
            mesh.coords.as_ptr(),
            mesh.coords.len(),
            mesh.corners.as_ptr(),
            mesh.corners.len(),
            ring.as_mut_ptr(),
            ring.len(),
            out,
        )
    })
    .map(|[passed, ..]| passed as usize)
}
