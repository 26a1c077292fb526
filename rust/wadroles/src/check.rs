use crate::answer::answer;
use crate::raw::wadroles_check;
use crate::{Mesh, Refusal};

/// The tables that [`check`] writes. They cannot overlap, which the library asks of its callers: they
/// are borrowed exclusively.
#[derive(Debug)]
pub struct CheckTables<'a> {
    /// For each corner its partner, a corner with the reverse edge. Needs one entry per corner.
    pub pairing: &'a mut [u32],
    /// Each vertex once, by z and then by vertex number. Needs one entry per vertex.
    pub order: &'a mut [u32],
}

/// Tests a mesh, and writes its pairing and its order into the first entries of two lent tables.
///
/// An edge may be shared by several sheets. Of the corners with a directed edge and those with the
/// reverse, both in corner order, the first are partners of each other, and so are the second, and so
/// on. Later entries of both tables stay.
///
/// # Errors
///
/// The mesh is refused for the first of these reasons that applies, at the least place that fits:
///
/// | number | reason | place |
/// |--------|--------|-------|
/// | 1 | a table length is not a multiple of three, or a count is above its limit | 0 |
/// | 9 | `pairing` has fewer entries than there are corners, or `order` than vertices | 0 |
/// | 2 | a coordinate is out of range | its position |
/// | 3 | a corner names no vertex | the corner |
/// | 4 | a triangle names a vertex twice | its first corner |
/// | 6 | a corner finds no partner: its edge has occurred as often as the reverse occurs | the corner |
///
/// After 6 the entries that success would fill are zero. After the others both tables are as before.
///
/// # Example
///
/// ```
/// use wadroles::{check, CheckTables, Mesh, Refusal};
///
/// let mesh = Mesh {
///     coords: &[0, 0, 0, 10, 0, 0, 0, 10, 0, 0, 0, 10],
///     corners: &[0, 2, 1, 0, 1, 3, 0, 3, 2, 1, 2, 3],
/// };
/// let mut tables = CheckTables { pairing: &mut [0; 12], order: &mut [0; 4] };
///
/// check(mesh, &mut tables)?;
/// assert_eq!(tables.pairing, [8, 9, 3, 2, 11, 6, 5, 10, 0, 1, 7, 4]);
/// assert_eq!(tables.order, [0, 1, 2, 3]);
///
/// let open = Mesh { corners: &mesh.corners[..9], ..mesh };
/// let refusal = check(open, &mut tables).unwrap_err();
/// assert_eq!((refusal.number, refusal.place), (Refusal::OPEN, 1));
/// # Ok::<(), Refusal>(())
/// ```
pub fn check(mesh: Mesh<'_>, tables: &mut CheckTables<'_>) -> Result<(), Refusal> {
    // SAFETY: the pointers and lengths are those of slices, the two written ones are borrowed
    // exclusively, and `out` points to four words.
    answer(|out| unsafe {
        wadroles_check(
            mesh.coords.as_ptr(),
            mesh.coords.len(),
            mesh.corners.as_ptr(),
            mesh.corners.len(),
            tables.pairing.as_mut_ptr(),
            tables.pairing.len(),
            tables.order.as_mut_ptr(),
            tables.order.len(),
            out,
        )
    })
    .map(|_no_values| ())
}
