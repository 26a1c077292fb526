use crate::answer::answer;
use crate::raw::wadroles_cut;
use crate::{Counts, CutTables, PairedMesh, Refusal};

/// Cuts a mesh at a height.
///
/// The contours of the layer are closed, with the solid on the left seen from above. A contour
/// names the corners whose edges lead up through the height, from a vertex with z < `h` to one with
/// z ≥ `h`; each point is where the edge meets the height, rounded to the nearest whole number,
/// halves away from zero. A contour starts at its least corner, and contours stand by first corner.
/// Equal neighbouring points are kept. [`contour`](crate::contour()) gives the points of one of
/// them.
///
/// The mesh with x (or y) of every vertex negated has, at each height, the same names and ends, and
/// the same points with x (or y) negated. It is inside out as it stands; if you turn its triangles
/// round as well, the rings run backwards.
///
/// The pairing may come from anyone; [`check`](crate::check()) makes one. It is tested, and its
/// entries beyond one per corner are ignored.
///
/// `names`, `points` and `ends` are filled as far as the [`Counts`] say, and `marks` is zero in
/// one entry per corner. All other entries stay.
///
/// # Errors
///
/// The cut is refused for the first of these reasons that applies, at the least place that fits:
///
/// | number | reason | place |
/// |--------|--------|-------|
/// | 1 | a table length of the mesh is not a multiple of three, or a count is above its limit | 0 |
/// | 9 | `names`, `ends` or `marks` has less than one entry per corner, or `points` than two | 0 |
/// | 2 | a coordinate is out of range | its position |
/// | 3 | a corner names no vertex | the corner |
/// | 4 | a triangle names a vertex twice | its first corner |
/// | 7 | a corner's entry in the pairing is missing, is no corner, lacks the reverse edge or is not paired back | the corner |
/// | 16 | a walk meets a crossing already used that is not its start | that crossing |
///
/// After 16 the entries asked for under 9 are zero in all four tables. After the others all stay.
///
/// # Example
///
/// ```
/// use wadroles::{cut, Counts, CutTables, Mesh, PairedMesh, Refusal};
///
/// let mesh = Mesh {
///     coords: &[0, 0, 0, 10, 0, 0, 0, 10, 0, 0, 0, 10],
///     corners: &[0, 2, 1, 0, 1, 3, 0, 3, 2, 1, 2, 3],
/// };
/// let paired = PairedMesh { mesh, pairing: &[8, 9, 3, 2, 11, 6, 5, 10, 0, 1, 7, 4] };
/// let mut tables = CutTables {
///     names: &mut [0; 12],
///     points: &mut [0; 24],
///     ends: &mut [0; 12],
///     marks: &mut [0; 12],
/// };
///
/// let counts = cut(paired, 5, &mut tables)?;
/// assert_eq!(counts, Counts { contours: 1, points: 3 });
/// assert_eq!(tables.names[..3], [4, 10, 6]);
/// assert_eq!(tables.points[..6], [5, 0, 0, 5, 0, 0]);
/// assert_eq!(tables.ends[..1], [3]);
/// # Ok::<(), Refusal>(())
/// ```
pub fn cut(paired: PairedMesh<'_>, h: i32, tables: &mut CutTables<'_>) -> Result<Counts, Refusal> {
    let PairedMesh { mesh, pairing } = paired;
    // SAFETY: the pointers and lengths are those of slices, the four written ones are borrowed
    // exclusively, and `out` points to four words.
    answer(|out| unsafe {
        wadroles_cut(
            mesh.coords.as_ptr(),
            mesh.coords.len(),
            mesh.corners.as_ptr(),
            mesh.corners.len(),
            pairing.as_ptr(),
            pairing.len(),
            h,
            tables.names.as_mut_ptr(),
            tables.names.len(),
            tables.points.as_mut_ptr(),
            tables.points.len(),
            tables.ends.as_mut_ptr(),
            tables.ends.len(),
            tables.marks.as_mut_ptr(),
            tables.marks.len(),
            out,
        )
    })
    .map(|[contours, points, ..]| Counts::of_words(contours, points))
}
