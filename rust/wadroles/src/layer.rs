use crate::answer::answer;
use crate::raw::wadroles_layer;
use crate::{Counts, CutTables, OrderedMesh, PairedMesh, Refusal, Sweep};

/// Rises to the height `h` and gives the layer there.
///
/// It passes vertices, as [`step`](crate::step()) does, until no unpassed vertex has z < `h`, and
/// takes the contours out of the ring table. The sweep then has the ring table and the count of the
/// vertices passed; `tables` are filled as [`cut`](crate::cut()) fills them at that height. All other
/// entries stay. The same height may be asked twice.
///
/// # Errors
///
/// The rise is refused for the first of these reasons that applies, at the least place that fits:
///
/// | number | reason | place |
/// |--------|--------|-------|
/// | 1 | a table length of the mesh is not a multiple of three, or a count is above its limit | 0 |
/// | 9 | `names`, `ends` or `marks` has less than one entry per corner, or `points` than two | 0 |
/// | 2 | a coordinate is out of range | its position |
/// | 3 | a corner names no vertex | the corner |
/// | 4 | a triangle names a vertex twice | its first corner |
/// | 7 | a corner's entry in the pairing is missing, is no corner, lacks the reverse edge or is not paired back | the corner |
/// | 8 | an entry of the order is missing or wrong | its position |
/// | 10 | more vertices are passed than there are | 0 |
/// | 11 | a corner's entry in the ring table is missing, or is not the one for the passed vertices | the corner |
/// | 12 | a passed vertex has z ≥ `h` | 0 |
/// | 16 | a walk meets a crossing already used that is not its start | that crossing |
///
/// After a refusal the sweep is as before. After 16 the entries asked for under 9 are zero in the
/// tables of the layer; after the others all stay.
///
/// # Example
///
/// ```
/// use wadroles::{layer, start, Counts, CutTables, Mesh, OrderedMesh, PairedMesh, Refusal, Sweep};
///
/// let mesh = Mesh {
///     coords: &[0, 0, 0, 10, 0, 0, 0, 10, 0, 0, 0, 10],
///     corners: &[0, 2, 1, 0, 1, 3, 0, 3, 2, 1, 2, 3],
/// };
/// let paired = PairedMesh { mesh, pairing: &[8, 9, 3, 2, 11, 6, 5, 10, 0, 1, 7, 4] };
/// let ordered = OrderedMesh { paired, order: &[0, 1, 2, 3] };
/// let mut tables = CutTables {
///     names: &mut [0; 12],
///     points: &mut [0; 24],
///     ends: &mut [0; 12],
///     marks: &mut [0; 12],
/// };
/// let mut ring = [0; 12];
/// let passed = start(mesh, &mut ring)?;
/// let mut sweep = Sweep { ordered, ring: &mut ring, passed };
///
/// for h in [0, 5, 10, 11] {
///     let counts = layer(&mut sweep, h, &mut tables)?;
///     if h == 5 {
///         assert_eq!(counts, Counts { contours: 1, points: 3 });
///         assert_eq!(tables.points[..6], [5, 0, 0, 5, 0, 0]);
///         assert_eq!([sweep.ring[4], sweep.ring[10], sweep.ring[6]], [10, 6, 4]);
///     }
/// }
/// assert_eq!(sweep.passed, 4);
/// # Ok::<(), Refusal>(())
/// ```
pub fn layer(sweep: &mut Sweep<'_>, h: i32, tables: &mut CutTables<'_>) -> Result<Counts, Refusal> {
    let OrderedMesh { paired, order } = sweep.ordered;
    let PairedMesh { mesh, pairing } = paired;
    // SAFETY: the pointers and lengths are those of slices, the five written ones are borrowed
    // exclusively, and `out` points to four words.
    let [passed, contours, points, _] = answer(|out| unsafe {
        wadroles_layer(
            mesh.coords.as_ptr(),
            mesh.coords.len(),
            mesh.corners.as_ptr(),
            mesh.corners.len(),
            pairing.as_ptr(),
            pairing.len(),
            order.as_ptr(),
            order.len(),
            sweep.ring.as_mut_ptr(),
            sweep.ring.len(),
            sweep.passed,
            h,
            tables.names.as_mut_ptr(),
            tables.names.len(),
            tables.points.as_mut_ptr(),
            tables.points.len(),
            tables.ends.as_mut_ptr(),
            tables.ends.len(),
            tables.marks.as_mut_ptr(),
            tables.marks.len(),
            out,
        )
    })?;
    sweep.passed = passed as usize;
    Ok(Counts::of_words(contours, points))
}
