use crate::answer::answer;
use crate::profile::Profile;
use crate::raw::{wadroles_all_layers, wadroles_all_layers_clean};
use crate::{OrderedMesh, PairedMesh, Refusal, WorkTables};

/// Sweeps a mesh over all heights, writes the layer file of what that gives, and returns the length
/// of the file.
///
/// The file holds, byte by byte, the layers that [`cut`](crate::cut()) gives at each height;
/// [`read_layer`](crate::read_layer()) reads them back. Output past the file stays.
///
/// Heights rise strictly, and there are at most [`MAX_LAYERS`](crate::MAX_LAYERS). Where `heights`
/// is empty, the default is taken: the lowest z + 50 and every 100 after it, only those not above
/// the highest z; without vertices, none.
///
/// A file of `n` layers with `k` points in all has at most `2 + 8 * n + 8 * k + k / 2` bytes, and a
/// layer has at most one point for each triangle. An output that is too short is left as it was, so
/// a caller may also try again with a longer one.
///
/// # Errors
///
/// The sweep is refused for the first of these reasons that applies, at the least place that fits:
///
/// | number | reason | place |
/// |--------|--------|-------|
/// | 1 | a table length of the mesh is not a multiple of three, or a count is above its limit; or there are too many heights, default ones counted | 0 |
/// | 9 | `names`, `ends`, `marks` or `ring` has less than one entry per corner, or `points` than two | 0 |
/// | 2 | a coordinate is out of range | its position |
/// | 3 | a corner names no vertex | the corner |
/// | 4 | a triangle names a vertex twice | its first corner |
/// | 7 | a corner's entry in the pairing is missing, is no corner, lacks the reverse edge or is not paired back | the corner |
/// | 8 | an entry of the order is missing or wrong | its position |
/// | 12 | a height is not above its forerunner | its position |
/// | 16 | a walk meets a crossing already used that is not its start | that crossing |
/// | 14 | `output` is shorter than the file | 0 |
///
/// After success, 16 and 14 the work tables are zero in the entries asked for under 9; after the
/// others they stay. After a refusal all of the output stays.
///
/// # Example
///
/// ```
/// use wadroles::{all_layers, CutTables, Mesh, OrderedMesh, PairedMesh, Refusal, WorkTables};
///
/// let mesh = Mesh {
///     coords: &[0, 0, 0, 10, 0, 0, 0, 10, 0, 0, 0, 10],
///     corners: &[0, 2, 1, 0, 1, 3, 0, 3, 2, 1, 2, 3],
/// };
/// let paired = PairedMesh { mesh, pairing: &[8, 9, 3, 2, 11, 6, 5, 10, 0, 1, 7, 4] };
/// let ordered = OrderedMesh { paired, order: &[0, 1, 2, 3] };
/// let cut = CutTables {
///     names: &mut [0; 12],
///     points: &mut [0; 24],
///     ends: &mut [0; 12],
///     marks: &mut [0; 12],
/// };
/// let mut work = WorkTables { cut, ring: &mut [0; 12] };
/// let mut output = [0xFF; 24];
///
/// let length = all_layers(ordered, &[0, 5, 10, 11], &mut work, &mut output)?;
/// assert_eq!(length, 23);
/// assert_eq!(output[..5], [0x04, 0x00, 0x00, 0x0A, 0x01]);
/// assert_eq!(output[23], 0xFF);
/// # Ok::<(), Refusal>(())
/// ```
pub fn all_layers(
    ordered: OrderedMesh<'_>,
    heights: &[i32],
    work: &mut WorkTables<'_>,
    output: &mut [u8],
) -> Result<usize, Refusal> {
    file_in(Profile::Full, ordered, heights, work, output)
}

/// Sweeps a mesh over all heights, writes the layer file of what that gives in the clean profile, and
/// returns the length of the file.
///
/// The file holds, byte by byte, what [`clean`](crate::clean()) leaves of the layers that
/// [`cut`](crate::cut()) gives at each height. A layer whose contours are all dropped stays in the
/// file, with no contour. [`read_layer`](crate::read_layer()) and
/// [`read_layer_clean`](crate::read_layer_clean()) read them back. Output past the file stays.
///
/// Heights, the default, and the length that a file may have are as in [`all_layers`]; no clean file
/// is longer than the full one.
///
/// # Errors
///
/// The reasons, their sequence and their places are those of [`all_layers`], where 14 is for the
/// length of the clean file.
///
/// After success, 16 and 14 the work tables are zero in the entries asked for under 9; after the
/// others they stay. After a refusal all of the output stays.
///
/// # Example
///
/// ```
/// use wadroles::{all_layers_clean, CutTables, Mesh, OrderedMesh, PairedMesh, Refusal, WorkTables};
///
/// let mesh = Mesh {
///     coords: &[0, 0, 0, 10, 0, 0, 0, 10, 0, 0, 0, 10],
///     corners: &[0, 2, 1, 0, 1, 3, 0, 3, 2, 1, 2, 3],
/// };
/// let paired = PairedMesh { mesh, pairing: &[8, 9, 3, 2, 11, 6, 5, 10, 0, 1, 7, 4] };
/// let ordered = OrderedMesh { paired, order: &[0, 1, 2, 3] };
/// let cut = CutTables {
///     names: &mut [0; 12],
///     points: &mut [0; 24],
///     ends: &mut [0; 12],
///     marks: &mut [0; 12],
/// };
/// let mut work = WorkTables { cut, ring: &mut [0; 12] };
/// let mut output = [0xFF; 17];
///
/// // At height 10 the plane touches the apex: three equal points, and so no contour.
/// let length = all_layers_clean(ordered, &[0, 5, 10, 11], &mut work, &mut output)?;
/// assert_eq!(length, 16);
/// assert_eq!(output[3..12], [0x0A, 0x01, 0x03, 0x0A, 0x00, 0x09, 0x0A, 0x00, 0x09]);
/// assert_eq!(output[12..], [0x14, 0x00, 0x16, 0x00, 0xFF]);
/// # Ok::<(), Refusal>(())
/// ```
pub fn all_layers_clean(
    ordered: OrderedMesh<'_>,
    heights: &[i32],
    work: &mut WorkTables<'_>,
    output: &mut [u8],
) -> Result<usize, Refusal> {
    file_in(Profile::Clean, ordered, heights, work, output)
}

fn file_in(
    profile: Profile,
    ordered: OrderedMesh<'_>,
    heights: &[i32],
    work: &mut WorkTables<'_>,
    output: &mut [u8],
) -> Result<usize, Refusal> {
    let write_file = match profile {
        Profile::Full => wadroles_all_layers,
        Profile::Clean => wadroles_all_layers_clean,
    };
    let OrderedMesh { paired, order } = ordered;
    let PairedMesh { mesh, pairing } = paired;
    let WorkTables { cut, ring } = work;
    // SAFETY: the pointers and lengths are those of slices, the six written ones are borrowed
    // exclusively, and `out` points to four words. Both functions ask no more.
    answer(|out| unsafe {
        write_file(
            mesh.coords.as_ptr(),
            mesh.coords.len(),
            mesh.corners.as_ptr(),
            mesh.corners.len(),
            pairing.as_ptr(),
            pairing.len(),
            order.as_ptr(),
            order.len(),
            heights.as_ptr(),
            heights.len(),
            cut.names.as_mut_ptr(),
            cut.names.len(),
            cut.points.as_mut_ptr(),
            cut.points.len(),
            cut.ends.as_mut_ptr(),
            cut.ends.len(),
            cut.marks.as_mut_ptr(),
            cut.marks.len(),
            ring.as_mut_ptr(),
            ring.len(),
            output.as_mut_ptr(),
            output.len(),
            out,
        )
    })
    .map(|[length, ..]| length as usize)
}
