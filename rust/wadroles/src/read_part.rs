use crate::answer::answer;
use crate::raw::wadroles_read_part;
use crate::Refusal;

/// The tables that a part file is read into. They cannot overlap, which the library asks of its
/// callers: they are borrowed exclusively.
#[derive(Debug)]
pub struct Part<'a> {
    /// The coordinates of the mesh. Needs three entries per vertex.
    pub coords: &'a mut [i32],
    /// The corners of the mesh. Needs three entries per triangle.
    pub corners: &'a mut [u32],
    /// The heights to cut it at. Needs one entry per height.
    pub heights: &'a mut [i32],
}

/// How much of the lent tables a part fills.
#[derive(Clone, Copy, Debug, Default, PartialEq, Eq, Hash)]
pub struct PartCounts {
    /// The number of vertices; `coords` has three times as many entries.
    pub vertices: usize,
    /// The number of triangles; `corners` has three times as many entries.
    pub triangles: usize,
    /// The number of heights, and of entries in `heights`.
    pub heights: usize,
}

/// Reads a part file: a mesh, and the heights to cut it at.
///
/// The three tables are filled as far as the [`PartCounts`] say; all other entries stay.
///
/// A part file has its vertex count and its triangle count, the coordinates, the corners, the
/// height count and the heights. Numbers are written as in a [layer file](crate::read_layer());
/// coordinates and heights are signed. Nothing but the form of the values is tested here: a part
/// may be larger than a mesh may be, and its mesh may be wrong in any way. [`check`](crate::check())
/// tests the mesh.
///
/// # Errors
///
/// The file is refused for the first of these reasons that applies:
///
/// | number | reason | place |
/// |--------|--------|-------|
/// | 13 | a value is missing, cut short, too long or over 32 bits, or a byte is left over after the last value | the first byte of the first such value, for a missing one the length of the file; or the first byte left over |
/// | 9 | `coords` has less than three entries per vertex, `corners` than three per triangle, or `heights` than one per height | 0 |
///
/// After a refusal all three tables are as before.
///
/// # Example
///
/// ```
/// use wadroles::{read_part, Part, PartCounts, Refusal};
///
/// // The vertex (1, −1, 64), no triangles, and the heights 3 and −3.
/// let file = [0x01, 0x00, 0x02, 0x01, 0x80, 0x01, 0x02, 0x06, 0x05];
/// let mut part = Part { coords: &mut [0; 3], corners: &mut [], heights: &mut [0; 3] };
///
/// let counts = read_part(&file, &mut part)?;
/// assert_eq!(counts, PartCounts { vertices: 1, triangles: 0, heights: 2 });
/// assert_eq!(part.coords, [1, -1, 64]);
/// assert_eq!(part.heights, [3, -3, 0]);
///
/// part.heights = &mut part.heights[..1];
/// let refusal = read_part(&file, &mut part).unwrap_err();
/// assert_eq!((refusal.number, refusal.place), (Refusal::ROOM, 0));
/// # Ok::<(), Refusal>(())
/// ```
pub fn read_part(file: &[u8], part: &mut Part<'_>) -> Result<PartCounts, Refusal> {
    // SAFETY: the pointers and lengths are those of slices, the three written ones are borrowed
    // exclusively, and `out` points to four words.
    answer(|out| unsafe {
        wadroles_read_part(
            file.as_ptr(),
            file.len(),
            part.coords.as_mut_ptr(),
            part.coords.len(),
            part.corners.as_mut_ptr(),
            part.corners.len(),
            part.heights.as_mut_ptr(),
            part.heights.len(),
            out,
        )
    })
    .map(|[vertices, triangles, heights, _]| PartCounts {
        vertices: vertices as usize,
        triangles: triangles as usize,
        heights: heights as usize,
    })
}
