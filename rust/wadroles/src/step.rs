use crate::answer::answer;
use crate::raw::wadroles_step;
use crate::{OrderedMesh, PairedMesh, Refusal, Sweep};

/// What a step did.
#[derive(Clone, Copy, Debug, PartialEq, Eq, Hash)]
pub enum Stepping {
    /// It passed a vertex.
    Stepped,
    /// All vertices were passed already. Nothing changed.
    Top,
}

/// Passes the next vertex of the order, and counts it among the passed of the sweep.
///
/// Rewrites, for the vertices passed then, the ring entry of each corner whose paired corner
/// belongs to a triangle that touches the vertex. All other entries stay; they are not tested, so
/// one that was wrong stays wrong.
///
/// # Errors
///
/// The step is refused for the first of these reasons that applies, at the least place that fits:
///
/// | number | reason | place |
/// |--------|--------|-------|
/// | 1 | a table length of the mesh is not a multiple of three, or a count is above its limit | 0 |
/// | 2 | a coordinate is out of range | its position |
/// | 3 | a corner names no vertex | the corner |
/// | 4 | a triangle names a vertex twice | its first corner |
/// | 7 | a corner's entry in the pairing is missing, is no corner, lacks the reverse edge or is not paired back | the corner |
/// | 8 | an entry of the order is missing or wrong | its position |
/// | 10 | more vertices are passed than there are | 0 |
/// | 11 | `ring` has fewer entries than there are corners | its length |
///
/// After a refusal the sweep is as before.
///
/// # Example
///
/// ```
/// use wadroles::{start, step, Mesh, OrderedMesh, PairedMesh, Refusal, Stepping, Sweep, NO_CORNER};
///
/// let mesh = Mesh {
///     coords: &[0, 0, 0, 10, 0, 0, 0, 10, 0, 0, 0, 10],
///     corners: &[0, 2, 1, 0, 1, 3, 0, 3, 2, 1, 2, 3],
/// };
/// let paired = PairedMesh { mesh, pairing: &[8, 9, 3, 2, 11, 6, 5, 10, 0, 1, 7, 4] };
/// let ordered = OrderedMesh { paired, order: &[0, 1, 2, 3] };
/// let mut ring = [0; 12];
/// let passed = start(mesh, &mut ring)?;
/// let mut sweep = Sweep { ordered, ring: &mut ring, passed };
///
/// // Vertex 0 is passed: its corners 0, 6 and 3 lead up, and are the only crossings.
/// assert_eq!(step(&mut sweep)?, Stepping::Stepped);
/// assert_eq!(sweep.passed, 1);
/// assert_eq!([sweep.ring[0], sweep.ring[6], sweep.ring[3]], [6, 3, 0]);
/// assert_eq!(sweep.ring.iter().filter(|&&entry| entry != NO_CORNER).count(), 3);
///
/// while step(&mut sweep)? == Stepping::Stepped {}
/// assert_eq!(sweep.passed, 4);
/// # Ok::<(), Refusal>(())
/// ```
pub fn step(sweep: &mut Sweep<'_>) -> Result<Stepping, Refusal> {
    let OrderedMesh { paired, order } = sweep.ordered;
    let PairedMesh { mesh, pairing } = paired;
    // SAFETY: the pointers and lengths are those of slices, the written one is borrowed
    // exclusively, and `out` points to four words.
    let [passed, top, ..] = answer(|out| unsafe {
        wadroles_step(
            mesh.coords.as_ptr(),
            mesh.coords.len(),
            mesh.corners.as_ptr(),
            mesh.corners.len(),
            pairing.as_ptr(),
            pairing.len(),
            order.as_ptr(),
            order.len(),
            sweep.ring.as_mut_ptr(),
            sweep.ring.len(),
            sweep.passed,
            out,
        )
    })?;
    sweep.passed = passed as usize;
    Ok(match top {
        0 => Stepping::Stepped,
        _ => Stepping::Top,
    })
}
