use crate::OrderedMesh;

/// A sweep under way: a plane that rises past the vertices of a mesh.
///
/// [`start`](crate::start()) gives the first ring table and the first count; [`step`](crate::step())
/// and [`layer`](crate::layer()) raise the plane, and bring both up to date. The ring table has an
/// entry per corner: the successor of a crossing, and [`NO_CORNER`](crate::NO_CORNER) for any other
/// corner.
#[derive(Debug)]
pub struct Sweep<'a> {
    /// The mesh that is swept.
    pub ordered: OrderedMesh<'a>,
    /// The ring table for the passed vertices. Needs one entry per corner.
    pub ring: &'a mut [u32],
    /// The number of passed vertices: the first so many of the order.
    pub passed: usize,
}
