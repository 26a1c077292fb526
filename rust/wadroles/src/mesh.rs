/// A mesh: the record `Mesh` of the specification.
///
/// ```
/// use wadroles::Mesh;
///
/// let mesh = Mesh {
///     coords: &[0, 0, 0, 10, 0, 0, 0, 10, 0, 0, 0, 10],
///     corners: &[0, 2, 1, 0, 1, 3, 0, 3, 2, 1, 2, 3],
/// };
/// assert_eq!((mesh.vertices(), mesh.triangles()), (4, 4));
/// # let _copies_are_free = (mesh, mesh);
/// ```
#[derive(Clone, Copy, Debug)]
pub struct Mesh<'a> {
    /// The coordinates, x, y and z of each vertex.
    pub coords: &'a [i32],
    /// The corners, three vertex numbers for each triangle.
    pub corners: &'a [u32],
}

impl Mesh<'_> {
    /// The number of whole vertices in the table of coordinates.
    pub fn vertices(&self) -> usize {
        self.coords.len() / 3
    }

    /// The number of whole triangles in the table of corners.
    pub fn triangles(&self) -> usize {
        self.corners.len() / 3
    }
}

/// A mesh with its pairing.
///
/// [`check`](crate::check()) makes the pairing, and it may come from anyone. Each call tests it, and
/// ignores entries beyond one per corner.
#[derive(Clone, Copy, Debug)]
pub struct PairedMesh<'a> {
    /// The mesh.
    pub mesh: Mesh<'a>,
    /// For each corner, the corner with the reverse edge.
    pub pairing: &'a [u32],
}

/// A mesh with its pairing and its order.
///
/// [`check`](crate::check()) makes the order too, and it may come from anyone. Each call tests it,
/// and ignores entries beyond one per vertex.
///
/// ```
/// use wadroles::{check, CheckTables, Mesh, OrderedMesh, PairedMesh, Refusal};
///
/// let mesh = Mesh {
///     coords: &[0, 0, 0, 10, 0, 0, 0, 10, 0, 0, 0, 10],
///     corners: &[0, 2, 1, 0, 1, 3, 0, 3, 2, 1, 2, 3],
/// };
/// let (mut pairing, mut order) = ([0; 12], [0; 4]);
/// check(mesh, &mut CheckTables { pairing: &mut pairing, order: &mut order })?;
/// let paired = PairedMesh { mesh, pairing: &pairing };
/// let ordered = OrderedMesh { paired, order: &order };
/// # let _copies_are_free = (ordered, ordered);
/// # Ok::<(), Refusal>(())
/// ```
#[derive(Clone, Copy, Debug)]
pub struct OrderedMesh<'a> {
    /// The mesh and its pairing.
    pub paired: PairedMesh<'a>,
    /// Each vertex once, by z and then by vertex number.
    pub order: &'a [u32],
}
