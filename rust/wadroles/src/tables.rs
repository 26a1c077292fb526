/// The tables that a caller lends for a layer. They cannot overlap, which the library asks of its
/// callers: they are borrowed exclusively.
///
/// ```
/// use wadroles::CutTables;
///
/// let corners = 12;
/// let (mut names, mut ends, mut marks) = (vec![0; corners], vec![0; corners], vec![0; corners]);
/// let mut points = vec![0; 2 * corners];
/// let tables = CutTables {
///     names: &mut names,
///     points: &mut points,
///     ends: &mut ends,
///     marks: &mut marks,
/// };
/// ```
///
/// Two of them in one table are not compiled:
///
/// ```compile_fail,E0499
/// # use wadroles::CutTables;
/// # let (mut names, mut points, mut ends) = ([0; 12], [0; 24], [0; 12]);
/// let tables = CutTables {
///     names: &mut names,
///     points: &mut points,
///     ends: &mut ends,
///     marks: &mut ends,
/// };
/// ```
#[derive(Debug)]
pub struct CutTables<'a> {
    /// The corners of the contours, one for each point. Needs one entry per corner of the mesh.
    pub names: &'a mut [u32],
    /// The points of the contours, x and y of each. Needs two entries per corner.
    pub points: &'a mut [i32],
    /// For each contour, the number of points up to its end. Needs one entry per corner.
    pub ends: &'a mut [u32],
    /// A work table, zero afterwards. Needs one entry per corner.
    pub marks: &'a mut [u32],
}

/// The tables that [`all_layers`](crate::all_layers()) and
/// [`all_layers_clean`](crate::all_layers_clean()) work in, zero afterwards.
#[derive(Debug)]
pub struct WorkTables<'a> {
    /// Those of a layer.
    pub cut: CutTables<'a>,
    /// The ring table. Needs one entry per corner.
    pub ring: &'a mut [u32],
}

/// How much of the lent tables a layer fills.
#[derive(Clone, Copy, Debug, Default, PartialEq, Eq, Hash)]
pub struct Counts {
    /// The number of contours, and of entries in `ends`.
    pub contours: usize,
    /// The number of points, and of entries in `names`; `points` has twice as many.
    pub points: usize,
}

impl Counts {
    /// As the words of output have them.
    pub(crate) fn of_words(contours: u64, points: u64) -> Self {
        Counts {
            contours: contours as usize,
            points: points as usize,
        }
    }
}
