use crate::answer::answer;
use crate::profile::Profile;
use crate::raw::{wadroles_read_layer, wadroles_read_layer_clean};
use crate::{Counts, Refusal};

/// The tables that a layer of a file is read into, or a layer cleaned into. They cannot overlap, which
/// the library asks of its callers: they are borrowed exclusively.
#[derive(Debug)]
pub struct FlatLayer<'a> {
    /// The points of the contours, x and y of each. Needs two entries per point; to clean, those of
    /// the layer before.
    pub points: &'a mut [i32],
    /// For each contour, the number of points up to its end. Needs one entry per contour; to clean,
    /// those of the layer before.
    pub ends: &'a mut [u32],
}

/// What [`read_layer`] and [`read_layer_clean`] find in a file.
#[derive(Clone, Copy, Debug, Default, PartialEq, Eq, Hash)]
pub struct Reading {
    /// The number of layers in the file.
    pub layers: usize,
    /// The height of the layer.
    pub height: i32,
    /// How much of the lent tables it fills.
    pub counts: Counts,
}

/// Reads layer `i` (from 0) of a layer file.
///
/// Points and ends are those that [`cut`](crate::cut()) writes. Both tables are filled as far as the
/// counts of the [`Reading`] say; all other entries stay.
///
/// A layer file has its layer count; for each layer its height and contour count; for each contour
/// its point count, x and y of the first point, and then of each point the differences to the one
/// before. These are its rules:
///
/// - There are at most [`MAX_LAYERS`](crate::MAX_LAYERS) layers.
/// - Heights rise strictly.
/// - A contour has at least two points, and a layer at most [`MAX_POINTS`](crate::MAX_POINTS) in
///   all.
/// - Points lie in the range of coordinates.
///
/// Numbers have 32 bits and are written in groups of seven, lowest group first, with 128 added to
/// every byte but the last, in the fewest bytes. Heights, coordinates and differences are signed:
/// n is sent as 2n if n ≥ 0, else as −2n − 1.
///
/// # Errors
///
/// The whole file is checked, whichever layer is read. It is refused for the first of these reasons
/// that applies:
///
/// | number | reason | place |
/// |--------|--------|-------|
/// | 13 | a value is missing, cut short, too long, over 32 bits or breaks a rule of the file, or a byte is left over after the last value | the first byte of the first such value, for a missing one the length of the file; or the first byte left over |
/// | 15 | there is no layer `i` | 0 |
/// | 9 | `points` has less than two entries per point of the layer, or `ends` than one per contour | 0 |
///
/// After a refusal both tables are as before.
///
/// # Example
///
/// ```
/// use wadroles::{read_layer, Counts, FlatLayer, Reading, Refusal};
///
/// // Two layers: height 0 without contours, and height 5 with one.
/// let file = [0x02, 0x00, 0x00, 0x0A, 0x01, 0x03, 0x0A, 0x00, 0x09, 0x0A, 0x00, 0x09];
/// let mut layer = FlatLayer { points: &mut [0; 6], ends: &mut [0; 1] };
///
/// let reading = read_layer(&file, 1, &mut layer)?;
/// let counts = Counts { contours: 1, points: 3 };
/// assert_eq!(reading, Reading { layers: 2, height: 5, counts });
/// assert_eq!(layer.points, [5, 0, 0, 5, 0, 0]);
/// assert_eq!(layer.ends, [3]);
///
/// let refusal = read_layer(&file[..11], 1, &mut layer).unwrap_err();
/// assert_eq!((refusal.number, refusal.place), (Refusal::FILE, 11));
/// # Ok::<(), Refusal>(())
/// ```
pub fn read_layer(file: &[u8], i: usize, layer: &mut FlatLayer<'_>) -> Result<Reading, Refusal> {
    read_in(Profile::Full, file, i, layer)
}

/// Reads layer `i` (from 0) of a layer file in the clean profile: one that [`read_layer`] reads, and
/// each contour of each layer of which is clean, as [`clean`](crate::clean()) has it.
///
/// Both tables are filled as far as the counts of the [`Reading`] say; all other entries stay.
///
/// # Errors
///
/// The whole file is checked, whichever layer is read. It is refused for the first of these reasons
/// that applies:
///
/// | number | reason | place |
/// |--------|--------|-------|
/// | 13 | the file is refused by [`read_layer`] | as there |
/// | 18 | a contour of the file, in whichever layer, is not clean: cleaning would alter it or drop it | the first byte of the point count of the first such contour |
/// | 15 | there is no layer `i` | 0 |
/// | 9 | `points` has less than two entries per point of the layer, or `ends` than one per contour | 0 |
///
/// After a refusal both tables are as before.
///
/// # Example
///
/// ```
/// use wadroles::{read_layer_clean, Counts, FlatLayer, Reading, Refusal};
///
/// // Two layers: height 0 without contours, and height 5 with one.
/// let file = [0x02, 0x00, 0x00, 0x0A, 0x01, 0x03, 0x0A, 0x00, 0x09, 0x0A, 0x00, 0x09];
/// let mut layer = FlatLayer { points: &mut [0; 6], ends: &mut [0; 1] };
///
/// let reading = read_layer_clean(&file, 1, &mut layer)?;
/// let counts = Counts { contours: 1, points: 3 };
/// assert_eq!(reading, Reading { layers: 2, height: 5, counts });
/// assert_eq!(layer.points, [5, 0, 0, 5, 0, 0]);
///
/// // With another difference in x the last point equals the first.
/// let closed = [0x02, 0x00, 0x00, 0x0A, 0x01, 0x03, 0x0A, 0x00, 0x09, 0x0A, 0x0A, 0x09];
/// let refusal = read_layer_clean(&closed, 0, &mut layer).unwrap_err();
/// assert_eq!((refusal.number, refusal.place), (Refusal::UNCLEAN, 5));
/// # Ok::<(), Refusal>(())
/// ```
pub fn read_layer_clean(
    file: &[u8],
    i: usize,
    layer: &mut FlatLayer<'_>,
) -> Result<Reading, Refusal> {
    read_in(Profile::Clean, file, i, layer)
}

fn read_in(
    profile: Profile,
    file: &[u8],
    i: usize,
    layer: &mut FlatLayer<'_>,
) -> Result<Reading, Refusal> {
    let read = match profile {
        Profile::Full => wadroles_read_layer,
        Profile::Clean => wadroles_read_layer_clean,
    };
    // SAFETY: the pointers and lengths are those of slices, the two written ones are borrowed
    // exclusively, and `out` points to four words. Both functions ask no more.
    answer(|out| unsafe {
        read(
            file.as_ptr(),
            file.len(),
            i,
            layer.points.as_mut_ptr(),
            layer.points.len(),
            layer.ends.as_mut_ptr(),
            layer.ends.len(),
            out,
        )
    })
    .map(|[layers, height, contours, points]| Reading {
        layers: layers as usize,
        height: height as i32,
        counts: Counts::of_words(contours, points),
    })
}
