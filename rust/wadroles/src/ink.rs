use crate::answer::answer;
use crate::raw::wadroles_ink;
use crate::Refusal;

/// Finds what a job is charged for ink, in whole nanolitres; a nanolitre is 1,000,000 cubic micrometres.
/// The job is a layer file, all of whose layers are `thickness` micrometres thick. A file in the clean
/// profile is one too.
///
/// The charge of a layer is s × `thickness` / 2,000,000, rounded up to a whole number, where s is the
/// sum of the doubled areas of its contours, as [`area`](crate::area()) gives them: holes are taken
/// off. A layer with s below zero is charged nothing. The charge of the job is the sum over its layers,
/// each rounded up by itself. It is exact for every file.
///
/// # Errors
///
/// The job is refused for the first of these reasons that applies:
///
/// | number | reason | place |
/// |--------|--------|-------|
/// | 13 | the file is refused by [`read_layer`](crate::read_layer()) | as there |
/// | 19 | the thickness is 0 or more than [`MAX_THICKNESS`](crate::MAX_THICKNESS) | 0 |
///
/// # Example
///
/// ```
/// use wadroles::{ink, Refusal};
///
/// // Two layers: height 0 without contours, and height 5 with one, of the doubled area 25.
/// let file = [0x02, 0x00, 0x00, 0x0A, 0x01, 0x03, 0x0A, 0x00, 0x09, 0x0A, 0x00, 0x09];
/// assert_eq!(ink(&file, 1_000), Ok(1));
///
/// // A square of a millimetre, 50 micrometres thick: 50 nanolitres.
/// let square = [
///     0x01, 0x00, 0x01, 0x04, 0x00, 0x00, 0xD0, 0x0F, 0x00, 0x00, 0xD0, 0x0F, 0xCF, 0x0F, 0x00,
/// ];
/// assert_eq!(ink(&square, 50), Ok(50));
///
/// let refusal = ink(&file, 1_001).unwrap_err();
/// assert_eq!((refusal.number, refusal.place), (Refusal::THICKNESS, 0));
/// let refusal = ink(&file[..11], 1_001).unwrap_err();
/// assert_eq!((refusal.number, refusal.place), (Refusal::FILE, 11));
/// ```
pub fn ink(file: &[u8], thickness: u32) -> Result<u64, Refusal> {
    // SAFETY: pointer and length are those of a slice, and `out` points to four words.
    answer(|out| unsafe { wadroles_ink(file.as_ptr(), file.len(), thickness, out) })
        .map(|[charge, ..]| charge)
}
