use std::error::Error;
use std::fmt;

/// Why and where an operation refused its input.
///
/// Each operation says under "Errors" which reasons it tests and in which sequence; the first that
/// applies is the refusal. It has changed nothing then, with these exceptions:
///
/// - after [`OPEN`](Refusal::OPEN), [`check`](crate::check()) has zeroed the entries of pairing and
///   order that success would fill;
/// - after [`OUTPUT`](Refusal::OUTPUT), [`all_layers`](crate::all_layers()) and
///   [`all_layers_clean`](crate::all_layers_clean()) have zeroed their work tables as far as they
///   ask for them;
/// - after [`USED`](Refusal::USED), which never arises, the tables of the layer would be zero as far
///   as they are asked for, and so would the work tables of these two.
///
/// # Example
///
/// ```
/// use wadroles::{area, Refusal};
///
/// match area(&[5, 0, 0, 5, 0, 2_000_000]) {
///     Ok(doubled) => println!("doubled area {doubled}"),
///     Err(Refusal { number: Refusal::RANGE, place }) => assert_eq!(place, 5),
///     Err(refusal) => panic!("{refusal}"),
/// }
/// ```
#[derive(Clone, Copy, Debug, PartialEq, Eq, Hash)]
pub struct Refusal {
    /// The reason, as the specification numbers it: one of the constants below.
    pub number: u32,
    /// The least place that the reason fits: a position in a table, a corner, or a byte of a file.
    /// It is 0 where the reason is about the call as a whole.
    pub place: u64,
}

impl Refusal {
    /// A table length not a multiple of three (of two for points), or a count above its limit:
    /// vertices, triangles, points of [`area`](crate::area()) and of a layer that is handed in, or
    /// heights of [`all_layers`](crate::all_layers()), default ones counted. Or the ends of a layer
    /// that is handed in, to [`preview`](crate::preview()) or [`clean`](crate::clean()), do not rise by
    /// two or more up to the number of points. Place 0.
    pub const SIZE: u32 = 1;
    /// A coordinate out of range. The place is its position in the table.
    pub const RANGE: u32 = 2;
    /// A corner naming no vertex. The place is the corner.
    pub const VERTEX: u32 = 3;
    /// A triangle naming a vertex twice. The place is its first corner.
    pub const TRIANGLE: u32 = 4;
    /// A corner without a partner: its directed edge occurs more often than the reverse, so that the
    /// mesh has a hole there, a sheet too many, or one that is turned inside out. The place is the
    /// corner.
    pub const OPEN: u32 = 6;
    /// A corner whose pairing entry is missing, is no corner, lacks the reverse edge or is not paired
    /// back. The place is the corner. [`check`](crate::check()) makes a right pairing.
    pub const PAIRING: u32 = 7;
    /// A position where the order table is missing an entry or wrong. [`check`](crate::check()) makes
    /// a right order.
    pub const ORDER: u32 = 8;
    /// A table to be written is too short. Place 0.
    pub const ROOM: u32 = 9;
    /// More passed than vertices. Place 0. The count is of another mesh.
    pub const PASSED: u32 = 10;
    /// A corner whose ring entry is missing or not as defined for the passed count. The place is the
    /// corner. Count and ring table do not belong together, or somebody wrote the table: start anew.
    pub const RING: u32 = 11;
    /// A passed vertex lies at or above the height of [`layer`](crate::layer()), place 0: the plane
    /// is too high already, start anew. Or a height of [`all_layers`](crate::all_layers()) is not
    /// above its forerunner; then the place is its position.
    pub const HEIGHT: u32 = 12;
    /// A file with a value that is cut short, too long, over 32 bits or breaks a rule, or with a byte
    /// left over. The place is the first byte of that value, or left over.
    pub const FILE: u32 = 13;
    /// Output shorter than the file. Place 0.
    pub const OUTPUT: u32 = 14;
    /// No layer of that number. Place 0.
    pub const LAYER: u32 = 15;
    /// A walk meeting a crossing already used that is not its start. The place is that crossing. It
    /// never arises: the pairing has been tested before, and with a right one no walk does.
    pub const USED: u32 = 16;
    /// An origin that is not whole or out of range. Place 0.
    pub const ORIGIN: u32 = 17;
    /// A contour of a file that is not clean: [`clean`](crate::clean()) would alter it or drop it. The
    /// place is the first byte of its point count.
    pub const UNCLEAN: u32 = 18;
    /// A thickness outside 1 to [`MAX_THICKNESS`](crate::MAX_THICKNESS). Place 0.
    pub const THICKNESS: u32 = 19;

    /// The reason in the words of the specification.
    fn words(&self) -> &'static str {
        match self.number {
            Self::SIZE => {
                "a table length not a multiple of three (of two for points), \
                 a count above its limit or ends that are not those of the points"
            }
            Self::RANGE => "a coordinate out of range",
            Self::VERTEX => "a corner naming no vertex",
            Self::TRIANGLE => "a triangle naming a vertex twice",
            Self::OPEN => "a corner without a partner among those with the reverse edge",
            Self::PAIRING => {
                "a corner whose pairing entry is missing, is no corner, \
                 lacks the reverse edge or is not paired back"
            }
            Self::ORDER => "a position where the order table is missing an entry or wrong",
            Self::ROOM => "a table to be written is too short",
            Self::PASSED => "more passed than vertices",
            Self::RING => {
                "a corner whose ring entry is missing or not as defined for the passed count"
            }
            Self::HEIGHT => "a passed vertex has z ≥ h, or a height is not above its forerunner",
            Self::FILE => {
                "a value that is cut short, too long, over 32 bits or breaks a rule of the file, \
                 or a byte left over"
            }
            Self::OUTPUT => "output shorter than the file",
            Self::LAYER => "no layer of that number",
            Self::USED => "a walk meeting a crossing already used that is not its start",
            Self::ORIGIN => "an origin that is not whole or out of range",
            Self::UNCLEAN => "a contour of a file that is not clean",
            Self::THICKNESS => "a thickness outside 1 to 1,000",
            _ => "a reason that the specification does not number",
        }
    }
}

impl fmt::Display for Refusal {
    fn fmt(&self, f: &mut fmt::Formatter<'_>) -> fmt::Result {
        let Refusal { number, place } = self;
        write!(f, "refusal {number} at place {place}: {}", self.words())
    }
}

impl Error for Refusal {}

#[cfg(test)]
mod tests {
    use super::*;
    use std::collections::HashSet;

    #[test]
    fn display_gives_number_place_and_words() {
        let refusal = Refusal {
            number: Refusal::OPEN,
            place: 1,
        };
        assert_eq!(
            refusal.to_string(),
            "refusal 6 at place 1: a corner without a partner among those with the reverse edge"
        );
    }

    #[test]
    fn each_number_has_words_of_its_own() {
        let words = |number| Refusal { number, place: 0 }.words();
        let distinct: HashSet<_> = (0..=19).map(words).collect();
        assert_eq!(distinct.len(), 19);
        assert_eq!(words(0), words(20));
        assert_eq!(words(0), words(5));
    }
}
