//! The examples that makers may copy: built, run, and held to what the specification says of part P.

mod c;
mod part_file;
mod programs;
mod rust;

/// What the examples of nesting print, in C and in Rust.
const NESTED_RINGS: &str = "\
contour 0 depth 0 parent none
contour 3 depth 0 parent none
contour 2 depth 1 parent 0
contour 1 depth 2 parent 2
";
