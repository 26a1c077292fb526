//! Safe interface to the proved layer cutter.
//!
//! A mesh is a table of coordinates (x, y and z per vertex, in micrometres) and a table of corners
//! (three vertex numbers per triangle, counterclockwise seen from outside). It has at most
//! [`MAX_VERTICES`] vertices and [`MAX_TRIANGLES`] triangles; none of either is allowed, and so are
//! unused vertices. No coordinate is farther than [`MAX_COORDINATE`] from zero.
//!
//! Corner `3 * t + k` (`k` = 0, 1, 2) stands for the directed edge from its vertex to that of the
//! next corner of triangle `t`, the last leading back to the first.
//!
//! [`check()`] tests a mesh and finds its pairing, which the cutting operations ask for. [`cut()`]
//! gives the layer at a height, [`contour()`] the points of one of its contours, and [`area()`] their
//! doubled area. A sweep raises a plane from below: [`start()`] begins it, [`step()`] passes one
//! vertex, and [`layer()`] rises to a height and gives the layer there. [`all_layers()`] sweeps a mesh
//! over many heights and writes their layer file. [`read_layer()`] takes a layer out of a layer
//! file, and [`read_part()`] a mesh and heights out of a part file. [`preview()`] and
//! [`preview_run()`] give the calls with which a screen draws a layer. [`clean()`] drops what is
//! needless in a layer; [`all_layers_clean()`] writes the file of cleaned layers, and
//! [`read_layer_clean()`] reads only such files. [`ink()`] gives what the layers of a file are charged
//! for ink. [`nesting()`] tells which contours of a layer lie in which.
//!
//! # Example
//!
//! From a mesh to its layer file, and a layer back out of it:
//!
//! ```
//! use wadroles::{all_layers, area, check, contour, read_layer, CheckTables, CutTables, FlatLayer};
//! use wadroles::{Counts, Mesh, OrderedMesh, PairedMesh, Refusal, WorkTables};
//!
//! let mesh = Mesh {
//!     coords: &[0, 0, 0, 10, 0, 0, 0, 10, 0, 0, 0, 10],
//!     corners: &[0, 2, 1, 0, 1, 3, 0, 3, 2, 1, 2, 3],
//! };
//! let (mut pairing, mut order) = ([0; 12], [0; 4]);
//! check(mesh, &mut CheckTables { pairing: &mut pairing, order: &mut order })?;
//!
//! let paired = PairedMesh { mesh, pairing: &pairing };
//! let ordered = OrderedMesh { paired, order: &order };
//! let cut = CutTables {
//!     names: &mut [0; 12],
//!     points: &mut [0; 24],
//!     ends: &mut [0; 12],
//!     marks: &mut [0; 12],
//! };
//! let mut work = WorkTables { cut, ring: &mut [0; 12] };
//! let mut file = [0; 100];
//! let length = all_layers(ordered, &[0, 5, 10, 11], &mut work, &mut file)?;
//!
//! let mut layer = FlatLayer { points: &mut [0; 24], ends: &mut [0; 12] };
//! let reading = read_layer(&file[..length], 1, &mut layer)?;
//! let Counts { contours, points } = reading.counts;
//! assert_eq!((reading.height, contours, points), (5, 1, 3));
//! let first = contour(layer.points, &layer.ends[..contours], 0);
//! assert_eq!(first, [5, 0, 0, 5, 0, 0]);
//! assert_eq!(area(first), Ok(25));
//! # Ok::<(), Refusal>(())
//! ```
//!
//! The program `examples/part.rs` does the same for a part file, with a sweep beside it.
//!
//! # Tables and refusals
//!
//! What belongs together is a struct, of the name that the library's specification has for it:
//! [`Mesh`], [`PairedMesh`], [`OrderedMesh`], [`GivenLayer`] and [`Origin`] are read;
//! [`CheckTables`], [`CutTables`], [`WorkTables`], [`FlatLayer`], [`Part`], [`CallTables`] and
//! [`NestTables`] are lent to be written; [`Sweep`] is both.
//!
//! The operations work on tables that the caller lends them, and allocate nothing. Each answers with
//! its values or with a [`Refusal`]: they test all that they are handed, so no input makes them
//! panic, read or write outside a table, or run on. Under "Errors" each says what it tests, in which
//! sequence, and what a refusal leaves in the tables. They keep no state between calls, so several
//! threads may call them at once.
//!
//! Four things no operation of the library can test, and a caller in C has to see to them. Here the
//! types do:
//!
//! - A table has the length given with it: pointer and length are those of a slice.
//! - It is aligned for its elements: so is a slice.
//! - A table that is written overlaps no other: it is borrowed exclusively, so a program in which
//!   one does is not compiled.
//! - Nobody else writes a table meanwhile: not while it is borrowed.
//!
//! ```compile_fail,E0499
//! # use wadroles::{check, CheckTables, Mesh};
//! # let mesh = Mesh { coords: &[0; 12], corners: &[0; 12] };
//! // Pairing and order in one table.
//! let mut both = [0; 16];
//! check(mesh, &mut CheckTables { pairing: &mut both, order: &mut both[12..] });
//! ```
//!
//! ```compile_fail,E0502
//! # use wadroles::{contour, read_layer, FlatLayer};
//! # let file = [0x00];
//! # let mut layer = FlatLayer { points: &mut [0; 24], ends: &mut [0; 12] };
//! // A contour, used after its points were overwritten.
//! let first = contour(layer.points, &layer.ends[..1], 0);
//! read_layer(&file, 1, &mut layer);
//! println!("{first:?}");
//! ```
//!
//! Lengths may be any: a table that is too short is [`Refusal::ROOM`] where it is to be filled, and
//! [`Refusal::PAIRING`], [`Refusal::ORDER`] or [`Refusal::RING`] where it is read. The tables of
//! [`preview_run()`] are filled as far as they go.
//!
//! # Linking
//!
//! The library is the archive `crates/wadroles/out/libwadroles.a` of the repository, made by
//! `rt lib --cpu x86-64` in `crates/wadroles`. To link an archive from elsewhere, give the absolute
//! path of its directory in the environment variable `WADROLES_LIB_DIR`.

#![warn(unsafe_op_in_unsafe_fn)]

mod all_layers;
mod answer;
mod area;
mod check;
mod clean;
mod contour;
mod cut;
mod ink;
mod layer;
mod mesh;
mod nesting;
mod preview;
mod profile;
pub mod raw;
mod read_layer;
mod read_part;
mod refusal;
mod start;
mod step;
mod sweep;
mod tables;

pub use all_layers::{all_layers, all_layers_clean};
pub use area::area;
pub use check::{check, CheckTables};
pub use clean::clean;
pub use contour::contour;
pub use cut::cut;
pub use ink::ink;
pub use layer::layer;
pub use mesh::{Mesh, OrderedMesh, PairedMesh};
pub use nesting::{nesting, NestTables};
pub use preview::{preview, preview_run, CallTables, GivenLayer, Origin, PathCall};
pub use read_layer::{read_layer, read_layer_clean, FlatLayer, Reading};
pub use read_part::{read_part, Part, PartCounts};
pub use refusal::Refusal;
pub use start::start;
pub use step::{step, Stepping};
pub use sweep::Sweep;
pub use tables::{Counts, CutTables, WorkTables};

/// The most vertices a mesh may have.
pub const MAX_VERTICES: usize = 32_768;

/// The most triangles a mesh may have.
pub const MAX_TRIANGLES: usize = 65_536;

/// The farthest a coordinate may be from zero, on either side; one of an [`Origin`] too.
pub const MAX_COORDINATE: i32 = 1_048_576;

/// The most points that [`area()`] takes, and that a layer may have: one of a layer file and one that
/// [`preview()`], [`clean()`] and [`nesting()`] take.
pub const MAX_POINTS: usize = 98_304;

/// The most layers that a layer file may have, and the most heights that [`all_layers()`] and
/// [`all_layers_clean()`] take.
pub const MAX_LAYERS: usize = 4_096;

/// The greatest thickness that [`ink()`] takes, in micrometres.
pub const MAX_THICKNESS: u32 = 1_000;

/// The ring entry of a corner that is no crossing.
pub const NO_CORNER: u32 = 4_294_967_295;

/// The parent of a contour that lies in no other.
pub const NO_PARENT: u32 = 4_294_967_295;
