//! The operations of the specification as the harness sees them.

mod all_layers;
mod area;
mod check;
mod clean;
mod contour;
mod cut;
mod given;
mod ink;
mod nesting;
mod preview;
mod read_layer;
mod read_part;
mod sweep;

pub use all_layers::{AllLayers, AllLayersClean, AllLayersIn, FileTables};
pub use area::Area;
pub use check::{Check, CheckTables};
pub use clean::{Clean, GivenLayer};
pub use contour::{Contour, Ends};
pub use cut::{Cut, CutTables};
pub use given::Given;
pub use ink::{Ink, Job};
pub use nesting::{NestTables, Nesting};
pub use preview::{CallTables, Drawing, Preview, PreviewRun, Xy};
pub use read_layer::{FlatLayer, LayerFile, ReadLayer, ReadLayerClean};
pub use read_part::{Part, ReadPart};
pub use sweep::{Layer, Ring, Start, Step, WorkTables};

use crate::harness::Version;

/// A version of every operation, for tests that call several.
#[derive(Clone, Copy, Default)]
pub struct Versions {
    pub read_part: Version<ReadPart>,
    pub check: Version<Check>,
    pub cut: Version<Cut>,
    pub contour: Version<Contour>,
    pub area: Version<Area>,
    pub start: Version<Start>,
    pub step: Version<Step>,
    pub layer: Version<Layer>,
    pub all_layers: Version<AllLayers>,
    pub read_layer: Version<ReadLayer>,
    pub preview: Version<Preview>,
    pub preview_run: Version<PreviewRun>,
    pub clean: Version<Clean>,
    pub all_layers_clean: Version<AllLayersClean>,
    pub read_layer_clean: Version<ReadLayerClean>,
    pub ink: Version<Ink>,
    pub nesting: Version<Nesting>,
}
