use crate::comparison::{Bench, Comparison, Figure, Kind, Row};
use crate::inputs::{cone_point_count, heights, largest_cone, largest_torus, point_count, tori};
use crate::owned::{Ordered, Work, JUNK};
use crate::unproved::{self, AllLayers};
use crate::versions::{Subject, Version};
use meshes::Mesh;
use std::hint::black_box;

const HEIGHTS: i32 = 1000;
const MORE_HEIGHTS: i32 = 4096;
const CONE_HEIGHTS: i32 = 100;
const SINGLE_HEIGHTS: i32 = 20;
const RUNS: usize = 11;

/// More bytes than a layer takes beside its points.
const LAYER_BYTES: usize = 16;

/// More bytes than a point takes, with its part of the point count of its contour.
const POINT_BYTES: usize = 12;

/// All layers: by size, by the number of heights, at one height, and for each point.
pub fn benches() -> Vec<Box<dyn Bench>> {
    [by_size(), by_heights(), at_one_height(), by_points()]
        .map(|table| Box::new(table) as Box<dyn Bench>)
        .into()
}

fn table(heading: &str, unit: &'static str, kinds: Vec<Kind<Swept>>) -> Comparison<Swept> {
    Comparison {
        runs: RUNS,
        ..Comparison::new(heading, unit, kinds)
    }
}

/// Three tori: against a version with a list of the corners that cross the present height, as the
/// library has it, and against one that makes the section of the whole mesh at each height.
fn by_size() -> Comparison<Swept> {
    let rows: [(_, AllLayers); 2] = [
        ("torus", unproved::all_layers),
        ("torus, by section", unproved::all_layers_by_section),
    ];
    let kinds = rows.map(|(name, unproved)| {
        Kind::new(name, tori(), move |mesh| {
            Swept::new(mesh, HEIGHTS, unproved)
        })
    });
    let heading = format!("all layers at {HEIGHTS} heights");
    table(&heading, "triangles", kinds.into())
}

/// The largest torus at one height and at many: the growth of the last row is from 1,000 to 4,096.
fn by_heights() -> Comparison<Swept> {
    let counts = [1, HEIGHTS, MORE_HEIGHTS];
    let kind = Kind::new("largest torus", counts, |count| {
        Swept::new(largest_torus(), count, unproved::all_layers).with_size(count as usize)
    });
    table("all layers by heights", "heights", vec![kind])
}

/// Calls of one height each, against the library's Cut with its layer encoded in Rust, and against
/// that with the test of the order and the zeros that All layers owes besides: so here both versions
/// are the library, and the ratio is that of All layers to Cut.
fn at_one_height() -> Comparison<Swept> {
    let rows: [(_, AllLayers); 2] = [
        ("torus, cut and encode", unproved::all_layers_by_cut),
        (
            "with order and zeros",
            unproved::all_layers_by_cut_and_zeros,
        ),
    ];
    let kinds = rows.map(|(name, unproved)| {
        Kind::new(name, tori(), move |mesh| {
            Swept::new(mesh, SINGLE_HEIGHTS, unproved).one_by_one()
        })
    });
    let heading =
        format!("all layers at one height, {SINGLE_HEIGHTS} times (unproved: cut and encode)");
    table(&heading, "triangles", kinds.into())
}

/// The largest torus and a double cone whose every layer has half as many points as the mesh has
/// triangles: with an output that is long enough for any file of so many points, so that one pass is
/// enough, and with one of the file's own length. Growth is from torus to cone.
fn by_points() -> Comparison<Swept> {
    let long = Kind {
        rows: vec![
            Row::new("torus, long output", torus_by_points),
            Row::new("double cone, long output", cone_by_points),
        ],
    };
    let exact = Kind {
        rows: vec![
            Row::new("torus, exact output", || torus_by_points().exact()),
            Row::new("double cone, exact output", || cone_by_points().exact()),
        ],
    };
    Comparison {
        figure: Figure::Each,
        ..table("all layers for each point", "points", vec![long, exact])
    }
}

fn torus_by_points() -> Swept {
    let swept = Swept::new(largest_torus(), HEIGHTS, unproved::all_layers);
    let points = point_count(&swept.input.mesh, &swept.calls[0]);
    swept.with_size(points)
}

fn cone_by_points() -> Swept {
    let swept = Swept::new(largest_cone(), CONE_HEIGHTS, unproved::all_layers);
    let points = cone_point_count(&swept.input.mesh, &swept.calls[0]);
    swept.with_size(points)
}

/// The layer file of the largest torus at so many heights.
pub fn torus_file(count: i32) -> Vec<u8> {
    let swept = Swept::new(largest_torus(), count, unproved::all_layers);
    swept.exact().output
}

/// The same of the largest double cone.
pub fn cone_file(count: i32) -> Vec<u8> {
    let swept = Swept::new(largest_cone(), count, unproved::all_layers);
    swept.exact().output
}

/// Bytes enough for any file of so many points.
pub fn room(mesh: &Mesh, heights: &[i32]) -> usize {
    LAYER_BYTES * (heights.len() + 1) + POINT_BYTES * point_count(mesh, heights)
}

/// A mesh with its pairing and order, the heights of each call, and the tables lent to all layers.
struct Swept {
    unproved: AllLayers,
    size: usize,
    input: Ordered,
    calls: Vec<Vec<i32>>,
    tables: Work,
    output: Vec<u8>,
}

impl Swept {
    /// One call of so many heights, with an output that is long enough for any file of so many
    /// points; the size is that of the mesh.
    fn new(mesh: Mesh, count: i32, unproved: AllLayers) -> Self {
        let heights = heights(&mesh, count);
        let output = room(&mesh, &heights);
        Swept {
            unproved,
            size: mesh.triangle_count(),
            calls: vec![heights],
            tables: Work::new(mesh.corners.len()),
            output: vec![JUNK as u8; output],
            input: Ordered::new(mesh),
        }
    }

    /// The same heights in a call each.
    fn one_by_one(mut self) -> Self {
        self.calls = self.calls.concat().into_iter().map(|h| vec![h]).collect();
        self
    }

    /// With an output that the file fills.
    fn exact(mut self) -> Self {
        let length = self.call(Version::Unproved, 0);
        self.output.truncate(length);
        self
    }

    /// Of another size, in units of the table.
    fn with_size(self, size: usize) -> Self {
        Swept { size, ..self }
    }
}

impl Subject for Swept {
    type Answer = usize;
    type Left = Vec<u8>;

    fn size(&self) -> usize {
        self.size
    }

    fn calls(&self) -> usize {
        self.calls.len()
    }

    fn refill(&mut self) {
        self.tables = Work::new(self.input.mesh.corners.len());
        self.output = vec![JUNK as u8; self.output.len()];
    }

    fn call(&mut self, version: Version, call: usize) -> usize {
        let all_layers = black_box(match version {
            Version::Library => wadroles::all_layers,
            Version::Unproved => self.unproved,
        });
        let ordered = black_box(self.input.lend());
        let heights = black_box(&self.calls[call]);
        all_layers(ordered, heights, &mut self.tables.lend(), &mut self.output)
            .expect("the mesh is closed")
    }

    /// The output: what becomes of the work tables is tested with the unproved versions.
    fn left(&self) -> Vec<u8> {
        self.output.clone()
    }
}
