//! From a part file to its layer file, and back: what `examples/c/sweep.c` does, in Rust.
//!
//! Reads a part file, checks the mesh and writes its layer file. Then sweeps the mesh over the
//! heights of that file, reads each layer back, and compares it with what the sweep gives. Prints a
//! line for each layer: height, contours, points, and the sum of the contours' doubled areas.
//!
//! The argument is the part file; without one it is `examples/p.part` of this repository.

use std::error::Error;
use std::{env, fs};
use wadroles::{
    all_layers, area, check, contour, layer, read_layer, read_part, start, CheckTables, CutTables,
    FlatLayer, Mesh, OrderedMesh, PairedMesh, Part, Refusal, Sweep, WorkTables,
};

const PART_P: &str = concat!(env!("CARGO_MANIFEST_DIR"), "/../../examples/p.part");

fn main() -> Result<(), Box<dyn Error>> {
    let path = env::args().nth(1).unwrap_or_else(|| PART_P.to_owned());
    let bytes = fs::read(path)?;

    // A value takes a byte at least, so no table needs more entries than the file has bytes.
    let (mut coords, mut corners) = (vec![0; bytes.len()], vec![0; bytes.len()]);
    let mut heights = vec![0; bytes.len()];
    let mut part = Part {
        coords: &mut coords,
        corners: &mut corners,
        heights: &mut heights,
    };
    let counts = read_part(&bytes, &mut part)?;
    let mesh = Mesh {
        coords: &coords[..3 * counts.vertices],
        corners: &corners[..3 * counts.triangles],
    };

    let (mut pairing, mut order) = (vec![0; mesh.corners.len()], vec![0; counts.vertices]);
    let mut made = CheckTables {
        pairing: &mut pairing,
        order: &mut order,
    };
    check(mesh, &mut made)?;
    let paired = PairedMesh {
        mesh,
        pairing: &pairing,
    };
    let ordered = OrderedMesh {
        paired,
        order: &order,
    };
    let file = layer_file(ordered, &heights[..counts.heights])?;
    let layers = sweep(ordered, &file)?;
    println!("layers {layers}, bytes {}", file.len());
    Ok(())
}

/// The tables of a layer, as long as a mesh of so many corners needs them.
struct Room {
    names: Vec<u32>,
    points: Vec<i32>,
    ends: Vec<u32>,
    marks: Vec<u32>,
}

impl Room {
    fn new(corners: usize) -> Self {
        Room {
            names: vec![0; corners],
            points: vec![0; 2 * corners],
            ends: vec![0; corners],
            marks: vec![0; corners],
        }
    }

    fn lend(&mut self) -> CutTables<'_> {
        CutTables {
            names: &mut self.names,
            points: &mut self.points,
            ends: &mut self.ends,
            marks: &mut self.marks,
        }
    }
}

/// The layer file. The room is a guess: output that is too short is refused and left alone, so ask
/// again with more.
fn layer_file(ordered: OrderedMesh, heights: &[i32]) -> Result<Vec<u8>, Refusal> {
    let corners = ordered.paired.mesh.corners.len();
    let (mut room, mut ring) = (Room::new(corners), vec![0; corners]);
    let mut work = WorkTables {
        cut: room.lend(),
        ring: &mut ring,
    };
    let mut output = vec![0; 4096 + 16 * corners];
    loop {
        match all_layers(ordered, heights, &mut work, &mut output) {
            Ok(length) => {
                output.truncate(length);
                return Ok(output);
            }
            Err(refusal) if refusal.number == Refusal::OUTPUT => output.resize(4 * output.len(), 0),
            Err(refusal) => return Err(refusal),
        }
    }
}

/// Sweeps the mesh over the heights of the file, and gives their number.
fn sweep(ordered: OrderedMesh, file: &[u8]) -> Result<usize, Box<dyn Error>> {
    let mesh = ordered.paired.mesh;
    let corners = mesh.corners.len();
    let (mut points, mut ends) = (vec![0; 2 * corners], vec![0; corners]);
    let mut read = FlatLayer {
        points: &mut points,
        ends: &mut ends,
    };
    let (mut room, mut ring) = (Room::new(corners), vec![0; corners]);
    let mut swept = room.lend();
    let passed = start(mesh, &mut ring)?;
    let mut sweep = Sweep {
        ordered,
        ring: &mut ring,
        passed,
    };
    for i in 0.. {
        let reading = match read_layer(file, i, &mut read) {
            Err(refusal) if refusal.number == Refusal::LAYER => return Ok(i),
            answer => answer?,
        };
        let (height, counts) = (reading.height, reading.counts);
        let same_counts = layer(&mut sweep, height, &mut swept)? == counts;
        let points = &read.points[..2 * counts.points];
        let ends = &read.ends[..counts.contours];
        if !same_counts || !swept.points.starts_with(points) || !swept.ends.starts_with(ends) {
            return Err(format!("the layer at {height} was read back otherwise").into());
        }
        print_layer(height, points, ends)?;
    }
    unreachable!("a file has no layer of each number")
}

fn print_layer(height: i32, points: &[i32], ends: &[u32]) -> Result<(), Refusal> {
    let mut doubled = 0;
    for j in 0..ends.len() {
        doubled += area(contour(points, ends, j))?;
    }
    let (contours, points) = (ends.len(), points.len() / 2);
    println!("layer {height} {contours} {points} {doubled}");
    Ok(())
}
