//! Reads the part file and the layer file of part P of the specification.

use wadroles::{contour, read_layer, read_part, FlatLayer, Part, Refusal};

const PART_FILE: [u8; 31] = [
    0x04, 0x04, 0x00, 0x00, 0x00, 0x14, 0x00, 0x00, 0x00, 0x14, 0x00, 0x00, 0x00, 0x14, 0x00, 0x02,
    0x01, 0x00, 0x01, 0x03, 0x00, 0x03, 0x02, 0x01, 0x02, 0x03, 0x04, 0x00, 0x0A, 0x14, 0x16,
];

const LAYER_FILE: [u8; 23] = [
    0x04, 0x00, 0x00, 0x0A, 0x01, 0x03, 0x0A, 0x00, 0x09, 0x0A, 0x00, 0x09, 0x14, 0x01, 0x03, 0x00,
    0x00, 0x00, 0x00, 0x00, 0x00, 0x16, 0x00,
];

fn main() -> Result<(), Refusal> {
    let mut part = Part {
        coords: &mut [0; 12],
        corners: &mut [0; 12],
        heights: &mut [0; 4],
    };
    let counts = read_part(&PART_FILE, &mut part)?;
    println!("{counts:?}: {part:?}");
    for i in 0..counts.heights {
        print_layer(i)?;
    }
    Ok(())
}

fn print_layer(i: usize) -> Result<(), Refusal> {
    let mut layer = FlatLayer {
        points: &mut [0; 6],
        ends: &mut [0; 1],
    };
    let reading = read_layer(&LAYER_FILE, i, &mut layer)?;
    println!("layer {i} of {}: height {}", reading.layers, reading.height);
    for j in 0..reading.counts.contours {
        let part = contour(layer.points, layer.ends, j);
        println!("  contour {j}: points {part:?}");
    }
    Ok(())
}
