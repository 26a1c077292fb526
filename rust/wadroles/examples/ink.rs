//! Prints what a job is charged for ink, in whole nanolitres.
//!
//! The arguments are a layer file and the thickness of its layers in micrometres; without any they are
//! the layer file of part P of the specification and 1,000.

use std::error::Error;
use std::{env, fs};
use wadroles::{ink, MAX_THICKNESS};

const LAYER_FILE: [u8; 23] = [
    0x04, 0x00, 0x00, 0x0A, 0x01, 0x03, 0x0A, 0x00, 0x09, 0x0A, 0x00, 0x09, 0x14, 0x01, 0x03, 0x00,
    0x00, 0x00, 0x00, 0x00, 0x00, 0x16, 0x00,
];

fn main() -> Result<(), Box<dyn Error>> {
    let arguments: Vec<String> = env::args().skip(1).collect();
    let (file, thickness) = match &arguments[..] {
        [] => (LAYER_FILE.to_vec(), MAX_THICKNESS),
        [path, thickness] => (fs::read(path)?, thickness.parse()?),
        _ => return Err("the arguments are a layer file and a thickness".into()),
    };
    let charge = ink(&file, thickness)?;
    println!("ink {charge}");
    Ok(())
}
