//! Prints number, depth and parent of each contour of a layer, those outside first: the order in which a
//! press that fills from outside in takes them.
//!
//! The layer has three rings within each other and a fourth contour beside them.

use wadroles::{nesting, GivenLayer, NestTables, Refusal, NO_PARENT};

/// The outermost ring, the innermost, the one between, which runs the other way round, and what is
/// beside them.
const CONTOURS: [&[[i32; 2]]; 4] = [
    &[[0, 0], [90, 0], [90, 90], [0, 90]],
    &[[30, 30], [60, 30], [60, 60], [30, 60]],
    &[[20, 20], [20, 70], [70, 70], [70, 20]],
    &[[200, 0], [250, 0], [200, 50]],
];

fn main() -> Result<(), Refusal> {
    let (mut points, mut ends) = (Vec::new(), Vec::new());
    for contour in CONTOURS {
        points.extend(contour.concat());
        ends.push(points.len() as u32 / 2);
    }
    let layer = GivenLayer {
        points: &points,
        ends: &ends,
    };
    let mut tables = NestTables {
        depths: &mut [0; CONTOURS.len()],
        parents: &mut [0; CONTOURS.len()],
    };
    nesting(layer, &mut tables)?;

    let mut numbers: Vec<usize> = (0..CONTOURS.len()).collect();
    numbers.sort_by_key(|&i| tables.depths[i]);
    for i in numbers {
        let parent = match tables.parents[i] {
            NO_PARENT => "none".to_owned(),
            parent => parent.to_string(),
        };
        println!("contour {i} depth {} parent {parent}", tables.depths[i]);
    }
    Ok(())
}
