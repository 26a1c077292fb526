//! The listing program of the specification: from its input to what it prints.

use crate::all_layers::default_heights;
use crate::check::check;
use crate::part_file::{decode_part, Part};
use crate::refusal::{refuse_if, refuse_least, Refusal};
use crate::section::{rings, Plane};
use std::fmt::Write;

const MOST_INPUT: usize = 8_192;
const MOST_VERTICES: usize = 128;
const MOST_TRIANGLES: usize = 256;
const MOST_HEIGHTS: usize = 256;

/// What the listing program prints for an input.
pub fn listing(input: &[u8]) -> String {
    lines(input).unwrap_or_else(|r| format!("refused {} {}\n", r.number, r.place))
}

fn lines(input: &[u8]) -> Result<String, Refusal> {
    refuse_if(1, input.len() > MOST_INPUT)?;
    let part = decode_part(input)?;
    let heights = match &part.heights[..] {
        [] => default_heights(&part.coords),
        given => given.to_vec(),
    };
    refuse_if(1, part.coords.len() > 3 * MOST_VERTICES)?;
    refuse_if(1, part.corners.len() > 3 * MOST_TRIANGLES)?;
    refuse_if(1, heights.len() > MOST_HEIGHTS)?;
    let mut pairing = vec![0; part.corners.len()];
    let mut order = vec![0; part.coords.len() / 3];
    check(&part.coords, &part.corners, &mut pairing, &mut order)?;
    refuse_least(12, 1..heights.len(), |i| heights[i] <= heights[i - 1])?;

    let mut text = format!("layers {}\n", heights.len());
    for height in heights {
        layer_line(&part, &pairing, height, &mut text);
    }
    Ok(text)
}

fn layer_line(part: &Part, pairing: &[u32], height: i32, text: &mut String) {
    let plane = Plane {
        coords: &part.coords,
        corners: &part.corners,
        height,
    };
    let rings = rings(&plane.successors(pairing)).expect("the pairing is right");
    let points: usize = rings.iter().map(Vec::len).sum();
    let area: i128 = rings
        .iter()
        .map(|ring| doubled_area(&ring.iter().map(|&c| plane.point(c)).collect::<Vec<_>>()))
        .sum();
    writeln!(text, "layer {height} {} {points} {area}", rings.len()).expect("a text has room");
}

fn doubled_area(contour: &[[i32; 2]]) -> i128 {
    (0..contour.len())
        .map(|i| {
            let [x0, y0] = contour[i].map(i128::from);
            let [x1, y1] = contour[(i + 1) % contour.len()].map(i128::from);
            x0 * y1 - x1 * y0
        })
        .sum()
}

#[cfg(test)]
mod tests {
    use super::*;
    use crate::part_file::encode_part;
    use meshes::shapes::tetrahedron;

    #[test]
    fn part_p_has_the_five_lines_of_the_document() {
        let mesh = tetrahedron(10);
        let part = Part {
            coords: mesh.coords,
            corners: mesh.corners,
            heights: vec![0, 5, 10, 11],
        };
        let lines = "layers 4\nlayer 0 0 0 0\nlayer 5 1 3 25\nlayer 10 1 3 0\nlayer 11 0 0 0\n";
        assert_eq!(listing(&encode_part(&part)), lines);
    }

    #[test]
    fn what_is_refused_is_a_line() {
        assert_eq!(listing(&[0x80, 0x00]), "refused 13 0\n");
        assert_eq!(listing(&[0; 8_193]), "refused 1 0\n");
    }
}
