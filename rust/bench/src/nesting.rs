use crate::comparison::{Bench, Comparison, Kind};
use crate::owned::JUNK;
use crate::unproved;
use crate::versions::{Subject, Version};
use std::f64::consts::TAU;
use std::hint::black_box;
use wadroles::{GivenLayer, NestTables};

/// The points of a ring.
const RING: usize = 900;

/// Nesting: squares of which none lies in another, and rings of which each lies in all before it.
pub fn benches() -> Vec<Box<dyn Bench>> {
    let kinds = vec![
        Kind::new("squares side by side", [500, 1_000, 2_000], |count| {
            Layer::new((0..count).map(square))
        }),
        Kind::new("rings within rings", [25, 50, 100], |count| {
            Layer::new((0..count).map(move |k| ring(count - k)))
        }),
    ];
    vec![Box::new(Comparison::new("nesting", "points", kinds))]
}

/// One of the squares that stand in rows of fifty, with gaps between them.
fn square(number: i32) -> Vec<[i32; 2]> {
    let [x, y] = [number % 50, number / 50].map(|step| 1_000 * step);
    vec![[x, y], [x + 900, y], [x + 900, y + 900], [x, y + 900]]
}

/// A ring, a millimetre wider than the one of the number before.
fn ring(number: i32) -> Vec<[i32; 2]> {
    let radius = 1_000.0 * f64::from(number);
    let around = (0..RING).map(|k| TAU * k as f64 / RING as f64);
    around
        .map(|angle| [angle.cos(), angle.sin()].map(|part| (radius * part).round() as i32))
        .collect()
}

/// A layer, with the tables for depths and parents.
struct Layer {
    points: Vec<i32>,
    ends: Vec<u32>,
    depths: Vec<u32>,
    parents: Vec<u32>,
}

impl Layer {
    fn new(contours: impl Iterator<Item = Vec<[i32; 2]>>) -> Self {
        let (mut points, mut ends) = (Vec::new(), Vec::new());
        for contour in contours {
            points.extend(contour.concat());
            ends.push(points.len() as u32 / 2);
        }
        Layer {
            depths: vec![JUNK; ends.len()],
            parents: vec![JUNK; ends.len()],
            points,
            ends,
        }
    }
}

impl Subject for Layer {
    type Answer = ();
    type Left = [Vec<u32>; 2];

    fn size(&self) -> usize {
        self.points.len() / 2
    }

    fn calls(&self) -> usize {
        1
    }

    fn refill(&mut self) {
        self.depths.fill(JUNK);
        self.parents.fill(JUNK);
    }

    fn call(&mut self, version: Version, _call: usize) {
        let nesting = black_box(match version {
            Version::Library => wadroles::nesting,
            Version::Unproved => unproved::nesting,
        });
        let layer = black_box(GivenLayer {
            points: &self.points,
            ends: &self.ends,
        });
        let mut tables = NestTables {
            depths: &mut self.depths,
            parents: &mut self.parents,
        };
        nesting(layer, &mut tables).expect("the layer is right");
    }

    fn left(&self) -> Self::Left {
        [self.depths.clone(), self.parents.clone()]
    }
}
