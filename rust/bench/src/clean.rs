use crate::comparison::{Bench, Comparison, Kind};
use crate::owned::JUNK;
use crate::unproved;
use crate::versions::{Subject, Version};
use meshes::{Random, MAX_COORDINATE};
use std::hint::black_box;
use wadroles::{Counts, FlatLayer, GivenLayer, MAX_POINTS};

/// The points of a small contour.
const SMALL: usize = 4;

const TIMES_OVER: usize = 10;

/// Clean: layers of which nothing goes, of which half the points go, and of which half the contours go.
pub fn benches() -> Vec<Box<dyn Bench>> {
    let sizes = [MAX_POINTS / 4, MAX_POINTS / 2, MAX_POINTS];
    let kinds = vec![
        Kind::new("long contour", sizes, |count| {
            Layer::new(random_points(count), count)
        }),
        Kind::new("small contours", sizes, |count| {
            Layer::new(random_points(count), SMALL)
        }),
        Kind::new("long, each point twice", sizes, |count| {
            Layer::new(twice(random_points(count / 2)), count)
        }),
        Kind::new("small, every second goes", sizes, |count| {
            Layer::new(every_second_of_two(random_points(count)), SMALL)
        }),
    ];
    let heading = format!("clean, {TIMES_OVER} times");
    vec![Box::new(Comparison::new(heading, "points", kinds))]
}

/// Random points all over the range.
fn random_points(count: usize) -> Vec<[i32; 2]> {
    let mut random = Random::new(1);
    let mut point = || [(); 2].map(|()| random.within(-MAX_COORDINATE..=MAX_COORDINATE));
    (0..count).map(|_| point()).collect()
}

fn twice(points: Vec<[i32; 2]>) -> Vec<[i32; 2]> {
    points.into_iter().flat_map(|point| [point; 2]).collect()
}

/// Of every second small contour two points are left, which stand in turn.
fn every_second_of_two(mut points: Vec<[i32; 2]>) -> Vec<[i32; 2]> {
    for contour in points.chunks_exact_mut(SMALL).step_by(2) {
        let [first, second] = [contour[0], contour[1]];
        contour.copy_from_slice(&[first, second, first, second]);
    }
    points
}

/// A layer, with the tables that it is cleaned into.
struct Layer {
    points: Vec<i32>,
    ends: Vec<u32>,
    clean_points: Vec<i32>,
    clean_ends: Vec<u32>,
}

impl Layer {
    /// In contours of so many points each.
    fn new(points: Vec<[i32; 2]>, contour: usize) -> Self {
        let ends = (contour..=points.len()).step_by(contour);
        let ends: Vec<u32> = ends.map(|end| end as u32).collect();
        Layer {
            clean_points: vec![JUNK as i32; 2 * points.len()],
            clean_ends: vec![JUNK; ends.len()],
            points: points.concat(),
            ends,
        }
    }
}

impl Subject for Layer {
    type Answer = Counts;
    type Left = (Vec<i32>, Vec<u32>);

    fn size(&self) -> usize {
        self.points.len() / 2
    }

    fn calls(&self) -> usize {
        TIMES_OVER
    }

    fn refill(&mut self) {
        self.clean_points.fill(JUNK as i32);
        self.clean_ends.fill(JUNK);
    }

    fn call(&mut self, version: Version, _call: usize) -> Counts {
        let clean = black_box(match version {
            Version::Library => wadroles::clean,
            Version::Unproved => unproved::clean,
        });
        let layer = black_box(GivenLayer {
            points: &self.points,
            ends: &self.ends,
        });
        let mut cleaned = FlatLayer {
            points: &mut self.clean_points,
            ends: &mut self.clean_ends,
        };
        clean(layer, &mut cleaned).expect("the layer is right")
    }

    fn left(&self) -> Self::Left {
        (self.clean_points.clone(), self.clean_ends.clone())
    }
}
