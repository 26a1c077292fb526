use crate::comparison::{Bench, Comparison, Figure, Kind, Row};
use crate::unproved;
use crate::versions::{Subject, Version};
use meshes::{Random, MAX_COORDINATE};
use std::hint::black_box;
use wadroles::MAX_POINTS;

const TIMES_OVER: usize = 20;

/// Area: by size, and for each point.
pub fn benches() -> Vec<Box<dyn Bench>> {
    vec![Box::new(by_size()), Box::new(by_points())]
}

fn by_size() -> Comparison<Contours> {
    let heading = format!("area, {TIMES_OVER} times over");
    let sizes = [MAX_POINTS / 4, MAX_POINTS / 2, MAX_POINTS];
    let long = Kind::new("long contour", sizes, |points| Contours {
        times_over: TIMES_OVER,
        ..Contours::new(points, points)
    });
    Comparison::new(heading, "points", vec![long])
}

/// As many points as a layer may have, in contours of 3, of 100 and in one. Growth is from one of
/// these to the next.
fn by_points() -> Comparison<Contours> {
    let rows = vec![
        Row::new("contours of 3 points", || Contours::new(MAX_POINTS, 3)),
        Row::new("contours of 100 points", || Contours::new(MAX_POINTS, 100)),
        Row::new("one contour", || Contours::new(MAX_POINTS, MAX_POINTS)),
    ];
    Comparison {
        figure: Figure::Each,
        ..Comparison::new("area for each point", "points", vec![Kind { rows }])
    }
}

/// Contours one after another, all of the same length but the last, which may be shorter.
struct Contours {
    points: Vec<i32>,
    length: usize,
    times_over: usize,
}

impl Contours {
    /// Random points all over the range.
    fn new(count: usize, length: usize) -> Self {
        let mut random = Random::new(1);
        let range = -MAX_COORDINATE..=MAX_COORDINATE;
        Contours {
            points: (0..2 * count)
                .map(|_| random.within(range.clone()))
                .collect(),
            length,
            times_over: 1,
        }
    }
}

impl Subject for Contours {
    type Answer = i64;
    type Left = ();

    fn size(&self) -> usize {
        self.points.len() / 2
    }

    fn calls(&self) -> usize {
        self.times_over
    }

    fn refill(&mut self) {}

    fn call(&mut self, version: Version, _call: usize) -> i64 {
        let area = black_box(match version {
            Version::Library => wadroles::area,
            Version::Unproved => unproved::area,
        });
        let contours = black_box(&self.points).chunks(2 * self.length);
        contours
            .map(|points| area(points).expect("the points are in range"))
            .sum()
    }

    fn left(&self) {}
}
