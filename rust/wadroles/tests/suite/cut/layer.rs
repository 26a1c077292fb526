//! A layer as the product gives it, taken out of the lent tables by contour and area.

use crate::harness::{agree, Case, Operation};
use crate::operations::{Cut, Given};
use wadroles::{area, contour};

/// The contours of a layer. Each part of a list is for the contour of that number.
#[derive(Clone, Debug, Default, PartialEq, Eq)]
pub struct Layer {
    pub names: Vec<Vec<u32>>,
    pub points: Vec<Vec<[i32; 2]>>,
    pub ends: Vec<u32>,
    pub areas: Vec<i64>,
}

impl Layer {
    pub fn contours(&self) -> usize {
        self.ends.len()
    }

    /// The sum of the doubled areas.
    pub fn area(&self) -> i64 {
        self.areas.iter().sum()
    }
}

/// The layer of a cut that is not refused, on which product and oracle agree.
#[track_caller]
pub fn layer(given: Given) -> Layer {
    let mut case = Case::exact(given);
    let counts = agree(&mut case).unwrap();
    taken_out(&case, counts)
}

/// The layer that the product cuts, whatever the oracle says.
#[track_caller]
pub fn product_layer(given: Given) -> Layer {
    let mut case = Case::exact(given);
    let counts = case.run(Cut::product).unwrap();
    taken_out(&case, counts)
}

fn taken_out(case: &Case<Cut>, (contours, count): (usize, usize)) -> Layer {
    let names = &case.tables.names.view()[..count];
    let points = &case.tables.points.view()[..2 * count];
    let ends = &case.tables.ends.view()[..contours];

    let starts = [0].iter().chain(ends);
    let parts = || (0..contours).map(|j| contour(points, ends, j));
    Layer {
        names: starts
            .zip(ends)
            .map(|(&start, &end)| names[start as usize..end as usize].to_vec())
            .collect(),
        points: parts().map(pairs).collect(),
        ends: ends.to_vec(),
        areas: parts().map(|part| area(part).unwrap()).collect(),
    }
}

/// The contours that the product cuts at a height, x and y of each point.
#[track_caller]
pub fn contours(given: &Given, height: i32) -> Vec<Vec<[i32; 2]>> {
    product_layer(given.clone().at(height)).points
}

fn pairs(points: &[i32]) -> Vec<[i32; 2]> {
    points.chunks(2).map(|p| [p[0], p[1]]).collect()
}
