use super::FlatLayer;
use crate::harness::{call_c, refused, Answer, Operation};
use wadroles::raw::wadroles_clean;

/// The operation "Clean".
pub struct Clean;

/// What Clean and Nesting read: the tables of a layer.
#[derive(Clone, Debug, PartialEq, Eq)]
pub struct GivenLayer {
    pub points: Vec<i32>,
    pub ends: Vec<u32>,
}

impl GivenLayer {
    pub fn new(points: &[i32], ends: &[u32]) -> Self {
        GivenLayer {
            points: points.to_vec(),
            ends: ends.to_vec(),
        }
    }

    /// Of these contours, whose tables are the layer.
    pub fn of(contours: &[Vec<[i32; 2]>]) -> Self {
        let (mut points, mut ends) = (Vec::new(), Vec::new());
        for contour in contours {
            points.extend(contour.concat());
            ends.push(points.len() as u32 / 2);
        }
        GivenLayer { points, ends }
    }
}

impl Operation for Clean {
    const NAME: &'static str = "clean";
    const REFUSALS: &'static [u32] = &[1, 2, 9];
    type Input = GivenLayer;
    type Tables = FlatLayer;
    /// The counts of contours and points.
    type Values = (usize, usize);

    fn lengths(input: &GivenLayer) -> Vec<usize> {
        vec![input.points.len(), input.ends.len()]
    }

    fn product(input: &GivenLayer, tables: &mut FlatLayer) -> Answer<Self::Values> {
        let layer = wadroles::GivenLayer {
            points: &input.points,
            ends: &input.ends,
        };
        wadroles::clean(layer, &mut tables.lend())
            .map(|counts| (counts.contours, counts.points))
            .map_err(refused)
    }

    fn call_c(input: &GivenLayer, tables: &mut FlatLayer, out: &mut [u64; 4]) -> u32 {
        call_c!(wadroles_clean(
            read input.points,
            read input.ends,
            lend tables.points,
            lend tables.ends,
        ), out)
    }

    fn oracle(input: &GivenLayer, tables: &mut FlatLayer) -> Answer<Self::Values> {
        let (points, ends) = (tables.points.table(), tables.ends.table());
        oracle::clean(&input.points, &input.ends, points, ends)
            .map(|layer| (layer.contours, layer.points))
            .map_err(|r| (r.number, r.place))
    }

    fn words(_input: &GivenLayer, (contours, points): Self::Values) -> Vec<u64> {
        vec![contours as u64, points as u64]
    }
}
