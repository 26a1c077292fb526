use crate::harness::{call_c, Answer, Operation};
use wadroles::raw::wadroles_contour;

/// The operation "Contour j".
pub struct Contour;

/// What Contour j reads.
#[derive(Clone, Debug, PartialEq, Eq)]
pub struct Ends {
    pub points: Vec<i32>,
    pub ends: Vec<u32>,
    pub j: usize,
}

impl Ends {
    pub fn new(points: &[i32], ends: &[u32], j: usize) -> Self {
        Ends {
            points: points.to_vec(),
            ends: ends.to_vec(),
            j,
        }
    }
}

/// Where a part of the points begins, 0 where it is empty, and its length.
fn place(part: &[i32], points: &[i32]) -> (usize, usize) {
    if part.is_empty() {
        return (0, 0);
    }
    let bytes = part.as_ptr() as usize - points.as_ptr() as usize;
    let first = bytes / size_of::<i32>();
    assert_eq!(part, &points[first..first + part.len()]);
    (first, part.len())
}

impl Operation for Contour {
    const NAME: &'static str = "contour";
    const REFUSALS: &'static [u32] = &[];
    type Input = Ends;
    type Tables = ();
    /// The position of the part's first element, 0 where it is empty, and its length.
    type Values = (usize, usize);

    fn lengths(_input: &Ends) -> Vec<usize> {
        Vec::new()
    }

    fn product(input: &Ends, (): &mut ()) -> Answer<(usize, usize)> {
        let Ends { points, ends, j } = input;
        Ok(place(wadroles::contour(points, ends, *j), points))
    }

    fn call_c(input: &Ends, (): &mut (), out: &mut [u64; 4]) -> u32 {
        call_c!(wadroles_contour(
            read input.points,
            read input.ends,
            number input.j,
        ), out)
    }

    fn oracle(input: &Ends, (): &mut ()) -> Answer<(usize, usize)> {
        let Ends { points, ends, j } = input;
        Ok(place(oracle::contour(points, ends, *j), points))
    }

    fn words(_input: &Ends, (first, length): (usize, usize)) -> Vec<u64> {
        vec![first as u64, length as u64]
    }
}
