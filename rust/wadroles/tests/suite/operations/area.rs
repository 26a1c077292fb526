use crate::harness::{call_c, refused, Answer, Operation};
use wadroles::raw::wadroles_area;

/// The operation "Area".
pub struct Area;

impl Operation for Area {
    const NAME: &'static str = "area";
    const REFUSALS: &'static [u32] = &[1, 2];
    /// The points, x and y of each.
    type Input = Vec<i32>;
    type Tables = ();
    /// The doubled area.
    type Values = i64;

    fn lengths(_points: &Vec<i32>) -> Vec<usize> {
        Vec::new()
    }

    fn product(points: &Vec<i32>, (): &mut ()) -> Answer<i64> {
        wadroles::area(points).map_err(refused)
    }

    fn call_c(points: &Vec<i32>, (): &mut (), out: &mut [u64; 4]) -> u32 {
        call_c!(wadroles_area(read points,), out)
    }

    fn oracle(points: &Vec<i32>, (): &mut ()) -> Answer<i64> {
        oracle::area(points).map_err(|r| (r.number, r.place))
    }

    fn words(_points: &Vec<i32>, doubled: i64) -> Vec<u64> {
        vec![doubled as u64]
    }
}
