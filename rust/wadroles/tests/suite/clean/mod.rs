mod every_small;
mod faults;
mod limits;
mod promises;
mod random;
mod refusals;
mod worked;

pub use promises::cleaned;
pub use random::meaningless;

use crate::harness::{agree, assert_answer, Case, Tables};
use crate::operations::{Clean, GivenLayer};

/// The farthest a coordinate may be from zero.
const M: i32 = 1_048_576;

/// A contour of points named by capitals. A, B and C have one x, and A, D and G one y.
fn contour(letters: &str) -> Vec<[i32; 2]> {
    let numbers = letters.bytes().map(|letter| i32::from(letter - b'A'));
    numbers.map(|n| [n / 3, n % 3]).collect()
}

fn contours(letters: &[&str]) -> Vec<Vec<[i32; 2]>> {
    letters.iter().map(|letters| contour(letters)).collect()
}

fn layer(letters: &[&str]) -> GivenLayer {
    GivenLayer::of(&contours(letters))
}

/// Asserts that cleaning leaves these contours, in the first entries of tables that are as long as need
/// be and of longer ones.
#[track_caller]
fn assert_cleaned(before: &[&str], after: &[&str]) {
    assert_leaves(layer(before), &layer(after));
}

#[track_caller]
fn assert_leaves(before: GivenLayer, after: &GivenLayer) {
    let (points, ends) = (before.points.len(), before.ends.len());
    for lengths in [[points, ends], [points + 5, ends + 2]] {
        let mut case = Case::<Clean>::lent(before.clone(), lengths);
        let mut filled = case.tables.clone();
        filled.points.table()[..after.points.len()].copy_from_slice(&after.points);
        filled.ends.table()[..after.ends.len()].copy_from_slice(&after.ends);
        let counts = (after.ends.len(), after.points.len() / 2);
        assert_eq!(agree(&mut case), Ok(counts), "{before:?}");
        assert_eq!(case.tables.difference(&filled), None, "{before:?}");
    }
}

/// Asserts number and place of a refusal, also where the tables to be filled are empty.
#[track_caller]
fn assert_refused(layer: &GivenLayer, number: u32, place: u64) {
    let exact = Case::<Clean>::exact(layer.clone());
    assert_answer(&exact, Err((number, place)));
    let none = Case::<Clean>::lent(layer.clone(), [0, 0]);
    assert_answer(&none, Err((number, place)));
}
