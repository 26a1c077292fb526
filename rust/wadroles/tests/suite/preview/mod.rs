//! Preview and Preview of a run.

mod faults;
mod limits;
mod origins;
mod promises;
mod random;
mod refusals;
mod runs;
mod worked;

pub use random::{random_end, random_number, random_origin, spoil_layer};

use crate::harness::{agree, Answer, Case};
use crate::operations::{Drawing, Preview, PreviewRun};

/// The farthest a coordinate may be from zero, and one of an origin.
const M: i32 = 1_048_576;

/// The layer of part P at height 5, round this origin.
fn triangle(origin: [f32; 2]) -> Drawing {
    Drawing::new(&[5, 0, 0, 5, 0, 0], &[3], origin)
}

/// Three contours, of three points, of two and of four. No two coordinates are the same.
fn three_contours(origin: [f32; 2]) -> Drawing {
    let points: Vec<i32> = (0..18).map(|i| 100 * i - 901).collect();
    Drawing::new(&points, &[3, 5, 9], origin)
}

/// Asserts what both operations answer: the kind of the call of the number, and how many are filled
/// into tables that hold all.
#[track_caller]
fn assert_answers(drawing: &Drawing, kind: u64, filled: usize) {
    let answers = (agree_on_call(drawing), agree_on_run(drawing));
    assert_eq!(answers, (Ok(kind), Ok(filled)));
}

/// Asserts that both operations refuse, for several numbers of a call.
#[track_caller]
fn assert_refused(drawing: &Drawing, number: u32, place: u64) {
    for from in [0, 1, drawing.calls(), usize::MAX] {
        let drawing = drawing.clone().from(from);
        assert_eq!(agree_on_call(&drawing), Err((number, place)), "call {from}");
        assert_eq!(agree_on_run(&drawing), Err((number, place)), "from {from}");
    }
}

#[track_caller]
fn agree_on_call(drawing: &Drawing) -> Answer<u64> {
    agree(&mut Case::<Preview>::lent(drawing.clone(), [5]))
}

/// With tables that have an entry more than all calls take, and of floats one more than two.
#[track_caller]
fn agree_on_run(drawing: &Drawing) -> Answer<usize> {
    let calls = drawing.calls();
    let lengths = [calls + 1, 2 * calls + 3];
    agree(&mut Case::<PreviewRun>::lent(drawing.clone(), lengths))
}
