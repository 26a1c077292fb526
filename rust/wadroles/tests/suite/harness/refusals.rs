//! Refusals one by one and two at a time, each with its number and place.

use super::{agree, number, written, Case, Operation, Tally};

/// A change of a right case, and the number and the place of the refusal that it brings about.
pub type Refused<O> = (Box<dyn Fn(&mut Case<O>)>, u32, u64);

/// Asserts number and place of each refusal, also as the C function tells them; and that together they
/// are all refusals of the operation, at more than one place those that have places. Gives the answers
/// met.
#[track_caller]
pub fn assert_refusals<O: Operation>(right: impl Fn() -> Case<O>, refused: &[Refused<O>]) -> Tally {
    let mut met = Tally::default();
    for (at, (change, number, place)) in refused.iter().enumerate() {
        let mut case = right().changed(change);
        let name = format!("{}, change {at}", O::NAME);
        let output = case.clone().call_c();
        assert_eq!(output, (*number, written(&[*place])), "{name}");
        let answer = agree(&mut case);
        assert_eq!(answer, Err((*number, *place)), "{name}");
        met.add(&answer);
    }
    met.require_refusals(O::REFUSALS, 1);
    met
}

/// Asserts of every two refusals that the earlier one is answered, in whichever ways the faults of
/// both are put into a right case.
#[track_caller]
pub fn assert_earlier_wins<O: Operation>(
    right: impl Fn() -> Case<O>,
    ways: usize,
    spoil: impl Fn(&mut Case<O>, u32, usize),
) {
    for (i, &earlier) in O::REFUSALS.iter().enumerate() {
        for &later in &O::REFUSALS[i + 1..] {
            for way in 0..ways * ways {
                let mut case = right();
                spoil(&mut case, earlier, way / ways);
                spoil(&mut case, later, way % ways);
                let met = number(&agree(&mut case));
                assert_eq!(met, earlier, "{}, with {later}, way {way}", O::NAME);
            }
        }
    }
}

/// Asserts for each refusal that of two places the least is named, whichever fault came first.
#[track_caller]
pub fn assert_least_named<O: Operation>(
    right: impl Fn() -> Case<O>,
    places: &[(u32, u64)],
    spoil: impl Fn(&mut Case<O>, u32, usize),
) {
    for &(refusal, place) in places {
        for ways in [[0, 1], [1, 0]] {
            let mut case = right();
            for way in ways {
                spoil(&mut case, refusal, way);
            }
            let answer = agree(&mut case);
            assert_eq!(answer, Err((refusal, place)), "{}", O::NAME);
        }
    }
}
