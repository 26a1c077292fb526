use super::{exact, gives, lent, refuses};
use crate::harness::{Case, UNTOUCHED};
use crate::operations::{GivenLayer, Nesting};

fn of(points: &[i32], ends: &[u32]) -> GivenLayer {
    GivenLayer::new(points, ends)
}

/// A triangle, and one within it.
fn two_contours() -> GivenLayer {
    of(&[0, 0, 90, 0, 0, 90, 5, 5, 9, 5, 5, 9], &[3, 6])
}

#[test]
fn nesting_fills_both_tables_and_leaves_every_word() {
    let mut case = Case::<Nesting>::lent(two_contours(), [3, 3]);
    let before = case.tables.clone();
    assert_eq!(case.call_c(), (0, UNTOUCHED));
    let (depths, parents) = (case.tables.depths.view(), case.tables.parents.view());
    assert_eq!(depths[..2], [0, 1]);
    assert_eq!(parents[..2], [u32::MAX, 0]);
    assert_eq!(depths[2], before.depths.view()[2]);
    assert_eq!(parents[2], before.parents.view()[2]);
}

#[test]
fn nesting_takes_null_for_empty_tables() {
    assert_eq!(exact::<Nesting>(of(&[], &[])), gives(&[]));
    assert_eq!(lent::<Nesting>(of(&[], &[]), &[5, 5]), gives(&[]));
    assert_eq!(lent::<Nesting>(two_contours(), &[0, 0]), refuses(9, 0));
    assert_eq!(exact::<Nesting>(of(&[], &[0])), refuses(1, 0));
    assert_eq!(exact::<Nesting>(of(&[1, 2], &[])), refuses(1, 0));
}

#[test]
fn nesting_writes_the_place_of_a_refusal() {
    for (layer, lengths, number, place) in [
        (of(&[1], &[]), [0, 0], 1, 0),
        (of(&[1, 2, 3, 4], &[1, 2]), [4, 2], 1, 0),
        (of(&[1, 2, 1_048_577, 4], &[2]), [1, 1], 2, 2),
        (of(&[1, 2, 3, i32::MIN], &[2]), [0, 0], 2, 3),
        (two_contours(), [1, 2], 9, 0),
        (two_contours(), [2, 1], 9, 0),
        (two_contours(), [0, 99], 9, 0),
    ] {
        let output = lent::<Nesting>(layer.clone(), &lengths);
        assert_eq!(output, refuses(number, place), "{layer:?}");
    }
}
