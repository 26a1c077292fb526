//! Nesting: depths and parents worked by hand, limits, refusals, promises, random layers and layers of
//! meshes, and wrong ways to find them.

mod every_small;
mod faults;
mod inside;
mod layers;
mod limits;
mod promises;
mod random;
mod refusals;
mod rings;
mod worked;
mod wrong_nesting;

use crate::harness::{agree, assert_answer, Case, Operation, Tables};
use crate::operations::{GivenLayer, NestTables, Nesting};

/// The farthest a coordinate may be from zero.
const M: i32 = 1_048_576;

/// The parent of a contour that lies in no other.
const NONE: u32 = 4_294_967_295;

type Contour = Vec<[i32; 2]>;

/// Contours, and the depth and the parent of each.
type Worked = (Vec<Contour>, Vec<(u32, u32)>);

/// Counterclockwise from its lower left corner.
fn rectangle(x: i32, y: i32, width: i32, height: i32) -> Contour {
    let (right, upper) = (x + width, y + height);
    vec![[x, y], [right, y], [right, upper], [x, upper]]
}

fn square(x: i32, y: i32, side: i32) -> Contour {
    rectangle(x, y, side, side)
}

/// A contour that is no more than a point, so that nothing lies in it.
fn spot(point: [i32; 2]) -> Contour {
    vec![point; 2]
}

/// The contour from its point of this number on.
fn started(mut contour: Contour, start: usize) -> Contour {
    contour.rotate_left(start);
    contour
}

/// The contour the other way round, from the same start.
fn turned(mut contour: Contour) -> Contour {
    contour[1..].reverse();
    contour
}

/// The depth and the parent of each contour of a layer.
fn found(layer: &GivenLayer, tables: &NestTables) -> Vec<(u32, u32)> {
    let both = tables.depths.view().iter().zip(tables.parents.view());
    let found = both.map(|(&depth, &parent)| (depth, parent));
    found.take(layer.ends.len()).collect()
}

/// What the product finds.
#[track_caller]
fn nested(contours: &[Contour]) -> Vec<(u32, u32)> {
    let mut case = Case::<Nesting>::exact(GivenLayer::of(contours));
    case.run(Nesting::product).unwrap();
    found(&case.input, &case.tables)
}

/// Asserts depth and parent of each contour, in the first entries of tables that are as long as need be
/// and of longer ones.
#[track_caller]
fn assert_nested(contours: &[Contour], expected: &[(u32, u32)]) {
    let count = contours.len();
    for lengths in [[count; 2], [count + 1, count + 4]] {
        let mut case = Case::<Nesting>::lent(GivenLayer::of(contours), lengths);
        let mut filled = case.tables.clone();
        assert_eq!(agree(&mut case), Ok(()));
        assert_eq!(found(&case.input, &case.tables), expected, "{contours:?}");
        for (i, &(depth, parent)) in expected.iter().enumerate() {
            filled.depths.table()[i] = depth;
            filled.parents.table()[i] = parent;
        }
        assert_eq!(case.tables.difference(&filled), None, "{contours:?}");
    }
}

#[track_caller]
fn assert_all_nested(worked: Vec<Worked>) {
    for (contours, expected) in worked {
        assert_nested(&contours, &expected);
    }
}

/// Asserts number and place of a refusal, also where the tables to be filled are empty.
#[track_caller]
fn assert_refused(layer: &GivenLayer, number: u32, place: u64) {
    let exact = Case::<Nesting>::exact(layer.clone());
    assert_answer(&exact, Err((number, place)));
    let none = Case::<Nesting>::lent(layer.clone(), [0, 0]);
    assert_answer(&none, Err((number, place)));
}

/// The contours of all cases worked by hand.
fn by_hand() -> Vec<Vec<Contour>> {
    let worked = worked::all().into_iter().map(|(contours, _)| contours);
    let lying = inside::all().iter().map(inside::with_spots).collect();
    [worked.collect(), lying, limits::exact()].concat()
}
