//! What the specification says of every preview, asked of the product: the origin taken off again gives
//! back the contours. The oracle is not asked.

use super::random::{random_contours, random_whole};
use crate::harness::{Case, Operation, Rounds};
use crate::operations::{Drawing, PreviewRun};
use wadroles::{preview, GivenLayer, Origin, PathCall};

/// The points and ends that calls draw, after the origin has been taken off in floats of 32 bits.
fn taken_off(calls: &[PathCall], origin: Origin) -> (Vec<i32>, Vec<u32>) {
    let (mut points, mut ends) = (Vec::new(), Vec::new());
    let mut open = false;
    for &call in calls {
        match call {
            PathCall::Move(x, y) | PathCall::Line(x, y) => {
                assert_eq!(matches!(call, PathCall::Line(..)), open);
                open = true;
                for number in [x - origin.x, y - origin.y] {
                    let whole = number as i32;
                    assert_eq!(whole as f32, number, "it has a fraction");
                    points.push(whole);
                }
            }
            PathCall::Close => {
                assert!(open, "nothing to close");
                open = false;
                ends.push(points.len() as u32 / 2);
            }
        }
    }
    assert!(!open, "a contour is not closed");
    (points, ends)
}

/// All calls of a layer as the product gives them one by one.
fn one_by_one(drawing: &Drawing, origin: Origin) -> Vec<PathCall> {
    let layer = GivenLayer {
        points: &drawing.points,
        ends: &drawing.ends,
    };
    let call = |number| preview(layer, origin, number).unwrap();
    (0..).map_while(call).collect()
}

/// All calls of a layer as the product fills them in one run.
fn in_one_run(drawing: &Drawing) -> Vec<PathCall> {
    let mut case = Case::<PreviewRun>::exact(drawing.clone());
    let filled = case.run(PreviewRun::product).unwrap();
    let (kinds, xy) = (case.tables.kinds.view(), case.tables.xy.view());
    let pairs = xy.chunks_exact(2).map(|pair| (pair[0], pair[1]));
    let calls = kinds[..filled].iter().zip(pairs);
    calls
        .map(|(kind, (x, y))| match kind {
            0 => PathCall::Move(x, y),
            1 => PathCall::Line(x, y),
            2 => PathCall::Close,
            _ => panic!("there is no kind {kind}"),
        })
        .collect()
}

#[test]
fn the_origin_taken_off_gives_back_the_contours() {
    let share = Rounds::one_in(10, "previews, taken back").share(|random| {
        let [x, y] = [(); 2].map(|()| random_whole(random));
        let drawing = Drawing::of(&random_contours(random), [x, y]);
        let origin = Origin { x, y };
        let calls = one_by_one(&drawing, origin);
        assert_eq!(in_one_run(&drawing), calls);
        assert_eq!(calls.len(), drawing.calls());
        let given = (drawing.points, drawing.ends);
        assert_eq!(taken_off(&calls, origin), given);
        given.1.len() > 1
    });
    assert!(share > 0.2, "too few layers have several contours");
}
