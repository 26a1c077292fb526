//! Cases worked by hand.

use super::{assert_answers, three_contours, triangle, M};
use crate::harness::{agree, Case, Operation};
use crate::inputs::{part_p, LAYER_FILE_P};
use crate::operations::{Cut, Drawing, LayerFile, Preview, PreviewRun, ReadLayer};
use wadroles::PathCall::{self, Close, Line, Move};
use wadroles::{preview, GivenLayer, Origin};

/// All calls of a layer as the product gives them one by one, up to the answer that there is none.
#[track_caller]
fn calls(drawing: &Drawing) -> Vec<PathCall> {
    let [x, y] = drawing.origin.map(f32::from_bits);
    let layer = GivenLayer {
        points: &drawing.points,
        ends: &drawing.ends,
    };
    let call = |number| preview(layer, Origin { x, y }, number).unwrap();
    (0..).map_while(call).collect()
}

#[test]
fn part_p_at_height_5() {
    let drawing = triangle([0.0; 2]);
    let expected = [Move(5.0, 0.0), Line(0.0, 5.0), Line(0.0, 0.0), Close];
    assert_eq!(calls(&drawing), expected);
    for (number, kind) in [0, 1, 1, 2, 3, 3].into_iter().enumerate() {
        let left = 4usize.saturating_sub(number);
        assert_answers(&drawing.clone().from(number), kind, left);
    }
}

#[test]
fn part_p_at_height_5_round_an_origin() {
    let drawing = triangle([100.0, -20.0]);
    let expected = [
        Move(105.0, -20.0),
        Line(100.0, -15.0),
        Line(100.0, -20.0),
        Close,
    ];
    assert_eq!(calls(&drawing), expected);
    let mut case = Case::<PreviewRun>::exact(drawing);
    assert_eq!(agree(&mut case), Ok(4));
    assert_eq!(case.tables.kinds.view(), [0, 1, 1, 2]);
    let drawn = [105.0, -20.0, 100.0, -15.0, 100.0, -20.0];
    assert_eq!(case.tables.xy.view()[..6], drawn);
}

#[test]
fn a_cut_and_a_read_layer_are_drawn_alike() {
    let mut cut = Case::<Cut>::exact(part_p());
    let (contours, points) = cut.run(Cut::product).unwrap();
    let drawing = Drawing::new(
        &cut.tables.points.view()[..2 * points],
        &cut.tables.ends.view()[..contours],
        [0.0; 2],
    );
    assert_eq!(drawing, triangle([0.0; 2]));

    let mut read = Case::<ReadLayer>::exact(LayerFile::new(&LAYER_FILE_P, 1));
    assert_eq!(read.run(ReadLayer::product), Ok((4, 5, 1, 3)));
    let (points, ends) = (read.tables.points.view(), read.tables.ends.view());
    assert_eq!(drawing, Drawing::new(points, ends, [0.0; 2]));
}

#[test]
fn a_layer_without_contours_has_no_calls() {
    let empty = Drawing::new(&[], &[], [1.0, 2.0]);
    assert_eq!(calls(&empty), []);
    for number in [0, 1, usize::MAX] {
        assert_answers(&empty.clone().from(number), 3, 0);
    }
}

#[test]
fn contours_stand_one_after_another() {
    let expected = [
        Move(-891.0, -801.0),
        Line(-691.0, -601.0),
        Line(-491.0, -401.0),
        Close,
        Move(-291.0, -201.0),
        Line(-91.0, -1.0),
        Close,
        Move(109.0, 199.0),
        Line(309.0, 399.0),
        Line(509.0, 599.0),
        Line(709.0, 799.0),
        Close,
    ];
    assert_eq!(calls(&three_contours([10.0, 0.0])), expected);
}

#[test]
fn every_call_of_small_layers_and_numbers_past_the_last() {
    let kinds = [0, 1, 1, 2, 0, 1, 2, 0, 1, 1, 1, 2];
    let drawing = three_contours([-7.0, 9.0]);
    for (number, kind) in kinds.into_iter().enumerate() {
        assert_answers(&drawing.clone().from(number), kind, 12 - number);
    }
    for past in [12, 13, 20, 1 << 31, (1 << 32) - 1, 1 << 32, usize::MAX / 2] {
        assert_answers(&drawing.clone().from(past), 3, 0);
    }
    for past in usize::MAX - 20..=usize::MAX {
        assert_answers(&drawing.clone().from(past), 3, 0);
    }
}

#[test]
fn a_close_and_a_number_past_the_last_leave_the_floats() {
    let drawing = three_contours([0.0; 2]);
    for number in [3, 6, 11, 12, usize::MAX] {
        let case = Case::<Preview>::lent(drawing.clone().from(number), [2]);
        let mut called = case.clone();
        agree(&mut called).unwrap();
        assert_eq!(called.tables.xy.difference(&case.tables.xy), None);
    }
}

#[test]
fn equal_points_are_drawn_each() {
    let same = Drawing::new(&[0; 8], &[2, 4], [3.0, 3.0]);
    let at = [Move(3.0, 3.0), Line(3.0, 3.0), Close];
    assert_eq!(calls(&same), at.repeat(2));
}

#[test]
fn a_sum_of_zero_has_no_sign() {
    for (point, origin) in [
        ([0, 0], [0.0, 0.0]),
        ([0, 0], [-0.0, -0.0]),
        ([7, -7], [-7.0, 7.0]),
        ([M, -M], [-M as f32, M as f32]),
    ] {
        let drawing = Drawing::new(&[point, point].concat(), &[2], origin);
        assert_answers(&drawing, 0, 3);
        let [Move(x, y), ..] = calls(&drawing)[..] else {
            panic!("it begins with a move");
        };
        assert_eq!([x, y].map(f32::to_bits), [0, 0], "{point:?}");
    }
}

#[test]
fn the_largest_sums_are_exact() {
    let corners = [[M, M], [-M, M], [-M, -M], [M, -M]];
    let inside = [[M - 1, 1 - M], [1 - M, M - 1]];
    for x in [-M, 1 - M, M - 1, M] {
        for y in [-M, 1 - M, M - 1, M] {
            let origin = [x as f32, y as f32];
            let drawing = Drawing::of(&[corners.to_vec(), inside.to_vec()], origin);
            assert_answers(&drawing, 0, 8);
            let mut sums = [&corners[..], &inside].concat().into_iter();
            for call in calls(&drawing) {
                if let Move(drawn_x, drawn_y) | Line(drawn_x, drawn_y) = call {
                    let [px, py] = sums.next().unwrap();
                    assert_eq!(f64::from(drawn_x), f64::from(px + x));
                    assert_eq!(f64::from(drawn_y), f64::from(py + y));
                }
            }
            assert_eq!(sums.next(), None);
        }
    }
}
