use super::{exact, gives, lent, refuses};
use crate::harness::{Case, Operation};
use crate::operations::{Drawing, Preview, PreviewRun};

/// Part P's layer at height 5.
fn triangle(number: usize) -> Drawing {
    Drawing::new(&[5, 0, 0, 5, 0, 0], &[3], [100.0, -20.0]).from(number)
}

/// No layer, or tables that are none.
fn of(points: &[i32], ends: &[u32]) -> Drawing {
    Drawing::new(points, ends, [0.0, -0.0])
}

#[test]
fn preview_gives_the_kind_and_writes_two_floats() {
    for (number, kind, drawn) in [
        (0, 0, Some([105.0, -20.0])),
        (1, 1, Some([100.0, -15.0])),
        (2, 1, Some([100.0, -20.0])),
        (3, 2, None),
        (4, 3, None),
        (usize::MAX, 3, None),
    ] {
        let before = Case::<Preview>::lent(triangle(number), [3]);
        let mut case = before.clone();
        assert_eq!(case.call_c(), gives(&[kind]));
        let left = case.tables.xy.view();
        match drawn {
            Some(drawn) => assert_eq!(left[..2], drawn),
            None => assert_eq!(case.tables.xy, before.tables.xy),
        }
        assert_eq!(left[2].to_bits(), before.tables.xy.view()[2].to_bits());
    }
}

#[test]
fn preview_of_a_run_gives_how_many_it_filled() {
    for (number, lengths, filled) in [
        (0, [4, 8], 4),
        (0, [9, 19], 4),
        (0, [3, 8], 3),
        (0, [4, 7], 3),
        (0, [4, 1], 0),
        (0, [4, 0], 0),
        (0, [0, 8], 0),
        (0, [0, 0], 0),
        (3, [4, 8], 1),
        (4, [4, 8], 0),
        (usize::MAX, [4, 8], 0),
    ] {
        let output = lent::<PreviewRun>(triangle(number), &lengths);
        assert_eq!(output, gives(&[filled]), "from {number} into {lengths:?}");
    }
    let mut case = Case::<PreviewRun>::exact(triangle(0));
    case.call_c();
    assert_eq!(case.tables.kinds.view(), [0, 1, 1, 2]);
    let drawn = [105.0, -20.0, 100.0, -15.0, 100.0, -20.0];
    assert_eq!(case.tables.xy.view()[..6], drawn);
}

#[test]
fn previews_take_null_for_empty_tables() {
    assert_eq!(exact::<Preview>(of(&[], &[])), gives(&[3]));
    assert_eq!(exact::<PreviewRun>(of(&[], &[])), gives(&[0]));
    assert_eq!(lent::<PreviewRun>(of(&[], &[]), &[0, 0]), gives(&[0]));
}

fn refuse_alike<O: Operation<Input = Drawing>>(lengths: &[usize]) {
    let bad_origin = |x, y| Drawing::new(&[1], &[], [x, y]);
    for (drawing, number, place) in [
        (bad_origin(0.5, 0.0), 17, 0),
        (bad_origin(0.0, f32::NAN), 17, 0),
        (bad_origin(f32::INFINITY, 0.0), 17, 0),
        (of(&[1], &[]), 1, 0),
        (of(&[1, 2], &[]), 1, 0),
        (of(&[], &[0]), 1, 0),
        (of(&[1, 2, 3, 4], &[1, 2]), 1, 0),
        (of(&[1, 2, 1_048_577, 4], &[2]), 2, 2),
        (of(&[1, 2, 3, i32::MIN], &[2]), 2, 3),
    ] {
        let output = lent::<O>(drawing.clone(), lengths);
        assert_eq!(output, refuses(number, place), "{drawing:?}");
    }
}

#[test]
fn previews_write_the_place_of_a_refusal() {
    refuse_alike::<Preview>(&[2]);
    refuse_alike::<PreviewRun>(&[4, 8]);
    refuse_alike::<PreviewRun>(&[0, 0]);
}
