//! Runs of calls: from every number, into tables of every length.

use super::{three_contours, M};
use crate::harness::{agree, Case};
use crate::operations::{Drawing, PreviewRun};

/// Small layers.
fn small() -> Vec<Drawing> {
    vec![
        Drawing::new(&[], &[], [4.0, 4.0]),
        Drawing::new(&[1, 2, 3, 4], &[2], [-0.0, 7.0]),
        Drawing::new(&[5, 0, 0, 5, 0, 0], &[3], [-5.0, 0.0]),
        Drawing::new(&[M, -M, 3, 4, 0, 0, 9, 9], &[2, 4], [M as f32, -M as f32]),
        three_contours([100.0, -100.0]),
    ]
}

#[test]
fn every_run_into_tables_of_every_length() {
    for drawing in small() {
        let calls = drawing.calls();
        for number in 0..=calls + 2 {
            for kinds in 0..=calls + 2 {
                for xy in 0..=2 * calls + 5 {
                    let input = drawing.clone().from(number);
                    let filled = input.left().min(kinds).min(xy / 2);
                    let mut case = Case::<PreviewRun>::lent(input, [kinds, xy]);
                    assert_eq!(agree(&mut case), Ok(filled));
                }
            }
        }
    }
}

#[test]
fn runs_one_after_another_are_all_calls() {
    for drawing in small() {
        let calls = drawing.calls();
        let mut all = Case::<PreviewRun>::exact(drawing.clone());
        assert_eq!(agree(&mut all), Ok(calls));
        for length in 1..=calls + 1 {
            let mut number = 0;
            loop {
                let lengths = [length, 2 * length];
                let mut run = Case::<PreviewRun>::lent(drawing.clone().from(number), lengths);
                let filled = agree(&mut run).unwrap();
                let kinds = &all.tables.kinds.view()[number..number + filled];
                assert_eq!(&run.tables.kinds.view()[..filled], kinds);
                for (at, kind) in kinds.iter().enumerate() {
                    let [run_xy, all_xy] = [(&run, at), (&all, number + at)]
                        .map(|(case, call)| &case.tables.xy.view()[2 * call..2 * call + 2]);
                    assert!(*kind == 2 || run_xy == all_xy);
                }
                number += filled;
                if filled < length {
                    break;
                }
            }
            assert_eq!(number, calls);
        }
    }
}

#[test]
fn the_floats_of_a_close_and_later_entries_stay() {
    let case = Case::<PreviewRun>::lent(three_contours([0.0; 2]), [20, 41]);
    let mut called = case.clone();
    assert_eq!(agree(&mut called), Ok(12));
    let kept = |entry: usize| {
        let [before, after] = [&case, &called].map(|case| case.tables.xy.view()[entry]);
        before.to_bits() == after.to_bits()
    };
    for call in [3, 6, 11] {
        assert!(kept(2 * call) && kept(2 * call + 1), "close {call}");
    }
    assert!((24..41).all(kept));
    let (before, after) = (case.tables.kinds.view(), called.tables.kinds.view());
    assert_eq!(after[..12], [0, 1, 1, 2, 0, 1, 2, 0, 1, 1, 1, 2]);
    assert_eq!(after[12..], before[12..]);
}

#[test]
fn numbers_past_the_last_fill_nothing() {
    let drawing = three_contours([0.0; 2]);
    for number in [12, 13, 1 << 32, usize::MAX - 1, usize::MAX] {
        for lengths in [[0, 0], [1, 1], [1, 2], [12, 24], [99, 199]] {
            let input = drawing.clone().from(number);
            let mut case = Case::<PreviewRun>::lent(input, lengths);
            assert_eq!(agree(&mut case), Ok(0));
        }
    }
}
