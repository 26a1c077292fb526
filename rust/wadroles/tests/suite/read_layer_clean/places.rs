//! One unclean contour, or several, in a chosen layer: the first of the file is named.

use super::{exact, layer, unclean_contours, TRIANGLE};
use crate::harness::{agree, assert_answer, Tally};
use oracle::{encode_layers, FileLayer};

/// Four layers of three clean contours each, of which every one takes seven bytes.
fn clean() -> Vec<FileLayer> {
    (0..4).map(|k| layer(k, &[&TRIANGLE[..]; 3])).collect()
}

/// The first byte of a contour, where all before it are clean: of each layer the height and the
/// contour count take a byte each.
fn place(of_layer: usize, contour: usize) -> u64 {
    let place = 1 + of_layer * (2 + 3 * 7) + 2 + contour * 7;
    place as u64
}

#[test]
fn one_unclean_contour_in_any_layer_is_named_whichever_is_read() {
    let mut met = Tally::default();
    for unclean in unclean_contours() {
        for k in 0..4 {
            for j in 0..3 {
                let mut layers = clean();
                layers[k].contours[j] = unclean.clone();
                let file = encode_layers(&layers);
                for i in [0, 1, 2, 3, 4, usize::MAX] {
                    let answer = agree(&mut exact(&file, i));
                    assert_eq!(answer, Err((18, place(k, j))), "{i}");
                    met.add(&answer);
                }
            }
        }
    }
    met.require_places(18);
}

#[test]
fn of_two_unclean_contours_the_first_is_named() {
    for unclean in unclean_contours() {
        for first in 0..12 {
            for second in first + 1..12 {
                let mut layers = clean();
                for number in [first, second] {
                    layers[number / 3].contours[number % 3] = unclean.clone();
                }
                let named = place(first / 3, first % 3);
                let case = exact(&encode_layers(&layers), second / 3);
                assert_answer(&case, Err((18, named)));
            }
        }
    }
}

#[test]
fn clean_files_are_read_in_every_layer() {
    let file = encode_layers(&clean());
    for i in 0..4 {
        assert_answer(&exact(&file, i), Ok((4, i as i32, 3, 9)));
    }
    assert_answer(&exact(&file, 4), Err((15, 0)));
}

#[test]
fn places_are_those_of_bytes_where_values_take_several() {
    let far = [[1_048_576, -1_048_576], [-1_048_576, 1_048_576], [0, 0]];
    let long: Vec<[i32; 2]> = (0..300).map(|k| [7 * k, k % 5]).collect();
    let mut twice = long.clone();
    twice.push(long[299]);
    let before = [layer(i32::MIN, &[&far]), layer(-70_000, &[&long, &far])];
    for unclean in [twice, vec![[3, 3]; 200]] {
        let mut layers = before.to_vec();
        layers[1].contours.push(unclean);
        // What stands before the contour is the file without it.
        let named = encode_layers(&before).len() as u64;
        for i in 0..3 {
            let case = exact(&encode_layers(&layers), i);
            assert_answer(&case, Err((18, named)));
        }
    }
}
