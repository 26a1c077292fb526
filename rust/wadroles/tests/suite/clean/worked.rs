//! Cases worked by hand.

use super::{assert_cleaned, assert_leaves, M};
use crate::harness::{agree, Case};
use crate::inputs::{part_p, LAYER_FILE_P};
use crate::operations::{Clean, Cut, GivenLayer, LayerFile, ReadLayer};

#[test]
fn clean_contours_stay_as_they_are() {
    for letters in [
        "ABC",
        "ABCD",
        "ABAC",
        "ABCB",
        "ABABC",
        "ABCABD",
        "ABCDEFGHI",
    ] {
        assert_cleaned(&[letters], &[letters]);
    }
    assert_cleaned(&["ABC", "ABC", "DEF"], &["ABC", "ABC", "DEF"]);
}

#[test]
fn points_equal_to_the_one_before_go_and_the_first_stays() {
    for letters in ["AABC", "ABBC", "ABCC", "AAABBBCCC", "AABBBBBBBC"] {
        assert_cleaned(&[letters], &["ABC"]);
    }
    assert_cleaned(&["ABBA", "ABBAAC"], &["ABAC"]);
    assert_cleaned(&["ABCCBBA"], &["ABCB"]);
}

#[test]
fn points_at_the_end_equal_to_the_first_go() {
    for letters in ["ABCA", "ABCAA", "ABCAAAAAAA", "AABCA", "AAABBCCAAA"] {
        assert_cleaned(&[letters], &["ABC"]);
    }
    assert_cleaned(&["ABACA"], &["ABAC"]);
    assert_cleaned(&["ABCABCA"], &["ABCABC"]);
    assert_cleaned(&["ABACAAABAA"], &["ABACAB"]);
}

#[test]
fn contours_of_fewer_than_three_different_points_go_whole() {
    for letters in [
        "AA",
        "AAA",
        "AAAAAAAAA",
        "AB",
        "ABA",
        "ABAB",
        "ABABA",
        "ABABABABABAB",
        "AABB",
        "AABBAABB",
        "ABBBBA",
        "BAAAAA",
    ] {
        assert_cleaned(&[letters], &[]);
        assert_cleaned(&["ABC", letters, "DEF"], &["ABC", "DEF"]);
        assert_cleaned(&[letters, "ABC", letters], &["ABC"]);
        assert_cleaned(&[letters; 5], &[]);
    }
}

#[test]
fn different_points_are_counted_over_the_whole_contour() {
    for letters in ["ABABABABC", "ABABABABABAC", "ABCBABABAB", "BCAB"] {
        let last_again = letters.ends_with(&letters[..1]);
        let left = &letters[..letters.len() - usize::from(last_again)];
        assert_cleaned(&[letters], &[left]);
    }
}

#[test]
fn points_that_share_x_or_y_are_different() {
    assert_cleaned(&["ABC"], &["ABC"]);
    assert_cleaned(&["ADG"], &["ADG"]);
    assert_cleaned(&["ABE"], &["ABE"]);
    let exchanged = GivenLayer::new(&[1, 2, 2, 1, 0, 0, 1, 2], &[4]);
    assert_leaves(exchanged, &GivenLayer::new(&[1, 2, 2, 1, 0, 0], &[3]));
    let negated = GivenLayer::new(&[1, 2, -1, 2, -1, -2, 1, -2], &[4]);
    assert_leaves(negated.clone(), &negated);
}

#[test]
fn points_at_the_ends_of_the_range_are_told_apart() {
    let corners = [[M, M], [-M, M], [-M, -M], [M, -M]];
    let twice = corners.map(|point| [point; 2]).concat();
    let [before, after] = [twice, corners.to_vec()].map(|contour| GivenLayer::of(&[contour]));
    assert_leaves(before, &after);
    let near = GivenLayer::new(&[M, M, M - 1, M, M, M - 1, M, M], &[4]);
    let left = GivenLayer::new(&[M, M, M - 1, M, M, M - 1], &[3]);
    assert_leaves(near, &left);
}

#[test]
fn a_layer_may_have_no_contour() {
    assert_cleaned(&[], &[]);
}

#[test]
fn several_contours_are_cleaned_in_order() {
    assert_cleaned(
        &["AABC", "DD", "EFEF", "GHIG", "ABC", "IIHHGGII"],
        &["ABC", "GHI", "ABC", "IHG"],
    );
}

#[test]
fn part_p_loses_its_contour_at_height_10() {
    for (height, left) in [(0, (0, 0)), (5, (1, 3)), (10, (0, 0)), (11, (0, 0))] {
        let mut cut = Case::<Cut>::exact(part_p().at(height));
        let (contours, points) = agree(&mut cut).unwrap();
        let points = &cut.tables.points.view()[..2 * points];
        let ends = &cut.tables.ends.view()[..contours];
        let mut case = Case::<Clean>::exact(GivenLayer::new(points, ends));
        assert_eq!(agree(&mut case), Ok(left), "{height}");
    }
}

#[test]
fn a_layer_that_was_read_is_cleaned_as_one_that_was_cut() {
    let mut read = Case::<ReadLayer>::exact(LayerFile::new(&LAYER_FILE_P, 1));
    agree(&mut read).unwrap();
    let (points, ends) = (read.tables.points.view(), read.tables.ends.view());
    let triangle = GivenLayer::new(points, ends);
    assert_leaves(triangle.clone(), &triangle);
}
