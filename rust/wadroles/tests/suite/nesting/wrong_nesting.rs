//! Wrong ways to find depths and parents. The random rounds notice each of them, and so do cases worked
//! by hand.

use super::random::{any_layer, perhaps_spoiled};
use super::{by_hand, Contour, NONE};
use crate::harness::{
    assert_noticed, compare, Answer, Case, Fault, Implementation, Operation, Rounds,
};
use crate::operations::{GivenLayer, NestTables, Nesting};
use std::cmp::Ordering;

type Point = [i64; 2];

/// How depths and parents are found.
#[derive(Clone, Copy)]
struct Way {
    /// Which point of a contour is asked for.
    asked: fn(&[Point]) -> Point,
    /// Whether a contour is to be tested for another, by their numbers.
    is_other: fn(usize, usize) -> bool,
    /// Whether the edges of a contour are to be tested for a point.
    is_near: fn(Point, &[Point]) -> bool,
    /// How many edges of a contour there are.
    edges: fn(usize) -> usize,
    /// Whether an edge counts for a point.
    counts: fn(Point, Point, Point) -> bool,
    /// Whether so many edges are enough.
    is_enough: fn(usize) -> bool,
    /// By what parents are chosen.
    size: fn(&[Point]) -> i64,
    /// Whether a contour is to be the parent instead of another of a lower number, by their sizes.
    is_closer: fn(i64, i64) -> bool,
}

/// The right one.
const RIGHT: Way = Way {
    asked: |contour| contour[0],
    is_other: |i, j| i != j,
    is_near: |_, _| true,
    edges: |points| points,
    counts: |p, a, b| (a[1] <= p[1]) != (b[1] <= p[1]) && is_right(p, a, b) == Ordering::Greater,
    is_enough: |count| count % 2 == 1,
    size: |contour| signed_area(contour).abs(),
    is_closer: |size, other| size < other,
};

/// Where the line from a to b meets the level of p, against p.
fn is_right(p: Point, a: Point, b: Point) -> Ordering {
    let height = b[1] - a[1];
    let there = (b[0] - a[0]) * (p[1] - a[1]) * height.signum();
    there.cmp(&((p[0] - a[0]) * height.abs()))
}

fn signed_area(contour: &[Point]) -> i64 {
    let next = contour.iter().cycle().skip(1);
    let edges = contour.iter().zip(next);
    edges.map(|(a, b)| a[0] * b[1] - b[0] * a[1]).sum()
}

/// The least and the greatest x or y of a contour.
fn extent(contour: &[Point], axis: usize) -> (i64, i64) {
    let values = || contour.iter().map(|point| point[axis]);
    values().min().zip(values().max()).expect("it has points")
}

impl Way {
    fn lies_in(&self, point: Point, contour: &[Point]) -> bool {
        let edges = (0..(self.edges)(contour.len())).map(|k| {
            let next = (k + 1) % contour.len();
            (self.counts)(point, contour[k], contour[next])
        });
        (self.is_near)(point, contour) && (self.is_enough)(edges.filter(|&counts| counts).count())
    }

    /// Nesting in this way.
    fn nest(&self, layer: &GivenLayer, tables: &mut NestTables) -> Answer<()> {
        Nesting::oracle(layer, tables)?;
        let contours = contours(layer);
        for i in 0..contours.len() {
            let (mut depth, mut parent): (u32, Option<usize>) = (0, None);
            let point = (self.asked)(&contours[i]);
            for (j, contour) in contours.iter().enumerate() {
                if !(self.is_other)(i, j) || !self.lies_in(point, contour) {
                    continue;
                }
                depth += 1;
                let size = |j: usize| (self.size)(&contours[j]);
                if parent.is_none_or(|parent| (self.is_closer)(size(j), size(parent))) {
                    parent = Some(j);
                }
            }
            tables.depths.table()[i] = depth;
            tables.parents.table()[i] = parent.map_or(NONE, |parent| parent as u32);
        }
        Ok(())
    }
}

/// The contours of a layer that is not refused.
fn contours(layer: &GivenLayer) -> Vec<Vec<Point>> {
    let points = layer.points.chunks(2);
    let points: Vec<Point> = points.map(|p| [p[0].into(), p[1].into()]).collect();
    let starts = [0].into_iter().chain(layer.ends.iter().copied());
    let parts = starts.zip(&layer.ends);
    parts
        .map(|(start, &end)| points[start as usize..end as usize].to_vec())
        .collect()
}

/// Versions of Nesting by ways that are right but for one thing.
macro_rules! ways {
    ($($(#[$doc:meta])* $name:ident { $part:ident: $wrong:expr })+) => {
        $(
            $(#[$doc])*
            fn $name(layer: &GivenLayer, tables: &mut NestTables) -> Answer<()> {
                Way { $part: $wrong, ..RIGHT }.nest(layer, tables)
            }
        )+
    };
}

ways! {
    no_other_way { edges: RIGHT.edges }
    last_point_asked_for { asked: |contour| contour[contour.len() - 1] }
    itself_counted { is_other: |_, _| true }
    only_lower_numbers { is_other: |i, j| j < i }
    /// Points on the left side are outside.
    left_side_out { is_near: |p, c| extent(c, 0).0 < p[0] }
    /// Points on the lower side are outside.
    lower_side_out { is_near: |p, c| extent(c, 1).0 < p[1] }
    /// The extent ends a unit before the right side.
    right_side_early { is_near: |p, c| p[0] < extent(c, 0).1 - 1 }
    upper_side_early { is_near: |p, c| p[1] < extent(c, 1).1 - 1 }
    /// x is compared with the extent in y.
    extents_exchanged { is_near: |p, c| extent(c, 1).0 <= p[0] && p[0] < extent(c, 1).1 }
    /// The extent alone tells.
    extent_enough { is_enough: |_| true }
    not_closed { edges: |points| points - 1 }
    /// What the edge meets may be p.
    right_or_equal { counts: |p, a, b| {
        (a[1] <= p[1]) != (b[1] <= p[1]) && is_right(p, a, b) != Ordering::Less
    } }
    left_instead_of_right { counts: |p, a, b| {
        (a[1] <= p[1]) != (b[1] <= p[1]) && is_right(p, a, b) == Ordering::Less
    } }
    /// No end may be on the level.
    both_ends_strict { counts: |p, a, b| {
        (a[1] - p[1]).signum() * (b[1] - p[1]).signum() == -1 && is_right(p, a, b) == Ordering::Greater
    } }
    /// Either end may be on the level.
    neither_end_strict { counts: |p, a, b| {
        a[1] != b[1] && (a[1] - p[1]).signum() * (b[1] - p[1]).signum() < 1
            && is_right(p, a, b) == Ordering::Greater
    } }
    /// The upper end is on the edge and not the lower one.
    upper_end_on_it { counts: |p, a, b| {
        (a[1] < p[1]) != (b[1] < p[1]) && is_right(p, a, b) == Ordering::Greater
    } }
    /// An end right of p is enough.
    ends_compared { counts: |p, a, b| {
        (a[1] <= p[1]) != (b[1] <= p[1]) && p[0] < a[0].max(b[0])
    } }
    rounded_to_zero { counts: |p, a, b| {
        (a[1] <= p[1]) != (b[1] <= p[1])
            && p[0] < a[0] + (b[0] - a[0]) * (p[1] - a[1]) / (b[1] - a[1])
    } }
    rounded_to_nearest { counts: |p, a, b| {
        let there = |(a, b): (Point, Point)| {
            let doubled = 2 * (b[0] - a[0]) * (p[1] - a[1]) + (b[1] - a[1]);
            a[0] + doubled.div_euclid(2 * (b[1] - a[1]))
        };
        let upward = if a[1] < b[1] { (a, b) } else { (b, a) };
        (a[1] <= p[1]) != (b[1] <= p[1]) && p[0] < there(upward)
    } }
    /// By floats of 32 bits.
    by_floats { counts: |p, a, b| {
        let [p, a, b] = [p, a, b].map(|point| point.map(|x| x as f32));
        (a[1] <= p[1]) != (b[1] <= p[1])
            && p[0] < a[0] + (b[0] - a[0]) * (p[1] - a[1]) / (b[1] - a[1])
    } }
    /// Products keep their low 32 bits.
    products_of_32_bits { counts: |p, a, b| {
        let [p, a, b] = [p, a, b].map(|point| point.map(|x| x as i32));
        let height = b[1] - a[1];
        let there = (b[0] - a[0]).wrapping_mul(p[1] - a[1]);
        let here = (p[0] - a[0]).wrapping_mul(height);
        (a[1] <= p[1]) != (b[1] <= p[1]) && if height > 0 { here < there } else { there < here }
    } }
    any_edge_enough { is_enough: |count| count > 0 }
    largest_is_the_parent { is_closer: |size, other| size > other }
    higher_number_at_a_tie { is_closer: |size, other| size <= other }
    first_is_the_parent { is_closer: |_, _| false }
    last_is_the_parent { is_closer: |_, _| true }
    signed_areas { size: signed_area }
    areas_of_32_bits { size: |contour| (signed_area(contour).abs() as u32).into() }
    /// The smallest extent, not the smallest area.
    size_by_extent { size: |contour| {
        let [(left, right), (low, high)] = [0, 1].map(|axis| extent(contour, axis));
        (right - left) * (high - low)
    } }
    not_closed_areas { size: |contour| {
        let edges = contour.windows(2);
        edges.map(|e| e[0][0] * e[1][1] - e[1][0] * e[0][1]).sum::<i64>().abs()
    } }
}

const FAULTS: [Fault<Nesting>; 29] = [
    ("last point", last_point_asked_for, " entry "),
    ("itself", itself_counted, "depths entry"),
    ("lower numbers", only_lower_numbers, "depths entry"),
    ("left side", left_side_out, "depths entry"),
    ("lower side", lower_side_out, "depths entry"),
    ("right side early", right_side_early, "depths entry"),
    ("upper side early", upper_side_early, "depths entry"),
    ("extents exchanged", extents_exchanged, "depths entry"),
    ("extent alone", extent_enough, "depths entry"),
    ("not closed", not_closed, "depths entry"),
    ("equality", right_or_equal, "depths entry"),
    ("left", left_instead_of_right, "depths entry"),
    ("both strict", both_ends_strict, "depths entry"),
    ("neither strict", neither_end_strict, "depths entry"),
    ("upper end", upper_end_on_it, "depths entry"),
    ("ends compared", ends_compared, "depths entry"),
    ("rounded to zero", rounded_to_zero, "depths entry"),
    ("rounded to nearest", rounded_to_nearest, "depths entry"),
    ("floats", by_floats, "depths entry"),
    ("products of 32 bits", products_of_32_bits, "depths entry"),
    ("any edge", any_edge_enough, "depths entry"),
    ("largest", largest_is_the_parent, "parents entry"),
    ("higher number", higher_number_at_a_tie, "parents entry"),
    ("first", first_is_the_parent, "parents entry"),
    ("last", last_is_the_parent, "parents entry"),
    ("signed areas", signed_areas, "parents entry"),
    ("areas of 32 bits", areas_of_32_bits, "parents entry"),
    ("size by extent", size_by_extent, "parents entry"),
    ("areas not closed", not_closed_areas, "parents entry"),
];

/// Whether a version differs from the oracle on a case worked by hand.
fn is_noticed_by_hand(version: Implementation<Nesting>) -> bool {
    by_hand().iter().any(|contours: &Vec<Contour>| {
        let mut case = Case::<Nesting>::exact(GivenLayer::of(contours));
        compare(&mut case, version).is_err()
    })
}

#[test]
fn wrong_ways_are_noticed() {
    assert_noticed::<Nesting>(4_000, any_layer, &FAULTS);
}

#[test]
fn wrong_ways_are_noticed_by_cases_worked_by_hand() {
    for (name, version, _) in FAULTS {
        assert!(is_noticed_by_hand(version), "{name}");
    }
}

#[test]
fn the_right_way_is_not_noticed() {
    for input in [any_layer, perhaps_spoiled] {
        let compared = Rounds::fixed(1, 10_000).compare::<Nesting>(input, Some(no_other_way));
        assert_eq!(compared.err(), None);
    }
    assert!(!is_noticed_by_hand(no_other_way));
}
