//! Wrong ways to pair the corners of shared edges. The random rounds notice each of them, and so do
//! cases worked by hand.

use super::random::{perhaps_damaged, perhaps_uneven};
use super::shared::worked;
use crate::cut::contours;
use crate::harness::{
    assert_noticed, compare, Answer, Case, Fault, Implementation, Operation, Rounds,
};
use crate::inputs::{checked, two_cubes_crossed};
use crate::operations::{Check, CheckTables, Given};
use meshes::sheets::fan;
use meshes::{vertex_order, Mesh, Random};
use std::collections::BTreeMap;

/// The corners of an edge, in corner order: those that lead from its lower to its higher vertex, and
/// those that lead back.
#[derive(Default)]
struct Edge {
    there: Vec<usize>,
    back: Vec<usize>,
}

impl Edge {
    /// Those that lead from the lower vertex to the higher, or back.
    fn way(&self, is_there: bool) -> &[usize] {
        match is_there {
            true => &self.there,
            false => &self.back,
        }
    }

    /// Both, each with whether it leads there, in corner order.
    fn both(&self) -> Vec<(usize, bool)> {
        let there = self.there.iter().map(|&corner| (corner, true));
        let back = self.back.iter().map(|&corner| (corner, false));
        let mut both: Vec<_> = there.chain(back).collect();
        both.sort();
        both
    }
}

fn edges(mesh: &Mesh) -> Vec<Edge> {
    let mut edges: BTreeMap<(u32, u32), Edge> = BTreeMap::new();
    for (corner, (from, to)) in mesh.edges().enumerate() {
        let edge = edges.entry((from.min(to), from.max(to))).or_default();
        match from < to {
            true => edge.there.push(corner),
            false => edge.back.push(corner),
        }
    }
    edges.into_values().collect()
}

type Pairs = Vec<(usize, usize)>;

/// Check with another way to pair the corners of an edge, and to name one of those left over.
fn check(
    given: &Given,
    tables: &mut CheckTables,
    pair: impl Fn(&Mesh, &Edge) -> Pairs,
    name: fn(&[usize]) -> usize,
) -> Answer<()> {
    let answer = Check::oracle(given, tables);
    if !matches!(answer, Ok(()) | Err((6, _))) {
        return answer;
    }
    let mesh = &given.mesh;
    let pairing = &mut tables.pairing.table()[..mesh.corners.len()];
    let order = &mut tables.order.table()[..mesh.vertex_count()];
    let mut named = Vec::new();
    for edge in edges(mesh) {
        let pairs = pair(mesh, &edge);
        let is_paired = |corner: &usize| pairs.iter().any(|(a, b)| a == corner || b == corner);
        for way in [true, false] {
            let mut left = edge.way(way).to_vec();
            left.retain(|corner| !is_paired(corner));
            named.extend((!left.is_empty()).then(|| name(&left)));
        }
        for (a, b) in pairs {
            pairing[a] = b as u32;
            pairing[b] = a as u32;
        }
    }
    match named.into_iter().min() {
        Some(corner) => {
            pairing.fill(0);
            order.fill(0);
            Err((6, corner as u64))
        }
        None => {
            order.copy_from_slice(&vertex_order(mesh));
            Ok(())
        }
    }
}

fn first(left: &[usize]) -> usize {
    left[0]
}

fn last(left: &[usize]) -> usize {
    left[left.len() - 1]
}

/// The first with the first, as it should be.
fn in_order(_mesh: &Mesh, edge: &Edge) -> Pairs {
    let pairs = edge.there.iter().zip(&edge.back);
    pairs.map(|(&a, &b)| (a, b)).collect()
}

fn by_queue(given: &Given, tables: &mut CheckTables) -> Answer<()> {
    check(given, tables, in_order, first)
}

/// A corner is paired with the last that waits for its edge.
fn by_stack(given: &Given, tables: &mut CheckTables) -> Answer<()> {
    let pair = |_: &Mesh, edge: &Edge| nested(&edge.both());
    check(given, tables, pair, first)
}

/// Each corner with the last before it that leads the other way and waits.
fn nested(corners: &[(usize, bool)]) -> Pairs {
    let (mut waiting, mut pairs) = (Vec::<(usize, bool)>::new(), Vec::new());
    for &(corner, way) in corners {
        match waiting.last() {
            Some(&(other, other_way)) if other_way != way => {
                pairs.push((other, corner));
                waiting.pop();
            }
            _ => waiting.push((corner, way)),
        }
    }
    pairs
}

fn the_last_with_the_first(given: &Given, tables: &mut CheckTables) -> Answer<()> {
    let pair = |_: &Mesh, edge: &Edge| {
        let pairs = edge.there.iter().rev().zip(&edge.back);
        pairs.map(|(&a, &b)| (a, b)).collect()
    };
    check(given, tables, pair, first)
}

/// Sheets are paired with the solid between them, as their normals say: by the angle round the edge.
fn by_angle(given: &Given, tables: &mut CheckTables) -> Answer<()> {
    let pair = |mesh: &Mesh, edge: &Edge| {
        if edge.there.len() != edge.back.len() {
            return in_order(mesh, edge);
        }
        let mut around = edge.both();
        around.sort_by(|a, b| {
            let [a, b] = [a, b].map(|&(corner, way)| angle(mesh, corner, way));
            a.total_cmp(&b)
        });
        // The solid lies after a sheet that leads back, up to one that leads there. Begun behind a place
        // where most are closed, all are nested.
        let mut depth = 0;
        let depths = around.iter().map(|&(_, way)| {
            depth += if way { -1 } else { 1 };
            depth
        });
        let lowest = depths.zip(0..).min().map_or(0, |(_, place)| place);
        around.rotate_left(lowest + 1);
        nested(&around)
    };
    check(given, tables, pair, first)
}

/// The angle of a corner's triangle round its edge, from the lower vertex up.
fn angle(mesh: &Mesh, corner: usize, is_there: bool) -> f64 {
    let triangle = corner / 3 * 3;
    let [from, to, tip] = [0, 1, 2].map(|k| {
        let vertex = mesh.corners[triangle + (corner + k) % 3];
        mesh.point(vertex).map(f64::from)
    });
    let (low, high) = if is_there { (from, to) } else { (to, from) };
    let [along, out] = [high, tip].map(|end| minus(end, low));
    // A direction across the edge that depends on the edge alone.
    let least = (0..3).min_by(|&i, &j| along[i].abs().total_cmp(&along[j].abs()));
    let mut axis = [0.0; 3];
    axis[least.expect("of three")] = 1.0;
    let across = cross(along, axis);
    dot(out, cross(along, across)).atan2(dot(out, across) * dot(along, along).sqrt())
}

fn minus(a: [f64; 3], b: [f64; 3]) -> [f64; 3] {
    [a[0] - b[0], a[1] - b[1], a[2] - b[2]]
}

fn cross(a: [f64; 3], b: [f64; 3]) -> [f64; 3] {
    [
        a[1] * b[2] - a[2] * b[1],
        a[2] * b[0] - a[0] * b[2],
        a[0] * b[1] - a[1] * b[0],
    ]
}

fn dot(a: [f64; 3], b: [f64; 3]) -> f64 {
    a[0] * b[0] + a[1] * b[1] + a[2] * b[2]
}

fn the_last_left_over_named(given: &Given, tables: &mut CheckTables) -> Answer<()> {
    check(given, tables, in_order, last)
}

/// It is enough that the reverse edge occurs: those left over get the last that has it.
fn left_over_let_through(given: &Given, tables: &mut CheckTables) -> Answer<()> {
    let pair = |mesh: &Mesh, edge: &Edge| {
        let mut pairs = in_order(mesh, edge);
        if let (Some(&there), Some(&back)) = (edge.there.last(), edge.back.last()) {
            pairs.extend(edge.there.iter().skip(pairs.len()).map(|&c| (c, back)));
            pairs.extend(edge.back.iter().skip(pairs.len()).map(|&c| (there, c)));
        }
        pairs
    };
    check(given, tables, pair, first)
}

/// None is paired where an edge is used unevenly, so that its first corner is named.
fn uneven_edge_named_from_its_first(given: &Given, tables: &mut CheckTables) -> Answer<()> {
    let pair = |mesh: &Mesh, edge: &Edge| match edge.there.len() == edge.back.len() {
        true => in_order(mesh, edge),
        false => Vec::new(),
    };
    check(given, tables, pair, first)
}

/// One pair at each edge, and no more.
fn shared_edges_refused(given: &Given, tables: &mut CheckTables) -> Answer<()> {
    let pair = |mesh: &Mesh, edge: &Edge| {
        let mut pairs = in_order(mesh, edge);
        pairs.truncate(1);
        pairs
    };
    check(given, tables, pair, first)
}

const FAULTS: [Fault<Check>; 7] = [
    ("stack", by_stack, "pairing entry"),
    ("last with first", the_last_with_the_first, "pairing entry"),
    ("angle", by_angle, "pairing entry"),
    ("last left over", the_last_left_over_named, "not Err((6, "),
    ("let through", left_over_let_through, "not Err((6, "),
    (
        "first of uneven",
        uneven_edge_named_from_its_first,
        "not Err((6, ",
    ),
    ("shared refused", shared_edges_refused, "not Ok("),
];

/// Whether a version differs from the oracle on a case worked by hand.
fn is_noticed_by_hand(version: Implementation<Check>) -> bool {
    worked().into_iter().any(|(mesh, _)| {
        let mut case = Case::<Check>::exact(Given::bare(mesh));
        compare(&mut case, version).is_err()
    })
}

#[test]
fn wrong_ways_are_noticed() {
    assert_noticed::<Check>(1_000, perhaps_uneven, &FAULTS);
}

#[test]
fn wrong_ways_are_noticed_by_cases_worked_by_hand() {
    for (name, version, _) in FAULTS {
        assert!(is_noticed_by_hand(version), "{name}");
    }
}

#[test]
fn the_right_way_is_not_noticed() {
    for input in [perhaps_uneven, perhaps_damaged] {
        let compared = Rounds::fixed(1, 2_000).compare::<Check>(input, Some(by_queue));
        assert_eq!(compared.err(), None);
    }
    assert!(!is_noticed_by_hand(by_queue));
}

#[test]
fn sheets_paired_by_angle_enclose_the_solids() {
    let mut fan = fan(7, 10);
    fan.shuffle(&mut Random::new(1));
    for (mesh, solids) in [(two_cubes_crossed(), 2), (fan, 7)] {
        let mut case = Case::<Check>::exact(Given::bare(mesh));
        assert_eq!(case.run(by_angle), Ok(()));
        let given = Given {
            pairing: case.tables.pairing.view().to_vec(),
            ..case.input
        };
        assert_eq!(contours(&given, 5).len(), solids);
        assert_ne!(contours(&checked(given.mesh), 5).len(), solids);
    }
}
