//! Random layers, right, broken and large, against the oracle.

use super::{found, rectangle, spot, started, turned, Contour, M};
use crate::clean::meaningless;
use crate::harness::{test_product, test_threads, Case, Operation, Rounds};
use crate::operations::{GivenLayer, Nesting};
use crate::preview::spoil_layer;
use files::random_layers;
use meshes::Random;

/// A point at most so far from zero.
fn point(reach: i32, random: &mut Random) -> [i32; 2] {
    [(); 2].map(|()| random.within(-reach..=reach))
}

/// A rectangle, from any corner on and either way round.
fn any_rectangle(reach: i32, random: &mut Random) -> Contour {
    let ([x, y], [to_x, to_y]) = (point(reach, random), point(reach, random));
    let contour = rectangle(x.min(to_x), y.min(to_y), (to_x - x).abs(), (to_y - y).abs());
    altered(contour, random)
}

/// The same contour, at times from another start or the other way round.
pub fn altered(mut contour: Contour, random: &mut Random) -> Contour {
    if random.one_in(2) {
        let start = random.below(contour.len());
        contour = started(contour, start);
    }
    match random.one_in(2) {
        true => turned(contour),
        false => contour,
    }
}

/// A contour of few points.
fn any_contour(reach: i32, random: &mut Random) -> Contour {
    let count = 2 + random.below(6);
    (0..count).map(|_| point(reach, random)).collect()
}

/// Contours on a grid so small that points are often equal, level or on an edge, and areas equal. Some
/// are there twice.
pub fn on_a_grid(random: &mut Random) -> Vec<Contour> {
    let reach = random.choose(&[1, 2, 3, 3, 6]);
    let mut contours: Vec<Contour> = Vec::new();
    for _ in 0..random.below(8) {
        let contour = match random.below(4) {
            0 if !contours.is_empty() => {
                let again = contours[random.below(contours.len())].clone();
                altered(again, random)
            }
            0 | 1 => any_rectangle(reach, random),
            _ => any_contour(reach, random),
        };
        contours.push(contour);
    }
    contours
}

/// Contours all over the range, or at its ends.
fn over_the_range(random: &mut Random) -> Vec<Contour> {
    let ends = [-M, 1 - M, -1, 0, 1, M - 1, M];
    let at_the_ends = random.one_in(3);
    (0..random.below(8))
        .map(|_| match at_the_ends {
            true => (0..2 + random.below(4))
                .map(|_| [(); 2].map(|()| random.choose(&ends)))
                .collect(),
            false if random.one_in(3) => any_rectangle(M, random),
            false => any_contour(M, random),
        })
        .collect()
}

/// A contour anywhere in the range, and spots by the exact places where its edges meet levels.
fn by_long_edges(random: &mut Random) -> Vec<Contour> {
    let contour = any_contour(random.choose(&[10, 1_000, M]), random);
    let mut contours = vec![contour.clone()];
    for _ in 0..1 + random.below(6) {
        let edge = random.below(contour.len());
        let ([ax, ay], [bx, by]) = (contour[edge], contour[(edge + 1) % contour.len()]);
        let level = random.within(ay.min(by)..=ay.max(by));
        let [ax, ay, bx, by, y] = [ax, ay, bx, by, level].map(i64::from);
        let x = match by - ay {
            0 => ax,
            height => ax + ((bx - ax) * (y - ay)).div_euclid(height),
        };
        let x = (x as i32 + random.within(-1..=1)).clamp(-M, M);
        contours.push(spot([x, level]));
    }
    contours
}

/// A right layer of one of these kinds.
pub fn any_layer(random: &mut Random) -> GivenLayer {
    let kinds = [on_a_grid, on_a_grid, over_the_range, by_long_edges];
    GivenLayer::of(&random.choose(&kinds)(random))
}

fn small(random: &mut Random) -> GivenLayer {
    GivenLayer::of(&on_a_grid(random))
}

fn large(random: &mut Random) -> GivenLayer {
    let kinds = [over_the_range, by_long_edges];
    GivenLayer::of(&random.choose(&kinds)(random))
}

/// A layer of a file; of no layers none.
fn of_a_file(random: &mut Random) -> GivenLayer {
    let layer = random_layers(random).into_iter().next();
    GivenLayer::of(&layer.unwrap_or_default().contours)
}

/// A layer with something wrong.
fn spoiled(random: &mut Random) -> GivenLayer {
    let mut layer = any_layer(random);
    for _ in 0..random.choose(&[1, 1, 2]) {
        spoil_layer(&mut layer.points, &mut layer.ends, random);
    }
    layer
}

/// A layer, right as a rule.
pub fn perhaps_spoiled(random: &mut Random) -> GivenLayer {
    let kinds = [any_layer, any_layer, spoiled];
    random.choose(&kinds)(random)
}

/// As many points as there may be, nearly so or too many, right or not; in few contours, since each is
/// compared with each.
fn near_the_limit(random: &mut Random) -> GivenLayer {
    let count = 98_304 - random.choose(&[0, 0, 1, 5]);
    let reach = random.choose(&[2, 100, M]);
    let contour = random.choose(&[200, 1_000, 40_000, count]);
    let points: Vec<[i32; 2]> = (0..count).map(|_| point(reach, random)).collect();
    let mut contours: Vec<Contour> = points.chunks(contour).map(<[_]>::to_vec).collect();
    contours.retain(|contour| contour.len() > 1);
    let mut layer = GivenLayer::of(&contours);
    match random.below(4) {
        0 => spoil_layer(&mut layer.points, &mut layer.ends, random),
        1 => {
            // One contour more.
            layer.points.extend([0; 12]);
            layer.ends.push(layer.points.len() as u32 / 2);
        }
        _ => {}
    }
    layer
}

#[test]
fn layers_on_a_small_grid() {
    let tally = test_product::<Nesting>("a small grid", 1, small);
    tally.require(&[0, 9], 100);
    assert_eq!(tally.count(1) + tally.count(2), 0);
}

#[test]
fn layers_over_the_whole_range() {
    let tally = test_product::<Nesting>("the whole range", 1, large);
    tally.require(&[0, 9], 100);
    assert_eq!(tally.count(1) + tally.count(2), 0);
}

#[test]
fn layers_of_files() {
    let tally = test_product::<Nesting>("layers of files", 4, of_a_file);
    tally.require(&[0, 9], 100);
}

#[test]
fn layers_with_something_wrong() {
    let tally = test_product::<Nesting>("something wrong", 2, spoiled);
    tally.require(&[0], 100);
    tally.require_refusals(Nesting::REFUSALS, 100);
}

#[test]
fn meaningless_numbers() {
    let tally = test_product::<Nesting>("meaningless numbers", 2, meaningless);
    tally.require(&[0, 1, 2, 9], 20);
}

#[test]
fn layers_near_the_limit() {
    test_product::<Nesting>("near the limit", 5_000, near_the_limit);
}

#[test]
fn several_threads_at_once() {
    test_threads::<Nesting>(250, perhaps_spoiled);
}

/// Whether two contours that hold the first point of a third are of equal area, and none is smaller.
fn has_a_tie(contours: &[Contour]) -> bool {
    let mut case = Case::<Nesting>::exact(GivenLayer::of(contours));
    Nesting::oracle(&case.input, &mut case.tables).unwrap();
    let size = |j: usize| oracle::area(contours[j].as_flattened()).unwrap().abs();
    let found = found(&case.input, &case.tables);
    found.iter().enumerate().any(|(i, &(depth, parent))| {
        let parent = parent as usize;
        depth > 1
            && (0..contours.len()).any(|j| {
                let is_other = j != i && j != parent;
                is_other && size(j) == size(parent) && is_held(&contours[i], &contours[j])
            })
    })
}

/// Whether the first contour lies in the second.
fn is_held(inner: &Contour, outer: &Contour) -> bool {
    let mut case = Case::<Nesting>::exact(GivenLayer::of(&[inner.clone(), outer.clone()]));
    Nesting::oracle(&case.input, &mut case.tables).unwrap();
    case.tables.depths.view()[0] == 1
}

#[test]
fn small_grids_have_what_matters() {
    let [deep, tied, touching, level, mutual] = Rounds::fixed(1, 4_000).shares(|random| {
        let contours = on_a_grid(random);
        let layer = GivenLayer::of(&contours);
        let mut case = Case::<Nesting>::exact(layer);
        Nesting::oracle(&case.input, &mut case.tables).unwrap();
        let found = found(&case.input, &case.tables);
        let firsts: Vec<[i32; 2]> = contours.iter().map(|contour| contour[0]).collect();
        let others = |i: usize| (0..contours.len()).filter(move |&j| j != i);
        let any_other = |is_met: &dyn Fn([i32; 2], &Contour) -> bool| {
            (0..contours.len()).any(|i| others(i).any(|j| is_met(firsts[i], &contours[j])))
        };
        [
            found.iter().any(|&(depth, _)| depth > 2),
            has_a_tie(&contours),
            any_other(&|first, contour| contour.contains(&first)),
            any_other(&|first, contour| {
                contour
                    .windows(2)
                    .any(|edge| edge[0] != edge[1] && edge.iter().all(|end| end[1] == first[1]))
            }),
            (0..contours.len())
                .any(|i| found.get(found[i].1 as usize).map(|f| f.1) == Some(i as u32)),
        ]
    });
    assert!(deep > 0.02 && tied > 0.02, "{deep}, {tied}");
    assert!(touching > 0.2 && level > 0.2, "{touching}, {level}");
    assert!(mutual > 0.05, "{mutual}");
}
