//! What the specification says of every layer, asked of the product. The oracle is not asked.

use super::random::{altered, any_layer, on_a_grid};
use super::{nested, spot, Contour, M, NONE};
use crate::clean::cleaned;
use crate::harness::{Case, Operation, Rounds};
use crate::operations::{GivenLayer, Nesting};
use files::repeating_contours;
use meshes::Random;
use oracle::is_clean;
use wadroles::{area, contour};

/// The contours of a layer of any kind.
fn any_contours(random: &mut Random) -> Vec<Contour> {
    let GivenLayer { points, ends } = any_layer(random);
    let parts = (0..ends.len()).map(|j| contour(&points, &ends, j).chunks(2));
    parts
        .map(|part| part.map(|p| [p[0], p[1]]).collect())
        .collect()
}

/// Whether a point lies in a contour.
fn lies_in(point: [i32; 2], contour: &Contour) -> bool {
    nested(&[contour.clone(), spot(point)])[1].0 == 1
}

fn size(contour: &Contour) -> u64 {
    area(contour.as_flattened()).unwrap().unsigned_abs()
}

#[test]
fn depth_and_parent_are_those_of_the_contours_two_by_two() {
    let name = "nesting, two by two";
    let [several, alone] = Rounds::one_in(25, name).shares(|random| {
        let contours = any_contours(random);
        let found = nested(&contours);
        for (i, contour) in contours.iter().enumerate() {
            let others = (0..contours.len()).filter(|&j| j != i);
            let holders = others.filter(|&j| lies_in(contour[0], &contours[j]));
            let holders: Vec<usize> = holders.collect();
            let smallest = holders.iter().map(|&j| size(&contours[j])).min();
            let mut smallest = holders
                .iter()
                .filter(|&&j| Some(size(&contours[j])) == smallest);
            let parent = smallest.next().map_or(NONE, |&j| j as u32);
            assert_eq!(found[i], (holders.len() as u32, parent));
        }
        let deepest = found.iter().map(|&(depth, _)| depth).max();
        [deepest > Some(1), deepest == Some(0)]
    });
    assert!(several > 0.1 && alone > 0.1, "{several}, {alone}");
}

#[test]
fn without_a_holder_there_is_no_parent() {
    let share = Rounds::one_in(5, "nesting, no parent").share(|random| {
        let contours = any_contours(random);
        let found = nested(&contours);
        for (i, &(depth, parent)) in found.iter().enumerate() {
            assert_eq!(depth == 0, parent == NONE);
            let is_another = (parent as usize) < contours.len() && parent as usize != i;
            assert!(depth == 0 || is_another);
        }
        found.iter().any(|&(depth, _)| depth > 0)
    });
    assert!(share > 0.2, "too few are held: {share}");
}

#[test]
fn where_a_contour_starts_and_which_way_it_runs_changes_nothing_for_the_others() {
    let name = "nesting, starts and ways";
    let [changed, held] = Rounds::one_in(10, name).shares(|random| {
        let before = any_contours(random);
        if before.is_empty() {
            return [false; 2];
        }
        let which = random.below(before.len());
        let mut after = before.clone();
        after[which] = altered(before[which].clone(), random);
        let (mut found, expected) = (nested(&after), nested(&before));
        let held = expected.iter().any(|&(_, parent)| parent == which as u32);
        // Its own depth and parent are those of its first point.
        if before[which][0] != after[which][0] {
            found[which] = expected[which];
        }
        assert_eq!(found, expected);
        [before != after, held && before != after]
    });
    assert!(changed > 0.3 && held > 0.1, "{changed}, {held}");
}

/// A contour goes round what the triangles from its first point do: a point lies in it if it lies in an
/// odd number of them.
#[test]
fn a_contour_is_made_of_triangles() {
    let [inside, outside] = Rounds::one_in(10, "nesting, triangles").shares(|random| {
        let contours = on_a_grid(random);
        let Some(contour) = contours.first() else {
            return [false; 2];
        };
        let point = [(); 2].map(|()| random.within(-4..=4));
        let triangles = contour[1..].windows(2).map(|edge| {
            let triangle = vec![contour[0], edge[0], edge[1]];
            lies_in(point, &triangle)
        });
        let is_odd = triangles.filter(|&is_in| is_in).count() % 2 == 1;
        assert_eq!(lies_in(point, contour), is_odd, "{point:?} {contour:?}");
        [is_odd, !is_odd]
    });
    assert!(inside > 0.05 && outside > 0.05, "{inside}, {outside}");
}

/// Of triangles that tile a square, every point of the square lies in one and no more.
#[test]
fn tiles_share_no_point_and_leave_none_out() {
    let share = Rounds::one_in(100, "nesting, tiles").share(|random| {
        let side = 2 + random.below(6) as i32;
        let middle = [(); 2].map(|()| random.within(0..=side));
        let corners = super::square(0, 0, side);
        let tiles = (0..4).map(|k| vec![middle, corners[k], corners[(k + 1) % 4]]);
        let mut contours: Vec<Contour> = tiles.map(|tile| altered(tile, random)).collect();
        let places = (-1..=side).flat_map(|x| (-1..=side).map(move |y| [x, y]));
        let places: Vec<[i32; 2]> = places.collect();
        contours.extend(places.iter().map(|&place| spot(place)));
        for (place, (depth, _)) in places.iter().zip(nested(&contours).split_off(4)) {
            let is_in = place.iter().all(|x| (0..side).contains(x));
            assert_eq!(depth, u32::from(is_in), "{place:?} {contours:?}");
        }
        corners
            .iter()
            .all(|corner| corner.iter().zip(middle).all(|(&c, m)| c != m))
    });
    assert!(share > 0.1, "the middle is inside too seldom: {share}");
}

#[test]
fn a_layer_moved_whole_is_nested_alike() {
    let share = Rounds::one_in(20, "nesting, moved").share(|random| {
        let contours = on_a_grid(random);
        let by = [(); 2].map(|()| random.choose(&[-M + 9, -1_000, 7, 500, M - 9]));
        let moved = contours.iter().map(|contour| {
            let points = contour.iter().map(|[x, y]| [x + by[0], y + by[1]]);
            points.collect::<Contour>()
        });
        let expected = nested(&contours);
        assert_eq!(nested(&moved.collect::<Vec<_>>()), expected);
        expected.iter().any(|&(depth, _)| depth > 0)
    });
    assert!(share > 0.2, "too few are held: {share}");
}

#[test]
fn cleaning_changes_neither_depth_nor_parent() {
    let [dropped, held] = Rounds::one_in(20, "nesting, cleaned").shares(|random| {
        let contours = match random.one_in(2) {
            true => repeating_contours(random),
            false => on_a_grid(random),
        };
        let left = cleaned(&contours);
        // The contours that are left, by their old numbers.
        let old: Vec<usize> = (0..contours.len())
            .filter(|&i| !cleaned(&contours[i..=i]).is_empty())
            .collect();
        assert_eq!(old.len(), left.len());
        assert!(left.iter().all(|contour| is_clean(contour)));
        let before = nested(&contours);
        for (&i, (depth, parent)) in old.iter().zip(nested(&left)) {
            let parent = old.get(parent as usize).map_or(NONE, |&old| old as u32);
            assert_eq!((depth, parent), before[i]);
        }
        let is_held = old.iter().any(|&i| before[i].0 > 0);
        [old.len() < contours.len(), is_held]
    });
    assert!(dropped > 0.2 && held > 0.1, "{dropped}, {held}");
}

#[test]
fn what_is_not_filled_stays() {
    let share = Rounds::one_in(20, "nesting, unfilled").share(|random| {
        let mut case = Case::<Nesting>::long(any_layer(random), random);
        let before = case.tables.clone();
        case.run(Nesting::product).unwrap();
        let count = case.input.ends.len();
        let (depths, parents) = (case.tables.depths.view(), case.tables.parents.view());
        assert_eq!(depths[count..], before.depths.view()[count..]);
        assert_eq!(parents[count..], before.parents.view()[count..]);
        count > 0 && depths.len() > count && parents.len() > count
    });
    assert!(share > 0.1, "too few tables are longer: {share}");
}
