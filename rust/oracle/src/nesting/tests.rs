use super::*;
use meshes::Random;

const JUNK: u32 = 77;
const FAR: i32 = 1_048_577;
const NONE: u32 = u32::MAX;

const SQUARE: [[i32; 2]; 4] = [[0, 0], [4, 0], [4, 4], [0, 4]];

/// The tables of a layer.
fn tables(contours: &[&[[i32; 2]]]) -> (Vec<i32>, Vec<u32>) {
    let (mut points, mut ends) = (Vec::new(), Vec::new());
    for contour in contours {
        points.extend(contour.concat());
        ends.push(points.len() as u32 / 2);
    }
    (points, ends)
}

/// The answer for tables of the given lengths, filled with junk, and what it leaves in them.
fn nested(
    points: &[i32],
    ends: &[u32],
    lengths: [usize; 2],
) -> (Result<(), Refusal>, Vec<u32>, Vec<u32>) {
    let [mut depths, mut parents] = lengths.map(|length| vec![JUNK; length]);
    let answer = nesting(points, ends, &mut depths, &mut parents);
    (answer, depths, parents)
}

#[track_caller]
fn assert_nested(contours: &[&[[i32; 2]]], depths: &[u32], parents: &[u32]) {
    let (points, ends) = tables(contours);
    let lengths = [contours.len() + 1, contours.len() + 2];
    let found = nested(&points, &ends, lengths);
    let depths = [depths, &[JUNK]].concat();
    let parents = [parents, &[JUNK; 2]].concat();
    assert_eq!(found, (Ok(()), depths, parents));
}

fn square(low: i32, high: i32) -> [[i32; 2]; 4] {
    [[low, low], [high, low], [high, high], [low, high]]
}

#[test]
fn a_square_has_its_left_and_its_lower_side() {
    for x in -1..=5 {
        for y in -1..=5 {
            let expected = (0..4).contains(&x) && (0..4).contains(&y);
            assert_eq!(lies_in([x, y], &SQUARE), expected, "{x}, {y}");
        }
    }
}

#[test]
fn edges_are_met_at_exact_places() {
    // At x = 1/3 where y is 1, and at x = −1/3.
    assert!(counts([0, 1], [0, 0], [1, 3]));
    assert!(!counts([1, 1], [0, 0], [1, 3]));
    assert!(counts([-1, 1], [0, 0], [-1, 3]));
    assert!(!counts([0, 1], [0, 0], [-1, 3]));
    // At x = 1, either way.
    for (from, to) in [([0, 0], [2, 2]), ([2, 2], [0, 0])] {
        assert!(counts([0, 1], from, to));
        assert!(!counts([1, 1], from, to));
        assert!(!counts([2, 1], from, to));
    }
}

#[test]
fn an_edge_has_its_lower_end_and_not_its_upper_one() {
    for (from, to) in [([5, 0], [5, 3]), ([5, 3], [5, 0])] {
        let levels = (-1..=4).filter(|&y| counts([0, y], from, to));
        assert!(levels.eq(0..3));
    }
    for y in -1..=1 {
        assert!(!counts([0, y], [3, 0], [5, 0]));
        assert!(!counts([0, y], [3, 0], [3, 0]));
    }
}

#[test]
fn rings_within_rings() {
    let [large, small, middle] = [square(0, 9), square(3, 6), square(2, 7)];
    let mut beside = square(20, 25);
    beside.reverse();
    assert_nested(
        &[&large, &small, &beside, &middle],
        &[0, 2, 0, 1],
        &[NONE, 3, NONE, 0],
    );
}

#[test]
fn equal_contours_lie_in_each_other_by_where_they_start() {
    assert_nested(&[&SQUARE, &SQUARE], &[1, 1], &[1, 0]);
    for turns in 1..4 {
        let mut turned = SQUARE;
        turned.rotate_left(turns);
        assert_nested(&[&turned, &turned], &[0, 0], &[NONE, NONE]);
        assert_nested(&[&turned, &SQUARE], &[0, 1], &[NONE, 0]);
    }
}

#[test]
fn the_smallest_is_the_parent_and_of_equal_ones_the_first() {
    let inner = square(4, 5);
    // A wide one that crosses the square, and one of its size.
    let wide = [[-9, 2], [9, 2], [9, 7], [-9, 7]];
    let other = [[2, -9], [2, 9], [7, 9], [7, -9]];
    let holder = square(0, 9);
    let sizes = [&wide[..], &other, &holder].map(|contour| doubled_area(contour));
    assert_eq!(sizes, [180, -180, 162]);
    assert_nested(&[&inner, &wide, &other], &[2, 0, 0], &[1, NONE, NONE]);
    assert_nested(&[&other, &inner, &wide], &[0, 2, 0], &[NONE, 0, NONE]);
    let (points, ends) = tables(&[&wide, &inner, &holder, &other]);
    let (_, depths, parents) = nested(&points, &ends, [4, 4]);
    assert_eq!((depths[1], parents[1]), (3, 2));
}

#[test]
fn refusals_stand_in_order_and_leave_the_tables() {
    for (points, ends, lengths, refusal) in [
        (&[FAR][..], &[][..], [0, 0], (1, 0)),
        (&[0, 0, 0, FAR], &[1], [0, 0], (1, 0)),
        (&[0, 0, 0, FAR], &[2], [0, 0], (2, 3)),
        (&[0, -FAR, 0, FAR], &[2], [1, 1], (2, 1)),
        (&[0; 4], &[2], [0, 1], (9, 0)),
        (&[0; 4], &[2], [1, 0], (9, 0)),
        (&[0; 8], &[2, 4], [9, 1], (9, 0)),
    ] {
        let (number, place) = refusal;
        let left = lengths.map(|length| vec![JUNK; length]);
        let [depths, parents] = left;
        let expected = (Err(Refusal { number, place }), depths, parents);
        assert_eq!(nested(points, ends, lengths), expected);
    }
    assert!(nested(&[0; 4], &[2], [1, 1]).0.is_ok());
    assert!(nested(&[], &[], [0, 0]).0.is_ok());
}

/// Twice the signed area of the triangle from a point to an edge.
fn side([x, y]: [i32; 2], [ax, ay]: [i32; 2], [bx, by]: [i32; 2]) -> i64 {
    let [x, y, ax, ay, bx, by] = [x, y, ax, ay, bx, by].map(i64::from);
    (ax - x) * (by - y) - (bx - x) * (ay - y)
}

#[test]
fn points_within_a_triangle_lie_in_it_and_those_outside_do_not() {
    let mut met = [0; 2];
    for round in 0..20_000 {
        let mut random = Random::of_round(1, round);
        let reach = random.choose(&[3, 9, 1_048_576]);
        let [a, b, c, point] = [(); 4].map(|()| [(); 2].map(|()| random.within(-reach..=reach)));
        let sides = [side(point, a, b), side(point, b, c), side(point, c, a)];
        if sides.contains(&0) {
            continue;
        }
        let inside = sides.iter().all(|&s| s > 0) || sides.iter().all(|&s| s < 0);
        assert_eq!(lies_in(point, &[a, b, c]), inside, "round {round}");
        met[usize::from(inside)] += 1;
    }
    assert!(met.iter().all(|&count| count > 500), "{met:?}");
}
