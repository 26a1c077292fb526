//! What the specification says of every job, asked of the product: the charge is the formula on the
//! layers that Read layer gives and the areas that Area gives, and jobs of the same cuts are charged
//! alike, however their files were made. Of the oracle only its encoder has a part in it.

use super::random::{any, near_whole_charges, random_thickness, right};
use super::{turned, WRONG};
use crate::all_layers::{heights_taken, product_file, random_given, single_cuts};
use crate::clean::cleaned;
use crate::harness::{refused, Answer, Rounds};
use crate::inputs::shrunk;
use crate::operations::{Given, Job};
use crate::read_layer::product_layers;
use meshes::shapes::{ball, cuboid, octahedron, tetrahedron, torus};
use meshes::{rising_heights, Mesh, Random};
use oracle::{encode_layers, FileLayer};

/// The charge that the product gives.
fn charge(file: &[u8], thickness: u32) -> Answer<u64> {
    wadroles::ink(file, thickness).map_err(refused)
}

/// The charge of layers by the formula, with areas by the product.
fn formula(layers: &[FileLayer], thickness: u32) -> u64 {
    let area = |contour: &Vec<[i32; 2]>| wadroles::area(contour.as_flattened()).unwrap();
    let charges = layers.iter().map(|layer| {
        let areas = layer.contours.iter().map(area).map(i128::from);
        let product = areas.sum::<i128>() * i128::from(thickness);
        (product.max(0) + 1_999_999) / 2_000_000
    });
    charges.sum::<i128>().try_into().unwrap()
}

/// A right thickness.
fn thickness(random: &mut Random) -> u32 {
    match random.one_in(2) {
        true => random.choose(&[1, 2, 40, 100, 999, 1_000]),
        false => 1 + random.below(1_000) as u32,
    }
}

#[test]
fn the_charge_is_the_formula_on_what_read_layer_gives() {
    let name = "ink, by read layer and area";
    let [charged, broken, thick] = Rounds::one_in(5, name).shares(|random| {
        let Job { file, thickness } = any(random);
        let by_formula = match product_layers(&file) {
            Ok(_) if !(1..=1_000).contains(&thickness) => Err((19, 0)),
            Ok(layers) => Ok(formula(&layers, thickness)),
            Err((number, place)) => {
                assert_eq!(number, 13);
                Err((number, place))
            }
        };
        let answer = charge(&file, thickness);
        assert_eq!(answer, by_formula);
        [
            answer.is_ok_and(|charge| charge > 0),
            answer.is_err_and(|(number, _)| number == 13),
            answer == Err((19, 0)),
        ]
    });
    assert!(charged > 0.2, "too few are charged: {charged}");
    assert!(broken > 0.2 && thick > 0.03, "{broken}, {thick}");
}

#[test]
fn layers_are_charged_by_themselves() {
    let share = Rounds::one_in(10, "ink, layer by layer").share(|random| {
        let kinds = [right, near_whole_charges];
        let Job { file, .. } = random.choose(&kinds)(random);
        let thickness = thickness(random);
        let layers = product_layers(&file).unwrap();
        let singly = layers.iter().map(|layer| {
            let single = encode_layers(std::slice::from_ref(layer));
            charge(&single, thickness).unwrap()
        });
        assert_eq!(charge(&file, thickness), Ok(singly.sum()));
        layers.len() > 1
    });
    assert!(share > 0.3, "too few have several layers: {share}");
}

#[test]
fn contours_in_another_order_or_with_another_start_are_charged_alike() {
    let share = Rounds::one_in(20, "ink, contours moved").share(|random| {
        let Job { file, .. } = right(random);
        let thickness = thickness(random);
        let before = charge(&file, thickness);
        let mut layers = product_layers(&file).unwrap();
        for layer in &mut layers {
            random.shuffle(&mut layer.contours);
            for contour in &mut layer.contours {
                let start = random.below(contour.len());
                contour.rotate_left(start);
                // A point twice adds nothing.
                if random.one_in(2) {
                    contour.push(contour[contour.len() - 1]);
                }
            }
        }
        assert_eq!(charge(&encode_layers(&layers), thickness), before);
        before != Ok(0)
    });
    assert!(share > 0.3, "too few are charged: {share}");
}

#[test]
fn a_layer_or_the_same_turned_round_is_charged_nothing() {
    let share = Rounds::one_in(20, "ink, turned round").share(|random| {
        let Job { file, .. } = near_whole_charges(random);
        let thickness = thickness(random);
        let layers = product_layers(&file).unwrap();
        let mut layer = layers[..1].to_vec();
        let one = charge(&encode_layers(&layer), thickness).unwrap();
        for contour in &mut layer[0].contours {
            *contour = turned(contour);
        }
        let other = charge(&encode_layers(&layer), thickness).unwrap();
        assert!(one == 0 || other == 0, "{one}, {other}");
        one + other > 0
    });
    assert!(share > 0.5, "too few are charged: {share}");
}

/// A mesh at heights that rise, often one whose layers lose points when they are cleaned.
fn given(random: &mut Random) -> Given {
    let given = match random.one_in(2) {
        true => random_given(random),
        false => {
            let mesh = shrunk(random);
            let heights = rising_heights(&mesh, random);
            Given::paired(mesh, random).over(&heights)
        }
    };
    match given.heights.is_empty() && heights_taken(&given).len() > 100 {
        true => given.over(&[-3, 0, 40]),
        false => given,
    }
}

/// Asserts that all files of these cuts are charged alike, and gives the charge.
#[track_caller]
fn assert_charged_alike(given: &Given, thickness: u32) -> u64 {
    let heights = heights_taken(given);
    let cuts = single_cuts(given, &heights);
    let by_cuts = formula(&cuts, thickness);

    let full = product_file::<false>(given);
    assert_eq!(charge(&full, thickness), Ok(by_cuts), "swept");
    assert_eq!(charge(&encode_layers(&cuts), thickness), Ok(by_cuts), "cut");

    let clean = product_file::<true>(given);
    assert_eq!(charge(&clean, thickness), Ok(by_cuts), "clean");
    let cleaned: Vec<FileLayer> = cuts
        .iter()
        .map(|layer| FileLayer {
            height: layer.height,
            contours: cleaned(&layer.contours),
        })
        .collect();
    let cleaned = encode_layers(&cleaned);
    assert_eq!(charge(&cleaned, thickness), Ok(by_cuts), "cleaned");

    for thickness in WRONG {
        assert_eq!(charge(&full, thickness), Err((19, 0)));
        assert_eq!(charge(&clean, thickness), Err((19, 0)));
    }
    by_cuts
}

#[test]
fn swept_cut_and_cleaned_files_are_charged_alike() {
    let [charged, altered] = Rounds::one_in(100, "ink, files of cuts").shares(|random| {
        let given = given(random);
        let charge = assert_charged_alike(&given, thickness(random));
        let altered = product_file::<false>(&given) != product_file::<true>(&given);
        [charge > 0, altered]
    });
    assert!(charged > 0.3, "too few are charged: {charged}");
    assert!(altered > 0.3, "too few files lose a point: {altered}");
}

/// The mesh at so many heights from next to its bottom to next to its top.
fn over(mesh: Mesh, count: i32) -> Given {
    let z = || mesh.coords.iter().skip(2).step_by(3).copied();
    let (low, high) = (z().min().unwrap(), z().max().unwrap());
    let distance = (high - low) / count;
    let heights: Vec<i32> = (0..count).map(|i| low + 1 + i * distance).collect();
    Given::new(mesh).over(&heights)
}

#[test]
fn files_of_solids_are_charged_alike() {
    for (mesh, count) in [
        (torus(24, 40, 9_000, 4_000), 60),
        (torus(24, 40, 9_000, 4_000).smaller(3_000), 60),
        (torus(40, 24, 700_000, 300_000), 30),
        (ball(3, 1_000_000), 40),
        (ball(2, 300).smaller(100), 20),
        (octahedron(1_000), 50),
        (cuboid([-5, -5, 0], [900, 20, 700]), 9),
    ] {
        let given = over(mesh, count);
        for thickness in [1, 40, 1_000] {
            let charge = assert_charged_alike(&given, thickness);
            assert!(charge >= 1);
        }
    }
    // By default heights.
    for size in [60, 1_000, 20_000] {
        assert_charged_alike(&Given::new(tetrahedron(size)), 100);
    }
}

#[test]
fn a_cuboid_is_charged_its_volume() {
    // Each layer has 36,000 square micrometres: 0.9 nanolitres at 25, 0.972 at 27, 1.008 at 28.
    let solid = cuboid([0, 0, 0], [900, 40, 1_000]);
    let given = Given::new(solid).over(&[10, 35, 60]);
    for (thickness, each) in [(25, 1), (27, 1), (28, 2), (1_000, 36)] {
        assert_eq!(assert_charged_alike(&given, thickness), 3 * each);
    }
}

#[test]
fn any_thickness_is_right_or_refused() {
    let share = Rounds::one_in(10, "ink, thicknesses").share(|random| {
        let Job { file, .. } = near_whole_charges(random);
        let thickness = random_thickness(random);
        let right = (1..=1_000).contains(&thickness);
        let answer = charge(&file, thickness);
        assert_eq!(answer.is_ok(), right);
        assert!(right || answer == Err((19, 0)));
        right
    });
    assert!((0.5..0.95).contains(&share), "{share}");
}
