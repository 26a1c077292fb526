//! Random files, right, broken and meaningless, against the oracle.

use super::{contours_of, least_exact, round_the_square, turned, DOUBLED_NANOLITRE, M, WRONG};
use crate::harness::{test_product, test_threads, Rounds};
use crate::operations::{Ink, Job, LayerFile};
use crate::read_layer::{self, against_the_rules, meaningless, near_the_limits};
use files::{random_clean_layers, Damage};
use meshes::Random;
use oracle::FileLayer;

/// A thickness that is right as a rule.
pub fn random_thickness(random: &mut Random) -> u32 {
    match random.below(16) {
        0 => random.word() as u32,
        1 => random.choose(&WRONG),
        2 => random.choose(&[1, 2, 999, 1_000]),
        _ => 1 + random.below(1_000) as u32,
    }
}

/// A file that is made for Read layer.
fn job(input: LayerFile, random: &mut Random) -> Job {
    let thickness = random_thickness(random);
    let file = input.file;
    Job { file, thickness }
}

/// The file of some layers.
pub fn right(random: &mut Random) -> Job {
    job(read_layer::right(random), random)
}

/// A file in the clean profile.
fn clean(random: &mut Random) -> Job {
    let layers = random_clean_layers(random);
    Job::of(&layers, random_thickness(random))
}

/// Layers whose charges are whole nanolitres or nearly so, and at times below zero.
pub fn near_whole_charges(random: &mut Random) -> Job {
    let thickness = random_thickness(random);
    let height = random.within(-100..=100);
    let layers: Vec<FileLayer> = (0..1 + random.below(5) as i32)
        .map(|k| FileLayer {
            height: height + k,
            contours: contours_near(thickness, random),
        })
        .collect();
    Job::of(&layers, thickness)
}

/// Contours whose sum is that of a whole charge or next to it, and some more that add nothing at times.
fn contours_near(thickness: u32, random: &mut Random) -> Vec<Vec<[i32; 2]>> {
    let bits = random.choose(&[2, 10, 20, 30, 40, 50]);
    let mut contours = contours_of(sum_near(thickness, bits, random));
    if random.one_in(3) {
        let more = i64::from(random.within(0..=i32::MAX));
        contours.extend(contours_of(more));
        contours.extend(contours_of(-more));
    }
    random.shuffle(&mut contours);
    contours
}

/// A sum of a whole charge or next to it, at times below zero, of about so many bits at most.
fn sum_near(thickness: u32, bits: u32, random: &mut Random) -> i64 {
    let step = least_exact(thickness);
    let times = random.below(1 + (1 << bits) / step as usize) as i64 + i64::from(random.one_in(4));
    let whole = match random.one_in(4) {
        // Whole charges only nearly.
        true => times * DOUBLED_NANOLITRE / i64::from(thickness.clamp(1, 1_000)),
        false => times * step,
    };
    let sum = whole + i64::from(random.within(-1..=1));
    random.choose(&[1, 1, 1, 1, -1]) * sum.clamp(-(1 << 57), 1 << 57)
}

/// Layers of extreme coordinates, whose sums are large and of either sign.
pub fn extreme(random: &mut Random) -> Job {
    let point = |random: &mut Random| [(); 2].map(|()| random.choose(&[-M, 1 - M, 0, M - 1, M]));
    let contour = |random: &mut Random| match random.below(3) {
        0 => round_the_square(2 + random.below(20)),
        1 => turned(&round_the_square(2 + random.below(20))),
        _ => (0..2 + random.below(8)).map(|_| point(random)).collect(),
    };
    let height = random.choose(&[i32::MIN, -2, i32::MAX - 4]);
    let layers: Vec<FileLayer> = (0..1 + random.below(4) as i32)
        .map(|k| FileLayer {
            height: height + k,
            contours: (0..random.below(5)).map(|_| contour(random)).collect(),
        })
        .collect();
    Job::of(&layers, random_thickness(random))
}

/// Layers of long contours, of which most have products past 64 bits.
pub fn huge(random: &mut Random) -> Job {
    let thickness = random.choose(&[1, 100, 500, 999, 1_000, 1_000]);
    let layers: Vec<FileLayer> = (0..1 + random.below(3) as i32)
        .map(|height| {
            let contours = match random.one_in(2) {
                true => contours_of(sum_near(thickness, 57, random)),
                false => vec![long_contour(random)],
            };
            FileLayer { height, contours }
        })
        .collect();
    Job::of(&layers, thickness)
}

/// A contour round the square of all coordinates, with some points elsewhere.
fn long_contour(random: &mut Random) -> Vec<[i32; 2]> {
    let mut contour = round_the_square(4 + random.below(98_300));
    for _ in 0..random.below(3) {
        let at = random.below(contour.len());
        contour[at] = [(); 2].map(|()| random.within(-M..=M));
    }
    if random.one_in(4) {
        contour.reverse();
    }
    contour
}

/// A file some of whose bytes are wrong: flipped, missing or left over among other things.
fn spoiled(random: &mut Random) -> Job {
    let kinds = [right, clean, near_whole_charges, extreme];
    let mut spoiled = random.choose(&kinds)(random);
    for _ in 0..random.choose(&[1, 1, 2]) {
        Damage::any(random).apply(&mut spoiled.file, random);
    }
    spoiled
}

/// A file of values in the right form that break a rule.
fn breaking_a_rule(random: &mut Random) -> Job {
    job(against_the_rules(random), random)
}

/// Bytes that look like a file at most for a while.
fn no_file(random: &mut Random) -> Job {
    job(meaningless(random), random)
}

/// A file near the limits, right or not.
fn large(random: &mut Random) -> Job {
    job(near_the_limits(random), random)
}

/// A job of one of these kinds, seldom a huge one.
pub fn any(random: &mut Random) -> Job {
    if random.one_in(200) {
        return huge(random);
    }
    let right_ones = [right, clean, near_whole_charges, extreme];
    match random.below(4) {
        0 => breaking_a_rule(random),
        1 => spoiled(random),
        _ => random.choose(&right_ones)(random),
    }
}

#[test]
fn right_files() {
    let tally = test_product::<Ink>("right files", 2, right);
    tally.require(&[0, 19], 100);
    assert_eq!(tally.count(13), 0);
}

#[test]
fn clean_files() {
    let tally = test_product::<Ink>("clean files", 4, clean);
    tally.require(&[0, 19], 100);
    assert_eq!(tally.count(13), 0);
}

#[test]
fn charges_next_to_whole_ones() {
    let tally = test_product::<Ink>("near whole charges", 2, near_whole_charges);
    tally.require(&[0, 19], 100);
    assert_eq!(tally.count(13), 0);
}

#[test]
fn extreme_coordinates() {
    let tally = test_product::<Ink>("extreme coordinates", 2, extreme);
    tally.require(&[0, 19], 100);
    assert_eq!(tally.count(13), 0);
}

#[test]
fn products_past_64_bits() {
    let tally = test_product::<Ink>("huge", 2_000, huge);
    assert_eq!(tally.count(13) + tally.count(19), 0);
}

#[test]
fn files_against_the_rules() {
    let tally = test_product::<Ink>("files against the rules", 4, breaking_a_rule);
    tally.require(&[13], 100);
    tally.require_places(13);
}

#[test]
fn files_with_wrong_bytes() {
    let tally = test_product::<Ink>("files with wrong bytes", 2, spoiled);
    tally.require(&[0, 13, 19], 100);
    tally.require_places(13);
}

#[test]
fn meaningless_bytes() {
    let tally = test_product::<Ink>("meaningless bytes", 1, no_file);
    tally.require(&[0, 13, 19], 20);
}

#[test]
fn files_near_the_limits() {
    test_product::<Ink>("near the limits", 8_000, large);
}

#[test]
fn several_threads_at_once() {
    test_threads::<Ink>(250, any);
}

#[test]
fn charges_are_of_all_kinds() {
    let [charged, nothing, much] = Rounds::fixed(1, 2_000).shares(|random| {
        let charge = wadroles::ink(&right(random).file, 1_000).unwrap();
        [charge > 0, charge == 0, charge > 1 << 20]
    });
    assert!(charged > 0.3 && nothing > 0.1 && much > 0.2);
    let [past, nothing] = Rounds::fixed(1, 60).shares(|random| {
        let Job { file, thickness } = huge(random);
        // A product of 2^64 is charged 9,223,372,036,855.
        let charge = wadroles::ink(&file, thickness).unwrap();
        [charge > 9_300_000_000_000, charge == 0]
    });
    assert!(past > 0.3 && nothing > 0.01, "{past}, {nothing}");
}
