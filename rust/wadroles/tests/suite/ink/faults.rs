//! Faults that the random rounds notice.

use super::random::any;
use crate::harness::{
    assert_common_faults_noticed, assert_noticed, Answer, Fault, Implementation, Operation,
};
use crate::operations::{Ink, Job};
use oracle::{decode_layers, FileLayer};

fn oracle(job: &Job) -> Answer<u64> {
    Ink::oracle(job, &mut ())
}

/// The doubled areas of a layer's contours.
fn areas(layer: &FileLayer) -> Vec<i128> {
    let area = |contour: &Vec<[i32; 2]>| oracle::area(contour.as_flattened()).unwrap();
    layer.contours.iter().map(area).map(i128::from).collect()
}

fn rounded_up(product: i128) -> i128 {
    (product + 1_999_999).div_euclid(2_000_000)
}

/// Refuses what the oracle refuses, and charges otherwise: by the sums of the layers and the thickness.
fn charging(job: &Job, charge: impl Fn(&[FileLayer], i128) -> i128) -> Answer<u64> {
    oracle(job)?;
    let layers = decode_layers(&job.file).expect("it was charged");
    Ok(charge(&layers, job.thickness.into()) as u64)
}

/// The same for each layer, which is charged nothing below zero.
fn by_layers(job: &Job, charge: impl Fn(i128, i128) -> i128) -> Answer<u64> {
    charging(job, |layers, thickness| {
        let sums = layers.iter().map(|layer| areas(layer).iter().sum::<i128>());
        sums.filter(|&sum| sum > 0)
            .map(|sum| charge(sum, thickness))
            .sum()
    })
}

fn rounded_once(job: &Job, (): &mut ()) -> Answer<u64> {
    charging(job, |layers, thickness| {
        let sums = layers.iter().map(|layer| areas(layer).iter().sum::<i128>());
        rounded_up(sums.map(|sum| sum.max(0)).sum::<i128>() * thickness)
    })
}

fn rounded_for_each_contour(job: &Job, (): &mut ()) -> Answer<u64> {
    charging(job, |layers, thickness| {
        let charges = layers.iter().map(|layer| {
            let charges = areas(layer).into_iter();
            charges
                .map(|area| rounded_up(area * thickness))
                .sum::<i128>()
        });
        charges.map(|charge| charge.max(0)).sum()
    })
}

fn rounded_down(job: &Job, (): &mut ()) -> Answer<u64> {
    by_layers(job, |sum, thickness| sum * thickness / 2_000_000)
}

fn rounded_to_the_nearest(job: &Job, (): &mut ()) -> Answer<u64> {
    by_layers(job, |sum, thickness| {
        (sum * thickness + 1_000_000) / 2_000_000
    })
}

fn one_more_where_it_is_whole(job: &Job, (): &mut ()) -> Answer<u64> {
    by_layers(job, |sum, thickness| sum * thickness / 2_000_000 + 1)
}

fn halved_first(job: &Job, (): &mut ()) -> Answer<u64> {
    by_layers(job, |sum, thickness| rounded_up(sum / 2 * 2 * thickness))
}

fn never_halved(job: &Job, (): &mut ()) -> Answer<u64> {
    by_layers(job, |sum, thickness| rounded_up(2 * sum * thickness))
}

fn rounded_before_the_product(job: &Job, (): &mut ()) -> Answer<u64> {
    by_layers(job, |sum, thickness| rounded_up(sum) * thickness)
}

fn product_of_64_bits(job: &Job, (): &mut ()) -> Answer<u64> {
    by_layers(job, |sum, thickness| {
        let product = (sum as u64).wrapping_mul(thickness as u64);
        rounded_up(product.into())
    })
}

fn charges_of_32_bits(job: &Job, (): &mut ()) -> Answer<u64> {
    oracle(job).map(|charge| charge % (1 << 32))
}

/// By a float of 64 bits, which is exact where the numbers are small.
fn charged_by_floats(job: &Job, (): &mut ()) -> Answer<u64> {
    by_layers(job, |sum, thickness| {
        let charge = sum as f64 / 2e6 * thickness as f64;
        charge.ceil() as i128
    })
}

fn negative_sums_taken_off(job: &Job, (): &mut ()) -> Answer<u64> {
    charging(job, |layers, thickness| {
        let sums = layers.iter().map(|layer| areas(layer).iter().sum::<i128>());
        sums.map(|sum| rounded_up(sum * thickness))
            .sum::<i128>()
            .max(0)
    })
}

fn absolute_areas(job: &Job, (): &mut ()) -> Answer<u64> {
    charging(job, |layers, thickness| {
        let charges = layers.iter().map(|layer| {
            let absolute = areas(layer).into_iter().map(i128::abs);
            rounded_up(absolute.sum::<i128>() * thickness)
        });
        charges.sum()
    })
}

fn absolute_sums(job: &Job, (): &mut ()) -> Answer<u64> {
    charging(job, |layers, thickness| {
        let charges = layers.iter().map(|layer| {
            let sum: i128 = areas(layer).iter().sum();
            rounded_up(sum.abs() * thickness)
        });
        charges.sum()
    })
}

fn holes_ignored(job: &Job, (): &mut ()) -> Answer<u64> {
    charging(job, |layers, thickness| {
        let charges = layers.iter().map(|layer| {
            let outer = areas(layer).into_iter().filter(|&area| area > 0);
            rounded_up(outer.sum::<i128>() * thickness)
        });
        charges.sum()
    })
}

fn last_layer_forgotten(job: &Job, (): &mut ()) -> Answer<u64> {
    let answer = oracle(job)?;
    let mut layers = decode_layers(&job.file).expect("it was charged");
    match layers.pop() {
        Some(_) => oracle(&Job::of(&layers, job.thickness)),
        None => Ok(answer),
    }
}

fn thickness_before_the_file(job: &Job, (): &mut ()) -> Answer<u64> {
    match job.thickness {
        1..=1_000 => oracle(job),
        _ => Err((19, 0)),
    }
}

fn one_too_thick_taken(job: &Job, (): &mut ()) -> Answer<u64> {
    let thinner = Job::new(&job.file, 1_000);
    match job.thickness {
        1_001 => oracle(&thinner),
        _ => oracle(job),
    }
}

fn thickness_0_taken(job: &Job, (): &mut ()) -> Answer<u64> {
    match oracle(job) {
        Err((19, _)) if job.thickness == 0 => Ok(0),
        answer => answer,
    }
}

fn thickness_of_16_bits(job: &Job, (): &mut ()) -> Answer<u64> {
    oracle(&Job::new(&job.file, job.thickness % (1 << 16)))
}

fn unclean_refused(job: &Job, (): &mut ()) -> Answer<u64> {
    let answer = oracle(job)?;
    let layers = decode_layers(&job.file).expect("it was charged");
    let mut contours = layers.iter().flat_map(|layer| &layer.contours);
    match contours.all(|contour| oracle::is_clean(contour)) {
        true => Ok(answer),
        false => Err((18, 3)),
    }
}

fn left_over_byte_ignored(job: &Job, (): &mut ()) -> Answer<u64> {
    let answer = oracle(job);
    match answer {
        Err((13, place)) if place > 0 => {
            let without = Job::new(&job.file[..place as usize], job.thickness);
            oracle(&without).or(answer)
        }
        _ => answer,
    }
}

#[test]
fn faults_are_noticed() {
    let charging_wrongly: [(&str, Implementation<Ink>); 16] = [
        ("once", rounded_once),
        ("each contour", rounded_for_each_contour),
        ("down", rounded_down),
        ("nearest", rounded_to_the_nearest),
        ("one more", one_more_where_it_is_whole),
        ("halved first", halved_first),
        ("never halved", never_halved),
        ("rounded before", rounded_before_the_product),
        ("64 bits", product_of_64_bits),
        ("32 bits", charges_of_32_bits),
        ("floats", charged_by_floats),
        ("negative sums", negative_sums_taken_off),
        ("absolute areas", absolute_areas),
        ("absolute sums", absolute_sums),
        ("holes", holes_ignored),
        ("last layer", last_layer_forgotten),
    ];
    let charging_wrongly = charging_wrongly.map(|(name, version)| (name, version, "answer Ok("));
    assert_noticed::<Ink>(4_000, any, &charging_wrongly);

    let refusing_wrongly: [Fault<Ink>; 6] = [
        ("19 before 13", thickness_before_the_file, "not Err((13, "),
        ("1,001", one_too_thick_taken, "not Err((19, "),
        ("0", thickness_0_taken, "not Err((19, "),
        ("16 bits", thickness_of_16_bits, "not Err((19, "),
        ("unclean", unclean_refused, "answer Err((18, 3)), not Ok("),
        ("left over", left_over_byte_ignored, "not Err((13, "),
    ];
    assert_noticed::<Ink>(4_000, any, &refusing_wrongly);
    assert_common_faults_noticed::<Ink>(4_000, any);
}
