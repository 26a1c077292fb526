use super::*;
use meshes::Random;

const JUNK: i32 = 77;
const M: i32 = 1_048_576;

/// The layer file of part P.
const FILE_P: [u8; 23] = [
    0x04, 0x00, 0x00, 0x0A, 0x01, 0x03, 0x0A, 0x00, 0x09, 0x0A, 0x00, 0x09, 0x14, 0x01, 0x03, 0x00,
    0x00, 0x00, 0x00, 0x00, 0x00, 0x16, 0x00,
];

fn layer(height: i32, contours: &[&[[i32; 2]]]) -> FileLayer {
    FileLayer {
        height,
        contours: contours.iter().map(|contour| contour.to_vec()).collect(),
    }
}

fn layers_p() -> Vec<FileLayer> {
    vec![
        layer(0, &[]),
        layer(5, &[&[[5, 0], [0, 5], [0, 0]]]),
        layer(10, &[&[[0, 0]; 3]]),
        layer(11, &[]),
    ]
}

/// The answer for tables of the given lengths, filled with junk, and what it leaves in them.
fn read(
    file: &[u8],
    i: usize,
    lengths: [usize; 2],
) -> (Result<LayerRead, Refusal>, Vec<i32>, Vec<u32>) {
    let mut points = vec![JUNK; lengths[0]];
    let mut ends = vec![JUNK as u32; lengths[1]];
    let answer = read_layer(file, i, &mut points, &mut ends);
    (answer, points, ends)
}

/// The place of refusal 13.
fn broken(file: &[u8]) -> u64 {
    let refusal = decode_layers(file).unwrap_err();
    assert_eq!(refusal.number, 13);
    refusal.place
}

#[test]
fn the_layers_of_part_p_have_the_file_of_the_document() {
    assert_eq!(encode_layers(&layers_p()), FILE_P);
    assert_eq!(decode_layers(&FILE_P), Ok(layers_p()));
}

#[test]
fn a_layer_fills_the_first_entries() {
    let (answer, points, ends) = read(&FILE_P, 1, [8, 3]);
    let expected = LayerRead {
        layers: 4,
        height: 5,
        contours: 1,
        points: 3,
    };
    assert_eq!(answer, Ok(expected));
    assert_eq!(points, [5, 0, 0, 5, 0, 0, JUNK, JUNK]);
    assert_eq!(ends, [3, 77, 77]);

    let two = [layer(-9, &[&[[1, 2], [3, 4]], &[[5, 6], [7, 8], [9, 10]]])];
    let (answer, points, ends) = read(&encode_layers(&two), 0, [10, 2]);
    let expected = LayerRead {
        layers: 1,
        height: -9,
        contours: 2,
        points: 5,
    };
    assert_eq!(answer, Ok(expected));
    assert!(points.into_iter().eq(1..=10));
    assert_eq!(ends, [2, 5]);
}

#[test]
fn refusals_stand_in_order_and_leave_the_tables() {
    for (file, i, lengths, number) in [
        (&FILE_P[..22], 9, [5, 0], 13),
        (&FILE_P, 4, [5, 0], 15),
        (&FILE_P, usize::MAX, [8, 8], 15),
        (&FILE_P, 1, [5, 1], 9),
        (&FILE_P, 1, [6, 0], 9),
        (&FILE_P, 2, [0, 0], 9),
    ] {
        let (answer, points, ends) = read(file, i, lengths);
        let place = if number == 13 { 22 } else { 0 };
        assert_eq!(answer, Err(Refusal { number, place }));
        assert_eq!(points, vec![JUNK; lengths[0]]);
        assert_eq!(ends, vec![JUNK as u32; lengths[1]]);
    }
    assert!(read(&FILE_P, 1, [6, 1]).0.is_ok());
    assert!(read(&FILE_P, 3, [0, 0]).0.is_ok());
}

#[test]
fn values_that_break_a_rule_are_refused_at_their_first_byte() {
    let place = |layers: &[FileLayer]| broken(&encode_layers(layers));
    assert_eq!(broken(&[0x81, 0x20]), 0);
    assert_eq!(broken(&[0x80, 0x20]), 2);
    assert_eq!(place(&[layer(3, &[]), layer(3, &[])]), 3);
    assert_eq!(place(&[layer(3, &[]), layer(-4, &[])]), 3);
    assert_eq!(place(&[layer(0, &[&[]])]), 3);
    assert_eq!(place(&[layer(0, &[&[[0, 0]]])]), 3);
    assert_eq!(place(&[layer(0, &[&[[0, 0]; 2], &[[0, 0]]])]), 8);
    assert_eq!(place(&[layer(0, &[&[[M + 1, 0], [0, 0]]])]), 4);
    assert_eq!(place(&[layer(0, &[&[[0, -M - 1], [0, 0]]])]), 5);
    assert_eq!(place(&[layer(0, &[&[[M, 0], [M + 1, 0]]])]), 9);
    assert_eq!(place(&[layer(0, &[&[[M, -M], [M, -M - 1]]])]), 12);
    assert!(decode_layers(&encode_layers(&[layer(0, &[&[[M, -M], [-M, M]]])])).is_ok());
}

#[test]
fn differences_may_not_wrap() {
    // The first x is 1, and the difference the largest and the least of 32 bits.
    for difference in [i32::MAX, i32::MIN] {
        let mut file = vec![1, 0, 1, 2, 2, 0];
        file.extend(encode_signed(difference.into()));
        file.push(0);
        assert_eq!(broken(&file), 6);
    }
}

#[test]
fn a_layer_has_98_304_points_in_all_at_most() {
    let file = |counts: &[usize]| {
        let contours = counts.iter().map(|&count| vec![[0, 0]; count]);
        encode_layers(&[FileLayer {
            height: 0,
            contours: contours.collect(),
        }])
    };
    assert!(decode_layers(&file(&[98_304])).is_ok());
    assert!(decode_layers(&file(&[98_302, 2])).is_ok());
    assert_eq!(broken(&file(&[98_305])), 3);
    assert_eq!(broken(&file(&[98_302, 3])), 3 + 3 + 2 * 98_302);
    // The limit is on each layer.
    let twice = [layer(0, &[]), layer(1, &[])].map(|layer| FileLayer {
        contours: vec![vec![[1, 1]; 98_304]],
        ..layer
    });
    assert_eq!(decode_layers(&encode_layers(&twice)), Ok(twice.into()));
}

#[test]
fn missing_values_are_refused_at_the_end_of_the_file() {
    assert_eq!(broken(&[]), 0);
    for length in 0..23 {
        assert_eq!(broken(&FILE_P[..length]), length as u64);
    }
    for byte in [0, 1, 127, 128, 255] {
        assert_eq!(broken(&[&FILE_P, [byte].as_slice()].concat()), 23);
    }
    assert_eq!(broken(&[1, 0, 255, 255, 255, 255, 15]), 7);
}

#[test]
fn layers_are_read_back() {
    for round in 0..500 {
        let mut random = Random::of_round(1, round);
        let reach = random.choose(&[1, 100, M]);
        let mut layers = Vec::new();
        let mut height = random.within(-200..=200);
        for _ in 0..random.below(5) {
            let contours = (0..random.below(4)).map(|_| {
                let count = 2 + random.below(4);
                let mut point = || [(); 2].map(|()| random.within(-reach..=reach));
                (0..count).map(|_| point()).collect()
            });
            let contours = contours.collect();
            layers.push(FileLayer { height, contours });
            height += random.within(1..=200);
        }
        let file = encode_layers(&layers);
        assert_eq!(decode_layers(&file), Ok(layers), "round {round}");
    }
}

/// The answer of the clean reading, into tables that are long enough.
fn read_clean(layers: &[FileLayer], i: usize) -> Result<LayerRead, Refusal> {
    let (mut points, mut ends) = ([JUNK; 40], [JUNK as u32; 10]);
    read_layer_clean(&encode_layers(layers), i, &mut points, &mut ends)
}

const TRIANGLE: [[i32; 2]; 3] = [[5, 0], [0, 5], [0, 0]];

#[test]
fn clean_files_are_read_as_the_full_reading_reads_them() {
    let layers = [
        layer(0, &[]),
        layer(5, &[&TRIANGLE, &[[1, 1], [2, 1], [1, 1], [1, 2]]]),
    ];
    let file = encode_layers(&layers);
    for i in 0..2 {
        let (mut points, mut ends) = (vec![JUNK; 15], vec![JUNK as u32; 3]);
        let answer = read_layer_clean(&file, i, &mut points, &mut ends);
        assert_eq!((answer, points, ends), read(&file, i, [15, 3]));
    }
}

#[test]
fn the_first_unclean_contour_of_any_layer_is_refused() {
    let unclean: [&[[i32; 2]]; 4] = [
        &[[5, 0], [5, 0], [0, 5], [0, 0]],
        &[[5, 0], [0, 5], [0, 0], [5, 0]],
        &[[5, 0], [0, 5], [5, 0], [0, 5]],
        &[[5, 0]; 2],
    ];
    for contour in unclean {
        let layers = [
            layer(0, &[&TRIANGLE]),
            layer(1, &[&TRIANGLE, contour, contour]),
            layer(2, &[contour]),
        ];
        for i in [0, 1, 2, 3, usize::MAX] {
            // A layer has two bytes before its contours, a triangle seven.
            let refusal = Err(Refusal {
                number: 18,
                place: 1 + 9 + 2 + 7,
            });
            assert_eq!(read_clean(&layers, i), refusal);
        }
        let last = [layer(0, &[]), layer(1, &[&TRIANGLE, contour])];
        let place = read_clean(&last, 0).unwrap_err().place;
        assert_eq!(place, 1 + 2 + 2 + 7);
    }
}

#[test]
fn a_broken_file_is_refused_before_an_unclean_contour() {
    let mut file = encode_layers(&[layer(0, &[&[[5, 0]; 2]])]);
    let place = |file: &[u8]| {
        let refusal = read_layer_clean(file, 9, &mut [], &mut []).unwrap_err();
        (refusal.number, refusal.place)
    };
    assert_eq!(place(&file), (18, 3));
    file.push(0);
    assert_eq!(place(&file), (13, file.len() as u64 - 1));
    assert_eq!(place(&[0]), (15, 0));
    let triangle = encode_layers(&[layer(0, &[&TRIANGLE])]);
    let refusal = read_layer_clean(&triangle, 0, &mut [0; 5], &mut [0; 1]);
    assert_eq!(refusal.map_err(|refusal| refusal.number), Err(9));
}
