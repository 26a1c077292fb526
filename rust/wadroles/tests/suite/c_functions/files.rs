use super::{exact, gives, lent, refuses};
use crate::operations::{LayerFile, ReadLayer, ReadPart};
use oracle::FileLayer;

/// One layer, of a contour of two points.
const ONE_LAYER: [u8; 8] = [1, 9, 1, 2, 0, 0, 0, 0];

#[test]
fn read_layer_gives_all_four_words() {
    let one = LayerFile::new(&ONE_LAYER, 0);
    let words = [1, u64::MAX - 4, 1, 2];
    assert_eq!(exact::<ReadLayer>(one.clone()), (0, words));
    assert_eq!(lent::<ReadLayer>(one, &[9, 9]), (0, words));
    let three = [3, 1, 0, 4, 2, 2, 0, 0, 0, 0, 3, 0, 0, 0, 0, 0, 0, 6, 0];
    for (i, words) in [
        (0, [3, u64::MAX, 0, 0]),
        (1, [3, 2, 2, 5]),
        (2, [3, 3, 0, 0]),
    ] {
        let input = LayerFile::new(&three, i);
        assert_eq!(exact::<ReadLayer>(input), (0, words));
    }
}

#[test]
fn read_layer_gives_heights_as_twos_complement_of_64_bits() {
    for height in [i32::MIN, i32::MIN + 1, -5, -1, 0, 1, 5, i32::MAX] {
        let layer = FileLayer {
            height,
            contours: vec![],
        };
        let words = [1, i64::from(height) as u64, 0, 0];
        let input = LayerFile::of(&[layer], 0);
        assert_eq!(exact::<ReadLayer>(input), (0, words));
    }
}

#[test]
fn read_layer_writes_the_place_of_a_refusal_and_takes_null() {
    for (file, i, lengths, number, place) in [
        (&ONE_LAYER[..7], 0, [4, 1], 13, 7),
        (&[1, 0, 1, 1, 0, 0], 0, [4, 1], 13, 3),
        (&[0x80, 0x00], 0, [4, 1], 13, 0),
        (&ONE_LAYER, 1, [4, 1], 15, 0),
        (&ONE_LAYER, usize::MAX, [4, 1], 15, 0),
        (&ONE_LAYER, 0, [3, 1], 9, 0),
        (&ONE_LAYER, 0, [4, 0], 9, 0),
        (&[], 0, [0, 0], 13, 0),
        (&[], 5, [4, 1], 13, 0),
        (&[0], 0, [0, 0], 15, 0),
        (&ONE_LAYER, 0, [0, 1], 9, 0),
        (&ONE_LAYER, 0, [0, 0], 9, 0),
    ] {
        let output = lent::<ReadLayer>(LayerFile::new(file, i), &lengths);
        assert_eq!(output, refuses(number, place), "layer {i} of {file:?}");
    }
    let empty = LayerFile::new(&[1, 0, 0], 0);
    assert_eq!(lent::<ReadLayer>(empty, &[0, 0]), (0, [1, 0, 0, 0]));
}

/// A vertex, two triangles and three heights.
const PART: [u8; 15] = [1, 2, 0, 0, 0, 1, 2, 3, 4, 5, 6, 3, 7, 8, 9];

#[test]
fn read_part_gives_three_counts() {
    for (file, lengths, counts) in [
        (&PART[..], [3, 6, 3], [1, 2, 3]),
        (&PART, [9, 9, 9], [1, 2, 3]),
        (&[0, 0, 0], [1, 1, 1], [0, 0, 0]),
        (&[0, 0, 0], [0, 0, 0], [0, 0, 0]),
        (&[1, 0, 0, 0, 0, 0], [3, 0, 0], [1, 0, 0]),
        (&[0, 1, 0, 0, 0, 0], [0, 3, 0], [0, 1, 0]),
        (&[0, 0, 1, 0], [0, 0, 1], [0, 0, 1]),
    ] {
        let output = lent::<ReadPart>(file.to_vec(), &lengths);
        assert_eq!(output, gives(&counts), "{file:?}");
    }
}

#[test]
fn read_part_writes_the_place_of_a_refusal_and_takes_null() {
    let file = |bytes: &[u8], lengths: &[usize]| lent::<ReadPart>(bytes.to_vec(), lengths);
    assert_eq!(file(&PART[..14], &[3, 6, 3]), refuses(13, 14));
    assert_eq!(file(&[1, 2, 0x80, 0, 0], &[3, 6, 3]), refuses(13, 2));
    assert_eq!(file(&[0x80, 0x00], &[3, 6, 3]), refuses(13, 0));
    assert_eq!(file(&[], &[0, 0, 0]), refuses(13, 0));
    assert_eq!(file(&[], &[3, 6, 3]), refuses(13, 0));
    for table in 0..3 {
        for entries in [1, 3] {
            let mut lengths = [3, 6, 3];
            lengths[table] -= entries;
            assert_eq!(file(&PART, &lengths), refuses(9, 0));
        }
        let mut missing = [3, 6, 3];
        missing[table] = 0;
        assert_eq!(file(&PART, &missing), refuses(9, 0));
    }
}
