//! Files that differ little from a given one, all of them; and ways to write a number wrongly.

use files::values;
use oracle::encode_plain;
use std::ops::Range;

/// The files that lack some of the last bytes, or all bytes.
pub fn shortened(file: &[u8]) -> impl Iterator<Item = Vec<u8>> + '_ {
    (0..file.len()).map(|length| file[..length].to_vec())
}

/// The files in which one byte is another one.
pub fn with_a_byte_changed(file: &[u8]) -> impl Iterator<Item = Vec<u8>> + '_ {
    let changes = (0..file.len()).flat_map(|place| (1..=255).map(move |change| (place, change)));
    changes.map(|(place, change)| {
        let mut changed = file.to_vec();
        changed[place] ^= change;
        changed
    })
}

/// The files that have one byte more.
pub fn with_a_byte_inserted(file: &[u8]) -> impl Iterator<Item = Vec<u8>> + '_ {
    let places = 0..=file.len();
    let insertions = places.flat_map(|place| (0..=255).map(move |byte| (place, byte)));
    insertions.map(|(place, byte)| {
        let mut longer = file.to_vec();
        longer.insert(place, byte);
        longer
    })
}

/// The files that lack one byte.
pub fn with_a_byte_removed(file: &[u8]) -> impl Iterator<Item = Vec<u8>> + '_ {
    (0..file.len()).map(|place| {
        let mut shorter = file.to_vec();
        shorter.remove(place);
        shorter
    })
}

/// All sequences of so many of the bytes.
pub fn sequences(bytes: &[u8], length: u32) -> impl Iterator<Item = Vec<u8>> + '_ {
    let base = bytes.len();
    (0..base.pow(length)).map(move |sequence| {
        let digits = (0..length).map(|digit| sequence / base.pow(digit) % base);
        digits.map(|digit| bytes[digit]).collect()
    })
}

/// The file with other bytes for one of its values.
pub fn with_value(file: &[u8], value: Range<usize>, bytes: &[u8]) -> Vec<u8> {
    [&file[..value.start], bytes, &file[value.end..]].concat()
}

/// The files in which one value is written wrongly, each with the place of that value.
pub fn with_a_wrong_form(file: &[u8]) -> Vec<(Vec<u8>, u64)> {
    let mut wrong = Vec::new();
    for value in values(file) {
        for form in wrong_forms(&file[value.clone()]) {
            let place = value.start as u64;
            wrong.push((with_value(file, value.clone(), &form), place));
        }
    }
    wrong
}

/// The ways to write a number wrongly that have its lowest bits: with needless groups, up to five
/// bytes and more, and over 32 bits; and bytes that are too many for a number, whatever follows.
fn wrong_forms(right: &[u8]) -> Vec<Vec<u8>> {
    let mut forms = Vec::new();
    let mut longer = right.to_vec();
    for _ in 0..12 {
        *longer.last_mut().expect("a number has a byte") |= 128;
        longer.push(0);
        forms.push(longer.clone());
    }
    for above in [1, 2, 7, 8, 1 << 9, 1 << 10, 1 << 31] {
        forms.push(encode_plain(number(right) + (above << 32)));
    }
    for byte in [128, 255] {
        forms.extend([5, 6, 9, 10, 40].map(|count| vec![byte; count]));
    }
    forms
}

fn number(right: &[u8]) -> u64 {
    let groups = right.iter().map(|&byte| u64::from(byte % 128));
    groups.zip(0..).map(|(group, k)| group << (7 * k)).sum()
}

#[test]
fn wrong_forms_keep_the_lowest_bits() {
    let forms = wrong_forms(&[0xAC, 0x02]);
    assert!(forms.contains(&vec![0xAC, 0x82, 0x00]));
    assert!(forms.contains(&vec![0xAC, 0x82, 0x80, 0x80, 0x00]));
    assert!(forms.contains(&vec![0xAC, 0x82, 0x80, 0x80, 0x80, 0x00]));
    assert!(forms.contains(&vec![0xAC, 0x82, 0x80, 0x80, 0x10]));
    assert!(forms.contains(&vec![0xAC, 0x82, 0x80, 0x80, 0x80, 0x01]));
}

#[test]
fn variants_are_all_there() {
    let file = [4, 0, 130, 7];
    assert!(shortened(&file).eq([vec![], vec![4], vec![4, 0], vec![4, 0, 130]]));
    assert_eq!(with_a_byte_changed(&file).count(), 4 * 255);
    assert!(with_a_byte_changed(&file).all(|changed| changed != file));
    assert_eq!(with_a_byte_inserted(&file).count(), 5 * 256);
    assert_eq!(with_a_byte_removed(&file).count(), 4);
    assert_eq!(sequences(&[1, 2, 3], 2).count(), 9);
    assert_eq!(with_value(&file, 2..4, &[9]), [4, 0, 9]);
}
