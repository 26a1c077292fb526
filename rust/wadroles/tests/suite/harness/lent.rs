use meshes::Random;
use std::fmt::{self, Debug, Display};

/// A table lent from the middle of a longer one. All of it is filled with junk, so that a stray
/// write shows even past the ends of the lent part.
#[derive(Clone)]
pub struct Lent<T> {
    entries: Vec<T>,
}

const MARGIN: usize = 3;

/// An entry of a table.
pub trait Entry: Copy + Debug + Display {
    /// Any value, by 64 random bits.
    fn of_word(word: u64) -> Self;

    /// Another value.
    fn other(self) -> Self;

    /// Its bits, by which entries are compared: a float may differ from itself, and 0 equals −0.
    fn bits(self) -> u32;

    /// As a difference tells it.
    fn told(self) -> String {
        self.to_string()
    }
}

impl Entry for u8 {
    fn of_word(word: u64) -> Self {
        word as u8
    }

    fn other(self) -> Self {
        self ^ 1
    }

    fn bits(self) -> u32 {
        self.into()
    }
}

impl Entry for u32 {
    fn of_word(word: u64) -> Self {
        word as u32
    }

    fn other(self) -> Self {
        self ^ 1
    }

    fn bits(self) -> u32 {
        self
    }
}

impl Entry for i32 {
    fn of_word(word: u64) -> Self {
        word as i32
    }

    fn other(self) -> Self {
        self ^ 1
    }

    fn bits(self) -> u32 {
        self as u32
    }
}

impl Entry for f32 {
    fn of_word(word: u64) -> Self {
        f32::from_bits(word as u32)
    }

    fn other(self) -> Self {
        f32::from_bits(self.to_bits() ^ 1)
    }

    fn bits(self) -> u32 {
        self.to_bits()
    }

    fn told(self) -> String {
        format!("{self} ({:08X})", self.to_bits())
    }
}

impl<T: Entry> Lent<T> {
    /// So many entries of junk.
    pub fn new(length: usize, random: &mut Random) -> Self {
        let entries = (0..length + 2 * MARGIN).map(|_| T::of_word(random.word()));
        Lent {
            entries: entries.collect(),
        }
    }

    /// The same entries, but for those at the end that so short a table lacks.
    pub fn shortened(&self, length: usize) -> Self {
        let mut entries = self.entries.clone();
        entries.drain(MARGIN + length..self.entries.len() - MARGIN);
        Lent { entries }
    }

    /// The length of the table.
    pub fn length(&self) -> usize {
        self.entries.len() - 2 * MARGIN
    }

    /// The table, to be written.
    pub fn table(&mut self) -> &mut [T] {
        let end = self.entries.len() - MARGIN;
        &mut self.entries[MARGIN..end]
    }

    /// The table, to be read.
    pub fn view(&self) -> &[T] {
        &self.entries[MARGIN..self.entries.len() - MARGIN]
    }

    /// The first entry that is not as expected.
    pub fn difference(&self, expected: &Lent<T>) -> Option<String> {
        let mut entries = self.entries.iter().zip(&expected.entries);
        let at = entries.position(|(entry, expected)| entry.bits() != expected.bits())?;
        let (position, length) = (at as i64 - MARGIN as i64, self.length());
        Some(format!(
            "entry {position} of {length} is {}, not {}",
            self.entries[at].told(),
            expected.entries[at].told()
        ))
    }
}

impl<T: Entry> PartialEq for Lent<T> {
    fn eq(&self, other: &Self) -> bool {
        self.length() == other.length() && self.difference(other).is_none()
    }
}

impl<T: Entry> Debug for Lent<T> {
    fn fmt(&self, f: &mut fmt::Formatter<'_>) -> fmt::Result {
        self.view().fmt(f)
    }
}

#[test]
fn shorter_tables_have_the_same_entries() {
    let long: Lent<u8> = Lent::new(9, &mut Random::new(1));
    for length in 0..=9 {
        assert_eq!(long.shortened(length).view(), &long.view()[..length]);
    }
}

#[test]
fn writes_are_seen_wherever_they_are() {
    let before: Lent<i32> = Lent::new(4, &mut Random::new(1));
    for at in 0..10 {
        let mut after = before.clone();
        after.entries[at] ^= 1;
        let difference = after.difference(&before).unwrap();
        let position = at as i64 - 3;
        assert!(difference.starts_with(&format!("entry {position} of 4 is ")));
    }
    assert_eq!(before.difference(&before), None);
}

#[test]
fn floats_are_compared_by_their_bits() {
    let mut floats: Lent<f32> = Lent::new(2, &mut Random::new(1));
    floats.table().copy_from_slice(&[f32::NAN, 0.0]);
    assert_eq!(floats.difference(&floats), None);
    let mut zero = floats.clone();
    zero.table()[1] = -0.0;
    let told = "entry 1 of 2 is -0 (80000000), not 0 (00000000)";
    assert_eq!(zero.difference(&floats).as_deref(), Some(told));
    let mut other = floats.clone();
    other.table()[0] = floats.view()[0].other();
    let told = other.difference(&floats).unwrap();
    assert!(told.starts_with("entry 0 of 2 is NaN (7FC00001)"), "{told}");
}
