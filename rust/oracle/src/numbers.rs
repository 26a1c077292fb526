//! The numbers of a file, as the specification defines them under "Files".

use crate::refusal::{refuse_at, Refusal};

const LARGEST: i128 = (1 << 32) - 1;

/// The most bytes that a number of 32 bits takes, in groups of seven.
const MOST_BYTES: usize = 5;

/// A number of a file, and the place of its first byte.
#[derive(Clone, Copy)]
pub(crate) struct Value {
    pub number: i128,
    pub place: usize,
}

impl Value {
    /// Refusal 13, unless the value keeps a rule.
    pub fn must(self, keeps: bool) -> Result<(), Refusal> {
        refuse_at(13, self.place, !keeps)
    }
}

/// A file, and how much of it was read.
pub(crate) struct Values<'a> {
    file: &'a [u8],
    read: usize,
}

impl<'a> Values<'a> {
    pub fn of(file: &'a [u8]) -> Self {
        Values { file, read: 0 }
    }

    /// The next value, a plain number.
    pub fn plain(&mut self) -> Result<Value, Refusal> {
        let place = self.read;
        let refuse = |wrong| refuse_at(13, place, wrong);
        let bytes = self.next_bytes();

        let (missing, cut_short) = (bytes.is_empty(), bytes.last() >= Some(&128));
        refuse(missing || cut_short)?;
        let (too_long, needless) = (bytes.len() > MOST_BYTES, bytes.ends_with(&[0]));
        refuse(too_long || needless && bytes.len() > 1)?;
        let groups = bytes.iter().map(|&byte| i128::from(byte % 128));
        let number = groups.zip(0..).map(|(group, k)| group << (7 * k)).sum();
        refuse(number > LARGEST)?;

        self.read += bytes.len();
        Ok(Value { number, place })
    }

    /// The bytes left, up to the first that has no 128 added.
    fn next_bytes(&self) -> &'a [u8] {
        let left = &self.file[self.read..];
        match left.iter().position(|&byte| byte < 128) {
            Some(last) => &left[..=last],
            None => left,
        }
    }

    /// The next value, a signed number: even plain numbers stand for 0, 1, 2 and so on, odd ones
    /// for −1, −2, −3 and so on.
    pub fn signed(&mut self) -> Result<Value, Refusal> {
        let Value { number, place } = self.plain()?;
        let number = match number % 2 {
            0 => number / 2,
            _ => -(number + 1) / 2,
        };
        Ok(Value { number, place })
    }

    /// Refusal 13 of the first byte left over.
    pub fn end(self) -> Result<(), Refusal> {
        refuse_at(13, self.read, self.read < self.file.len())
    }
}

/// The bytes of a plain number, of more than 32 bits too.
pub fn encode_plain(number: u64) -> Vec<u8> {
    let mut bytes = Vec::new();
    let mut left = number;
    while left >= 128 {
        bytes.push(128 + (left % 128) as u8);
        left /= 128;
    }
    bytes.push(left as u8);
    bytes
}

/// The bytes of a signed number, of more than 32 bits too.
pub fn encode_signed(number: i64) -> Vec<u8> {
    let n = i128::from(number);
    let sent = if n >= 0 { 2 * n } else { -2 * n - 1 };
    encode_plain(u64::try_from(sent).expect("it has no more than 64 bits"))
}

#[cfg(test)]
mod tests {
    use super::*;
    use meshes::Random;

    /// The number at the front of the bytes and how many of them it takes, or the place.
    fn read(
        bytes: &[u8],
        next: fn(&mut Values) -> Result<Value, Refusal>,
    ) -> Result<(i128, usize), u64> {
        let mut values = Values::of(bytes);
        match next(&mut values) {
            Ok(value) => Ok((value.number, values.read)),
            Err(refusal) => {
                assert_eq!(refusal.number, 13);
                Err(refusal.place)
            }
        }
    }

    fn plain(bytes: &[u8]) -> Result<(i128, usize), u64> {
        read(bytes, |values| values.plain())
    }

    fn signed(bytes: &[u8]) -> Result<(i128, usize), u64> {
        read(bytes, |values| values.signed())
    }

    #[test]
    fn plain_numbers_have_their_lowest_group_first() {
        for (number, bytes) in [
            (0, &[0][..]),
            (1, &[1]),
            (127, &[127]),
            (128, &[128, 1]),
            (300, &[172, 2]),
            (16_383, &[255, 127]),
            (16_384, &[128, 128, 1]),
            (98_304, &[128, 128, 6]),
            (2_097_151, &[255, 255, 127]),
            (2_097_152, &[128, 128, 128, 1]),
            (268_435_456, &[128, 128, 128, 128, 1]),
            (4_294_967_295, &[255, 255, 255, 255, 15]),
        ] {
            assert_eq!(encode_plain(number), bytes);
            assert_eq!(plain(bytes), Ok((number.into(), bytes.len())));
            let more = [bytes, &[128]].concat();
            assert_eq!(plain(&more), Ok((number.into(), bytes.len())));
        }
    }

    #[test]
    fn signed_numbers_are_sent_as_plain_ones() {
        for (number, sent) in [
            (0, 0),
            (-1, 1),
            (1, 2),
            (-2, 3),
            (2, 4),
            (-64, 127),
            (64, 128),
            (2_147_483_647, 4_294_967_294),
            (-2_147_483_648, 4_294_967_295),
        ] {
            let bytes = encode_plain(sent);
            assert_eq!(encode_signed(number), bytes);
            assert_eq!(signed(&bytes), Ok((number.into(), bytes.len())));
        }
    }

    #[test]
    fn wrong_forms_are_refused_at_their_first_byte() {
        for bytes in [
            &[][..],
            &[128],
            &[255, 255, 255],
            &[128, 0],
            &[129, 0],
            &[128, 128, 128, 128, 0],
            &[128, 128, 128, 128, 16],
            &[255, 255, 255, 255, 127],
            &[128, 128, 128, 128, 128, 0],
            &[128, 128, 128, 128, 128, 1],
            &[129, 128, 128, 128, 128, 128, 128, 128, 128, 128, 128, 0],
            &[255; 40],
        ] {
            assert_eq!(plain(bytes), Err(0), "{bytes:?}");
            let later = [&[1, 130, 3], bytes].concat();
            let mut values = Values::of(&later).skipping(2);
            let refusal = values.signed().err();
            assert_eq!(refusal.map(|r| r.place), Some(3), "{bytes:?}");
        }
    }

    impl Values<'_> {
        fn skipping(mut self, values: usize) -> Self {
            for _ in 0..values {
                self.plain().unwrap();
            }
            self
        }
    }

    #[test]
    fn numbers_over_32_bits_are_written_and_refused() {
        for number in [1 << 32, (1 << 32) + 5, 1 << 35, (1 << 35) - 1, u64::MAX] {
            assert_eq!(plain(&encode_plain(number)), Err(0), "{number}");
        }
        for number in [1 << 31, -(1 << 31) - 1, i64::MAX, i64::MIN] {
            assert_eq!(signed(&encode_signed(number)), Err(0), "{number}");
        }
    }

    #[test]
    fn the_first_byte_left_over_is_refused() {
        let end = |bytes: &[u8]| Values::of(bytes).skipping(2).end();
        assert_eq!(end(&[1, 130, 3]), Ok(()));
        let place = |bytes: &[u8]| end(bytes).unwrap_err().place;
        assert_eq!(place(&[1, 130, 3, 0]), 3);
        assert_eq!(place(&[1, 130, 3, 255, 255]), 3);
    }

    #[test]
    fn numbers_are_read_back() {
        let mut random = Random::new(1);
        for bits in (0..=32).cycle().take(10_000) {
            let number = random.word() % (1 << bits);
            let bytes = encode_plain(number);
            assert_eq!(plain(&bytes), Ok((number.into(), bytes.len())));
            let number = number as i32;
            let bytes = encode_signed(number.into());
            assert_eq!(signed(&bytes), Ok((number.into(), bytes.len())));
        }
    }
}
