//! The numbers of files, in groups of seven bits.

use super::tables::refuse;
use wadroles::Refusal;

const MOST_BYTES: usize = 5;

/// A file, and the position of its next value.
#[derive(Clone, Copy)]
pub struct Reader<'a> {
    file: &'a [u8],
    position: usize,
}

impl<'a> Reader<'a> {
    pub fn new(file: &'a [u8]) -> Self {
        Reader { file, position: 0 }
    }

    pub fn position(&self) -> usize {
        self.position
    }

    pub fn plain(&mut self) -> Result<u32, Refusal> {
        let left = &self.file[self.position..];
        let mut number = 0;
        for (k, &byte) in left.iter().take(MOST_BYTES).enumerate() {
            number |= u32::from(byte & 127) << (7 * k);
            if byte < 128 {
                let needless = byte == 0 && k > 0;
                let overlarge = byte > 15 && k == MOST_BYTES - 1;
                if needless || overlarge {
                    break;
                }
                self.position += k + 1;
                return Ok(number);
            }
        }
        refuse(Refusal::FILE, self.position)
    }

    pub fn signed(&mut self) -> Result<i32, Refusal> {
        let sent = self.plain()?;
        Ok((sent >> 1) as i32 ^ -((sent & 1) as i32))
    }

    pub fn end(&self) -> Result<(), Refusal> {
        if self.position < self.file.len() {
            refuse(Refusal::FILE, self.position)
        } else {
            Ok(())
        }
    }
}

/// The bytes that a plain number takes.
pub fn plain_length(number: u32) -> usize {
    let bits = 32 - (number | 1).leading_zeros() as usize;
    bits.div_ceil(7)
}

/// The plain number that a signed one is sent as.
pub fn sent(number: i32) -> u32 {
    (number << 1 ^ number >> 31) as u32
}

/// An output that is long enough, and the position of its next value.
pub struct Writer<'a> {
    output: &'a mut [u8],
    position: usize,
}

impl<'a> Writer<'a> {
    pub fn new(output: &'a mut [u8]) -> Self {
        Writer {
            output,
            position: 0,
        }
    }

    pub fn position(&self) -> usize {
        self.position
    }

    pub fn plain(&mut self, mut number: u32) {
        while number >= 128 {
            self.output[self.position] = number as u8 | 128;
            self.position += 1;
            number >>= 7;
        }
        self.output[self.position] = number as u8;
        self.position += 1;
    }

    pub fn signed(&mut self, number: i32) {
        self.plain(sent(number));
    }
}
