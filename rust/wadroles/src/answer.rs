use crate::Refusal;

/// Calls an operation of the archive with its four words of output, and gives these words or the
/// refusal.
pub(crate) fn answer(operation: impl FnOnce(*mut u64) -> u32) -> Result<[u64; 4], Refusal> {
    let mut out = [0; 4];
    match operation(out.as_mut_ptr()) {
        0 => Ok(out),
        number => Err(Refusal {
            number,
            place: out[0],
        }),
    }
}

#[cfg(test)]
mod tests {
    use super::*;

    #[test]
    fn zero_gives_the_words_of_output() {
        let give = |out: *mut u64| {
            // SAFETY: `answer` hands over four words of its own.
            unsafe { out.cast::<[u64; 4]>().write([5, 6, 7, 8]) };
            0
        };
        assert_eq!(answer(give), Ok([5, 6, 7, 8]));
    }

    #[test]
    fn another_number_gives_a_refusal_at_the_first_word() {
        let refuse = |out: *mut u64| {
            // SAFETY: `answer` hands over four words of its own.
            unsafe { out.write(12) };
            6
        };
        let refusal = Refusal {
            number: 6,
            place: 12,
        };
        assert_eq!(answer(refuse), Err(refusal));
    }
}
