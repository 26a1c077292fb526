use meshes::Random;
use std::ops::Range;

/// Where the values of a file stand, each up to the first byte that has no 128 added. A value that
/// is cut short is left out.
pub fn values(file: &[u8]) -> Vec<Range<usize>> {
    let mut values: Vec<Range<usize>> = Vec::new();
    for (place, &byte) in file.iter().enumerate() {
        if byte < 128 {
            let start = values.last().map_or(0, |value| value.end);
            values.push(start..place + 1);
        }
    }
    values
}

/// Random bytes: small ones as a rule, so that they look like a file for a while.
pub fn random_bytes(random: &mut Random) -> Vec<u8> {
    let byte: fn(&mut Random) -> u8 = match random.below(4) {
        0 => |random| random.word() as u8,
        1 => |random| random.choose(&[0, 0, 1, 2, 3]),
        2 => |random| random.choose(&[0, 0, 1, 2, 2, 4, 127, 128, 129, 255]),
        _ => |random| random.below(8) as u8,
    };
    let most = random.choose(&[5, 10, 30]);
    (0..random.below(most)).map(|_| byte(random)).collect()
}

#[cfg(test)]
mod tests {
    use super::*;

    #[test]
    fn values_end_at_bytes_without_128_added() {
        assert_eq!(values(&[]), []);
        assert_eq!(values(&[0, 128, 1, 127, 255, 255]), [0..1, 1..3, 3..4]);
    }

    #[test]
    fn bytes_are_of_all_lengths_and_values() {
        let mut random = Random::new(1);
        let many: Vec<Vec<u8>> = (0..2000).map(|_| random_bytes(&mut random)).collect();
        assert!((0..30).all(|length| many.iter().any(|bytes| bytes.len() == length)));
        let all = many.concat();
        assert!((0..=255).all(|byte| all.contains(&byte)));
    }
}
