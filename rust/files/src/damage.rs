use crate::values;
use meshes::Random;
use oracle::encode_plain;

/// A way to spoil the bytes of a file. Some leave a right file of other contents at times.
#[derive(Clone, Copy, Debug, PartialEq, Eq)]
pub enum Damage {
    /// A byte is another one.
    ChangedByte,
    /// There is a byte more.
    InsertedByte,
    /// A byte is missing.
    RemovedByte,
    /// The last bytes are missing.
    CutShort,
    /// Bytes are left over.
    LeftOver,
    /// A value takes more bytes than it needs.
    NeedlessGroups,
    /// A value is another number of 32 bits.
    ChangedValue,
    /// A value has more than 32 bits, of which the lowest are the right ones.
    OverlargeValue,
    /// A value occurs twice.
    DoubledValue,
    /// A value is missing.
    RemovedValue,
    /// Two values have changed places.
    ExchangedValues,
}

impl Damage {
    const ALL: [Damage; 11] = [
        Damage::ChangedByte,
        Damage::InsertedByte,
        Damage::RemovedByte,
        Damage::CutShort,
        Damage::LeftOver,
        Damage::NeedlessGroups,
        Damage::ChangedValue,
        Damage::OverlargeValue,
        Damage::DoubledValue,
        Damage::RemovedValue,
        Damage::ExchangedValues,
    ];

    /// A random kind.
    pub fn any(random: &mut Random) -> Damage {
        random.choose(&Damage::ALL)
    }

    /// Spoils the file at a random place, if it has one.
    pub fn apply(self, file: &mut Vec<u8>, random: &mut Random) {
        match self {
            Damage::InsertedByte => {
                let place = random.below(file.len() + 1);
                file.insert(place, random_byte(random));
            }
            Damage::LeftOver => {
                let count = 1 + random.below(3);
                file.extend((0..count).map(|_| random_byte(random)));
            }
            _ if values(file).is_empty() => {}
            Damage::ChangedByte => {
                let place = random.below(file.len());
                file[place] = match random.below(3) {
                    0 => random.word() as u8,
                    1 => file[place] ^ 1 << random.below(8),
                    _ => file[place].wrapping_add(random.choose(&[1, 255])),
                };
            }
            Damage::RemovedByte => {
                file.remove(random.below(file.len()));
            }
            Damage::CutShort => file.truncate(random.below(file.len())),
            _ => self.apply_to_values(file, random),
        }
    }

    fn apply_to_values(self, file: &mut Vec<u8>, random: &mut Random) {
        let mut values: Vec<Vec<u8>> = values(file)
            .into_iter()
            .map(|value| file[value].to_vec())
            .collect();
        let (at, other) = (random.below(values.len()), random.below(values.len()));
        match self {
            Damage::NeedlessGroups => append_groups(&mut values[at], 1 + random.below(6)),
            Damage::ChangedValue => values[at] = encode_plain(other_number(&values[at], random)),
            Damage::OverlargeValue => {
                let above = u64::from(random.word() as u32 >> random.below(32) | 1);
                values[at] = encode_plain(low_bits(&values[at]) | above << 32);
            }
            Damage::DoubledValue => values.insert(at, values[at].clone()),
            Damage::RemovedValue => {
                values.remove(at);
            }
            _ => values.swap(at, other),
        }
        *file = values.concat();
    }
}

/// Any byte, but often one that matters.
fn random_byte(random: &mut Random) -> u8 {
    match random.below(3) {
        0 => random.word() as u8,
        1 => random.choose(&[0, 1, 127, 128, 255]),
        _ => random.below(5) as u8,
    }
}

fn append_groups(value: &mut Vec<u8>, count: usize) {
    for _ in 0..count {
        if let Some(last) = value.last_mut() {
            *last |= 128;
        }
        value.push(0);
    }
}

/// The lowest 32 bits of a value.
fn low_bits(value: &[u8]) -> u64 {
    let groups = value.iter().take(5).map(|&byte| u64::from(byte % 128));
    let number: u64 = groups.zip(0..).map(|(group, k)| group << (7 * k)).sum();
    number % (1 << 32)
}

/// A number near that of the value as a rule, or any other of 32 bits.
fn other_number(value: &[u8], random: &mut Random) -> u64 {
    let number = low_bits(value) as u32;
    let other = match random.below(6) {
        0 => number.wrapping_add(1),
        1 => number.wrapping_sub(1),
        2 => number ^ 1,
        3 => number.wrapping_add(2),
        4 => random.choose(&[0, 1, 2, 4_096, 4_097, 2_097_153, 2_097_154, u32::MAX]),
        _ => random.word() as u32 >> random.below(32),
    };
    other.into()
}

#[cfg(test)]
mod tests {
    use super::*;

    const FILE: [u8; 7] = [4, 128, 1, 0, 255, 255, 3];

    /// What the damage does to a file of four values, many times over.
    fn spoiled(damage: Damage) -> Vec<Vec<u8>> {
        (0..500)
            .map(|round| {
                let mut file = FILE.to_vec();
                damage.apply(&mut file, &mut Random::of_round(1, round));
                file
            })
            .collect()
    }

    #[test]
    fn most_files_are_changed() {
        for damage in Damage::ALL {
            let changed = spoiled(damage).iter().filter(|file| **file != FILE).count();
            assert!(changed > 300, "{damage:?}: {changed}");
        }
    }

    #[test]
    fn each_kind_spoils_in_its_own_way() {
        for (damage, least, most) in [
            (Damage::ChangedByte, 7, 7),
            (Damage::InsertedByte, 8, 8),
            (Damage::RemovedByte, 6, 6),
            (Damage::CutShort, 0, 6),
            (Damage::LeftOver, 8, 10),
            (Damage::NeedlessGroups, 8, 13),
            (Damage::ChangedValue, 5, 11),
            (Damage::OverlargeValue, 9, 16),
            (Damage::DoubledValue, 8, 10),
            (Damage::RemovedValue, 4, 6),
            (Damage::ExchangedValues, 7, 7),
        ] {
            let lengths: Vec<usize> = spoiled(damage).iter().map(Vec::len).collect();
            assert_eq!(lengths.iter().min(), Some(&least), "{damage:?}");
            assert_eq!(lengths.iter().max(), Some(&most), "{damage:?}");
        }
        let left_over = spoiled(Damage::LeftOver);
        assert!(left_over.iter().all(|file| file.starts_with(&FILE)));
        let cut_short = spoiled(Damage::CutShort);
        assert!(cut_short.iter().all(|file| FILE.starts_with(file)));
    }

    #[test]
    fn values_with_needless_groups_or_bits_keep_their_lowest_ones() {
        let numbers = |file: &[u8]| -> Vec<u64> {
            let values = values(file).into_iter();
            values.map(|value| low_bits(&file[value])).collect()
        };
        assert_eq!(numbers(&FILE), [4, 128, 0, 65_535]);
        for damage in [Damage::NeedlessGroups, Damage::OverlargeValue] {
            for file in spoiled(damage) {
                assert_eq!(numbers(&file), numbers(&FILE), "{damage:?}: {file:?}");
            }
        }
    }

    #[test]
    fn an_empty_file_can_only_grow() {
        for damage in Damage::ALL {
            let mut file = Vec::new();
            damage.apply(&mut file, &mut Random::new(1));
            let grows = matches!(damage, Damage::InsertedByte | Damage::LeftOver);
            assert_eq!(!file.is_empty(), grows, "{damage:?}");
        }
    }
}
