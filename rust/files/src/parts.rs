use meshes::{closed_mesh, random_height, Random};
use oracle::Part;

/// A random part: a closed mesh with heights half of the times, else a few numbers of any size.
pub fn random_part(random: &mut Random) -> Part {
    if random.one_in(2) {
        let mesh = closed_mesh(random);
        let heights = (0..random.below(6)).map(|_| random_height(&mesh, random));
        Part {
            heights: heights.collect(),
            coords: mesh.coords,
            corners: mesh.corners,
        }
    } else {
        Part {
            coords: random_numbers(3 * random.below(5), random),
            corners: random_numbers(3 * random.below(5), random)
                .into_iter()
                .map(|number| number as u32)
                .collect(),
            heights: random_numbers(random.below(6), random),
        }
    }
}

/// So many numbers of any size.
fn random_numbers(count: usize, random: &mut Random) -> Vec<i32> {
    (0..count)
        .map(|_| match random.below(8) {
            0 => random.choose(&[i32::MIN, i32::MAX, -1, 0]),
            _ => random.word() as i32 >> random.below(32),
        })
        .collect()
}

#[cfg(test)]
mod tests {
    use super::*;
    use oracle::{decode_part, encode_part};

    #[test]
    fn parts_are_of_all_kinds_and_can_be_written() {
        let many: Vec<Part> = (0..2000)
            .map(|round| random_part(&mut Random::of_round(1, round)))
            .collect();
        let count = |kind: fn(&Part) -> bool| many.iter().filter(|part| kind(part)).count();
        assert!(count(|part| part.coords.is_empty()) > 20);
        assert!(count(|part| part.corners.is_empty()) > 20);
        assert!(count(|part| part.heights.is_empty()) > 20);
        assert!(count(|part| part.coords.contains(&i32::MIN)) > 20);
        assert!(count(|part| part.corners.contains(&u32::MAX)) > 20);
        assert!(count(|part| part.heights.contains(&i32::MAX)) > 20);
        assert!(count(|part| part.corners.len() > 3 * 127) > 20);
        for part in many {
            assert_eq!(decode_part(&encode_part(&part)), Ok(part));
        }
    }
}
