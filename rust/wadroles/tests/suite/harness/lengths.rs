//! Lengths of the tables that random cases lend.

use meshes::Random;

/// As long as needed, or somewhat longer.
pub fn long(needed: usize, random: &mut Random) -> usize {
    needed
        + match random.below(4) {
            0 | 1 => 0,
            2 => 1,
            _ => random.below(20),
        }
}

/// Too short where something is needed, as a rule by one entry.
fn short(needed: usize, random: &mut Random) -> usize {
    match random.below(2) {
        0 => needed.saturating_sub(1),
        _ => random.below(needed.max(1)),
    }
}

/// Long enough, but for once in six times, when some of the tables are too short.
pub fn mostly_long(needed: &[usize], random: &mut Random) -> Vec<usize> {
    let some_short = random.one_in(6);
    needed
        .iter()
        .map(|&needed_here| {
            if some_short && random.one_in(needed.len()) {
                short(needed_here, random)
            } else {
                long(needed_here, random)
            }
        })
        .collect()
}

#[test]
fn each_table_is_exact_longer_and_shorter_at_times() {
    let needed = [5, 9, 1];
    let many: Vec<Vec<usize>> = (0..1000)
        .map(|round| mostly_long(&needed, &mut Random::of_round(1, round)))
        .collect();
    for (table, needed) in needed.into_iter().enumerate() {
        let count = |kind: &dyn Fn(usize) -> bool| many.iter().filter(|l| kind(l[table])).count();
        assert!(count(&|length| length == needed) > 300);
        assert!(count(&|length| length > needed) > 300);
        assert!(count(&|length| length == needed - 1) > 15);
        assert!(count(&|length| length < needed) > 30);
    }
    let all_long = |lengths: &&Vec<usize>| lengths.iter().zip(needed).all(|(&l, n)| l >= n);
    assert!(many.iter().filter(all_long).count() > 800);
}
