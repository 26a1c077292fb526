use super::{compare_version, Case, Operation, Tally, Version};
use meshes::Random;
use std::collections::BTreeSet;
use std::env::{self, VarError};
use std::fmt::Display;
use std::io::{self, Write};
use std::thread;

const DEFAULT_SEED: u64 = 20_250_101;

/// The rounds of the gate. A test that counts what it meets can ask for that only of so many.
pub const DEFAULT_ROUNDS: u64 = 250_000;

/// Makes a random input of an operation.
pub type RandomInput<O> = fn(&mut Random) -> <O as Operation>::Input;

/// The rounds of a random test. Each has random numbers of its own, by the seed and its number.
pub struct Rounds {
    name: String,
    seed: u64,
    count: u64,
}

impl Rounds {
    /// One round for every `n` that the environment asks for, or else the gate. Reports the seed.
    pub fn one_in(n: u64, name: impl Into<String>) -> Self {
        let rounds = Rounds {
            name: name.into(),
            seed: number_from("WADROLES_SEED", DEFAULT_SEED),
            count: Rounds::asked_for().div_ceil(n),
        };
        let Rounds { name, seed, count } = &rounds;
        report(format!("{name}: seed {seed}, {count} rounds"));
        rounds
    }

    /// So many, whatever the environment says: those that must notice a fault.
    pub fn fixed(seed: u64, count: u64) -> Self {
        let name = "rounds".to_owned();
        Rounds { name, seed, count }
    }

    /// The number of rounds asked for.
    pub fn asked_for() -> u64 {
        number_from("WADROLES_ROUNDS", DEFAULT_ROUNDS)
    }

    /// Runs a test in each round, until it fails. The failure names seed and round.
    pub fn each(
        &self,
        mut test: impl FnMut(&mut Random) -> Result<(), String>,
    ) -> Result<(), String> {
        for round in 0..self.count {
            let _name_of_a_panic = Round { of: self, round };
            let done = test(&mut Random::of_round(self.seed, round));
            done.map_err(|failure| format!("seed {}, round {round}: {failure}", self.seed))?;
        }
        Ok(())
    }

    /// Runs a test in each round, which panics where it fails. It says whether its round met what the
    /// test is about; this gives the share of the rounds that did.
    pub fn share(&self, test: impl Fn(&mut Random) -> bool) -> f64 {
        let [share] = self.shares(|random| [test(random)]);
        share
    }

    /// The same for a test that is about several things.
    pub fn shares<const N: usize>(&self, test: impl Fn(&mut Random) -> [bool; N]) -> [f64; N] {
        let mut met = [0; N];
        let never_fails = self.each(|random| {
            let here = met.iter_mut().zip(test(random));
            here.for_each(|(count, is_met)| *count += u64::from(is_met));
            Ok(())
        });
        never_fails.expect("it panics");
        met.map(|count| count as f64 / self.count as f64)
    }

    /// Compares a version of an operation with the oracle on a random case per round, until they
    /// differ.
    pub fn compare<O: Operation>(
        &self,
        input: RandomInput<O>,
        version: Version<O>,
    ) -> Result<Tally, String> {
        let mut tally = Tally::default();
        self.each(|random| {
            let mut case = Case::<O>::random(input(random), random);
            tally.add(&compare_version(&mut case, version)?);
            Ok(())
        })?;
        Ok(tally)
    }
}

/// Compares the product with the oracle on random cases, in one of `n` rounds, and reports the seed
/// and the answers met.
pub fn test_product<O: Operation>(name: &str, n: u64, input: RandomInput<O>) -> Tally {
    let name = format!("{}, {name}", O::NAME);
    test_rounds::<O>(&Rounds::one_in(n, name), input)
}

fn test_rounds<O: Operation>(rounds: &Rounds, input: RandomInput<O>) -> Tally {
    let name = &rounds.name;
    let compared = rounds.compare::<O>(input, None);
    let tally = compared.unwrap_or_else(|failure| panic!("{name}: {failure}"));
    report(format!("{name}: {tally}"));
    tally
}

/// The same in four threads at once.
pub fn test_threads<O: Operation>(n: u64, input: RandomInput<O>) {
    in_threads(n, O::NAME, |rounds| {
        test_rounds::<O>(rounds, input);
    });
}

/// Runs a test in four threads at once, each with rounds of its own.
pub fn in_threads(n: u64, name: &str, test: impl Fn(&Rounds) + Sync) {
    let rounds = Rounds::one_in(n, format!("{name}, four threads"));
    thread::scope(|scope| {
        for thread in 0..4 {
            let rounds = Rounds {
                name: format!("{name}, thread {thread}"),
                seed: rounds.seed.wrapping_add(thread),
                count: rounds.count,
            };
            let test = &test;
            scope.spawn(move || test(&rounds));
        }
    });
}

/// Reports seed and round if dropped by a panic.
struct Round<'a> {
    of: &'a Rounds,
    round: u64,
}

impl Drop for Round<'_> {
    fn drop(&mut self) {
        if thread::panicking() {
            let Rounds { name, seed, .. } = self.of;
            report(format!("{name} failed: seed {seed}, round {}", self.round));
        }
    }
}

fn number_from(variable: &str, default: u64) -> u64 {
    match env::var(variable) {
        Ok(text) => text
            .parse()
            .unwrap_or_else(|_| panic!("{variable} is {text:?}, which is no whole number")),
        Err(VarError::NotPresent) => default,
        Err(VarError::NotUnicode(_)) => panic!("{variable} is no text"),
    }
}

/// Prints a line past the capture of test output, so that the log of every run has it.
pub fn report(line: impl Display) {
    writeln!(io::stderr(), "{line}").expect("the error output takes a line");
}

#[test]
fn a_failure_names_seed_and_round() {
    let mut left = 3;
    let failure = Rounds::fixed(42, 1000).each(|_| {
        left -= 1;
        match left {
            0 => Err("a difference".to_owned()),
            _ => Ok(()),
        }
    });
    assert_eq!(failure, Err("seed 42, round 2: a difference".to_owned()));
}

#[test]
fn shares_are_of_all_rounds() {
    let rounds = Rounds::fixed(1, 40);
    assert_eq!(rounds.shares(|_| [true, false]), [1.0, 0.0]);
    assert!((0.1..0.9).contains(&rounds.share(|random| random.one_in(2))));
}

#[test]
fn rounds_have_numbers_of_their_own_that_the_seed_repeats() {
    let words = |seed| {
        let mut words = Vec::new();
        let rounds = Rounds::fixed(seed, 50).each(|random| {
            words.push(random.word());
            Ok(())
        });
        rounds.unwrap();
        words
    };
    assert_eq!(words(7), words(7));
    assert_ne!(words(7), words(8));
    assert_eq!(BTreeSet::from_iter(words(7)).len(), 50);
}
