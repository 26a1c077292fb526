use super::{number, Answer};
use std::collections::{BTreeMap, BTreeSet};
use std::fmt;

/// The refusals whose place is a position, a corner or a byte. That of 12 is one in All layers only.
const PLACED: [u32; 10] = [2, 3, 4, 5, 6, 7, 8, 11, 13, 18];

/// How often each answer was met, and where: a refusal by its number, success as 0.
#[derive(Default)]
pub struct Tally {
    met: BTreeMap<u32, Met>,
}

#[derive(Clone, Default)]
struct Met {
    count: u64,
    places: BTreeSet<u64>,
}

impl Tally {
    pub fn add<V>(&mut self, answer: &Answer<V>) {
        let place = answer.as_ref().err().map(|&(_, place)| place);
        let met = self.met.entry(number(answer)).or_default();
        met.count += 1;
        met.places.extend(place);
    }

    /// Adds what another tally has.
    pub fn add_all(&mut self, other: &Tally) {
        for (&number, more) in &other.met {
            let met = self.met.entry(number).or_default();
            met.count += more.count;
            met.places.extend(&more.places);
        }
    }

    pub fn count(&self, number: u32) -> u64 {
        self.met.get(&number).map_or(0, |met| met.count)
    }

    /// The share of an answer among all.
    pub fn share(&self, number: u32) -> f64 {
        let all: u64 = self.met.values().map(|met| met.count).sum();
        self.count(number) as f64 / all as f64
    }

    /// Fails if one of the answers was met too seldom: a test that meets nothing tests nothing.
    #[track_caller]
    pub fn require(&self, numbers: &[u32], least: u64) {
        for &number in numbers {
            let count = self.count(number);
            assert!(
                count >= least,
                "answer {number} was met {count} times, fewer than {least}: {self}"
            );
        }
    }

    /// Fails if one of an operation's refusals was met too seldom, or one that has places at a single
    /// place.
    #[track_caller]
    pub fn require_refusals(&self, refusals: &[u32], least: u64) {
        self.require(refusals, least);
        let placed = refusals.iter().filter(|number| PLACED.contains(number));
        placed.for_each(|&number| self.require_places(number));
    }

    /// Fails if a refusal was not met at two places or more.
    #[track_caller]
    pub fn require_places(&self, number: u32) {
        let places = self.met.get(&number).map_or(0, |met| met.places.len());
        assert!(places > 1, "refusal {number} has {places} places: {self}");
    }
}

impl fmt::Display for Tally {
    fn fmt(&self, f: &mut fmt::Formatter<'_>) -> fmt::Result {
        write!(f, "success {}", self.count(0))?;
        for (number, met) in self.met.iter().filter(|(&number, _)| number != 0) {
            write!(f, ", refusal {number}: {}", met.count)?;
            if met.places.len() > 1 {
                write!(f, " at {} places", met.places.len())?;
            }
        }
        Ok(())
    }
}

/// How often each answer was met, by operation.
#[derive(Default)]
pub struct Tallies {
    tallies: BTreeMap<&'static str, Tally>,
}

impl Tallies {
    pub fn add<V>(&mut self, operation: &'static str, answer: &Answer<V>) {
        self.tallies.entry(operation).or_default().add(answer);
    }

    /// That of an operation, which must have been met.
    #[track_caller]
    pub fn of(&self, operation: &str) -> &Tally {
        let met = self.tallies.get(operation);
        met.unwrap_or_else(|| panic!("{operation} was never called"))
    }

    /// Those of all operations together.
    pub fn all(&self) -> Tally {
        let mut all = Tally::default();
        self.tallies.values().for_each(|tally| all.add_all(tally));
        all
    }
}

impl fmt::Display for Tallies {
    fn fmt(&self, f: &mut fmt::Formatter<'_>) -> fmt::Result {
        let all = self.tallies.iter();
        let lines: Vec<String> = all
            .map(|(name, tally)| format!("{name}: {tally}"))
            .collect();
        write!(f, "{}", lines.join("; "))
    }
}

#[cfg(test)]
mod tests {
    use super::*;

    const NONE: Answer<()> = Ok(());

    fn tally(answers: &[Answer<()>]) -> Tally {
        let mut tally = Tally::default();
        answers.iter().for_each(|answer| tally.add(answer));
        tally
    }

    #[test]
    fn answers_are_counted() {
        let met = tally(&[NONE, Err((6, 4)), NONE, Err((4, 7)), Err((6, 1)), NONE]);
        let text = "success 3, refusal 4: 1, refusal 6: 2 at 2 places";
        assert_eq!(met.to_string(), text);
        met.require(&[0, 6], 2);
        assert_eq!(met.share(0), 0.5);
    }

    #[test]
    #[should_panic(expected = "answer 9 was met 0 times")]
    fn an_answer_never_met_fails() {
        tally(&[NONE]).require(&[0, 9], 1);
    }

    #[test]
    #[should_panic(expected = "refusal 7 has 1 places")]
    fn a_refusal_met_at_one_place_only_fails() {
        tally(&[Err((7, 3)), Err((9, 0)), Err((7, 3))]).require_refusals(&[9, 7], 1);
    }

    #[test]
    fn answers_are_counted_by_operation_and_together() {
        let mut tallies = Tallies::default();
        for (operation, answer) in [("cut", NONE), ("cut", Err((9, 0))), ("area", Err((9, 0)))] {
            tallies.add(operation, &answer);
        }
        assert_eq!(tallies.of("area").to_string(), "success 0, refusal 9: 1");
        assert_eq!(tallies.of("cut").to_string(), "success 1, refusal 9: 1");
        assert_eq!(tallies.all().to_string(), "success 1, refusal 9: 2");
    }

    #[test]
    #[should_panic(expected = "step was never called")]
    fn an_operation_never_called_fails() {
        Tallies::default().of("step");
    }
}
