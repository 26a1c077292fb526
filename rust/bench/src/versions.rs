//! The two versions of an operation, and the times that they take on an input.

use std::hint::black_box;
use std::time::{Duration, Instant};

/// The two versions of an operation.
#[derive(Clone, Copy)]
pub enum Version {
    /// The proved one.
    Library,
    /// The one written without proofs.
    Unproved,
}

pub const VERSIONS: [Version; 2] = [Version::Library, Version::Unproved];

impl Version {
    /// As the command line has it.
    pub fn name(self) -> &'static str {
        match self {
            Version::Library => "library",
            Version::Unproved => "unproved",
        }
    }
}

/// An input of an operation, with the tables lent to it.
pub trait Subject {
    /// What a call returns.
    type Answer: PartialEq;

    /// What a call leaves in the tables.
    type Left: PartialEq;

    /// The size of the input, in units that the heading of the printed table names.
    fn size(&self) -> usize;

    /// The number of calls in a run.
    fn calls(&self) -> usize;

    /// Makes the tables ready for a call.
    fn refill(&mut self);

    /// Makes a call.
    fn call(&mut self, version: Version, call: usize) -> Self::Answer;

    /// What the last call left.
    fn left(&self) -> Self::Left;
}

/// Makes a call, of which callgrind counts the instructions: `tools/instructions` knows this name.
#[inline(never)]
pub fn measured_call<S: Subject>(subject: &mut S, version: Version, call: usize) -> S::Answer {
    black_box(subject.call(version, call))
}

/// An input with the times taken on it, by version, call and run.
pub struct Timed<S> {
    subject: S,
    times: [Vec<Vec<Duration>>; 2],
}

impl<S: Subject> Timed<S> {
    pub fn new(subject: S) -> Self {
        let no_times = vec![Vec::new(); subject.calls()];
        Timed {
            subject,
            times: [no_times.clone(), no_times],
        }
    }

    pub fn size(&self) -> usize {
        self.subject.size()
    }

    pub fn verify(&mut self) {
        for call in 0..self.subject.calls() {
            let [library, unproved] = VERSIONS.map(|version| self.outcome(version, call));
            assert!(library == unproved, "the two versions differ");
        }
    }

    fn outcome(&mut self, version: Version, call: usize) -> (S::Answer, S::Left) {
        self.subject.refill();
        let answer = measured_call(&mut self.subject, version, call);
        (answer, self.subject.left())
    }

    /// Takes the time of each version for each call. Tables are refilled before, outside that time.
    pub fn measure(&mut self) {
        for call in 0..self.subject.calls() {
            for (version, times) in VERSIONS.into_iter().zip(&mut self.times) {
                self.subject.refill();
                let start = Instant::now();
                measured_call(&mut self.subject, version, call);
                times[call].push(start.elapsed());
            }
        }
    }

    /// The time of each version in seconds: the median of each call, added up.
    pub fn seconds(&self) -> [f64; 2] {
        self.times.each_ref().map(|calls| {
            let total: Duration = calls.iter().map(|times| median(times)).sum();
            total.as_secs_f64()
        })
    }
}

fn median(times: &[Duration]) -> Duration {
    let mut times = times.to_vec();
    times.sort();
    times[times.len() / 2]
}
