//! Compares both versions of an operation on the same inputs, in the same run.

use crate::versions::{measured_call, Subject, Timed, Version};

/// An input, which is made once it is needed.
pub struct Row<S> {
    name: &'static str,
    make: Box<dyn FnOnce() -> S>,
}

impl<S> Row<S> {
    pub fn new(name: &'static str, make: impl FnOnce() -> S + 'static) -> Self {
        let make = Box::new(make);
        Row { name, make }
    }
}

/// Inputs of which each is compared with the one before.
pub struct Kind<S> {
    /// The inputs.
    pub rows: Vec<Row<S>>,
}

impl<S> Kind<S> {
    /// The same in three sizes, from small to large.
    pub fn new<I: 'static>(
        name: &'static str,
        sizes: [I; 3],
        subject: impl Fn(I) -> S + Copy + 'static,
    ) -> Self {
        let row = |size| Row::new(name, move || subject(size));
        Kind {
            rows: sizes.map(row).into(),
        }
    }
}

/// What a table shows of the times.
#[derive(Clone, Copy)]
pub enum Figure {
    /// Milliseconds in all.
    Whole,
    /// Nanoseconds for each unit of the size.
    Each,
}

impl Figure {
    fn unit(self) -> &'static str {
        match self {
            Figure::Whole => "ms",
            Figure::Each => "ns each",
        }
    }

    fn of<S: Subject>(self, timed: &Timed<S>) -> [f64; 2] {
        timed.seconds().map(|seconds| match self {
            Figure::Whole => seconds * 1e3,
            Figure::Each => seconds * 1e9 / timed.size() as f64,
        })
    }
}

/// A table of the benchmark.
pub struct Comparison<S> {
    pub heading: String,
    pub unit: &'static str,
    pub figure: Figure,
    pub runs: usize,
    pub kinds: Vec<Kind<S>>,
}

impl<S> Comparison<S> {
    /// Of whole times in the runs of most tables.
    pub fn new(heading: impl Into<String>, unit: &'static str, kinds: Vec<Kind<S>>) -> Self {
        Comparison {
            heading: heading.into(),
            unit,
            figure: Figure::Whole,
            runs: 25,
            kinds,
        }
    }
}

/// A table of any operation.
pub trait Bench {
    /// What its inputs are called, those of several sizes once.
    fn inputs(&self) -> Vec<&'static str>;

    /// Times both versions on all inputs, which take turns, and prints the ratios.
    fn run(self: Box<Self>);

    /// Makes one call on the largest input of that name, if there is one, and gives its size.
    fn call_once(self: Box<Self>, input: &str, version: Version) -> Option<String>;
}

impl<S: Subject> Bench for Comparison<S> {
    fn inputs(&self) -> Vec<&'static str> {
        let rows = self.kinds.iter().flat_map(|kind| &kind.rows);
        let mut names: Vec<_> = rows.map(|row| row.name).collect();
        names.dedup();
        names
    }

    fn run(self: Box<Self>) {
        let made = self.kinds.into_iter().map(|kind| {
            let rows = kind.rows.into_iter();
            rows.map(|row| (row.name, Timed::new((row.make)())))
                .collect()
        });
        let mut kinds: Vec<Vec<(&str, Timed<S>)>> = made.collect();
        all(&mut kinds).for_each(Timed::verify);
        for _ in 0..self.runs {
            all(&mut kinds).for_each(Timed::measure);
        }
        let (heading, runs) = (self.heading, self.runs);
        println!("{heading}: medians of {runs} runs; growth is over the row above");
        print_table(self.unit, self.figure, &kinds);
    }

    fn call_once(self: Box<Self>, input: &str, version: Version) -> Option<String> {
        let rows = self.kinds.into_iter().flat_map(|kind| kind.rows);
        let largest = rows.filter(|row| row.name == input).last()?;
        let mut subject = (largest.make)();
        subject.refill();
        let middle = subject.calls() / 2;
        measured_call(&mut subject, version, middle);
        Some(format!("{} {}", subject.size(), self.unit))
    }
}

fn all<'a, S>(
    kinds: &'a mut [Vec<(&'static str, Timed<S>)>],
) -> impl Iterator<Item = &'a mut Timed<S>> {
    kinds.iter_mut().flatten().map(|(_, timed)| timed)
}

fn print_table<S: Subject>(unit: &str, figure: Figure, kinds: &[Vec<(&str, Timed<S>)>]) {
    print_row([
        "input",
        unit,
        &format!("library {}", figure.unit()),
        &format!("unproved {}", figure.unit()),
        "ratio",
        "library growth",
        "unproved growth",
    ]);
    for rows in kinds {
        let mut above = None;
        for (name, timed) in rows {
            let times = figure.of(timed);
            print_times(name, timed.size(), times, above);
            above = Some(times);
        }
    }
    println!();
}

fn print_times(name: &str, size: usize, times: [f64; 2], above: Option<[f64; 2]>) {
    let [library, unproved] = times;
    let growth = |version: usize| match above {
        Some(above) => format!("{:.2}", times[version] / above[version]),
        None => "-".into(),
    };
    print_row([
        name,
        &size.to_string(),
        &format!("{library:.3}"),
        &format!("{unproved:.3}"),
        &format!("{:.2}", library / unproved),
        &growth(0),
        &growth(1),
    ]);
}

fn print_row([input, size, library, unproved, ratio, growth, unproved_growth]: [&str; 7]) {
    println!(
        "{input:26} {size:>9} {library:>15} {unproved:>16} {ratio:>6} \
         {growth:>15} {unproved_growth:>16}"
    );
}
