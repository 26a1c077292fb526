//! Draws `docs/speed.svg` out of what the benchmark prints, and prints the tables of
//! `docs/SPEED.md`.
//!
//! Standard input is the output of the benchmark. The argument is the file to draw; without one it
//! is `docs/speed.svg` of this repository. From its root:
//!
//! ```text
//! cargo run --release --offline --manifest-path rust/Cargo.toml -p bench > run
//! cargo run --release --offline --manifest-path rust/Cargo.toml -p bench --example plot < run
//! ```

use std::error::Error;
use std::io::Read;
use std::{env, fs, io};

const PLOT: &str = concat!(env!("CARGO_MANIFEST_DIR"), "/../../docs/speed.svg");

/// How many characters the benchmark gives to the name of an input.
const NAME_WIDTH: usize = 26;

fn main() -> Result<(), Box<dyn Error>> {
    let path = env::args().nth(1).unwrap_or_else(|| PLOT.to_owned());
    let mut printed = String::new();
    io::stdin().read_to_string(&mut printed)?;
    let tables = tables(&printed).ok_or("this is not what the benchmark prints")?;
    let series: Vec<Series> = tables.iter().flat_map(Table::series).collect();
    print_series(&series);
    tables.iter().for_each(Table::print_single_rows);
    fs::write(path, plot(&series))?;
    Ok(())
}

/// A table of the benchmark.
struct Table {
    heading: String,
    /// What sizes are counted in.
    unit: String,
    /// What times are measured in.
    time: String,
    rows: Vec<Row>,
}

/// An input, and the library's time on it.
#[derive(Clone)]
struct Row {
    input: String,
    size: f64,
    library: f64,
    /// The ratio to the unproved version's time as it is printed: the times are rounded.
    ratio: f64,
}

/// The rows of one input in several sizes.
struct Series {
    heading: String,
    input: String,
    unit: String,
    rows: Vec<Row>,
}

/// The tables printed: a heading, the names of the columns, rows, and a blank line.
fn tables(printed: &str) -> Option<Vec<Table>> {
    let mut lines = printed.lines();
    let mut tables = Vec::new();
    while let Some(line) = lines.by_ref().find(|line| line.contains(": medians of ")) {
        let (heading, _) = line.split_once(": medians of ")?;
        let (_, columns) = lines.next()?.split_at_checked(NAME_WIDTH)?;
        let (unit, columns) = columns.trim_start().split_once(' ')?;
        let (_, columns) = columns.split_once("library ")?;
        let (time, _) = columns.split_once("unproved ")?;
        let rows = lines.by_ref().take_while(|line| !line.is_empty());
        tables.push(Table {
            heading: heading.to_owned(),
            unit: unit.to_owned(),
            time: time.trim_end().to_owned(),
            rows: rows.map(Row::read).collect::<Option<_>>()?,
        });
    }
    (!tables.is_empty()).then_some(tables)
}

impl Row {
    fn read(line: &str) -> Option<Self> {
        let (input, figures) = line.split_at_checked(NAME_WIDTH)?;
        let mut figures = figures.split_whitespace().map(|figure| figure.parse().ok());
        let mut next = || figures.next().flatten();
        let [size, library, _unproved, ratio] = [next()?, next()?, next()?, next()?];
        Some(Row {
            input: input.trim_end().to_owned(),
            size,
            library,
            ratio,
        })
    }
}

impl Table {
    /// Its inputs in several sizes.
    fn series(&self) -> Vec<Series> {
        let inputs = self.rows.chunk_by(|a, b| a.input == b.input);
        inputs
            .filter(|rows| rows.len() > 1)
            .map(|rows| Series {
                heading: self.heading.clone(),
                input: rows[0].input.clone(),
                unit: self.unit.clone(),
                rows: rows.to_vec(),
            })
            .collect()
    }

    /// Prints it as a table of its own, if each of its inputs has one size.
    fn print_single_rows(&self) {
        if !self.series().is_empty() {
            return;
        }
        let (heading, time) = (sentence(&self.heading), &self.time);
        println!("\n| {heading} | {} | {time} | Ratio |", self.unit);
        println!("|---|---|---|---|");
        for row in &self.rows {
            let (input, size) = (&row.input, grouped(row.size));
            let (time, ratio) = (figure(row.library), row.ratio);
            println!("| {input} | {size} | {time} | {ratio:.2} |");
        }
    }
}

impl Series {
    fn last_two(&self) -> [&Row; 2] {
        let [.., before, last] = &self.rows[..] else {
            unreachable!("a series has several rows")
        };
        [before, last]
    }

    /// How much longer the library takes for the last size than for the one before.
    fn growth(&self) -> f64 {
        let [before, last] = self.last_two();
        last.library / before.library
    }

    /// The growth of the time over that of the size: 1 where one is proportional to the other.
    fn growth_by_size(&self) -> f64 {
        let [before, last] = self.last_two();
        self.growth() / (last.size / before.size)
    }
}

fn print_series(series: &[Series]) {
    println!("| Operation | Input | Largest | ms | Ratio | Growth |");
    println!("|---|---|---|---|---|---|");
    for one in series {
        let [_, last] = one.last_two();
        let ratios: Vec<_> = one
            .rows
            .iter()
            .map(|row| format!("{:.2}", row.ratio))
            .collect();
        // What a heading has in parentheses would make the lines of the document too long.
        let operation = one.heading.split(" (").next().unwrap_or_default();
        println!(
            "| {} | {} | {} {} | {} | {} | {:.2} |",
            sentence(operation),
            one.input,
            grouped(last.size),
            one.unit,
            figure(last.library),
            ratios.join(", "),
            one.growth()
        );
    }
}

/// A heading with a capital at its front.
fn sentence(heading: &str) -> String {
    let mut letters = heading.chars();
    let first = letters.next().into_iter().flat_map(char::to_uppercase);
    first.chain(letters).collect()
}

/// Three digits of a time, or all before its point.
fn figure(time: f64) -> String {
    match time {
        ..10.0 => format!("{time:.2}"),
        ..100.0 => format!("{time:.1}"),
        _ => grouped(time.round()),
    }
}

/// A whole number with commas between its thousands.
fn grouped(number: f64) -> String {
    let digits = number.to_string();
    let group = |(i, digit): (usize, char)| match (digits.len() - i) % 3 {
        0 if i > 0 => vec![',', digit],
        _ => vec![digit],
    };
    digits.chars().enumerate().flat_map(group).collect()
}

/// A scale from left to right, in the plot's units.
struct Axis {
    title: &'static str,
    left: f64,
    width: f64,
    most: f64,
    step: f64,
}

impl Axis {
    fn place(&self, value: f64) -> f64 {
        self.left + self.width * (value / self.most).min(1.0)
    }

    /// Its title and its lines, of which the one at 1 is marked.
    fn draw(&self, top: f64, bottom: f64) -> String {
        let middle = self.left + self.width / 2.0;
        let mut svg = text(middle, top - 34.0, "middle bold", self.title);
        for i in 0..=(self.most / self.step).round() as u32 {
            let value = f64::from(i) * self.step;
            let (x, class) = (self.place(value), if value == 1.0 { "one" } else { "line" });
            svg += &format!("<path class='{class}' d='M{x:.1} {top:.1}V{bottom:.1}'/>\n");
            svg += &text(x, top - 10.0, "middle small", &value.to_string());
        }
        svg
    }
}

fn text(x: f64, y: f64, class: &str, line: &str) -> String {
    format!("<text x='{x:.1}' y='{y:.1}' class='{class}'>{line}</text>\n")
}

const STYLE: &str = "
text { font: 13px system-ui, 'Segoe UI', Helvetica, Arial, sans-serif; fill: #30363d }
.bold { font-weight: 600 }
.small { font-size: 12px; fill: #57606a }
.middle { text-anchor: middle }
.line { stroke: #d8dee4; stroke-width: 1 }
.one { stroke: #c8420b; stroke-width: 1.5 }
.rule { stroke: #d8dee4; stroke-width: 1 }
circle { fill: #0b5cad; fill-opacity: .65 }
";

/// A line for each series: the ratios from the smallest size to the largest, and the growth.
fn plot(series: &[Series]) -> String {
    const LINE: f64 = 22.0;
    const TOP: f64 = 66.0;
    let ratios = Axis {
        title: "time over the unproved version's",
        left: 330.0,
        width: 360.0,
        most: 1.5,
        step: 0.25,
    };
    let growth = Axis {
        title: "growth of time over that of size",
        left: 740.0,
        width: 190.0,
        most: 2.5,
        step: 0.5,
    };
    let by_heading: Vec<&[Series]> = series.chunk_by(|a, b| a.heading == b.heading).collect();
    let lines = series.len() + by_heading.len();
    let bottom = TOP + LINE * lines as f64 + 8.0;
    let height = bottom + 40.0;
    let mut svg = format!(
        "<svg xmlns='http://www.w3.org/2000/svg' viewBox='0 0 960 {height}' width='960' \
         height='{height}'>\n<title>The library's times against unproved versions</title>\n\
         <style>{STYLE}</style>\n<rect width='960' height='{height}' rx='10' fill='#fcfcfa'/>\n"
    );
    svg += &ratios.draw(TOP, bottom);
    svg += &growth.draw(TOP, bottom);
    let mut y = TOP;
    for group in by_heading {
        svg += &format!("<path class='rule' d='M20 {y:.1}H930'/>\n");
        y += LINE;
        svg += &text(20.0, y - 5.0, "bold", &sentence(&group[0].heading));
        for one in group {
            y += LINE;
            svg += &text(34.0, y - 5.0, "", &one.input);
            let middle = y - LINE / 2.0 + 1.0;
            let dots = one.rows.iter().zip([2.5, 4.0, 5.5]);
            svg += &dots
                .map(|(row, size)| dot(ratios.place(row.ratio), middle, size))
                .collect::<String>();
            svg += &dot(growth.place(one.growth_by_size()), middle, 5.5);
        }
    }
    let note = "a dot for each of three sizes, the largest dot for the largest size; left of the red line: faster";
    svg += &text(20.0, bottom + 24.0, "small", note);
    svg + "</svg>\n"
}

fn dot(x: f64, y: f64, radius: f64) -> String {
    format!("<circle cx='{x:.1}' cy='{y:.1}' r='{radius}'/>\n")
}
