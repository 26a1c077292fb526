//! Times the proved operations against unproved versions on the same inputs, in the same run.
//!
//! Each time is the median of several runs, which take turns over all inputs and both versions. The
//! lent tables are refilled before each call, outside the time measured. Neither version is built
//! into its caller.
//!
//! Arguments choose among `check`, `cut`, `area`, `layer`, `all_layers`, `read_layer`, `read_part`,
//! `preview`, `clean`, `all_layers_clean`, `read_layer_clean`, `ink`, `ink_over_check` and `nesting`;
//! without any, all are timed. Those of the clean profile are timed against the full one, and
//! `ink_over_check` is Ink against the check of the same file. For `tools/instructions`, which counts what
//! a call takes, `inputs` lists operations and inputs, and `once OPERATION INPUT VERSION` makes a single
//! call.

#![forbid(unsafe_code)]

mod all_layers;
mod area;
mod check;
mod clean;
mod comparison;
mod cut;
mod ink;
mod inputs;
mod layer;
mod nesting;
mod owned;
mod preview;
mod profiles;
mod read_layer;
mod read_part;
mod unproved;
mod versions;

use comparison::Bench;
use versions::VERSIONS;

type Benches = fn() -> Vec<Box<dyn Bench>>;

const OPERATIONS: [(&str, Benches); 14] = [
    ("check", check::benches),
    ("cut", cut::benches),
    ("area", area::benches),
    ("layer", layer::benches),
    ("all_layers", all_layers::benches),
    ("read_layer", read_layer::benches),
    ("read_part", read_part::benches),
    ("preview", preview::benches),
    ("clean", clean::benches),
    ("all_layers_clean", profiles::all_layers),
    ("read_layer_clean", profiles::read_layer),
    ("ink", ink::benches),
    ("ink_over_check", ink::over_check),
    ("nesting", nesting::benches),
];

fn main() {
    let arguments: Vec<String> = std::env::args().skip(1).collect();
    let arguments: Vec<&str> = arguments.iter().map(String::as_str).collect();
    match arguments[..] {
        ["inputs"] => list_inputs(),
        ["once", operation, input, version] => call_once(operation, input, version),
        _ => run(&arguments),
    }
}

fn run(chosen: &[&str]) {
    for (operation, benches) in OPERATIONS {
        if chosen.is_empty() || chosen.contains(&operation) {
            benches().into_iter().for_each(Bench::run);
        }
    }
}

/// Prints an operation and an input a line, with a tab between them.
fn list_inputs() {
    for (operation, benches) in OPERATIONS {
        for input in benches().iter().flat_map(|bench| bench.inputs()) {
            println!("{operation}\t{input}");
        }
    }
}

/// Makes a call and prints the size of the input.
fn call_once(operation: &str, input: &str, version: &str) {
    let benches = OPERATIONS.iter().find(|(name, _)| *name == operation);
    let version = VERSIONS.into_iter().find(|known| known.name() == version);
    let size = benches.zip(version).and_then(|((_, benches), version)| {
        let mut benches = benches().into_iter();
        benches.find_map(|bench| bench.call_once(input, version))
    });
    println!("{}", size.expect("an operation, an input and a version"));
}
