//! Whole chains over random meshes: a part file is read, its mesh checked, cut, swept and written as
//! a layer file, that file is read back, and layers of cuts and of the file are previewed, cleaned and
//! nested; so it goes in the clean profile too, and both files are charged. Each operation gets what the
//! one before it left, now and then spoiled, and every answer and every table is compared with the
//! oracle's.
//!
//! Another seed, and more rounds, of which one in twenty is a chain:
//!
//! ```text
//! WADROLES_SEED=7 WADROLES_ROUNDS=2500000 \
//!     cargo test --release --offline --locked --test suite chains -- --nocapture
//! ```

mod chain;
mod clean;
mod faults;
mod ink;
mod inputs;
mod nesting;

use crate::harness::{report, Operation, Rounds, DEFAULT_ROUNDS};
use crate::operations::{
    AllLayers, AllLayersClean, Area, Check, Clean, Contour, Cut, Ink, Layer, Nesting, Preview,
    PreviewRun, ReadLayer, ReadLayerClean, ReadPart, Start, Step, Versions,
};
use chain::compare_chains;

/// Of so many rounds asked for one is a chain.
const ONE_IN: u64 = 20;

/// How often each operation must meet each of its refusals.
const LEAST: u64 = 100;

/// The operations and their refusals.
const OPERATIONS: [(&str, &[u32]); 17] = [
    (ReadPart::NAME, ReadPart::REFUSALS),
    (Check::NAME, Check::REFUSALS),
    (Cut::NAME, Cut::REFUSALS),
    (Contour::NAME, Contour::REFUSALS),
    (Area::NAME, Area::REFUSALS),
    (Start::NAME, Start::REFUSALS),
    (Step::NAME, Step::REFUSALS),
    (Layer::NAME, Layer::REFUSALS),
    (AllLayers::NAME, AllLayers::REFUSALS),
    (ReadLayer::NAME, ReadLayer::REFUSALS),
    (Preview::NAME, Preview::REFUSALS),
    (PreviewRun::NAME, PreviewRun::REFUSALS),
    (Clean::NAME, Clean::REFUSALS),
    (AllLayersClean::NAME, AllLayersClean::REFUSALS),
    (ReadLayerClean::NAME, ReadLayerClean::REFUSALS),
    (Ink::NAME, Ink::REFUSALS),
    (Nesting::NAME, Nesting::REFUSALS),
];

#[test]
fn chains_of_every_operation() {
    let rounds = Rounds::one_in(ONE_IN, "chains");
    let tallies = compare_chains(&rounds, Versions::default())
        .unwrap_or_else(|failure| panic!("chains: {failure}"));

    for (operation, refusals) in OPERATIONS {
        let tally = tallies.of(operation);
        report(format!("chains, {operation}: {tally}"));
        if Rounds::asked_for() >= DEFAULT_ROUNDS {
            tally.require(&[0], LEAST);
            tally.require_refusals(refusals, LEAST);
        }
        let others = (1..=19).filter(|number| !refusals.contains(number));
        others.for_each(|number| assert_eq!(tally.count(number), 0, "{operation}: {tally}"));
    }
    report(format!("chains, all operations: {}", tallies.all()));
}
