//! Checks of the sources and documents: what the prover does not ask of contracts, modules, names,
//! `crates.txt`, the text of proofs and must-fail edits, and what the documents cite. They read the
//! repository that this package lies in and call nothing.

mod chains;
mod contracts;
mod definitions;
mod documents;
mod edits;
mod leaning;
mod lines;
mod modules;
mod names;
mod tree;
