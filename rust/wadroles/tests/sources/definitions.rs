//! Definitions that a contract cites stand in definition files: files of `specs` that are named
//! neither ..Laws nor Worked.. These lean on no file of laws, and none calls itself internal.

use crate::tree;

/// The file of the repository that a line uses, if it holds laws. The library's are under Rattle.std.
fn law_file(line: &str) -> Option<&str> {
    let (before, path) = line.split_once("use Rattle.")?;
    let words = ["ghost", "pub", "unfoldable"];
    let path = path.split(".{").next()?.trim_end_matches(';');
    let mut parts = path.split_whitespace().next()?.split('.');
    let is_ours = parts.next()? != "std";
    let file = parts.next_back()?;
    let is_use = before.split_whitespace().all(|word| words.contains(&word));
    (is_use && is_ours && file.ends_with("Laws")).then_some(file)
}

/// The lines of a text that use a file of laws.
fn uses_of_laws(text: &str) -> Vec<(usize, &str)> {
    (1..)
        .zip(text.lines().map(law_file))
        .filter_map(|(line, file)| file.map(|file| (line, file)))
        .collect()
}

/// Whether a path is that of a file of definitions.
pub fn is_definition_file(path: &str) -> bool {
    let name = path.rsplit('/').next().expect("a name");
    path.contains("/specs/") && !name.ends_with("Laws.antt") && !name.starts_with("Worked")
}

fn opens_as_internal(text: &str) -> bool {
    text.starts_with("-- Internal")
}

#[test]
fn no_contract_cites_a_file_of_laws() {
    let mut faults = Vec::new();
    for path in tree::files(".rt") {
        for (line, file) in uses_of_laws(&tree::read(&path)) {
            faults.push(format!("{path}:{line}: {file}"));
        }
    }
    tree::assert_none(&faults);
}

#[test]
fn no_definition_leans_on_a_law() {
    let mut faults = Vec::new();
    for path in tree::files(".antt")
        .iter()
        .filter(|path| is_definition_file(path))
    {
        for (line, file) in uses_of_laws(&tree::read(path)) {
            faults.push(format!("{path}:{line}: {file}"));
        }
    }
    tree::assert_none(&faults);
}

#[test]
fn no_file_of_specs_is_internal() {
    let mut faults = tree::files(".antt");
    faults.retain(|path| path.contains("/specs/") && opens_as_internal(&tree::read(path)));
    tree::assert_none(&faults);
}

#[test]
fn uses_of_laws_are_seen() {
    let text = "\
-- Internal: see AreaLaws.
use mir.ValLaws.{toZ-ofZ}
use Rattle.std.specs.ListLaws.{length}
use Rattle.mesh.specs.Tests.{size}
unfoldable pub use Rattle.file_formats.specs.PositionLaws.{ParsedAt}
-- use Rattle.mesh.specs.TestLaws.{Paired}
ghost use Rattle.mesh.specs.OperationLaws.{Nowhere};
use Rattle.mesh.specs.RefusalLaws as laws
pub mod AreaLaws
";
    assert_eq!(
        uses_of_laws(text),
        [
            (5, "PositionLaws"),
            (7, "OperationLaws"),
            (8, "RefusalLaws")
        ]
    );
    assert!(opens_as_internal(text));
    assert!(is_definition_file("crates/mesh/specs/Tests.antt"));
    assert!(!is_definition_file("crates/mesh/specs/TestLaws.antt"));
    assert!(!is_definition_file("crates/cut/specs/Worked.antt"));
    assert!(!is_definition_file("crates/cut/proofs/cut/Answers.antt"));
}
