//! The files of the repository.

use std::fs;
use std::path::{Path, PathBuf};

/// The root of the repository, two directories above this package.
pub fn root() -> PathBuf {
    Path::new(env!("CARGO_MANIFEST_DIR"))
        .ancestors()
        .nth(2)
        .expect("the package lies two directories below the root")
        .to_path_buf()
}

/// The text of a file, named from the root.
pub fn read(path: &str) -> String {
    fs::read_to_string(root().join(path)).unwrap_or_else(|error| panic!("{path}: {error}"))
}

/// The files under `crates` whose names end so, named from the root, in order; none of those that the
/// toolchain makes in `out`.
pub fn files(ending: &str) -> Vec<String> {
    let mut found = Vec::new();
    gather(&root().join("crates"), ending, &mut found);
    found.sort();
    assert!(!found.is_empty(), "no file *{ending} under crates");
    found
}

fn gather(directory: &Path, ending: &str, found: &mut Vec<String>) {
    for entry in fs::read_dir(directory).expect("a directory is read") {
        let path = entry.expect("an entry is read").path();
        if path.ends_with("out") {
            continue;
        }
        if path.is_dir() {
            gather(&path, ending, found);
        } else if path.to_string_lossy().ends_with(ending) {
            let path = path.strip_prefix(root()).expect("it lies below the root");
            found.push(path.to_string_lossy().into_owned());
        }
    }
}

/// Fails with all faults, a line for each.
pub fn assert_none(faults: &[String]) {
    let count = faults.len();
    assert!(faults.is_empty(), "{count} places:\n{}", faults.join("\n"));
}
