//! Every must-fail edit can be made: the text that it changes stands in its file once. The prover finds
//! that out too, but only when it comes to the edit.

use crate::tree;
use std::collections::BTreeMap;
use std::fs;

/// What is wrong with an edit, whose files `read` gives as they are, or none where there is no such file.
fn faults(edit: &str, read: impl Fn(&str) -> Option<String>) -> Vec<String> {
    let mut texts = BTreeMap::new();
    let (mut file, mut old) = ("", None);
    let mut found = Vec::new();
    for line in edit.lines() {
        match line.split_once(": ") {
            Some(("file", name)) => file = name,
            Some(("old", text)) => old = Some(text),
            Some(("new", new)) => {
                let text = texts.entry(file).or_insert_with(|| {
                    read(file).unwrap_or_else(|| {
                        found.push(format!("there is no {file}"));
                        String::new()
                    })
                });
                let old = old.take().unwrap_or_default();
                match text.matches(old).count() {
                    1 if old != new => *text = text.replace(old, new),
                    1 => found.push(format!("`{old}` stays as it is")),
                    count => found.push(format!("`{old}` stands {count} times in {file}")),
                }
            }
            _ => found.push(format!("`{line}` is no line of an edit")),
        }
    }
    if texts.is_empty() {
        found.push("nothing is changed".to_owned());
    }
    found
}

#[test]
fn every_edit_can_be_made() {
    let mut all = Vec::new();
    for path in tree::files(".edit") {
        let (package, _) = path.split_once("/must-fail/").expect("it lies there");
        let found = faults(&tree::read(&path), |file| {
            fs::read_to_string(tree::root().join(package).join(file)).ok()
        });
        all.extend(found.into_iter().map(|fault| format!("{path}: {fault}")));
    }
    tree::assert_none(&all);
}

#[test]
fn an_edit_that_cannot_be_made_is_seen() {
    let text = "a = b; b = c;".to_owned();
    let seen = |edit| faults(edit, |file| (file == "x").then(|| text.clone()));
    assert!(seen("file: x\nold: a = b\nnew: a = c\n").is_empty());
    assert!(seen("file: x\nold: a\nnew: c\nold: b = c\nnew: d\n").is_empty());
    assert_eq!(seen("file: x\nold: b\nnew: c"), ["`b` stands 2 times in x"]);
    assert_eq!(seen("file: x\nold: d\nnew: c"), ["`d` stands 0 times in x"]);
    assert_eq!(seen("file: x\nold: a\nnew: a"), ["`a` stays as it is"]);
    assert_eq!(seen("file: x\nold: a"), ["nothing is changed"]);
    assert_eq!(
        seen("file: y\nold: a\nnew: c"),
        ["there is no y", "`a` stands 0 times in y"]
    );
    assert_eq!(
        seen("file: x\nold: a\nnew: c\nor: d"),
        ["`or: d` is no line of an edit"]
    );
}
