//! A fact that lies deep in a proof has a name: no chain of more than four steps back, or of more than
//! five without a name, outside a `let`, or outside a definition whose whole value is the fact. A step
//! back is `.before`, in a proof that walks the code; without a name are fields by their place too, as
//! `.0` and `.1`.

use crate::tree;

const MOST_BACK: usize = 4;
const MOST_STEPS: usize = 5;

/// A word of a text, and the line that it stands in.
type Word<'a> = (usize, &'a str);

/// The words of a text by paragraphs, which blank lines end. Parentheses and commas are words.
fn paragraphs(text: &str) -> Vec<Vec<Word<'_>>> {
    let mut all = vec![Vec::new()];
    for (number, line) in (1..).zip(text.lines()) {
        if line.trim().is_empty() {
            all.push(Vec::new());
            continue;
        }
        let code = line.split_once("-- ").map_or(line, |(code, _)| code);
        let last = all.last_mut().expect("one was put in");
        for word in code.split_whitespace() {
            last.extend(parts(word).map(|part| (number, part)));
        }
    }
    all
}

/// A word without the parentheses, commas and semicolons that it touches, and these.
fn parts(word: &str) -> impl Iterator<Item = &str> {
    word.split_inclusive(['(', ')', ',', ';'])
        .flat_map(|part| match part.char_indices().next_back() {
            Some((at, '(' | ')' | ',' | ';')) => [&part[..at], &part[at..]],
            _ => [part, ""],
        })
        .filter(|part| !part.is_empty())
}

fn is_unnamed(step: &str) -> bool {
    step == "before" || !step.is_empty() && step.chars().all(|c| c.is_ascii_digit())
}

/// The chains without a name in a path that are too long: how long each is, and whether it is the end of
/// the path.
fn chains(path: &str) -> Vec<(usize, bool)> {
    let steps: Vec<_> = path.split('.').skip(1).collect();
    let mut found = Vec::new();
    let mut at = 0;
    while at < steps.len() {
        let chain = steps[at..].iter().take_while(|step| is_unnamed(step));
        let count = chain.clone().count();
        let back = chain.filter(|step| **step == "before").count();
        at += count;
        if MOST_BACK < back || MOST_STEPS < count {
            found.push((count, at == steps.len()));
        }
        at += 1;
    }
    found
}

/// Whether the path between these words has a name: as the value of a `let`, or, where it ends in the
/// chain, as the value of a definition, which may have one parameter, what the path begins at.
fn is_named(before: &[Word<'_>], path: &str, is_end: bool, after: &[Word<'_>]) -> bool {
    let bound = before
        .iter()
        .rev()
        .find(|(_, word)| ["let", "in"].contains(word));
    if bound.is_some_and(|(_, word)| *word == "let") {
        return true;
    }
    let first = path.split('.').next();
    is_end
        && after.is_empty()
        && match *before {
            [.., (above, _), (line, _), (_, from), (_, "=")] if first == Some(from) => above < line,
            [.., (above, _), (line, _), (_, "=")] => above < line,
            _ => false,
        }
}

/// The lines in which an unnamed chain is too long, each with the length of the first.
fn long_chains(text: &str) -> Vec<(usize, usize)> {
    let mut found = Vec::new();
    for words in paragraphs(text) {
        for (at, &(line, path)) in words.iter().enumerate() {
            let long = chains(path).into_iter().find(|&(_, is_end)| {
                let (before, after) = (&words[..at], &words[at + 1..]);
                !is_named(before, path, is_end, after)
            });
            found.extend(long.map(|(count, _)| (line, count)));
        }
    }
    found.dedup_by_key(|(line, _)| *line);
    found
}

#[test]
fn every_far_place_has_a_name() {
    let mut faults = Vec::new();
    for path in tree::files(".antt") {
        for (line, steps) in long_chains(&tree::read(&path)) {
            faults.push(format!("{path}:{line}: {steps} steps without a name"));
        }
    }
    tree::assert_none(&faults);
}

#[test]
fn chains_are_seen_where_they_have_no_name() {
    let text = "\
returns c =
    let at-test = c.before.before.before.before.before in
    let s = sweep_of (at-test.1.1.1.1.1.0.args) in
    told (c.before.before.before.before.ok) (c.before.before.before.before.before.ok)
    (c.deal.auto.1.1.1.1.1.0) (c.deal.auto.1.1.1.1.0)

  abbrev at-found : goal.found
  at-found = c.given.before.before.before.before.before

abbrev start_of : goal.found -> goal.start
start_of at = at.1.1.1.1.1.0

add-c c = c.before.before.before.before.before.inv

held = c.loop-i.invariant.1.1.1.1.1.0.ok

short c = record { least = c.loop-i.invariant.1.1.1.1.0.least; most = c.loop-i.invariant.before.1.1.1.1.1; }
";
    assert_eq!(
        long_chains(text),
        [(4, 5), (5, 6), (13, 5), (15, 6), (17, 6)]
    );
}
