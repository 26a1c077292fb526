//! Documents hold to the repository: every rule of the specification has its row among the
//! promises, what documents cite exists where they say, and their lines are short.

use crate::tree;
use std::collections::{BTreeMap, BTreeSet};
use std::fs;
use std::path::Path;

const SPECIFICATION: &str = "docs/SPECIFICATION.md";
const PROMISES: &str = "docs/PROMISES.md";
/// It tells what was, as the landings do, and so names what is gone.
const PORT: &str = "docs/PORT.md";
/// So do these two.
const DESIGN_PASS: &str = "docs/DESIGN-PASS.md";
const LOOK_BACK: &str = "docs/LOOK-BACK.md";
const MOST_CHARACTERS: usize = 120;

/// Endings of files that a document may name without their directory.
const ENDINGS: [&str; 9] = [
    ".md", ".rs", ".rt", ".antt", ".txt", ".toml", ".edit", ".h", ".c",
];

/// These checks, whose made-up texts are no sources.
const CHECKS: &str = "rust/wadroles/tests/sources/";

// ---- rules

/// Whether a word is the number of a rule: capitals, a hyphen and digits.
fn is_rule(word: &str) -> bool {
    word.split_once('-').is_some_and(|(kind, number)| {
        !kind.is_empty()
            && kind.chars().all(|c| c.is_ascii_uppercase())
            && !number.is_empty()
            && number.chars().all(|c| c.is_ascii_digit())
    })
}

/// The rules of a specification: in bold and with a full stop, where a paragraph, a list item or a
/// row of a table begins.
fn rules(text: &str) -> Vec<&str> {
    text.lines()
        .filter_map(|line| {
            let line = ["- ", "| "]
                .iter()
                .find_map(|bullet| line.strip_prefix(bullet))
                .unwrap_or(line);
            let (word, _) = line.strip_prefix("**")?.split_once(".**")?;
            is_rule(word).then_some(word)
        })
        .collect()
}

/// The rules that a text cites and a specification does not have, though it has others of the kind.
fn missing_rules<'a>(rules: &[&str], text: &'a str) -> Vec<&'a str> {
    let kind = |rule: &str| rule.split('-').next().map(str::to_owned);
    let kinds: BTreeSet<_> = rules.iter().map(|rule| kind(rule)).collect();
    text.split(|c: char| !c.is_ascii_alphanumeric() && c != '-')
        .filter(|word| is_rule(word) && kinds.contains(&kind(word)) && !rules.contains(word))
        .collect()
}

/// The comments of a file of definitions.
fn comments(text: &str) -> String {
    let after = text.lines().filter_map(|line| line.split_once("--"));
    after.map(|(_, comment)| format!("{comment}\n")).collect()
}

/// What is amiss between the rules of a specification and the rows of the promises.
fn rule_faults(specification: &str, promises: &str) -> Vec<String> {
    let rules = rules(specification);
    let blocks = blocks(promises);
    let firsts = blocks.iter().filter_map(|block| match block {
        Block::Row { head, cells, .. } if head.first() == Some(&"Rule") => cells.first().copied(),
        _ => None,
    });
    let firsts: Vec<_> = firsts.collect();
    let mut faults = Vec::new();
    for (at, rule) in rules.iter().enumerate() {
        if rules[..at].contains(rule) {
            faults.push(format!("{rule} is there twice"));
        }
        match firsts.iter().filter(|first| *first == rule).count() {
            1 => {}
            count => faults.push(format!("{rule} has {count} rows")),
        }
    }
    let unknown = firsts.iter().filter(|first| !rules.contains(first));
    faults.extend(unknown.map(|first| format!("a row for {first}, which is no rule")));
    faults
}

// ---- the parts of a document

/// A paragraph, or a row of a table with the table's head; `section` counts the headings before it.
enum Block<'a> {
    Paragraph {
        section: usize,
        text: String,
    },
    Row {
        section: usize,
        head: Vec<&'a str>,
        cells: Vec<&'a str>,
    },
}

fn cells(line: &str) -> Vec<&str> {
    let line = line.trim().trim_matches('|');
    line.split('|').map(str::trim).collect()
}

fn blocks(text: &str) -> Vec<Block<'_>> {
    let mut all = Vec::new();
    let mut section = 0;
    let mut head: Option<Vec<&str>> = None;
    let mut paragraph = String::new();
    for line in text.lines().chain([""]) {
        let is_row = line.starts_with('|');
        if (is_row || line.trim().is_empty() || line.starts_with('#')) && !paragraph.is_empty() {
            let text = std::mem::take(&mut paragraph);
            all.push(Block::Paragraph { section, text });
        }
        match (&head, is_row) {
            (None, true) => head = Some(cells(line)),
            (Some(_), true) if line.starts_with("|--") => {}
            (Some(names), true) => all.push(Block::Row {
                section,
                head: names.clone(),
                cells: cells(line),
            }),
            (_, false) => {
                head = None;
                if line.starts_with('#') {
                    section += 1;
                } else if !line.trim().is_empty() {
                    paragraph += line.trim();
                    paragraph.push(' ');
                }
            }
        }
    }
    all
}

// ---- what is cited

/// A text in backquotes, and the file (crate/File) or crate in parentheses after it: the names of
/// one row, joined by commas, or by full stops where a field follows its record, share it.
type Cited<'a> = (&'a str, Option<&'a str>);

fn cited(text: &str) -> Vec<Cited<'_>> {
    let parts: Vec<_> = text.split('`').collect();
    let mut found: Vec<Cited<'_>> = Vec::new();
    let mut next = None;
    for at in (1..parts.len()).step_by(2).rev() {
        let after = parts.get(at + 1).copied().unwrap_or("");
        let named = after
            .strip_prefix(" (")
            .and_then(|rest| rest.split(')').next());
        let place = match after {
            ", " | "." => next,
            _ => named.filter(|place| is_place(place)),
        };
        found.push((parts[at], place));
        next = place;
    }
    found.reverse();
    found
}

fn is_lower(word: &str) -> bool {
    !word.is_empty() && word.chars().all(|c| c.is_ascii_lowercase() || c == '_')
}

/// A crate, or a file of definitions as crate/File.
fn is_place(word: &str) -> bool {
    match word.split_once('/') {
        Some((name, file)) => is_lower(name) && is_file(file),
        None => is_lower(word),
    }
}

fn is_file(word: &str) -> bool {
    word.starts_with(|c: char| c.is_ascii_uppercase()) && word.chars().all(char::is_alphanumeric)
}

/// The words outside of backquotes that name a file of definitions or an edit: crate/File, crate/edit.
fn bare(text: &str) -> Vec<&str> {
    text.split('`')
        .step_by(2)
        .flat_map(|part| part.split(|c: char| !c.is_alphanumeric() && !"_/.-".contains(c)))
        .map(|word| word.trim_matches(['.', '-']))
        .filter(|word| {
            word.split_once('/').is_some_and(|(name, rest)| {
                is_lower(name) && (is_file(rest) || is_lower(rest) && rest.contains('_'))
            })
        })
        .collect()
}

// ---- what there is

/// The files of definitions by crate/File, the code by crate, the edits as crate/edit, the words of
/// all sources, and the paths of the repository.
#[derive(Default)]
struct Sources {
    definitions: BTreeMap<String, String>,
    code: BTreeMap<String, String>,
    edits: BTreeSet<String>,
    words: BTreeSet<String>,
    paths: BTreeSet<String>,
}

impl Sources {
    fn of_the_repository() -> Sources {
        let mut all = Sources::default();
        gather(&tree::root(), &mut all.paths);
        for path in all.paths.clone() {
            if path.ends_with(".md") || path.starts_with(CHECKS) {
                continue;
            }
            let Ok(text) = fs::read_to_string(tree::root().join(&path)) else {
                continue;
            };
            all.words.extend(words(&text));
            let parts: Vec<_> = path.split('/').collect();
            let stem = parts[parts.len() - 1].split('.').next().expect("a name");
            match parts[..] {
                // what rests on a definition that an edit turns stands in proofs/
                ["crates", name, "specs" | "proofs", file] if file.ends_with(".antt") => {
                    let place = format!("{name}/{stem}");
                    all.definitions.entry(place).or_default().push_str(&text);
                }
                ["crates", name, "must-fail", _] => {
                    all.edits.insert(format!("{name}/{stem}"));
                }
                ["crates", name, "src", ..] => {
                    let code = all.code.entry(name.to_owned()).or_default();
                    code.push_str(&text);
                }
                _ => {}
            }
        }
        all
    }

    /// Whether a file of definitions or the code of a crate declares a name.
    fn declares(&self, place: &str, name: &str) -> bool {
        match self.definitions.get(place) {
            Some(text) => text.lines().any(|line| defines(line, name)),
            None => {
                let text = self.code.get(place);
                text.is_some_and(|text| text.lines().any(|line| makes(line, name)))
            }
        }
    }

    fn has_place(&self, place: &str) -> bool {
        self.definitions.contains_key(place) || self.code.contains_key(place)
    }

    /// Whether a path is of a folder `target`, or of the folder `out` of a crate.
    fn is_made(&self, path: &str) -> bool {
        let holder = match path.split_once("/out/") {
            Some((holder, _)) => Some(holder),
            None => path.strip_suffix("/out"),
        };
        path.starts_with("target/")
            || holder.is_some_and(|it| it.starts_with("crates/") && self.paths.contains(it))
    }

    /// A path, from the root or the end of one, or a word of the sources. Anything else in
    /// backquotes, such as an expression, is let pass, and so is what a build makes.
    fn has_word(&self, text: &str) -> bool {
        let end = format!("/{}", text.trim_end_matches('/'));
        let is_word = words(text).next().is_some_and(|word| word == text);
        if self.is_made(text) || !is_path(text) && !is_word {
            return true;
        }
        self.words.contains(text)
            || self
                .paths
                .iter()
                .any(|path| format!("/{path}").ends_with(&end))
    }
}

/// Folders that a build makes, and what git keeps.
const MADE: [&str; 3] = [".git", "target", "out"];

fn gather(directory: &Path, found: &mut BTreeSet<String>) {
    for entry in fs::read_dir(directory).expect("a directory is read") {
        let path = entry.expect("an entry is read").path();
        let below = path.strip_prefix(tree::root()).expect("below the root");
        let name = below.to_string_lossy().into_owned();
        if MADE.iter().any(|made| below.ends_with(made)) {
            continue;
        }
        if path.is_dir() {
            gather(&path, found);
        }
        found.insert(name);
    }
}

/// The words of a text. A prime belongs to the word before it.
fn words(text: &str) -> impl Iterator<Item = String> + '_ {
    text.split(|c: char| !c.is_alphanumeric() && !"_-'".contains(c))
        .map(|word| {
            word.trim_end_matches('-')
                .trim_start_matches(['-', '\''])
                .to_owned()
        })
}

/// Whether a line of a file of definitions declares a name: a type follows, or it is a record's or
/// an inductive type's.
fn defines(line: &str, name: &str) -> bool {
    let mut words = line
        .split_whitespace()
        .skip_while(|word| ["pub", "abbrev", "unfoldable", "ghost"].contains(word));
    match words.next() {
        Some("record" | "data") => words.next() == Some(name),
        Some(first) => first == name && words.next() == Some(":"),
        None => false,
    }
}

/// Whether a line of the code declares a name.
fn makes(line: &str, name: &str) -> bool {
    let kinds = ["fn", "struct", "enum", "const"];
    let words: Vec<_> = line
        .split(|c: char| !c.is_alphanumeric() && c != '_')
        .filter(|word| !["", "pub", "extern", "C"].contains(word))
        .take(2)
        .collect();
    words.len() == 2 && kinds.contains(&words[0]) && words[1] == name
}

// ---- promises

/// Where the names of a section stand, as the paragraph "Definitions: .. Laws: .. Code: .." says.
fn listed<'a>(paragraph: &'a str, label: &str) -> Vec<&'a str> {
    let Some((_, rest)) = paragraph.split_once(&format!("{label}: ")) else {
        return Vec::new();
    };
    let list = rest.split(['.', ';']).next().expect("a text");
    list.split(", ").map(str::trim).collect()
}

/// The files that the names of a cell stand in, where the cell does not say: those of the row's cell
/// `In`, or those that its section lists for the column.
fn usual<'a>(head: &[&str], cells: &[&'a str], at: usize, places: &'a str) -> Vec<&'a str> {
    if let Some(within) = head.iter().position(|name| *name == "In") {
        return cells
            .get(within)
            .map_or(Vec::new(), |list| list.split(", ").collect());
    }
    match head.get(at) {
        Some(&"Definition") => listed(places, "Definitions"),
        Some(&"Proved by") => [listed(places, "Laws"), listed(places, "Code")].concat(),
        _ => Vec::new(),
    }
}

/// Whether a text in backquotes is a path, or the name of a file.
fn is_path(text: &str) -> bool {
    let is_file = ENDINGS.iter().any(|ending| text.ends_with(ending));
    (is_file || text.contains('/')) && text != "/" && !text.contains([' ', '*'])
}

/// What a text cites that is not there. Of the promises (`usual` is some) names without a place stand
/// in one of the usual ones; elsewhere a word in parentheses may be no crate.
fn citation_faults(text: &str, usual: Option<&[&str]>, sources: &Sources) -> Vec<String> {
    let mut faults = Vec::new();
    for (name, place) in cited(text) {
        let place = place.filter(|place| {
            usual.is_some() || place.contains(['/', '_']) || sources.has_place(place)
        });
        let places = place.map_or(usual.unwrap_or(&[]).to_vec(), |place| vec![place]);
        if let Some(place) = place.filter(|place| !sources.has_place(place)) {
            faults.push(format!("no file or crate {place}"));
        } else if is_path(name) || places.is_empty() {
            if !sources.has_word(name) {
                faults.push(format!("no such name or file {name}"));
            }
        } else {
            let first = name.split(' ').next().expect("a word");
            if !places.iter().any(|place| sources.declares(place, first)) {
                faults.push(format!("no {first} in {}", places.join(", ")));
            }
        }
    }
    for word in bare(text) {
        if !sources.edits.contains(word) && !sources.definitions.contains_key(word) {
            faults.push(format!("no file or edit {word}"));
        }
    }
    faults
}

/// What the promises cite that is not there, and edits that they do not name.
fn promise_faults(text: &str, sources: &Sources) -> Vec<String> {
    let mut faults = Vec::new();
    let mut named = BTreeSet::new();
    let mut places = (0, String::new());
    for block in blocks(text) {
        match block {
            Block::Paragraph { section, text } => {
                if text.starts_with("Definitions: ") {
                    let labels = ["Definitions", "Laws", "Code"];
                    let all = labels.iter().flat_map(|label| listed(&text, label));
                    let lost = all.filter(|place| !sources.has_place(place));
                    faults.extend(lost.map(|place| format!("no file or crate {place}")));
                    places = (section, text);
                } else {
                    faults.extend(citation_faults(&text, Some(&[]), sources));
                    named.extend(bare(&text).into_iter().map(str::to_owned));
                }
            }
            Block::Row {
                section,
                head,
                cells,
            } => {
                let known = if places.0 == section { &places.1 } else { "" };
                for (at, cell) in cells.iter().enumerate() {
                    let usual = usual(&head, &cells, at, known);
                    faults.extend(citation_faults(cell, Some(&usual), sources));
                    named.extend(bare(cell).into_iter().map(str::to_owned));
                }
            }
        }
    }
    let unnamed = sources.edits.iter().filter(|edit| !named.contains(*edit));
    faults.extend(unnamed.map(|edit| format!("edit {edit} is not named")));
    faults
}

// ---- other documents

/// The names that an indented list of crates has: columns stand two spaces or more apart, and the
/// name is the last but one, a single word.
fn listed_crates(text: &str) -> Vec<&str> {
    let lines = text.lines().filter(|line| line.starts_with("    "));
    let columns = lines.map(|line| {
        let columns = line.split("  ").map(str::trim);
        columns.filter(|column| !column.is_empty()).collect()
    });
    columns
        .filter_map(|columns: Vec<_>| columns.into_iter().rev().nth(1))
        .filter(|name| is_lower(name))
        .collect()
}

/// The files that a document of a directory links to, as paths from the root.
fn links(directory: &str, text: &str) -> Vec<String> {
    text.split("](")
        .skip(1)
        .filter_map(|rest| rest.split([')', '#']).next())
        .filter(|target| !target.is_empty() && !target.contains("://"))
        .map(|target| {
            let mut parts: Vec<_> = directory
                .split('/')
                .filter(|part| !part.is_empty())
                .collect();
            for part in target.split('/') {
                match part {
                    ".." => drop(parts.pop()),
                    _ => parts.push(part),
                }
            }
            parts.join("/")
        })
        .collect()
}

/// What a document of a directory cites that is not there.
fn document_faults(directory: &str, text: &str, sources: &Sources) -> Vec<String> {
    let mut faults = Vec::new();
    for block in blocks(text) {
        let texts = match block {
            Block::Paragraph { text, .. } => vec![text],
            Block::Row { cells, .. } => cells.into_iter().map(str::to_owned).collect(),
        };
        for text in texts {
            faults.extend(citation_faults(&text, None, sources));
        }
    }
    for name in listed_crates(text) {
        if !sources.paths.contains(&format!("crates/{name}")) {
            faults.push(format!("no crate {name}"));
        }
    }
    for path in links(directory, text) {
        if !sources.paths.contains(path.trim_end_matches('/')) {
            faults.push(format!("no file {path} to link to"));
        }
    }
    faults
}

/// The lines of a text that are too long, each with its length in characters.
fn long_lines(text: &str) -> Vec<(usize, usize)> {
    (1..)
        .zip(text.lines().map(|line| line.chars().count()))
        .filter(|&(_, length)| MOST_CHARACTERS < length)
        .collect()
}

/// The documents of a directory of the repository, none where it is not there.
fn documents(directory: &str) -> Vec<String> {
    let Ok(entries) = fs::read_dir(tree::root().join(directory)) else {
        return Vec::new();
    };
    let names = entries.map(|entry| entry.expect("an entry is read").file_name());
    let mut found: Vec<_> = names
        .map(|name| format!("{directory}/{}", name.to_string_lossy()))
        .filter(|path| path.ends_with(".md"))
        .collect();
    found.sort();
    found
}

// ---- the repository

#[test]
fn every_rule_has_one_row_of_the_promises() {
    let specification = tree::read(SPECIFICATION);
    assert!(rules(&specification).len() > 100, "few rules are found");
    tree::assert_none(&rule_faults(&specification, &tree::read(PROMISES)));
}

#[test]
fn what_the_promises_cite_is_there() {
    let sources = Sources::of_the_repository();
    tree::assert_none(&promise_faults(&tree::read(PROMISES), &sources));
}

#[test]
fn what_documents_cite_is_there() {
    let sources = Sources::of_the_repository();
    let mut faults = Vec::new();
    let mut paths = documents("docs");
    paths.retain(|path| ![PROMISES, PORT, DESIGN_PASS, LOOK_BACK].contains(&path.as_str()));
    for path in [vec!["README.md".to_owned()], paths].concat() {
        let directory = path.rsplit_once('/').map_or("", |(directory, _)| directory);
        let found = document_faults(directory, &tree::read(&path), &sources);
        faults.extend(found.iter().map(|fault| format!("{path}: {fault}")));
    }
    tree::assert_none(&faults);
}

#[test]
fn every_rule_that_is_cited_is_there() {
    let specification = tree::read(SPECIFICATION);
    let rules = rules(&specification);
    let mut faults = Vec::new();
    for path in [vec!["README.md".to_owned()], documents("docs")].concat() {
        let text = tree::read(&path);
        let missing = missing_rules(&rules, &text);
        faults.extend(missing.iter().map(|rule| format!("{path}: no rule {rule}")));
    }
    for path in tree::files(".antt") {
        let text = comments(&tree::read(&path));
        let missing = missing_rules(&rules, &text);
        faults.extend(missing.iter().map(|rule| format!("{path}: no rule {rule}")));
    }
    tree::assert_none(&faults);
}

#[test]
fn no_line_of_a_document_is_too_long() {
    let single = [
        "README.md",
        "CHANGELOG.md",
        "examples/README.md",
        "rust/README.md",
    ];
    let single = single.map(str::to_owned).to_vec();
    let mut faults = Vec::new();
    for path in [single, documents("docs"), documents("docs/landings")].concat() {
        let Ok(text) = fs::read_to_string(tree::root().join(&path)) else {
            continue;
        };
        for (line, length) in long_lines(&text) {
            faults.push(format!("{path}:{line}: {length} characters"));
        }
    }
    tree::assert_none(&faults);
}

// ---- each of these sees what it is to see

fn made_up() -> Sources {
    let mut sources = Sources::default();
    let text = "use Rattle.mesh.specs.Tests.{size}\nabbrev pub room : ℕ\nroom = used\n\
                pub record Long (n : ℕ) : Type 0 where\n  pub fits : Bool\n";
    sources
        .definitions
        .insert("cut/Cut".to_owned(), text.to_owned());
    let laws = "pub room_large : T\n    size : T\n";
    sources
        .definitions
        .insert("cut/CutLaws".to_owned(), laws.to_owned());
    let code = "pub enum Sliced {\npub extern \"C\" fn cut(n: usize)\n    trace(n);\n";
    sources.code.insert("cut".to_owned(), code.to_owned());
    sources.edits.insert("cut/room_taken".to_owned());
    sources.words.extend(words("let out = room room';"));
    for path in ["crates/cut", "docs/OTHER.md", "rust/tests/lines.rs"] {
        sources.paths.insert(path.to_owned());
    }
    sources
}

#[test]
fn rules_and_their_rows_are_compared() {
    let specification = "\
**CUT-1.** A cut, see CUT-9.

- **CUT-2.** Another.
- CUT-7 is no definition, nor is **CUT-8**.

| Rule | Most |
|---|---|
| **LIMIT-1.** | 8 |
**CUT-2.** The same again.
";
    let promises = "\
| Rule | Definition |
|---|---|
| CUT-1 | `cut` |
| LIMIT-1 | `most` |
| CUT-1 | `cut` |
| CUT-3 | `cut` |
| Cut 2 | `cut` |

| Piece | Where |
|---|---|
| CUT-2 | this is no row of a rule |
";
    assert_eq!(rules(specification), ["CUT-1", "CUT-2", "LIMIT-1", "CUT-2"]);
    assert_eq!(
        rule_faults(specification, promises),
        [
            "CUT-1 has 2 rows",
            "CUT-2 has 0 rows",
            "CUT-2 is there twice",
            "CUT-2 has 0 rows",
            "a row for CUT-3, which is no rule",
            "a row for Cut 2, which is no rule",
        ]
    );
    assert_eq!(
        missing_rules(&rules(specification), specification),
        ["CUT-9", "CUT-7", "CUT-8"]
    );
}

#[test]
fn rules_cited_in_comments_are_seen() {
    let text = "-- CUT-1: names, as UTF-8\ncut-3 = CUT-4\n  pub long : T -- LIMIT-2 and CUT-3\n";
    assert_eq!(
        missing_rules(&["CUT-1", "LIMIT-1"], &comments(text)),
        ["LIMIT-2", "CUT-3"]
    );
}

#[test]
fn what_promises_cite_is_sought_where_they_say() {
    let text = "\
Definitions: cut/Cut. Laws: cut/CutLaws, cut/LostLaws. Code: cut.

| Rule | Definition | Proved by | Edit |
|---|---|---|---|
| CUT-1 | `room`, `Long`.`fits` | `room_large`; `cut` | cut/room_taken |
| CUT-2 | `used` | `trace` | cut/room_lost |
| CUT-3 | `size` (cut/Cut); `room` (cut/Cut) | `size` (cut/CutLaws), `Sliced` (cut) | old/Cut |

| What | In |
|---|---|
| `room`, `room_large` | cut/Cut |

## Another section

| Rule | Definition |
|---|---|
| CUT-4 | `out`, `lost`, `rust/tests/lines.rs`, `rust/lost.rs`; `cut` (cutter) |
";
    assert_eq!(
        promise_faults(text, &made_up()),
        [
            "no file or crate cut/LostLaws",
            "no used in cut/Cut",
            "no trace in cut/CutLaws, cut/LostLaws, cut",
            "no file or edit cut/room_lost",
            "no size in cut/Cut",
            "no file or edit old/Cut",
            "no room_large in cut/Cut",
            "no such name or file lost",
            "no such name or file rust/lost.rs",
            "no file or crate cutter",
        ]
    );
}

#[test]
fn an_edit_that_is_not_named_is_seen() {
    assert_eq!(
        promise_faults("Named: `cut/room_taken`.\n", &made_up()),
        [
            "no such name or file cut/room_taken",
            "edit cut/room_taken is not named"
        ]
    );
    assert!(promise_faults("Tried: cut/room_taken.\n", &made_up()).is_empty());
}

#[test]
fn what_documents_cite_is_sought() {
    let text = "\
Read `docs/OTHER.md` and `docs/LOST.md`, `lines.rs` and `lost.rs`; `out` (new) and `lost`, made
`crates/cut/out/libcut.a` and `crates/lost/out/cut.h`, `room'` and `used'`, but
not `cargo run -p lost`; cut/Cut, cut/Lost and the edits cut/room_taken, cut/room_lost;
`room` (cut/Cut), `used` (cut/Cut), `room` (cut_old).

    cut      cuts
    Other    cutter   cuts once
    cargo run

See [it](OTHER.md#part), [that](../rust/lost.rs) and [more](https://lost).
";
    assert_eq!(
        document_faults("docs", text, &made_up()),
        [
            "no such name or file docs/LOST.md",
            "no such name or file lost.rs",
            "no such name or file lost",
            "no such name or file crates/lost/out/cut.h",
            "no such name or file used'",
            "no used in cut/Cut",
            "no file or crate cut_old",
            "no file or edit cut/Lost",
            "no file or edit cut/room_lost",
            "no crate cutter",
            "no file rust/lost.rs to link to",
        ]
    );
}

#[test]
fn a_long_line_of_a_document_is_seen() {
    let text = format!("short\n{}\n{}\n", "−".repeat(120), "a".repeat(121));
    assert_eq!(long_lines(&text), [(3, 121)]);
}
