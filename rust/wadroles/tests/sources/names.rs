//! One name, one thing: an enum, a struct, a trait, a record, a data type, a function or method of
//! the code and a definition of `specs` outside files of laws and of worked values are each defined
//! once. Only a function has the name of a definition that it computes, and its contract says so.

use crate::definitions::is_definition_file;
use crate::tree;
use std::collections::BTreeMap;

/// Names that are defined twice, and why.
const TWICE: [(&str, &str); 11] = [
    ("beyond", APART),
    ("contour_area", COMPUTES),
    ("contour_part", APART),
    ("edge_counts", COMPUTES),
    ("link_of", APART),
    ("main", "each program has one"),
    ("prior_end", COMPUTES),
    ("signed_word", APART),
    ("successor", COMPUTES),
    ("trace", COMPUTES),
    ("walk", COMPUTES),
];
const COMPUTES: &str = "the function computes it, and its contract says so by another definition";
const APART: &str = "two things, and no file uses both";

/// What a name is defined as.
#[derive(Clone, Copy, PartialEq, Eq, Debug)]
enum Kind {
    Type,
    Function,
    Definition,
}

/// A name, what it is and the line that defines it.
type Item<'a> = (usize, Kind, &'a str);

/// The types, traits and functions of a file of code, which stand at the start of a line, and the
/// methods of a trait and of a type, which stand in its block. An `impl` of a trait has the names of
/// the trait's methods, which count there.
fn code_items(text: &str) -> Vec<Item<'_>> {
    let mut items = Vec::new();
    let mut in_block = false;
    for (number, line) in (1..).zip(text.lines()) {
        let body = line
            .strip_prefix("    ")
            .filter(|_| in_block)
            .unwrap_or(line);
        let body = body.strip_prefix("pub ").unwrap_or(body);
        let body = body.strip_prefix("extern \"C\" ").unwrap_or(body);
        if !line.starts_with(' ') && !line.is_empty() {
            let of_a_type = body.starts_with("impl") && !body.contains(" for ");
            in_block = body.starts_with("trait ") || of_a_type;
        }
        let Some((word, rest)) = body.split_once(' ') else {
            continue;
        };
        let kind = match word {
            "enum" | "struct" | "trait" => Kind::Type,
            "fn" => Kind::Function,
            _ => continue,
        };
        let name = rest
            .split(|c: char| !c.is_alphanumeric() && c != '_')
            .next();
        items.extend(name.map(|name| (number, kind, name)));
    }
    items
}

/// The types and definitions of a file of definitions or proofs: those of the file itself and those
/// in its modules, and not what a `where` or a record has.
fn definition_items(text: &str) -> Vec<Item<'_>> {
    let mut items = Vec::new();
    let mut open: Vec<(usize, bool)> = Vec::new();
    for (number, line) in (1..).zip(text.lines()) {
        let body = line.trim_start();
        if body.is_empty() || body.starts_with("--") {
            continue;
        }
        let indent = line.len() - body.len();
        while open.last().is_some_and(|&(outer, _)| indent <= outer) {
            open.pop();
        }
        if open.last().is_some_and(|&(_, is_module)| !is_module) {
            continue;
        }
        let leads = ["pub", "abbrev", "unfoldable"];
        let mut words = body.split_whitespace().skip_while(|w| leads.contains(w));
        let (first, second) = (words.next().unwrap_or(""), words.next().unwrap_or(""));
        open.push((indent, first == "module"));
        if ["record", "data"].contains(&first) {
            items.push((number, Kind::Type, second));
        } else if second == ":" && !first.starts_with(['(', '{']) {
            items.push((number, Kind::Definition, first));
        }
    }
    items
}

/// The items of a file that count.
fn items<'a>(path: &str, text: &'a str) -> Vec<Item<'a>> {
    if path.ends_with(".rt") {
        return code_items(text);
    }
    let mut items = definition_items(text);
    items.retain(|&(_, kind, _)| kind == Kind::Type || is_definition_file(path));
    items
}

/// What a file of code calls a definition of the file of definitions at a path, if it uses it.
fn used_as<'a>(code: &'a str, path: &str, name: &str) -> Option<&'a str> {
    let parts: Vec<_> = path.split('/').collect();
    let ["crates", holder, "specs", file] = parts[..] else {
        return None;
    };
    let file = format!(
        "Rattle.{holder}.specs.{}.{{",
        file.trim_end_matches(".antt")
    );
    code.split("ghost use ").skip(1).find_map(|text| {
        let (names, _) = text.strip_prefix(&file)?.split_once('}')?;
        let mut names = names.split(',').map(str::trim);
        names.find_map(|used| match used.split_once(" as ") {
            Some((first, other)) => (first == name).then_some(other),
            None => (used == name).then_some(used),
        })
    })
}

/// The promises of a function or method of a file of code, from its first `ensures` to its body, or to
/// the end of what a trait says of it.
fn promises<'a>(code: &'a str, name: &str) -> Option<&'a str> {
    let (_, text) = code.split_once(&format!("fn {name}("))?;
    let mut length = 0;
    for line in text.split_inclusive('\n') {
        length += line.len();
        let line = line.trim_end();
        let says = line.contains("ensures") || line.contains("requires");
        if line.ends_with(';') || line.ends_with('{') && !says {
            break;
        }
    }
    let contract = &text[..length];
    let at = contract.find("ensures")?;
    Some(&contract[at..])
}

/// Whether a function's contract says that the function computes a definition of the same name.
fn computes(code: &str, path: &str, name: &str) -> bool {
    let is_part = |c: char| c.is_alphanumeric() || "_'·".contains(c);
    used_as(code, path, name).is_some_and(|word| {
        promises(code, name).is_some_and(|text| text.split(|c| !is_part(c)).any(|it| it == word))
    })
}

/// The names that more than one item has, each with its places, but for a function and the definition
/// that it computes.
fn twice(files: &[(String, String)]) -> BTreeMap<&str, Vec<String>> {
    let mut found: BTreeMap<&str, Vec<(&str, &str, usize, Kind)>> = BTreeMap::new();
    for (path, text) in files {
        for (line, kind, name) in items(path, text) {
            let all = found.entry(name).or_default();
            all.push((path, text, line, kind));
        }
    }
    found.retain(|name, all| {
        all.sort_by_key(|&(.., kind)| kind == Kind::Definition);
        match all[..] {
            [(_, code, _, Kind::Function), (path, _, _, Kind::Definition)] => {
                !computes(code, path, name)
            }
            _ => 1 < all.len(),
        }
    });
    let place = |(path, _, line, _): (&str, &str, usize, Kind)| format!("{path}:{line}");
    found
        .into_iter()
        .map(|(name, all)| (name, all.into_iter().map(place).collect()))
        .collect()
}

fn sources() -> Vec<(String, String)> {
    [tree::files(".antt"), tree::files(".rt")]
        .concat()
        .into_iter()
        .map(|path| (path.clone(), tree::read(&path)))
        .collect()
}

#[test]
fn every_name_is_defined_once() {
    let sources = sources();
    let faults: Vec<_> = twice(&sources)
        .into_iter()
        .filter(|(name, _)| !TWICE.iter().any(|(known, _)| known == name))
        .map(|(name, places)| format!("{name}: {}", places.join(", ")))
        .collect();
    tree::assert_none(&faults);
}

#[test]
fn every_exception_is_needed() {
    let sources = sources();
    let twice = twice(&sources);
    let faults: Vec<_> = TWICE
        .iter()
        .filter(|(name, _)| !twice.contains_key(name))
        .map(|(name, why)| format!("{name} is not defined twice ({why})"))
        .collect();
    tree::assert_none(&faults);
}

const DEFINITIONS: &str = "\
-- record Said : in a comment
use Rattle.std.specs.Prelude.{length}
pub record Layer : Type 0 where
  pub height : ℤ

abbrev pub first : List ℕ → ℕ
first r = get_or r 0 0

module _ (m : Mesh)
    (h : ℤ) where
  pub data Way : Type 0 where
    closed : Way

  unfoldable pub walk : ℕ → Way
  walk n = by n
    where
      by : ℕ → Way
      by n = closed
";

const CODE: &str = "\
// enum Said
pub enum Answer {
    Layer(usize),
}

struct Place {
    first: usize,
}

pub extern \"C\" fn wadroles_walk<'a>(fn_of: usize) -> usize {
    let first = 0;
}

pub trait Seen {
    ghost seen: { Self → ℕ };

    fn see(self) -> usize
        ensures value { result ≡ seen self };
}

impl Seen for Place {
    fn see(self) -> usize {
        self.first
    }
}

impl Place {
    pub fn after(self) -> usize {
        self.first + 1
    }
}
";

#[test]
fn items_are_seen() {
    assert_eq!(
        definition_items(DEFINITIONS),
        [
            (3, Kind::Type, "Layer"),
            (6, Kind::Definition, "first"),
            (11, Kind::Type, "Way"),
            (14, Kind::Definition, "walk"),
        ]
    );
    assert_eq!(
        code_items(CODE),
        [
            (2, Kind::Type, "Answer"),
            (6, Kind::Type, "Place"),
            (10, Kind::Function, "wadroles_walk"),
            (14, Kind::Type, "Seen"),
            (17, Kind::Function, "see"),
            (28, Kind::Function, "after"),
        ]
    );
}

#[test]
fn only_types_count_in_laws_proofs_and_worked_values() {
    for path in [
        "crates/a/specs/ALaws.antt",
        "crates/a/specs/Worked.antt",
        "crates/a/proofs/A.antt",
    ] {
        let names: Vec<_> = items(path, DEFINITIONS).iter().map(|item| item.2).collect();
        assert_eq!(names, ["Layer", "Way"], "{path}");
    }
    assert_eq!(items("crates/a/specs/A.antt", DEFINITIONS).len(), 4);
}

#[test]
fn a_name_defined_twice_is_seen() {
    let file = |path: &str, text: &str| (path.to_owned(), text.to_owned());
    let files = [
        file("crates/a/specs/A.antt", "pub walk : ℕ → ℕ\nwalk n = n\n"),
        file(
            "crates/b/proofs/B.antt",
            "record Place : Type 0 where\n  at : ℕ\n",
        ),
        file(
            "crates/b/src/lib.rt",
            "struct Place {\n    at: usize,\n}\nfn walk() {\n}\n",
        ),
        file("crates/c/specs/CLaws.antt", "walk : ℕ\nwalk = 0\n"),
    ];
    let twice = twice(&files);
    let seen: Vec<_> = twice.iter().map(|(name, at)| (*name, at.len())).collect();
    assert_eq!(seen, [("Place", 2), ("walk", 2)]);
    assert_eq!(
        twice["walk"],
        ["crates/b/src/lib.rt:4", "crates/a/specs/A.antt:1"]
    );
}

#[test]
fn a_function_has_the_name_of_what_it_computes() {
    let definition = "pub few : ℕ → Bool\nfew n = n < 3\n";
    let function = |import: &str, clause: &str| {
        format!("ghost use Rattle.a.specs.{import};\nfn few(n: u8) -> bool\n    {clause}\n{{\n    few(n)\n}}\n")
    };
    let seen = |import: &str, clause: &str| {
        let file = |path: &str, text: String| (path.to_owned(), text);
        let code = file("crates/b/src/lib.rt", function(import, clause));
        let files = [file("crates/a/specs/A.antt", definition.to_owned()), code];
        !twice(&files).is_empty()
    };
    let says = "ensures value { result ≡ few n }";
    assert!(!seen("A.{more, few}", says));
    assert!(!seen(
        "A.{few as A·few}",
        "ensures value { result ≡ A·few n }"
    ));
    assert!(seen("A.{more}", says));
    assert!(seen("B.{few}", says));
    assert!(seen("A.{few as A·few}", says));
    assert!(seen("A.{few}", "ensures value { result ≡ fewer n }"));
    assert!(seen("A.{few}", "requires { few n }"));
}

#[test]
fn a_method_ends_its_own_promises() {
    let code = "\
trait Counting {
    fn few(self) -> bool;
    fn more(self) -> bool
        ensures value { result ≡ many self };
    fn most(self) -> bool;
}

impl Count {
    fn all(self) -> bool
        ensures value { result ≡ every self }
    {
        few(self)
    }
}
";
    assert_eq!(promises(code, "few"), None);
    assert!(promises(code, "more").is_some_and(|text| text.ends_with("many self };\n")));
    assert_eq!(promises(code, "most"), None);
    assert!(promises(code, "all").is_some_and(|text| text.ends_with("every self }\n    {\n")));
}
