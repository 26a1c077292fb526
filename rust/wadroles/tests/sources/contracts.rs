//! Contracts of public operations: every table that a function may write stands in its contract as
//! the function leaves it, and none asks anything of its caller.
//!
//! This sees the text of the contract only: that `table.new` is written there for each parameter
//! whose type is `&mut`. It does not see whether the definition that is handed the table says
//! anything of it; the law of the only outcome (`only_outcome`, mesh/OperationLaws) and the edits
//! do. Nor does it see a `&mut` inside a struct, which no operation has.

use crate::tree;

/// The crates whose top module has the operations, and the public functions that are there at least.
const OPERATIONS: [(&str, &[&str]); 14] = [
    ("check_mesh", &["check"]),
    ("clean", &["clean"]),
    ("contours", &["area", "contour"]),
    ("cut", &["cut"]),
    ("ink", &["ink"]),
    ("all_layers", &["all_layers"]),
    ("nesting", &["nesting"]),
    ("list_part", &["list"]),
    ("preview", &["preview", "preview_run"]),
    ("read_part", &["read_part"]),
    ("read_layer", &["read_layer"]),
    ("sweep", &["start", "step"]),
    ("sweep_layer", &["layer"]),
    (
        "wadroles",
        &[
            "wadroles_check",
            "wadroles_cut",
            "wadroles_contour",
            "wadroles_area",
            "wadroles_start",
            "wadroles_step",
            "wadroles_layer",
            "wadroles_all_layers",
            "wadroles_read_layer",
            "wadroles_read_part",
            "wadroles_preview",
            "wadroles_preview_run",
            "wadroles_clean",
            "wadroles_all_layers_clean",
            "wadroles_read_layer_clean",
            "wadroles_ink",
            "wadroles_nesting",
        ],
    ),
];

/// A public function: its name, the parameters that it may write, and the text of its contract.
struct Function<'a> {
    name: &'a str,
    lent: Vec<&'a str>,
    contract: &'a str,
}

/// The public functions of a module.
fn functions(source: &str) -> Vec<Function<'_>> {
    ["\npub fn ", "\npub extern \"C\" fn "]
        .iter()
        .flat_map(|opening| source.split(opening).skip(1))
        .map(function)
        .collect()
}

/// The function whose text begins with its name.
fn function(text: &str) -> Function<'_> {
    let (head, rest) = text.split_once('(').expect("it has parameters");
    let (parameters, rest) = rest.split_once(')').expect("they end");
    let (contract, _) = rest.split_once("\n{").expect("it has a body");
    let lent = parameters
        .split(',')
        .filter_map(|parameter| parameter.split_once(':'))
        .filter(|(_, kind)| words(kind).any(|word| word == "mut"))
        .map(|(name, _)| name.trim())
        .collect();
    Function {
        name: head.split('<').next().expect("a name"),
        lent,
        contract,
    }
}

fn words(text: &str) -> impl Iterator<Item = &str> {
    text.split(|c: char| c.is_whitespace() || "(){}&".contains(c))
        .filter(|word| !word.is_empty())
}

/// Whether a word of a contract is a table as the function leaves it, or a part of it.
fn is_left(word: &str, table: &str) -> bool {
    let field = word
        .strip_prefix(table)
        .and_then(|rest| rest.strip_prefix(".new"));
    field.is_some_and(|rest| rest.is_empty() || rest.starts_with('.'))
}

/// What is amiss in the contracts of a module's public functions.
fn faults(source: &str) -> Vec<String> {
    let mut faults = Vec::new();
    for Function {
        name,
        lent,
        contract,
    } in functions(source)
    {
        let words: Vec<_> = words(contract).collect();
        for table in lent {
            if !words.iter().any(|word| is_left(word, table)) {
                faults.push(format!("{name} says nothing of {table} as it leaves it"));
            }
        }
        if words.contains(&"requires") {
            faults.push(format!("{name} asks something of its caller"));
        }
    }
    faults
}

#[test]
fn every_table_of_an_operation_stands_in_its_contract_as_it_is_left() {
    let mut all = Vec::new();
    for (name, expected) in OPERATIONS {
        let path = format!("crates/{name}/src/lib.rt");
        let source = tree::read(&path);
        let found: Vec<_> = functions(&source).iter().map(|f| f.name).collect();
        for operation in expected {
            assert!(found.contains(operation), "{path} has no {operation}");
        }
        all.extend(
            faults(&source)
                .iter()
                .map(|fault| format!("{path}: {fault}")),
        );
    }
    tree::assert_none(&all);
}

#[test]
fn a_forgotten_table_and_a_requirement_are_seen() {
    let source = "
pub fn good<'a>(file: &[u8], points: &'a mut [i32], ends: &mut [u32]) -> bool
    ensures outcome { Reads file.now points.old result
        points.new (ends.new) }
{
    points[0] = 0;
}

pub fn forgetful(
    points: &mut [i32],
    ends: &mut [u32],
) -> bool
    ensures outcome { Reads ends.old ends.newer result (points.new.items) }
{
    ends[0] = 0;
}

pub extern \"C\" fn asking(out: &mut [u64; 4]) -> u32
    requires { Fits out.old }
    ensures outcome { Fills result out.new }
{
    0
}
";
    let names: Vec<_> = functions(source).iter().map(|f| f.name).collect();
    assert_eq!(names, ["good", "forgetful", "asking"]);
    assert_eq!(
        faults(source),
        [
            "forgetful says nothing of ends as it leaves it",
            "asking asks something of its caller"
        ]
    );
}
