use wadroles::{
    Refusal, MAX_COORDINATE, MAX_LAYERS, MAX_POINTS, MAX_THICKNESS, MAX_TRIANGLES, MAX_VERTICES,
    NO_CORNER, NO_PARENT,
};

const HEADER: &str = include_str!("../../../../include/wadroles.h");
const RAW: &str = include_str!("../../src/raw.rs");

#[test]
fn the_header_numbers_the_refusals_alike() {
    let refusals = [
        ("SIZE", Refusal::SIZE),
        ("RANGE", Refusal::RANGE),
        ("VERTEX", Refusal::VERTEX),
        ("TRIANGLE", Refusal::TRIANGLE),
        ("OPEN", Refusal::OPEN),
        ("PAIRING", Refusal::PAIRING),
        ("ORDER", Refusal::ORDER),
        ("ROOM", Refusal::ROOM),
        ("PASSED", Refusal::PASSED),
        ("RING", Refusal::RING),
        ("HEIGHT", Refusal::HEIGHT),
        ("FILE", Refusal::FILE),
        ("OUTPUT", Refusal::OUTPUT),
        ("LAYER", Refusal::LAYER),
        ("USED", Refusal::USED),
        ("ORIGIN", Refusal::ORIGIN),
        ("UNCLEAN", Refusal::UNCLEAN),
        ("THICKNESS", Refusal::THICKNESS),
    ];
    for (name, number) in refusals {
        let line = format!("WADROLES_{name} = {number}");
        assert!(HEADER.contains(&line), "no {line:?} in the header");
    }
    let (_, numbered) = HEADER.split_once("enum wadroles_refusal {").unwrap();
    let (numbered, _) = numbered.split_once('}').unwrap();
    assert_eq!(numbered.matches(" = ").count(), refusals.len());
}

#[test]
fn the_header_gives_the_same_limits() {
    for line in [
        format!("#define WADROLES_MAX_VERTICES {MAX_VERTICES}\n"),
        format!("#define WADROLES_MAX_TRIANGLES {MAX_TRIANGLES}\n"),
        format!("#define WADROLES_MAX_COORDINATE {MAX_COORDINATE}\n"),
        format!("#define WADROLES_MAX_POINTS {MAX_POINTS}\n"),
        format!("#define WADROLES_MAX_LAYERS {MAX_LAYERS}\n"),
        format!("#define WADROLES_MAX_THICKNESS {MAX_THICKNESS}\n"),
        format!("#define WADROLES_NO_CORNER {NO_CORNER}u\n"),
        format!("#define WADROLES_NO_PARENT {NO_PARENT}u\n"),
    ] {
        assert!(HEADER.contains(&line), "no {line:?} in the header");
    }
}

#[test]
fn the_header_declares_the_same_functions() {
    let in_header: Vec<_> = functions(HEADER, "\nuint32_t ", ");")
        .map(|(name, parameters)| (name, parameters.map(|c| in_rust(&c)).collect()))
        .collect();
    let in_raw: Vec<(String, Vec<String>)> = functions(RAW, " pub fn ", ") -> u32;")
        .map(|(name, parameters)| (name, parameters.collect()))
        .collect();
    assert_eq!(in_header, in_raw);
    let names: Vec<_> = in_raw.iter().map(|(name, _)| name.as_str()).collect();
    assert_eq!(
        names,
        [
            "wadroles_check",
            "wadroles_cut",
            "wadroles_contour",
            "wadroles_area",
            "wadroles_start",
            "wadroles_step",
            "wadroles_layer",
            "wadroles_all_layers",
            "wadroles_read_layer",
            "wadroles_read_part",
            "wadroles_preview",
            "wadroles_preview_run",
            "wadroles_clean",
            "wadroles_all_layers_clean",
            "wadroles_read_layer_clean",
            "wadroles_ink",
            "wadroles_nesting"
        ]
    );
}

/// The functions that a text declares between `before` and `after`, each with its parameters.
fn functions<'a>(
    text: &'a str,
    before: &'a str,
    after: &'a str,
) -> impl Iterator<Item = (String, impl Iterator<Item = String> + 'a)> {
    text.split(before).skip(1).map(move |declaration| {
        let (declaration, _) = declaration.split_once(after).expect("it ends");
        let (name, parameters) = declaration.split_once('(').expect("it is a function");
        let parameters = parameters.split(',').map(|p| p.trim().to_owned());
        (name.to_owned(), parameters.filter(|p| !p.is_empty()))
    })
}

/// A parameter of a C function, as Rust writes it.
fn in_rust(parameter: &str) -> String {
    let (declared, name) = parameter.rsplit_once(' ').expect("a type and a name");
    let (constant, declared) = match declared.strip_prefix("const ") {
        Some(declared) => (true, declared),
        None => (false, declared),
    };
    let number = match declared {
        "uint8_t" => "u8",
        "int32_t" => "i32",
        "uint32_t" => "u32",
        "uint64_t" => "u64",
        "float" => "f32",
        "size_t" => "usize",
        _ => panic!("no type of the header: {parameter:?}"),
    };
    let table = name.split_once('[').map(|(name, _length)| name);
    let pointer = name.strip_prefix('*').or(table);
    match (pointer, constant) {
        (Some(name), true) => format!("{name}: *const {number}"),
        (Some(name), false) => format!("{name}: *mut {number}"),
        (None, _) => format!("{name}: {number}"),
    }
}
