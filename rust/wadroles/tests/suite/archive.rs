//! What the archive gives and asks for, read from the symbols of its objects (ELF of 64 bits, least byte
//! first).

use std::collections::BTreeSet;
use std::fs;

const HEADER: &str = include_str!("../../../../include/wadroles.h");

/// A global symbol, and whether the archive has it. Otherwise it asks for it.
type Symbol = (String, bool);

fn number(bytes: &[u8], at: usize, length: usize) -> usize {
    let bytes = &bytes[at..at + length];
    bytes.iter().rev().fold(0, |n, &b| n << 8 | usize::from(b))
}

/// The objects of an archive: a header of 60 bytes before each member, its length in digits at 48, and
/// members begin at even places.
fn objects(archive: &[u8]) -> Vec<&[u8]> {
    assert!(archive.starts_with(b"!<arch>\n"), "no archive");
    let (mut members, mut at) = (Vec::new(), 8);
    while at < archive.len() {
        let digits = std::str::from_utf8(&archive[at + 48..at + 58]).unwrap();
        let length: usize = digits.trim_end().parse().unwrap();
        let start = at + 60;
        members.push(&archive[start..start + length]);
        at = (start + length).next_multiple_of(2);
    }
    members.retain(|member| member.starts_with(b"\x7FELF"));
    members
}

/// The global symbols of an object.
fn symbols(object: &[u8]) -> Vec<Symbol> {
    let section = |i: usize| number(object, 0x28, 8) + i * number(object, 0x3A, 2);
    let content = |i: usize| {
        let (start, length) = (
            number(object, section(i) + 0x18, 8),
            number(object, section(i) + 0x20, 8),
        );
        &object[start..start + length]
    };
    let mut symbols = Vec::new();
    for i in 0..number(object, 0x3C, 2) {
        if number(object, section(i) + 4, 4) != 2 {
            continue; // no table of symbols
        }
        let names = content(number(object, section(i) + 0x28, 4));
        for symbol in content(i).chunks_exact(24) {
            let name = names[number(symbol, 0, 4)..].split(|&b| b == 0).next();
            let name = String::from_utf8(name.unwrap().to_vec()).unwrap();
            if symbol[4] >> 4 != 0 {
                symbols.push((name, number(symbol, 6, 2) != 0));
            }
        }
    }
    symbols
}

/// Names of the symbols that the archive has, or of those that it asks for.
fn names(defined: bool) -> BTreeSet<String> {
    let archive = fs::read(env!("WADROLES_ARCHIVE")).unwrap();
    let all = objects(&archive).into_iter().flat_map(symbols);
    all.filter(|symbol| symbol.1 == defined)
        .map(|symbol| symbol.0)
        .collect()
}

#[test]
fn the_archive_asks_for_memset_alone() {
    let given = names(true);
    let mut asked = names(false);
    asked.retain(|name| !given.contains(name));
    assert_eq!(asked, BTreeSet::from(["memset".to_owned()]));
}

#[test]
fn the_archive_gives_the_functions_of_the_header() {
    let given = names(true);
    let declared = HEADER.lines().filter_map(|line| {
        let (name, _) = line.strip_prefix("uint32_t ")?.split_once('(')?;
        Some(name.to_owned())
    });
    assert_eq!(given, declared.collect());
}
