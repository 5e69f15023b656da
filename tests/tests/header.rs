//! The functions that the tests call are all functions of the verified library, with the arguments that include/edf.h gives them; the
//! description has the members, and the numbers of origins, of units, of the error that only reals have and of the longest listing are those,
//! that include/edf.h gives.

use std::collections::{BTreeMap, BTreeSet};
use std::fs;

/// The types of a function's arguments and of its answer, by its name.
type Signatures = BTreeMap<String, Vec<String>>;

fn read(path: &str) -> String {
    fs::read_to_string(format!("{}/{path}", env!("CARGO_MANIFEST_DIR"))).unwrap()
}

/// A declaration without its `;`: what stands before the arguments, and the arguments.
fn parts(declaration: &str) -> Option<(&str, Vec<&str>)> {
    let (before, rest) = declaration.split_once('(')?;
    let arguments = rest.split_once(')')?.0.split(',').map(str::trim).filter(|argument| !argument.is_empty());
    Some((before.trim(), arguments.collect()))
}

/// A C type, `const uint8_t *` for one, as Rust has it.
fn rust_type(c: &str) -> String {
    let number = c.trim_start_matches("const ").trim_end_matches('*').trim();
    let number = match number {
        "size_t" => "usize",
        "float" => "f32",
        "double" => "f64",
        _ => &number.trim_end_matches("_t").replace("uint", "u").replace("int", "i"),
    };
    match (c.starts_with("const "), c.ends_with('*')) {
        (true, _) => format!("*const {number}"),
        (false, true) => format!("*mut {number}"),
        (false, false) => number.to_string(),
    }
}

/// The type before a name.
fn typed(c: &str) -> (&str, &str) {
    let name = c.rfind([' ', '*', '\n']).map_or(0, |place| place + 1);
    (c[..name].trim(), &c[name..])
}

fn of_header(text: &str) -> Signatures {
    let code = without_comments(text);
    let declarations = code.split(';').filter_map(parts).filter(|(before, _)| before.contains("edf_"));
    let signature = |(before, arguments): (&str, Vec<&str>)| {
        let (answer, name) = typed(before);
        let types = arguments.iter().map(|argument| rust_type(typed(argument).0)).chain([rust_type(answer)]);
        (name.to_string(), types.collect())
    };
    declarations.map(signature).collect()
}

fn of_tests(text: &str) -> Signatures {
    let block = text.split_once("extern \"C\" {").unwrap().1.split_once("\n}\n").unwrap().0;
    let signature = |declaration: &str| {
        let (before, arguments) = parts(declaration)?;
        let answer = declaration.split_once("->")?.1.trim();
        let types = arguments.iter().filter_map(|argument| argument.split_once(": ")).map(|(_, kind)| kind);
        Some((before.strip_prefix("fn ")?.to_string(), types.chain([answer]).map(str::to_string).collect()))
    };
    block.split(';').filter_map(signature).collect()
}

/// A C text without its comments.
fn without_comments(text: &str) -> String {
    text.split("/*").map(|piece| piece.split_once("*/").map_or(piece, |(_, code)| code)).collect()
}

/// The members of a structure of edf.h, in order, with their types.
fn members_in_header(text: &str, name: &str) -> Vec<String> {
    let code = without_comments(text);
    let body = code.split_once(&format!("}} {name};")).unwrap().0.rsplit_once('{').unwrap().1;
    let declared = body.split(';').map(str::trim).filter_map(|declaration| declaration.split_once(' '));
    declared.flat_map(|(kind, names)| names.split(',').map(move |member| format!("{}: {}", member.trim(), rust_type(kind)))).collect()
}

/// The same, as the tests declare them.
fn members_in_tests(text: &str, name: &str) -> Vec<String> {
    let body = text.split_once(&format!("struct {name} {{")).unwrap().1.split_once('}').unwrap().0;
    body.split(',').map(str::trim).filter(|member| !member.is_empty()).map(str::to_string).collect()
}

/// The source of the library for C, all files of it.
fn source() -> String {
    let folder = format!("{}/../crates/edf_c/src", env!("CARGO_MANIFEST_DIR"));
    fs::read_dir(folder).unwrap().map(|entry| fs::read_to_string(entry.unwrap().path()).unwrap()).collect()
}

/// The names of the functions that the library for C exports; edf.h has some more, which are not of the verified library.
fn exported(text: &str) -> BTreeSet<String> {
    let names = text.split("pub extern \"C\" fn ").skip(1).filter_map(|rest| rest.split_once('('));
    names.map(|(name, _)| name.to_string()).collect()
}

#[test]
fn the_same_functions() {
    let library = exported(&source());
    let mut header = of_header(&read("../include/edf.h"));
    header.retain(|name, _| library.contains(name));
    println!("{header:?}");
    assert_eq!(header.keys().cloned().collect::<BTreeSet<_>>(), library);
    assert_eq!(header, of_tests(&read("src/library.rs")));
    assert!(header.len() >= 10);
    assert_eq!(header["edf_find"], ["*const u8", "usize", "usize", "*const u8", "usize", "*mut usize", "*mut usize", "*mut usize", "u8"]);
    assert_eq!(header["edf_real"], ["*const u8", "usize", "usize", "*const u8", "usize", "*mut u8", "*mut f64", "*mut usize", "u8"]);
}

#[test]
fn the_same_description() {
    let (header, tests) = (read("../include/edf.h"), read("src/library.rs"));
    for (name, count) in [("edf_description", 11), ("edf_origins", 7)] {
        let members = members_in_header(&header, name);
        assert_eq!(members, members_in_tests(&tests, name));
        assert_eq!(members.len(), count);
    }
}

#[test]
fn the_same_numbers() {
    let header = without_comments(&read("../include/edf.h"));
    let numbers = [
        ("EDF_ORIGIN_OWN", 1), ("EDF_ORIGIN_GENERAL", 2), ("EDF_ORIGIN_DEFAULT", 3), ("EDF_UNIT_NONE", 0), ("EDF_UNIT_METRES", 1),
        ("EDF_UNIT_DEGREES", 2), ("EDF_UNIT_RADIANS", 3), ("EDF_OUT_OF_BOUNDS", 27), ("EDF_LIST_CAPACITY", 28 + 300 * 256),
    ];
    for (name, number) in numbers {
        let given = header.split([',', '{', '}']).map(str::trim).find_map(|part| part.strip_prefix(name)?.strip_prefix(" = "));
        assert_eq!(given, Some(number.to_string().as_str()), "{name}");
    }
}
