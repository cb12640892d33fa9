//! Holds sys.rs to include/himzolven.h. Both are read as text and brought to the same lines, an item a line.

use crate::refusal::Refusal;

const HEADER: &str = include_str!("../../../include/himzolven.h");
const RUST: &str = include_str!("../sys.rs");

/// The text between two marks, and the rest after the second; the first mark stands at the start.
fn between<'t>(text: &'t str, open: &str, close: &str) -> Option<(&'t str, &'t str)> {
    text.strip_prefix(open)?.split_once(close)
}

/// The pieces of a list, without what is empty.
fn pieces(list: &str, by: char) -> impl Iterator<Item = &str> {
    list.split(by).map(str::trim).filter(|piece| !piece.is_empty())
}

/// Words joined by single blanks.
fn joined<'t>(words: impl Iterator<Item = &'t str>) -> String {
    words.collect::<Vec<_>>().join(" ")
}

/// A name of the header's types in Rust's form: himzolven_sizes_answer is SizesAnswer.
fn camel(name: &str) -> String {
    let capital = |word: &str| word[..1].to_uppercase() + &word[1..].to_lowercase();
    name.trim_start_matches("himzolven_").split('_').map(capital).collect()
}

/// A parameter or a field of C, `const uint8_t *array`, as Rust says it.
fn rust_of(declared: &str) -> String {
    let spaced = declared.replace('*', " * ");
    let words: Vec<&str> = spaced.split_whitespace().collect();
    let number = |c: &str| match c {
        "uint8_t" => "u8",
        "uint16_t" => "u16",
        "uint32_t" => "u32",
        "uint64_t" => "u64",
        "size_t" => "usize",
        _ => panic!("the header has the type {c}"),
    };
    match words[..] {
        ["const", c, "*", name] => format!("{name}: *const {}", number(c)),
        [c, "*", name] => format!("{name}: *mut {}", number(c)),
        [c, name] => format!("{name}: {}", number(c)),
        _ => panic!("the header declares {declared}"),
    }
}

fn rust_list(list: &str, by: char) -> String {
    pieces(list, by).map(rust_of).collect::<Vec<_>>().join(", ")
}

/// Without comments, lines for the preprocessor and what is for C++ alone.
fn plain(header: &str) -> String {
    let (mut text, mut rest) = (String::new(), header);
    while let Some((before, after)) = rest.split_once("/*") {
        text += before;
        rest = after.split_once("*/").expect("a comment ends").1;
    }
    text += rest;
    let declares = |line: &&str| !line.starts_with('#') && !["extern \"C\" {", "}"].contains(line);
    joined(text.lines().filter(declares).flat_map(str::split_whitespace))
}

/// The items of the header: its enums' numbers, its structs and its functions.
fn of_header(header: &str) -> Vec<String> {
    let text = plain(header);
    let (mut rest, mut items) = (text.as_str(), Vec::new());
    while !rest.is_empty() {
        if let Some((body, after)) = between(rest, "enum ", "};") {
            let numbers = pieces(body.split_once('{').expect("an enum has a body").1, ',');
            items.extend(numbers.map(|number| number.replace("HIMZOLVEN_", "const ")));
            rest = after;
        } else if let Some((fields, after)) = between(rest, "typedef struct {", "}") {
            let (name, after) = after.split_once(';').expect("a struct has a name");
            items.push(format!("#[repr(C)] struct {} {{ {} }}", camel(name.trim()), rust_list(fields, ';')));
            rest = after;
        } else {
            let (function, after) = rest.split_once(");").expect("what is left are functions");
            let (name, parameters) = function.split_once('(').expect("a function has parameters");
            let (answer, name) = name.split_once(' ').expect("a function has an answer");
            items.push(format!("fn {name}({}) -> {}", rust_list(parameters, ','), camel(answer)));
            rest = after;
        }
        rest = rest.trim_start();
    }
    items
}

/// The items of sys.rs, in the same form.
fn of_rust(source: &str) -> Vec<String> {
    let text = joined(source.lines().filter(|line| !line.starts_with("//")).flat_map(str::split_whitespace));
    let text = text.replace("( ", "(").replace(", )", ")").replace(", }", " }");
    let mut items = Vec::new();
    for (at, _) in text.match_indices("pub ") {
        let item = &text[at + "pub ".len()..];
        let upto = |end: &str| item.split_once(end).map_or(item, |(item, _)| item);
        if item.starts_with("const ") {
            items.push(upto(";").replace(": u32 =", " ="));
        } else if item.starts_with("struct ") {
            let layout = if text[..at].ends_with("#[repr(C)] ") { "#[repr(C)] " } else { "" };
            items.push(format!("{layout}{} }}", upto(" }").replace("pub ", "")));
        } else if item.starts_with("fn ") {
            items.push(upto(";").into());
        }
    }
    items
}

#[test]
fn the_declarations_are_those_of_the_header() {
    let (header, rust) = (of_header(HEADER), of_rust(RUST));
    header.iter().zip(&rust).for_each(|(header, rust)| assert_eq!(header, rust));
    assert_eq!(header.len(), rust.len());
}

/// Copies of sys.rs with one fault each: another type or number, a line exchanged with the next, or a line left out.
fn faulty() -> Vec<String> {
    let types = [("u32", "u64"), ("u64", "u32"), ("u16", "u8"), ("u8", "u16"), ("usize", "u32")];
    let pointers = [("*const", "*mut"), ("*mut", "*const"), ("Answer", "CountAnswer"), ("himzolven_", "himzolven_x")];
    let numbers = [(" = 1", " = 2"), (" = 0", " = 3")];
    let mut copies = Vec::new();
    for (right, wrong) in types.into_iter().chain(pointers).chain(numbers) {
        let outside = |at: &usize| !RUST[..*at].lines().next_back().is_some_and(|line| line.starts_with("//"));
        let places = RUST.match_indices(right).map(|(at, _)| at).filter(outside);
        copies.extend(places.map(|at| [&RUST[..at], wrong, &RUST[at + right.len()..]].concat()));
    }
    let lines: Vec<&str> = RUST.lines().collect();
    let item = |line: &str| line.ends_with(',') || line.starts_with("pub const") || line == "#[repr(C)]";
    for at in (0..lines.len()).filter(|at| item(lines[*at])) {
        let mut without = lines.clone();
        let line = without.remove(at);
        copies.push(without.join("\n"));
        if item(lines[at + 1]) {
            without.insert(at + 1, line);
            copies.push(without.join("\n"));
        }
    }
    copies
}

#[test]
fn every_fault_in_a_copy_is_found() {
    let (header, copies) = (of_header(HEADER), faulty());
    assert_eq!(header, of_rust(RUST));
    for copy in &copies {
        let differs = |(this, that): &(&str, &str)| this != that;
        let line = RUST.lines().zip(copy.lines()).find(differs);
        assert_ne!(header, of_rust(copy), "not found, from the lines {line:?} on");
    }
    println!("{} faults in copies of sys.rs, each found", copies.len());
    assert!(copies.len() > RUST.lines().count());
}

#[test]
fn the_version_is_that_of_the_header() {
    let number = |name: &str| {
        let line = HEADER.lines().find_map(|line| line.strip_prefix(&format!("#define HIMZOLVEN_VERSION_{name} ")));
        line.expect("the header has each number of its version").to_string()
    };
    assert_eq!(["MAJOR", "MINOR", "PATCH"].map(number).join("."), env!("CARGO_PKG_VERSION"));
}

/// Each of the header's refusals is the variant of that name and number, and has a place where the header's comment names one.
#[test]
fn the_refusals_are_those_of_the_header() {
    let (_, refusals) = HEADER.split_once("HIMZOLVEN_ACCEPTED = 0,").expect("the refusals");
    let (refusals, _) = refusals.split_once("};").expect("their end");
    let entries: Vec<&str> = refusals.split("HIMZOLVEN_").skip(1).collect();
    for entry in &entries {
        let (name, comment) = entry.split_once("/*").expect("each has its comment");
        let (name, number) = name.split_once(" = ").expect("each has its number");
        let number = number.trim().trim_end_matches(',').parse().expect("a number");
        let refusal = Refusal::told(number, 11, 7).expect_err("a refusal");
        assert_eq!(format!("{refusal:?}").split([' ', '{']).next(), Some(camel(name).as_str()));
        assert_eq!((refusal.number(), refusal.place()), (number, if comment.contains("place:") { 11 } else { 0 }));
        assert!(refusal.to_string().starts_with(&format!("refusal {number}: ")));
    }
    assert_eq!(entries.len(), 14);
}
