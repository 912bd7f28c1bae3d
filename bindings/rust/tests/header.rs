//! src/sys.rs declares what include/logbuffer.h declares: the same functions with the same parameters, the same structs with the same
//! fields, in the same order. Both are read as text and brought into one form, `name(parameter: type, ..) -> type`.

use std::collections::BTreeSet;

const C: &str = include_str!("../../../include/logbuffer.h");
const RUST: &str = include_str!("../src/sys.rs");

/// Without comments of both languages, preprocessor lines and attributes; white space runs as one blank.
fn stripped(text: &str) -> String {
    let mut rest = text;
    let mut kept = String::new();
    while let Some(start) = rest.find("/*") {
        kept += &rest[..start];
        rest = &rest[start + rest[start..].find("*/").unwrap() + 2..];
    }
    kept += rest;
    let lines = kept.lines().map(|line| line.split("//").next().unwrap().trim());
    lines.filter(|line| !line.starts_with('#')).flat_map(str::split_whitespace).collect::<Vec<_>>().join(" ")
}

/// A C declaration as a Rust one: `const uint8_t *log` is `log: In`, a pointer to a struct is a reference, `int64_t tails[3]` is `tails: [i64; 3]`.
fn declaration(c: &str) -> String {
    let (kind, name) = c.trim().rsplit_once([' ', '*']).unwrap();
    let kind = match c.contains('*') {
        true if kind.starts_with("const struct") => format!("&{}", rust_type(kind.trim_start_matches("const "))),
        true if kind.starts_with("struct") => format!("&mut {}", rust_type(kind)),
        true if kind.starts_with("const") => "In".to_string(),
        true if kind.starts_with("int32_t") => "Entries".to_string(),
        true if kind.starts_with("size_t") => "Numbers".to_string(),
        true => "Out".to_string(),
        false => rust_type(kind),
    };
    match name.split_once('[') {
        Some((name, count)) => format!("{name}: [{kind}; {}]", count.trim_end_matches(']')),
        None => format!("{name}: {kind}"),
    }
}

/// `struct logbuffer_offer_reply` is `OfferReply`.
fn rust_type(c: &str) -> String {
    match c.trim() {
        "size_t" => "usize".to_string(),
        "bool" => "bool".to_string(),
        "void" => "()".to_string(),
        number if number.ends_with("_t") => number.trim_end_matches("_t").replace("uint", "u").replace("int", "i"),
        name => {
            let words = name.trim_start_matches("struct logbuffer_").split('_');
            words.map(|word| word[..1].to_uppercase() + &word[1..]).collect()
        }
    }
}

fn joined(parts: &str, separator: char, each: impl Fn(&str) -> String) -> String {
    let parts = parts.split(separator).map(str::trim).filter(|part| !part.is_empty() && *part != "void");
    parts.map(each).collect::<Vec<_>>().join(", ")
}

/// What the header declares of the archive: up to what it has in C alone, and without the mark of an answer.
fn declared() -> String {
    stripped(C).split("static inline").next().unwrap().replace("LOGBUFFER_ANSWER ", "")
}

fn c_functions() -> BTreeSet<String> {
    let text = declared();
    let prototypes = text.split([';', '{', '}']).filter(|part| part.contains('('));
    let form = |prototype: &str| {
        let (head, parameters) = prototype.trim_end_matches(')').split_once('(').unwrap();
        let (answer, name) = head.trim().rsplit_once(' ').unwrap();
        format!("{name}({}) -> {}", joined(parameters, ',', declaration), rust_type(answer))
    };
    prototypes.map(form).collect()
}

fn rust_functions() -> BTreeSet<String> {
    let text = stripped(RUST);
    let prototypes = text.split("fn ").filter(|part| part.starts_with("logbuffer_"));
    let form = |prototype: &str| {
        let (name, rest) = prototype.split_once('(').unwrap();
        let (parameters, rest) = rest.split_once(')').unwrap();
        let answer = rest.split(';').next().unwrap().trim_start_matches(" -> ");
        let answer = if answer.is_empty() { "()" } else { answer };
        format!("{name}({}) -> {answer}", joined(parameters, ',', str::to_string))
    };
    prototypes.map(form).collect()
}

fn c_structs() -> BTreeSet<String> {
    let text = declared();
    let definitions = text.split('}').filter_map(|part| part.rsplit_once(" { ")).filter(|(head, _)| head.contains("struct "));
    let form = |(head, fields): (&str, &str)| {
        let name = &head[head.rfind("struct ").unwrap()..];
        format!("{} {{ {} }}", rust_type(name), joined(fields, ';', declaration))
    };
    definitions.map(form).collect()
}

/// Each struct of C, looked for in the text of sys.rs.
#[test]
fn structs_are_those_of_the_header() {
    let text = stripped(RUST).replace("pub struct ", "").replace("pub ", "").replace(", }", " }");
    let structs = c_structs();
    assert_eq!(structs.len(), 35);
    for declared in structs {
        assert!(text.contains(&declared), "not in sys.rs: {declared}");
    }
}

#[test]
fn functions_are_those_of_the_header() {
    let (c, rust) = (c_functions(), rust_functions());
    assert_eq!(c.difference(&rust).collect::<Vec<_>>(), Vec::<&String>::new(), "in the header alone");
    assert_eq!(rust.difference(&c).collect::<Vec<_>>(), Vec::<&String>::new(), "in sys.rs alone");
    assert_eq!(c.len(), 60);
}
