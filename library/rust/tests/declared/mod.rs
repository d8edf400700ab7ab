//! Reads declarations of structs and functions from the texts of C, Rust and Rattle.
use crate::texts::snake;

/// What is declared: structs with their fields, and functions with their parameters and what they give
/// back, each as a name and a type in the words of Rust.
#[derive(Debug, Default, PartialEq, Eq)]
pub struct Declared {
    pub structs: Vec<Vec<(String, String)>>,
    pub functions: Vec<Vec<(String, String)>>,
}

impl Declared {
    pub fn sorted(mut self) -> Self {
        self.structs.sort();
        self.functions.sort();
        self
    }
}

/// The text between two others, and what is behind it.
fn between<'a>(text: &'a str, first: &str, last: &str) -> Option<(&'a str, &'a str)> {
    text.split_once(first)?.1.split_once(last)
}

/// The parts of a list, without empty ones.
fn parts(list: &str, by: char) -> impl Iterator<Item = &str> {
    list.split(by)
        .map(str::trim)
        .filter(|part| !part.is_empty())
}

fn pair(name: &str, kind: String) -> (String, String) {
    (name.to_string(), kind)
}

/// A type of C, with the star that stands at the name.
fn c_pair(declaration: &str) -> (String, String) {
    let (kind, name) = declaration.rsplit_once(' ').expect("a type and a name");
    let number = match kind.trim_start_matches("const ") {
        "uint64_t" => "u64",
        "uint32_t" => "u32",
        "uint8_t" => "u8",
        "size_t" => "usize",
        other => other.strip_prefix("damselbuckle_").expect("a known type"),
    };
    let star = match (name.starts_with('*'), kind.starts_with("const ")) {
        (true, true) => "*const ",
        (true, false) => "*mut ",
        (false, constant) => {
            assert!(!constant, "{declaration}");
            ""
        }
    };
    pair(name.trim_start_matches('*'), format!("{star}{number}"))
}

pub fn in_c(header: &str) -> Declared {
    let mut text = String::new();
    let mut rest = header;
    while let Some((before, behind)) = rest.split_once("/*") {
        text += before;
        rest = behind.split_once("*/").expect("a comment ends").1;
    }
    text += rest;
    let mut declared = Declared::default();
    let mut rest = &text[..];
    while let Some((name, behind)) = between(rest, "typedef struct ", " {") {
        let (fields, behind) = behind.split_once('}').expect("a struct ends");
        let mut of_struct = vec![pair(&name.replace("damselbuckle_", ""), String::new())];
        of_struct.extend(parts(fields, ';').map(c_pair));
        declared.structs.push(of_struct);
        rest = behind;
    }
    for piece in parts(rest, ';').filter(|piece| piece.contains('(')) {
        let (head, parameters) = piece.split_once('(').expect("it was there");
        let head = head.lines().last().expect("a line");
        let (name, answer) = c_pair(head.trim());
        let mut of_function = vec![pair(&name, answer)];
        let parameters = parameters.trim_end_matches(')');
        of_function.extend(parts(parameters, ',').map(c_pair));
        declared.functions.push(of_function);
    }
    declared.sorted()
}

/// The text without comments.
fn bare(text: &str) -> String {
    let lines = text.lines().map(|l| l.split("//").next().unwrap_or(""));
    lines.collect::<Vec<_>>().join("\n")
}

/// A name and a type of Rust or of Rattle: a slice is a pointer and a length.
fn rust_pairs(declaration: &str) -> Vec<(String, String)> {
    let (name, kind) = declaration.split_once(": ").expect("a name and a type");
    let name = name.trim_start_matches("pub ");
    let kind = match kind.strip_prefix("&'") {
        Some(named) => format!("&{}", named.split_once(' ').expect("a lifetime").1),
        None => kind.to_string(),
    };
    let (star, of) = if let Some(of) = kind.strip_prefix("&mut ") {
        ("*mut ", of)
    } else if let Some(of) = kind.strip_prefix('&') {
        ("*const ", of)
    } else if let Some(of) = kind.strip_prefix("*mut ") {
        ("*mut ", of)
    } else if let Some(of) = kind.strip_prefix("*const ") {
        ("*const ", of)
    } else {
        ("", &kind[..])
    };
    match of.strip_prefix('[') {
        None => vec![pair(name, format!("{star}{}", snake(of)))],
        Some(of) => vec![
            pair(name, format!("{star}{}", of.trim_end_matches(']'))),
            pair(&format!("{name}_len"), "usize".to_string()),
        ],
    }
}

/// The structs with the layout of C, and the functions whose line begins so.
pub fn in_rust(text: &str, function: &str, last: char) -> Declared {
    let text = bare(text);
    let mut declared = Declared::default();
    for piece in text.split("#[repr(C)]").skip(1) {
        let (name, behind) = between(piece, "pub struct ", " {").expect("a struct");
        let fields = behind.split_once('}').expect("a struct ends").0;
        let mut of_struct = vec![pair(&snake(name), String::new())];
        of_struct.extend(parts(fields, ',').flat_map(rust_pairs));
        declared.structs.push(of_struct);
    }
    for piece in text.split(function).skip(1) {
        let (head, behind) = piece.split_once('(').expect("parameters");
        let (parameters, behind) = behind.split_once(") -> ").expect("a result");
        let answer = behind.split(last).next().expect("a result").trim();
        let name = head.split('<').next().expect("a name");
        let mut of_function = vec![pair(name, snake(answer))];
        of_function.extend(parts(parameters, ',').flat_map(rust_pairs));
        declared.functions.push(of_function);
    }
    declared.sorted()
}
