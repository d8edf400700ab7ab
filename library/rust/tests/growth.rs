//! What is to come breaks no caller: public enums, and public structs with public fields, are marked as ones
//! that may grow, and nothing public has an array of a fixed length.

const SOURCES: [&str; 5] = [
    include_str!("../src/engine.rs"),
    include_str!("../src/lib.rs"),
    include_str!("../src/polynomials.rs"),
    include_str!("../src/raw.rs"),
    include_str!("../src/refusal.rs"),
];

/// The answers of the C functions are as the header has them.
fn is_of_c(name: &str) -> bool {
    name.ends_with("Answer")
}

/// A public type: what stands before it, its name, and whether it is an enum or has a public field.
struct Type<'a> {
    before: &'a str,
    name: &'a str,
    is_open: bool,
}

/// The types that a source declares as public.
fn types(source: &str) -> impl Iterator<Item = Type<'_>> {
    let items = source.match_indices("\npub ").map(|(at, _)| at + 1);
    items.filter_map(|at| {
        let (kind, declared) = source[at..].strip_prefix("pub ")?.split_once(' ')?;
        let (name, body) = declared.split_once(" {")?;
        let body = body.split("\n}").next()?;
        let is_open = match kind {
            "enum" => true,
            "struct" => body.contains("\n    pub "),
            _ => return None,
        };
        Some(Type {
            before: source[..at].rsplit("\n\n").next()?,
            name: name.split('<').next()?,
            is_open,
        })
    })
}

#[test]
fn types_may_grow() {
    let mut marked = Vec::new();
    for found in SOURCES.into_iter().flat_map(types) {
        if found.is_open && !is_of_c(found.name) {
            let is_marked = found.before.contains("#[non_exhaustive]\n");
            assert!(is_marked, "{} may not grow", found.name);
            marked.push(found.name);
        }
    }
    assert_eq!(marked.len(), 13, "{marked:?}");
}

#[test]
fn no_public_array_has_a_fixed_length() {
    for source in SOURCES {
        let code = source.lines().filter(|l| !l.trim_start().starts_with("//"));
        let code: String = code.map(|l| format!("{l}\n")).collect();
        for item in code.split("pub ").skip(1) {
            let item = item.split(['{', '=']).next().expect("a declaration");
            let item = item.split(";\n").next().expect("a declaration");
            assert!(!item.contains("; "), "pub {item}");
        }
    }
}
