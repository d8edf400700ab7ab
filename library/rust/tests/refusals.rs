//! library/refusals.txt against all that has its rows: the enum and the table of Rattle, the header, the
//! wrapper and docs/INTEGRATION.md. A row too many or too few, in the file or in one of them, is found.
mod texts;

use damselbuckle::{Engine, Order, Polynomials, Refusal, Setting};
use std::collections::BTreeSet;
use std::process::Command;
use texts::{defined, root, snake, text, with_commas};

/// A row of the file, with the numbers of the limits put into its meaning.
#[derive(Clone, Debug, PartialEq, Eq)]
struct Row {
    number: u64,
    name: String,
    given_by: String,
    leaves: String,
    meaning: String,
}

fn rows() -> Vec<Row> {
    let header = text("library/damselbuckle.h");
    let file = text("library/refusals.txt");
    let lines = file
        .lines()
        .filter(|l| !l.is_empty() && !l.starts_with('#'));
    let row = |line: &str| {
        let cells: Vec<&str> = line.split('|').map(str::trim).collect();
        let [number, name, given_by, leaves, meaning] = cells[..] else {
            panic!("not five cells: {line}");
        };
        Row {
            number: number.parse().expect("a number"),
            name: name.to_string(),
            given_by: given_by.to_string(),
            leaves: leaves.to_string(),
            meaning: with_limits(meaning, &header),
        }
    };
    let rows: Vec<Row> = lines.map(row).collect();
    assert!(rows.windows(2).all(|two| two[0].number < two[1].number));
    rows
}

/// The text with the header's number for each `{NAME}`.
fn with_limits(meaning: &str, header: &str) -> String {
    let limits = defined(header).into_iter();
    limits.fold(meaning.to_string(), |text, (name, number)| {
        text.replace(&format!("{{{name}}}"), &with_commas(number))
    })
}

/// What lies between the marked lines.
fn made(path: &str) -> String {
    let mark = "made from refusals.txt by make_refusals: ";
    let text = text(path);
    let parts: Vec<&str> = text.split(mark).collect();
    let [_, part, last] = parts[..] else {
        panic!("{path}: the marked lines stand there once");
    };
    assert!(part.starts_with("begin") && last.starts_with("end"));
    let lines: Vec<&str> = part.lines().collect();
    lines[1..lines.len() - 1].join("\n")
}

fn named(rows: &[Row]) -> BTreeSet<(String, u64)> {
    rows.iter().map(|r| (r.name.clone(), r.number)).collect()
}

#[test]
fn rattle_has_the_rows() {
    let rows = named(&rows());
    let table = text("crates/refusal/specs/Table.antt");
    let lines = table.lines().filter_map(|l| l.strip_prefix("number_of "));
    let pairs = lines.filter_map(|l| l.split_once(" = "));
    let pairs = pairs.map(|(name, n)| (name.to_string(), n.parse().expect("a number")));
    assert_eq!(pairs.collect::<BTreeSet<_>>(), rows);
    let code = text("crates/refusal/src/lib.rt");
    let (_, behind) = code.split_once("pub enum Refusal {").expect("the enum");
    let variants = behind.split_once('}').expect("it ends").0.lines();
    let variants = variants.map(|l| l.split("//").next().unwrap_or("").trim());
    let variants = variants.filter_map(|l| l.strip_suffix(','));
    let variants = variants.filter_map(|l| l.split_once(" = "));
    let variants = variants.map(|(name, n)| (name.to_string(), n.parse().expect("a number")));
    assert_eq!(variants.collect::<BTreeSet<_>>(), rows);
}

#[test]
fn the_wrapper_has_the_rows() {
    let own = Refusal::ALL.iter().map(|r| {
        let (name, meaning) = (format!("{r:?}"), r.meaning().to_string());
        (r.number(), name, meaning, r.stops())
    });
    let own: Vec<_> = own.collect();
    let rows = rows().into_iter();
    let rows = rows.map(|r| (r.number, r.name, r.meaning, r.leaves.starts_with("stopped")));
    assert_eq!(own, rows.collect::<Vec<_>>());
    for number in 0..1_000 {
        let named = own.iter().find(|row| row.0 == number).map(|row| &row.1);
        let found = Refusal::from_number(number).map(|r| format!("{r:?}"));
        assert_eq!(found.as_ref(), named);
    }
}

/// A refusal says its number, how much was finished and its meaning; and its place, where it has one.
#[test]
fn refusals_are_said() {
    let setting = Setting::new(7, Order::Lex, 1).expect("a setting");
    let mut polynomials = Polynomials::new(setting);
    polynomials
        .push(&[(1, [2]), (1, [1]), (1, [0])])
        .expect("one exponent");
    let said = |polynomials: &Polynomials| -> Box<dyn std::error::Error> {
        Box::new(
            Engine::new(2)
                .reduce(polynomials, 9)
                .expect_err("a refusal"),
        )
    };
    let no_output = format!("refused 10 after 2: {}", Refusal::NoOutput);
    assert_eq!(said(&polynomials).to_string(), no_output);
    polynomials.push::<[u8; 1]>(&[]).expect("zero");
    let zero = format!("refused 7 after 0: {} (polynomial 1)", Refusal::ZeroDivisor);
    assert_eq!(said(&polynomials).to_string(), zero);
    polynomials
        .push(&[(1, [2]), (7, [1])])
        .expect("one exponent");
    let bad = Refusal::BadCoefficient;
    let bad = format!("refused 4 after 0: {bad} (polynomial 2, term 1)");
    assert_eq!(said(&polynomials).to_string(), bad);
}

/// What each call gives, as the header says it.
fn by_call(rows: &[Row]) -> String {
    let mut calls: Vec<&str> = Vec::new();
    for call in rows.iter().flat_map(|r| r.given_by.split(", ")) {
        if !calls.contains(&call) {
            calls.push(call);
        }
    }
    let line = |call: &str| {
        let gives = |r: &&Row| r.given_by.split(", ").any(|c| c == call);
        let numbers: Vec<String> = rows
            .iter()
            .filter(gives)
            .map(|r| r.number.to_string())
            .collect();
        format!(" {call}: {}", numbers.join(", "))
    };
    calls.into_iter().map(line).collect()
}

#[test]
fn the_header_has_the_rows() {
    let rows = rows();
    // Comments and definitions in turn; the lines of a comment put together.
    let part = made("library/damselbuckle.h").replace("\n * ", " ");
    let mut expected = vec![format!("/* What each call gives{} */", by_call(&rows))];
    for r in &rows {
        let name = snake(&r.name).to_uppercase();
        expected.push(format!("/* {}. After it: {}. */", r.meaning, r.leaves));
        expected.push(format!("#define DAMSELBUCKLE_{name} {}", r.number));
    }
    let (table, function) = part.split_at(part.find("/* The text").expect("the texts"));
    assert_eq!(table.lines().collect::<Vec<_>>(), expected);
    assert_eq!(function.matches("case ").count(), 1 + rows.len());
}

#[test]
fn the_guide_has_the_rows() {
    let part = made("docs/INTEGRATION.md");
    let lines = part.lines().skip(2).map(str::to_string);
    let rows = rows().into_iter().map(|r| {
        format!(
            "| {} | `{}` | {} | {} | {} |",
            r.number, r.name, r.meaning, r.given_by, r.leaves
        )
    });
    assert_eq!(lines.collect::<Vec<_>>(), rows.collect::<Vec<_>>());
}

/// Where Python is installed. The tests above do without it.
#[test]
fn nothing_is_to_be_made_again() {
    let checked = Command::new("python3")
        .args(["library/make_refusals", "--check"])
        .current_dir(root())
        .output();
    match checked {
        Ok(output) => {
            let differs = String::from_utf8_lossy(&output.stdout);
            assert!(output.status.success(), "{differs}");
        }
        Err(_) => println!("python3 is not there: not tried"),
    }
}
