//! The header against the declarations in Rust, those in Rattle and the library itself: the texts of
//! all three declare the same; a program in C that prints the layouts and calls everything; and the
//! example.
mod declared;
mod texts;

use damselbuckle::raw::{self, Given, Loan, Numbers, Tally};
use damselbuckle::{
    Refusal, BLOCK_BYTES, BUCKET_PLACES, LISTING_BYTES, MOST_BLOCKS, MOST_TERMS, WORK_PLACES,
};
use declared::{in_c, in_rust};
use std::collections::BTreeMap;
use std::fmt::Write;
use std::mem::{offset_of, size_of};
use std::path::Path;
use std::process::Command;
use texts::{defined, root, snake, text, with_commas};

/// Compiles a program against the header and the library as the example is built, and gives what it
/// prints.
fn printed(source: &str, name: &str) -> String {
    let program = Path::new(env!("CARGO_TARGET_TMPDIR")).join(name);
    let built = Command::new("cc")
        .args([
            "-std=c99",
            "-Wall",
            "-Wextra",
            "-Werror",
            "-pedantic",
            "-Ilibrary",
            source,
        ])
        .args(["crates/damselbuckle/out/libdamselbuckle.a", "-o"])
        .arg(&program)
        .current_dir(root())
        .output()
        .expect("cc runs");
    let errors = String::from_utf8_lossy(&built.stderr);
    assert!(built.status.success(), "{source}: {errors}");
    let run = Command::new(program).output().expect("the program runs");
    assert!(run.status.success(), "{source} ended with {}", run.status);
    String::from_utf8(run.stdout).expect("it prints text")
}

#[test]
fn the_example_prints_what_is_stored() {
    let expected = text("library/example.expected");
    assert_eq!(printed("library/example.c", "example"), expected);
}

/// A line for a struct, and one for each of its fields.
macro_rules! layout {
    ($lines:expr, $name:literal, $struct:ident { $($field:ident),* }) => {
        writeln!($lines, "damselbuckle_{} {}", $name, size_of::<raw::$struct>()).unwrap();
        $({
            let size = size_of_field(|s: &raw::$struct| s.$field);
            let at = offset_of!(raw::$struct, $field);
            writeln!($lines, "  {} {at} {size}", stringify!($field)).unwrap();
        })*
    };
}

fn size_of_field<S, F>(_: impl Fn(&S) -> F) -> usize {
    size_of::<F>()
}

fn layouts() -> String {
    let mut lines = String::new();
    layout!(
        lines,
        "tally",
        Tally {
            comparisons,
            brought,
            given,
            held
        }
    );
    layout!(
        lines,
        "run_answer",
        RunAnswer {
            refusal,
            finished,
            places
        }
    );
    layout!(
        lines,
        "reduction_answer",
        ReductionAnswer {
            refusal,
            leads,
            terms
        }
    );
    layout!(
        lines,
        "write_answer",
        WriteAnswer {
            refusal,
            finished,
            blocks
        }
    );
    layout!(
        lines,
        "read_answer",
        ReadAnswer {
            refusal,
            finished,
            p,
            order,
            n,
            weights,
            terms
        }
    );
    layout!(
        lines,
        "listing_answer",
        ListingAnswer {
            refusal,
            finished,
            length
        }
    );
    lines
}

/// The calls of `layout.c`.
fn calls() -> String {
    let x = 3 << 48 | 1 << 40;
    let (words, coefs) = (&[x, 0, x], &[1, 1, 1]);
    let numbers = Numbers::new(5, 1, 1).weighted(&[3, 1, 1, 1, 1, 1]);
    let given = Given::new(numbers, words, coefs, &[0, 2, 3]);
    let (mut ow, mut oc, mut bytes) = ([0; 9], [0; 9], [0; BLOCK_BYTES]);
    let (ran, t) = lending((&mut ow, &mut oc), |loan| {
        raw::run(given, &[1, 0, 1, 1, 3, 0], loan)
    });
    let counts = |t: Tally| [t.comparisons, t.brought, t.given, t.held];
    let mut lines = line("run", &[ran.refusal, ran.finished, ran.places], &counts(t));
    let (reduced, t) = lending((&mut ow, &mut oc), |loan| raw::reduce(given, 7, loan));
    lines += &line(
        "reduce",
        &[reduced.refusal, reduced.leads, reduced.terms],
        &counts(t),
    );
    let w = raw::write_blocks(numbers, &words[..2], &coefs[..2], &mut bytes);
    lines += &line("write_blocks", &[w.refusal, w.finished, w.blocks], &[]);
    let r = raw::read_blocks(&bytes, &mut ow, &mut oc);
    lines += &line(
        "read_blocks",
        &[r.refusal, r.finished, r.p, r.order, r.n, r.weights, r.terms],
        &[],
    );
    let l = raw::listing(b"prime 5\n", &mut vec![0; LISTING_BYTES]);
    lines + &line("listing", &[l.refusal, l.finished, l.length], &[])
}

/// What a call answers that is lent fresh spaces, and its tally.
fn lending<A>(output: raw::Places, call: impl FnOnce(Loan) -> A) -> (A, Tally) {
    let mut tally = Tally::default();
    let answer = call(Loan::new(
        &mut tally,
        (&mut [0; BUCKET_PLACES], &mut [0; BUCKET_PLACES]),
        (&mut [0; WORK_PLACES], &mut [0; WORK_PLACES]),
        output,
    ));
    (answer, tally)
}

fn line(name: &str, answer: &[u64], tally: &[u64]) -> String {
    let numbers = answer.iter().chain(tally).map(|n| format!(" {n}"));
    format!("{name}{}\n", numbers.collect::<String>())
}

/// The text of each number.
fn refusal_texts() -> String {
    let text = |number| match Refusal::from_number(number) {
        Some(refusal) => refusal.meaning(),
        None if number == 0 => "none",
        None => "unknown",
    };
    (0..100).map(|n| format!("{n} {}\n", text(n))).collect()
}

#[test]
fn layouts_and_answers_are_the_same_in_c() {
    let c = printed("library/rust/tests/layout.c", "layout");
    assert_eq!(c, layouts() + &calls() + &refusal_texts());
    assert!(c.contains("\nreduce 0 2 1 "), "x1 + 1 by x1 leaves 1");
    let read = "\nread_blocks 0 0 5 1 1 2 2\n";
    assert!(c.contains(read), "a weight of 3 is the number 2");
}

#[test]
fn header_and_rust_declare_what_rattle_exports() {
    let header = in_c(&text("library/damselbuckle.h"));
    let raw = text("library/rust/src/raw.rs");
    let (declarations, _) = raw
        .split_once("\n}\n\n/// A prime")
        .expect("the extern block ends");
    let rust = in_rust(declarations, "    pub fn ", ';');
    let mut rattle = in_rust(&text("crates/call/src/answer.rt"), "extern \"C\" fn ", '\n');
    assert_eq!(rattle.structs.len(), 1, "the tally alone");
    let answers = ["course", "store", "lister"].map(|name| format!("answers/src/{name}"));
    let exports = ["run", "reduction", "store", "lister"];
    let exports = exports.map(|name| format!("damselbuckle/src/{name}"));
    for path in answers.iter().chain(&exports) {
        let more = in_rust(
            &text(&format!("crates/{path}.rt")),
            "pub extern \"C\" fn ",
            '\n',
        );
        rattle.structs.extend(more.structs);
        rattle.functions.extend(more.functions);
    }
    let rattle = rattle.sorted();
    assert_eq!((rattle.structs.len(), rattle.functions.len()), (6, 5));
    assert_eq!(header, rattle);
    assert_eq!(rust, rattle);
}

/// The constants of a text in Rust or in Rattle: name, type and number.
fn constants(text: &str) -> BTreeMap<&str, (&str, u64)> {
    let lines = text.lines().filter_map(|l| l.strip_prefix("pub const "));
    let pairs = lines.filter_map(|l| l.strip_suffix(';')?.split_once(": "));
    let constants = pairs.map(|(name, behind)| {
        let (kind, number) = behind.split_once(" = ").expect("a number");
        let number = number.replace('_', "").parse().expect("a number");
        (name, (kind, number))
    });
    constants.collect()
}

/// Limits of crates/limits that a caller does not need, and limits of blocks, which it does not have.
const WITHIN: [&str; 3] = ["SCRIPT_TERMS", "SCRIPT_STARTS", "SCRIPT_NUMBERS"];
const OF_BLOCKS: [&str; 2] = ["BLOCK_BYTES", "MOST_BLOCKS"];

#[test]
fn the_wrapper_has_the_limits_of_rattle() {
    let (rattle, rust) = (
        text("crates/limits/src/lib.rt"),
        text("library/rust/src/limits.rs"),
    );
    let (mut rattle, mut rust) = (constants(&rattle), constants(&rust));
    for name in WITHIN {
        assert!(rattle.remove(name).is_some(), "{name}");
    }
    for name in OF_BLOCKS {
        assert!(rust.remove(name).is_some(), "{name}");
    }
    assert_eq!(rust, rattle);
}

/// The name that a definition has for a limit of the code: `MOST_STEPS` is `most_steps`.
fn defined_name(name: &str) -> String {
    match name {
        "WEIGHTS" => "weight_count".to_string(),
        _ => name.to_lowercase(),
    }
}

/// Each limit of the code is that of the definitions, also one that no code needs.
#[test]
fn the_limits_of_rattle_are_defined() {
    let (rattle, definitions) = (
        text("crates/limits/src/lib.rt"),
        text("crates/limits/specs/Limits.antt"),
    );
    let constants = constants(&rattle);
    for (name, (_, number)) in &constants {
        let line = format!("\n{} = {number}\n", defined_name(name));
        assert!(definitions.contains(&line), "{line}");
    }
    let count = definitions.matches("abbrev pub ").count();
    assert_eq!(count, constants.len());
}

/// The limits of the wrapper, orders, operations and refusals, and nothing else.
#[test]
fn the_header_has_the_numbers() {
    let rust = text("library/rust/src/limits.rs");
    let limits = constants(&rust).into_iter().map(|(name, (_, n))| (name, n));
    let orders = [("LP", 1), ("DP_LEX", 2), ("DP_REV", 3)];
    let operations = [("ADD", 1), ("LEAD", 2), ("SUM", 3)];
    let numbers = limits.chain(orders).chain(operations);
    let numbers = numbers.map(|(name, number)| (name.to_string(), number));
    let refusals = Refusal::ALL.iter();
    let refusals = refusals.map(|r| (snake(&format!("{r:?}")).to_uppercase(), r.number()));
    let header = text("library/damselbuckle.h");
    let defined = defined(&header).into_iter();
    let defined: BTreeMap<String, u64> = defined.map(|(n, k)| (n.to_string(), k)).collect();
    assert_eq!(defined, numbers.chain(refusals).collect());
}

/// docs/INTEGRATION.md names what is to be lent.
#[test]
fn the_guide_has_the_limits() {
    let guide = text("docs/INTEGRATION.md").replace('\n', " ");
    let n = |number: usize| with_commas(number as u64);
    let space = |places| {
        format!(
            "{}, exactly | {} + {}",
            n(places),
            n(8 * places),
            n(4 * places)
        )
    };
    for words in [
        format!("| bucket space | {} |", space(BUCKET_PLACES)),
        format!("| work space | {} |", space(WORK_PLACES)),
        format!("Blocks need {} bytes for each", n(BLOCK_BYTES)),
        format!("{} at most; reading", n(MOST_BLOCKS * BLOCK_BYTES)),
        format!("reading them needs {} places at most", n(MOST_TERMS)),
        format!("A listing is lent {} bytes", n(LISTING_BYTES)),
    ] {
        assert!(guide.contains(&words), "{words}");
    }
}
