//! The table that the program `samples` writes, from the model: its stored output must be the same,
//! line by line.
use second::monomial::{divides, Order};
use second::residue;
use std::cmp::Ordering;

const STORED: &str = include_str!("../../crates/samples/stdout");

/// The exponents of two monomials in as many variables.
const PAIRS: [(&[u8], &[u8]); 24] = [
    (&[0, 2, 0], &[1, 0, 1]),
    (&[1, 0, 0], &[0, 5, 0]),
    (&[2, 1], &[1, 1]),
    (&[2, 1], &[2, 1]),
    (&[2, 0], &[1, 1]),
    (&[1, 1], &[0, 2]),
    (&[0], &[0]),
    (&[5], &[3]),
    (&[127], &[1]),
    (&[0, 0, 0], &[0, 0, 1]),
    (&[0, 0, 1], &[0, 1, 0]),
    (&[1, 1, 1], &[3, 0, 0]),
    (&[1, 2, 3, 4], &[4, 3, 2, 1]),
    (&[2, 1, 1, 2], &[1, 2, 2, 1]),
    (&[1, 0, 2, 0, 1], &[1, 1, 0, 1, 1]),
    (&[3, 2, 2, 1, 1], &[1, 0, 2, 0, 1]),
    (&[100, 3], &[27, 1]),
    (&[100, 3], &[28, 1]),
    (&[0, 0, 0, 0, 0, 64], &[0, 0, 0, 0, 0, 64]),
    (&[127, 0, 0, 0, 0, 0], &[0, 127, 127, 127, 127, 127]),
    (&[127; 6], &[127; 6]),
    (&[127; 6], &[127, 127, 127, 127, 127, 126]),
    (&[127; 6], &[1, 0, 0, 0, 0, 0]),
    (&[127; 6], &[0; 6]),
];

/// A number of variables and a word.
const WORDS: [(usize, u64); 20] = [
    (2, 0x0003_0000_0000_0102),
    (2, 0x0003_0201_0000_0000),
    (1, 0x0000_0000_0000_0000),
    (6, 0x0000_0000_0000_0000),
    (6, 0x02fa_7f7f_7f7f_7f7f),
    (2, 0x0003_0000_0000_0182),
    (2, 0x0083_0000_0000_0182),
    (2, 0x0003_8201_0000_0000),
    (2, 0x0083_8201_0000_0000),
    (2, 0x0004_0000_0000_0102),
    (2, 0x0002_0201_0000_0000),
    (2, 0x8003_0000_0000_0102),
    (2, 0x0004_0000_0001_0102),
    (3, 0x0004_0000_0001_0102),
    (2, 0x0004_0201_0100_0000),
    (3, 0x0004_0201_0100_0000),
    (5, 0x0001_0100_0000_0000),
    (6, 0x02f9_7f7f_7f7f_7f7f),
    (6, 0x8000_0000_0000_0000),
    (6, 0xffff_ffff_ffff_ffff),
];

const NUMBERS: [u32; 32] = [
    0, 1, 2, 3, 4, 5, 9, 25, 35, 49, 77, 91, 97, 121, 561, 65519, 65520, 65521, 65535, 65537,
    2147117569, 2147483629, 2147483646, 2147483647, 2147483648, 2147483659, 3215031751, 4292870399,
    4293001441, 4294836225, 4294967291, 4294967295,
];

/// A modulus and two numbers.
const ROWS: [(u32, u32, u32); 28] = [
    (2, 0, 0),
    (2, 1, 0),
    (2, 1, 1),
    (2, 1, 2),
    (3, 0, 2),
    (3, 1, 2),
    (3, 2, 2),
    (7, 0, 6),
    (7, 1, 6),
    (7, 2, 3),
    (7, 3, 5),
    (7, 6, 6),
    (7, 7, 1),
    (65521, 1, 65520),
    (65521, 2, 32761),
    (65521, 65519, 2),
    (65521, 65520, 65520),
    (65521, 12345, 54321),
    (2147483647, 0, 2147483646),
    (2147483647, 1, 2147483646),
    (2147483647, 2, 1073741824),
    (2147483647, 2147483646, 2147483646),
    (2147483647, 2147483645, 2147483646),
    (2147483647, 1234567890, 2000000011),
    (4, 3, 2),
    (65535, 65534, 65534),
    (1, 0, 0),
    (2147483648, 1, 1),
];

fn dotted(exponents: &[u8]) -> String {
    let parts: Vec<String> = exponents.iter().map(u8::to_string).collect();
    parts.join(".")
}

/// A word, its exponents in n variables, and whether it is of the layout.
fn reading(order: Order, n: usize, word: u64) -> String {
    let exponents = dotted(&order.fields(word)[..n]);
    let not = if order.in_layout(n, word) { "" } else { "not " };
    format!("word {word:016x} exponents {exponents} {not}of the layout")
}

fn pair(order: Order, x: &[u8], y: &[u8], lines: &mut Vec<String>) {
    let name = order.name();
    let sign = match order.compare(x, y) {
        Ordering::Less => '<',
        Ordering::Equal => '=',
        Ordering::Greater => '>',
    };
    lines.push(format!("{name} {} {sign} {}", dotted(x), dotted(y)));
    for m in [x, y] {
        let word = order.word(m);
        lines.push(format!(
            "{name} {} {}",
            dotted(m),
            reading(order, m.len(), word)
        ));
    }
}

fn modulo(p: u32, a: u32, b: u32, lines: &mut Vec<String>) {
    let mut line = |text: String| lines.push(format!("mod {p}: {text}"));
    if !residue::takes(a, p) || !residue::takes(b, p) {
        return line(format!("{a} and {b} refused"));
    }
    let product = residue::multiply(a, b, p);
    line(format!("{a} + {b} = {}", residue::add(a, b, p)));
    line(format!("-{a} = {}", residue::negate(a, p)));
    line(format!("{a} * {b} = {product}"));
    line(format!("{a} as a factor * {b} = {product}"));
    if a == 0 || !residue::is_prime(p) {
        line(format!("1 / {a} refused"));
    } else {
        line(format!("1 / {a} = {}", residue::invert(a, p)));
    }
}

fn table() -> Vec<String> {
    let mut lines = Vec::new();
    for (x, y) in PAIRS {
        for order in Order::ALL {
            pair(order, x, y, &mut lines);
        }
    }
    for (n, word) in WORDS {
        for order in Order::ALL {
            let name = order.name();
            lines.push(format!("{name} n = {n} {}", reading(order, n, word)));
        }
    }
    for p in NUMBERS {
        let not = if residue::is_prime(p) { "" } else { "not " };
        lines.push(format!("{p} {not}prime"));
    }
    for (p, a, b) in ROWS {
        modulo(p, a, b, &mut lines);
    }
    lines
}

#[test]
fn stored_output_is_the_models() {
    let lines = table();
    for (number, (stored, line)) in STORED.lines().zip(&lines).enumerate() {
        assert_eq!(stored, line, "line {}", number + 1);
    }
    assert_eq!(STORED.lines().count(), lines.len());
    assert!(STORED.ends_with('\n'));
}

/// The model itself on the known results of document 01.
#[test]
fn model_has_the_known_results() {
    let (x2_squared, x1_x3): ([u8; 3], [u8; 3]) = ([0, 2, 0], [1, 0, 1]);
    assert!(Order::DEG_REV_LEX.compare(&x2_squared, &x1_x3).is_gt());
    assert!(Order::DEG_LEX.compare(&x1_x3, &x2_squared).is_gt());
    assert!(Order::LEX.compare(&[1, 0, 0], &[0, 5, 0]).is_gt());
    assert_eq!(Order::DEG_REV_LEX.word(&[2, 1]), 0x0003_0000_0000_0102);
    assert_eq!(Order::LEX.word(&[2, 1]), 0x0003_0201_0000_0000);
    assert!(divides(&[1, 1], &[2, 1]));
}
