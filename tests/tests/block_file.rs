//! The text that the program `block_file` writes, from the model: its stored output must be the same.
use second::block_store::{read, repair, Polynomial};
use second::call::Numbers;
use second::limits::{BLOCK_BYTES, BLOCK_TERMS};
use second::monomial::{Order, ONES};
use std::fmt::Write;

const STORED: &str = include_str!("../../crates/block_file/stdout");

/// A polynomial modulo 7, in dp and two variables, with weights of 1.
fn polynomial(terms: &[([u8; 2], u32)]) -> Polynomial {
    weighted(ONES, terms)
}

/// The same with these weights.
fn weighted(weights: [u32; 6], terms: &[([u8; 2], u32)]) -> Polynomial {
    let order = Order::DEG_REV_LEX.weighted(weights);
    Polynomial {
        numbers: Numbers::new((order, 2, 7)),
        words: terms.iter().map(|(m, _)| order.word(m)).collect(),
        coefs: terms.iter().map(|(_, c)| *c).collect(),
    }
}

/// What is said of the polynomial written, and of the block read back.
fn kept(text: &mut String, f: &Polynomial) {
    let block = match f.write(BLOCK_BYTES) {
        Ok(block) => block,
        Err(refusal) => return line(text, format!("refused {refusal}")),
    };
    line(text, "blocks 1".into());
    row(text, "header", &block[..16]);
    for place in block[16..76].chunks(12) {
        row(text, "place ", place);
    }
    row(text, "check ", &block[508..]);
    given(text, &block);
}

fn given(text: &mut String, block: &[u8]) {
    let f = match read(block, BLOCK_TERMS, BLOCK_TERMS) {
        Ok(f) => f,
        Err(refusal) => return line(text, format!("refused {refusal}")),
    };
    let Numbers { p, order, n, .. } = f.numbers;
    line(text, format!("p {p}\norder {order}\nn {n}"));
    if f.numbers.weights != ONES {
        let weights = f.numbers.weights.iter().map(|w| format!(" {w}"));
        line(text, format!("weights{}", weights.collect::<String>()));
    }
    line(text, format!("terms {}", f.words.len()));
    for (word, coef) in f.words.iter().zip(&f.coefs) {
        line(text, format!("term {coef} {word:016x}"));
    }
}

fn row(text: &mut String, name: &str, bytes: &[u8]) {
    text.push_str(name);
    for byte in bytes {
        write!(text, " {byte:02x}").expect("a string takes all");
    }
    text.push('\n');
}

fn line(text: &mut String, what: String) {
    text.push_str(&what);
    text.push('\n');
}

#[test]
fn stored() {
    let text = &mut String::new();
    line(text, "five terms, p = 7, dp, two variables".into());
    let first = [
        ([2, 0], 3),
        ([1, 1], 1),
        ([0, 2], 1),
        ([1, 0], 1),
        ([0, 1], 1),
    ];
    kept(text, &polynomial(&first));
    line(text, "zero".into());
    kept(text, &polynomial(&[]));
    line(text, "five terms, weight 2 for x1".into());
    let five = [
        ([2, 0], 3),
        ([1, 1], 1),
        ([1, 0], 1),
        ([0, 2], 1),
        ([0, 1], 1),
    ];
    let double = weighted([2, 1, 1, 1, 1, 1], &five);
    kept(text, &double);
    line(text, "weight 2 for x6, beyond n".into());
    let mut beyond = polynomial(&first);
    beyond.numbers.weights = vec![1, 1, 1, 1, 1, 2];
    kept(text, &beyond);
    line(text, "terms that rise".into());
    kept(text, &polynomial(&[([1, 0], 1), ([2, 0], 1)]));
    line(text, "a file with a byte changed".into());
    let mut block = double.blocks();
    block[0] = 1;
    given(text, &block);
    assert_eq!(text, STORED);
    // Only the check is wrong there: put right, the block number is.
    repair(&mut block);
    assert_eq!(read(&block, BLOCK_TERMS, BLOCK_TERMS), Err(16));
}
