//! Times the block store: the proved one beside the one in plain Rust. It fails only where results
//! differ.
use crate::buckets::{in_turn, Best, ROUNDS};
use crate::checks::{weights_named, UNLIKE};
use crate::library;
use crate::lists::{list, words, List, Order};
use crate::monomial::ONES;
use crate::plain_blocks::{self, Setting, BLOCK_TERMS};
use crate::random::Random;
use crate::reductions::by_exponents;
use damselbuckle::{BLOCK_BYTES, MOST_BLOCKS, MOST_TERMS};
use std::hint::black_box;

/// Each is done so often in a row.
const TIMES: usize = 20;

/// One kind of polynomials, and the least times of writing and of reading for each term.
struct Row {
    order: Order,
    weights: [u32; 6],
    terms: usize,
    write: Best,
    read: Best,
}

impl Row {
    /// Makes a fresh polynomial modulo p, and times both over it, in turn.
    fn pass(&mut self, random: &mut Random, round: usize, p: u32) {
        let order = self.order;
        let weighted = by_exponents(order).weighted(self.weights);
        let many = words(random, order, self.terms).into_iter();
        let many = many.map(|w| weighted.word(&weighted.fields(w))).collect();
        let terms = &list(random, order, p, many);
        let setting = Setting {
            p,
            order: order.number(),
            n: 6,
            weights: self.weights,
        };
        let len = terms.words.len() as u64;
        let most = MOST_BLOCKS * BLOCK_BYTES;
        let mut bytes = [vec![1; most], vec![1; most]];
        let [a, b] = &mut bytes;
        let (times, blocks) = in_turn(
            round,
            [
                &mut || repeat(|| library::write(setting, terms, black_box(a)).blocks),
                &mut || repeat(|| plain_blocks::write(setting, terms, black_box(b)).blocks),
            ],
        );
        assert!(bytes[0] == bytes[1], "blocks differ");
        self.write.take(times, TIMES as u64 * len);
        let blocks = &bytes[0][..BLOCK_BYTES * blocks as usize];
        let mut lists = [List::of(MOST_TERMS), List::of(MOST_TERMS)];
        let [a, b] = &mut lists;
        let (times, read) = in_turn(
            round,
            [
                &mut || repeat(|| library::read(blocks, black_box(a)).terms),
                &mut || repeat(|| plain_blocks::read(blocks, black_box(b)).terms),
            ],
        );
        assert!(lists[0] == lists[1], "terms differ");
        assert_eq!(read, len, "not all terms are read");
        self.read.take(times, TIMES as u64 * len);
    }

    fn print(&self) {
        let columns = [self.write.columns(), self.read.columns()].join(" ");
        let (order, weights) = (self.order.name(), weights_named(self.weights));
        println!("| {order} | {weights} | {} | {columns}", self.terms);
    }
}

/// Does it several times, and gives what it gives at last.
fn repeat(mut f: impl FnMut() -> u64) -> u64 {
    (0..TIMES).map(|_| f()).last().expect("more than once")
}

/// Writing and reading modulo p: nanoseconds for each term.
pub fn blocks(p: u32) {
    let row = |order, weights, terms| Row {
        order,
        weights,
        terms,
        write: Best::new(),
        read: Best::new(),
    };
    let mut rows = Vec::new();
    for order in [Order::DegRevLex, Order::Lex] {
        rows.push(row(order, ONES, BLOCK_TERMS));
        rows.push(row(order, ONES, MOST_TERMS));
        rows.push(row(order, UNLIKE, MOST_TERMS));
    }
    let random = &mut Random::new(71);
    for round in 0..ROUNDS {
        for row in &mut rows {
            row.pass(random, round, p);
        }
    }
    println!("| Order | Weights | Terms | Proved, writing | Plain Rust | Proved / plain | Proved, reading | Plain Rust | Proved / plain |");
    println!("|---|---|---|---|---|---|---|---|---|");
    rows.iter().for_each(Row::print);
}
