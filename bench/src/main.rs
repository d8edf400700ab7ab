//! Times the proved functions beside the same in plain Rust, and prints the table that is asked for
//! by its name, with `reductions P` and `blocks P` modulo another prime; or does the calls of a
//! workload's file: `calls FILE`, `time FILE SECONDS`, `passes FILE N` or
//! `beside ENGINE ROUNDS FILE ..`, in plain Rust `plain FILE SECONDS`, or with both `agree FILE ..`; or
//! prints such a file, of a run that only checks its polynomials: `opening ORDER TERMS`; or sets
//! comparisons beside their bound: `bound PICTURE`. It fails only where results differ.
use bench::beside::beside;
use bench::blocks::blocks;
use bench::bound::bound;
use bench::buckets;
use bench::checks::{checks, opening};
use bench::lists::{pair, List, Order};
use bench::merge::{branching, masks, Areas, Merge};
use bench::primes::primes;
use bench::proved;
use bench::random::Random;
use bench::reductions::reductions;
use bench::runs::runs;
use bench::singular::singular;
use bench::workload::{order_named, Workload};
use std::hint::black_box;
use std::time::Instant;

const P: u32 = 32_003;

/// Rounds over all rows, so that each row meets the machine at many times. In three rounds each
/// merge is first, second and third.
const ROUNDS: usize = 180;

/// About so many terms are merged in a pass.
const PASS: usize = 60_000;

const MERGES: [Merge; 3] = [proved::merge, branching, masks];

/// One kind of lists, and the least time of each merge so far, in nanoseconds for each comparison.
struct Row {
    order: Order,
    like: u64,
    lens: (usize, usize),
    best: [f64; 3],
}

fn main() {
    let words: Vec<String> = std::env::args().skip(1).collect();
    let words: Vec<&str> = words.iter().map(String::as_str).collect();
    match words[..] {
        ["merges"] => merges(),
        ["buckets"] => buckets::operations(),
        ["leads"] => buckets::leads(),
        ["settling"] => buckets::settling(),
        ["runs"] => runs(),
        ["reductions"] => reductions(P),
        ["reductions", p] => reductions(prime(p)),
        ["singular"] => singular(),
        ["blocks"] => blocks(P),
        ["blocks", p] => blocks(prime(p)),
        ["checks"] => checks(),
        ["primes"] => primes(),
        ["opening", order, terms] => opening(order_named(order), terms.parse().expect("terms")),
        ["bound", file] => bound(file),
        ["beside", engine, rounds, ref files @ ..] => {
            beside(engine, rounds.parse().expect("rounds"), files)
        }
        ["calls", file] => workload(file).calls(),
        ["time", file, seconds] => workload(file).time(seconds.parse().expect("seconds")),
        ["plain", file, seconds] => workload(file).plain().time(seconds.parse().expect("seconds")),
        ["agree", ref files @ ..] => files.iter().for_each(|file| Workload::agree(&text(file))),
        ["passes", file, passes] => workload(file).passes(passes.parse().expect("passes")),
        _ => panic!("merges, buckets, leads, settling, runs, reductions, singular, blocks, checks, primes, bound, opening, beside, calls, time, plain, agree or passes"),
    }
}

fn prime(text: &str) -> u32 {
    text.parse().expect("a prime")
}

fn text(file: &str) -> String {
    std::fs::read_to_string(file).expect("the workload's file")
}

fn workload(file: &str) -> Workload {
    Workload::read(&text(file))
}

/// The proved merge beside two in plain Rust.
fn merges() {
    let mut rows = Vec::new();
    for order in [Order::DegRevLex, Order::Lex] {
        for like in [0, 60] {
            for lens in [(8, 12), (64, 64), (50, 900), (1_000, 1_000)] {
                rows.push(Row {
                    order,
                    like,
                    lens,
                    best: [f64::INFINITY; 3],
                });
            }
        }
    }
    let random = &mut Random::new(31);
    for round in 0..ROUNDS {
        for row in &mut rows {
            row.pass(random, round);
        }
    }
    println!("| Order | Terms | Like terms | Proved | Branching | Masks | Proved / masks | Proved / best Rust |");
    println!("|---|---|---|---|---|---|---|---|");
    rows.iter().for_each(Row::print);
}

/// Pairs of lists in one buffer, with keys for words, and past all of them room for the merge of any pair.
fn laid(order: Order, pairs: &[(List, List)]) -> (List, Vec<Areas>) {
    let mut buffer = List::default();
    let mut put = |list: &List| {
        let at = buffer.words.len();
        buffer
            .words
            .extend(list.words.iter().map(|&w| order.key(w)));
        buffer.coefs.extend_from_slice(&list.coefs);
        (at, list.words.len())
    };
    let places: Vec<_> = pairs.iter().map(|(a, b)| (put(a), put(b))).collect();
    let to = buffer.words.len();
    let areas = |((a, n), (b, m))| Areas { a, n, b, m, to };
    let all: Vec<Areas> = places.into_iter().map(areas).collect();
    let room = all.iter().map(|areas| areas.n + areas.m).max();
    let size = to + room.unwrap_or(0);
    buffer.words.resize(size, 0);
    buffer.coefs.resize(size, 0);
    (buffer, all)
}

impl Row {
    /// Makes fresh lists, and times each merge over them once, in turn.
    fn pass(&mut self, random: &mut Random, round: usize) {
        let (order, lens) = (self.order, self.lens);
        let lists: Vec<(List, List)> = (0..PASS / (lens.0 + lens.1))
            .map(|_| pair(random, order, P, lens, self.like))
            .collect();
        let (mut buffer, all) = laid(order, &lists);
        let mut comparisons = [0; MERGES.len()];
        for turn in 0..MERGES.len() {
            let k = (round + turn) % MERGES.len();
            let start = Instant::now();
            for areas in &all {
                comparisons[k] += MERGES[k](P, black_box(&mut buffer), *areas).comparisons;
            }
            let time = start.elapsed().as_nanos() as f64 / comparisons[k] as f64;
            self.best[k] = self.best[k].min(time);
        }
        assert!(comparisons.iter().all(|&n| n == comparisons[0]));
        all.into_iter()
            .for_each(|areas| compare(&mut buffer, areas));
    }

    fn print(&self) {
        let [proved, branching, masks] = self.best;
        println!(
            "| {} | {} + {} | {}% | {proved:.2} | {branching:.2} | {masks:.2} | {:.2} | {:.2} |",
            self.order.name(),
            self.lens.0,
            self.lens.1,
            self.like,
            proved / masks,
            proved / branching.min(masks),
        );
    }
}

/// All merges must give the same.
fn compare(buffer: &mut List, areas: Areas) {
    let results = MERGES.map(|merge| {
        let merged = merge(P, buffer, areas);
        let places = merged.head..merged.head + merged.len;
        let (words, coefs) = (&buffer.words[places.clone()], &buffer.coefs[places]);
        (merged.comparisons, words.to_vec(), coefs.to_vec())
    });
    assert!(results.iter().all(|r| *r == results[0]), "results differ");
}
