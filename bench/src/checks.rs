//! Times the opening check of one polynomial: the proved one, of the whole and in two parts, beside the
//! one in plain Rust. It fails only where results differ.
use crate::buckets::{in_turn, P};
use crate::c_functions::{check, check_on, Checking};
use crate::lists::{List, Terms};
use crate::monomial::{Order, FIELDS, ONES};
use crate::plain_opening::refusal_of_one;
use crate::random::Random;
use std::hint::black_box;

/// Rounds over all rows, so that each row meets the machine at many times. In three rounds each check is
/// first, second and third.
const ROUNDS: usize = 600;

/// About so many terms are looked at in a pass, and lent to a run.
const PASS: usize = 60_000;
const LENT: usize = 20_000;

/// Weights that are all unlike.
pub(crate) const UNLIKE: [u32; FIELDS] = [1, 2, 3, 4, 5, 6];

/// Order, number of variables and modulus.
type Setting = (Order, u32, u32);

/// The proved check of the whole.
#[inline(always)]
fn whole((order, n, p): Setting, terms: Terms) -> u64 {
    check((order.number(), n, &order.weights, p), terms).into()
}

/// The check in plain Rust: a call, as the proved one is.
#[inline(never)]
fn plain((order, n, p): Setting, terms: Terms) -> u64 {
    refusal_of_one(order.number(), n, order.weights, p, terms)
}

/// The proved check of the first half, carried on over the second.
#[inline(always)]
fn in_halves((order, n, p): Setting, (words, coefs): Terms) -> u64 {
    let setting = (order.number(), n, &order.weights[..], p);
    let middle = words.len() / 2;
    let (words, coefs) = (words.split_at(middle), coefs.split_at(middle));
    let first = check_on(setting, (words.0, coefs.0), Checking::default());
    let both = check_on(setting, (words.1, coefs.1), first);
    let refusal = if both.stop == 0 { both.late } else { both.stop };
    refusal.into()
}

/// One kind of polynomials, and the least time of each check so far for each term.
struct Row {
    order: Order,
    terms: usize,
    best: [f64; 3],
}

impl Row {
    /// Makes a fresh polynomial, and times each check over it, in turn.
    fn pass(&mut self, random: &mut Random, round: usize) {
        let setting = (self.order, FIELDS as u32, P);
        let f = polynomial(random, self.order, self.terms);
        let (terms, number) = (f.terms(), PASS / f.words.len());
        let (times, refusal) = in_turn(
            round,
            [
                &mut || repeat(number, || whole(setting, black_box(terms))),
                &mut || repeat(number, || plain(setting, black_box(terms))),
                &mut || repeat(number, || in_halves(setting, black_box(terms))),
            ],
        );
        assert_eq!(refusal, 0, "a good polynomial is refused");
        for (best, time) in self.best.iter_mut().zip(times) {
            *best = best.min(time / (number * f.words.len()) as f64);
        }
        compare(random, setting, f);
    }

    fn print(&self) {
        let [whole, plain, in_halves] = self.best;
        println!(
            "| {} | {} | {} | {whole:.2} | {plain:.2} | {:.2} | {in_halves:.2} | {:.2} |",
            self.order.name(),
            weights_named(self.order.weights),
            self.terms,
            whole / plain,
            in_halves / whole,
        );
    }
}

/// The weights of a row, for its table.
pub(crate) fn weights_named(weights: [u32; FIELDS]) -> &'static str {
    match weights {
        ONES => "1",
        UNLIKE => "1 to 6",
        _ => "others",
    }
}

/// Does it so often, and gives what it gives at last.
#[inline(always)]
fn repeat(number: usize, check: impl Fn() -> u64) -> u64 {
    (0..number).map(|_| check()).last().expect("more than once")
}

/// Falling monomials, as many as asked for, less those that came twice.
fn monomials(random: &mut Random, order: Order, number: usize) -> Vec<[u8; FIELDS]> {
    let monomial = |_| [0; FIELDS].map(|_| random.below(128) as u8);
    let mut monomials: Vec<[u8; FIELDS]> = (0..number).map(monomial).collect();
    monomials.sort_unstable_by(|x, y| order.compare(y, x));
    monomials.dedup();
    monomials
}

fn coef(random: &mut Random) -> u32 {
    1 + random.below(u64::from(P - 1)) as u32
}

/// A good polynomial.
fn polynomial(random: &mut Random, order: Order, terms: usize) -> List {
    let monomials = monomials(random, order, terms);
    List {
        words: monomials.iter().map(|m| order.word(m)).collect(),
        coefs: monomials.iter().map(|_| coef(random)).collect(),
    }
}

/// Prints a workload for `beside`: a run that checks what it is lent, in polynomials of so many terms, and
/// takes the lead of nothing.
pub fn opening(order: Order, terms: usize) {
    let (random, name) = (&mut Random::new(82), order.name());
    println!("workload opening-{name}-{terms}\nkind run");
    println!("prime {P}\norder {name}\nvars {FIELDS}");
    for _ in 0..LENT / terms {
        let monomials = monomials(random, order, terms).into_iter();
        let exponents = monomials.map(|m| m.map(|e| e.to_string()).join("."));
        let terms: Vec<String> = exponents.map(|e| format!("{}:{e}", coef(random))).collect();
        println!("poly {}", terms.join(" "));
    }
    println!("ops l");
}

/// All checks must refuse the polynomial with two equal words at its head, then with a bad word behind
/// these too, and then with a bad coefficient there.
fn compare(random: &mut Random, setting: Setting, mut f: List) {
    f.words[1] = f.words[0];
    refuse(setting, &f, 6);
    let at = 2 + random.below(f.words.len() as u64 - 2) as usize;
    f.words[at] ^= 1 << 63;
    refuse(setting, &f, 5);
    f.coefs[at] = 0;
    refuse(setting, &f, 4);
}

fn refuse(setting: Setting, f: &List, refusal: u64) {
    let checks = [whole, plain, in_halves];
    let refusals = checks.map(|check| check(setting, f.terms()));
    assert_eq!(refusals, [refusal; 3], "results differ");
}

/// The opening check: nanoseconds for each term.
pub fn checks() {
    let row = |order, terms| Row {
        order,
        terms,
        best: [f64::INFINITY; 3],
    };
    let mut rows = Vec::new();
    for order in [Order::DEG_REV_LEX, Order::DEG_LEX, Order::LEX] {
        rows.extend([8, 64, 1_000].map(|terms| row(order, terms)));
        rows.push(row(order.weighted(UNLIKE), 1_000));
    }
    let random = &mut Random::new(81);
    for round in 0..ROUNDS {
        for row in &mut rows {
            row.pass(random, round);
        }
    }
    println!("| Order | Weights | Terms | Proved | Plain Rust | Proved / plain | Proved in parts | In parts / whole |");
    println!("|---|---|---|---|---|---|---|---|");
    rows.iter().for_each(Row::print);
}
