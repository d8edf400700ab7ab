//! Times the test whether p is prime: the proved one beside the one in plain Rust. It fails only where
//! answers differ.
use crate::buckets::in_turn;
use crate::c_functions;
use crate::plain_opening;
use crate::random::Random;
use std::hint::black_box;

/// Primes of 15, 16, 27 and 31 bits; the last is the largest.
const PRIMES: [u32; 4] = [32_003, 65_521, 99_999_989, 2_147_483_647];

/// Rounds over all rows, so that each row meets the machine at many times. In two rounds each test is first
/// and second.
const ROUNDS: usize = 2_000;

/// A pass takes about so many divisions of the plain test.
const PASS: f64 = 30_000.0;

/// So many numbers are tried by both tests, beside those of the rows.
const TRIED: usize = 20_000;

/// A prime, and the least microseconds of each test so far.
struct Row {
    p: u32,
    best: [f64; 2],
}

impl Row {
    fn pass(&mut self, round: usize) {
        let p = self.p;
        let number = 1 + (PASS / f64::from(p).sqrt()) as usize;
        let (times, primes) = in_turn(
            round,
            [&mut || repeat(number, || proved(black_box(p))), &mut || {
                repeat(number, || plain(black_box(p)))
            }],
        );
        assert_eq!(primes, number as u64, "{p} is a prime");
        for (best, time) in self.best.iter_mut().zip(times) {
            *best = best.min(time / number as f64 / 1e3);
        }
    }

    fn print(&self) {
        let [proved, plain] = self.best;
        println!(
            "| {} | {proved:.3} | {plain:.3} | {:.2} |",
            self.p,
            proved / plain
        );
    }
}

#[inline(always)]
fn proved(p: u32) -> bool {
    c_functions::is_prime(p)
}

/// A call, as the proved one is.
#[inline(never)]
fn plain(p: u32) -> bool {
    plain_opening::is_prime(p)
}

/// Asks so often, and counts how often the answer is yes.
#[inline(always)]
fn repeat(number: usize, test: impl Fn() -> bool) -> u64 {
    (0..number).map(|_| u64::from(test())).sum()
}

/// Both must answer the same for numbers of all sizes.
fn compare(random: &mut Random) {
    for _ in 0..TRIED {
        let p = (random.word() >> (32 + random.below(32))) as u32;
        assert_eq!(proved(p), plain(p), "answers differ for {p}");
    }
}

/// The test whether p is prime: microseconds.
pub fn primes() {
    let new = |p| Row {
        p,
        best: [f64::INFINITY; 2],
    };
    let mut rows = PRIMES.map(new);
    for round in 0..ROUNDS {
        rows.iter_mut().for_each(|row| row.pass(round));
    }
    compare(&mut Random::new(83));
    println!("| Prime | Proved | Plain Rust | Proved / plain |");
    println!("|---|---|---|---|");
    rows.iter().for_each(Row::print);
}
