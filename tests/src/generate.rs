//! Generated settings, terms and contents, for the tests that need any.
use crate::limits::{LARGEST_PRIME, LARGEST_WEIGHT};
use crate::monomial::{Order, FIELDS, LIMIT, ONES};
use crate::polynomial::Term;
use crate::random::Random;
use crate::residue;

/// Small primes, those on both sides of 2^16, the largest of 30 bits and the two largest of 31.
pub const PRIMES: [u32; 9] = [
    2,
    3,
    7,
    32_003,
    65_521,
    65_537,
    1_073_741_789,
    2_147_483_629,
    LARGEST_PRIME,
];

/// A number from 0 to n.
pub fn up_to(random: &mut Random, n: usize) -> usize {
    random.below(n as u64 + 1) as usize
}

/// Any prime: one of `PRIMES`, or the first from a number of random size down.
pub fn prime(random: &mut Random) -> u32 {
    if random.below(2) == 0 {
        return random.pick(&PRIMES);
    }
    let bits = 2 + random.below(30);
    let most = 2 + random.below((1 << bits) - 2) as u32;
    let prime = |p: &u32| residue::is_prime(*p);
    (2..=most).rev().find(prime).expect("2 is prime")
}

/// Weights in n variables: often all unlike, since like ones hide a weight at another's place; or the largest
/// alone, or any, or 1 alone.
pub fn weights(random: &mut Random, n: usize) -> [u32; FIELDS] {
    let mut weights = match random.below(8) {
        0..=3 => unlike(random),
        4 => [LARGEST_WEIGHT; FIELDS],
        5 => ONES.map(|_| 1 + random.below(LARGEST_WEIGHT.into()) as u32),
        _ => ONES,
    };
    weights[n..].fill(1);
    weights
}

/// Six weights that are all unlike.
fn unlike(random: &mut Random) -> [u32; FIELDS] {
    let mut all: Vec<u32> = (1..=LARGEST_WEIGHT).collect();
    ONES.map(|_| all.swap_remove(random.below(all.len() as u64) as usize))
}

/// An order, a number of variables and a prime: all 162 in turn, with any weights.
pub fn setting(case: u64) -> (Order, usize, u32) {
    let order = Order::ALL[(case % 3) as usize];
    let n = 1 + (case / 3 % FIELDS as u64) as usize;
    let p = PRIMES[(case / 18 % PRIMES.len() as u64) as usize];
    (order.weighted(weights(&mut Random::new(case), n)), n, p)
}

/// A number below p, often one at an end, in the middle or near 2^16.
pub fn number_below(random: &mut Random, p: u32) -> u32 {
    let (middle, last) = (p / 2, p - 1);
    let ends = [0, 1, middle, middle + 1, last.saturating_sub(1), last, last];
    let near = match random.below(4) {
        0 => random.pick(&[65_534, 65_535, 65_536]),
        _ => random.pick(&ends),
    };
    match near {
        number if number < p && random.below(4) == 0 => number,
        _ => random.below(p.into()) as u32,
    }
}

/// A coefficient from 1 to p - 1, often one at an end, in the middle or near 2^16.
pub fn coef(random: &mut Random, p: u32) -> u32 {
    1 + number_below(random, p - 1)
}

/// A monomial with exponents up to a limit.
pub fn monomial(random: &mut Random, n: usize, limit: u8) -> Vec<u8> {
    (0..n)
        .map(|_| up_to(random, usize::from(limit)) as u8)
        .collect()
}

/// Monomials put in falling order, each once.
pub fn falling(order: Order, mut monomials: Vec<Vec<u8>>) -> Vec<Vec<u8>> {
    monomials.sort_by(|x, y| order.compare(y, x));
    monomials.dedup();
    monomials
}

/// About `len` falling monomials; fewer where so few have exponents up to the limit.
pub fn monomials(
    random: &mut Random,
    order: Order,
    n: usize,
    len: usize,
    limit: u8,
) -> Vec<Vec<u8>> {
    falling(
        order,
        (0..len).map(|_| monomial(random, n, limit)).collect(),
    )
}

pub fn with_coefs(random: &mut Random, p: u32, monomials: Vec<Vec<u8>>) -> Vec<Term> {
    let term = |m| (m, coef(random, p));
    monomials.into_iter().map(term).collect()
}

/// The most terms of a polynomial that may be dense.
pub const SHORT: usize = 60;

/// A polynomial of up to `len` terms, dense or scattered.
pub fn polynomial(random: &mut Random, order: Order, n: usize, p: u32, len: usize) -> Vec<Term> {
    let dense = random.pick(&[1, 3, 15, LIMIT, LIMIT]);
    let limit = if len > SHORT { LIMIT } else { dense };
    let len = up_to(random, len);
    let monomials = monomials(random, order, n, len, limit);
    with_coefs(random, p, monomials)
}

/// The terms times -1.
pub fn negative(p: u32, terms: &[Term]) -> Vec<Term> {
    let negated = |(m, c): &Term| (m.clone(), residue::negate(*c, p));
    terms.iter().map(negated).collect()
}

/// Places with any contents.
pub fn places(random: &mut Random, words: usize, coefs: usize) -> (Vec<u64>, Vec<u32>) {
    let ow = (0..words).map(|_| random.word()).collect();
    let oc = (0..coefs).map(|_| random.word() as u32).collect();
    (ow, oc)
}

/// A good script padded to so many bytes exactly, with lines `lead` and then lines `add` of no terms.
pub fn padded(script: &str, bytes: usize) -> String {
    let rest = bytes - script.len();
    let leads = rest % 4; // each is a byte longer than `add`
    let adds = (rest - "lead\n".len() * leads) / "add\n".len();
    let padded = script.to_string() + &"lead\n".repeat(leads) + &"add\n".repeat(adds);
    assert_eq!(padded.len(), bytes);
    padded
}
