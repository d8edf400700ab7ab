//! Generated reductions that pass the opening checks, of many shapes. Each is tried with the model
//! first, so that step limits and outputs can be aimed at where it ends.
use crate::call::{Given, Numbers, Setting};
use crate::generate::{coef, falling, monomial, monomials, up_to, with_coefs};
use crate::lender;
use crate::limits::{LARGEST_PRIME, MOST_STEPS, MOST_TERMS};
use crate::monomial::LIMIT;
use crate::polynomial::{multiple, sum, Term};
use crate::pools::Pools;
use crate::random::Random;
use crate::reduction::reduce;
use std::collections::BTreeSet;
use std::ops::RangeInclusive;

/// Of so many reductions one is large; of so many one may be long. Neither has a factor in common with
/// the 18 orders and numbers of variables, which come in turn.
const LARGE_EVERY: u64 = 13;
const LONG_EVERY: u64 = 101;

/// The most leads of a reduction, and of a long one. Some would have very many.
const LEADS: u64 = 300;
const LONG: u64 = 4_000;

/// Of so many short reductions one has a crowd of divisors, most of which fit nowhere.
const CROWD_EVERY: u64 = 60;
const CROWD: usize = 1_020;

/// The largest exponent of the first divisor of a large polynomial.
const TOP: u8 = 60;

/// A reduction, and how it goes with output for all and with a step limit that few reach.
#[derive(Clone, Debug)]
pub struct Made {
    pub given: Given,
    /// Where it was stopped, 0 for nowhere.
    pub refusal: u64,
    pub leads: u64,
    /// The terms of the remainder.
    pub terms: usize,
}

impl Made {
    fn new(setting: Setting, f: Vec<Term>, divisors: Vec<Vec<Term>>, limit: u64) -> Self {
        let given = Given::new(setting, &[vec![f], divisors].concat());
        let mut loan = lender::plain(limit as usize);
        let answer = reduce(&given, limit, &mut loan);
        Made {
            given,
            refusal: answer.refusal,
            leads: answer.finished,
            terms: loan.tally.given as usize,
        }
    }

    /// A step limit: often enough for all, often one lead too few.
    pub fn limit(&self, random: &mut Random) -> u64 {
        let leads = self.leads;
        match random.below(20) {
            0 => 0,
            1 => 1.min(leads),
            2..=3 => leads.saturating_sub(1),
            4 => up_to(random, leads as usize) as u64,
            // It is not known how far such a reduction would go.
            _ if self.refusal == 13 => leads,
            5..=7 => leads,
            8 => leads + 1,
            9 => random.below(MOST_STEPS) | leads,
            _ => MOST_STEPS,
        }
    }

    /// A length of the output: often enough for all, often one place too short.
    pub fn output_len(&self, random: &mut Random) -> usize {
        match random.below(10) {
            0 => up_to(random, self.terms),
            1..=2 => self.terms.saturating_sub(1),
            3..=6 => self.terms,
            _ => self.terms + up_to(random, 20),
        }
    }
}

/// Makes reductions.
pub struct Reductions {
    pools: Pools,
}

impl Default for Reductions {
    fn default() -> Self {
        Reductions::new()
    }
}

impl Reductions {
    pub fn new() -> Self {
        Reductions {
            pools: Pools::new(),
        }
    }

    /// A reduction in some setting.
    pub fn made(&self, random: &mut Random, case: u64, setting: Setting) -> Made {
        let (f, divisors) = match case % LARGE_EVERY {
            0 => large(random, setting, &self.pools.of(setting)),
            _ => short(random, setting),
        };
        let limit = match case % LONG_EVERY {
            1 => LONG,
            _ => LEADS,
        };
        Made::new(setting, f, divisors, limit)
    }
}

/// Polynomial 0 and the divisors.
type Lists = (Vec<Term>, Vec<Vec<Term>>);

/// A reduction of few terms.
fn short(random: &mut Random, setting: Setting) -> Lists {
    let mut divisors = match random.below(10) {
        0 => divisors(random, setting, (3, 1)),
        1 => divisors(random, setting, (40, 3)),
        2 => divisors(random, setting, (2, 30)),
        3..=5 => coprime(random, setting),
        _ => divisors(random, setting, (5, 6)),
    };
    if random.below(40) == 0 {
        // A constant, which divides every lead.
        let one = (vec![0; setting.1], coef(random, setting.2));
        divisors.push(vec![one]);
    }
    if random.below(CROWD_EVERY) == 0 {
        crowd(random, setting, &mut divisors);
    }
    let f = match random.below(12) {
        0..=3 => combination(random, setting, &divisors),
        4..=6 => near_limit(random, setting),
        7 => any(random, setting, 50..=500, 6),
        _ => {
            let (len, limit) = (random.pick(&[1, 4, 10, 40]), random.pick(&[1, 3, 6, 20]));
            any(random, setting, 0..=len, limit)
        }
    };
    (f, divisors)
}

/// A polynomial of about so many terms, with exponents up to a limit.
fn any(
    random: &mut Random,
    (order, n, p): Setting,
    lens: RangeInclusive<usize>,
    limit: u8,
) -> Vec<Term> {
    let len = lens.start() + up_to(random, lens.end() - lens.start());
    let monomials = monomials(random, order, n, len, limit);
    with_coefs(random, p, monomials)
}

/// Up to so many divisors of up to so many terms, with small exponents.
fn divisors(random: &mut Random, setting: Setting, (most, len): (usize, usize)) -> Vec<Vec<Term>> {
    let limit = random.pick(&[1, 2, 2, 4]);
    let count = up_to(random, most);
    (0..count)
        .map(|_| any(random, setting, 1..=len, limit))
        .collect()
}

/// Puts about 1,024 divisors with large exponents before the last of these.
fn crowd(random: &mut Random, setting: Setting, divisors: &mut Vec<Vec<Term>>) {
    let at = divisors.len().saturating_sub(1);
    let count = CROWD + up_to(random, 8);
    let unfit: Vec<_> = (0..count).map(|_| near_limit(random, setting)).collect();
    divisors.splice(at..at, unfit);
}

/// Divisors whose leads are powers of single variables, each variable once: a Gröbner basis, since
/// the leads have no common factor.
pub fn coprime(random: &mut Random, setting: Setting) -> Vec<Vec<Term>> {
    let (order, n, p) = setting;
    let mut basis = Vec::new();
    for k in 0..n {
        if random.below(5) > 0 {
            let mut lead = vec![0; n];
            let power = 1 + up_to(random, 3) as u8;
            lead[k] = power;
            let mut f = any(random, setting, 0..=5, power);
            f.retain(|(m, _)| order.compare(m, &lead).is_lt());
            f.insert(0, (lead, coef(random, p)));
            let at = up_to(random, basis.len());
            basis.insert(at, f);
        }
    }
    basis
}

/// A sum of some multiples of the divisors, so that many terms cancel, and sometimes of more terms.
pub fn combination(random: &mut Random, setting: Setting, divisors: &[Vec<Term>]) -> Vec<Term> {
    let (order, n, p) = setting;
    let mut f = match random.below(3) {
        0 => any(random, setting, 0..=4, 2),
        _ => Vec::new(),
    };
    for _ in 0..1 + up_to(random, 5) {
        if !divisors.is_empty() {
            let divisor = &divisors[up_to(random, divisors.len() - 1)];
            let by = monomial(random, n, 4);
            let product = multiple(p, coef(random, p), &by, divisor);
            f = sum(order, p, &f, &product.unwrap_or_default());
        }
    }
    f
}

/// A few terms with exponents near 127, whose multiples are often over it.
fn near_limit(random: &mut Random, (order, n, p): Setting) -> Vec<Term> {
    let exponent = |random: &mut Random| match random.below(3) {
        0 => up_to(random, 4) as u8,
        _ => LIMIT - up_to(random, 3) as u8,
    };
    let count = 1 + up_to(random, 3);
    let terms = (0..count).map(|_| (0..n).map(|_| exponent(random)).collect());
    let monomials = falling(order, terms.collect());
    with_coefs(random, p, monomials)
}

/// A polynomial of about as many terms as can be held, and a divisor that fits its lead, the largest
/// monomial, and whose tail just fits, or is a term too long, or is short; then some small divisors.
fn large(random: &mut Random, setting: Setting, pool: &[Vec<u8>]) -> Lists {
    let (_, n, p) = setting;
    let (len, tail) = large_lens(random);
    let largest = vec![LIMIT; n];
    let rest = pool.iter().filter(|m| **m != largest).cloned();
    let monomials = std::iter::once(largest.clone()).chain(rest).take(len);
    let f = with_coefs(random, p, monomials.collect());
    let first = large_divisor(random, setting, tail);
    let next = any(random, setting, 2..=6, 2);
    let more = divisors(random, setting, (2, 4));
    (f, [vec![first, next], more].concat())
}

/// The terms of a large polynomial, and those of the tail of its first divisor.
fn large_lens(random: &mut Random) -> (usize, usize) {
    let len = match random.below(8) {
        0 => MOST_TERMS + 1,
        1 => MOST_TERMS,
        2 => MOST_TERMS - 1,
        3 => up_to(random, MOST_TERMS),
        _ => MOST_TERMS - up_to(random, 12),
    };
    let room = MOST_TERMS + 1 - len;
    let tail = match random.below(4) {
        0 => room,
        1 => room + 1,
        2 => 1 + up_to(random, 3),
        _ => up_to(random, room + 10),
    };
    (len, tail)
}

/// A divisor whose lead has exponents of 60 alone, with a tail of so many terms below it, where there
/// are so many; sometimes one exponent of the lead is 59, so that multiples of the tail are over 127.
fn large_divisor(random: &mut Random, (order, n, p): Setting, tail: usize) -> Vec<Term> {
    let mut lead = vec![TOP; n];
    if random.below(4) == 0 {
        lead[up_to(random, n - 1)] -= 1;
    }
    let mut found = BTreeSet::new();
    for _ in 0..4 * tail {
        let below = monomial(random, n, TOP);
        if found.len() < tail && order.compare(&below, &lead).is_lt() {
            found.insert(below);
        }
    }
    found.insert(lead);
    let monomials = falling(order, found.into_iter().collect());
    with_coefs(random, p, monomials)
}

/// Polynomials of any numbers, mostly of no use.
pub fn anything(random: &mut Random) -> Given {
    let number = |random: &mut Random, good: &[u32]| match random.below(8) {
        0 => random.word() as u32,
        _ => random.pick(good),
    };
    let mut words = |most| -> Vec<u64> {
        let count = up_to(random, most);
        let any = |random: &mut Random| random.word() >> (8 * random.below(8));
        (0..count).map(|_| any(random)).collect()
    };
    let (starts, coefs, words) = (words(4), words(5), words(5));
    let six = (0..6).map(|_| number(random, &[1, 1, 1, 1, 1, 16]));
    let numbers = Numbers {
        weights: six.collect(),
        p: number(random, &[2, 7, 65_537, LARGEST_PRIME]),
        order: number(random, &[1, 2, 3]),
        n: number(random, &[1, 2, 6]),
    };
    Given {
        numbers,
        words,
        coefs: coefs.into_iter().map(|c| c as u32).collect(),
        starts: starts.into_iter().map(|s| s as usize).collect(),
    }
}
