//! The opening checks that runs and reductions share, in plain Rust.
use crate::geobucket::Memory;
use crate::given::Given;
use crate::lists::{deg_rev_lex_key, lex_key, List, Terms};
use damselbuckle::{BUCKET_PLACES, LARGEST_PRIME, WORK_PLACES};

/// The degree of a word, and the exponents of all six fields.
const DEGREE: u64 = 0xffff << 48;
const EXPONENTS: u64 = 0x7f7f_7f7f_7f7f;

/// Every other field.
const EVEN: u64 = 0x00ff_00ff_00ff;

/// What a word is judged by: the bits that it may have, and the weights of every other field, from the lowest
/// and from the next on. The weight of the highest of three stands lowest.
#[derive(Clone, Copy)]
pub(crate) struct Layout {
    allowed: u64,
    even: u64,
    odd: u64,
}

impl Layout {
    pub(crate) fn new(first_below: bool, n: u32, weights: [u32; 6]) -> Self {
        let mut by_field = weights.map(u64::from);
        if !first_below {
            by_field.reverse();
        }
        let [a, b, c, d, e, f] = by_field;
        Layout {
            allowed: DEGREE | exponents(first_below, n),
            even: e | c << 16 | a << 32,
            odd: f | d << 16 | b << 32,
        }
    }

    /// Whether a word is of the layout: its degree is the sum of its fields times their weights. Each product
    /// has that of three fields in its third part, and no part goes over to the next.
    #[inline(always)]
    pub(crate) fn has(self, word: u64) -> bool {
        let even = (word & EVEN).wrapping_mul(self.even) >> 32;
        let odd = (word >> 8 & EVEN).wrapping_mul(self.odd) >> 32;
        word & !self.allowed == 0 && word >> 48 == (even + odd) & 0xffff
    }
}

/// The refusals of the prime, of the number of variables and of the weights, or 0.
pub fn setting_refusal(given: &Given) -> u64 {
    if given.p > LARGEST_PRIME || !is_prime(given.p) {
        return 1;
    }
    match given.n {
        1..=6 => weights_refusal(given.n, given.weights),
        _ => 3,
    }
}

/// The refusal of the weights in n variables, or 0.
pub(crate) fn weights_refusal(n: u32, weights: [u32; 6]) -> u64 {
    let (own, beyond) = weights.split_at(n as usize);
    let good = own.iter().all(|w| (1..=16).contains(w)) && beyond.iter().all(|&w| w == 1);
    if good {
        0
    } else {
        24
    }
}

/// The refusal of the first polynomial that has one, or 0, by words that are compared by a key.
/// `first_below` says that the field of x1 is the lowest.
#[inline(always)]
pub fn polynomials_refusal(
    key: impl Fn(u64) -> u64 + Copy,
    first_below: bool,
    given: &Given,
) -> u64 {
    let layout = Layout::new(first_below, given.n, given.weights);
    for k in 0..given.count() {
        let terms = given.polynomial(k);
        if !polynomial_good(key, given.p, layout, terms) {
            return polynomial_refusal(given.p, layout, terms);
        }
    }
    0
}

/// Whether p is prime, by division by 2, by 3 and by the numbers on both sides of each multiple of 6, up to
/// the root.
pub(crate) fn is_prime(p: u32) -> bool {
    if p < 5 || p % 2 == 0 || p % 3 == 0 {
        return p == 2 || p == 3;
    }
    let mut d = 5;
    while u64::from(d) * u64::from(d) <= u64::from(p) {
        if p % d == 0 || p % (d + 2) == 0 {
            return false;
        }
        d += 6;
    }
    true
}

/// The bits of the exponents of n variables.
fn exponents(first_below: bool, n: u32) -> u64 {
    let unused = 8 * (6 - n);
    if first_below {
        EXPONENTS >> unused
    } else {
        EXPONENTS >> unused << unused
    }
}

/// Whether the lists and the spaces have the right lengths, and the starts are good.
pub fn sizes_good(given: &Given, memory: &Memory, output: &List) -> bool {
    let lens = |list: &List| (list.words.len(), list.coefs.len());
    let (words, coefs) = lens(&given.terms);
    let starts = &given.starts;
    words == coefs
        && output.words.len() == output.coefs.len()
        && lens(&memory.space) == (BUCKET_PLACES, BUCKET_PLACES)
        && lens(&memory.work) == (WORK_PLACES, WORK_PLACES)
        && starts.first() == Some(&0)
        && starts.last() == Some(&words)
        && starts.windows(2).all(|pair| pair[0] <= pair[1])
}

/// The refusal of one polynomial, or 0, by the order's number, which is good, as n and the weights are.
pub(crate) fn refusal_of_one(order: u32, n: u32, weights: [u32; 6], p: u32, terms: Terms) -> u64 {
    let layout = Layout::new(order == 3, n, weights);
    let good = match order {
        1 => polynomial_good(lex_key, p, layout, terms),
        2 => polynomial_good(|w| w, p, layout, terms),
        _ => polynomial_good(deg_rev_lex_key, p, layout, terms),
    };
    if good {
        0
    } else {
        polynomial_refusal(p, layout, terms)
    }
}

/// Whether a polynomial is not refused. There is no branch on the terms.
#[inline(always)]
fn polynomial_good(
    key: impl Fn(u64) -> u64,
    p: u32,
    layout: Layout,
    (words, coefs): Terms,
) -> bool {
    let mut good = true;
    for (&word, &coef) in words.iter().zip(coefs) {
        good &= coef.wrapping_sub(1) < p - 1;
        good &= layout.has(word);
    }
    for pair in words.windows(2) {
        good &= key(pair[0]) > key(pair[1]);
    }
    good
}

/// The refusal of a polynomial that has one.
fn polynomial_refusal(p: u32, layout: Layout, (words, coefs): Terms) -> u64 {
    for (&word, &coef) in words.iter().zip(coefs) {
        if coef == 0 || coef >= p {
            return 4;
        }
        if !layout.has(word) {
            return 5;
        }
    }
    6
}
