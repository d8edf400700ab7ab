//! Polynomials as falling lists of terms by their exponents: the sum, the published merge with its
//! comparisons, the multiple by a term, and the opening check (document 01, "Terms", "Buckets" and
//! "Refusals by cause").
use crate::monomial::{product, Order};
use crate::residue;
use std::cmp::Ordering;
use std::collections::BTreeMap;
use std::ops::Range;

/// A monomial by its exponents, and a coefficient.
pub type Term = (Vec<u8>, u32);

/// The words and the coefficients of some terms, as they are lent.
pub fn lent(order: Order, terms: &[Term]) -> (Vec<u64>, Vec<u32>) {
    terms.iter().map(|(m, c)| (order.word(m), *c)).unzip()
}

/// The sum of two polynomials: the coefficients of each monomial are added modulo p, and what is
/// not 0 is written out falling.
pub fn sum(order: Order, p: u32, a: &[Term], b: &[Term]) -> Vec<Term> {
    let mut coefs: BTreeMap<&[u8], u32> = BTreeMap::new();
    for (m, c) in a.iter().chain(b) {
        let coef = coefs.entry(m).or_insert(0);
        *coef = residue::add(*coef, *c, p);
    }
    let not_zero = coefs.into_iter().filter(|&(_, c)| c != 0);
    let mut terms: Vec<Term> = not_zero.map(|(m, c)| (m.to_vec(), c)).collect();
    terms.sort_by(|(x, _), (y, _)| order.compare(y, x));
    terms
}

/// The published merge, step by step, and how many comparisons it makes: while neither list is used
/// up, one comparison puts the larger lead into the result, or, for like terms, their sum unless it
/// is 0. The list that still has terms then gives its rest.
pub fn merge(order: Order, p: u32, a: &[Term], b: &[Term]) -> (Vec<Term>, u64) {
    let (mut a, mut b) = (a, b);
    let mut result = Vec::new();
    let mut comparisons = 0;
    while let ([x, a_rest @ ..], [y, b_rest @ ..]) = (a, b) {
        comparisons += 1;
        match order.compare(&x.0, &y.0) {
            Ordering::Greater => {
                result.push(x.clone());
                a = a_rest;
            }
            Ordering::Less => {
                result.push(y.clone());
                b = b_rest;
            }
            Ordering::Equal => {
                let coef = residue::add(x.1, y.1, p);
                if coef != 0 {
                    result.push((x.0.clone(), coef));
                }
                a = a_rest;
                b = b_rest;
            }
        }
    }
    result.extend_from_slice(a);
    result.extend_from_slice(b);
    (result, comparisons)
}

/// Each term times c·q modulo p, where no product has an exponent over 127.
pub fn multiple(p: u32, c: u32, q: &[u8], terms: &[Term]) -> Option<Vec<Term>> {
    let times = |(m, d): &Term| Some((product(q, m)?, residue::multiply(c, *d, p)));
    terms.iter().map(times).collect()
}

/// The refusal of a lent polynomial in n variables, 0 for none: the first place with 4 or 5; then 6.
pub fn refusal(order: Order, n: usize, p: u32, words: &[u64], coefs: &[u32]) -> u32 {
    for (&word, &coef) in words.iter().zip(coefs) {
        let refusal = term_refusal(order, n, p, word, coef);
        if refusal != 0 {
            return refusal;
        }
    }
    match falls(order, words) {
        true => 0,
        false => 6,
    }
}

/// The refusal of one term, 0 for none: 4 for its coefficient, and then 5 for its word.
pub fn term_refusal(order: Order, n: usize, p: u32, word: u64, coef: u32) -> u32 {
    if coef == 0 || coef >= p {
        4
    } else if !order.in_layout(n, word) {
        5
    } else {
        0
    }
}

/// Whether each word, all of the layout, is larger than the next, by their exponents.
pub fn falls(order: Order, words: &[u64]) -> bool {
    let larger = |x: u64, y: u64| order.compare(&order.fields(x), &order.fields(y)).is_gt();
    words.windows(2).all(|pair| larger(pair[0], pair[1]))
}

/// Whether the first start is 0, the last is the length, and none falls.
pub fn starts_good(starts: &[usize], len: usize) -> bool {
    starts.first() == Some(&0)
        && starts.last() == Some(&len)
        && starts.windows(2).all(|pair| pair[0] <= pair[1])
}

/// The places of polynomial k, where both of its starts are there, rise, and end within the length.
pub fn part(starts: &[usize], k: usize, len: usize) -> Option<Range<usize>> {
    let from = *starts.get(k)?;
    let to = *starts.get(k.checked_add(1)?)?;
    (from <= to && to <= len).then_some(from..to)
}
