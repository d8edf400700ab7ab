//! The proved functions, through the static library `probe`.
use crate::c_functions::{self, probe_merge_areas, Checking, Places};
use crate::monomial::{Order, LIMIT};
use crate::residue;
use std::cmp::Ordering;

/// The answer on words that are not taken.
pub const REFUSED: u64 = u64::MAX;

/// The answer on numbers or moduli that are not taken.
pub const REFUSED_RESIDUE: u32 = u32::MAX;

/// The answer for an exponent past the sixth.
pub const NO_EXPONENT: u32 = 256;

/// The answer of `divides` on words that are not packed.
pub const NOT_PACKED: u32 = 2;

/// The answers of `check` and of `check_on` for over 6 variables, unequal lengths, another number of weights
/// than six or a weight over 16.
pub const NOT_CHECKED: u32 = u32::MAX;
pub const NOT_CHECKED_ON: Checking = Checking {
    stop: NOT_CHECKED,
    late: 0,
    seen: false,
    last: 0,
};

/// The answers for a word and a coefficient that a part does not have.
pub const NO_WORD: u64 = u64::MAX;
pub const NO_COEF: u32 = u32::MAX;

extern "C" {
    fn probe_key(order: u32, w: u64) -> u64;
    fn probe_word(order: u32, key: u64) -> u64;
    fn probe_compare(order: u32, x: u64, y: u64) -> u32;
    fn probe_in_layout(order: u32, n: u32, weights: *const u32, weights_len: usize, w: u64)
        -> bool;
    fn probe_divides(y: u64, x: u64) -> u32;
    fn probe_quotient(x: u64, y: u64) -> u64;
    fn probe_word_of(
        order: u32,
        weights: *const u32,
        weights_len: usize,
        exponents: *const u8,
        len: usize,
    ) -> u64;
    fn probe_exponent(order: u32, w: u64, i: u32) -> u32;
    fn probe_add(a: u32, b: u32, p: u32) -> u32;
    fn probe_negate(a: u32, p: u32) -> u32;
    fn probe_multiply_residues(a: u32, b: u32, p: u32) -> u32;
    fn probe_factor_times(a: u32, b: u32, p: u32) -> u32;
    fn probe_invert(a: u32, p: u32) -> u32;
    fn probe_starts_good(starts: *const usize, starts_len: usize, len: usize) -> bool;
    fn probe_part_word(
        words: *const u64,
        words_len: usize,
        starts: *const usize,
        starts_len: usize,
        k: usize,
        i: usize,
    ) -> u64;
    fn probe_part_coef(
        coefs: *const u32,
        coefs_len: usize,
        starts: *const usize,
        starts_len: usize,
        k: usize,
        i: usize,
    ) -> u32;
    fn probe_any_over(q: u64, words: *const u64, words_len: usize) -> bool;
    fn probe_put_multiple(
        order: u32,
        p: u32,
        c: u32,
        q: u64,
        words: *const u64,
        words_len: usize,
        coefs: *const u32,
        coefs_len: usize,
        ow: *mut u64,
        ow_len: usize,
        oc: *mut u32,
        oc_len: usize,
        to: usize,
    );
}

// SAFETY of each call below: the function takes every number, or those that are tested first, stays
// within the length of each slice, and keeps no reference.

pub fn key(order: Order, w: u64) -> u64 {
    unsafe { probe_key(order.number(), w) }
}

/// The word that has a key.
pub fn word(order: Order, key: u64) -> u64 {
    unsafe { probe_word(order.number(), key) }
}

/// The keys of words.
pub fn keys(order: Order, words: &[u64]) -> Vec<u64> {
    words.iter().map(|&w| key(order, w)).collect()
}

/// Turns keys into words.
pub fn make_words(order: Order, keys: &mut [u64]) {
    keys.iter_mut().for_each(|k| *k = word(order, *k));
}

pub fn compare(order: Order, x: u64, y: u64) -> Ordering {
    match unsafe { probe_compare(order.number(), x, y) } {
        0 => Ordering::Less,
        1 => Ordering::Equal,
        2 => Ordering::Greater,
        other => panic!("probe_compare gave {other}"),
    }
}

pub fn in_layout(order: Order, n: u32, w: u64) -> bool {
    in_layout_by(order, n, &order.weights, w)
}

/// The same by any weights, in place of the order's own.
pub fn in_layout_by(order: Order, n: u32, weights: &[u32], w: u64) -> bool {
    unsafe { probe_in_layout(order.number(), n, weights.as_ptr(), weights.len(), w) }
}

pub fn divides(y: u64, x: u64) -> u32 {
    unsafe { probe_divides(y, x) }
}

pub fn quotient(x: u64, y: u64) -> u64 {
    unsafe { probe_quotient(x, y) }
}

pub fn word_of(order: Order, exponents: &[u8]) -> u64 {
    word_by(order, &order.weights, exponents)
}

/// The same by any weights, in place of the order's own.
pub fn word_by(order: Order, weights: &[u32], exponents: &[u8]) -> u64 {
    let (v, v_len) = (weights.as_ptr(), weights.len());
    unsafe {
        probe_word_of(
            order.number(),
            v,
            v_len,
            exponents.as_ptr(),
            exponents.len(),
        )
    }
}

pub fn exponent(order: Order, w: u64, i: u32) -> u32 {
    unsafe { probe_exponent(order.number(), w, i) }
}

pub fn is_prime(p: u32) -> bool {
    c_functions::is_prime(p)
}

pub fn add(a: u32, b: u32, p: u32) -> u32 {
    unsafe { probe_add(a, b, p) }
}

pub fn negate(a: u32, p: u32) -> u32 {
    unsafe { probe_negate(a, p) }
}

pub fn multiply_residues(a: u32, b: u32, p: u32) -> u32 {
    unsafe { probe_multiply_residues(a, b, p) }
}

pub fn factor_times(a: u32, b: u32, p: u32) -> u32 {
    unsafe { probe_factor_times(a, b, p) }
}

pub fn invert(a: u32, p: u32) -> u32 {
    unsafe { probe_invert(a, p) }
}

/// A lent polynomial: words and coefficients.
pub type Lent<'a> = (&'a [u64], &'a [u32]);

/// A lent output.
pub type LentMut<'a> = (&'a mut [u64], &'a mut [u32]);

/// What every merge and multiple asks of a modulus and a polynomial.
fn ask_polynomial(p: u32, (words, coefs): Lent) {
    assert!((2..=residue::LIMIT).contains(&p), "not a modulus");
    assert_eq!(words.len(), coefs.len());
    assert!(coefs.iter().all(|c| (1..p).contains(c)), "not reduced");
}

/// The same of a polynomial with keys for words, which must fall.
pub(crate) fn ask_keys(p: u32, (keys, coefs): Lent) {
    ask_polynomial(p, (keys, coefs));
    assert!(keys.windows(2).all(|k| k[0] > k[1]), "not falling");
}

/// That two stretches of places, each a first place and a length, have none in common.
pub(crate) fn ask_apart((a, n): (usize, usize), (b, m): (usize, usize)) {
    assert!(a + n <= b || b + m <= a, "not apart");
}

/// That `len` places from `from` on are within `size`.
fn ask_room(from: usize, len: usize, size: usize) {
    assert!(from.checked_add(len).is_some_and(|end| end <= size));
}

/// What word arithmetic asks: no field's top bit is set, and bit 63 is not.
fn ask_packed(w: u64) {
    let fields = Order::DEG_REV_LEX.fields(w);
    assert!(w >> 63 == 0 && fields.iter().all(|&e| e <= LIMIT));
}

pub fn check(order: Order, n: u32, p: u32, terms: Lent) -> u32 {
    c_functions::check((order.number(), n, &order.weights, p), terms)
}

/// Carries the check of a polynomial on over a further piece of it.
pub fn check_on(order: Order, n: u32, p: u32, terms: Lent, from: Checking) -> Checking {
    c_functions::check_on((order.number(), n, &order.weights, p), terms, from)
}

pub fn starts_good(starts: &[usize], len: usize) -> bool {
    unsafe { probe_starts_good(starts.as_ptr(), starts.len(), len) }
}

/// Word i of polynomial k.
pub fn part_word(words: &[u64], starts: &[usize], k: usize, i: usize) -> u64 {
    let (from, len) = (starts.as_ptr(), starts.len());
    unsafe { probe_part_word(words.as_ptr(), words.len(), from, len, k, i) }
}

/// Coefficient i of polynomial k.
pub fn part_coef(coefs: &[u32], starts: &[usize], k: usize, i: usize) -> u32 {
    let (from, len) = (starts.as_ptr(), starts.len());
    unsafe { probe_part_coef(coefs.as_ptr(), coefs.len(), from, len, k, i) }
}

/// Merges two polynomials of the work space, each a first place and its terms, with keys for words, to
/// the places from `to` on.
pub fn merge_areas(p: u32, (ww, wc): LentMut, lists: [(usize, usize); 2], to: usize) -> Places {
    let [(a, n), (b, m)] = lists;
    assert_eq!(ww.len(), wc.len());
    ask_room(to, n + m, ww.len());
    for (from, len) in lists {
        assert!(len > 0, "an empty list");
        ask_room(from, len, ww.len());
        ask_keys(p, (&ww[from..from + len], &wc[from..from + len]));
        ask_apart((from, len), (to, n + m));
    }
    let ((words, words_len), (coefs, coefs_len)) =
        ((ww.as_mut_ptr(), ww.len()), (wc.as_mut_ptr(), wc.len()));
    unsafe { probe_merge_areas(p, words, words_len, coefs, coefs_len, a, n, b, m, to) }
}

/// Whether a product of the monomial q with one of the words has an exponent over 127.
pub fn any_over(q: u64, words: &[u64]) -> bool {
    ask_packed(q);
    words.iter().for_each(|&w| ask_packed(w));
    unsafe { probe_any_over(q, words.as_ptr(), words.len()) }
}

/// Puts the polynomial times c·q modulo p, with keys for words, into the output from `to` on.
pub fn put_multiple(
    (order, p): (Order, u32),
    (c, q): (u32, u64),
    f: Lent,
    (ow, oc): LentMut,
    to: usize,
) {
    ask_polynomial(p, f);
    assert!(c < p, "not below the modulus");
    ask_packed(q);
    f.0.iter().for_each(|&w| ask_packed(w));
    ask_room(to, f.0.len(), ow.len());
    ask_room(to, f.0.len(), oc.len());
    unsafe {
        probe_put_multiple(
            order.number(),
            p,
            c,
            q,
            f.0.as_ptr(),
            f.0.len(),
            f.1.as_ptr(),
            f.1.len(),
            ow.as_mut_ptr(),
            ow.len(),
            oc.as_mut_ptr(),
            oc.len(),
            to,
        )
    }
}
