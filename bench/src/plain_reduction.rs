//! A reduction in plain Rust: the opening checks, the steps on the geobucket of `geobucket`, and
//! settling, with the order taken out of the loops. The buckets hold keys, which are compared as
//! numbers; they become words again when they leave.
use crate::geobucket::{add_by, lead_by, settle, Geobucket, Lead, Memory, Plain, BUCKETS};
use crate::given::Given;
use crate::lists::{deg_rev_lex_key, lex_key, List, Order, Terms};
use crate::plain_opening::{polynomials_refusal, setting_refusal, sizes_good};
use crate::results::ReductionResult;
use damselbuckle::{MOST_STEPS, MOST_TERMS};
use std::marker::PhantomData;

/// The six fields of a word, and the top bit of each.
const FIELDS: u64 = 0xffff_ffff_ffff;
const TOPS: u64 = 0x8080_8080_8080;

/// How words become keys and back, and what a key grows by when its word is multiplied.
trait Keys {
    /// Whether the field of x1 is the lowest.
    const FIRST_BELOW: bool;
    fn key(word: u64) -> u64;
    fn word(key: u64) -> u64;
    fn growth(quotient: u64) -> u64;
}

struct LexKeys;
struct DegRevLexKeys;

impl Keys for LexKeys {
    const FIRST_BELOW: bool = false;

    #[inline(always)]
    fn key(word: u64) -> u64 {
        lex_key(word)
    }

    #[inline(always)]
    fn word(key: u64) -> u64 {
        key.rotate_right(16)
    }

    #[inline(always)]
    fn growth(quotient: u64) -> u64 {
        lex_key(quotient)
    }
}

impl Keys for DegRevLexKeys {
    const FIRST_BELOW: bool = true;

    #[inline(always)]
    fn key(word: u64) -> u64 {
        deg_rev_lex_key(word)
    }

    #[inline(always)]
    fn word(key: u64) -> u64 {
        deg_rev_lex_key(key)
    }

    /// The degree grows, and the inverted fields fall.
    #[inline(always)]
    fn growth(quotient: u64) -> u64 {
        (quotient & !FIELDS).wrapping_sub(quotient & FIELDS)
    }
}

/// Keys are compared as they are.
#[inline(always)]
fn same(key: u64) -> u64 {
    key
}

/// Does a reduction. The tally of one that is refused at the opening is 0.
pub fn reduce(
    order: Order,
    given: &Given,
    limit: u64,
    memory: &mut Memory,
    output: &mut List,
) -> ReductionResult {
    match order {
        Order::Lex => reduce_by::<LexKeys>(given, limit, memory, output),
        Order::DegRevLex => reduce_by::<DegRevLexKeys>(given, limit, memory, output),
    }
}

fn reduce_by<K: Keys>(
    given: &Given,
    limit: u64,
    memory: &mut Memory,
    output: &mut List,
) -> ReductionResult {
    let refusal = opening::<K>(given, limit, memory, output);
    if refusal != 0 {
        return ReductionResult {
            refusal,
            ..ReductionResult::default()
        };
    }
    Plain::empty(memory);
    let mut reduction = Reduction::<K>::new(given, memory, output);
    let mut result = reduction.steps(given.polynomial(0), limit);
    result.given = result.terms;
    result.held = memory.held() as u64;
    settle(memory);
    if result.held > 0 {
        words_again::<K>(&mut memory.space);
    }
    result
}

/// Makes words of the keys, which are where the coefficient is not 0.
fn words_again<K: Keys>(space: &mut List) {
    for (word, &coef) in space.words.iter_mut().zip(&space.coefs) {
        if coef != 0 {
            *word = K::word(*word);
        }
    }
}

/// The opening checks but that of the order: the refusal, or 0.
fn opening<K: Keys>(given: &Given, limit: u64, memory: &Memory, output: &List) -> u64 {
    let refusal = setting_refusal(given);
    if refusal != 0 {
        return refusal;
    }
    if !sizes_good(given, memory, output) || limit > MOST_STEPS || given.count() == 0 {
        return 8;
    }
    match polynomials_refusal(K::key, K::FIRST_BELOW, given) {
        0 if given.starts[1..].windows(2).any(|pair| pair[0] == pair[1]) => 7,
        refusal => refusal,
    }
}

/// What is worked out once for a divisor.
struct Divisor<'a> {
    lead: u64,
    /// The largest exponent of the tail in each field.
    largest: u64,
    /// -1 divided by the lead coefficient.
    inverse: Factor,
    tail: Terms<'a>,
}

impl<'a> Divisor<'a> {
    fn new(modulus: Modulus, (words, coefs): Terms<'a>) -> Self {
        let larger = |so_far, &word: &u64| larger_fields(so_far, word & FIELDS);
        Divisor {
            lead: words[0],
            largest: words[1..].iter().fold(0, larger),
            inverse: modulus.factor(modulus.p - inverse(coefs[0], modulus.p)),
            tail: (&words[1..], &coefs[1..]),
        }
    }
}

/// The larger exponent in each field of two words without degree.
fn larger_fields(a: u64, b: u64) -> u64 {
    let at_least = ((a | TOPS) - b) & TOPS;
    let mask = (at_least >> 7) * 0xff;
    (a & mask) | (b & !mask)
}

/// The inverse modulo the prime p, by Euclid.
fn inverse(a: u32, p: u32) -> u32 {
    let (mut r, mut next) = (i64::from(p), i64::from(a));
    let (mut s, mut next_s) = (0, 1);
    while next != 0 {
        let q = r / next;
        (r, next) = (next, r - q * next);
        (s, next_s) = (next_s, s - q * next_s);
    }
    s.rem_euclid(i64::from(p)) as u32
}

/// A prime, and 2^64 - 1 divided by it.
#[derive(Clone, Copy)]
struct Modulus {
    p: u32,
    whole: u64,
}

impl Modulus {
    fn new(p: u32) -> Self {
        let whole = u64::MAX / u64::from(p);
        Modulus { p, whole }
    }

    #[inline(always)]
    fn factor(self, value: u32) -> Factor {
        let share = (u128::from(value) * u128::from(self.whole)) >> 32;
        Factor {
            value,
            share: share as u32,
        }
    }
}

/// A number below p, and 2^32 times it divided by p, or 1 less: since p is below 2^31, Shoup's product is
/// still below 2p.
#[derive(Clone, Copy)]
struct Factor {
    value: u32,
    share: u32,
}

impl Factor {
    #[inline(always)]
    fn times(self, x: u32, p: u32) -> u32 {
        let quotient = (u64::from(self.share) * u64::from(x)) >> 32;
        let product = u64::from(self.value) * u64::from(x);
        let rest = product.wrapping_sub(quotient * u64::from(p)) as u32;
        rest.min(rest.wrapping_sub(p))
    }
}

/// A reduction past the opening checks.
struct Reduction<'a, K> {
    keys: PhantomData<K>,
    modulus: Modulus,
    /// The lead words of the divisors without degree, which are searched at each step.
    leads: Vec<u64>,
    divisors: Vec<Divisor<'a>>,
    memory: &'a mut Memory,
    output: &'a mut List,
    /// Places for a multiple of a tail.
    product: List,
}

impl<'a, K: Keys> Reduction<'a, K> {
    fn new(given: &'a Given, memory: &'a mut Memory, output: &'a mut List) -> Self {
        let divisors = || (1..given.count()).map(|k| given.polynomial(k));
        let modulus = Modulus::new(given.p);
        Reduction {
            keys: PhantomData,
            modulus,
            leads: divisors().map(|(words, _)| words[0] & FIELDS).collect(),
            divisors: divisors().map(|f| Divisor::new(modulus, f)).collect(),
            memory,
            output,
            product: List::of(MOST_TERMS),
        }
    }

    /// Adds f and does the steps. The terms given out and held are not counted.
    fn steps(&mut self, f: Terms, limit: u64) -> ReductionResult {
        let mut result = ReductionResult::default();
        if f.0.len() > MOST_TERMS {
            result.refusal = 11;
            return result;
        }
        self.add(1, 0, f, &mut result);
        loop {
            let mut lead = lead_by(same, self.modulus.p, self.memory);
            result.comparisons += lead.comparisons;
            if lead.bucket == BUCKETS {
                return result;
            }
            lead.word = K::word(lead.word);
            result.refusal = match result.leads == limit {
                true => 13,
                false => self.step(lead, &mut result),
            };
            if result.refusal != 0 {
                return result;
            }
            result.leads += 1;
        }
    }

    /// Divides the lead or puts it to the remainder: the refusal, or 0.
    #[inline(always)]
    fn step(&mut self, lead: Lead, result: &mut ReductionResult) -> u64 {
        let fields = (lead.word & FIELDS) | TOPS;
        let fits = |&own: &u64| (fields - own) & TOPS == TOPS;
        match self.leads.iter().position(fits) {
            Some(k) => self.divide(lead, k, result),
            None => self.put(lead, result),
        }
    }

    #[inline(always)]
    fn put(&mut self, lead: Lead, result: &mut ReductionResult) -> u64 {
        let place = result.terms as usize;
        if place == self.output.words.len() {
            return 10;
        }
        self.output.words[place] = lead.word;
        self.output.coefs[place] = lead.coef;
        result.terms += 1;
        Plain::take(self.memory, lead.bucket);
        0
    }

    #[inline(always)]
    fn divide(&mut self, lead: Lead, k: usize, result: &mut ReductionResult) -> u64 {
        let divisor = &self.divisors[k];
        let (tail, quotient) = (divisor.tail, lead.word - divisor.lead);
        if (divisor.largest + (quotient & FIELDS)) & TOPS != 0 {
            return 12;
        }
        if self.memory.held() - 1 + tail.0.len() > MOST_TERMS {
            return 11;
        }
        let factor = divisor.inverse.times(lead.coef, self.modulus.p);
        Plain::take(self.memory, lead.bucket);
        self.add(factor, quotient, tail, result);
        0
    }

    /// Adds each term times factor·quotient.
    #[inline(always)]
    fn add(&mut self, factor: u32, quotient: u64, f: Terms, result: &mut ReductionResult) {
        let len = f.0.len();
        multiply::<K>(self.modulus, factor, quotient, f, &mut self.product);
        let product = (&self.product.words[..len], &self.product.coefs[..len]);
        result.comparisons += add_by(same, self.modulus.p, self.memory, product);
        result.brought += len as u64;
    }
}

/// Puts the key and the coefficient of each term times factor·quotient into the first of some places.
#[inline(always)]
fn multiply<K: Keys>(
    modulus: Modulus,
    factor: u32,
    quotient: u64,
    (words, coefs): Terms,
    to: &mut List,
) {
    let (growth, factor) = (K::growth(quotient), modulus.factor(factor));
    for (out, &word) in to.words.iter_mut().zip(words) {
        *out = K::key(word).wrapping_add(growth);
    }
    for (out, &coef) in to.coefs.iter_mut().zip(coefs) {
        *out = factor.times(coef, modulus.p);
    }
}
