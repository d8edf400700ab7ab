//! Random falling lists of terms.
use crate::random::Random;

/// Words and coefficients.
#[derive(Clone, Default, PartialEq, Eq)]
pub struct List {
    pub words: Vec<u64>,
    pub coefs: Vec<u32>,
}

/// The words and coefficients of some terms, and of places for terms.
pub type Terms<'a> = (&'a [u64], &'a [u32]);
pub type Places<'a> = (&'a mut [u64], &'a mut [u32]);

impl List {
    /// A list of so many places.
    pub fn of(places: usize) -> Self {
        List {
            words: vec![0; places],
            coefs: vec![0; places],
        }
    }

    pub fn terms(&self) -> Terms<'_> {
        (&self.words, &self.coefs)
    }

    pub fn places(&mut self) -> Places<'_> {
        (&mut self.words, &mut self.coefs)
    }
}

#[derive(Clone, Copy, Debug, PartialEq, Eq)]
pub enum Order {
    Lex,
    DegRevLex,
}

impl Order {
    pub fn name(self) -> &'static str {
        match self {
            Order::Lex => "lp",
            Order::DegRevLex => "dp",
        }
    }

    pub fn number(self) -> u32 {
        match self {
            Order::Lex => 1,
            Order::DegRevLex => 3,
        }
    }

    /// The number by which words are compared.
    pub fn key(self, w: u64) -> u64 {
        match self {
            Order::Lex => lex_key(w),
            Order::DegRevLex => deg_rev_lex_key(w),
        }
    }

    /// The word that has a key.
    pub fn word_of_key(self, key: u64) -> u64 {
        match self {
            Order::Lex => key.rotate_right(16),
            Order::DegRevLex => deg_rev_lex_key(key),
        }
    }

    /// The word of six exponents.
    fn word(self, exponents: [u8; 6]) -> u64 {
        let mut word = 0;
        for (k, e) in exponents.into_iter().enumerate() {
            let shift = match self {
                Order::Lex => 40 - 8 * k,
                Order::DegRevLex => 8 * k,
            };
            word += (u64::from(e) << 48) + (u64::from(e) << shift);
        }
        word
    }
}

/// The fields above the degree.
#[inline(always)]
pub fn lex_key(w: u64) -> u64 {
    w.rotate_left(16)
}

/// The degree above the inverted fields.
#[inline(always)]
pub fn deg_rev_lex_key(w: u64) -> u64 {
    w ^ 0xffff_ffff_ffff
}

/// Words with any exponents.
pub fn words(random: &mut Random, order: Order, len: usize) -> Vec<u64> {
    let exponent = |random: &mut Random| random.below(128) as u8;
    let word = |_| order.word(std::array::from_fn(|_| exponent(random)));
    (0..len).map(word).collect()
}

/// Falling words, each once, with random coefficients.
pub fn list(random: &mut Random, order: Order, p: u32, mut words: Vec<u64>) -> List {
    words.sort_unstable_by_key(|&w| std::cmp::Reverse(order.key(w)));
    words.dedup();
    let coef = |_| 1 + random.below(u64::from(p - 1)) as u32;
    let coefs = (0..words.len()).map(coef).collect();
    List { words, coefs }
}

/// Two lists of these lengths. Of a hundred terms of the shorter one, as many as `like` says have a
/// like term in the other.
pub fn pair(
    random: &mut Random,
    order: Order,
    p: u32,
    (short, long): (usize, usize),
    like: u64,
) -> (List, List) {
    let other = words(random, order, long);
    let b = list(random, order, p, other);
    let mut own = words(random, order, short);
    // The words of b, of which the first k are taken.
    let mut shared = b.words.clone();
    for (k, word) in own.iter_mut().enumerate() {
        if random.below(100) < like && k < shared.len() {
            let at = k + random.below((shared.len() - k) as u64) as usize;
            shared.swap(k, at);
            *word = shared[k];
        }
    }
    (list(random, order, p, own), b)
}
