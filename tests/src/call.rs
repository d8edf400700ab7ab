//! What runs and reductions share: the polynomials that they read, what they are lent, what they
//! answer, and the opening checks of these (document 01, "Terms" and "Refusals by cause"; document 02, 24).
use crate::limits::{BUCKET_PLACES, LARGEST_PRIME, LARGEST_WEIGHT, MOST_VARIABLES, WORK_PLACES};
use crate::monomial::{Order, FIELDS};
use crate::polynomial::{lent, part, refusal, starts_good, Term};
use crate::residue;

/// Words and coefficients of a space.
pub type Space = (Vec<u64>, Vec<u32>);

/// An order, a number of variables and a prime.
pub type Setting = (Order, usize, u32);

/// A prime, an order, a number of variables and weights as they are lent: any numbers, and any number of
/// weights.
#[derive(Clone, Debug, Default, PartialEq, Eq)]
pub struct Numbers {
    pub p: u32,
    pub order: u32,
    pub n: u32,
    pub weights: Vec<u32>,
}

impl Numbers {
    pub fn new((order, n, p): Setting) -> Self {
        Numbers {
            p,
            order: order.number(),
            n: n as u32,
            weights: order.weights.to_vec(),
        }
    }

    /// The order and the number of variables; or the refusal 1, 2, 3 or 24, or 8 for another number of
    /// weights than six.
    pub fn opened(&self) -> Result<(Order, usize), u64> {
        if self.p > LARGEST_PRIME || !residue::is_prime(self.p) {
            return Err(1);
        }
        let order = Order::ALL.into_iter().find(|o| o.number() == self.order);
        let order = order.ok_or(2_u64)?;
        let n = self.n as usize;
        if !(1..=MOST_VARIABLES).contains(&n) {
            return Err(3);
        }
        let (own, beyond) = self.weights.split_at(n.min(self.weights.len()));
        let good = own.iter().all(|w| (1..=LARGEST_WEIGHT).contains(w));
        if !good || beyond.iter().any(|&w| w != 1) {
            return Err(24);
        }
        let six = <[u32; FIELDS]>::try_from(&self.weights[..]);
        Ok((order.weighted(six.map_err(|_| 8_u64)?), n))
    }
}

/// Polynomials as they are lent, with their numbers: any lists.
#[derive(Clone, Debug, Default, PartialEq, Eq)]
pub struct Given {
    pub numbers: Numbers,
    pub words: Vec<u64>,
    pub coefs: Vec<u32>,
    pub starts: Vec<usize>,
}

#[derive(Clone, Copy, Debug, Default, PartialEq, Eq)]
pub struct Tally {
    pub comparisons: u64,
    pub brought: u64,
    pub given: u64,
    pub held: u64,
}

/// What a call is lent and sets: bucket space, work space, output and tally, with any contents.
#[derive(Clone, Debug, Default, PartialEq, Eq)]
pub struct Loan {
    pub space: Space,
    pub work: Space,
    pub output: Space,
    pub tally: Tally,
}

/// The refusal, 0 for none; the operations or leads finished; and the output places written, before the
/// refusal where there is one. A reduction writes a place for each term of the remainder.
#[derive(Clone, Copy, Debug, Default, PartialEq, Eq)]
pub struct Answer {
    pub refusal: u64,
    pub finished: u64,
    pub places: u64,
}

impl Answer {
    /// A refusal at the opening: nothing is done, and nothing written.
    pub fn at_opening(refusal: u64) -> Self {
        Answer {
            refusal,
            ..Answer::default()
        }
    }
}

impl Given {
    /// These polynomials, each behind the one before.
    pub fn new(setting: Setting, polynomials: &[Vec<Term>]) -> Self {
        let order = setting.0;
        let mut given = Given {
            numbers: Numbers::new(setting),
            starts: vec![0],
            ..Given::default()
        };
        for f in polynomials {
            let (words, coefs) = lent(order, f);
            given.words.extend(words);
            given.coefs.extend(coefs);
            given.starts.push(given.words.len());
        }
        given
    }

    /// Whether the lists and the spaces have the right lengths, and the starts are good.
    pub fn sizes_good(&self, loan: &Loan) -> bool {
        let lens = |(words, coefs): &Space| (words.len(), coefs.len());
        self.words.len() == self.coefs.len()
            && loan.output.0.len() == loan.output.1.len()
            && lens(&loan.space) == (BUCKET_PLACES, BUCKET_PLACES)
            && lens(&loan.work) == (WORK_PLACES, WORK_PLACES)
            && starts_good(&self.starts, self.words.len())
    }

    /// All polynomials by their exponents, or the refusal 4, 5 or 6 of the first that has one.
    pub fn polynomials(&self, (order, n): (Order, usize)) -> Result<Vec<Vec<Term>>, u64> {
        let count = self.starts.len() - 1;
        (0..count).map(|k| self.polynomial(order, n, k)).collect()
    }

    /// Polynomial k by its exponents, or its refusal.
    fn polynomial(&self, order: Order, n: usize, k: usize) -> Result<Vec<Term>, u64> {
        let places = part(&self.starts, k, self.words.len()).expect("the starts are good");
        let (words, coefs) = (&self.words[places.clone()], &self.coefs[places]);
        match refusal(order, n, self.numbers.p, words, coefs) {
            0 => Ok(terms(order, n, words, coefs)),
            number => Err(u64::from(number)),
        }
    }
}

/// The terms of words of the layout in n variables, by their exponents.
pub fn terms(order: Order, n: usize, words: &[u64], coefs: &[u32]) -> Vec<Term> {
    let monomials = words.iter().map(|&w| order.fields(w)[..n].to_vec());
    monomials.zip(coefs.iter().copied()).collect()
}
